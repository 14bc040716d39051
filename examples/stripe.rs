// SPDX-License-Identifier: Apache-2.0
//! Encodes a stripe, loses one disk and then two, and rebuilds them.

use cuzhaveli::{Refusal, Shape};

fn main() -> Result<(), Refusal> {
    let shape = Shape::new(7, 5, 512)?; // width, data disks, bytes of a cell

    // Encode: the film first, then P and Q, which the call writes.
    let film = (0..shape.data_len()).map(|i| (i * 31 + i / 512) as u8);
    let mut stripe: Vec<u8> = film.collect();
    stripe.resize(shape.stripe_len(), 0);
    shape.encode(&mut stripe)?;
    println!("clean: {}", if shape.is_clean(&stripe)? { "yes" } else { "no" });

    // One disk lost: read only the cells of the list; the rest may hold anything.
    let lost = 2;
    let list = shape.read_list(lost)?;
    let mut survivors = vec![0xEE; shape.stripe_len()];
    for (disk, rows) in list.runs() {
        for row in rows {
            let cell = shape.cell_range(row, disk);
            survivors[cell.clone()].copy_from_slice(&stripe[cell]);
        }
    }
    let mut column = vec![0; shape.column_len()];
    shape.rebuild_one(lost, &survivors, &mut column)?;
    let cells = shape.width() * (shape.disks() + 1);
    let right = column == stripe[shape.disk_range(lost)];
    println!("disk {lost} rebuilt from {} of {cells} cells: {}", list.len(), same(right));

    // Two disks lost: all others are read.
    let mut two = stripe.clone();
    two[shape.disk_range(0)].fill(0xEE);
    two[shape.disk_range(5)].fill(0xEE); // P, since there are 5 data disks
    shape.rebuild_two([0, 5], &mut two)?;
    println!("disks 0 and 5 rebuilt: {}", same(two == stripe));

    // What is out of the limits is refused, and nothing is touched.
    let refusal = shape.plan(7).unwrap_err();
    println!("disk 7 of 7: refused by {}", refusal.number());
    Ok(())
}

fn same(right: bool) -> &'static str {
    if right {
        "the same"
    } else {
        "another"
    }
}
