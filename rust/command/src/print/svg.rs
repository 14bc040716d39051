//! A plan's picture as SVG.

use std::fmt::Write;

use crate::print::picture::{Mark, Picture};

/// The side of a cell, and the room left of the first one and above it.
const SIDE: usize = 34;
const LEFT: usize = 44;
const TOP: usize = 70;

fn fill(mark: Mark) -> &'static str {
    match mark {
        Mark::Lost => "#d9534f",
        Mark::Row => "#9ec5e8",
        Mark::Diagonal => "#f3c677",
        Mark::Both => "#8fce9f",
        Mark::Unread => "#f4f4f4",
    }
}

/// Text at a place, its middle there or its start.
fn words(svg: &mut String, x: usize, y: usize, anchor: &str, text: &str) {
    let _ = writeln!(svg, r#"<text x="{x}" y="{y}" text-anchor="{anchor}">{text}</text>"#);
}

fn square(svg: &mut String, x: usize, y: usize, mark: Mark) {
    let (side, color) = (SIDE - 4, fill(mark));
    let _ = writeln!(
        svg,
        r##"<rect x="{x}" y="{y}" width="{side}" height="{side}" rx="4" fill="{color}" stroke="#888"/>"##
    );
    words(svg, x + side / 2, y + side / 2 + 5, "middle", &mark.letter().to_string());
}

/// The picture: a square for each cell, the set of each row beside it, what the colours mean below.
pub fn draw(picture: &Picture) -> String {
    let (p, disks) = (picture.shape.width(), picture.shape.disks() + 2);
    let width = (LEFT + disks * SIDE + 90).max(640); // the legend has 610
    let below = TOP + p * SIDE + 24; // where the shares end
    let height = below + 60;
    let mut svg = format!(
        "<svg xmlns=\"http://www.w3.org/2000/svg\" width=\"{width}\" height=\"{height}\" \
         font-family=\"sans-serif\" font-size=\"14\">\n\
         <rect width=\"{width}\" height=\"{height}\" fill=\"#fff\"/>\n"
    );
    words(&mut svg, 12, 24, "start", &picture.title());
    let middle = |disk: usize| LEFT + disk * SIDE + SIDE / 2 - 2;
    for (disk, share) in picture.shares().iter().enumerate() {
        words(&mut svg, middle(disk), TOP - 10, "middle", &picture.disk_name(disk));
        words(&mut svg, middle(disk), below - 6, "middle", share);
    }
    words(&mut svg, LEFT - 12, below - 6, "end", "read");
    words(&mut svg, LEFT + disks * SIDE + 12, below - 6, "start", &picture.most());
    for (row, (marks, set)) in picture.marks.iter().zip(&picture.sets).enumerate() {
        let y = TOP + row * SIDE;
        words(&mut svg, LEFT - 12, y + SIDE / 2 + 3, "end", &row.to_string());
        for (disk, mark) in marks.iter().enumerate() {
            square(&mut svg, LEFT + disk * SIDE, y, *mark);
        }
        words(&mut svg, LEFT + disks * SIDE + 12, y + SIDE / 2 + 3, "start", set);
    }
    let mut x = 12;
    for mark in Mark::ALL {
        square(&mut svg, x, below + 14, mark);
        words(&mut svg, x + SIDE + 2, below + 34, "start", mark.meaning());
        x += SIDE + 20 + 7 * mark.meaning().len();
    }
    svg + "</svg>\n"
}
