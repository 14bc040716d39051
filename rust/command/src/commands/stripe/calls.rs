//! The calls of `stripe` that change stripes, as the words of the command give them.

use std::ffi::OsStr;

use cuzhaveli::{Refusal, RefusalKind, Shape, NO_LOSS};
use cuzhaveli_images::fault::Fault;

use crate::cli::args::Given;
use crate::cli::values::usage;
use crate::commands::stripe::missing;

/// A call that is made on every record: what that holds before, and after.
pub enum Call {
    /// A stripe.
    Encode,
    /// A stripe; a lost disk, and room for its column.
    One(usize, Vec<u8>),
    /// The same, from survivors that are tested.
    Tested(usize, Vec<u8>),
    Two([usize; 2]),
    /// The marks of the missing cells.
    Cells(Vec<u8>),
    /// A stripe and, behind it, the new bytes of the cell of this row and disk.
    Update(usize, usize),
    /// The stripes of so many servers, and of the parity server.
    WriteServer(usize),
    /// The same, of which one is lost; and what the others have lost.
    RebuildServer(usize, usize, Vec<[u8; 2]>),
}

impl Call {
    /// The bytes of a record.
    pub fn record_len(&self, shape: Shape) -> usize {
        match self {
            Call::Update(..) => shape.stripe_len() + shape.cell_size(),
            Call::WriteServer(servers) | Call::RebuildServer(servers, ..) => {
                (servers + 1) * shape.stripe_len()
            }
            _ => shape.stripe_len(),
        }
    }

    /// The bytes of a record that are handed on.
    pub fn result_len(&self, shape: Shape) -> usize {
        match self {
            Call::Update(..) => shape.stripe_len(),
            _ => self.record_len(shape),
        }
    }

    /// Makes the call; of a record that is too short, the library refuses the length.
    pub fn make(&mut self, shape: Shape, record: &mut [u8]) -> Result<(), Refusal> {
        match self {
            Call::Encode => shape.encode(record),
            Call::One(lost, column) => {
                shape.rebuild_one(*lost, record, column)?;
                record[shape.disk_range(*lost)].copy_from_slice(column);
                Ok(())
            }
            Call::Tested(lost, column) => {
                shape.rebuild_tested(*lost, record, column)?;
                record[shape.disk_range(*lost)].copy_from_slice(column);
                Ok(())
            }
            Call::Two(lost) => shape.rebuild_two(*lost, record),
            Call::Cells(marks) => shape.rebuild_cells(marks, record),
            Call::Update(row, disk) => {
                let (stripe, cell) = record.split_at_mut(shape.stripe_len().min(record.len()));
                shape.update_cell(*row, *disk, stripe, cell)
            }
            Call::WriteServer(servers) => shape.write_server(*servers, record),
            Call::RebuildServer(servers, lost, losses) => {
                shape.rebuild_server(*servers, *lost, record, losses)
            }
        }
    }
}

/// The option that the library refuses, once each disk and the number of servers was tested alone.
pub fn named(given: &Given, refusal: Refusal) -> Fault {
    let name = match refusal.kind() {
        RefusalKind::NoSuchRow => "--row",
        RefusalKind::NoSuchServer => "--server",
        RefusalKind::Undetermined => "--missing",
        RefusalKind::SameDisk if given.flag("--loss") => "--loss",
        _ => "--disk",
    };
    given.refused(name, refusal)
}

/// `rebuild`
pub fn rebuild(given: &Given, shape: Shape) -> Result<Call, Fault> {
    let mut lost = Vec::new();
    for (disk, value) in given.disks("--disk")?.into_iter().zip(given.values("--disk")) {
        let disk = disk.number(shape);
        there(shape, disk, "--disk", value)?;
        lost.push(disk);
    }
    let column = vec![0; shape.column_len()];
    match (&lost[..], given.flag("--test")) {
        ([one], false) => Ok(Call::One(*one, column)),
        ([one], true) => Ok(Call::Tested(*one, column)),
        ([one, other], false) => Ok(Call::Two([*one, *other])),
        ([_, _], true) => Err(usage(
            "--test is for one lost disk: with two, any survivors belong together".into(),
        )),
        _ => Err(usage("--disk: at most two disks of a stripe come back".into())),
    }
}

/// `rebuild-cells`
pub fn rebuild_cells(given: &Given, shape: Shape) -> Result<Call, Fault> {
    missing::marks(shape, given.value("--missing").unwrap_or_default()).map(Call::Cells)
}

/// `update`
pub fn update(given: &Given, shape: Shape) -> Result<Call, Fault> {
    match &given.disks("--disk")?[..] {
        [disk] => Ok(Call::Update(given.needed("--row")? as usize, disk.number(shape))),
        _ => Err(usage("--disk is given twice; an update is of one cell".into())),
    }
}

/// `server-write`
pub fn server_write(given: &Given, shape: Shape) -> Result<Call, Fault> {
    Ok(Call::WriteServer(servers(given, shape)?))
}

/// `server-rebuild`
pub fn server_rebuild(given: &Given, shape: Shape) -> Result<Call, Fault> {
    let servers = servers(given, shape)?;
    let mut losses = vec![[NO_LOSS; 2]; servers + 1];
    for value in given.values("--loss") {
        let (server, disk) = loss(shape, servers, value)?;
        let Some(free) = losses[server].iter_mut().find(|byte| **byte == NO_LOSS) else {
            let value = value.display();
            return Err(usage(format!("--loss {value}: at most two disks of a server come back")));
        };
        *free = disk;
    }
    Ok(Call::RebuildServer(servers, given.needed("--server")? as usize, losses))
}

/// The number of servers, which the library tests before it looks at any stripe.
fn servers(given: &Given, shape: Shape) -> Result<usize, Fault> {
    let servers = given.needed("--servers")? as usize;
    match shape.write_server(servers, &mut []) {
        Err(refusal) if refusal.kind() == RefusalKind::NoSuchServer => {
            Err(given.refused("--servers", refusal))
        }
        _ => Ok(servers),
    }
}

/// A server and a disk of it: `SERVER.DISK`.
fn loss(shape: Shape, servers: usize, value: &OsStr) -> Result<(usize, u8), Fault> {
    let text = value.to_str().unwrap_or_default();
    let number = |text: &str| match text.bytes().all(|byte| byte.is_ascii_digit()) {
        true => text.parse::<usize>().ok(),
        false => None,
    };
    let parts = text.split_once('.').and_then(|(server, disk)| {
        let disk = match disk {
            "P" | "p" => shape.disks(),
            "Q" | "q" => shape.disks() + 1,
            _ => number(disk)?,
        };
        Some((number(server).filter(|server| *server <= servers)?, disk))
    });
    let Some((server, disk)) = parts else {
        let value = value.display();
        return Err(usage(format!(
            "--loss {value}: no disk of a server; give SERVER.DISK, with servers 0 to {servers}"
        )));
    };
    there(shape, disk, "--loss", value)?; // so that none is taken for NO_LOSS
    Ok((server, disk as u8))
}

/// Refuses a disk that the array lacks.
fn there(shape: Shape, disk: usize, name: &str, value: &OsStr) -> Result<(), Fault> {
    let refused = |refusal| Fault::Refused(refusal, format!("{name} {}: ", value.display()));
    shape.plan(disk).map(|_| ()).map_err(refused)
}
