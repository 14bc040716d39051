//! Words that several commands have, and what is said of each.

use crate::cli::table::{Kind, Operand, Opt, Use};

pub const WIDTH: Opt = Opt {
    name: "-p",
    value: Some(("WIDTH", Kind::Number)),
    about: "the rows of a stripe: 3, 5, 7, 11, 13, 17, 19, 23, 29 or 31",
};
pub const DISKS: Opt = Opt {
    name: "-k",
    value: Some(("DISKS", Kind::Number)),
    about: "the data disks, 2 to WIDTH; WIDTH if it is not given",
};
pub const CELL: Opt = Opt {
    name: "-s",
    value: Some(("CELL", Kind::Number)),
    about: "the bytes of a cell, 1 to 4096; 4096 if it is not given",
};
pub const UNIT: Opt = Opt {
    name: "-u",
    value: Some(("UNIT", Kind::Number)),
    about: "the stripes that are verified together: 1, or up to 32768 / CELL",
};
pub const GROUP: Opt = Opt {
    name: "-g",
    value: Some(("GROUP", Kind::Number)),
    about: "the stripes that lie together, a multiple of UNIT up to 65536",
};
pub const LOST: Opt = Opt {
    name: "-d",
    value: Some(("DISK", Kind::Disk)),
    about: "the lost disk: its number, P or Q",
};
pub const QUIET: Opt = Opt { name: "-q", value: None, about: "no progress" };
pub const JSON: Opt =
    Opt { name: "--json", value: None, about: "the figures as one JSON object, on one line" };
pub const RATE: Opt = Opt {
    name: "--rate",
    value: Some(("BYTES", Kind::Number)),
    about: "read no more than BYTES a second of each disk, so that screens can play meanwhile",
};
pub const OVERWRITE: Opt = Opt {
    name: "--overwrite",
    value: Some(("DRIVE", Kind::File)),
    about: "this drive may be written, whatever is on it",
};
pub const BYTES: Opt =
    Opt { name: "--bytes", value: Some(("N", Kind::Number)), about: "so many bytes" };

pub const DIR: Use =
    Use::Operand(&Operand { name: "DIR", kind: Kind::Folder, about: "the folder of the images" });
pub const PLACE: Use = Use::Operand(&Operand {
    name: "DIR",
    kind: Kind::Folder,
    about: "the folder of the images, or a store",
});

const THE_STORE: Operand =
    Operand { name: "STORE", kind: Kind::Folder, about: "the folder of the store's disks" };
pub const STORE: Use = Use::Operand(&THE_STORE);
pub const STORES: Use = Use::Operands(&THE_STORE);
pub const PACKAGE: Use =
    Use::Operand(&Operand { name: "PACKAGE", kind: Kind::Text, about: "the name of the package" });
pub const FILE: Use = Use::Operand(&Operand {
    name: "FILE",
    kind: Kind::Text,
    about: "the name of a file of the package",
});
/// A field that every change of a store tells.
pub const LACKS: (&str, &str) =
    ("lacks", "the disks that lack the change, which rebuild brings up to date");
