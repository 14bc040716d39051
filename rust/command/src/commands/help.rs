//! `help`: texts, manual pages and completion, all made from the table; and the version.

use cuzhaveli_images::fault::Fault;

use crate::cli::args::Given;
use crate::cli::table::{find, Command, Kind, Operand, Opt, Use};
use crate::cli::{complete, help, manual};
use crate::print::say;

pub const COMMAND: Command = Command {
    name: "help",
    brief: "the commands, or one of them; also cuzhaveli COMMAND --help, and cuzhaveli --version",
    about: &["Without COMMAND the usage of all; with it what it does, and its options."],
    words: &[
        Use::MayOne(&[
            Use::Opt(&Opt { name: "--man", value: None, about: "the manual page" }),
            Use::Opt(&Opt {
                name: "--completion",
                value: Some(("SHELL", Kind::Word(complete::SHELLS))),
                about: "a script that completes command lines in bash, zsh or fish",
            }),
        ]),
        Use::May(&Use::Operand(&Operand {
            name: "COMMAND",
            kind: Kind::Command,
            about: "the command to tell of",
        })),
    ],
    tells: &[],
};

pub fn run(given: &Given, commands: &[&Command]) -> Result<(), Fault> {
    given.at_most_one(&["--man", "--completion"])?;
    let command = given.operands.first().map(|name| find(commands, name)).transpose()?;
    let text = match (given.value("--completion"), given.flag("--man"), command) {
        (Some(shell), ..) => complete::script(&shell.to_string_lossy(), commands),
        (_, true, None) => manual::whole(commands),
        (_, true, Some(command)) => manual::of(command),
        (_, false, None) => help::whole(commands),
        (_, false, Some(command)) => help::of(command),
    };
    say::bytes(text.as_bytes())
}

/// The versions of the program and of the library that it is linked with.
pub fn version() -> Result<(), Fault> {
    let library = cuzhaveli::version();
    let (first, second, third) = (library / 10_000, library / 100 % 100, library % 100);
    let program = env!("CARGO_PKG_VERSION");
    say::line(format!("cuzhaveli {program}, library {first}.{second}.{third}"))
}
