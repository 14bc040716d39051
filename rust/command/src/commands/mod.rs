//! The commands: each is one entry of the table, in its own module.

mod bill;
mod check;
mod help;
mod info;
mod judge;
mod mount;
mod plan;
mod rebuild;
mod repair;
mod report;
mod set;
mod space;
mod store;
mod stripe;

use std::ffi::OsString;

use cuzhaveli_images::fault::Fault;

use crate::cli::args::Given;
use crate::cli::help as text;
use crate::cli::table::{find, Command};
use crate::cli::values::usage;
use crate::print::say;

/// What a command does: with its words, or with the whole table too.
enum Run {
    Words(fn(&Given) -> Result<(), Fault>),
    Table(fn(&Given, &[&Command]) -> Result<(), Fault>),
}

/// In the order of help. A new command is a module with its entry, a line here, and `make manual`.
const COMMANDS: &[(&Command, Run)] = &[
    (&store::create::COMMAND, Run::Words(store::create::run)),
    (&store::put::COMMAND, Run::Words(store::put::run)),
    (&store::list::COMMAND, Run::Words(store::list::run)),
    (&store::get::COMMAND, Run::Words(store::get::run)),
    (&store::remove::COMMAND, Run::Words(store::remove::run)),
    (&store::patch::COMMAND, Run::Words(store::patch::run)),
    (&mount::COMMAND, Run::Words(mount::run)),
    (&store::board::COMMAND, Run::Words(store::board::run)),
    (&set::encode::COMMAND, Run::Words(set::encode::run)),
    (&set::decode::COMMAND, Run::Words(set::decode::run)),
    (&info::COMMAND, Run::Words(info::run)),
    (&check::COMMAND, Run::Words(check::run)),
    (&rebuild::COMMAND, Run::Words(rebuild::run)),
    (&repair::COMMAND, Run::Words(repair::run)),
    (&plan::COMMAND, Run::Words(plan::run)),
    (&judge::COMMAND, Run::Words(judge::run)),
    (&stripe::COMMAND, Run::Words(stripe::run)),
    (&space::COMMAND, Run::Words(space::run)),
    (&bill::COMMAND, Run::Words(bill::run)),
    (&help::COMMAND, Run::Table(help::run)),
];

/// The entries of the table.
fn entries() -> Vec<&'static Command> {
    COMMANDS.iter().map(|(command, _)| *command).collect()
}

/// Runs the command that the words name.
pub fn run(mut words: impl Iterator<Item = OsString>) -> Result<(), Fault> {
    let table = entries();
    let Some(name) = words.next() else {
        return Err(usage(format!(
            "no command is given; these are there:\n{}",
            text::lines(&table)
        )));
    };
    if name == "--version" {
        return help::version();
    }
    let name = if name == "--help" || name == "-h" { "help".into() } else { name };
    let command = find(&table, &name)?;
    let words: Vec<OsString> = words.collect();
    let mut options = words.iter().take_while(|word| *word != "--");
    if options.any(|word| word == "--help" || word == "-h") {
        return say::bytes(text::of(command).as_bytes());
    }
    let given = Given::sort(words.into_iter(), command);
    let done = given.and_then(|given| call(command, &given, &table));
    done.map_err(|fault| match fault {
        Fault::Usage(text) => {
            usage(format!("{}: {text}\nusage: cuzhaveli {}", command.name, command.line()))
        }
        other => other,
    })
}

/// Does what a command does.
fn call(command: &Command, given: &Given, table: &[&Command]) -> Result<(), Fault> {
    match COMMANDS.iter().find(|(one, _)| one.name == command.name) {
        Some((_, Run::Words(run))) => run(given),
        Some((_, Run::Table(run))) => run(given, table),
        None => Ok(()),
    }
}

#[cfg(test)]
mod tests {
    use super::*;

    #[test]
    fn no_line_of_a_text_is_too_long() {
        for command in entries() {
            for line in text::of(command).lines().skip(1) {
                assert!(line.chars().count() <= text::COLUMNS, "{}: {line}", command.name);
            }
        }
    }
}
