//! The table as text for a terminal.

use crate::cli::table::Command;

/// The columns of a line.
pub const COLUMNS: usize = 100;
/// Where the second column of a list begins.
const SECOND: usize = 24;

const NOTES: &str = "
  cuzhaveli COMMAND --help tells of one; the manual: man cuzhaveli

Numbers are decimal, with K, M, G, T for powers of 1,024; disks are numbers, P or Q. A value stands after its option or
in it (-p 7, -p7, -p=7, --disk=P), flags may stand together (-qn), `--` ends the options.
Exit status: 0 done, or yes; 1 the answer is no; 2 usage; 3 refused by the library; 4 reading or writing failed;
5 more than two disks lost, or something that is not of this set; 6 film that cannot be made right;
7 a change of a store that may stand or not: run it again
";

/// The usage of every command.
pub fn lines(commands: &[&Command]) -> String {
    let line = |one: &&Command| format!("  cuzhaveli {}\n      {}\n", one.line(), one.brief);
    commands.iter().map(line).collect()
}

pub fn whole(commands: &[&Command]) -> String {
    let about = "cuzhaveli: images of disks, encoded, checked, rebuilt with few reads, in a full array the fewest";
    format!("{about}\n\n{}{NOTES}", lines(commands))
}

/// All of one command.
pub fn of(command: &Command) -> String {
    let mut text = format!("usage: cuzhaveli {}\n\n{}\n", command.line(), command.brief);
    for paragraph in command.about {
        text += &format!("\n{}", wrapped(paragraph, 0));
    }
    text.push('\n');
    command.explained().for_each(|(name, about)| text += &listed(&name, about));
    if !command.tells.is_empty() {
        text += "\nThe object of --json:\n";
    }
    command.tells.iter().for_each(|(name, about)| text += &listed(name, about));
    text
}

/// A name and what is said of it, in two columns.
fn listed(name: &str, about: &str) -> String {
    let about = wrapped(about, SECOND);
    match name.len() + 3 > SECOND {
        true => format!("  {name}\n{about}"),
        false => format!("  {name:<width$}{}", about.trim_start(), width = SECOND - 2),
    }
}

/// Text in lines, each after so many spaces.
pub fn wrapped(text: &str, indent: usize) -> String {
    let mut lines = vec![String::new()];
    for word in text.split_whitespace() {
        let line = lines.last().map_or(0, |line| line.chars().count());
        if line > 0 && indent + line + 1 + word.chars().count() > COLUMNS {
            lines.push(String::new());
        }
        if let Some(line) = lines.last_mut() {
            line.push_str(if line.is_empty() { "" } else { " " });
            line.push_str(word);
        }
    }
    lines.iter().map(|line| format!("{:indent$}{line}\n", "")).collect()
}

#[cfg(test)]
mod tests {
    use super::wrapped;

    #[test]
    fn text_is_broken_into_lines() {
        assert_eq!(wrapped("a b", 2), "  a b\n");
        assert_eq!(wrapped(&"x ".repeat(60), 0).lines().count(), 2);
    }
}
