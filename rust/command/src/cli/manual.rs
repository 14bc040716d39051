//! The table as manual pages, in the language of man(7).

use cuzhaveli::RefusalKind;

use crate::cli::table::Command;

/// What no entry of the table says: what the program is, and what it keeps.
const DESCRIPTION: &str = include_str!("manual/description.man");
const CHAPTERS: &str = include_str!("manual/chapters.man");
/// Where in the chapters the table of refusals goes.
const REFUSALS: &str = "@REFUSALS@\n";

/// Text as man takes it.
fn plain(text: &str) -> String {
    let text = text.replace('\\', "\\e").replace('-', "\\-");
    match text.starts_with(['.', '\'']) {
        true => format!("\\&{text}"),
        false => text,
    }
}

/// A paragraph, a sentence a line.
fn paragraph(text: &str) -> String {
    plain(text).replace(". ", ".\n") + "\n"
}

fn head(name: &str) -> String {
    let (name, version) = (name.to_uppercase(), env!("CARGO_PKG_VERSION"));
    format!("'\\\" t\n.\\\" Made by `make manual` from the table of commands.\n.TH {name} 1 \"\" \"cuzhaveli {version}\" \"User Commands\"\n.nh\n")
}

/// The library's refusals, from the crate's table.
fn refusals() -> String {
    let row = |kind: RefusalKind| format!("{}\tT{{\n{}\nT}}\n", kind as u8, plain(kind.text()));
    format!(".TS\nr lx.\n{}.TE\n", RefusalKind::all().map(row).collect::<String>())
}

fn synopsis(command: &Command) -> String {
    plain(&format!("cuzhaveli {}", command.line())) + "\n"
}

/// Names, and what is said of each.
fn list<'a>(entries: impl Iterator<Item = (String, &'a str)>) -> String {
    entries.map(|(name, about)| format!(".TP\n.B {}\n{}", plain(&name), paragraph(about))).collect()
}

/// The page of the program; the synopsis of a command is on its own page.
pub fn whole(commands: &[&Command]) -> String {
    let commands =
        commands.iter().map(|command| (format!("cuzhaveli-{}(1)", command.name), command.brief));
    let name =
        plain("cuzhaveli - images of disks, encoded, checked, rebuilt with few reads, in a full array the fewest");
    let chapters = CHAPTERS.replacen(REFUSALS, &refusals(), 1);
    format!(
        "{}.SH NAME\n{}\n.SH SYNOPSIS\ncuzhaveli COMMAND [WORD]...\n{DESCRIPTION}.SH COMMANDS\n{}{chapters}",
        head("cuzhaveli"),
        name,
        list(commands)
    )
}

/// The page of one command.
pub fn of(command: &Command) -> String {
    let name = format!("cuzhaveli-{}", command.name);
    let mut page = head(&name);
    page += &format!(".SH NAME\n{} \\- {}\n", plain(&name), plain(command.brief));
    page += &format!(".SH SYNOPSIS\n.nf\n{}.fi\n.SH DESCRIPTION\n", synopsis(command));
    let about: Vec<String> = command.about.iter().map(|text| paragraph(text)).collect();
    page += &about.join(".PP\n");
    let words = list(command.explained());
    if !words.is_empty() {
        page += &format!(".SH OPTIONS\n{words}");
    }
    let fields = list(command.tells.iter().map(|(name, about)| (name.to_string(), *about)));
    if !fields.is_empty() {
        page += &format!(".SH JSON\n{fields}");
    }
    page + ".SH SEE ALSO\n.BR cuzhaveli (1)\n"
}
