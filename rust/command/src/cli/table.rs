//! What a command is: its words, what each is for, and what it tells. Parser, help, manual and
//! completion are made from these entries, so that they cannot differ.

use std::ffi::OsStr;

use cuzhaveli_images::fault::Fault;

use crate::cli::near::meant;

/// What an option's value or an operand is.
#[derive(Clone, Copy, Debug, PartialEq, Eq)]
pub enum Kind {
    /// Decimal, with K, M, G or T for powers of 1,024.
    Number,
    /// A disk's number, P or Q.
    Disk,
    Text,
    File,
    Folder,
    /// The name of a command.
    Command,
    /// One of these words.
    Word(&'static [&'static str]),
    /// One of these words, or a file.
    WordOrFile(&'static [&'static str]),
}

/// An option.
pub struct Opt {
    pub name: &'static str,
    /// What help calls its value, and what that is; none for a flag.
    pub value: Option<(&'static str, Kind)>,
    pub about: &'static str,
}

/// Another word.
pub struct Operand {
    pub name: &'static str,
    pub kind: Kind,
    pub about: &'static str,
}

/// Where words stand in the usage of a command.
pub enum Use {
    Opt(&'static Opt),
    Operand(&'static Operand),
    /// One or more.
    Operands(&'static Operand),
    /// `[X]`
    May(&'static Use),
    /// `[X]...`
    Any(&'static Use),
    /// `(X | Y)`
    One(&'static [Use]),
    /// `[X | Y]`
    MayOne(&'static [Use]),
}

pub struct Command {
    pub name: &'static str,
    /// One line.
    pub brief: &'static str,
    /// Paragraphs.
    pub about: &'static [&'static str],
    pub words: &'static [Use],
    /// The fields of its object with --json, and what they are.
    pub tells: &'static [(&'static str, &'static str)],
}

impl Opt {
    /// The option with what help calls its value.
    pub fn shown(&self) -> String {
        match self.value {
            Some((value, _)) => format!("{} {value}", self.name),
            None => self.name.into(),
        }
    }
}

impl Use {
    /// The words as the usage shows them.
    pub fn shown(&self) -> String {
        let all = |words: &[Use]| words.iter().map(Use::shown).collect::<Vec<_>>().join(" | ");
        match self {
            Use::Opt(option) => option.shown(),
            Use::Operand(operand) => operand.name.into(),
            Use::Operands(operand) => format!("{}...", operand.name),
            Use::May(word) => format!("[{}]", word.shown()),
            Use::Any(word) => format!("[{}]...", word.shown()),
            Use::One(words) => format!("({})", all(words)),
            Use::MayOne(words) => format!("[{}]", all(words)),
        }
    }

    /// The words in it, and whether each may be given more than once.
    fn parts(&'static self) -> Vec<(&'static Use, bool)> {
        match self {
            Use::Opt(_) | Use::Operand(_) => vec![(self, false)],
            Use::Operands(_) => vec![(self, true)],
            Use::May(word) => word.parts(),
            Use::Any(word) => word.parts().into_iter().map(|(word, _)| (word, true)).collect(),
            Use::One(words) | Use::MayOne(words) => words.iter().flat_map(Use::parts).collect(),
        }
    }
}

impl Command {
    /// The usage line after the program's name.
    pub fn line(&self) -> String {
        let words: String = self.words.iter().map(|word| format!(" {}", word.shown())).collect();
        format!("{}{words}", self.name)
    }

    fn parts(&self) -> impl Iterator<Item = (&'static Use, bool)> {
        self.words.iter().flat_map(Use::parts)
    }

    /// The options, and whether each may be given more than once.
    pub fn options(&self) -> impl Iterator<Item = (&'static Opt, bool)> {
        self.parts().filter_map(|(word, many)| match word {
            Use::Opt(option) => Some((*option, many)),
            _ => None,
        })
    }

    /// The other words.
    pub fn operands(&self) -> impl Iterator<Item = (&'static Operand, bool)> {
        self.parts().filter_map(|(word, many)| match word {
            Use::Operand(operand) | Use::Operands(operand) => Some((*operand, many)),
            _ => None,
        })
    }

    /// Its words, and what is said of each.
    pub fn explained(&self) -> impl Iterator<Item = (String, &'static str)> {
        let operands = self.operands().map(|(one, _)| (one.name.to_string(), one.about));
        operands.chain(self.options().map(|(one, _)| (one.shown(), one.about)))
    }

    /// The options that it cannot do without.
    pub fn needed(&self) -> impl Iterator<Item = &'static Opt> {
        self.words.iter().filter_map(|word| match word {
            Use::Opt(option) => Some(*option),
            _ => None,
        })
    }

    /// The operands that it cannot do without.
    pub fn needed_operands(&self) -> impl Iterator<Item = &'static Operand> {
        self.words.iter().filter_map(|word| match word {
            Use::Operand(operand) | Use::Operands(operand) => Some(*operand),
            _ => None,
        })
    }
}

/// The command of a name.
pub fn find<'a>(commands: &[&'a Command], name: &OsStr) -> Result<&'a Command, Fault> {
    commands.iter().find(|command| name == command.name).copied().ok_or_else(|| {
        let meant = meant(&name.to_string_lossy(), commands.iter().map(|one| one.name));
        Fault::Usage(format!("no command {}{meant}\nusage: cuzhaveli help", name.display()))
    })
}
