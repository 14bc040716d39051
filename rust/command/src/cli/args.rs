//! The words of a command line, sorted by the table: options first or between, operands.

use std::ffi::{OsStr, OsString};
use std::os::unix::ffi::OsStrExt;
use std::path::Path;

use cuzhaveli::{Refusal, RefusalKind, Shape};
use cuzhaveli_images::fault::Fault;
use cuzhaveli_images::os::drives::Overwrite;
use cuzhaveli_images::os::pace::Pace;

use crate::cli::near::meant;
use crate::cli::table::{Command, Opt};
use crate::cli::values::{fits, number, usage, DiskName};

type Rest<'a> = &'a mut dyn Iterator<Item = OsString>;

/// The options and operands that were given.
pub struct Given {
    command: &'static Command,
    options: Vec<(&'static str, OsString)>,
    pub operands: Vec<OsString>,
}

impl Given {
    /// Sorts the words of a command; `--` ends the options.
    pub fn sort(
        mut words: impl Iterator<Item = OsString>,
        command: &'static Command,
    ) -> Result<Given, Fault> {
        let mut given = Given { command, options: Vec::new(), operands: Vec::new() };
        while let Some(word) = words.next() {
            match word.as_bytes() {
                b"--" => given.operands.extend(words.by_ref()),
                [b'-', b'-', ..] => given.long(&word, &mut words)?,
                [b'-', _, ..] => given.short(&word, &mut words)?,
                _ => given.operands.push(word),
            }
        }
        given.is_whole()?;
        Ok(given)
    }

    /// `--name` or `--name=value`.
    fn long(&mut self, word: &OsStr, words: Rest) -> Result<(), Fault> {
        let mut parts = word.as_bytes().splitn(2, |byte| *byte == b'=');
        let found = self.find(parts.next().unwrap_or_default())?;
        self.take(found, parts.next(), words)
    }

    /// `-n`, `-nVALUE`, `-n=VALUE`, or flags together as in `-qn`.
    fn short(&mut self, word: &OsStr, words: Rest) -> Result<(), Fault> {
        let mut letters = &word.as_bytes()[1..];
        while let [letter, after @ ..] = letters {
            let found = self.find(&[b'-', *letter])?;
            letters = after;
            let mut value = None;
            if !after.is_empty() && (found.0.value.is_some() || after[0] == b'=') {
                letters = &[];
                value = Some(after.strip_prefix(b"=").unwrap_or(after));
            }
            self.take(found, value, words)?;
        }
        Ok(())
    }

    fn find(&self, name: &[u8]) -> Result<(&'static Opt, bool), Fault> {
        let mut options = self.command.options();
        options.find(|(option, _)| name == option.name.as_bytes()).ok_or_else(|| {
            let name = String::from_utf8_lossy(name);
            let names = self.command.options().map(|(option, _)| option.name);
            usage(format!("no option {name}{}", meant(&name, names)))
        })
    }

    fn take(
        &mut self,
        (option, many): (&'static Opt, bool),
        value: Option<&[u8]>,
        words: Rest,
    ) -> Result<(), Fault> {
        let name = option.name;
        if !many && self.value(name).is_some() {
            return Err(usage(format!("{name} is given twice; give it once")));
        }
        let within = value.map(|value| OsStr::from_bytes(value).to_owned());
        let value = match (option.value, within) {
            (None, None) => OsString::new(),
            (None, Some(value)) => {
                let value = value.display();
                return Err(usage(format!("{name} takes no value; leave {value} out")));
            }
            (Some((value, _)), within) => within
                .or_else(|| words.next())
                .ok_or_else(|| usage(format!("{name} needs {value} after it: {}", option.about)))?,
        };
        fits(option, &value)?;
        self.options.push((name, value));
        Ok(())
    }

    /// Whether nothing that is needed is missing, and no word is too many.
    fn is_whole(&self) -> Result<(), Fault> {
        if let Some(option) = self.command.needed().find(|option| !self.flag(option.name)) {
            return Err(usage(format!("{} is missing: {}", option.shown(), option.about)));
        }
        let count = self.operands.len();
        if let Some(operand) = self.command.needed_operands().nth(count) {
            return Err(usage(format!("{} is missing: {}", operand.name, operand.about)));
        }
        let many = self.command.operands().any(|(_, many)| many);
        match self.operands.get(self.command.operands().count()) {
            Some(word) if !many => {
                let word = word.display();
                Err(usage(format!("{word} is a word too many; leave it out")))
            }
            _ => Ok(()),
        }
    }

    pub fn flag(&self, name: &str) -> bool {
        self.value(name).is_some()
    }

    pub fn value(&self, name: &str) -> Option<&OsStr> {
        self.options.iter().find(|(given, _)| *given == name).map(|(_, value)| &**value)
    }

    pub fn values<'a>(&'a self, name: &'a str) -> impl Iterator<Item = &'a OsStr> {
        let named = move |(given, _): &&(&str, OsString)| *given == name;
        self.options.iter().filter(named).map(|(_, value)| &**value)
    }

    /// Refuses options of which one alone may be given.
    pub fn at_most_one(&self, names: &[&str]) -> Result<(), Fault> {
        let given: Vec<&str> = names.iter().copied().filter(|name| self.flag(name)).collect();
        match given[..] {
            [one, other, ..] => {
                Err(usage(format!("{one} and {other} exclude each other; leave one out")))
            }
            _ => Ok(()),
        }
    }

    /// The drives that may be overwritten.
    pub fn overwrite(&self) -> Result<Overwrite, Fault> {
        Overwrite::of(self.values("--overwrite"))
    }

    /// Refuses options that have a meaning for something else only.
    pub fn only_for(&self, what: &str, names: &[&str]) -> Result<(), Fault> {
        match names.iter().find(|name| self.flag(name)) {
            Some(name) => Err(usage(format!("{name} is for {what} only; leave it out"))),
            None => Ok(()),
        }
    }

    /// The most bytes that are read a second.
    pub fn pace(&self) -> Result<Pace, Fault> {
        let rate = self.number("--rate")?;
        if rate == Some(0) {
            return Err(usage("--rate 0: nothing would ever be read; give 1 or more".into()));
        }
        Ok(Pace::new(rate))
    }

    /// A number, if the option is given.
    pub fn number(&self, name: &str) -> Result<Option<u64>, Fault> {
        self.value(name).map(|value| number(name, value)).transpose()
    }

    /// A number that the command cannot do without.
    pub fn needed(&self, name: &str) -> Result<u64, Fault> {
        self.number(name)?.ok_or_else(|| usage(format!("{name} is missing")))
    }

    /// The shape of -p, -k and -s, with -k as -p and -s 4096 if they are not given.
    pub fn shape(&self) -> Result<Shape, Fault> {
        let width = self.needed("-p")? as usize;
        let disks = self.number("-k")?.map_or(width, |n| n as usize);
        let cell = self.number("-s")?.map_or(4096, |n| n as usize);
        Shape::new(width, disks, cell).map_err(|refusal| match refusal.kind() {
            RefusalKind::BadDisks => self.refused("-k", refusal),
            RefusalKind::BadCellSize => self.refused("-s", refusal),
            _ => self.refused("-p", refusal),
        })
    }

    /// The library's refusal of what an option says.
    pub fn refused(&self, name: &str, refusal: Refusal) -> Fault {
        match self.value(name) {
            Some(value) => Fault::Refused(refusal, format!("{name} {}: ", value.display())),
            None => refusal.into(),
        }
    }

    /// The disk that an option names, of an array of that shape.
    pub fn disk(&self, name: &str, shape: Shape) -> Result<Option<usize>, Fault> {
        self.value(name).map(|value| Ok(DiskName::of(name, value)?.number(shape))).transpose()
    }

    /// The lost disk.
    pub fn lost(&self, shape: Shape) -> Result<usize, Fault> {
        let lost = self.disk("-d", shape)?.ok_or_else(|| usage("-d is missing".into()))?;
        shape.plan(lost).map_err(|refusal| self.refused("-d", refusal))?;
        Ok(lost)
    }

    /// All disks that an option names.
    pub fn disks(&self, name: &str) -> Result<Vec<DiskName>, Fault> {
        self.values(name).map(|value| DiskName::of(name, value)).collect()
    }

    pub fn path(&self, place: usize) -> &Path {
        Path::new(&self.operands[place])
    }
}

#[cfg(test)]
mod tests {
    use super::*;
    use crate::cli::table::Use;
    use crate::cli::words::{DIR, LOST, QUIET, WIDTH};

    const TRIED: Command = Command {
        name: "tried",
        brief: "",
        about: &[],
        words: &[
            Use::Opt(&WIDTH),
            Use::May(&Use::Opt(&QUIET)),
            Use::May(&Use::Opt(&Opt { name: "-n", value: None, about: "" })),
            Use::Any(&Use::Opt(&LOST)),
            DIR,
        ],
        tells: &[],
    };

    fn given(line: &str) -> Result<Given, Fault> {
        Given::sort(line.split(' ').map(OsString::from), &TRIED)
    }

    #[test]
    fn a_value_stands_after_its_option_or_in_it() {
        for line in ["-p 5 x", "-p5 x", "-p=5 x", "-qp5 x", "x -qnp 5", "x -p 5", "-p5 -- -x"] {
            let given = given(line).unwrap();
            assert_eq!((given.number("-p").unwrap(), given.operands.len()), (Some(5), 1), "{line}");
        }
        let named = given("-p5 -d1 -d=P -d Q x").unwrap().disks("-d").unwrap();
        assert_eq!(named, [DiskName::Number(1), DiskName::P, DiskName::Q]);
    }

    #[test]
    fn wrong_words_are_named() {
        for (line, named) in [
            ("-p5 -q=1 x", "-q takes no value; leave 1 out"),
            ("-p5 -qq x", "-q is given twice"),
            ("x -p", "-p needs WIDTH after it"),
            ("-px x", "-p x: not a number"),
            ("-p5 -d R x", "-d R: no disk"),
            ("-p5", "DIR is missing: the folder"),
            ("-p5 x y", "y is a word too many"),
            ("x", "-p WIDTH is missing: the rows"),
            ("-p5 -z x", "no option -z"),
        ] {
            let told = given(line).err().unwrap().to_string();
            assert!(told.starts_with(named), "{line}: {told}");
        }
    }
}
