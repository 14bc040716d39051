//! The catalogue: the packages of a store, their files, and the set that holds each. The same bytes
//! stand on every disk.

use std::collections::HashSet;
use std::fmt::Write;

use cuzhaveli::Shape;

use super::name::Name;
use super::sealed;
use crate::layout::geometry::{Geometry, MOST_LENGTH};
use crate::layout::label::{hex, name_of, Label};
use crate::layout::sums::SetName;

/// Its name in a disk's folder.
pub const NAME: &str = "catalogue";
/// No catalogue has more bytes.
pub const MOST_BYTES: u64 = 16 << 20;
/// No package has more files.
pub const MOST_FILES: usize = 4096;

/// What never changes of a store.
#[derive(Clone, Copy, Debug, PartialEq, Eq)]
pub struct Numbers {
    pub store: SetName,
    pub shape: Shape,
    pub unit: u64,
    pub group: u64,
    /// Whether each disk must be on a device of its own.
    pub separate: bool,
}

/// A file of a package; an empty one has no set.
#[derive(Clone, Debug, PartialEq, Eq)]
pub struct Entry {
    pub set: Option<SetName>,
    pub length: u64,
    pub name: Name,
}

#[derive(Clone, Debug, PartialEq, Eq)]
pub struct Package {
    pub name: Name,
    /// Upward by name.
    pub files: Vec<Entry>,
}

#[derive(Clone, Debug, PartialEq, Eq)]
pub struct Catalogue {
    pub numbers: Numbers,
    pub generation: u64,
    /// Upward by name.
    pub packages: Vec<Package>,
}

impl Numbers {
    /// The geometry of a set of a file; none if it is beyond the limits.
    pub fn geometry(&self, length: u64) -> Option<Geometry> {
        Geometry::new(self.shape, self.unit, self.group, length)
    }

    fn lines(&self, generation: u64) -> String {
        let Numbers { store, shape, unit, group, separate } = self;
        let (width, disks, cell) = (shape.width(), shape.disks(), shape.cell_size());
        let separate = if *separate { "yes" } else { "no" };
        format!(
            "cuzhaveli catalogue 2\nstore {}\ngeneration {generation}\nwidth {width}\ndisks {disks}\ncell {cell}\n\
             unit {unit}\ngroup {group}\nseparate {separate}\n",
            hex(store)
        )
    }
}

impl Entry {
    /// The label of the file's set; none for an empty file.
    pub fn label(&self, numbers: &Numbers) -> Option<Label> {
        Some(Label { set: self.set?, geometry: numbers.geometry(self.length)? })
    }

    fn parse(rest: &str) -> Option<Entry> {
        let (set, rest) = rest.split_once(' ')?;
        let (length, name) = rest.split_once(' ')?;
        let set = if set == "-" { None } else { Some(name_of(set)?) };
        let (length, name) = (length.parse().ok()?, Name::parse(name)?);
        (set.is_some() == (length > 0)).then_some(Entry { set, length, name })
    }
}

impl Package {
    /// What a file of it is called in results.
    pub fn shown(&self, file: &Entry) -> String {
        format!("{}/{}", self.name.as_str(), file.name.as_str())
    }

    /// The bytes of its files.
    pub fn length(&self) -> u64 {
        self.files.iter().map(|file| file.length).fold(0, u64::saturating_add)
    }

    /// Whether its files are in order, no more and no longer than they may be, and none is a folder
    /// of another.
    pub fn is_sound(&self) -> bool {
        let names: HashSet<&str> = self.files.iter().map(|file| file.name.as_str()).collect();
        let mut above = self.files.iter().flat_map(|file| file.name.above());
        self.files.len() <= MOST_FILES
            && self.length() <= MOST_LENGTH
            && self.files.is_sorted_by(|one, next| one.name < next.name)
            && !above.any(|folder| names.contains(folder))
    }
}

impl Catalogue {
    pub fn text(&self) -> String {
        let mut lines = self.numbers.lines(self.generation);
        for package in &self.packages {
            let _ = writeln!(lines, "package {}", package.name.as_str());
            for Entry { set, length, name } in &package.files {
                let set = set.map_or_else(|| "-".into(), |set| hex(&set));
                let _ = writeln!(lines, "file {set} {length} {}", name.as_str());
            }
        }
        sealed::seal(&lines)
    }

    /// What a text says, if it is that of a catalogue, byte for byte.
    pub fn parse(text: &[u8]) -> Option<Catalogue> {
        if text.len() as u64 > MOST_BYTES {
            return None;
        }
        let mut lines = sealed::open(text)?.lines().skip(1);
        let (numbers, generation) = parse_numbers(&mut lines)?;
        let mut packages: Vec<Package> = Vec::new();
        for line in lines {
            if let Some(name) = line.strip_prefix("package ") {
                packages.push(Package { name: Name::parse(name)?, files: Vec::new() });
            } else {
                packages.last_mut()?.files.push(Entry::parse(line.strip_prefix("file ")?)?);
            }
        }
        let read = Catalogue { numbers, generation, packages };
        (read.is_sound() && read.text().as_bytes() == text).then_some(read)
    }

    /// Whether packages are in order and no set is named twice.
    fn is_sound(&self) -> bool {
        let mut seen = HashSet::new();
        self.packages.is_sorted_by(|one, next| one.name < next.name)
            && self.packages.iter().all(|one| one.is_sound() && !one.name.as_str().contains('/'))
            && self.sets().all(|set| seen.insert(set))
    }

    /// The names of all sets.
    pub fn sets(&self) -> impl Iterator<Item = SetName> + '_ {
        self.packages.iter().flat_map(|package| &package.files).filter_map(|file| file.set)
    }

    pub fn package(&self, name: &Name) -> Option<&Package> {
        self.packages.iter().find(|package| package.name == *name)
    }

    /// All files, each with its package.
    pub fn files(&self) -> impl Iterator<Item = (&Package, &Entry)> {
        self.packages
            .iter()
            .flat_map(|package| package.files.iter().map(move |file| (package, file)))
    }

    /// The packages with one more, or another of the same name.
    pub fn with(&self, package: Package) -> Vec<Package> {
        let mut packages = self.without(&package.name);
        let at = packages.partition_point(|one| one.name < package.name);
        packages.insert(at, package);
        packages
    }

    /// The packages without one.
    pub fn without(&self, name: &Name) -> Vec<Package> {
        self.packages.iter().filter(|package| package.name != *name).cloned().collect()
    }
}

/// The first lines: what never changes, and the generation.
fn parse_numbers<'a>(lines: &mut impl Iterator<Item = &'a str>) -> Option<(Numbers, u64)> {
    let mut value = |name: &str| lines.next()?.strip_prefix(name)?.strip_prefix(' ');
    let store = name_of(value("store")?)?;
    let generation = value("generation")?.parse().ok()?;
    let (width, disks) = (value("width")?.parse().ok()?, value("disks")?.parse().ok()?);
    let shape = Shape::new(width, disks, value("cell")?.parse().ok()?).ok()?;
    let (unit, group) = (value("unit")?.parse().ok()?, value("group")?.parse().ok()?);
    let separate = value("separate")? == "yes";
    Geometry::new(shape, unit, group, 0)?;
    Some((Numbers { store, shape, unit, group, separate }, generation))
}

#[cfg(test)]
mod tests {
    use super::*;

    fn entry(set: u8, length: u64, name: &str) -> Entry {
        let set = (length > 0).then_some([set; 16]);
        Entry { set, length, name: Name::of(name.as_bytes()).unwrap() }
    }

    fn package(name: &str, files: Vec<Entry>) -> Package {
        Package { name: Name::of(name.as_bytes()).unwrap(), files }
    }

    fn catalogue() -> Catalogue {
        let shape = Shape::new(5, 4, 512).unwrap();
        let numbers = Numbers { store: [9; 16], shape, unit: 64, group: 128, separate: true };
        let feature =
            vec![entry(1, 70_000, "film"), entry(0, 0, "subs/empty"), entry(2, 5, "subs/x")];
        let packages =
            vec![package("feature", feature), package("trailer 1", vec![entry(3, 8, "t")])];
        Catalogue { numbers, generation: 7, packages }
    }

    #[test]
    fn read_as_written() {
        let good = catalogue();
        assert_eq!(Catalogue::parse(good.text().as_bytes()), Some(good.clone()));
        let none = Catalogue { packages: Vec::new(), ..good.clone() };
        assert_eq!(Catalogue::parse(none.text().as_bytes()), Some(none));
        assert_eq!(good.packages[0].length(), 70_005);
        assert_eq!(good.sets().count(), 3);
    }

    #[test]
    fn what_no_store_has_is_not_read() {
        let text = catalogue().text();
        let lines = text.rsplit_once("sum").map_or("", |(lines, _)| lines);
        for (old, new) in [
            ("catalogue 2", "catalogue 3"),
            ("generation 7", "generation 07"),
            ("width 5", "width 6"),
            ("group 128", "group 100"),
            ("separate yes", "separate maybe"),
            ("70000", "0"), // a set of an empty file
            ("- 0 subs/empty", "- 1 subs/empty"),
            ("subs/empty", "../empty"),
            ("film", "subs"), // a folder of another
            ("film", "zz"),   // out of order
            ("package feature", "package z"),
            ("package feature\n", ""),
            ("trailer%201", "trailer 1"),
            ("trailer%201", "feature"),
            ("70000", "281474976710657"),
        ] {
            let changed = lines.replacen(old, new, 1);
            assert_ne!(changed, lines, "{old}");
            assert_eq!(Catalogue::parse(sealed::seal(&changed).as_bytes()), None, "{old} {new}");
        }
        let twice = lines.replacen(&"03".repeat(16), &"01".repeat(16), 1);
        assert_eq!(Catalogue::parse(sealed::seal(&twice).as_bytes()), None);
    }

    #[test]
    fn limits() {
        let many = |count: u64| (0..count).map(|n| entry(0, 0, &format!("{n:05}"))).collect();
        assert!(package("p", many(4096)).is_sound());
        assert!(!package("p", many(4097)).is_sound());
        assert!(!package("p", vec![entry(1, 1 << 48, "a"), entry(2, 1, "b")]).is_sound());
        let mut long = catalogue().text().into_bytes();
        long.resize(MOST_BYTES as usize + 1, b' ');
        assert_eq!(Catalogue::parse(&long), None);
    }

    #[test]
    fn packages_come_and_go() {
        let good = catalogue();
        let more = good.with(package("g", vec![]));
        assert!(more.iter().map(|one| one.name.as_str()).eq(["feature", "g", "trailer%201"]));
        let other = good.with(package("feature", vec![]));
        assert_eq!((other.len(), other[0].files.len()), (2, 0));
        assert_eq!(good.without(&Name::of(b"feature").unwrap()).len(), 1);
    }
}
