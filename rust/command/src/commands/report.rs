//! What a check finds, told as it is found: there may be more than memory holds.

use std::ops::Range;

use cuzhaveli::{Scrub, Shape};
use cuzhaveli_images::fault::Fault;
use cuzhaveli_images::names::{bytes, count, disk_name, disk_names, stripes};
use cuzhaveli_images::read::examine::Findings;
use cuzhaveli_images::read::reader::Flaw;
use cuzhaveli_images::read::set::{Absence, Set};

use crate::print::json::{self, Object, Value};
use crate::print::say;

/// What was found so far.
pub struct Report {
    shape: Shape,
    json: bool,
    /// The file of a store that is checked now.
    pub file: Option<String>,
    told: u64,
    pub stripes: u64,
    pub bad: u64,
    pub dirty: u64,
    pub beyond: u64,
    pub read: u64,
    /// The disks that could not be read past the page cache.
    cached: Vec<usize>,
}

impl Report {
    pub fn new(shape: Shape, json: bool) -> Report {
        let (file, cached) = (None, Vec::new());
        Report {
            shape,
            json,
            file,
            told: 0,
            stripes: 0,
            bad: 0,
            dirty: 0,
            beyond: 0,
            read: 0,
            cached,
        }
    }

    /// These disks were not read past the page cache.
    pub fn cached(&mut self, disks: &[usize]) {
        self.cached.extend(disks);
        self.cached.sort_unstable();
        self.cached.dedup();
    }

    pub fn name(&self, disk: usize) -> String {
        format!("Disk {}", disk_name(self.shape, disk))
    }

    /// Tells one thing that is wrong.
    pub fn tell(
        &mut self,
        what: &str,
        fields: Vec<(&'static str, Value)>,
        text: String,
    ) -> Result<(), Fault> {
        let before = if self.told == 0 { "{\"found\":[" } else { "," };
        self.told += 1;
        if !self.json {
            let file = self.file.as_ref().map_or(String::new(), |file| format!("{file}: "));
            return say::line(say::bad(&(file + &text)));
        }
        let mut all = vec![("what", what.into())];
        all.extend(self.file.as_deref().map(|file| ("file", file.into())));
        all.extend(fields);
        say::bytes(format!("{before}{}", Object(all)).as_bytes())
    }

    /// Tells which disks are lost.
    pub fn lost(&mut self, set: &Set) -> Result<(), Fault> {
        for disk in set.lost() {
            let (why, text) = match set.absence(disk) {
                Some(Absence::Unfinished(_)) => ("unfinished", "its image is not whole"),
                Some(Absence::Foreign(_)) => ("foreign", "something else is in its place"),
                _ => ("missing", "its image is missing"),
            };
            let text = format!("{} is lost: {text}", self.name(disk));
            self.tell("lost", vec![("disk", disk.into()), ("why", why.into())], text)?;
        }
        Ok(())
    }

    /// Tells which labels are bad.
    pub fn labels(&mut self, set: &Set) -> Result<(), Fault> {
        for (disk, at) in &set.bad_labels {
            let which = if *at == 0 { "first" } else { "last" };
            let text = format!("{}: the {which} label is bad", self.name(*disk));
            self.tell("label", vec![("disk", (*disk).into()), ("which", which.into())], text)?;
            self.bad += 1;
        }
        Ok(())
    }

    /// Tells what was found in a batch.
    pub fn found(&mut self, found: &mut Findings) -> Result<(), Fault> {
        let geometry = found.reader.geometry();
        for bad in found.reader.bad() {
            let stripes = geometry.stripes_of(found.batch.unit + bad.unit as u64);
            self.place(bad.disk, stripes, Some((bad.row, bad.flaw)))?;
        }
        for bad in &found.blocks {
            let stripes = geometry.stripes_of(found.batch.unit + bad.unit as u64);
            self.place(bad.disk, stripes, None)?;
        }
        for beyond in &found.beyond {
            let text = format!("Beyond repair: {}", beyond.told(self.shape));
            self.tell("beyond", json::beyond(beyond).0, text)?;
            self.beyond += 1;
        }
        for (stripe, verdict) in found.dirty()? {
            self.stripe(stripe, verdict)?;
        }
        Ok(())
    }

    /// Tells of bad cells of a disk's row in a unit, or of its bad checksums there.
    fn place(
        &mut self,
        disk: usize,
        range: Range<u64>,
        cells: Option<(usize, Flaw)>,
    ) -> Result<(), Fault> {
        let (name, which) = (self.name(disk), stripes(range.start, range.end));
        let (first, number) = (range.start.into(), (range.end - range.start).into());
        self.bad += 1;
        let Some((row, flaw)) = cells else {
            let fields = vec![("disk", disk.into()), ("stripe", first), ("count", number)];
            return self.tell("block", fields, format!("{name}, {which}: bad checksums"));
        };
        let (why, text) = match flaw {
            Flaw::Sum => ("sum", "does not fit its checksum"),
            Flaw::Read => ("read", "cannot be read"),
        };
        let fields = vec![
            ("disk", disk.into()),
            ("row", row.into()),
            ("stripe", first),
            ("count", number),
            ("why", why.into()),
        ];
        self.tell("bad", fields, format!("{name}, row {row}, {which}: {text}"))
    }

    /// Tells of a stripe whose pieces all fit their sums and whose parity does not fit them.
    fn stripe(&mut self, number: u64, verdict: Scrub) -> Result<(), Fault> {
        let disks = match verdict {
            Scrub::OneDisk(disk) => vec![disk],
            _ => Vec::new(),
        };
        let why = match disks.is_empty() {
            true => "several disks are needed to explain it".into(),
            false => format!("{} alone explains it", disk_names(self.shape, &disks)),
        };
        self.dirty += 1;
        let fields = vec![("stripe", number.into()), ("disks", (&*disks).into())];
        self.tell("dirty", fields, format!("Stripe {number} does not fit its parity: {why}"))
    }

    /// Tells the sum; people are told more before it if not all is well.
    pub fn end(&self, more: &str) -> Result<(), Fault> {
        let Report { told, stripes, bad, dirty, beyond, read, cached, .. } = self;
        if self.json {
            let object = Object(vec![
                ("stripes", (*stripes).into()),
                ("bad", (*bad).into()),
                ("dirty", (*dirty).into()),
                ("beyond", (*beyond).into()),
                ("read", (*read).into()),
                ("cached", (&**cached).into()),
            ]);
            let before = if *told == 0 { "{\"found\":[" } else { "" };
            return say::line(format!("{before}],{}}}", object.fields()));
        }
        let way = match cached.is_empty() {
            true => "from the medium".into(),
            false => format!("of {} perhaps from the page cache", disk_names(self.shape, cached)),
        };
        let verdict = match told {
            0 => say::good("all is well"),
            _ => say::bad(&format!("{more}{bad} bad, {dirty} dirty, {beyond} beyond repair")),
        };
        let (stripes, read) = (count(*stripes, "stripe"), bytes(*read));
        say::line(format!("Checked {stripes}, {read} read, {way}: {verdict}"))
    }
}
