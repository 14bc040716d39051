//! `rebuild` of a bare set: its lost images.

use std::ffi::OsStr;
use std::path::Path;
use std::sync::Arc;

use cuzhaveli::Shape;
use cuzhaveli_images::fault::Fault;
use cuzhaveli_images::names::{bytes, count, disk_names};
use cuzhaveli_images::os::folder::lock;
use cuzhaveli_images::os::stop;
use cuzhaveli_images::read::set::Set;
use cuzhaveli_images::read::wanted::Wanted;
use cuzhaveli_images::read::way::{Choice, Way};
use cuzhaveli_images::write::rebuild::{rebuild, Rebuilt};
use cuzhaveli_images::write::spares::make_spares;

use crate::cli::args::Given;
use crate::cli::near::meant;
use crate::cli::values::{usage, DiskName};
use crate::commands::bill::{bill, rates};
use crate::print::json::{self, Object};
use crate::print::plan_text::{read_text, steps};
use crate::print::progress::Progress;
use crate::print::say;

/// The plans that have a name.
pub const PLANS: &[&str] = &["balanced", "fewest", "own", "rows"];

pub fn run(given: &Given) -> Result<(), Fault> {
    let folder = given.path(0);
    given.only_for("a store", &["--new", "--from"])?;
    given.at_most_one(&["--plan", "--relieve", "--test"])?;
    let (pace, named, rates) = (given.pace()?, given.overwrite()?, rates(given)?);
    if let Some(rates) = rates {
        bill(given, 0, rates)?; // refused before anything is read
    }
    let _lock = if given.flag("-n") { None } else { Some(lock(folder)?) };
    let set = Arc::new(Set::open(folder, &named_disks(given)?)?);
    say::notes(&set);
    let lost = set.lost();
    let choice = choice(given, set.label.geometry.shape, &lost)?;
    let wanted = Wanted::rebuild(&set, &lost, &choice);
    let wanted = wanted.map_err(|refusal| given.refused("--relieve", refusal))?;
    let mut spares = Vec::new();
    let account = match given.flag("-n") || lost.is_empty() {
        true => would(&set, &lost, &wanted),
        false => {
            spares = make_spares(&set, &lost, &named)?;
            stop::says("what is rebuilt stays; the same command goes on");
            let what = format!("rebuild {}", disk_names(set.label.geometry.shape, &lost));
            let each = wanted.reads() as u64 * set.label.geometry.shape.cell_size() as u64;
            let total = Some(each * set.label.geometry.stripes);
            let mut progress = Progress::new(what, total, given.flag("-q"));
            rebuild(&set, &mut spares, &wanted, pace, |stripes| progress.add(stripes * each))?
        }
    };
    let cents = match rates {
        Some(rates) => bill(given, account.read, rates)?.cents,
        None => 0,
    };
    let lacking = spares.iter().filter(|spare| spare.lacks()).map(|spare| spare.output.path());
    let lacking = lacking.map(|path| path.display().to_string()).collect();
    Story { given, set: &set, lost: &lost, wanted: &wanted, account: &account, lacking, cents }
        .tell()
}

/// The plan that was asked for. With two disks lost there is none to choose, nor anything to test
/// survivors by.
fn choice(given: &Given, shape: Shape, lost: &[usize]) -> Result<Choice, Fault> {
    let given_one = ["--plan", "--relieve", "--test"].into_iter().find(|name| given.flag(name));
    let (Some(name), [one, more @ ..]) = (given_one, lost) else { return Ok(Choice::Unasked) };
    if !more.is_empty() {
        return Err(usage(format!(
            "{name}: with two disks lost all survivors are read, and any belong together; leave it out"
        )));
    }
    if let Some(relieved) = given.disk("--relieve", shape)? {
        return Ok(Choice::Relief(relieved));
    }
    let Some(plan) = given.value("--plan") else { return Ok(Choice::Tested) };
    match plan.to_str() {
        Some("balanced") => Ok(Choice::Balanced),
        Some("fewest") => Ok(Choice::Fewest),
        Some("own") => Ok(Choice::Ours),
        Some("rows") => Ok(Choice::Rows),
        _ => steps(shape, *one, &plan_file(plan)?)
            .map(Choice::Plan)
            .map_err(|refusal| given.refused("--plan", refusal)),
    }
}

/// The text of a plan's file; of a word that is neither a file nor a plan's name, that name.
fn plan_file(plan: &OsStr) -> Result<Vec<u8>, Fault> {
    if plan != "-" && !Path::new(plan).exists() {
        let near = meant(&plan.to_string_lossy(), PLANS.iter().copied());
        return Err(usage(format!("--plan {}: no such plan, and no file{near}", plan.display())));
    }
    read_text(plan)
}

/// The disks that count as lost. P and Q have numbers once the set is known.
fn named_disks(given: &Given) -> Result<Vec<usize>, Fault> {
    let disks = given.disks("--disk")?;
    let known = disks.iter().map(|disk| match disk {
        DiskName::Number(number) => Some(*number),
        _ => None,
    });
    if let Some(numbers) = known.collect() {
        return Ok(numbers);
    }
    let shape = Set::open(given.path(0), &[])?.label.geometry.shape;
    Ok(disks.into_iter().map(|disk| disk.number(shape)).collect())
}

/// What a rebuild would read of cells, if nothing of it is there yet.
fn would(set: &Set, lost: &[usize], wanted: &Wanted) -> Rebuilt {
    let geometry = set.label.geometry;
    let stripes = if lost.is_empty() { 0 } else { geometry.stripes };
    let bytes = |cells: usize| (cells * geometry.shape.cell_size()) as u64 * stripes;
    let (read, busiest) = (bytes(wanted.reads()), bytes(wanted.busiest()));
    Rebuilt { stripes, read, busiest, ..Rebuilt::default() }
}

/// What is told of a rebuild, done or not.
struct Story<'a> {
    given: &'a Given,
    set: &'a Set,
    lost: &'a [usize],
    wanted: &'a Wanted,
    account: &'a Rebuilt,
    /// The images that are not whole.
    lacking: Vec<String>,
    cents: u64,
}

impl Story<'_> {
    fn tell(&self) -> Result<(), Fault> {
        let beyond = &self.account.beyond;
        if beyond.is_empty() || self.given.flag("--json") {
            say::told(self.given, self.object(), self.text())?;
        }
        if beyond.is_empty() {
            return Ok(());
        }
        say::gaps(self.set, beyond);
        Err(Fault::Beyond(format!(
            "{} cannot be rebuilt; the others are, in {}, which gets no label. Put back images that are somewhere else and \
             run it again, or save the film: cuzhaveli decode {} FILM",
            count(beyond.stripes(), "stripe"),
            self.lacking.join(", "),
            self.set.folder().display()
        )))
    }

    fn rows(&self) -> u64 {
        self.account.stripes * self.set.label.geometry.shape.data_len() as u64
    }

    fn object(&self) -> Object {
        let Rebuilt { stripes, kept, read, busiest, mended, beyond } = self.account;
        Object(vec![
            ("lost", self.lost.into()),
            ("plan", self.wanted.way.name().into()),
            ("done", (!self.given.flag("-n") && beyond.is_empty()).into()),
            ("stripes", (*stripes).into()),
            ("kept", (*kept).into()),
            ("read", (*read).into()),
            ("rows", self.rows().into()),
            ("busiest", (*busiest).into()),
            ("mended", (*mended).into()),
            ("cents", self.cents.into()),
            ("beyond", beyond.stretches().iter().map(json::beyond).collect()),
            ("gaps", beyond.stripes().into()),
        ])
    }

    /// Such as `Rebuilt disk 4 by the balanced plan: 984 stripes, 73.0 MiB read, 24 % less than by
    /// rows; busiest survivor 11.8 MiB`.
    fn text(&self) -> String {
        let Rebuilt { stripes, kept, read, busiest, mended, .. } = self.account;
        if self.lost.is_empty() {
            return "Nothing is lost".into();
        }
        let (verb, of) =
            if self.given.flag("-n") { ("Would rebuild", " of cells") } else { ("Rebuilt", "") };
        let disks = disk_names(self.set.label.geometry.shape, self.lost);
        let mut text =
            format!("{verb} {disks} {}: {}", by(&self.wanted.way), count(*stripes, "stripe"));
        if *kept > 0 {
            text += &format!(" ({} were there already)", kept);
        }
        text += &format!(", {}{of} read", bytes(*read));
        let rows = self.rows();
        let less = (100 * rows.saturating_sub(*read) + rows / 2) / rows.max(1);
        if less > 0 {
            text += &format!(", {less} % less than by rows");
        }
        if *mended > 0 {
            text += &format!(", {} mended", count(*mended, "unit"));
        }
        text += &format!("; busiest survivor {}", bytes(*busiest));
        match self.given.flag("--rates") {
            true => text + "; " + &count(self.cents, "cent"),
            false => text,
        }
    }
}

/// How disks come back, in words.
fn by(way: &Way) -> &'static str {
    match way {
        Way::None => "from nothing",
        Way::Ours(_) => "by our plan",
        Way::Balanced(_) => "by the balanced plan",
        Way::Fewest(..) => "by the fewest plan",
        Way::Relief(..) => "by the relief plan",
        Way::Plan(..) => "by the plan that was given",
        Way::Tested(_) => "from tested survivors",
        Way::Rows(_) | Way::SomeRows(..) => "by rows",
        Way::Two(_) => "from all survivors",
    }
}
