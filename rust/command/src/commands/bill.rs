//! `bill`: the price of bytes read.

use cuzhaveli::{Bill, RefusalKind};
use cuzhaveli_images::fault::Fault;
use cuzhaveli_images::names::{bytes, count};

use crate::cli::args::Given;
use crate::cli::table::{Command, Kind, Opt, Use};
use crate::cli::values::{number, usage};
use crate::cli::words::{BYTES, JSON};
use crate::print::json::Object;
use crate::print::say;

pub const RATES: Opt = Opt {
    name: "--rates",
    value: Some(("A,B,C", Kind::Text)),
    about: "cents a GiB, three numbers up to 1000: for the first 64 GiB, up to 1,024 GiB, and for the rest",
};

pub const COMMAND: Command = Command {
    name: "bill",
    brief: "the price of bytes read",
    about: &[
        "The bill of N bytes read: A cents a GiB for the first 64 GiB, B up to 1,024 GiB, C for the rest.",
    ],
    words: &[Use::Opt(&RATES), Use::Opt(&BYTES), Use::May(&Use::Opt(&JSON))],
    tells: &[
        ("first", "the bytes of the first 64 GiB"),
        ("second", "those up to 1,024 GiB"),
        ("third", "the rest"),
        ("cents", "the bill"),
    ],
};

pub fn run(given: &Given) -> Result<(), Fault> {
    let rates = rates(given)?.ok_or_else(|| usage("--rates is missing".into()))?;
    let Bill { bands: [first, second, third], cents } =
        bill(given, given.needed("--bytes")?, rates)?;
    let object = Object(vec![
        ("first", first.into()),
        ("second", second.into()),
        ("third", third.into()),
        ("cents", cents.into()),
    ]);
    let parts = [first, second, third].into_iter().zip(rates).filter(|(band, _)| *band > 0);
    let parts: Vec<String> = parts
        .map(|(band, rate)| format!("{} at {} a GiB", bytes(band), count(rate, "cent")))
        .collect();
    let text = if parts.is_empty() { "nothing was read".into() } else { parts.join(", ") };
    say::told(given, object, format!("{}: {text}", count(cents, "cent")))
}

/// The three rates, if they are given.
pub fn rates(given: &Given) -> Result<Option<[u64; 3]>, Fault> {
    let Some(rates) = given.value("--rates") else { return Ok(None) };
    let fields = rates.to_string_lossy();
    let rates: Vec<u64> = fields
        .split(',')
        .map(|field| number("--rates", field.as_ref()))
        .collect::<Result<_, _>>()?;
    let three = rates.try_into();
    three.map(Some).map_err(|_| usage(format!("--rates {fields}: not three numbers A,B,C")))
}

/// The bill of so many bytes.
pub fn bill(given: &Given, bytes: u64, rates: [u64; 3]) -> Result<Bill, Fault> {
    cuzhaveli::bill(bytes, rates).map_err(|refusal| match refusal.kind() {
        RefusalKind::BadRate => given.refused("--rates", refusal),
        _ => given.refused("--bytes", refusal),
    })
}
