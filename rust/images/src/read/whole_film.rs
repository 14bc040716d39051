//! All of a film in order: while some of it is handed on, what follows is compared and copied.

use std::sync::mpsc::{sync_channel, SyncSender};
use std::sync::{Arc, Mutex};
use std::thread;

use crate::fault::Fault;
use crate::layout::geometry::{Batch, Geometry, MOST_BYTES};
use crate::os::pace::Pace;
use crate::read::gaps::Beyond;
use crate::read::reader::Reader;
use crate::read::set::Set;
use crate::read::wanted::Wanted;

/// The most bytes that are handed on at once. Most units have less film, so that their pieces are
/// compared once.
const MOST_AT_ONCE: usize = 16 << 20;
/// The most that is handed on while as much is copied: two of these are in memory.
const MOST_BESIDE: usize = 12 << 20;

/// Where a film goes in order.
pub trait Sink {
    /// Takes film that stands there.
    fn film(&mut self, at: u64, bytes: &[u8]) -> Result<(), Fault>;
    /// Is told of film that cannot be made right, of that many bytes; an error ends it.
    fn gap(&mut self, at: u64, bytes: u64, beyond: &Beyond) -> Result<(), Fault>;
}

/// What a whole film was read by.
pub struct Decoded {
    pub read: u64,
    pub mended: u64,
}

/// Film of a unit of a batch that is handed on at once.
#[derive(Clone, Copy)]
struct Part {
    unit: usize,
    /// Its byte of the unit's film, and of the whole film.
    from: usize,
    at: u64,
    len: usize,
}

/// Memory for parts that is used again.
type Rooms = Mutex<Vec<Vec<u8>>>;

/// Hands all of a film on in order.
pub fn read_all(set: &Arc<Set>, sink: &mut impl Sink) -> Result<Decoded, Fault> {
    let geometry = set.label.geometry;
    let wanted = Wanted::film(set)?;
    let mut reader = Reader::new(set.clone(), MOST_BYTES, Pace::new(None));
    let rooms = Rooms::default();
    let mut batches = geometry.batches(0, MOST_BYTES).peekable();
    reader.ahead(batches.peek().copied(), &wanted);
    while let Some(batch) = batches.next() {
        reader.ahead(batches.peek().copied(), &wanted);
        reader.fetch(batch, &wanted)?;
        hand_on(&mut reader, &parts(geometry, batch), &wanted, &rooms, sink)?;
    }
    Ok(Decoded { read: reader.read(), mended: reader.mended })
}

/// The parts of the film of a batch.
fn parts(geometry: Geometry, batch: Batch) -> Vec<Part> {
    let stripe = geometry.shape.data_len() as u64;
    let mut parts = Vec::new();
    for unit in 0..batch.units {
        let stripes = geometry.stripes_of(batch.unit + unit as u64);
        let start = stripes.start * stripe;
        let bytes = ((stripes.end * stripe).min(geometry.length) - start) as usize;
        for from in (0..bytes).step_by(MOST_AT_ONCE) {
            let len = (bytes - from).min(MOST_AT_ONCE);
            parts.push(Part { unit, from, at: start + from as u64, len });
        }
    }
    parts
}

/// Hands parts on in order, with gaps for units that cannot be made right.
fn hand_on(
    reader: &mut Reader,
    mut parts: &[Part],
    wanted: &Wanted,
    rooms: &Rooms,
    sink: &mut impl Sink,
) -> Result<(), Fault> {
    loop {
        parts = &parts[stream(reader, parts, rooms, sink)?..];
        let Some(part) = parts.first() else { return Ok(()) };
        // It does not fit as it was read.
        let rest = parts.iter().take_while(|one| one.unit == part.unit);
        if let Some(beyond) = reader.set_right(part.unit, wanted)? {
            let (count, bytes) = (rest.clone().count(), rest.map(|one| one.len as u64).sum());
            sink.gap(part.at, bytes, &beyond)?;
            parts = &parts[count..];
            continue;
        }
        let mut room = vec![0; part.len];
        reader.film(part.unit, part.from, &mut room)?;
        sink.film(part.at, &room)?;
        parts = &parts[1..];
    }
}

/// Hands parts on as long as they fit; gives how many that were.
fn stream(
    reader: &Reader,
    parts: &[Part],
    rooms: &Rooms,
    sink: &mut impl Sink,
) -> Result<usize, Fault> {
    let mut done = 0;
    if parts.len() > 1 && parts.iter().all(|part| part.len <= MOST_BESIDE) {
        done = thread::scope(|scope| {
            let (full, ready) = sync_channel(0);
            let copy = move || copy_all(reader, parts, rooms, &full);
            if thread::Builder::new().spawn_scoped(scope, copy).is_err() {
                return Ok(0);
            }
            let mut done = 0;
            for (part, room) in parts.iter().zip(ready) {
                sink.film(part.at, &room)?;
                put_back(rooms, room);
                done += 1;
            }
            Ok::<usize, Fault>(done)
        })?;
    }
    for part in &parts[done..] {
        let room = taken(rooms, part.len);
        let Some(room) = copied(reader, *part, room) else { break };
        sink.film(part.at, &room)?;
        put_back(rooms, room);
        done += 1;
    }
    Ok(done)
}

/// Copies parts one after another for who hands them on, as long as they fit.
fn copy_all(reader: &Reader, parts: &[Part], rooms: &Rooms, full: &SyncSender<Vec<u8>>) {
    for part in parts {
        let Some(room) = copied(reader, *part, taken(rooms, part.len)) else { return };
        if full.send(room).is_err() {
            return;
        }
    }
}

/// The film of a part, if it fits.
fn copied(reader: &Reader, part: Part, mut room: Vec<u8>) -> Option<Vec<u8>> {
    reader.film(part.unit, part.from, &mut room).is_ok().then_some(room)
}

fn taken(rooms: &Rooms, len: usize) -> Vec<u8> {
    let mut room = rooms.lock().ok().and_then(|mut rooms| rooms.pop()).unwrap_or_default();
    room.resize(len, 0);
    room
}

fn put_back(rooms: &Rooms, room: Vec<u8>) {
    if let Ok(mut rooms) = rooms.lock() {
        rooms.push(room);
    }
}
