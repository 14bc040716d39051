//! Any bytes of the film of a set.

use std::sync::Arc;

use crate::fault::Fault;
use crate::layout::geometry::Geometry;
use crate::os::pace::Pace;
use crate::read::reader::Reader;
use crate::read::set::Set;
use crate::read::wanted::{Reading, Wanted};

/// A film that is read at any place.
pub struct FilmReader {
    set: Arc<Set>,
    geometry: Geometry,
    reader: Reader,
    whole: Wanted,
}

impl FilmReader {
    pub fn new(set: Arc<Set>) -> Result<FilmReader, Fault> {
        let geometry = set.label.geometry;
        let reader = Reader::new(set.clone(), 1, Pace::new(None)); // one unit at a time
        let whole = Wanted::film(&set)?;
        Ok(FilmReader { set, geometry, reader, whole })
    }

    /// Reads film from a byte on; as many as there are, up to the film's end.
    pub fn read(&mut self, offset: u64, bytes: &mut [u8]) -> Result<usize, Fault> {
        let left = self.geometry.length.saturating_sub(offset);
        let len = left.min(bytes.len() as u64) as usize;
        let in_unit = self.geometry.unit as usize * self.geometry.shape.data_len();
        let mut done = 0;
        while done < len {
            let Some((unit, from)) = self.geometry.film_at(offset + done as u64) else { break };
            let here = (in_unit - from).min(len - done);
            self.read_unit(unit, from, &mut bytes[done..done + here])?;
            done += here;
        }
        Ok(done)
    }

    /// Reads film of one unit: just its pieces or, where a disk of them is lost, all that brings
    /// them back.
    fn read_unit(&mut self, unit: u64, from: usize, bytes: &mut [u8]) -> Result<(), Fault> {
        let readings: Vec<Reading> = pieces(self.geometry, from as u64, bytes.len() as u64)
            .map(|(disk, row)| Reading { disk, rows: row..row + 1 })
            .collect();
        let there = readings.iter().all(|reading| self.set.image(reading.disk).is_some());
        let batch = self.geometry.batch_of(unit, 1);
        let some = Wanted::cells(readings);
        let wanted = if there { &some } else { &self.whole };
        self.reader.fetch(batch, wanted)?;
        if self.reader.film(0, from, bytes).is_ok() {
            return Ok(());
        }
        if let Some(beyond) = self.reader.set_right(0, wanted)? {
            return Err(Fault::Beyond(beyond.told(self.geometry.shape)));
        }
        let number = format!("unit {unit}: ");
        self.reader.film(0, from, bytes).map_err(|refusal| Fault::Refused(refusal, number))
    }
}

/// The pieces of a unit, by disk and row, upward, that hold these bytes of its film.
pub fn pieces(geometry: Geometry, at: u64, len: u64) -> impl Iterator<Item = (usize, usize)> {
    let (width, size) = (geometry.shape.width() as u64, geometry.shape.cell_size() as u64);
    let all = geometry.shape.disks() as u64 * width;
    // Over a whole stripe every piece is met; what goes on in the next one begins at 0.
    let (first, end) = (at / size, (at + len).div_ceil(size));
    let start = first % all;
    let stop = start + (end - first).min(all);
    let numbers = (0..stop.saturating_sub(all)).chain(start..stop.min(all));
    numbers.map(move |number| ((number / width) as usize, (number % width) as usize))
}

#[cfg(test)]
mod tests {
    use std::path::PathBuf;

    use cuzhaveli::Shape;

    use super::*;
    use crate::layout::label::new_name;
    use crate::read::set::image_path;
    use crate::write::encode::{encode, Source};
    use crate::write::output::Output;

    /// A set of images in a folder that is removed at the end.
    struct Scratch(PathBuf);

    impl Drop for Scratch {
        fn drop(&mut self) {
            let _ = std::fs::remove_dir_all(&self.0);
        }
    }

    fn encoded(name: &str, film: &[u8], geometry: Geometry) -> Scratch {
        let folder = std::env::temp_dir().join(format!("cuzhaveli-{name}-{}", std::process::id()));
        std::fs::create_dir(&folder).unwrap();
        let scratch = Scratch(folder);
        let create = |disk| Output::create(&image_path(&scratch.0, disk)).unwrap();
        let mut outputs: Vec<Output> = (0..geometry.disks()).map(create).collect();
        let mut source = Source { film, length: Some(geometry.length), name: "film".into() };
        let set = new_name().unwrap();
        let label = encode(&mut source, set, geometry, &outputs, |_| ()).unwrap();
        for (disk, output) in outputs.iter_mut().enumerate() {
            output.label(&label, disk).unwrap();
            output.name().unwrap();
        }
        scratch
    }

    /// Every place and some lengths, with none, one and two disks lost and a bad byte.
    #[test]
    fn any_bytes_of_the_film() {
        let bytes: Vec<u8> = (0..1000u32).map(|n| (n * n >> 3) as u8).collect();
        let shape = Shape::new(3, 3, 7).unwrap();
        let geometry = Geometry::new(shape, 2, 6, bytes.len() as u64).unwrap();
        let scratch = encoded("any", &bytes, geometry);
        for lost in [None, Some(1), Some(4), Some(0)] {
            if let Some(disk) = lost {
                let _ = std::fs::remove_file(image_path(&scratch.0, disk));
            }
            if lost == Some(0) {
                break; // three are lost
            }
            let set = Arc::new(Set::open(&scratch.0, &[]).unwrap());
            let mut film = FilmReader::new(set).unwrap();
            for at in 0..1010 {
                for len in [0, 1, 8, 64, 300] {
                    let mut read = vec![0; len];
                    let got = film.read(at as u64, &mut read).unwrap();
                    let wanted = &bytes[at.min(1000)..(at + len).min(1000)];
                    assert_eq!(&read[..got], wanted, "{len} bytes at {at}, lost {lost:?}");
                }
            }
        }
        assert!(Set::open(&scratch.0, &[]).is_err());
    }

    /// A read of a few bytes reads their pieces and a checksum block alone.
    #[test]
    fn little_is_read_for_little() {
        let bytes = vec![5; 6000];
        let shape = Shape::new(5, 5, 16).unwrap();
        let geometry = Geometry::new(shape, 2, 4, 6000).unwrap();
        let scratch = encoded("little", &bytes, geometry);
        let set = Arc::new(Set::open(&scratch.0, &[]).unwrap());
        let mut film = FilmReader::new(set).unwrap();
        let mut read = [0; 16];
        film.read(1600, &mut read).unwrap();
        assert_eq!(film.reader.read(), 2 * 16 + geometry.block_len() as u64);
        film.read(1605, &mut read[..3]).unwrap();
        assert_eq!(film.reader.read(), 2 * 16 + geometry.block_len() as u64);
    }
}
