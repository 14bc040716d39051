//! Disks, numbers and bytes as people name them.

use cuzhaveli::Shape;

/// A disk of a shape: its number, P or Q.
pub fn disk_name(shape: Shape, disk: usize) -> String {
    match disk.checked_sub(shape.disks()) {
        Some(0) => "P".into(),
        Some(1) => "Q".into(),
        _ => disk.to_string(),
    }
}

/// `disk 4`, `disks 0 and P`, `disks 1, 4 and Q`.
pub fn disk_names(shape: Shape, disks: &[usize]) -> String {
    let names: Vec<String> = disks.iter().map(|disk| disk_name(shape, *disk)).collect();
    match &names[..] {
        [] => "no disk".into(),
        [one] => format!("disk {one}"),
        [most @ .., last] => format!("disks {} and {last}", most.join(", ")),
    }
}

/// `1 stripe`, `984 stripes`, `no stripes`.
pub fn count(number: u64, what: &str) -> String {
    match number {
        0 => format!("no {what}s"),
        1 => format!("1 {what}"),
        _ => format!("{number} {what}s"),
    }
}

/// `512 bytes`, `73.0 MiB`.
pub fn bytes(number: u64) -> String {
    let units = ["KiB", "MiB", "GiB", "TiB", "PiB", "EiB"];
    if number < 1024 {
        return if number == 1 { "1 byte".into() } else { format!("{number} bytes") };
    }
    let mut size = number as f64 / 1024.0;
    let mut place = 0;
    while size >= 1023.95 && place + 1 < units.len() {
        (size, place) = (size / 1024.0, place + 1);
    }
    format!("{size:.1} {}", units[place])
}

/// `stripe 7`, `stripes 4 to 7`.
pub fn stripes(first: u64, end: u64) -> String {
    match end - first {
        1 => format!("stripe {first}"),
        _ => format!("stripes {first} to {}", end - 1),
    }
}

#[cfg(test)]
mod tests {
    use super::*;

    #[test]
    fn one_and_many() {
        let shape = Shape::new(5, 4, 1).unwrap();
        assert_eq!(disk_names(shape, &[3]), "disk 3");
        assert_eq!(disk_names(shape, &[0, 4]), "disks 0 and P");
        assert_eq!(disk_names(shape, &[1, 4, 5]), "disks 1, P and Q");
        let counts = [0, 1, 2].map(|number| count(number, "unit"));
        assert_eq!(counts, ["no units", "1 unit", "2 units"]);
        assert_eq!([stripes(3, 4), stripes(3, 6)], ["stripe 3", "stripes 3 to 5"]);
    }

    #[test]
    fn bytes_by_powers_of_1024() {
        for (number, told) in [
            (0, "0 bytes"),
            (1, "1 byte"),
            (1023, "1023 bytes"),
            (1024, "1.0 KiB"),
            (76_546_048, "73.0 MiB"),
            ((1 << 20) - 1, "1.0 MiB"),
            (u64::MAX, "16.0 EiB"),
        ] {
            assert_eq!(bytes(number), told);
        }
    }
}
