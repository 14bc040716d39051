//! What compared bytes are parts of, so that a difference can be told by disk and row.

use super::lent::GUARD;
use super::Shape;

pub enum Part {
    /// A stripe, or several one after another, those of servers.
    Stripe(Shape),
    Column(Shape),
    Any,
}

impl Part {
    /// Where a byte of so many stands, in words that follow its number; nothing if the length is
    /// not that of the part, alone or between guards.
    pub fn name(&self, length: usize, place: usize) -> String {
        let Some((shape, whole)) = self.length() else {
            return String::new();
        };
        let fits = |length: usize| length > 0 && length % whole == 0;
        let place = match length.checked_sub(2 * GUARD) {
            _ if fits(length) => place,
            Some(inner) if !fits(inner) => return String::new(),
            Some(_) if place < GUARD => return ", a guard before it".to_string(),
            Some(inner) if place >= GUARD + inner => return ", a guard after it".to_string(),
            Some(_) => place - GUARD,
            None => return String::new(),
        };
        let (cell, byte) = (place % whole / shape.cell_size, place % shape.cell_size);
        let (disk, row) = (cell / shape.width, cell % shape.width);
        let server = match place / whole {
            0 => String::new(),
            server => format!(" of server {server}"),
        };
        match self {
            Part::Stripe(_) => format!(": disk {disk}{server}, row {row}, byte {byte} of its cell"),
            _ => format!(": row {row}, byte {byte} of its cell"),
        }
    }

    /// The shape, and the bytes of the part; nothing for shapes that no memory has.
    fn length(&self) -> Option<(Shape, usize)> {
        let (shape, disks) = match self {
            Part::Stripe(shape) => (*shape, shape.disks.checked_add(2)?),
            Part::Column(shape) => (*shape, 1),
            Part::Any => return None,
        };
        let column = shape.width.checked_mul(shape.cell_size)?;
        Some((shape, disks.checked_mul(column)?)).filter(|(_, length)| *length > 0)
    }
}

#[cfg(test)]
mod tests {
    use super::*;

    /// A stripe of 5 disks of 5 rows, cells of 2 bytes: byte 33 is the second of row 1 of disk 3.
    #[test]
    fn places() {
        let shape = Shape::new(5, 3, 2);
        let stripe = Part::Stripe(shape);
        assert_eq!(stripe.name(50, 33), ": disk 3, row 1, byte 1 of its cell");
        assert_eq!(stripe.name(50 + 2 * GUARD, GUARD + 33), stripe.name(50, 33));
        assert_eq!(stripe.name(150, 133), ": disk 3 of server 2, row 1, byte 1 of its cell");
        assert_eq!(stripe.name(50 + 2 * GUARD, GUARD - 1), ", a guard before it");
        assert_eq!(stripe.name(50 + 2 * GUARD, GUARD + 50), ", a guard after it");
        assert_eq!(Part::Column(shape).name(10, 3), ": row 1, byte 1 of its cell");
        assert_eq!(Part::Column(shape).name(9, 3), "");
        assert_eq!(Part::Stripe(Shape::new(usize::MAX, 2, 2)).name(9, 3), "");
        assert_eq!(Part::Any.name(9, 3), "");
    }
}
