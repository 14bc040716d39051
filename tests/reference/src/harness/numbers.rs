//! Numbers that calls refuse, and the lists that groups sweep.

use super::model::WIDTHS;
use super::Shape;

/// Widths that are small, huge, or accepted once cut to fewer bits.
pub fn any_widths() -> Vec<usize> {
    let mut widths: Vec<usize> = (0..=40).collect();
    for high in [1 << 8, 1 << 16, 1 << 31, 1 << 32, 1 << 63] {
        widths.extend(WIDTHS.iter().map(|p| high + p));
        widths.extend([high - 1, high]);
    }
    widths.extend([usize::MAX - 1, usize::MAX]);
    widths
}

/// The accepted widths and a few others.
fn some_widths() -> Vec<usize> {
    let mut widths = WIDTHS.to_vec();
    widths.extend([0, 1, 2, 9, 37, 261, (1 << 32) + 5, usize::MAX]);
    widths
}

/// Numbers of data disks around 2 and p, huge ones, and ones accepted once cut or once 2 is added.
pub fn any_data_disks(width: usize) -> Vec<usize> {
    let near = width.min(64);
    let mut numbers = vec![0, 1, 2, 3, near / 2, near.max(1) - 1, near, near + 1, near + 2];
    for high in [1 << 8, 1 << 16, 1 << 31, 1 << 32, 1 << 63] {
        numbers.extend([high - 1, high, high + 2, high + near]);
    }
    numbers.extend([usize::MAX - 1, usize::MAX]);
    numbers
}

/// Disk numbers around k + 1 and p + 1, huge ones, and ones in range once cut.
pub fn any_disks(width: usize, disks: usize) -> Vec<usize> {
    let near = disks.min(64);
    let mut numbers: Vec<usize> = (0..near.max(width.min(64)) + 5).collect();
    for high in [1 << 8, 1 << 16, 1 << 31, 1 << 32, 1 << 63] {
        numbers.extend([high - 1, high, high + 1, high + near]);
    }
    numbers.extend([usize::MAX - near, usize::MAX - 1, usize::MAX]);
    numbers
}

/// Every such width with such numbers of data disks and of a disk.
pub fn any_losses() -> impl Iterator<Item = (usize, usize, usize)> {
    let arrays = |width| any_data_disks(width).into_iter().map(move |disks| (width, disks));
    let losses =
        |(width, disks)| any_disks(width, disks).into_iter().map(move |lost| (width, disks, lost));
    any_widths().into_iter().flat_map(arrays).flat_map(losses)
}

/// Disk numbers of which an accepted k takes three: 0, P, Q, and then three that are over k + 1.
pub fn few_disks(width: usize, disks: usize) -> [usize; 6] {
    let over = disks.wrapping_add(2);
    [0, disks, disks.wrapping_add(1), over, over.max(width.wrapping_add(1)), usize::MAX]
}

/// Cell sizes around 1 and 4,096, huge ones, and ones accepted once cut.
pub fn any_sizes() -> Vec<usize> {
    let mut sizes: Vec<usize> = (0..=8).collect();
    sizes.extend([64, 511, 4_095, 4_096, 4_097, 4_098, 8_192]);
    for high in [1 << 8, 1 << 16, 1 << 31, 1 << 32, 1 << 63] {
        sizes.extend([high - 1, high, high + 1, high + 7, high + 4_096]);
    }
    sizes.extend([usize::MAX - 1, usize::MAX]);
    sizes
}

/// Accepted and refused cell sizes, a few of each.
const FEW_SIZES: [usize; 6] = [1, 2, 0, 4_097, (1 << 32) + 1, usize::MAX];

/// Widths and numbers of data disks, each accepted or refused, with cell sizes of both sorts.
pub fn any_shapes() -> Vec<Shape> {
    let mut shapes = Vec::new();
    for width in some_widths() {
        for disks in any_data_disks(width) {
            shapes.extend(FEW_SIZES.map(|size| Shape::new(width, disks, size)));
        }
    }
    shapes
}

/// A width or a number of data disks cut to what fits small lent memory: a small one stays as
/// it is, one that is accepted once cut becomes that.
pub fn cut(number: usize) -> usize {
    (number % (1 << 8)).min(40)
}

/// The shape with numbers cut to what fits small lent memory, its size to 16 and to 8 bits.
pub fn cut_shapes(shape: Shape) -> [Shape; 2] {
    let cut_size = |limit: usize| (shape.cell_size % limit).min(8);
    [1 << 16, 1 << 8].map(|limit| Shape::new(cut(shape.width), cut(shape.disks), cut_size(limit)))
}

/// The stripe's length as 64 bits hold it, or 0 where small lent memory does not.
pub fn wrapped_length(shape: Shape) -> usize {
    let cells = shape.disks.wrapping_add(2).wrapping_mul(shape.width);
    let length = cells.wrapping_mul(shape.cell_size);
    if length < 1 << 14 {
        length
    } else {
        0
    }
}
