//! The images of a point by the group, to tell which two numbers of a map make it no map of its group, and to name a peak once for all of them; and
//! the lowest index of a reflection's orbit, to name the record that another clashes with. They are used for words alone: what is refused, and which
//! number a point has, the proved calls say.
use crate::header::Cell;
use std::fmt::Display;

/// What an operation does to an index: whether it changes its sign, then whether it adds half the length.
type Move = (bool, bool);
const SAME: Move = (false, false);
const OPPOSITE: Move = (true, false);
const HALF: Move = (false, true);
const HALF_OPPOSITE: Move = (true, true);

/// The operations of each group, the identity left out.
const OPERATIONS: [&[[Move; 3]]; 5] = [
    &[],
    &[[OPPOSITE, OPPOSITE, HALF]],
    &[[SAME, SAME, OPPOSITE]],
    &[[HALF, SAME, OPPOSITE]],
    &[[HALF_OPPOSITE, OPPOSITE, HALF], [OPPOSITE, HALF, HALF_OPPOSITE], [HALF, HALF_OPPOSITE, OPPOSITE]],
];

/// The first point of the stored planes that has another value than one of its images there, and that image: their places in the volume.
fn differing<T: PartialEq>(cell: &Cell, value: impl Fn(usize) -> T) -> Option<(usize, usize)> {
    let (across, along) = (cell.length(0), cell.length(1));
    let points = (0..cell.rows()).flat_map(|row| (0..along).map(move |y| [row % across, y, row / across]));
    let pairs = points.flat_map(|point| OPERATIONS[usize::from(cell.group)].iter().map(move |operation| (point, image(cell, point, operation))));
    let stored = pairs.filter(|(_, image)| image[2] < cell.planes());
    stored.map(|(point, image)| (place(cell, point), place(cell, image))).find(|&(point, image)| value(point) != value(image))
}

/// What differs, in words: what the values are called, and the two of them.
pub fn said<T: PartialEq + Display>(cell: &Cell, what: &str, value: impl Fn(usize) -> T) -> Option<String> {
    let (point, image) = differing(cell, &value)?;
    Some(format!("{what} {} at {}, but {} at its image {}", value(point), cell.point_at(point), value(image), cell.point_at(image)))
}

/// The points of the cell that are images of a point, itself among them, each once.
pub fn of_point(cell: &Cell, point: [usize; 3]) -> Vec<[usize; 3]> {
    let mut found = vec![point];
    for operation in OPERATIONS[usize::from(cell.group)] {
        let image = image(cell, point, operation);
        if !found.contains(&image) {
            found.push(image);
        }
    }
    found
}

fn image(cell: &Cell, point: [usize; 3], operation: &[Move; 3]) -> [usize; 3] {
    [0, 1, 2].map(|axis| {
        let (length, (opposite, half)) = (cell.length(axis), operation[axis]);
        let moved = if opposite { length - point[axis] } else { point[axis] };
        (moved + if half { length / 2 } else { 0 }) % length
    })
}

/// The lowest index of the orbit of a reflection in the cell, by the group and by Friedel's rule: an operation moves an index as it moves a point, but
/// for its shift, which changes the value alone. An index that is not in the cell has itself.
pub fn lowest_reflection(cell: &Cell, index: [u32; 3]) -> [u32; 3] {
    let lengths = cell.lengths.map(u32::from);
    if (0..3).any(|axis| index[axis] >= lengths[axis]) {
        return index;
    }
    let opposite = |axis: usize| if index[axis] == 0 { 0 } else { lengths[axis] - index[axis] };
    let moved = |changed: [bool; 3]| [0, 1, 2].map(|axis| if changed[axis] { opposite(axis) } else { index[axis] });
    let operations = OPERATIONS[usize::from(cell.group)].iter().map(|operation| operation.map(|(opposite, _)| opposite)).chain([[false; 3]]);
    operations.flat_map(|changed| [moved(changed), moved(changed.map(|changed| !changed))]).min().unwrap_or(index)
}

fn place(cell: &Cell, [x, y, z]: [usize; 3]) -> usize {
    (z * cell.length(0) + x) * (cell.length(1) + 2) + y
}
