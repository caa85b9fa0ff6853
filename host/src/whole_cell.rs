//! The whole cell of a map of any kind, row by row. A plane that is not stored is read point by point by the proved call, which finds each point's
//! image: none is computed here.
use crate::ffi::GridPoint;
use crate::input::Held;
use std::ops::Range;

/// The rows of some planes by rising z, then x: each has its numbers by y.
pub fn rows(map: &Held, planes: Range<usize>) -> impl Iterator<Item = Vec<i64>> + '_ {
    let (across, stored) = (map.cell().length(0), map.cell().planes());
    let first = planes.start.min(stored);
    let here = stored_rows(map).skip(across * first).take(across * (planes.end.min(stored) - first));
    let others = planes.start.max(stored)..planes.end;
    here.chain(others.flat_map(move |z| (0..across).map(move |x| read_row(map, x, z))))
}

/// The same of all planes, each with its z and x.
pub fn all_rows(map: &Held) -> impl Iterator<Item = ([usize; 2], Vec<i64>)> + '_ {
    let across = map.cell().length(0);
    rows(map, 0..map.cell().length(2)).enumerate().map(move |(row, numbers)| ([row / across, row % across], numbers))
}

fn stored_rows(map: &Held) -> Box<dyn Iterator<Item = Vec<i64>> + '_> {
    match map {
        Held::Job(recorder) => Box::new(recorder.signed_rows().map(Iterator::collect)),
        Held::Combined(map) => Box::new(map.rows().map(Iterator::collect)),
    }
}

fn read_row(map: &Held, x: usize, z: usize) -> Vec<i64> {
    (0..map.cell().length(1)).map(|y| number(map, [x, y, z])).collect()
}

/// The number at a point of the cell: of a map that is held the reading refuses none.
fn number(map: &Held, at: [usize; 3]) -> i64 {
    let [x, y, z] = at.map(|index| index as u32);
    map.point(GridPoint { x, y, z }).unwrap_or_else(|refusal| unreachable!("{} of a point of the cell", refusal.line()))
}
