//! Which planes of a map stand in a page: those that are asked for, else all, else as many as a page takes, spread over the cell.
use crate::failure::Failure;
use crate::ffi::GridPoint;
use crate::header::Cell;
use crate::indices::{Index, MEANT};
use crate::input::Held;
use crate::recorder;
use std::collections::BTreeSet;

/// The most numbers of a file in a page: 64 x 64 x 64 are a quarter of them. Browsers open a page of two such files within seconds.
pub const MOST_NUMBERS: usize = 1 << 20;

/// Planes from one index to another.
type Span = (Index, Index);

/// What is asked for: some planes, or none in particular.
pub struct Asked(Option<Vec<Span>>);

impl Asked {
    /// Indices and spans of them, as 0,4..7,-1.
    pub fn read(list: Option<&str>) -> Result<Asked, Failure> {
        let spans = list.map(|list| list.split(',').map(span).collect::<Result<_, _>>());
        Ok(Asked(spans.transpose()?))
    }

    /// The planes of a map, rising. Whether an index is in the cell the proved reading says.
    pub fn of(&self, map: &Held, extremes: [usize; 2]) -> Result<Vec<usize>, Failure> {
        let cell = map.cell();
        let Some(spans) = &self.0 else { return Ok(spread(cell, extremes)) };
        let mut chosen = BTreeSet::new();
        for &(first, last) in spans {
            let (from, to) = (plane(map, first)?, plane(map, last)?);
            if from > to {
                return Err(Failure::Usage(format!("--planes {first}..{last} has its first plane behind its last")));
            }
            chosen.extend(from..=to);
        }
        match most_planes(cell) {
            most if chosen.len() > most => Err(Failure::Usage(format!(
                "--planes asks for {} of {} numbers each; a page takes {MOST_NUMBERS} numbers of a file, {most} such planes",
                counted(chosen.len(), "plane"),
                cell.length(0) * cell.length(1)
            ))),
            _ => Ok(chosen.into_iter().collect()),
        }
    }
}

/// A count with its word.
pub fn counted(count: usize, word: &str) -> String {
    format!("{count} {word}{}", if count == 1 { "" } else { "s" })
}

/// How many planes of a cell a page takes.
pub fn most_planes(cell: &Cell) -> usize {
    MOST_NUMBERS / (cell.length(0) * cell.length(1))
}

fn span(word: &str) -> Result<Span, Failure> {
    let index = |word: &str| {
        Index::read(word.as_bytes()).ok_or_else(|| Failure::Usage(format!("--planes: {word:?} is not an index, {MEANT}; as in 0,4..7,-1")))
    };
    match word.split_once("..") {
        Some((first, last)) => Ok((index(first)?, index(last)?)),
        None => index(word).map(|index| (index, index)),
    }
}

fn plane(map: &Held, z: Index) -> Result<usize, Failure> {
    let at = z.on(map.cell().lengths[2]);
    map.point(GridPoint { x: 0, y: 0, z: at }).map_err(|refusal| recorder::of_plane(refusal.number, map.cell(), z))?;
    Ok(at as usize)
}

/// All planes where a page takes them, else planes at equal distances, and those of the least and the greatest number.
fn spread(cell: &Cell, extremes: [usize; 2]) -> Vec<usize> {
    let (all, most) = (cell.length(2), most_planes(cell));
    if most >= all {
        return (0..all).collect();
    }
    let extremes = extremes.into_iter().take(most);
    let others = most.saturating_sub(2);
    (0..others).map(|at| at * all / others).chain(extremes).collect::<BTreeSet<_>>().into_iter().collect()
}

#[cfg(test)]
mod tests {
    use super::*;

    #[test]
    fn planes_are_spread_over_a_large_cell() {
        let of = |lengths| spread(&Cell { group: 0, lengths }, [7, 119]);
        assert_eq!(of([64, 64, 64]).len(), 64);
        assert_eq!(of([1440, 1440, 4]), [0; 0]);
        assert_eq!(of([720, 960, 6]), [7]);
        let planes = of([120, 120, 120]);
        assert!(planes.len() <= 72 && planes.contains(&7) && planes.contains(&119) && planes.windows(2).all(|two| two[1] - two[0] <= 2));
    }
}
