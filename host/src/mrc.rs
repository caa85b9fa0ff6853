//! The whole cell of a map as a file for viewers, in the format MRC2014. The proved call makes its bytes, all of them at once: beside the
//! map the file is held, 4 bytes for each point of the cell.
use crate::failure::Failure;
use crate::ffi::{self, UnitCell};
use crate::header::Cell;
use crate::memory::zeros;
use crate::recorder::{self, OUTPUT_LENGTH};
use crate::words::{Refusal, FLOAT_RANGE, UNIT_CELL};

const HEADER: usize = 1024;
const DENSITY: usize = 4;
/// The greatest whole number below which, and above its opposite, 32-bit floats leave none out.
const GREATEST: u64 = 16_777_215;

/// Three edges and three angles, or three edges and gamma, with commas between them. Each is the 32-bit float next to the number that is written;
/// what has no such float, and words such as inf and NaN, the proved call refuses.
pub fn unit_cell(word: &str) -> Result<UnitCell, Failure> {
    let numbers = word.split(',').map(str::parse).collect::<Result<Vec<f32>, _>>().unwrap_or_default();
    match numbers[..] {
        [a, b, c, alpha, beta, gamma] => Ok(UnitCell { angles: 3, a, b, c, alpha, beta, gamma }),
        [a, b, c, gamma] => Ok(UnitCell { angles: 1, a, b, c, alpha: 0.0, beta: 0.0, gamma }),
        _ => Err(Failure::Usage(format!("{word:?} is no unit cell; --cell takes a,b,c,alpha,beta,gamma or a,b,c,gamma"))),
    }
}

/// The file of a map. Whether it can be written is asked with an output of no bytes: 18 comes last, so it says that nothing else is wrong, and
/// only then is memory asked for.
pub fn file(cell: &Cell, volume: &[i64], unit: UnitCell) -> Result<Vec<u8>, Failure> {
    let call = |out: &mut [u8]| ffi::mrc(u32::from(cell.group), cell.lengths.map(u32::from), volume, unit, out).number;
    match call(&mut []) {
        OUTPUT_LENGTH => {}
        UNIT_CELL => return Err(Refusal::of_found(UNIT_CELL, format!("{}; {}", described(&unit), cell.described())).into()),
        FLOAT_RANGE => return Err(Refusal::of_found(FLOAT_RANGE, beyond(cell, volume)).into()),
        number => recorder::accepted(number)?,
    }
    let points: usize = (0..3).map(|axis| cell.length(axis)).product();
    let mut out = zeros(HEADER + DENSITY * points)?;
    recorder::accepted(call(&mut out))?;
    Ok(out)
}

fn described(unit: &UnitCell) -> String {
    let UnitCell { angles, a, b, c, alpha, beta, gamma } = unit;
    match angles {
        3 => format!("edges {a}, {b}, {c}, angles {alpha}, {beta}, {gamma}"),
        _ => format!("edges {a}, {b}, {c}, gamma {gamma}"),
    }
}

/// The first number that no 32-bit float is sure to hold, in words.
fn beyond(cell: &Cell, volume: &[i64]) -> String {
    let place = volume.iter().position(|number| number.unsigned_abs() > GREATEST);
    place.map_or_else(String::new, |place| format!("number {} at {}", volume[place], cell.point_at(place)))
}

#[cfg(test)]
mod tests {
    use super::*;

    /// The call's number for a map of zeros, 2 points along each axis, and a unit cell with this count of angles.
    fn answered(group: u32, numbers: usize, angles: u32) -> u32 {
        let unit = UnitCell { angles, a: 30.0, b: 40.0, c: 50.0, alpha: 90.0, beta: 90.0, gamma: 90.0 };
        ffi::mrc(group, [2; 3], &vec![0; numbers], unit, &mut [0; HEADER + 8 * DENSITY]).number
    }

    #[test]
    fn a_count_of_angles_of_neither_kind_is_refused() {
        for (group, numbers, count) in [(0, 16, 3), (1, 8, 1), (2, 16, 1), (3, 16, 1), (4, 8, 1)] {
            for angles in [0, 1, 2, 3, 4, u32::MAX] {
                let expected = if angles == count { 0 } else { UNIT_CELL };
                assert_eq!(answered(group, numbers, angles), expected, "group {group}, {angles} angles");
            }
        }
    }
}
