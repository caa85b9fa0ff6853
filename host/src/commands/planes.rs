//! `recorder map --plane` and `--whole-cell`: planes of the map that are not stored too.
use crate::arguments::{Given, Switch};
use crate::combined_map;
use crate::failure::Failure;
use crate::ffi::GridPoint;
use crate::header::Header;
use crate::indices::Index;
use crate::input::Held;
use crate::map_file;
use crate::output;
use crate::progress::during_output;
use crate::recorder;
use crate::text;
use crate::whole_cell;
use std::ffi::OsStr;
use std::ops::Range;

pub const PLANE: Switch =
    Switch { name: "--plane", value: "the number of a plane", brief: "print this plane alone, 0 to N3 - 1, or -1, the last, and so on" };
pub const WHOLE_CELL: Switch = Switch { name: "--whole-cell", value: "", brief: "all N3 planes; with -o as a file in P1" };

/// What is asked for beside the stored planes.
#[derive(Clone, Copy)]
pub enum Part {
    Plane(Index),
    WholeCell,
}

/// What the command line asks for, if not the stored planes.
pub fn asked(given: &Given) -> Result<Option<Part>, Failure> {
    match (given.index_of(PLANE.name)?, given.flag(WHOLE_CELL.name)) {
        (Some(_), true) => Err(Failure::Usage("--plane and --whole-cell are given; give one of them".into())),
        (Some(_), _) if given.output().is_some() => {
            Err(Failure::Usage("--plane is printed, and goes without -o; recorder section writes one".into()))
        }
        (Some(z), _) => Ok(Some(Part::Plane(z))),
        (None, whole) => Ok(whole.then_some(Part::WholeCell)),
    }
}

/// Whether a map has the part: a plane of the cell, or where a file is to be written a whole cell that a volume of P1 can hold.
pub fn judge(map: &Held, part: Part, to: Option<&OsStr>) -> Result<(), Failure> {
    match (part, map) {
        (Part::Plane(z), _) => {
            let at = GridPoint { x: 0, y: 0, z: z.on(map.cell().lengths[2]) };
            map.point(at).map_err(|refusal| recorder::of_plane(refusal.number, map.cell(), z))?;
        }
        (Part::WholeCell, _) if to.is_none() => {}
        (Part::WholeCell, Held::Job(recorder)) => recorder::judge(&in_p1(&recorder.header))?,
        (Part::WholeCell, Held::Combined(map)) => combined_map::judge(&map.cell.in_p1())?,
    }
    Ok(())
}

/// Prints the part, or writes the whole cell as a map file or a combined map file in P1.
pub fn write(map: &Held, part: Part, to: Option<&OsStr>) -> Result<(), Failure> {
    let planes = planes(map, part);
    let rows = || whole_cell::rows(map, planes.clone()).map(Vec::into_iter);
    let target = output::open(to)?;
    during_output(output::is_standard(to), "writing", |told| {
        target.write(|mut out| match (map, to) {
            (_, None) => text::write_planes(map.cell(), planes.clone(), rows(), &mut out, told),
            (Held::Job(recorder), Some(_)) => {
                let prime = i64::from(recorder.header.prime());
                let residues = rows().map(|row| row.map(|number| number.rem_euclid(prime) as u32));
                map_file::write_rows(&in_p1(&recorder.header), residues, &mut out, told)
            }
            (Held::Combined(map), Some(_)) => combined_map::write(&map.cell.in_p1(), rows(), &mut out, told),
        })
    })
}

fn planes(map: &Held, part: Part) -> Range<usize> {
    match part {
        Part::Plane(z) => {
            let z = z.on(map.cell().lengths[2]) as usize;
            z..z + 1
        }
        Part::WholeCell => 0..map.cell().length(2),
    }
}

fn in_p1(header: &Header) -> Header {
    Header { cell: header.cell.in_p1(), ..header.clone() }
}
