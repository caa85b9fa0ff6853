//! `recorder import`: a map file or a combined map file from counts.
use crate::arguments::{self, Given, Switch, OUTPUT};
use crate::both::{self, BOTH, MAPS};
use crate::commands::{steps, Command};
use crate::counts::{Asked, Counts};
use crate::failure::Failure;
use crate::header;
use crate::import;
use crate::known::Known;
use crate::map_file;
use crate::output;
use crate::progress::{during, during_output};
use crate::recorder::{self, Recorder};
use std::ffi::OsStr;

pub const GROUP: Switch = Switch { name: "--group", value: "the name of a group", brief: "P1, P2_1, Pm, Pa or P2_1 2_1 2_1 (also P21, P212121)" };
const LENGTHS: Switch = Switch { name: "--lengths", value: "N1,N2,N3", brief: "the lengths of a table's cell; any other file has its own" };
const LISTS: Switch =
    Switch { name: "--lists", value: "three factor lists", brief: "the factor lists as info prints them, '3 2,2 3'; chosen without" };
const MODULUS: Switch = Switch { name: "--modulus", value: "1 or 2", brief: "1, numbers to 43,199, or 2, to 151,199; 1 without" };
const COMBINED: Switch = Switch { name: "--combined", value: "", brief: "write a combined map file, numbers to 13,063,485,600" };

pub const COMMAND: Command = Command {
    name: "import",
    usage: "COUNTS [--group GROUP] [--lengths N1,N2,N3] [--modulus M | --combined | --both] [--lists LISTS] -o OUT",
    brief: "a map from counts: a text, a table, or a file of MRC or CCP4",
    words: &["COUNTS"],
    switches: &[GROUP, LENGTHS, MODULUS, COMBINED, BOTH, LISTS, OUTPUT],
    help: "\
Makes a map file of the counts of a cell (- is standard input), whole numbers,
and writes it to OUT (- is standard output). COUNTS is one of

  a text as recorder map prints it, of the stored planes or with --whole-cell
  a table, a line 'x,y,z,count' for each point, in any order; it needs --group
    and --lengths. Commas, semicolons, blanks or tabs stand between the cells,
    which may be quoted; the columns' names may stand in the first line
  a file in the format MRC2014 or CCP4 of mode 0, 1, 2 or 6, of either byte
    order, its axes in any order and from any index on; it needs --group

of the whole cell, or of its stored planes alone. Numbers that are images of
each other and differ are refused (14) with both points; a float that is no
whole number, a point that is missing or given twice, and a part of a cell are
told, exit status 2.
A map file of modulus 1 has numbers from -43,199 to 43,199, of modulus 2 from
-151,199 to 151,199; a combined map file has numbers to 13,063,485,600 (28).
With --both three files are written: OUT.map of modulus 1, OUT.second.map of
modulus 2 and OUT.combined. A line for each file says what it has.
recorder map and recorder mrc are undone by import, and undo it.
Example: recorder import counts.mrc --group P2_1 -o counts.map
",
    run,
};

fn run(given: &Given) -> Result<(), Failure> {
    let to = steps::target("import", given)?;
    let both = both::asked(given, to)?;
    if [MODULUS, COMBINED, BOTH].iter().filter(|switch| given.flag(switch.name)).count() > 1 {
        return Err(Failure::Usage("--modulus, --combined and --both do not go together; give one of them".into()));
    }
    let counts = during("reading", |told| import::read(&asked(given)?, told))?;
    if both {
        return write_both(&counts, to);
    }
    if given.flag(COMBINED.name) {
        let [first, second] = during("comparing", |told| counts.both_maps(told))?;
        write_combined(&first, &second, to)?;
        return steps::say_made(to, &Known::of_combined(&first.header.cell));
    }
    let map = during("comparing", |told| counts.map(told))?;
    write_map(&map, to)?;
    steps::say_made(to, &Known::of_map(&map.header))
}

fn asked(given: &Given) -> Result<Asked<'_>, Failure> {
    let text = |switch: &Switch| given.value(switch.name).map(|value| value.to_string_lossy().into_owned());
    let group = text(&GROUP).map(|name| header::group_of(&name).map_err(Failure::Usage)).transpose()?;
    let lengths = text(&LENGTHS).map(|word| lengths(&word)).transpose()?;
    let lists = text(&LISTS).map(|word| lists(&word)).transpose()?;
    let modulus = given.number_of(MODULUS.name)?.map_or(1, |modulus| u8::try_from(modulus).unwrap_or(u8::MAX));
    Ok(Asked { name: &given.words[0], group, lengths, lists, modulus, otherwise: None })
}

/// Three lengths with commas between them. One beyond 16 bits is refused as 65,535 is.
pub fn lengths(word: &str) -> Result<[u16; 3], Failure> {
    let lengths: Vec<u16> =
        word.split(',').map(|part| Ok(u16::try_from(arguments::number(part)?).unwrap_or(u16::MAX))).collect::<Result<_, Failure>>()?;
    lengths.try_into().map_err(|_| Failure::Usage(format!("{word:?} is not three lengths; --lengths takes N1,N2,N3")))
}

/// Three factor lists with blanks between them.
fn lists(word: &str) -> Result<[Vec<u8>; 3], Failure> {
    let lists: Vec<Vec<u8>> = word.split_whitespace().map(|list| arguments::list(OsStr::new(list))).collect::<Result<_, Failure>>()?;
    lists
        .try_into()
        .map_err(|_| Failure::Usage(format!("{word:?} is not three factor lists; --lists takes them as recorder info prints them, '3 2,2 3'")))
}

/// All files are written before any is told.
fn write_both(counts: &Counts, to: &OsStr) -> Result<(), Failure> {
    let [first, second] = during("comparing", |told| counts.both_maps(told))?;
    let names = both::names(to, MAPS);
    write_map(&first, &names[0])?;
    write_map(&second, &names[1])?;
    write_combined(&first, &second, &names[2])?;
    let made = [Known::of_map(&first.header), Known::of_map(&second.header), Known::of_combined(&first.header.cell)];
    names.iter().zip(&made).try_for_each(|(name, made)| steps::say_made(name, made))
}

fn write_map(map: &Recorder, to: &OsStr) -> Result<(), Failure> {
    let target = output::open(Some(to))?;
    during_output(output::is_standard(Some(to)), "writing", |told| target.write(|mut out| map_file::write(map, &mut out, told)))
}

/// The proved call makes the combined map of the two.
fn write_combined(first: &Recorder, second: &Recorder, to: &OsStr) -> Result<(), Failure> {
    let combined = during("combining", |_| recorder::combined(first, second))?;
    steps::write_combined(&first.header.cell, &combined, to)
}
