//! `recorder match`: a returned crystal against its deposit, from their files to the best shift, its score and what is left.
use crate::arguments::{Given, Switch, JSON, OUTPUT};
use crate::commands::{import, steps, Command};
use crate::correlation::{self, Best, Magnitudes};
use crate::counts::Asked;
use crate::failure::{shown, Failure};
use crate::header::{self, Cell};
use crate::json::Object;
use crate::matched::{self, Crystal, Left};
use crate::output;
use crate::progress::during;
use crate::recorder;
use crate::scores;
use crate::separate;
use std::ffi::{OsStr, OsString};

const P1: u8 = 0;
const GROUP: Switch =
    Switch { name: "--group", value: "the name of a group, or two", brief: "the group of counts that name none, or of each: P2_1,P1" };
const LENGTHS: Switch = Switch { name: "--lengths", value: "N1,N2,N3", brief: "the lengths of the cell of a table" };
const APPEND: Switch = Switch { name: "--append", value: separate::APPENDED, brief: "keep the score at the end of this file, which drift reads" };

pub const COMMAND: Command = Command {
    name: "match",
    usage: "DEPOSIT RETURNED | DEPOSIT1 DEPOSIT2 RETURNED1 RETURNED2 [--group GROUP] [--lengths N1,N2,N3] [-o OUT] [--append SCORES] [--json]",
    brief: "the shift at which a returned crystal is most like its deposit",
    words: &["DEPOSIT", "RETURNED.."],
    switches: &[GROUP, LENGTHS, OUTPUT, APPEND, JSON],
    help: "\
Compares the map of a returned crystal with that of its deposit at every shift,
over the whole cell. Each is

  a factor file, whose map is synthesised, a map file or a combined map file;
  counts, as recorder import takes them: a text that recorder map prints, a
    table, which needs --lengths, or a file of MRC or CCP4; or
  two factor files or map files of one cell, the first modulo 86,399 and the
    second modulo 302,399, which are combined.

The groups may be any and may differ, the lengths are the same. Counts that name
no group are those of a whole cell, in P1; with --group they are those of that
group, of the whole cell or of its stored planes, and refused (14) where they
break it. --group P2_1,P1 names the deposit's and the returned one's. One file
can be - (standard input).

Prints a line each for deposit and returned: the group, the sum of the
magnitudes over the cell and the largest of them; then
  shift           the shift x y z with the greatest value, and the same counted
                  from zero; of several the first by rising x, then y, then z.
                  The value at a shift is the sum over all points of the
                  deposit's number there times the returned one's at the
                  shifted point, exactly
  score           that value
  own score       the deposit's at shift 0 with itself, the sum of the squares
                  of its numbers
  share           the score divided by the own score, to the nearest
                  thousandth; - where that is 0
  at shift 0 0 0  the value where nothing is shifted
  left            what is left after shifting: how many points differ, the sum
                  of the differences' magnitudes, and the largest difference,
                  the returned number less the deposit's, with the deposit's
                  point; of several the first
Refused (9) where the cell in P1 has more than 16,777,216 numbers, and (28)
where the sum of the deposit's magnitudes times the largest of the returned
one's is above 13,063,485,600: that is said before anything is compared, with
both and with what to scale by how much.

-o writes the value at every shift to OUT, a combined map file whose points are
the shifts: recorder best OUT -n 10 lists the greatest. --append adds the score
in a line to SCORES, which is made if it is not there and is a run of scores if
it is: recorder drift reads it. OUT and SCORES are written when all is known.
--json prints an object. Memory is 36 bytes for each number of the cell in P1.
Example: recorder match deposit.mrc returned.mrc --append scores
",
    run,
};

/// All that can be wrong with the command line and with what is to be kept is known before a map is made.
fn run(given: &Given) -> Result<(), Failure> {
    let [deposit, returned] = sides(&given.words)?;
    if given.words.iter().filter(|name| *name == "-").count() > 1 {
        return Err(Failure::Usage("standard input can be one of the files, not more".into()));
    }
    let (to, kept) = (given.output(), given.value(APPEND.name));
    if to.is_some_and(|to| to == "-") {
        return Err(Failure::Usage("match prints its result on standard output; name a file for the overlay".into()));
    }
    if to.is_some() && to == kept {
        return Err(Failure::Usage("-o and --append name one file; name two".into()));
    }
    let kept = kept.map(scores::judge).transpose()?;
    let asked = asked(given, [deposit, returned])?;
    let (first, second) = (matched::read(deposit, &asked[0])?, matched::read(returned, &asked[1])?);
    if !(first.counted || second.counted) && (given.flag(GROUP.name) || given.flag(LENGTHS.name)) {
        return Err(Failure::Usage("--group and --lengths are of files of counts, and there is none; leave them out".into()));
    }
    let names = format!("{} and {}", named(deposit), named(returned));
    if first.cell.lengths != second.cell.lengths {
        let found = format!("{}; and {}", first.cell.described(), second.cell.described());
        return Err(Failure::Trouble(format!("{names} have {found}; crystals are matched on the same lengths")));
    }
    let cell = first.cell.in_p1();
    let values = during("overlay", |_| correlation::overlay(&cell, &first.numbers, &second.numbers)).map_err(|failure| failure.of(names))?;
    let best = correlation::best(&cell, recorder::rows(&cell, &values).map(|row| row.iter().copied()));
    let left = during("comparing", |told| Left::of(&cell, [&first.numbers, &second.numbers], best.shift, |row, rows| told.done(row, rows)));
    let own_score = first.numbers.iter().map(|&number| i128::from(number) * i128::from(number)).sum();
    let result = Match { names: [deposit, returned], crystals: [first, second], own_score, best, left };
    to.map_or(Ok(()), |to| steps::write_combined(&cell, &values, to))?;
    kept.map_or(Ok(()), |kept| kept.append(result.best.greatest))?;
    output::print(&if given.flag(JSON.name) { result.object() } else { result.described() })
}

/// The files of deposit and returned: one each, or two each.
fn sides(words: &[OsString]) -> Result<[&[OsString]; 2], Failure> {
    match words.len() {
        2 | 4 => Ok(words.split_at(words.len() / 2).into()),
        count => Err(Failure::Usage(format!("match was given {count} files; it takes one of each crystal, or of each two, one for each prime"))),
    }
}

/// What the command line says of counts: a group of both files or one of each, and the lengths of both. Counts without a group are of a whole cell.
fn asked<'a>(given: &Given, sides: [&'a [OsString]; 2]) -> Result<[Asked<'a>; 2], Failure> {
    let text = |switch: &Switch| given.value(switch.name).map(|value| value.to_string_lossy().into_owned());
    let lengths = text(&LENGTHS).map(|word| import::lengths(&word)).transpose()?;
    let named = text(&GROUP).map_or(Ok(Vec::new()), |words| words.split(',').map(|name| header::group_of(name).map_err(Failure::Usage)).collect())?;
    let groups = match named[..] {
        [] => [None; 2],
        [both] => [Some(both); 2],
        [first, second] => [Some(first), Some(second)],
        _ => return Err(Failure::Usage("--group takes a group, or the deposit's and the returned one's with a comma between them".into())),
    };
    let asked = |side: usize| Asked { name: &sides[side][0], group: groups[side], lengths, lists: None, modulus: 1, otherwise: Some(P1) };
    Ok([asked(0), asked(1)])
}

fn named(files: &[OsString]) -> String {
    files.iter().map(|name| shown(name)).collect::<Vec<_>>().join(" with ")
}

struct Match<'a> {
    names: [&'a [OsString]; 2],
    crystals: [Crystal; 2],
    /// The sum of the squares of the deposit's numbers.
    own_score: i128,
    best: Best,
    left: Left,
}

impl Match<'_> {
    fn cell(&self) -> &Cell {
        &self.crystals[0].cell
    }

    /// The shift with each index next to zero: what is beyond half its axis is counted from the end.
    fn around_zero(&self) -> [i64; 3] {
        let next = |shift: usize, length: usize| if 2 * shift > length { shift as i64 - length as i64 } else { shift as i64 };
        [0, 1, 2].map(|axis| next(self.best.shift[axis], self.cell().length(axis)))
    }

    fn share(&self) -> Option<String> {
        Some(self.own_score).filter(|&own| own > 0).map(|own| steps::thousandths(i128::from(self.best.greatest), own))
    }

    fn described(&self) -> String {
        let Best { greatest, shift: [x, y, z], unshifted } = self.best;
        let [u, v, w] = self.around_zero();
        let crystal = |what: &str, crystal: &Crystal| {
            let Magnitudes { sum, largest } = Magnitudes::of(&crystal.numbers);
            let ([n1, n2, n3], group) = (crystal.cell.lengths, crystal.cell.group_name());
            format!("{what} {group}, {n1} {n2} {n3}, magnitudes sum up to {sum}, largest {largest}\n")
        };
        let mut text = crystal("deposit", &self.crystals[0]) + &crystal("returned", &self.crystals[1]);
        text += &format!("shift {x} {y} {z}, from zero {u} {v} {w}\nscore {greatest}\nown score {}\n", self.own_score);
        text += &format!("share {}\nat shift 0 0 0 {unshifted}\n", self.share().unwrap_or("-".into()));
        let largest = self.left.largest.map_or_else(String::new, |pair| {
            let [x, y, z] = pair.at;
            format!("; largest difference {} at {x} {y} {z}: {} and {}", pair.difference(), pair.first, pair.second)
        });
        text + &format!("left {} of {} points, magnitudes sum up to {}{largest}\n", self.left.count, self.cell().points(), self.left.sum)
    }

    fn object(&self) -> String {
        let mut object = Object::new();
        for (what, (names, crystal)) in ["deposit", "returned"].into_iter().zip(self.names.iter().zip(&self.crystals)) {
            object.value(what, &crystal_object(names, crystal));
        }
        object.value("lengths", &format!("{:?}", self.cell().lengths));
        object.value("shift", &format!("{:?}", self.best.shift));
        object.value("shift_from_zero", &format!("{:?}", self.around_zero()));
        object.number("score", self.best.greatest);
        object.number("own_score", self.own_score);
        object.value("share", &self.share().unwrap_or("null".into()));
        object.number("unshifted", self.best.unshifted);
        object.value("left", &self.left_object());
        object.line()
    }

    fn left_object(&self) -> String {
        let mut object = Object::new();
        object.number("points", self.left.count);
        object.number("sum", self.left.sum);
        if let Some(pair) = self.left.largest {
            object.number("largest", pair.difference());
            object.value("at", &format!("{:?}", pair.at));
            object.number("deposit", pair.first);
            object.number("returned", pair.second);
        }
        object.line().trim_end().into()
    }
}

fn crystal_object(names: &[OsString], crystal: &Crystal) -> String {
    let mut object = Object::new();
    let quoted = |name: &OsStr| crate::json::quoted(&name.to_string_lossy());
    object.value("files", &format!("[{}]", names.iter().map(|name| quoted(name)).collect::<Vec<_>>().join(", ")));
    object.number("group", crystal.cell.group);
    object.text("group_name", crystal.cell.group_name());
    let Magnitudes { sum, largest } = Magnitudes::of(&crystal.numbers);
    object.number("sum_of_magnitudes", sum);
    object.number("largest_magnitude", largest);
    object.line().trim_end().into()
}
