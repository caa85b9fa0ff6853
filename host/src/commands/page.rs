//! `recorder page`: a file or two in a page for a browser.
use crate::arguments::{Given, Switch, OUTPUT};
use crate::commands::{steps, Command};
use crate::correlation;
use crate::drift;
use crate::failure::{shown, Failure};
use crate::input::Held;
use crate::output;
use crate::page::{Asked, Entry, Overlay, Page, Run, Section};
use crate::progress::during;
use crate::separate;
use crate::words::Refusal;
use std::ffi::OsStr;
use std::io::{self, Write};

const PLANES: Switch = Switch { name: "--planes", value: "planes, as 0,4..7,-1", brief: "the planes z that the page has; -1 is the last" };
const SCORES: Switch = Switch { name: "--scores", value: separate::READ_TOO, brief: "a run of scores, whose drift is plotted" };
const WINDOW: Switch =
    Switch { name: "--window", value: "a number from 1 to 64", brief: "as many scores are in each window of the drift; 8 without it" };
const OVERLAY: Switch = Switch { name: "--overlay", value: separate::READ_TOO, brief: "an overlay, whose section through the best shift is shown" };
/// The scores of a window, where no number is given.
const WINDOW_LENGTH: u32 = 8;

pub const COMMAND: Command = Command {
    name: "page",
    usage: "FILE [FILE2] -o PAGE.html [--planes LIST] [--scores RUN [--window W]] [--overlay COMBINED]",
    brief: "a file, or two side by side, as a page for a browser",
    words: &["FILE", "[FILE2]"],
    switches: &[OUTPUT, PLANES, SCORES, WINDOW, OVERLAY],
    help: "\
Writes one HTML file that needs no network: header, result, powers, least and
greatest number of a file, or of two side by side, and the sections of their
maps, with a slider over z and the number under the pointer; arrow keys move
both. Numbers below zero are blue, above it orange, zero is white; contours are
dashed below zero. The numbers of each plane stand in the page exactly, as JSON
and as recorder map prints them. PAGE.html#z=3&x=1&y=2 opens it at a plane and a
point.
A page takes at most 1,048,576 numbers of a file. A map of no more, as 64 x 64 x
64, is in it whole, on all planes; of a larger one as many planes as there is
room for, spread over the cell, those of the least and the greatest number among
them, or those that --planes names, with commas between them: 0,4..7,-1. A plane
of more numbers than that is not shown.
With --scores the run that recorder drift reads is plotted, each score and the
least and the greatest of the last W (--window, 8 without it), of a longer run
the last 4,096 scores. With --overlay what recorder overlay wrote of two maps of
these lengths is shown on the plane of its best shift. A FILE that is refused
has its refusal in the page and on standard error; then exit status is 1. No
page is written where a plane is refused (10), a window (34) or an overlay, or
where a file cannot be read.
",
    run,
};

fn run(given: &Given) -> Result<(), Failure> {
    let to = steps::target("page", given)?;
    apart(given)?;
    let list = given.value(PLANES.name).map(|list| list.to_string_lossy());
    let asked = Asked::read(list.as_deref())?;
    let w = window(given)?;
    let mut entries = Vec::new();
    for name in &given.words {
        entries.push(Entry::of(name, &asked).map_err(of_file(name))?);
    }
    let overlay = given.value(OVERLAY.name).map(|name| overlay(name, &entries).map_err(of_file(name))).transpose()?;
    let run = given.value(SCORES.name).map(|name| scores(name, w).map_err(of_file(name))).transpose()?;
    let page = Page { entries, overlay, run };
    output::open(Some(to))?.write(|out| page.write(out))?;
    refusals(page.entries)
}

/// A wrong command line stays one, whatever the file.
fn of_file(name: &OsStr) -> impl FnOnce(Failure) -> Failure + '_ {
    |failure| match failure {
        Failure::Usage(_) => failure,
        failure => failure.of(shown(name)),
    }
}

/// Standard input is one of the inputs at most.
fn apart(given: &Given) -> Result<(), Failure> {
    let others: Vec<&OsStr> = [SCORES.name, OVERLAY.name].into_iter().filter_map(|name| given.value(name)).collect();
    if given.words.iter().map(|name| name.as_os_str()).chain(others).filter(|name| *name == "-").count() > 1 {
        return Err(Failure::Usage("standard input can be one of the files, not more".into()));
    }
    Ok(())
}

/// The scores of a window; whether they are taken the proved call says before anything is read.
fn window(given: &Given) -> Result<u32, Failure> {
    let w = given.number_of(WINDOW.name)?;
    if w.is_some() && !given.flag(SCORES.name) {
        return Err(Failure::Usage("--window is of --scores; give both".into()));
    }
    let w = w.unwrap_or(WINDOW_LENGTH);
    let refused = |refusal: Refusal| Failure::from(Refusal::of_found(refusal.number, format!("W is {w}"))).of(WINDOW.name.into());
    drift::judge(w).map_err(refused)?;
    Ok(w)
}

fn scores(name: &OsStr, w: u32) -> Result<Run<'_>, Failure> {
    Run::of(name, &during("reading", |_| drift::read(name))?, w)
}

/// An overlay of maps of the same lengths as those beside it.
fn overlay<'a>(name: &'a OsStr, entries: &[Entry]) -> Result<Overlay<'a>, Failure> {
    let map = correlation::read(name)?;
    for entry in entries {
        if let Some(section) = entry.section().filter(|section| section.cell.lengths != map.cell.lengths) {
            let (one, other) =
                (map.cell.lengths.map(|length| length.to_string()).join(" "), section.cell.lengths.map(|length| length.to_string()).join(" "));
            return Err(Failure::Trouble(format!(
                "{} has lengths {one}, but {} has {other}; an overlay is of two maps of its own lengths",
                shown(name),
                shown(entry.name)
            )));
        }
    }
    let best = correlation::best(&map.cell, map.rows());
    let plane = best.shift[2];
    let section = Section::of(&Held::Combined(map), |_| Ok(vec![plane]))?;
    Ok(Overlay { name, best, section })
}

/// What was refused is said on standard error too.
fn refusals(entries: Vec<Entry>) -> Result<(), Failure> {
    let mut end = Ok(());
    for entry in entries {
        if let Err(refusal) = entry.result {
            let _ = io::stderr().write_all(Failure::from(refusal).of(shown(entry.name)).said().as_bytes());
            end = Err(Failure::Reported);
        }
    }
    end
}
