//! `recorder map --to`: the maps of several files, each written to a file of its own in a folder, as `recorder lanes` does too.
use crate::arguments::{Given, Switch, OUTPUT};
use crate::batch::{self, End, Outcome};
use crate::combined_map;
use crate::commands::{planes, steps};
use crate::failure::{shown, Failure};
use crate::input::{self, Held};
use crate::known::Known;
use crate::map_file;
use crate::one_line;
use crate::output;
use crate::progress::during;
use crate::separate::Identity;
use std::collections::HashMap;
use std::ffi::{OsStr, OsString};
use std::fs;
use std::path::{Path, PathBuf};

pub const TO: Switch = Switch { name: "--to", value: "the name of a folder", brief: "write the map of each file to NAME.map in this folder" };
/// What else map can be asked for, of one file.
const OF_ONE: [&str; 4] = [planes::PLANE.name, planes::WHOLE_CELL.name, OUTPUT.name, "--times"];
pub const WORDS: [(End, &str); 4] = [(End::Done, "written"), (End::Refused, "refused"), (End::Unread, "unread"), (End::Unwritten, "unwritten")];

/// The files to write are known, and the folder is there, before anything is read.
pub fn run(given: &Given) -> Result<(), Failure> {
    let folder = folder("map of several files", given)?;
    if let Some(other) = OF_ONE.iter().find(|other| given.flag(other)) {
        return Err(Failure::Usage(format!("--to and {other} do not go together; --to writes the map file of each, and says how long it took")));
    }
    let targets = prepared(folder, &given.words)?;
    let mut next = targets.iter();
    batch::lines(&given.words, &WORDS, |name, known| written(name, next.next().expect("each file has a target"), known))
}

/// The folder to write to.
pub fn folder<'a>(what: &str, given: &'a Given) -> Result<&'a OsStr, Failure> {
    given.value(TO.name).ok_or_else(|| Failure::Usage(format!("{what} needs --to and the name of a folder")))
}

/// The file to write for each that is read, and the folder made.
pub fn prepared(folder: &OsStr, names: &[OsString]) -> Result<Vec<PathBuf>, Failure> {
    let targets = targets(Path::new(folder), names)?;
    match fs::create_dir(folder) {
        Err(_) if Path::new(folder).is_dir() => {}
        made => {
            made.map_err(|error| Failure::unwritten(folder, &error))?;
            output::folder_to_disk(Path::new(folder)).map_err(|error| Failure::unsettled(folder, &error))?;
        }
    }
    Ok(targets)
}

/// The file to write for each that is read: no two the same, and none of those that are read, whatever their names.
fn targets(folder: &Path, names: &[OsString]) -> Result<Vec<PathBuf>, Failure> {
    let targets: Vec<PathBuf> = names.iter().map(|name| target(folder, name)).collect::<Result<_, _>>()?;
    let inputs: HashMap<Identity, &OsString> = names.iter().filter_map(|name| Some((Identity::read(name)?, name))).collect();
    let mut sources = HashMap::new();
    for (name, target) in names.iter().zip(&targets) {
        if let Some(input) = Identity::written(Some(target.as_os_str())).and_then(|written| inputs.get(&written)) {
            return Err(Failure::Usage(format!("{} is a file to read and the file to write for {}; name another folder", shown(input), shown(name))));
        }
        if let Some(other) = sources.insert(place(target), name) {
            let to = target.display();
            return Err(Failure::Usage(format!("{} and {} would both be written to {to}; write them to two folders", shown(other), shown(name))));
        }
    }
    Ok(targets)
}

fn target(folder: &Path, name: &OsStr) -> Result<PathBuf, Failure> {
    let stem = Path::new(name).file_stem().filter(|_| name != "-");
    let mut file = stem.ok_or_else(|| Failure::Usage(format!("{} has no name of its own to write its map to", shown(name))))?.to_os_string();
    file.push(".map");
    Ok(folder.join(file))
}

/// Where a file of this name will stand, whatever links lead there.
fn place(target: &Path) -> PathBuf {
    let path = output::followed(target.as_os_str());
    match (path.parent().and_then(|folder| fs::canonicalize(folder).ok()), path.file_name()) {
        (Some(folder), Some(name)) => folder.join(name),
        _ => path,
    }
}

fn written(name: &OsStr, to: &Path, known: &mut Option<Known>) -> Outcome {
    let held = match input::held_and_known(name, known)? {
        Held::Job(recorder) => Held::Job(steps::with_map(recorder)?),
        combined => combined,
    };
    Ok((End::Done, write(&held, to)?))
}

/// Writes a map, and says where.
pub fn write(held: &Held, to: &Path) -> Result<String, Failure> {
    let target = output::open(Some(to.as_os_str()))?;
    during("writing", |told| {
        target.write(|mut out| match held {
            Held::Job(recorder) => map_file::write(recorder, &mut out, told),
            Held::Combined(map) => combined_map::write(&map.cell, map.rows(), &mut out, told),
        })
    })?;
    Ok(format!("written to {}", one_line::escaped(to.as_os_str())))
}
