//! `recorder picture`: the same plane as a picture, a PNG file.
use crate::arguments::{Given, OUTPUT};
use crate::commands::planes::{self, Part};
use crate::commands::{steps, Command};
use crate::failure::Failure;
use crate::input;
use crate::output;
use crate::picture;
use crate::png;
use crate::whole_cell;

pub const COMMAND: Command = Command {
    name: "picture",
    usage: "FILE z -o OUT",
    brief: "the same plane as a picture, a PNG file",
    words: &["FILE", "z"],
    switches: &[OUTPUT],
    help: "\
Writes plane z of a map to OUT (- is standard output) as a grey picture, a PNG
file, of the numbers that recorder section prints: x goes down and y to the
right, and a point is a square of up to 48 pixels. Black is the least number of
the plane and white the greatest; the bar below the plane has all shades
between, and the two numbers under its ends. A plane of one number is black.
FILE is a factor file, whose map is synthesised, a map file, or a combined map
file. z counts from the end where it is below zero, -1 being the last plane. OUT
takes its name when it is whole, and cannot be FILE.
",
    run,
};

/// The picture shows the numbers of the plane, stored or not: those that the section's page has.
fn run(given: &Given) -> Result<(), Failure> {
    let to = steps::target("picture", given)?;
    let z = given.index(1)?;
    let map = input::map(&given.words[0])?;
    planes::judge(&map, Part::Plane(z), None)?;
    let at = z.on(map.cell().lengths[2]);
    let numbers: Vec<i64> = whole_cell::rows(&map, at as usize..at as usize + 1).flatten().collect();
    let picture = picture::of_plane(map.cell(), at, &numbers);
    output::open(Some(to))?.write(|mut out| png::write(picture.width, &picture.pixels, &mut out))
}
