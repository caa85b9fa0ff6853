//! A page for a browser: one file that asks for nothing else. What a file is, its result, powers, least and greatest number stand in it as text;
//! planes as JSON, which a short script shows as sections, so that the page has the numbers themselves and not their colours alone.
mod choice;
mod entry;
mod html;
mod scores;

pub use choice::Asked;
pub use entry::{Entry, Section};
pub use scores::Run;

use crate::commands::steps::Power;
use crate::correlation::Best;
use crate::header::Cell;
use crate::help::VERSION;
use crate::highest::Found;
use crate::known::Known;
use crate::words::Refusal;
use choice::{counted, most_planes, MOST_NUMBERS};
use html::terms;
use std::ffi::OsStr;
use std::io::{self, Write};

const STYLE: &str = include_str!("page.css");
const SCRIPT: &str = include_str!("page.js");

/// What a page shows.
pub struct Page<'a> {
    pub entries: Vec<Entry<'a>>,
    pub overlay: Option<Overlay<'a>>,
    pub run: Option<Run<'a>>,
}

/// An overlay, with its plane through the best shift.
pub struct Overlay<'a> {
    pub name: &'a OsStr,
    pub best: Best,
    pub section: Section,
}

impl Page<'_> {
    pub fn write(&self, out: &mut dyn Write) -> io::Result<()> {
        let names: Vec<String> = self.entries.iter().map(|entry| html::name(entry.name)).collect();
        let title = names.join(" and ");
        write!(out, "{}", head(&title))?;
        let heading: Vec<String> = names.iter().map(|name| format!("<bdi>{name}</bdi>")).collect();
        writeln!(out, "<header>\n<h1>{}</h1>\n</header>\n<main>", heading.join(" and "))?;
        writeln!(out, "<div class=\"files\">")?;
        for (at, entry) in self.entries.iter().enumerate() {
            write!(out, "{}", told(at, entry, if heading.len() > 1 { &heading[at] } else { "Header and result" }))?;
        }
        writeln!(out, "</div>")?;
        self.write_sections(out)?;
        if let Some(overlay) = &self.overlay {
            overlay.write(out)?;
        }
        if let Some(run) = &self.run {
            write!(out, "{}", run.written())?;
        }
        write!(out, "</main>\n<footer><p>Written by {VERSION}. The page is whole: it asks for no other file and no network.</p></footer>\n")?;
        write!(out, "<script>\n{SCRIPT}</script>\n</body>\n</html>\n")
    }

    /// The sections of all maps, under one slider.
    fn write_sections(&self, out: &mut dyn Write) -> io::Result<()> {
        let maps = || self.entries.iter().enumerate().filter_map(|(at, entry)| entry.section().map(|section| (at, entry, section)));
        if maps().next().is_none() {
            return Ok(());
        }
        write!(out, "<section class=\"view\" id=\"sections\" aria-labelledby=\"sections-heading\">\n<h2 id=\"sections-heading\">Sections</h2>\n")?;
        for (_, entry, section) in maps() {
            write!(out, "{}", left_out(&html::name(entry.name), section))?;
        }
        if maps().any(|(_, _, section)| !section.planes.is_empty()) {
            write!(out, "{}", controls(maps().count()))?;
        }
        writeln!(out, "<div class=\"panels\">")?;
        for (at, entry, section) in maps() {
            write_section(out, &at.to_string(), &html::name(entry.name), section)?;
        }
        writeln!(out, "</div>\n</section>")
    }
}

impl Overlay<'_> {
    fn write(&self, out: &mut dyn Write) -> io::Result<()> {
        let name = html::name(self.name);
        let Best { greatest, shift: [x, y, z], unshifted } = self.best;
        write!(
            out,
            "<section class=\"view\" id=\"overlay\" aria-labelledby=\"overlay-heading\" data-x=\"{x}\" data-y=\"{y}\">\n\
             <h2 id=\"overlay-heading\">Overlay: <bdi>{name}</bdi></h2>\n\
             <p>Greatest value {greatest} at shift {x} {y} {z}; at shift 0 0 0 it is {unshifted}. The section has z = {z}, the plane of the best \
             shift, which is marked.</p>\n<div class=\"panels\">\n"
        )?;
        write_section(out, "overlay", &name, &self.section)?;
        writeln!(out, "</div>\n</section>")
    }
}

/// The policy keeps the page from asking for anything, and so does the empty icon.
fn head(title: &str) -> String {
    format!(
        "<!DOCTYPE html>\n<html lang=\"en\">\n<head>\n<meta charset=\"utf-8\">\n\
         <meta http-equiv=\"Content-Security-Policy\" content=\"default-src 'none'; style-src 'unsafe-inline'; script-src 'unsafe-inline'; img-src data:\">\n\
         <meta name=\"viewport\" content=\"width=device-width, initial-scale=1\">\n<meta name=\"color-scheme\" content=\"light dark\">\n\
         <link rel=\"icon\" href=\"data:,\">\n<title>{title} - map recorder</title>\n<style>\n{STYLE}</style>\n</head>\n<body>\n"
    )
}

/// A file's header, result, powers, least and greatest number.
fn told(at: usize, entry: &Entry, heading: &str) -> String {
    let mut of = entry.known.as_ref().map_or_else(Vec::new, header_terms);
    match &entry.result {
        Ok(accepted) => {
            of.push(("Result", "<strong class=\"accepted\">accepted</strong>".into()));
            of.push(("Powers", accepted.power.as_ref().map_or_else(|| "none: a combined map has no modulus".into(), powers)));
            of.push(("Least", place(&accepted.section, accepted.section.least)));
            of.push(("Greatest", place(&accepted.section, accepted.section.greatest)));
        }
        Err(refusal) => of.push(("Result", refused(refusal))),
    }
    format!("<section class=\"file\" aria-labelledby=\"file{at}\">\n<h2 id=\"file{at}\">{heading}</h2>\n{}</section>\n", terms(&of))
}

fn header_terms(known: &Known) -> Vec<(&'static str, String)> {
    let Cell { group, lengths: [n1, n2, n3] } = known.cell;
    let mut of = vec![
        ("Kind", format!("{}, version {}", known.kind, known.version)),
        ("Group", format!("{group} ({})", html::escaped(known.cell.group_name()))),
        ("Lengths", format!("{n1} {n2} {n3}")),
    ];
    if let Some(header) = &known.header {
        of.push(("Modulus", format!("{}, the prime {}", header.modulus, header.prime())));
        of.push(("Lists", header.lists_text()));
    }
    let counted = match known.counted {
        "records" => "Records",
        "densities" => "Densities",
        _ => "Numbers",
    };
    of.push((counted, known.count.to_string()));
    of
}

fn refused(refusal: &Refusal) -> String {
    let explained = html::escaped(refusal.explained().trim_end()).replace('\n', "<br>");
    format!("<strong class=\"refused\">{}</strong><br>{explained}", refusal.line())
}

fn powers(power: &Power) -> String {
    let said = if power.agree() { "they agree" } else { "<strong class=\"refused\">they differ</strong>" };
    let points = power.header.cell.points();
    format!("map {}, factors {}; {points} times factors {}: {said}", power.of_map, power.of_factors, power.product)
}

/// A number and its point, with a link to its plane where the page has that.
fn place(section: &Section, (number, [x, y, z]): Found) -> String {
    let point = format!("x {x}, y {y}, z {z}");
    match section.has(z) {
        true => format!("{number} at <a href=\"#z={z}&amp;x={x}&amp;y={y}\">{point}</a>"),
        false => format!("{number} at {point}, a plane that is not in this page"),
    }
}

/// What a page does not show of a map, in words.
fn left_out(name: &str, section: &Section) -> String {
    let (all, shown) = (section.cell.length(2), section.planes.len());
    if shown == all {
        return String::new();
    }
    let each = section.cell.length(0) * section.cell.length(1);
    let limit = format!("a page takes at most {MOST_NUMBERS} numbers of a file, and a plane of this one has {each}");
    let ask = match most_planes(&section.cell) {
        0 => "<code>recorder section</code> and <code>recorder picture</code> show one",
        _ => "<code>recorder page --planes</code> chooses others",
    };
    format!("<p class=\"note\"><bdi>{name}</bdi>: this page has {} of {all}; {limit}. {ask}.</p>\n", counted(shown, "plane"))
}

/// The slider over the planes, and how they are shown.
fn controls(maps: usize) -> String {
    let both = if maps > 1 { "<option value=\"both\">greatest magnitude of both maps</option>" } else { "" };
    format!(
        "<form class=\"controls\">\n<label for=\"z\">Plane z</label>\n<input type=\"range\" id=\"z\" min=\"0\" step=\"1\" value=\"0\">\n\
         <output id=\"plane\" for=\"z\"></output>\n<label for=\"scale\">Full colour at</label>\n<select id=\"scale\"><option value=\"map\">greatest \
         magnitude of the map</option><option value=\"plane\">greatest magnitude of the plane</option>{both}</select>\n\
         <label class=\"check\"><input type=\"checkbox\" id=\"contours\" checked> Contours</label>\n</form>\n\
         <noscript><p class=\"note\">Sections need JavaScript. The numbers of each plane stand in this file as JSON, a list for each x.</p></noscript>\n"
    )
}

/// A section, which the script fills, and its planes.
fn write_section(out: &mut dyn Write, map: &str, name: &str, section: &Section) -> io::Result<()> {
    if section.planes.is_empty() {
        return Ok(());
    }
    let [n1, n2, n3] = section.cell.lengths;
    write!(
        out,
        "<figure class=\"section\" data-map=\"{map}\" data-name=\"{name}\" data-lengths=\"{n1} {n2} {n3}\" data-most=\"{}\">\n\
         <figcaption><strong><bdi>{name}</bdi></strong> <span class=\"plane\"></span></figcaption>\n<div class=\"plot\">\n\
         <div class=\"along\" aria-hidden=\"true\"></div>\n\
         <div class=\"down\" aria-hidden=\"true\"></div>\n\
         <div class=\"field\" tabindex=\"0\" role=\"group\" aria-label=\"Points of the section of {name}; arrow keys go from point to point\">\
         <canvas role=\"img\"></canvas><div class=\"marker\"></div></div>\n</div>\n\
         <output class=\"point\" aria-live=\"polite\"></output>\n\
         <div class=\"legend\"><div class=\"bar\" role=\"img\"></div><div class=\"ends\"></div><p class=\"levels\"></p></div>\n\
         <details><summary>Numbers of the plane, as recorder map prints them: z, x, then by y</summary><pre class=\"numbers\" tabindex=\"0\"></pre></details>\n\
         </figure>\n",
        section.most()
    )?;
    for plane in &section.planes {
        write!(out, "<script type=\"application/json\" data-map=\"{map}\" data-z=\"{}\">", plane.z)?;
        out.write_all(&plane.rows)?;
        writeln!(out, "</script>")?;
    }
    Ok(())
}
