//! A plane of a map as a picture: x goes down and y to the right, as on the section's page, whose numbers it shows. Black is the least
//! number of the plane and white the greatest; a bar below the plane has all shades, and the two numbers under its ends. The line above it
//! has the plane's z; y stands at the end of the columns and x at the end of the rows.
use crate::header::Cell;

const WHITE: u8 = 255;
const BLACK: u8 = 0;
/// White around all, and between the parts.
const MARGIN: usize = 12;
/// The longer side of the plane, in pixels, where it has fewer points than that; and the most that a point is enlarged to.
const SIDE: usize = 720;
const LARGEST: usize = 48;
const BAR: usize = 20;
/// Letters are drawn in squares of so many pixels.
const DOT: usize = 2;
const GLYPH_WIDTH: usize = 5;
const GLYPH_HEIGHT: usize = 7;
/// What a letter takes with the white behind it.
const ADVANCE: usize = DOT * (GLYPH_WIDTH + 1);
const TEXT: usize = DOT * GLYPH_HEIGHT;

/// The letters of all texts, each with its rows from above, of which the highest of five bits is the left one.
const GLYPHS: [(char, [u8; GLYPH_HEIGHT]); 14] = [
    ('0', [0b01110, 0b10001, 0b10011, 0b10101, 0b11001, 0b10001, 0b01110]),
    ('1', [0b00100, 0b01100, 0b00100, 0b00100, 0b00100, 0b00100, 0b01110]),
    ('2', [0b01110, 0b10001, 0b00001, 0b00110, 0b01000, 0b10000, 0b11111]),
    ('3', [0b11111, 0b00010, 0b00100, 0b00010, 0b00001, 0b10001, 0b01110]),
    ('4', [0b00010, 0b00110, 0b01010, 0b10010, 0b11111, 0b00010, 0b00010]),
    ('5', [0b11111, 0b10000, 0b11110, 0b00001, 0b00001, 0b10001, 0b01110]),
    ('6', [0b00110, 0b01000, 0b10000, 0b11110, 0b10001, 0b10001, 0b01110]),
    ('7', [0b11111, 0b00001, 0b00010, 0b00100, 0b01000, 0b01000, 0b01000]),
    ('8', [0b01110, 0b10001, 0b10001, 0b01110, 0b10001, 0b10001, 0b01110]),
    ('9', [0b01110, 0b10001, 0b10001, 0b01111, 0b00001, 0b00010, 0b01100]),
    ('-', [0b00000, 0b00000, 0b00000, 0b01110, 0b00000, 0b00000, 0b00000]),
    ('x', [0b00000, 0b00000, 0b10001, 0b01010, 0b00100, 0b01010, 0b10001]),
    ('y', [0b00000, 0b00000, 0b10001, 0b10001, 0b01111, 0b00001, 0b01110]),
    ('z', [0b00000, 0b00000, 0b11111, 0b00010, 0b00100, 0b01000, 0b11111]),
];

/// Rows of pixels, all of one width.
pub struct Picture {
    pub width: usize,
    pub pixels: Vec<u8>,
}

/// The picture of plane z with its numbers by rising x, then y.
pub fn of_plane(cell: &Cell, z: u32, numbers: &[i64]) -> Picture {
    let (rows, columns) = (cell.length(0), cell.length(1));
    let each = (SIDE / rows.max(columns)).clamp(1, LARGEST);
    let scale = Scale::of(numbers);
    let (least, greatest) = (scale.least.to_string(), scale.greatest.to_string());
    let heading = format!("z {z}");
    let head = (each * columns).max(text_width(&heading) + 2 * ADVANCE + text_width("y"));
    let bar = head.max(text_width(&least) + 2 * ADVANCE + text_width(&greatest));
    let (left, top) = (MARGIN + ADVANCE, MARGIN + TEXT + MARGIN / 2);
    let below = top + each * rows + MARGIN;
    let mut picture = Picture::white(left + bar + MARGIN, below + BAR + MARGIN / 2 + TEXT + MARGIN);
    picture.text(left, MARGIN, &heading);
    picture.text(left + head - text_width("y"), MARGIN, "y");
    picture.text(MARGIN - DOT, top + each * rows - TEXT.min(each * rows), "x");
    picture.framed(left, top, each * columns, each * rows, |across, down| scale.shade(numbers[down / each * columns + across / each]));
    picture.framed(left, below, bar, BAR, |across, _| (across * usize::from(WHITE) / (bar - 1)) as u8);
    let under = below + BAR + MARGIN / 2;
    picture.text(left, under, &least);
    picture.text(left + bar - text_width(&greatest), under, &greatest);
    picture
}

/// The least and the greatest number of a plane.
struct Scale {
    least: i64,
    greatest: i64,
}

impl Scale {
    fn of(numbers: &[i64]) -> Scale {
        let (least, greatest) = (numbers.iter().min(), numbers.iter().max());
        Scale { least: least.copied().unwrap_or(0), greatest: greatest.copied().unwrap_or(0) }
    }

    /// From black for the least number to white for the greatest, to the nearest shade. A plane of one number is black.
    fn shade(&self, number: i64) -> u8 {
        let range = (self.greatest - self.least).max(1);
        ((2 * (number - self.least) * i64::from(WHITE) + range) / (2 * range)) as u8
    }
}

/// What the letters of a text take.
fn text_width(text: &str) -> usize {
    ADVANCE * text.chars().count() - DOT
}

impl Picture {
    fn white(width: usize, height: usize) -> Picture {
        Picture { width, pixels: vec![WHITE; width * height] }
    }

    fn put(&mut self, across: usize, down: usize, shade: u8) {
        self.pixels[down * self.width + across] = shade;
    }

    /// Shades by their places in a part of the picture, with a black line around it.
    fn framed(&mut self, left: usize, top: usize, width: usize, height: usize, shade: impl Fn(usize, usize) -> u8) {
        for down in 0..height + 2 {
            for across in 0..width + 2 {
                let inside = (1..=width).contains(&across) && (1..=height).contains(&down);
                self.put(left + across - 1, top + down - 1, if inside { shade(across - 1, down - 1) } else { BLACK });
            }
        }
    }

    fn text(&mut self, left: usize, top: usize, text: &str) {
        for (letter, at) in text.chars().zip((left..).step_by(ADVANCE)) {
            if let Some((_, rows)) = GLYPHS.iter().find(|(glyph, _)| *glyph == letter) {
                self.glyph(at, top, rows);
            }
        }
    }

    fn glyph(&mut self, left: usize, top: usize, rows: &[u8; GLYPH_HEIGHT]) {
        for down in 0..TEXT {
            for across in 0..DOT * GLYPH_WIDTH {
                if rows[down / DOT] >> (GLYPH_WIDTH - 1 - across / DOT) & 1 == 1 {
                    self.put(left + across, top + down, BLACK);
                }
            }
        }
    }
}
