//! A run of scores as a plot: each score, and about it the band from the least to the greatest of the last W, as the proved call finds them.
use crate::drift;
use crate::failure::Failure;
use crate::page::html;
use std::ffi::OsStr;

/// As many scores are shown, the last of the run.
const MOST_SCORES: usize = 4096;
/// As many have a dot each, with its number.
const MOST_DOTS: usize = 400;
/// The plot: its width and height, the room at its edges, and that of a letter.
const WIDTH: f64 = 860.0;
const HEIGHT: f64 = 320.0;
const MARGIN: f64 = 14.0;
const BELOW: f64 = 40.0;
const LETTER: f64 = 7.6;
/// About as many numbers stand at an axis.
const TICKS: i128 = 6;

pub struct Run<'a> {
    name: &'a OsStr,
    w: u32,
    count: usize,
    /// The place of the first score that is shown.
    first: usize,
    scores: Vec<i64>,
    windows: Vec<Window>,
}

/// The last W scores at an entry: the least and its first place, the greatest and its first place.
struct Window {
    entry: i64,
    least: [i64; 2],
    greatest: [i64; 2],
}

impl<'a> Run<'a> {
    /// The windows of the last scores: those before them that their windows reach to are lent too.
    pub fn of(name: &'a OsStr, run: &[i64], w: u32) -> Result<Run<'a>, Failure> {
        let first = run.len().saturating_sub(MOST_SCORES);
        let lent = first.saturating_sub(w as usize - 1);
        let mut text = Vec::new();
        drift::write(&run[lent..], w, false, &mut text).map_err(|error| Failure::Trouble(error.to_string()))??;
        let windows = String::from_utf8_lossy(&text).lines().filter_map(|line| window(line, lent as i64)).collect();
        Ok(Run { name, w, count: run.len(), first, scores: run[first..].to_vec(), windows })
    }

    /// The part of the page, with the numbers that the plot shows.
    pub fn written(&self) -> String {
        let (name, w) = (html::name(self.name), self.w);
        let head = format!("<section class=\"scores\" aria-labelledby=\"scores\">\n<h2 id=\"scores\">Drift: scores of <bdi>{name}</bdi></h2>\n");
        let shown = match (self.count, self.scores.len()) {
            (0, _) => return head + "<p>The run has no scores.</p>\n</section>\n",
            (count, shown) if count == shown => format!("All {count} scores of the run"),
            (count, shown) => format!("The last {shown} of {count} scores, the most that a page shows"),
        };
        let last = self.windows.last().map_or_else(String::new, |window| {
            let ([least, place], [greatest, other]) = (window.least, window.greatest);
            format!(" Of the last {w} the least is {least}, at entry {place}, the greatest {greatest}, at entry {other}.")
        });
        let lines: String = self.windows.iter().map(Window::line).collect();
        let scores: String = self.scores.iter().enumerate().map(|(at, score)| format!("{} {score}\n", self.first + at)).collect();
        format!(
            "{head}<figure>\n{}<figcaption>{shown}: the line. The band has for each entry the least and the greatest of the {w} scores that end \
             there.{last}</figcaption>\n</figure>\n<details><summary>Numbers of the band, as recorder drift {w} prints them</summary>\n\
             <pre class=\"windows\" tabindex=\"0\">{lines}</pre></details>\n<details><summary>The scores: entry and score</summary>\n\
             <pre class=\"run\" tabindex=\"0\">{scores}</pre></details>\n</section>\n",
            self.plot()
        )
    }

    fn plot(&self) -> String {
        let (least, greatest) = (self.windows.iter().map(|window| window.least[0]), self.windows.iter().map(|window| window.greatest[0]));
        let numbers = || self.scores.iter().copied();
        let low = numbers().chain(least).min().unwrap_or(0);
        let high = numbers().chain(greatest).max().unwrap_or(0);
        let (first, last) = (self.first as i64, (self.first + self.scores.len() - 1) as i64);
        let ticks = ticks(low, high);
        let letters = ticks.iter().map(|tick| tick.to_string().len()).max().unwrap_or(1);
        let left = 2.0 * MARGIN + LETTER * letters as f64;
        let across = Axis { from: first, to: last, start: left, end: WIDTH - MARGIN };
        let down = Axis { from: low, to: high, start: HEIGHT - BELOW, end: MARGIN };
        let described = format!("{} scores from entry {first} to {last}, the least {low} and the greatest {high}", self.scores.len());
        let mut svg = format!("<svg viewBox=\"0 0 {WIDTH} {HEIGHT}\" role=\"img\" aria-label=\"Plot of {described}\">\n<title>{described}</title>\n");
        for tick in ticks {
            let at = down.at(tick);
            svg += &format!("<path class=\"grid\" d=\"M{left:.1} {at:.1}H{:.1}\"/>", WIDTH - MARGIN);
            svg += &format!("<text x=\"{:.1}\" y=\"{:.1}\" text-anchor=\"end\">{tick}</text>\n", left - 6.0, at + 4.0);
        }
        svg += &entry_ticks(&across, first, last);
        svg += &format!("<path class=\"band\" d=\"{}\"/>\n", self.band(&across, &down));
        let line = joined(self.scores.iter().zip(first..).map(|(&score, entry)| (across.at(entry), down.at(score))));
        svg += &format!("<polyline class=\"score\" points=\"{line}\"/>\n");
        svg + &self.dots(&across, &down) + "</svg>\n"
    }

    /// The greatest of the windows from the first on, and the least of them back to it.
    fn band(&self, across: &Axis, down: &Axis) -> String {
        if self.windows.is_empty() {
            return String::new();
        }
        let above = self.windows.iter().map(|window| (across.at(window.entry), down.at(window.greatest[0])));
        let below = self.windows.iter().rev().map(|window| (across.at(window.entry), down.at(window.least[0])));
        format!("M{}Z", joined(above.chain(below)))
    }

    fn dots(&self, across: &Axis, down: &Axis) -> String {
        if self.scores.len() > MOST_DOTS {
            return String::new();
        }
        let dot = |(&score, entry)| {
            let (cx, cy) = (across.at(entry), down.at(score));
            format!("<circle cx=\"{cx:.1}\" cy=\"{cy:.1}\" r=\"2.6\"><title>entry {entry}: {score}</title></circle>\n")
        };
        self.scores.iter().zip(self.first as i64..).map(dot).collect()
    }
}

impl Window {
    fn line(&self) -> String {
        let Window { entry, least: [least, place], greatest: [greatest, other] } = self;
        format!("{entry} {least} {place} {greatest} {other}\n")
    }
}

/// A line of the drift: places are counted from where the entries that were lent begin.
fn window(line: &str, from: i64) -> Option<Window> {
    let numbers: Vec<i64> = line.split(' ').filter_map(|word| word.parse().ok()).collect();
    let [entry, least, place, greatest, other] = numbers.try_into().ok()?;
    Some(Window { entry: from + entry, least: [least, from + place], greatest: [greatest, from + other] })
}

/// Whole numbers from one to another, on a line of the plot.
struct Axis {
    from: i64,
    to: i64,
    start: f64,
    end: f64,
}

impl Axis {
    /// Where a number stands; the middle, where there is one alone.
    fn at(&self, number: i64) -> f64 {
        let part = |number: i64| (i128::from(number) - i128::from(self.from)) as f64;
        let share = if self.from == self.to { 0.5 } else { part(number) / part(self.to) };
        self.start + share * (self.end - self.start)
    }
}

fn entry_ticks(across: &Axis, first: i64, last: i64) -> String {
    let tick = |entry: i64| {
        let at = across.at(entry);
        format!("<text x=\"{at:.1}\" y=\"{:.1}\" text-anchor=\"middle\">{entry}</text>\n", HEIGHT - BELOW + 18.0)
    };
    let numbers: String = ticks(first, last).into_iter().map(tick).collect();
    numbers + &format!("<text x=\"{:.1}\" y=\"{:.1}\" text-anchor=\"end\">entry</text>\n", across.end, HEIGHT - 6.0)
}

/// The multiples of 1, 2 or 5 times a power of ten from a number to another, about as many as an axis has.
fn ticks(low: i64, high: i64) -> Vec<i64> {
    let (low, high) = (i128::from(low), i128::from(high));
    let steps = (0..20).flat_map(|digits| [1, 2, 5].map(|first| first * 10_i128.pow(digits)));
    let step = steps.into_iter().find(|step| (high - low) / step <= TICKS).unwrap_or(1);
    let first = -(-low).div_euclid(step);
    (first..=high.div_euclid(step)).filter_map(|at| i64::try_from(at * step).ok()).collect()
}

fn joined(points: impl Iterator<Item = (f64, f64)>) -> String {
    points.map(|(x, y)| format!("{x:.1} {y:.1}")).collect::<Vec<_>>().join(" ")
}

#[cfg(test)]
mod tests {
    use super::ticks;

    #[test]
    fn ticks_are_round_numbers_within_the_range() {
        assert_eq!(ticks(0, 12), [0, 2, 4, 6, 8, 10, 12]);
        assert_eq!(ticks(-7, 11), [-5, 0, 5, 10]);
        assert_eq!(ticks(5, 5), [5]);
        assert!(ticks(i64::MIN, i64::MAX).len() >= 3);
    }
}
