//! The picture of the README: a day of the example dock.

use std::fmt::Write;

use forecast::draw::svg::{grouped, Svg, GREY, INK};

use crate::drift::{Swing, Window};

const PALE: &str = "#e3e6e8";
const CORE: &str = "#b4552d";
const UNROUNDED: &str = "#2f74a3";

const WIDTH: f64 = 998.0;
const HEIGHT: f64 = 690.0;
/// Where a panel begins and ends; beside it are the numbers of its axis.
const LEFT: f64 = 74.0;
const RIGHT: f64 = WIDTH - 24.0;
const TALL: f64 = 140.0;

/// Draws the ten-minute windows of a day, and the swing of its start.
pub fn picture(day: &[Window], swing: &[Swing]) -> String {
    let mut page = Page::new();
    let title = "Whole numbers in a long run: the current becomes noise, the level stays near";
    page.words((20.0, 30.0), 17.0, INK, title);
    let what = "The example dock without forcing, a day of half-second steps; \
                the same scheme unrounded beside it";
    page.words((20.0, 52.0), 13.5, GREY, what);
    currents(&mut page, day);
    levels(&mut page, day);
    start(&mut page, swing);
    page.svg.end()
}

fn currents(page: &mut Page, day: &[Window]) {
    let panel = Panel {
        top: 96.0,
        hours: (24.0, 3.0),
        values: (0.0, 250.0, 50.0),
    };
    page.panel(
        &panel,
        "Current u, rms over all cells and ten minutes, mm/s",
    );
    let core = |window: &Window| window.core.u.rms();
    let unrounded = |window: &Window| window.doubles.u.rms();
    page.line(&panel, UNROUNDED, 1.8, points(day, unrounded));
    page.line(&panel, CORE, 1.8, points(day, core));
    page.words(panel.at(12.4, 209.0), 13.5, CORE, "the core, whole numbers");
    page.words(
        panel.at(12.4, 14.0),
        13.5,
        UNROUNDED,
        "unrounded: the water all but comes to rest",
    );
}

fn levels(page: &mut Page, day: &[Window]) {
    let panel = Panel {
        top: 306.0,
        hours: (24.0, 3.0),
        values: (0.0, 150.0, 50.0),
    };
    page.panel(
        &panel,
        "Level, the core less the unrounded one, over ten minutes, mm",
    );
    let rms = |window: &Window| window.difference.level.rms();
    let most = |window: &Window| window.difference.level.greatest();
    page.line(&panel, GREY, 1.3, points(day, most));
    page.line(&panel, INK, 1.8, points(day, rms));
    page.words(panel.at(6.1, 38.0), 13.5, GREY, "greatest of any cell");
    page.words(panel.at(16.6, 11.0), 13.5, INK, "rms");
}

fn start(page: &mut Page, swing: &[Swing]) {
    let panel = Panel {
        top: 516.0,
        hours: (1.5, 0.25),
        values: (11_700.0, 12_300.0, 150.0),
    };
    page.panel(
        &panel,
        "Level at the west wall, the first hour and a half, mm",
    );
    let core = swing.iter().map(|swing| (swing.hours, swing.core));
    let unrounded = swing.iter().map(|swing| (swing.hours, swing.doubles));
    page.line(&panel, UNROUNDED, 1.3, unrounded);
    page.line(&panel, CORE, 1.3, core);
    page.words(
        panel.at(0.76, 12_190.0),
        13.5,
        UNROUNDED,
        "unrounded: the two passes damp the swing",
    );
    page.words(
        panel.at(0.76, 11_775.0),
        13.5,
        CORE,
        "the core: its swing is late, and fades sooner",
    );
}

/// Hours and a value of each window.
fn points<'a>(
    day: &'a [Window],
    value: impl Fn(&Window) -> f64 + 'a,
) -> impl Iterator<Item = (f64, f64)> + 'a {
    day.iter()
        .map(move |window| (window.hours(), value(window)))
}

/// A diagram: how far down it begins, its last hour and the hours between two
/// marks, its lowest and highest value and what is between two marks.
struct Panel {
    top: f64,
    hours: (f64, f64),
    values: (f64, f64, f64),
}

impl Panel {
    /// The place of a value on the page.
    fn at(&self, hours: f64, value: f64) -> (f64, f64) {
        let (from, to, _) = self.values;
        let x = LEFT + hours / self.hours.0 * (RIGHT - LEFT);
        (x, self.top + (to - value) / (to - from) * TALL)
    }
}

/// A page of diagrams.
struct Page {
    svg: Svg,
}

impl Page {
    fn new() -> Self {
        let svg = Svg::new(WIDTH, HEIGHT);
        Page { svg }
    }

    /// Words that begin at a place.
    fn words(&mut self, at: (f64, f64), size: f64, colour: &str, words: &str) {
        self.svg.words(at, size, colour, "start", words);
    }

    /// Title, marks and numbers of a diagram.
    fn panel(&mut self, panel: &Panel, title: &str) {
        self.words((LEFT, panel.top - 12.0), 13.5, INK, title);
        let (from, to, step) = panel.values;
        let marks = |from: f64, to: f64, step: f64| {
            (0..=((to - from) / step).round() as u32).map(move |mark| from + f64::from(mark) * step)
        };
        for value in marks(from, to, step) {
            let (x, y) = panel.at(0.0, value);
            self.svg.put(format_args!(
                "<path d=\"M{x} {y:.1}H{RIGHT}\" stroke=\"{PALE}\"/>\n"
            ));
            self.svg
                .words((x - 8.0, y + 4.0), 12.0, GREY, "end", grouped(value as i64));
        }
        let (last, every) = panel.hours;
        for hours in marks(0.0, last, every) {
            let (x, y) = panel.at(hours, from);
            self.svg.put(format_args!(
                "<path d=\"M{x:.1} {y}v5\" stroke=\"{GREY}\"/>\n"
            ));
            let unit = if hours == last { " h" } else { "" };
            self.svg.words(
                (x, y + 19.0),
                12.0,
                GREY,
                "middle",
                format!("{hours}{unit}"),
            );
        }
    }

    /// A line through points of a diagram.
    fn line(
        &mut self,
        panel: &Panel,
        colour: &str,
        width: f64,
        points: impl Iterator<Item = (f64, f64)>,
    ) {
        let mut path = String::new();
        for (hours, value) in points {
            let (x, y) = panel.at(hours, value);
            let letter = if path.is_empty() { "M" } else { " " };
            let _ = write!(path, "{letter}{x:.1} {y:.1}");
        }
        let round = " stroke-linejoin=\"round\"";
        self.svg.line(&path, colour, width, round);
    }
}
