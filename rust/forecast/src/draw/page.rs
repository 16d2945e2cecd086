//! A page of maps under one title, over one legend.

use basin::Parameters;

use super::frame::Frame;
use super::panel::{arrow, Panel};
use super::scale::{colour, Scale, COLOUR_COUNT};
use super::svg::{grouped, Svg, GREY, INK};
use super::Series;

const MARGIN: f64 = 20.0;
const GAP: f64 = 18.0;
/// For the title of the page, and for a line above each map of a series.
const TITLE: f64 = 44.0;
const CAPTION: f64 = 22.0;
const CAPTION_LINE: f64 = 16.0;
/// For the numbers of rows at the left of a map, and of columns below it.
const NUMBERS: (f64, f64) = (20.0, 16.0);
const LEGEND: f64 = 66.0;
/// The colour bar: how wide and how high.
const BAR: (f64, f64) = (300.0, 12.0);
/// The narrowest page that has room for the legend, and the narrowest place for
/// a map with a caption.
const NARROWEST: f64 = 740.0;
const NARROWEST_MAP: f64 = 210.0;

/// What stands above a map of a series: the steps done, total depth, and above
/// them the time where it is known.
pub struct Caption {
    pub time: Option<String>,
    pub steps: String,
    pub total: String,
}

/// How maps stand on a page.
pub struct Page {
    columns: usize,
    rows: usize,
    cell: f64,
    caption: f64,
    map: (f64, f64),
    /// From one map to the next.
    pitch: f64,
}

impl Page {
    /// One map, as large as a reader's page.
    pub fn single(p: &Parameters) -> Self {
        Page::new(p, (1, 1), (800.0, 560.0), 0.0)
    }

    /// So many maps, in rows of up to four, with a time above each or without.
    pub fn of_many(p: &Parameters, count: usize, timed: bool) -> Self {
        let columns = match count {
            0..=3 => count.max(1),
            4 => 2,
            5..=9 => 3,
            _ => 4,
        };
        let width = (960.0 - (columns - 1) as f64 * GAP) / columns as f64 - NUMBERS.0;
        let rows = count.div_ceil(columns);
        let caption = if timed {
            CAPTION + CAPTION_LINE
        } else {
            CAPTION
        };
        Page::new(p, (columns, rows), (width, width), caption)
    }

    fn new(
        p: &Parameters,
        (columns, rows): (usize, usize),
        room: (f64, f64),
        caption: f64,
    ) -> Self {
        let (w, n) = (p.w as f64, p.n as f64);
        let cell = (room.0 / w).min(room.1 / n).min(64.0);
        // A tenth of a point keeps what is written short.
        let cell = (cell * 10.0).floor() / 10.0;
        Page {
            columns,
            rows,
            cell,
            caption,
            map: (w * cell, n * cell),
            pitch: NUMBERS.0 + (w * cell).max(caption.min(1.0) * NARROWEST_MAP) + GAP,
        }
    }

    /// The page with these frames, each with its caption.
    pub fn draw(
        &self,
        series: &Series,
        title: &str,
        panels: &[(&Frame, Option<Caption>)],
    ) -> String {
        let (columns, rows) = (self.columns as f64, self.rows as f64);
        let maps = columns * self.pitch - GAP;
        let width = (2.0 * MARGIN + maps).max(NARROWEST).ceil();
        let below = TITLE + rows * self.row() - GAP;
        let mut svg = Svg::new(width, (below + LEGEND).ceil());
        svg.words((MARGIN, 28.0), 17.0, INK, "start", title);
        north(&mut svg, width - MARGIN - 8.0);
        for (place, (frame, caption)) in panels.iter().enumerate() {
            let panel = self.panel(series, place);
            if let Some(caption) = caption {
                self.caption(&mut svg, &panel, caption);
            }
            panel.draw(&mut svg, frame, series);
        }
        let longest = self.panel(series, 0).longest();
        legend(&mut svg, below + 22.0, &series.scale, longest);
        svg.end()
    }

    /// From one row of maps to the next.
    fn row(&self) -> f64 {
        self.caption + self.map.1 + NUMBERS.1 + GAP
    }

    /// Where the map with this number stands.
    fn panel<'a>(&self, series: &'a Series, place: usize) -> Panel<'a> {
        let (column, row) = (place % self.columns, place / self.columns);
        Panel {
            parameters: &series.parameters,
            left: MARGIN + NUMBERS.0 + column as f64 * self.pitch,
            top: TITLE + row as f64 * self.row() + self.caption,
            cell: self.cell,
        }
    }

    /// The words above a map.
    fn caption(&self, svg: &mut Svg, panel: &Panel, caption: &Caption) {
        let right = panel.left + self.pitch - NUMBERS.0 - GAP;
        let line = panel.top - 7.0;
        svg.words((panel.left, line), 13.5, INK, "start", &caption.steps);
        svg.words((right, line), 13.5, GREY, "end", &caption.total);
        if let Some(time) = &caption.time {
            let above = (panel.left, line - CAPTION_LINE);
            svg.words(above, 13.5, INK, "start", time);
        }
    }
}

/// An arrow to the north with its letter, at the top of the page.
fn north(svg: &mut Svg, x: f64) {
    svg.put(format_args!(
        "<path id=\"north\" d=\"M{x:.1} 8l5 15l-5 -4l-5 4z\" fill=\"{INK}\"/>\n"
    ));
    svg.words((x, 35.0), 12.0, INK, "middle", "N");
}

/// What colours, arrows and contours stand for.
fn legend(svg: &mut Svg, top: f64, scale: &Scale, longest: f64) {
    bar(svg, top);
    for (place, anchor) in [(-1, "start"), (0, "middle"), (1, "end")] {
        let x = MARGIN + BAR.0 * (place + 1) as f64 / 2.0;
        let level = grouped(scale.middle + place * scale.reach);
        svg.words((x, top + BAR.1 + 16.0), 12.5, GREY, anchor, level);
    }
    let middle = top + BAR.1 / 2.0;
    let mut x = MARGIN + BAR.0 + 12.0;
    svg.words((x, middle + 4.5), 13.0, INK, "start", "level, mm");
    x += 88.0;
    let speed = scale.key_speed();
    if speed > 0 {
        let length = longest * speed as f64 / scale.fastest.max(1.0);
        let centre = (x + length / 2.0, middle);
        svg.line(
            &arrow(centre, (length, 0.0)),
            INK,
            1.1,
            " stroke-linecap=\"round\"",
        );
        let words = format!("{} mm/s", grouped(speed));
        svg.words((x + length + 8.0, middle + 4.5), 13.0, INK, "start", words);
    }
    if scale.contour > 0 {
        let (x, words) = (
            x + 128.0,
            format!("bottom, every {} mm", grouped(scale.contour)),
        );
        svg.line(&format!("M{x:.1} {middle:.1}h18"), GREY, 0.8, "");
        svg.words((x + 26.0, middle + 4.5), 13.0, INK, "start", words);
    }
}

/// The colours from low to high.
fn bar(svg: &mut Svg, top: f64) {
    svg.put(format_args!("<linearGradient id=\"level\">\n"));
    for place in 0..COLOUR_COUNT {
        let part = place as f64 / (COLOUR_COUNT - 1) as f64;
        svg.put(format_args!(
            "<stop offset=\"{part}\" stop-color=\"{}\"/>\n",
            colour(2.0 * part - 1.0)
        ));
    }
    svg.put(format_args!(
        "</linearGradient>\n<path d=\"M{MARGIN} {top:.1}h{}v{}H{MARGIN}z\" fill=\"url(#level)\"/>\n",
        BAR.0, BAR.1
    ));
}
