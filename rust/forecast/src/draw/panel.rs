//! The map of one frame: cells, bottom, walls and barriers, current.

use std::fmt::Write;

use basin::Parameters;

use super::frame::Frame;
use super::scale::{length, numbers_apart, Scale};
use super::svg::{Svg, GREY, INK};
use super::Series;

/// Between two arrows at least, in points.
const ARROWS_APART: f64 = 17.0;
/// Between two numbers of columns or rows at least, in points.
const NUMBERS_APART: f64 = 20.0;
/// Between an arrow and a side of the map, in points: half a wall, and half the
/// arrow's own line.
const ARROW_CLEAR: f64 = 2.1;
/// How thick what closes edges is, in points, and how its lines end.
const CLOSED: f64 = 3.0;
const CLOSED_END: &str = " stroke-linecap=\"square\"";

/// Where a map stands on the page, and how large a cell is.
pub struct Panel<'a> {
    pub parameters: &'a Parameters,
    pub left: f64,
    pub top: f64,
    pub cell: f64,
}

impl Panel<'_> {
    /// Draws a frame of a series.
    pub fn draw(&self, svg: &mut Svg, frame: &Frame, series: &Series) {
        let scale = &series.scale;
        self.cells(svg, frame, scale);
        svg.line(
            &self.contours(&series.bottom, scale),
            GREY,
            0.8,
            " stroke-opacity=\"0.7\"",
        );
        svg.line(
            &self.arrows(frame, scale),
            INK,
            1.1,
            " stroke-linecap=\"round\" stroke-linejoin=\"round\"",
        );
        self.walls(svg);
        let barriers = self.barriers(&series.barriers);
        svg.line(&barriers, INK, CLOSED, CLOSED_END);
        self.numbers(svg);
    }

    /// The numbers of columns below the map and of rows at its left, as many as
    /// have room.
    fn numbers(&self, svg: &mut Svg) {
        let apart = numbers_apart(NUMBERS_APART / self.cell);
        let below = self.y(0.0) + 13.0;
        for i in (0..self.parameters.w).step_by(apart) {
            let at = (self.x(i as f64 + 0.5), below);
            svg.words(at, 10.5, GREY, "middle", i);
        }
        for j in (0..self.parameters.n).step_by(apart) {
            let at = (self.left - 5.0, self.y(j as f64 + 0.5) + 3.7);
            svg.words(at, 10.5, GREY, "end", j);
        }
    }

    fn width(&self) -> f64 {
        self.parameters.w as f64 * self.cell
    }

    fn height(&self) -> f64 {
        self.parameters.n as f64 * self.cell
    }

    /// From the west edge of column `i`.
    fn x(&self, i: f64) -> f64 {
        self.left + i * self.cell
    }

    /// From the south edge of row `j`: north is at the top.
    fn y(&self, j: f64) -> f64 {
        self.top + self.height() - j * self.cell
    }

    /// A rectangle for each cell in the colour of its level. They are drawn in
    /// units of a cell, so that each is short to write.
    fn cells(&self, svg: &mut Svg, frame: &Frame, scale: &Scale) {
        let (w, n) = (self.parameters.w, self.parameters.n);
        svg.put(format_args!(
            "<g transform=\"translate({:.2} {:.2}) scale({:.4})\" shape-rendering=\"crispEdges\">\n",
            self.left, self.top, self.cell
        ));
        for (k, &level) in frame.level.iter().enumerate() {
            svg.put(format_args!(
                "<rect x=\"{}\" y=\"{}\" width=\"1\" height=\"1\" fill=\"{}\"/>\n",
                k % w,
                n - 1 - k / w,
                scale.colour(level)
            ));
        }
        svg.put(format_args!("</g>\n"));
    }

    /// Contours of the bottom along the edges of cells: where a multiple of the
    /// interval lies between the bottoms of two cells.
    fn contours(&self, bottom: &[i64], scale: &Scale) -> String {
        let (w, n) = (self.parameters.w, self.parameters.n);
        let mut path = String::new();
        if scale.contour == 0 {
            return path;
        }
        let band = |i: usize, j: usize| bottom[j * w + i] / scale.contour;
        for j in 0..n {
            for i in 0..w {
                let (east, north) = (self.x(i as f64 + 1.0), self.y(j as f64 + 1.0));
                if i + 1 < w && band(i, j) != band(i + 1, j) {
                    let _ = write!(path, "M{east:.1} {north:.1}v{:.1}", self.cell);
                }
                if j + 1 < n && band(i, j) != band(i, j + 1) {
                    let _ = write!(path, "M{east:.1} {north:.1}h{:.1}", -self.cell);
                }
            }
        }
        path
    }

    /// Arrows at cell centres, far enough apart to be told from each other; the
    /// fastest of the series nearly reaches the next one.
    fn arrows(&self, frame: &Frame, scale: &Scale) -> String {
        let (w, n) = (self.parameters.w, self.parameters.n);
        let apart = (ARROWS_APART / self.cell).ceil().max(1.0) as usize;
        let mut path = String::new();
        for j in (first(n, apart)..n).step_by(apart) {
            for i in (first(w, apart)..w).step_by(apart) {
                let (east, north) = frame.current(self.parameters, i, j);
                let per_speed = self.longest() / scale.fastest.max(1.0);
                let along = (east * per_speed, -north * per_speed);
                let centre = (self.x(i as f64 + 0.5), self.y(j as f64 + 0.5));
                path.push_str(&self.arrow(centre, along));
            }
        }
        path
    }

    /// An arrow that stays inside the map: what would leave it is moved in, and
    /// made shorter where the map is too small for it. Its direction is kept.
    fn arrow(&self, centre: (f64, f64), along: (f64, f64)) -> String {
        let Some(points) = arrow_points(along) else {
            return String::new();
        };
        let (across, upright) = (
            span(points.map(|point| point.0)),
            span(points.map(|point| point.1)),
        );
        let (width, height) = (self.width(), self.height());
        let clear = ARROW_CLEAR.min(width.min(height) / 4.0);
        let fits = |room: f64, (least, most): (f64, f64)| (room - 2.0 * clear) / (most - least);
        let part = fits(width, across).min(fits(height, upright)).min(1.0);
        let inside = |at: f64, from: f64, room: f64, (least, most): (f64, f64)| {
            at.min(from + room - clear - part * most)
                .max(from + clear - part * least)
        };
        let x = inside(centre.0, self.left, width, across);
        let y = inside(centre.1, self.top, height, upright);
        path_of(points.map(|point| (x + part * point.0, y + part * point.1)))
    }

    /// How long the arrow of the fastest current is.
    pub fn longest(&self) -> f64 {
        let apart = (ARROWS_APART / self.cell).ceil().max(1.0);
        (1.15 * apart * self.cell).min(34.0)
    }

    /// Thick lines where the boundary closes edges, thin broken ones where the
    /// grid wraps. Closed are the south edges of row 0, which are the north
    /// edges of the last row as well, and of a basin the west edges of column 0.
    fn walls(&self, svg: &mut Svg) {
        let (left, top) = (self.left, self.top);
        let (right, bottom) = (left + self.width(), top + self.height());
        let level = format!("M{left:.1} {top:.1}H{right:.1}M{left:.1} {bottom:.1}H{right:.1}");
        let upright = format!("M{left:.1} {top:.1}V{bottom:.1}M{right:.1} {top:.1}V{bottom:.1}");
        for (path, closed) in [
            (upright, self.parameters.kind == 2),
            (level, self.parameters.kind >= 1),
        ] {
            if closed {
                svg.line(&path, INK, CLOSED, CLOSED_END);
            } else {
                svg.line(&path, GREY, 0.8, " stroke-dasharray=\"3 3\"");
            }
        }
    }

    /// The edges that barriers close. The west edges of column 0 are the east edges
    /// of the last column as well, and stand on both sides of the map; so do the
    /// south edges of row 0, in the south and in the north.
    fn barriers(&self, barriers: &[u8]) -> String {
        let (w, n) = (self.parameters.w, self.parameters.n);
        // An edge of the grid is a side of the map, and so is the opposite one.
        let places = |first: usize, count: usize| match first {
            0 => vec![0.0, count as f64],
            _ => vec![first as f64],
        };
        let mut path = String::new();
        for (k, barrier) in barriers.iter().enumerate() {
            let (i, j) = (k % w, k / w);
            if barrier & 1 != 0 {
                let north = self.y(j as f64 + 1.0);
                for x in places(i, w).into_iter().map(|i| self.x(i)) {
                    let _ = write!(path, "M{x:.1} {north:.1}v{:.1}", self.cell);
                }
            }
            if barrier & 2 != 0 {
                let west = self.x(i as f64);
                for y in places(j, n).into_iter().map(|j| self.y(j)) {
                    let _ = write!(path, "M{west:.1} {y:.1}h{:.1}", self.cell);
                }
            }
        }
        path
    }
}

/// The first of as many places as go into `count` that are `apart`, so that as
/// much is left over before as after them.
fn first(count: usize, apart: usize) -> usize {
    let taken = (count / apart).saturating_sub(1) * apart;
    (count - 1).saturating_sub(taken) / 2
}

/// The least and the largest of some numbers.
fn span(numbers: [f64; 5]) -> (f64, f64) {
    let least = numbers.into_iter().fold(f64::INFINITY, f64::min);
    let most = numbers.into_iter().fold(f64::NEG_INFINITY, f64::max);
    (least, most)
}

/// An arrow about a centre; none where there is hardly any current.
pub fn arrow((x, y): (f64, f64), along: (f64, f64)) -> String {
    let points = arrow_points(along);
    let moved = points.map(|points| points.map(|point| (x + point.0, y + point.1)));
    moved.map(path_of).unwrap_or_default()
}

/// Tail, tip, one side of the head, tip and the other side, seen from the middle
/// of the shaft; none where there is hardly any current.
fn arrow_points((east, down): (f64, f64)) -> Option<[(f64, f64); 5]> {
    let length = length(east, down);
    if length < 2.2 {
        return None;
    }
    let tip = (east / 2.0, down / 2.0);
    let head = (0.34 * length).clamp(1.3, 5.0) / length;
    // The sides of the head: back from the tip, and to the left or right.
    let side = |turn: f64| {
        let back = (-east - turn * down, -down + turn * east);
        (tip.0 + head * back.0, tip.1 + head * back.1)
    };
    Some([(-tip.0, -tip.1), tip, side(0.6), tip, side(-0.6)])
}

/// A path along the points of an arrow.
fn path_of([tail, tip, a, _, b]: [(f64, f64); 5]) -> String {
    format!(
        "M{:.1} {:.1}L{:.1} {:.1}M{:.1} {:.1}L{:.1} {:.1}L{:.1} {:.1}",
        tail.0, tail.1, tip.0, tip.1, a.0, a.1, tip.0, tip.1, b.0, b.1
    )
}
