//! What a colour, the length of an arrow and a contour stand for: the same in
//! all frames of a series.

use basin::Parameters;

use super::frame::Frame;

/// How many colours the scale passes through.
pub const COLOUR_COUNT: usize = 5;
/// Colours from the lowest level over the middle to the highest, evenly apart.
const COLOURS: [[f64; 3]; COLOUR_COUNT] = [
    [190.0, 134.0, 74.0],
    [225.0, 196.0, 152.0],
    [248.0, 246.0, 240.0],
    [156.0, 194.0, 214.0],
    [73.0, 138.0, 179.0],
];

/// The same for a dark page, where the middle is as dark as the page.
const DARK_COLOURS: [[f64; 3]; COLOUR_COUNT] = [
    [176.0, 108.0, 44.0],
    [102.0, 72.0, 44.0],
    [27.0, 36.0, 44.0],
    [38.0, 84.0, 114.0],
    [52.0, 133.0, 184.0],
];

/// The scales of a series.
pub struct Scale {
    /// Level of the middle colour, mm: the mean of the first frame.
    pub middle: i64,
    /// From the middle to the last colour either way, mm.
    pub reach: i64,
    /// The fastest current of any frame, mm/s; 0 where all is at rest.
    pub fastest: f64,
    /// Between two contours of the bottom, mm; 0 where the bottom is even.
    pub contour: i64,
}

impl Scale {
    pub fn of(p: &Parameters, bottom: &[i64], frames: &[Frame]) -> Self {
        let first = frames.first().map_or(&[][..], |frame| &frame.level);
        let middle = first.iter().sum::<i64>() / (first.len() as i64).max(1);
        let levels = frames.iter().flat_map(|frame| &frame.level);
        let furthest = levels.map(|level| (level - middle).abs()).max();
        let speeds = frames.iter().flat_map(|frame| {
            let cells = (0..p.n).flat_map(|j| (0..p.w).map(move |i| (i, j)));
            cells.map(move |(i, j)| {
                let (east, north) = frame.current(p, i, j);
                length(east, north)
            })
        });
        let fall = match (bottom.iter().min(), bottom.iter().max()) {
            (Some(least), Some(most)) => most - least,
            _ => 0,
        };
        Scale {
            middle,
            reach: round_up(furthest.unwrap_or(0), &FINE),
            fastest: speeds.fold(0.0, f64::max),
            contour: if fall == 0 {
                0
            } else {
                round_up((fall + 4) / 5, &COARSE)
            },
        }
    }

    /// The colour of a level.
    pub fn colour(&self, level: i64) -> String {
        let part = (level - self.middle) as f64 / self.reach as f64;
        colour(part)
    }

    /// A round speed to show beside the pictures, mm/s: at most the fastest.
    pub fn key_speed(&self) -> i64 {
        let fastest = self.fastest as i64;
        round_numbers(&COARSE)
            .take_while(|&speed| speed <= fastest)
            .last()
            .unwrap_or(0)
    }
}

/// The length of an arrow. (A square root is the same on every machine, `hypot`
/// is not.)
pub fn length(east: f64, north: f64) -> f64 {
    (east * east + north * north).sqrt()
}

/// The colour of a part of the scale, -1 to 1.
pub fn colour(part: f64) -> String {
    let last = COLOURS.len() - 1;
    let place = (part.clamp(-1.0, 1.0) + 1.0) / 2.0 * last as f64;
    let below = (place as usize).min(last - 1);
    written([0, 1, 2].map(|k| {
        let (from, to) = (COLOURS[below][k], COLOURS[below + 1][k]);
        (from + (to - from) * (place - below as f64)).round()
    }))
}

/// The colours that the scale passes through.
pub fn colours() -> Vec<String> {
    COLOURS.map(written).to_vec()
}

/// The same for a dark page.
pub fn dark_colours() -> Vec<String> {
    DARK_COLOURS.map(written).to_vec()
}

fn written(colour: [f64; 3]) -> String {
    let [red, green, blue] = colour.map(|part| part as u8);
    format!("#{red:02x}{green:02x}{blue:02x}")
}

/// Round numbers: for what is counted in steps, and for what only has to be
/// read.
const COARSE: [i64; 3] = [1, 2, 5];
const FINE: [i64; 10] = [10, 12, 15, 20, 25, 30, 40, 50, 60, 80];

/// Between two numbers of columns or rows: a round number that is not below what
/// keeps them from touching.
pub fn numbers_apart(least: f64) -> usize {
    round_up(least.ceil() as i64, &COARSE).max(1) as usize
}

/// The least round number that is not below a number.
fn round_up(number: i64, round: &[i64]) -> i64 {
    let found = round_numbers(round).find(|&step| step >= number);
    found.unwrap_or(number)
}

/// Round numbers times 1, 10, 100 … up to a thousand million, past every bound
/// of 01.
fn round_numbers(round: &[i64]) -> impl Iterator<Item = i64> + '_ {
    let powers = (0..10).map(|power| 10i64.pow(power));
    powers.flat_map(move |ten| round.iter().map(move |step| step * ten))
}

#[cfg(test)]
mod tests {
    use super::*;

    #[test]
    fn round_numbers() {
        let coarse = [1, 2, 3, 5, 6, 11, 99, 200].map(|number| round_up(number, &COARSE));
        assert_eq!(coarse, [1, 2, 5, 5, 10, 20, 100, 200]);
        let fine = [0, 12, 13, 210, 300, 801].map(|number| round_up(number, &FINE));
        assert_eq!(fine, [10, 12, 15, 250, 300, 1000]);
    }

    #[test]
    fn ends_of_the_scale() {
        assert_eq!(colour(-1.0), "#be864a");
        assert_eq!(colour(0.0), "#f8f6f0");
        assert_eq!(colour(1.0), "#498ab3");
        assert_eq!(colour(7.0), colour(1.0));
    }
}
