//! A state from a text that a person can read and write: `docs/DESCRIPTION.md`.
//!
//! The text says grid, boundary, constants and time once each, then fields, a
//! part at a time; a later line goes over an earlier one, but a line `barrier` adds
//! to what is there. Bounds are not looked at here: the core tests the state when
//! its record is written.

use basin::{total_depth, Parameters, Refusal, Timestamp};

use crate::clock::Lengths;
use crate::lines::{as_text, fault, index, number, once, take_length, time, Fault, Said};
use crate::state::State;
use crate::suggest::hint;

/// The words for the kinds of boundary, by 01's number.
pub const BOUNDARIES: [&str; 3] = ["periodic", "channel", "basin"];

/// The words that begin a line.
const WORDS: [&str; 15] = [
    "grid",
    "boundary",
    "gravity",
    "coriolis",
    "spacing-per-step",
    "spacing",
    "step-ms",
    "time",
    "depth",
    "level",
    "bottom",
    "u",
    "v",
    "barriers",
    "barrier",
];

/// Why a text gave no state.
#[derive(Debug, PartialEq, Eq)]
pub enum Unread {
    /// A fault in a line, counted from 1.
    Fault { line: usize, message: String },
    /// A grid of these sides that the core refuses, so that it has no fields.
    Refused {
        refusal: Refusal,
        sides: (usize, usize),
    },
}

impl From<Fault> for Unread {
    fn from(Fault { line, message }: Fault) -> Self {
        Unread::Fault { line, message }
    }
}

/// What a text description says.
#[derive(Debug, PartialEq, Eq)]
pub struct Described {
    pub state: State,
    /// Spacing and step, where the text has them; a record does not.
    pub lengths: Lengths,
}

/// The state of a text description.
pub fn from_text(text: &[u8]) -> Result<State, Unread> {
    described(text).map(|described| described.state)
}

/// What a text description says.
pub fn described(text: &[u8]) -> Result<Described, Unread> {
    let mut reader = Reader::new(as_text(text)?);
    while let Some((line, words)) = reader.said.next() {
        reader.take(line, &words)?;
    }
    reader.finish()
}

/// What a line of a field gives numbers to.
#[derive(Clone, Copy)]
enum Named {
    Depth,
    Level,
    Bottom,
    U,
    V,
    Barriers,
}

/// The lines, and what they have said so far.
struct Reader<'a> {
    said: Said<'a>,
    grid: Option<(usize, usize)>,
    boundary: Option<u8>,
    gravity: Option<i64>,
    coriolis: Option<i64>,
    spacing_per_step: Option<i64>,
    lengths: Lengths,
    /// The last line that said something of these.
    lengths_line: usize,
    time: Option<Timestamp>,
    depth_given: bool,
    /// h, b, u and v, and the barriers, empty until the grid is known.
    fields: [Vec<i64>; 4],
    barriers: Vec<u8>,
}

impl<'a> Reader<'a> {
    fn new(text: &'a str) -> Self {
        Reader {
            said: Said::new(text),
            grid: None,
            boundary: None,
            gravity: None,
            coriolis: None,
            spacing_per_step: None,
            lengths: Lengths::default(),
            lengths_line: 1,
            time: None,
            depth_given: false,
            fields: Default::default(),
            barriers: Vec::new(),
        }
    }

    /// Takes a line, and for a block of rows the lines after it.
    fn take(&mut self, line: usize, words: &[&'a str]) -> Result<(), Unread> {
        let (word, rest) = (words[0], &words[1..]);
        match word {
            "grid" => self.take_grid(line, rest),
            "boundary" => once(line, word, &mut self.boundary, boundary(line, rest)?),
            "gravity" => once(line, word, &mut self.gravity, constant(line, word, rest)?),
            "coriolis" => once(line, word, &mut self.coriolis, constant(line, word, rest)?),
            "spacing-per-step" | "spacing" | "step-ms" => self.take_length(line, word, rest),
            "time" => once(line, word, &mut self.time, time(line, rest)?),
            "depth" => self.take_field(line, word, Named::Depth, rest),
            "level" => self.take_field(line, word, Named::Level, rest),
            "bottom" => self.take_field(line, word, Named::Bottom, rest),
            "u" => self.take_field(line, word, Named::U, rest),
            "v" => self.take_field(line, word, Named::V, rest),
            "barriers" => self.take_field(line, word, Named::Barriers, rest),
            "barrier" => self.take_barrier(line, rest),
            _ => {
                let meant = hint(word, WORDS);
                fault(line, format!("unknown word `{word}`{meant}"))
            }
        }
    }

    /// Takes spacing, step, or the one over the other.
    fn take_length(&mut self, line: usize, word: &str, rest: &[&str]) -> Result<(), Unread> {
        self.lengths_line = line;
        if word != "spacing-per-step" {
            return Ok(take_length(&mut self.lengths, line, word, rest)?);
        }
        let ratio = constant(line, word, rest)?;
        once(line, word, &mut self.spacing_per_step, ratio)
    }

    /// Spacing over step, given as such or by the two.
    fn ratio(&self) -> Result<i64, Unread> {
        let line = self.lengths_line;
        let Lengths { spacing, step_ms } = self.lengths;
        match (self.spacing_per_step, spacing, step_ms) {
            (Some(ratio), ..) => match self.lengths.fit(ratio) {
                Ok(()) => Ok(ratio),
                Err(message) => fault(line, message),
            },
            (None, Some(_), Some(_)) => match self.lengths.ratio() {
                Ok(ratio) => Ok(ratio),
                Err(message) => fault(line, message),
            },
            (None, Some(_), None) => Err(self.missing("step-ms")),
            (None, None, Some(_)) => Err(self.missing("spacing")),
            (None, None, None) => Err(self.missing("spacing-per-step")),
        }
    }

    fn missing(&self, word: &str) -> Unread {
        Unread::Fault {
            line: self.said.last_line,
            message: format!("the text ends without `{word}`"),
        }
    }

    /// Takes the size of the grid, and makes room for the fields where the core
    /// knows such a grid.
    fn take_grid(&mut self, line: usize, rest: &[&str]) -> Result<(), Unread> {
        let [w, n] = rest[..] else {
            return fault(line, "`grid` takes two numbers: columns and rows");
        };
        let (w, n) = (number(line, w)?, number(line, n)?);
        once::<_, Unread>(line, "grid", &mut self.grid, (w, n))?;
        // Without fields the next test refuses, but the grid is tested first.
        let (kind, g, c, r) = (0, 0, 0, 0);
        let p = Parameters {
            w,
            n,
            kind,
            g,
            c,
            r,
        };
        if let Err(refusal @ Refusal::Grid) = total_depth(&p, &[], &[], &[], &[], &[]) {
            let sides = (w, n);
            return Err(Unread::Refused { refusal, sides });
        }
        self.fields = [(); 4].map(|()| vec![0; w * n]);
        self.barriers = vec![0; w * n];
        Ok(())
    }

    /// Takes a line about a field: a number for every cell, a box or a cell, or
    /// a number for each column or each cell.
    fn take_field(
        &mut self,
        line: usize,
        word: &str,
        named: Named,
        rest: &[&str],
    ) -> Result<(), Unread> {
        let Some((w, n)) = self.grid else {
            return fault(line, format!("`grid` must come before `{word}`"));
        };
        self.depth_given |= matches!(named, Named::Depth | Named::Level);
        match rest {
            ["columns", values @ ..] => self.put_columns(line, named, values),
            ["rows"] => self.put_rows(line, named),
            [value] => self.put_box(line, named, value, [0, 0, w - 1, n - 1]),
            [value, "cell", i, j] => {
                let corners = self.corners(line, [i, j, i, j])?;
                self.put_box(line, named, value, corners)
            }
            [value, "box", i, j, i2, j2] => {
                let corners = self.corners(line, [i, j, i2, j2])?;
                self.put_box(line, named, value, corners)
            }
            _ => fault(
                line,
                format!(
                    "`{word}` takes a number, a number and `box I J I2 J2` or `cell I J`, \
                     `columns` and a number for each, or `rows`"
                ),
            ),
        }
    }

    /// Takes a line about barriers: on the west or south edge of a cell, or of each
    /// cell of a box, beside those that stand there.
    fn take_barrier(&mut self, line: usize, rest: &[&str]) -> Result<(), Unread> {
        let Some((w, _)) = self.grid else {
            return fault(line, "`grid` must come before `barrier`");
        };
        let corners = match rest[..] {
            ["west" | "south", i, j] => [i, j, i, j],
            ["west" | "south", "box", i, j, i2, j2] => [i, j, i2, j2],
            _ => {
                let form = "`barrier` takes `west` or `south`, and `I J` or `box I J I2 J2`";
                return fault(line, form);
            }
        };
        let [i, j, i2, j2] = self.corners(line, corners)?;
        let bit = if rest[0] == "west" { 1 } else { 2 };
        for row in j..=j2 {
            for column in i..=i2 {
                self.barriers[row * w + column] |= bit;
            }
        }
        Ok(())
    }

    /// The corners of a box: its southwest cell and its northeast cell.
    fn corners(&self, line: usize, [i, j, i2, j2]: [&str; 4]) -> Result<[usize; 4], Unread> {
        let (i, j) = (self.column(line, i)?, self.row(line, j)?);
        let (i2, j2) = (self.column(line, i2)?, self.row(line, j2)?);
        if i2 < i || j2 < j {
            return fault(line, "a box is given by its southwest and northeast cells");
        }
        Ok([i, j, i2, j2])
    }

    /// A column of the grid.
    fn column(&self, line: usize, word: &str) -> Result<usize, Unread> {
        let w = self.grid.map_or(0, |(w, _)| w);
        Ok(index(line, "column", word, w)?)
    }

    /// A row of the grid.
    fn row(&self, line: usize, word: &str) -> Result<usize, Unread> {
        let n = self.grid.map_or(0, |(_, n)| n);
        Ok(index(line, "row", word, n)?)
    }

    /// One number for all cells of a box, its last column and row included.
    fn put_box(
        &mut self,
        line: usize,
        named: Named,
        value: &str,
        [i, j, i2, j2]: [usize; 4],
    ) -> Result<(), Unread> {
        let value = number(line, value)?;
        for row in j..=j2 {
            for column in i..=i2 {
                self.put(line, named, column, row, value)?;
            }
        }
        Ok(())
    }

    /// A number for each column, from west to east.
    fn put_columns(&mut self, line: usize, named: Named, values: &[&str]) -> Result<(), Unread> {
        let n = self.grid.map_or(0, |(_, n)| n);
        let values = self.one_a_column(line, values)?;
        for row in 0..n {
            for (column, &value) in values.iter().enumerate() {
                self.put(line, named, column, row, value)?;
            }
        }
        Ok(())
    }

    /// A line for each row, from north to south, with a number for each column.
    fn put_rows(&mut self, line: usize, named: Named) -> Result<(), Unread> {
        let n = self.grid.map_or(0, |(_, n)| n);
        for row in (0..n).rev() {
            let Some((line, words)) = self.said.next() else {
                let given = n - 1 - row;
                return fault(line, format!("{given} of {n} rows before the text ends"));
            };
            for (column, value) in self.one_a_column(line, &words)?.into_iter().enumerate() {
                self.put(line, named, column, row, value)?;
            }
        }
        Ok(())
    }

    fn one_a_column(&self, line: usize, words: &[&str]) -> Result<Vec<i64>, Unread> {
        let w = self.grid.map_or(0, |(w, _)| w);
        // A word that is none comes first: it is likely the start of the next
        // part, and a row is missing.
        let values = words.iter().map(|word| number(line, word));
        let values = values.collect::<Result<Vec<i64>, Fault>>()?;
        match values.len() {
            given if given == w => Ok(values),
            given => fault(line, format!("{given} numbers for {w} columns")),
        }
    }

    /// Gives a cell its number. A level gives the depth above the bottom that
    /// is known by then.
    fn put(
        &mut self,
        line: usize,
        named: Named,
        column: usize,
        row: usize,
        value: i64,
    ) -> Result<(), Unread> {
        let w = self.grid.map_or(0, |(w, _)| w);
        let cell = row * w + column;
        let [h, b, u, v] = &mut self.fields;
        let (field, value) = match named {
            Named::Barriers => {
                let Ok(barrier) = u8::try_from(value) else {
                    return fault(line, format!("{value} is no barrier: these are 0 to 3"));
                };
                self.barriers[cell] = barrier;
                return Ok(());
            }
            Named::Depth => (h, Some(value)),
            Named::Level => (h, value.checked_sub(b[cell])),
            Named::Bottom => (b, Some(value)),
            Named::U => (u, Some(value)),
            Named::V => (v, Some(value)),
        };
        match value {
            Some(value) => field[cell] = value,
            None => return fault(line, "level less bottom does not fit 64 bits"),
        }
        Ok(())
    }

    /// What the text says, once all has been said.
    fn finish(self) -> Result<Described, Unread> {
        let (w, n) = self.grid.ok_or_else(|| self.missing("grid"))?;
        let parameters = Parameters {
            w,
            n,
            kind: self.boundary.ok_or_else(|| self.missing("boundary"))?,
            g: self.gravity.ok_or_else(|| self.missing("gravity"))?,
            c: self.coriolis.ok_or_else(|| self.missing("coriolis"))?,
            r: self.ratio()?,
        };
        let timestamp = self.time.ok_or_else(|| self.missing("time"))?;
        if !self.depth_given {
            return Err(self.missing("depth` or `level"));
        }
        let [h, b, u, v] = self.fields;
        let state = State {
            parameters,
            timestamp,
            h,
            b,
            u,
            v,
            barriers: self.barriers,
        };
        Ok(Described {
            state,
            lengths: self.lengths,
        })
    }
}

fn constant(line: usize, word: &str, rest: &[&str]) -> Result<i64, Unread> {
    match rest {
        [value] => Ok(number(line, value)?),
        _ => fault(line, format!("`{word}` takes one number")),
    }
}

fn boundary(line: usize, rest: &[&str]) -> Result<u8, Unread> {
    let known = |word: &&str| BOUNDARIES.iter().position(|boundary| boundary == word);
    match rest {
        [word] => known(word).map(|kind| kind as u8),
        _ => None,
    }
    .map_or_else(
        || fault(line, "`boundary` is one of periodic, channel and basin"),
        Ok,
    )
}
