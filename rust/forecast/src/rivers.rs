//! Rivers: flows into cells that change with time, from a text of lines.
//!
//! A flow is exact: mm a step, or litres a second over a cell, as a fraction. What
//! enters with each step is [`crate::inflow`]'s to say.

use std::collections::{BTreeMap, HashMap};

use basin::Timestamp;

use crate::clock::{milliseconds, Clock, Lengths};
use crate::inflow::Course;
use crate::lines::{as_text, fault, index, number, take_length, time, Fault, Said};
use crate::suggest::hint;

/// The greatest flow that a line may name, in its unit: far above what the core
/// takes, and small enough to reckon with.
const GREATEST: i64 = 1_000_000;

/// What a text of rivers says.
pub struct Rivers {
    /// Spacing and step, where the text has them.
    pub lengths: Lengths,
    cells: BTreeMap<(usize, usize), Vec<Line>>,
    /// Which line says what flows into a cell from a moment on.
    said: HashMap<((usize, usize), When), usize>,
}

/// A line: from then on, so much flows into a cell.
struct Line {
    line: usize,
    when: When,
    cell: (usize, usize),
    flow: Flow,
}

#[derive(Clone, Copy, PartialEq, Eq, Hash)]
enum When {
    /// A step of the run, counted from 0.
    Step(u64),
    Time(Timestamp),
}

/// Thousandths of mm a step, or of litres a second.
#[derive(Clone, Copy)]
enum Flow {
    Millimetres(i64),
    Litres(i64),
}

impl Rivers {
    /// Reads a text, for a grid of so many columns and rows.
    pub fn read(text: &[u8], sides: (usize, usize)) -> Result<Self, Fault> {
        let mut rivers = Rivers {
            lengths: Lengths::default(),
            cells: BTreeMap::new(),
            said: HashMap::new(),
        };
        for (line, words) in Said::new(as_text(text)?) {
            rivers.take(line, &words, sides)?;
        }
        Ok(rivers)
    }

    fn take(&mut self, line: usize, words: &[&str], sides: (usize, usize)) -> Result<(), Fault> {
        match words {
            [word @ ("spacing" | "step-ms"), rest @ ..] => {
                take_length(&mut self.lengths, line, word, rest)
            }
            [when @ .., i, j, flow, unit] if (1..=2).contains(&when.len()) => {
                let taken = Line {
                    line,
                    when: moment(line, when)?,
                    cell: (
                        index(line, "column", i, sides.0)?,
                        index(line, "row", j, sides.1)?,
                    ),
                    flow: flowing(line, flow, unit)?,
                };
                self.add(taken)
            }
            _ => no_line(line, words),
        }
    }

    /// Adds a line. Of one cell and moment there is one.
    fn add(&mut self, taken: Line) -> Result<(), Fault> {
        if let Some(other) = self.said.insert((taken.cell, taken.when), taken.line) {
            let message = format!("line {other} says what flows there then");
            return fault(taken.line, message);
        }
        self.cells.entry(taken.cell).or_default().push(taken);
        Ok(())
    }

    /// The course of each cell that a line names. R is the record's; the lengths are
    /// those that are known by now.
    pub fn courses(
        &self,
        clock: &Clock,
        lengths: &Lengths,
        ratio: i64,
        w: usize,
    ) -> Result<Vec<Course>, Fault> {
        let parts = Parts::of(lengths, ratio);
        let course = |(&(i, j), lines): (&(usize, usize), &Vec<Line>)| {
            let changes = lines.iter().map(|line| {
                let (step, within) = line.begins(clock)?;
                Ok((step, within, parts.of_flow(line)?))
            });
            let mut changes = changes.collect::<Result<Vec<_>, Fault>>()?;
            // Of two that begin with one step, the later moment is in force.
            changes.sort_by_key(|&(step, within, _)| (step, within));
            let changes = changes.into_iter().map(|(step, _, parts)| (step, parts));
            Ok(Course::new(j * w + i, changes.collect(), parts.of_one))
        };
        self.cells.iter().map(course).collect()
    }
}

impl Line {
    /// The step that it begins with, counted from the start of the run, and its moment,
    /// by which those of one step are ordered: a step's own is the last.
    fn begins(&self, clock: &Clock) -> Result<(i128, i128), Fault> {
        let begins = match self.when {
            When::Step(step) => Some((i128::from(step), i128::MAX)),
            When::Time(time) => clock.step_at(time).map(|step| (step, milliseconds(time))),
        };
        let unknown = "a time needs the length of a step: --step-ms MS, or the spacing";
        begins.map_or_else(|| fault(self.line, unknown), Ok)
    }
}

/// Into how many parts a millimetre is divided, so that every flow is a whole number
/// of them a step.
struct Parts {
    of_one: i128,
    /// Parts a step of a thousandth of a litre a second; none without the spacing.
    of_litre: Option<i128>,
}

impl Parts {
    /// A litre a second is 1,000,000 mm³ a second. A step has spacing/R seconds and
    /// a cell spacing² mm², so this is 1,000,000/(R·spacing) mm a step.
    fn of(lengths: &Lengths, ratio: i64) -> Self {
        match lengths.spacing {
            Some(spacing) => Parts {
                of_one: 1000 * i128::from(ratio.max(1)) * i128::from(spacing),
                of_litre: Some(1_000_000),
            },
            None => Parts {
                of_one: 1000,
                of_litre: None,
            },
        }
    }

    fn of_flow(&self, line: &Line) -> Result<i128, Fault> {
        match (line.flow, self.of_litre) {
            (Flow::Millimetres(thousandths), _) => {
                Ok(i128::from(thousandths) * (self.of_one / 1000))
            }
            (Flow::Litres(thousandths), Some(parts)) => Ok(i128::from(thousandths) * parts),
            (Flow::Litres(_), None) => fault(
                line.line,
                "l/s need the spacing: --spacing MM, or a line `spacing MM`",
            ),
        }
    }
}

fn moment(line: usize, words: &[&str]) -> Result<When, Fault> {
    match words {
        ["step", step] => Ok(When::Step(number(line, step)?)),
        [date, ..] if date.starts_with(|sign: char| sign.is_ascii_digit()) => {
            Ok(When::Time(time(line, words)?))
        }
        _ => no_line(line, words),
    }
}

/// What a line has to be.
fn no_line<T>(line: usize, words: &[&str]) -> Result<T, Fault> {
    let form = "a line is a time or `step N`, a cell I J, and a flow in mm or l/s";
    let first = words.first().copied().unwrap_or_default();
    let meant = hint(first, ["spacing", "step-ms", "step"]);
    fault(line, format!("{form}, as step 7200 0 5 1.5 mm{meant}"))
}

fn flowing(line: usize, flow: &str, unit: &str) -> Result<Flow, Fault> {
    let Some(thousandths) = thousandths(flow) else {
        let form = "is no flow: a number with up to three digits after the point";
        return fault(line, format!("`{flow}` {form}, at most {GREATEST}"));
    };
    match unit {
        "mm" => Ok(Flow::Millimetres(thousandths)),
        "l/s" => Ok(Flow::Litres(thousandths)),
        _ => fault(line, format!("`{unit}` is no unit: a flow is in mm or l/s")),
    }
}

/// A decimal number in thousandths: 1.5 is 1500.
fn thousandths(word: &str) -> Option<i64> {
    let (sign, digits) = match word.strip_prefix('-') {
        Some(digits) => (-1, digits),
        None => (1, word),
    };
    let (whole, fraction) = match digits.split_once('.') {
        Some((whole, fraction)) => (whole, fraction),
        None => (digits, "0"),
    };
    let plain = |part: &str| !part.is_empty() && part.bytes().all(|b| b.is_ascii_digit());
    if !plain(whole) || !plain(fraction) || fraction.len() > 3 {
        return None;
    }
    let whole: i64 = whole.parse().ok().filter(|&whole| whole <= GREATEST)?;
    let fraction: i64 = format!("{fraction:0<3}").parse().ok()?;
    Some(sign * (1000 * whole + fraction)).filter(|flow| flow.abs() <= 1000 * GREATEST)
}

#[cfg(test)]
mod tests {
    use super::*;

    #[test]
    fn flows_in_thousandths() {
        for (word, expected) in [
            ("0", Some(0)),
            ("1", Some(1000)),
            ("-1.5", Some(-1500)),
            ("0.125", Some(125)),
            ("12.30", Some(12_300)),
            ("1000000", Some(1_000_000_000)),
            ("1000000.001", None),
            ("1.2345", None),
            ("1.", None),
            (".5", None),
            ("--1", None),
            ("+1", None),
            ("1e3", None),
            ("", None),
            ("99999999999999999999", None),
        ] {
            assert_eq!(thousandths(word), expected, "{word}");
        }
    }
}
