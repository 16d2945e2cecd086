//! Why a command gave no result, in words.

use std::fmt::{self, Display};
use std::ops::RangeInclusive;
use std::path::{Path, PathBuf};

use basin::{Field, Parameters, Refusal};

use crate::draw::grouped;
use crate::lines::Fault;
use crate::subject::Subject;

/// Why a command gave no result.
#[derive(Debug)]
pub enum Failure {
    /// A text that cannot be read as one.
    Text {
        file: PathBuf,
        line: usize,
        message: String,
    },
    /// A refusal by the core, in words.
    Refused(String),
    /// Arguments that are none.
    Usage(String),
    /// A file that cannot be read or written.
    File(PathBuf, String),
    /// Numbers that do not fit together, which the proved core never gives.
    Untrue(String),
}

impl Failure {
    /// 1 for a refusal by the core, 2 for what never came to the core.
    pub fn status(&self) -> u8 {
        match self {
            Failure::Refused(_) => 1,
            _ => 2,
        }
    }

    /// The core's refusal of something.
    pub fn refused(refusal: Refusal, of: Subject) -> Self {
        Failure::Refused(in_words(refusal, of))
    }

    /// A fault in a text.
    pub fn text(file: &Path, Fault { line, message }: Fault) -> Self {
        Failure::Text {
            file: file.to_owned(),
            line,
            message,
        }
    }

    /// A file that cannot be read or written.
    pub fn file(path: &Path, why: impl Display) -> Self {
        Failure::File(path.to_owned(), why.to_string())
    }

    /// Arguments that are none.
    pub fn usage(words: impl Into<String>) -> Self {
        Failure::Usage(words.into())
    }
}

impl Display for Failure {
    fn fmt(&self, to: &mut fmt::Formatter) -> fmt::Result {
        match self {
            Failure::Text {
                file,
                line,
                message,
            } => write!(to, "{}:{line}: {message}", file.display()),
            Failure::Refused(words) | Failure::Usage(words) | Failure::Untrue(words) => {
                to.write_str(words)
            }
            Failure::File(path, why) => write!(to, "{}: {why}", path.display()),
        }
    }
}

/// A refusal's number and its cause, with the number found and its bounds, and the
/// cell as column and row where the width is known.
pub fn in_words(refusal: Refusal, of: Subject) -> String {
    let at = |field, cell| format!("{} at {}", name(field), cell_name(cell, width(of)));
    let cause = match refusal {
        Refusal::Grid => grid_words(of),
        Refusal::Lengths => length_words(of),
        Refusal::Constants => constant_words(of),
        Refusal::Value { field, cell } => {
            let is = is(of.number(field, cell));
            format!("{} is {is}outside {}", at(field, cell), bounds(field))
        }
        Refusal::ClosedEdge { field, cell } => {
            let is = is(of.number(field, cell));
            let at = at(field, cell);
            format!("{at} is {is}on a closed edge, where it must be 0")
        }
        Refusal::OutOfBounds { pass, field, cell } => {
            let now = of.number(field, cell);
            let now = now.map_or(String::new(), |now| format!(", now {now},"));
            let (at, bounds) = (at(field, cell), bounds(field));
            format!("pass {pass} takes {at}{now} out of {bounds}")
        }
        Refusal::Record { offset } => {
            let why = of.damage(offset);
            let why = why.map_or(String::new(), |why| format!(": {why}"));
            format!("the record is damaged at byte {offset}{why}")
        }
        Refusal::Milliseconds => {
            let is = is(of.milliseconds());
            format!("the milliseconds of the timestamp are {is}above 999")
        }
        // The tool lends room enough, and probes no cell but those of the grid, so no
        // other is met.
        other => other.cause(),
    };
    format!("refused {}: {cause}", refusal.number())
}

fn width(of: Subject) -> Option<usize> {
    of.grid().map(|(w, ..)| w)
}

/// `999, ` where the number is known.
fn is(found: Option<impl Display>) -> String {
    found.map_or(String::new(), |found| format!("{found}, "))
}

/// The bounds of a field, with their unit.
fn bounds(field: Field) -> String {
    let unit = match field {
        Field::Depth | Field::Bottom => " mm",
        Field::VelocityU | Field::VelocityV => " mm/s",
        Field::Inflow => " mm a step",
        Field::Vorticity | Field::Barriers => "",
    };
    format!("{}{unit}", between(field.bounds()))
}

fn between<T: Into<i64> + Copy>(bounds: RangeInclusive<T>) -> String {
    let (least, most) = ((*bounds.start()).into(), (*bounds.end()).into());
    format!("{} to {}", grouped(least), grouped(most))
}

/// Refusal 1: which of columns, rows and boundary is unknown.
fn grid_words(of: Subject) -> String {
    let Some((w, n, kind)) = of.grid() else {
        return "the grid or its boundary is unknown".into();
    };
    let (least, most) = (Parameters::SIDE.start(), Parameters::SIDE.end());
    if !Parameters::SIDE.contains(&w) {
        format!("the columns are {w}, outside {least} to {most}")
    } else if !Parameters::SIDE.contains(&n) {
        format!("the rows are {n}, outside {least} to {most}")
    } else {
        format!("the boundary is of kind {kind}, none of 0, 1 and 2")
    }
}

/// Refusal 2: which field of a record is short or long.
fn length_words(of: Subject) -> String {
    match of.wrong_length() {
        Some((field, has, needs)) => {
            let name = name(field);
            format!("{name} has {has} bytes, and the cells of this grid need {needs}")
        }
        None => "a field does not have a number for each cell".into(),
    }
}

/// Refusal 3: which constant is outside its bounds.
fn constant_words(of: Subject) -> String {
    let names = ["gravity", "coriolis", "spacing-per-step"];
    let units = ["mm/s²", "mm/s", "mm/s"];
    let all = [Parameters::GRAVITY, Parameters::CORIOLIS, Parameters::RATIO];
    let outside = of.constants().and_then(|constants| {
        let first = (0..3).find(|&k| !all[k].contains(&constants[k]))?;
        let bounds = between(all[first].clone());
        let (name, number, unit) = (names[first], constants[first], units[first]);
        Some(format!("{name} is {number}, outside {bounds} {unit}"))
    });
    outside.unwrap_or_else(|| "gravity, coriolis or spacing-per-step is outside its bounds".into())
}

/// The word of the text description for a field.
pub fn name(field: Field) -> &'static str {
    match field {
        Field::Depth => "depth",
        Field::Bottom => "bottom",
        Field::VelocityU => "u",
        Field::VelocityV => "v",
        Field::Vorticity => "vorticity",
        Field::Inflow => "inflow",
        Field::Barriers => "barrier",
    }
}

/// A cell as column and row, or by its number where the width is not known.
pub fn cell_name(cell: usize, w: Option<usize>) -> String {
    match w {
        Some(w) if w > 0 => format!("cell {} {}", cell % w, cell / w),
        _ => format!("cell number {cell}"),
    }
}

#[cfg(test)]
mod tests {
    use super::{in_words, Refusal, Subject};

    #[test]
    fn a_refusal_says_its_number_once() {
        let words = in_words(Refusal::Destination, Subject::Sides(1, 1));
        assert_eq!(
            words,
            "refused 8: a field or record to be filled is too short"
        );
    }
}
