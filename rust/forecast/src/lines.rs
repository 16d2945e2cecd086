//! Texts of lines of words: what a description and a file of rivers share.

use std::fmt::Display;
use std::iter::Enumerate;
use std::str::{FromStr, Lines};

use basin::Timestamp;

use crate::clock::Lengths;
use crate::date::{from_date, split_fraction};

/// A fault in a line, counted from 1.
#[derive(Debug, PartialEq, Eq)]
pub struct Fault {
    pub line: usize,
    pub message: String,
}

/// A line at fault.
pub fn fault<T, E: From<Fault>>(line: usize, message: impl Display) -> Result<T, E> {
    let message = message.to_string();
    Err(Fault { line, message }.into())
}

/// Bytes as text.
pub fn as_text(bytes: &[u8]) -> Result<&str, Fault> {
    match std::str::from_utf8(bytes) {
        Ok(text) => Ok(text.trim_start_matches('\u{feff}')),
        Err(error) => {
            let good = &bytes[..error.valid_up_to()];
            let line = 1 + good.iter().filter(|&&byte| byte == b'\n').count();
            fault(line, "not text (UTF-8)")
        }
    }
}

/// The lines that say something. `#` starts a comment.
pub struct Said<'a> {
    lines: Enumerate<Lines<'a>>,
    /// The last line that was looked at, counted from 1.
    pub last_line: usize,
}

impl<'a> Said<'a> {
    pub fn new(text: &'a str) -> Self {
        Said {
            lines: text.lines().enumerate(),
            last_line: 1,
        }
    }
}

/// Each with its number and its words.
impl<'a> Iterator for Said<'a> {
    type Item = (usize, Vec<&'a str>);

    fn next(&mut self) -> Option<Self::Item> {
        for (number, line) in self.lines.by_ref() {
            self.last_line = number + 1;
            let said = line.split('#').next().unwrap_or_default();
            let words: Vec<&str> = said.split_whitespace().collect();
            if !words.is_empty() {
                return Some((number + 1, words));
            }
        }
        None
    }
}

/// Keeps what a line says, which no other line may say again.
pub fn once<T, E: From<Fault>>(
    line: usize,
    word: &str,
    place: &mut Option<T>,
    value: T,
) -> Result<(), E> {
    match place.replace(value) {
        Some(_) => fault(line, format!("`{word}` is given twice")),
        None => Ok(()),
    }
}

/// A whole number. One that is whole but too large for its type is told as
/// such; the core's own bounds are far below.
pub fn number<T: FromStr>(line: usize, word: &str) -> Result<T, Fault> {
    match word.parse() {
        Ok(number) => Ok(number),
        Err(_) => fault(
            line,
            format!("`{word}` is no whole number, or none that fits"),
        ),
    }
}

/// A whole number above 0.
pub fn positive(line: usize, word: &str, rest: &[&str]) -> Result<u64, Fault> {
    match rest {
        [value] => match number(line, value)? {
            0 => fault(line, format!("`{word}` takes a number above 0")),
            value => Ok(value),
        },
        _ => fault(line, format!("`{word}` takes one number")),
    }
}

/// A column or row below the number of them.
pub fn index(line: usize, of: &str, word: &str, count: usize) -> Result<usize, Fault> {
    match number(line, word)? {
        index if index < count => Ok(index),
        index => fault(
            line,
            format!(
                "{of} {index} is outside the grid, 0 to {}",
                count.saturating_sub(1)
            ),
        ),
    }
}

/// A line of spacing or step.
pub fn take_length(
    lengths: &mut Lengths,
    line: usize,
    word: &str,
    rest: &[&str],
) -> Result<(), Fault> {
    let place = match word {
        "spacing" => &mut lengths.spacing,
        _ => &mut lengths.step_ms,
    };
    once(line, word, place, positive(line, word, rest)?)
}

/// A moment: a date, and a time or none; or both in one word, as
/// 2026-11-16T06:00:00.
pub fn time(line: usize, words: &[&str]) -> Result<Timestamp, Fault> {
    let (date, time) = match words {
        [word] => word.split_once('T').unwrap_or((word, "00:00")),
        [date, time] => (*date, *time),
        _ => ("", ""),
    };
    let time = time.strip_suffix('Z').unwrap_or(time);
    if split_fraction(time).is_none() {
        let form = "milliseconds are three digits after the point, as 06:00:00.250";
        return fault(line, format!("`{time}` is no time: {form}"));
    }
    let form = "a time is a date from 2000 on and a time, as 2026-11-16 06:00:00 or 06:00:00.250";
    from_date(date, time).map_or_else(|| fault(line, form), Ok)
}
