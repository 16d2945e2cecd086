//! The arguments of a command: places (files and folders) and options.

use std::ffi::OsString;
use std::os::unix::ffi::OsStrExt;
use std::path::{Path, PathBuf};
use std::slice::Iter;
use std::str::FromStr;
use std::time::Duration;

use basin::Timestamp;

use crate::date::{from_date, split_fraction};
use crate::failure::Failure;
use crate::gates::Gate;
use crate::suggest::hint;

/// What stands after the name of a command.
#[derive(Debug, Default, PartialEq, Eq)]
pub struct Arguments {
    /// Files and folders.
    pub places: Vec<OsString>,
    pub text: bool,
    pub keep: bool,
    pub quiet: bool,
    pub steps: Option<u64>,
    pub until: Option<Timestamp>,
    pub step_ms: Option<u64>,
    pub spacing: Option<u64>,
    pub seconds: Option<Duration>,
    pub every: Option<u64>,
    pub description: Option<PathBuf>,
    pub rivers: Option<PathBuf>,
    pub csv: Option<PathBuf>,
    pub gates: Vec<Gate>,
    /// Cells to be probed (column, row).
    pub cells: Vec<(usize, usize)>,
    /// Cell (column, row) and mm a step.
    pub inflow: Vec<(usize, usize, i64)>,
}

impl Arguments {
    /// Sorts arguments into places and options; those not in `allowed` are none
    /// of this command's. After `--` all are places.
    pub fn sort(given: &[OsString], allowed: &[&str]) -> Result<Self, Failure> {
        let mut arguments = Arguments::default();
        let mut rest = given.iter();
        while let Some(argument) = rest.next() {
            match (argument.as_bytes(), argument.to_str()) {
                (b"--", _) => arguments.places.extend(rest.by_ref().cloned()),
                ([b'-', _, ..], Some(word)) => arguments.take_option(word, allowed, &mut rest)?,
                ([b'-', _, ..], None) => {
                    let word = argument.to_string_lossy();
                    return Err(Failure::usage(format!("unknown argument {word}")));
                }
                _ => arguments.places.push(argument.clone()),
            }
        }
        Ok(arguments)
    }

    /// The texts that are read beside the record.
    pub fn texts(&self) -> Vec<&Path> {
        let texts = [&self.rivers, &self.description].into_iter();
        texts.filter_map(|text| text.as_deref()).collect()
    }

    /// Takes an option and its values: `--steps 5` or `--steps=5`.
    fn take_option(
        &mut self,
        word: &str,
        allowed: &[&str],
        rest: &mut Iter<OsString>,
    ) -> Result<(), Failure> {
        let (option, joined) = match word.split_once('=') {
            Some((option, value)) => (option, Some(value)),
            None => (word, None),
        };
        if !allowed.contains(&option) {
            let meant = hint(option, allowed.iter().copied());
            return Err(Failure::usage(format!("unknown argument {option}{meant}")));
        }
        match joined {
            None => self.take(option, rest),
            Some(value) => {
                let value = [OsString::from(value)];
                let mut one = value.iter();
                self.take(option, &mut one)?;
                match one.next() {
                    None => Ok(()),
                    Some(_) => Err(Failure::usage(format!("{option} takes no value"))),
                }
            }
        }
    }

    fn take(&mut self, option: &str, rest: &mut Iter<OsString>) -> Result<(), Failure> {
        match option {
            "--text" => once(option, &mut self.text),
            "--keep" => once(option, &mut self.keep),
            "--quiet" => once(option, &mut self.quiet),
            "--steps" => only(option, &mut self.steps, value(option, rest)?),
            "--every" => only(option, &mut self.every, positive(option, rest)?),
            "--step-ms" => only(option, &mut self.step_ms, positive(option, rest)?),
            "--spacing" => only(option, &mut self.spacing, positive(option, rest)?),
            "--until" => only(option, &mut self.until, time(option, rest)?),
            "--seconds" => only(option, &mut self.seconds, seconds(option, rest)?),
            "--csv" => only(option, &mut self.csv, file(option, rest)?),
            "--rivers" => only(option, &mut self.rivers, file(option, rest)?),
            "--description" => only(option, &mut self.description, file(option, rest)?),
            "--gate" => self.take_gate(option, rest),
            "--cell" => {
                let cell = (value(option, rest)?, value(option, rest)?);
                self.cells.push(cell);
                Ok(())
            }
            _ => {
                let cell = (value(option, rest)?, value(option, rest)?);
                self.inflow.push((cell.0, cell.1, value(option, rest)?));
                Ok(())
            }
        }
    }

    fn take_gate(&mut self, option: &str, rest: &mut Iter<OsString>) -> Result<(), Failure> {
        let name = next(option, rest, "a name and a cell, as NAME I J", |word| {
            (!word.is_empty()).then(|| word.to_owned())
        })?;
        if self.gates.iter().any(|gate| gate.name == name) {
            return Err(Failure::usage(format!("two gates have the name {name}")));
        }
        let cell = (value(option, rest)?, value(option, rest)?);
        self.gates.push(Gate { name, cell });
        Ok(())
    }
}

fn twice(option: &str) -> Failure {
    Failure::usage(format!("{option} is given twice"))
}

/// Keeps that an option without a value is given.
fn once(option: &str, place: &mut bool) -> Result<(), Failure> {
    match std::mem::replace(place, true) {
        true => Err(twice(option)),
        false => Ok(()),
    }
}

/// Keeps the value of an option.
fn only<T>(option: &str, place: &mut Option<T>, value: T) -> Result<(), Failure> {
    match place.replace(value) {
        Some(_) => Err(twice(option)),
        None => Ok(()),
    }
}

/// The next argument as a whole number.
fn value<T: FromStr>(option: &str, rest: &mut Iter<OsString>) -> Result<T, Failure> {
    next(option, rest, "a whole number here", |word| {
        word.parse().ok()
    })
}

/// The next argument as a whole number above 0.
fn positive(option: &str, rest: &mut Iter<OsString>) -> Result<u64, Failure> {
    next(option, rest, "a whole number above 0", |word| {
        word.parse().ok().filter(|&number| number > 0)
    })
}

/// The next argument as seconds, with milliseconds or without.
fn seconds(option: &str, rest: &mut Iter<OsString>) -> Result<Duration, Failure> {
    let form = "seconds, whole or with three digits after the point, as 5 or 0.500";
    next(option, rest, form, |word| {
        let (whole, milliseconds) = split_fraction(word)?;
        let milliseconds = Duration::from_millis(milliseconds.unwrap_or(0));
        Duration::from_secs(whole.parse().ok()?).checked_add(milliseconds)
    })
}

/// The next argument as a moment, in UTC.
fn time(option: &str, rest: &mut Iter<OsString>) -> Result<Timestamp, Failure> {
    let form = "a time in UTC, as 2026-11-16T06:00:00 or '2026-11-16 06:00:00.250'";
    next(option, rest, form, |word| {
        let word = word.strip_suffix('Z').unwrap_or(word);
        let (date, time) = word.split_once(['T', ' '])?;
        from_date(date, time)
    })
}

/// The next argument as a file. One that begins with - is likely another option.
fn file(option: &str, rest: &mut Iter<OsString>) -> Result<PathBuf, Failure> {
    let word = rest.next().map(|word| (word, word.as_bytes()));
    match word {
        Some((_, [] | [b'-', ..])) | None => {
            let words = format!("{option} takes a file (as ./-name where its name begins with -)");
            Err(Failure::usage(words))
        }
        Some((word, _)) => Ok(PathBuf::from(word)),
    }
}

/// The next argument, of which something must be made.
fn next<T>(
    option: &str,
    rest: &mut Iter<OsString>,
    form: &str,
    made: impl Fn(&str) -> Option<T>,
) -> Result<T, Failure> {
    let word = rest.next().and_then(|word| word.to_str());
    let missing = || Failure::usage(format!("{option} takes {form}"));
    word.and_then(made).ok_or_else(missing)
}
