//! What is read: records and texts, from files or from standard input.

use std::fs;
use std::io::Read;
use std::path::Path;

use crate::commands::Surroundings;
use crate::failure::Failure;
use crate::lines::Fault;
use crate::rivers::Rivers;
use crate::state::State;
use crate::subject::Subject;
use crate::text::{described, Described, Unread};

/// So many bytes of a file are read. A record has nine fields of at most
/// 3 + 65,535 bytes, so a longer one is refused at a tag that is among these; a
/// longer text is no description.
const LIMIT: u64 = 1 << 20;

/// A file of rivers may be longer: a year of many of them.
const LIMIT_OF_RIVERS: u64 = 1 << 24;

/// A file, or standard input for `-`, up to the limit.
pub fn contents(path: &Path, around: &mut Surroundings) -> Result<Vec<u8>, Failure> {
    if path == Path::new("") {
        return Err(Failure::usage("a record or text has no name"));
    }
    if path != Path::new("-") {
        return beginning(path, LIMIT);
    }
    let mut bytes = Vec::new();
    let read = around.input.take(LIMIT).read_to_end(&mut bytes);
    read.map_err(|error| Failure::file(Path::new("standard input"), error))?;
    Ok(bytes)
}

/// A file, up to so many bytes.
fn beginning(path: &Path, limit: u64) -> Result<Vec<u8>, Failure> {
    let mut bytes = Vec::new();
    let read = fs::File::open(path).and_then(|file| file.take(limit).read_to_end(&mut bytes));
    read.map_err(|error| Failure::file(path, error))?;
    Ok(bytes)
}

/// What a file of rivers says, for a grid of so many columns and rows.
pub fn rivers_in(file: &Path, sides: (usize, usize)) -> Result<Rivers, Failure> {
    let text = beginning(file, LIMIT_OF_RIVERS)?;
    if text.len() as u64 >= LIMIT_OF_RIVERS {
        return Err(Failure::file(file, "too long for a file of rivers"));
    }
    Rivers::read(&text, sides).map_err(|fault| Failure::text(file, fault))
}

/// The state of a record in a file or on standard input.
pub fn load(record: &Path, around: &mut Surroundings) -> Result<State, Failure> {
    let bytes = contents(record, around)?;
    State::read(&bytes).map_err(|refusal| Failure::refused(refusal, Subject::Record(&bytes)))
}

/// What a text description in a file says.
pub fn described_in(file: &Path) -> Result<Described, Failure> {
    description(file, &beginning(file, LIMIT)?)
}

/// What a text description says.
pub fn description(file: &Path, text: &[u8]) -> Result<Described, Failure> {
    if text.len() as u64 >= LIMIT {
        return Err(Failure::file(file, "too long for a text description"));
    }
    described(text).map_err(|unread| match unread {
        Unread::Fault { line, message } => Failure::text(file, Fault { line, message }),
        Unread::Refused { refusal, sides } => {
            Failure::refused(refusal, Subject::Sides(sides.0, sides.1))
        }
    })
}
