//! A tool over the proved basin core (document 01): makes a record from a
//! readable text, shows what a record says, steps and runs it, compares two,
//! and draws level and current.
//!
//! It works out nothing of the model itself. Every step, run, total, tendency, test,
//! comparison, and every record written or read is a call of [`basin`]; what is
//! here is text, dates, files, pictures and pages. (`show` says what a step can do,
//! by three quotients of a record's own numbers.)
//!
//! Nothing given to it makes it panic: a fault in the arguments or in a text is
//! told with status 2, what the core refuses with status 1 and 01's number.

#![forbid(unsafe_code)]

mod advance;
mod arguments;
pub mod clock;
mod commands;
pub mod date;
pub mod describe;
pub mod draw;
mod drawing;
mod failure;
mod files;
pub mod gates;
mod help;
mod inflow;
mod lines;
mod place;
mod plan;
mod rivers;
pub mod run;
mod show;
mod state;
mod subject;
mod suggest;
pub mod text;

pub use commands::{answer, Answer, Surroundings};
pub use failure::{in_words, Failure};
pub use state::State;
pub use subject::Subject;
