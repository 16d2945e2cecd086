//! An independent version of the shallow-water core that document 01
//! specifies: the Arakawa-Lamb C-grid scheme in whole numbers, its two-pass
//! time step, and the record a state is stored in, with timestamps to the
//! millisecond, barriers inside the grid, tendencies in double precision and
//! corners of their own for walls (requests U1, U2, U3 and U5 of document 02).
//!
//! It was written from 01, 02 and the open points decided in docs/DECISIONS.md,
//! apart from the proved core and its model, and is meant to be compared with
//! them call by call. 01 and 02 decide every question.
//!
//! The calls take the scalars of a state as [`Parameters`], its fields as
//! slices of `i64` and its barriers as bytes. They take any numbers and any
//! lengths and never panic: what 01 refuses is returned as a [`Refusal`]. Each
//! answer has a `told` that gives 01's number and values for it.

#![forbid(unsafe_code)]
// A call takes a whole state as separate fields, and its destinations too.
#![allow(clippy::too_many_arguments)]

mod probe;
mod program;
mod record;
mod refusal;
pub mod scheme;
pub mod state;
mod stepping;

pub use probe::{probe, probe_grid};
pub use program::{step_program, INPUT_LIMIT};
pub use record::{compare, read, record_size, write};
pub use refusal::{
    CompareAnswer, Field, FillAnswer, ProbeAnswer, ProbeGridAnswer, ReadAnswer, Refusal, RunAnswer,
    StepAnswer, TotalAnswer, WriteAnswer,
};
pub use scheme::{energy_rate, enstrophy_rate, potential_vorticity, tendencies};
pub use state::{Boundary, Parameters, State, Timestamp};
pub use stepping::{run, step, total_depth, total_energy};
