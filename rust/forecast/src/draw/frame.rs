//! A moment of a run, as the core left it.

use basin::{Parameters, Refusal};

use crate::gates::current;
use crate::state::State;

/// A moment of a run.
pub struct Frame {
    /// The steps done.
    pub steps: u64,
    /// Total depth by the core, mm.
    pub total: i64,
    pub level: Vec<i64>,
    pub u: Vec<i64>,
    pub v: Vec<i64>,
}

impl Frame {
    pub fn of(state: &State, steps: u64) -> Result<Self, Refusal> {
        Ok(Frame {
            steps,
            total: state.total_depth()?,
            level: state.level(),
            u: state.u.clone(),
            v: state.v.clone(),
        })
    }

    /// Current at the centre of a cell, mm/s east and north.
    pub fn current(&self, p: &Parameters, i: usize, j: usize) -> (f64, f64) {
        current(p, &self.u, &self.v, (i, j))
    }
}
