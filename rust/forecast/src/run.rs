//! Steps by the core, in runs short enough for it, with the progress told.

use std::io::Write;

use basin::{Ran, Refusal, LONGEST_RUN};

use crate::commands::Surroundings;
use crate::state::State;

/// Takes one step, by the core's step. A refusal 6 is an end after no step.
pub fn step(state: &mut State, inflow: &[i64]) -> Result<Ran, Refusal> {
    let p = state.parameters;
    let mut work = state.work();
    let (h, u, v) = (&mut state.h, &mut state.u, &mut state.v);
    let (b, barriers) = (&state.b, &state.barriers);
    match basin::step(&p, h, b, u, v, barriers, inflow, &mut work) {
        Ok(()) => Ok(Ran {
            steps: 1,
            stopped: None,
        }),
        Err(refusal @ Refusal::OutOfBounds { .. }) => Ok(Ran {
            steps: 0,
            stopped: Some(refusal),
        }),
        Err(refusal) => Err(refusal),
    }
}

/// Takes any number of steps, by runs of the core of at most `part` steps each,
/// and says after each how many are done. A state that the core has left is one
/// that it takes, so the parts make one run.
pub fn run(
    state: &mut State,
    inflow: &[i64],
    steps: u64,
    part: u64,
    mut tell: impl FnMut(u64),
) -> Result<Ran, Refusal> {
    let p = state.parameters;
    let mut work = state.work();
    let part = part.clamp(1, LONGEST_RUN);
    let mut done = 0;
    // A run of no step is called as well: the core tests the inflow.
    loop {
        let next = part.min(steps - done);
        let (h, u, v) = (&mut state.h, &mut state.u, &mut state.v);
        let (b, barriers) = (&state.b, &state.barriers);
        let ran = basin::run(&p, h, b, u, v, barriers, inflow, next, &mut work)?;
        done += ran.steps;
        tell(done);
        if done == steps || ran.stopped.is_some() {
            return Ok(Ran {
                steps: done,
                stopped: ran.stopped,
            });
        }
    }
}

/// A length of the parts of a run that tells its progress often enough.
pub fn part_of(steps: u64) -> u64 {
    steps.div_ceil(100)
}

/// Tells a terminal how many steps are done, in one line that is written over. Nobody
/// else is told: what is kept in a file is results.
pub struct Progress<'a> {
    to: Option<&'a mut dyn Write>,
    steps: u64,
    /// Hundredths of the steps that have been told.
    hundredths: u128,
}

impl<'a> Progress<'a> {
    pub fn new(around: &'a mut Surroundings, quiet: bool, steps: u64) -> Self {
        let told = around.terminal && !quiet && steps > 0;
        Progress {
            to: told.then_some(&mut *around.progress),
            steps,
            hundredths: 0,
        }
    }

    /// So many steps are done. Where nobody can be told, the run goes on.
    pub fn tell(&mut self, done: u64) {
        let hundredths = 100 * u128::from(done) / u128::from(self.steps.max(1));
        if hundredths == self.hundredths {
            return;
        }
        self.hundredths = hundredths;
        if let Some(to) = &mut self.to {
            let _ = write!(to, "\rstep {done} of {} ", self.steps);
            let _ = to.flush();
        }
    }

    /// Ends the line, so that what comes next starts a new one.
    pub fn end(self) {
        if let Some(to) = self.to {
            let _ = writeln!(to);
        }
    }
}
