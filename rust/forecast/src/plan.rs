//! What a run is to do: how many steps, by which clock, with what inflow.

use std::time::Duration;

use basin::{Ran, Refusal, Timestamp};

use crate::arguments::Arguments;
use crate::clock::{milliseconds, Clock, Lengths};
use crate::date::{later, to_date};
use crate::failure::Failure;
use crate::files::{described_in, rivers_in};
use crate::inflow::Inflow;
use crate::rivers::Rivers;
use crate::run::{run, step};
use crate::state::State;
use crate::subject::Subject;

/// The widest spacing that rivers are reckoned with, mm.
const WIDEST: u64 = 1_000_000_000;

/// What a run is to do.
pub struct Plan {
    pub steps: u64,
    pub clock: Clock,
    pub inflow: Inflow,
    /// By the core's step, and not by a run of one.
    pub single: bool,
    /// Whether the spacing is known.
    spaced: bool,
    /// How far the timestamp moves, where that is given and not worked out.
    seconds: Option<Duration>,
}

impl Plan {
    /// The plan that the arguments make for a state. All that can be found wrong
    /// before the first step is found here.
    pub fn of(arguments: &Arguments, state: &State, steps: Option<u64>) -> Result<Self, Failure> {
        for gate in &arguments.gates {
            inside(gate.cell, state)?;
        }
        let p = &state.parameters;
        let file = arguments.rivers.as_deref();
        let rivers = file.map(|file| rivers_in(file, (p.w, p.n))).transpose()?;
        let lengths = lengths_of(arguments, state, rivers.as_ref())?;
        let clock = Clock {
            start: state.timestamp,
            step_ms: lengths.step_ms,
        };
        let steps = steps_of(steps, arguments.until, &clock, &lengths)?;
        let courses = match (rivers, file) {
            (Some(rivers), Some(file)) => rivers
                .courses(&clock, &lengths, p.r, p.w)
                .map_err(|fault| Failure::text(file, fault))?,
            _ => Vec::new(),
        };
        let plan = Plan {
            steps,
            clock,
            inflow: Inflow::new(steady(arguments, state)?, courses),
            single: false,
            spaced: lengths.spacing.is_some(),
            seconds: arguments.seconds,
        };
        if plan.seconds.is_some() && plan.clock.step_ms.is_some() {
            let words = "--seconds goes without the length of a step, which moves the timestamp";
            return Err(Failure::usage(words));
        }
        plan.moment_after(steps)?;
        plan.try_inflow(state)?;
        Ok(plan)
    }

    /// Why the timestamp stands still, where it does.
    pub fn stands_still(&self) -> Option<&'static str> {
        match (self.seconds, self.clock.step_ms, self.spaced) {
            (Some(_), ..) | (_, Some(_), _) => None,
            (.., true) => Some("spacing over spacing-per-step is no whole number of ms"),
            (.., false) => Some("--step-ms MS moves it"),
        }
    }

    /// The timestamp after so many steps.
    pub fn moment_after(&self, steps: u64) -> Result<Timestamp, Failure> {
        let start = self.clock.start;
        let moment = match (self.seconds, self.clock.step_ms) {
            (Some(by), _) => later(start, by),
            (None, Some(_)) => self.clock.at(steps),
            (None, None) => Some(start),
        };
        moment.ok_or_else(|| Failure::usage("a timestamp has no room for so long a time"))
    }

    /// Lets the core look at the greatest and the least inflow, by runs of no step.
    fn try_inflow(&self, state: &State) -> Result<(), Failure> {
        for field in self.inflow.extremes(self.steps) {
            if let Err(refusal) = run(&mut state.clone(), &field, 0, 1, |_| ()) {
                return Err(Failure::refused(refusal, Subject::State(state, &field)));
            }
        }
        Ok(())
    }

    /// Takes the state so many steps further. Steps with the same inflow are one run
    /// of the core.
    pub fn advance(
        &mut self,
        state: &mut State,
        steps: u64,
        mut tell: impl FnMut(u64),
    ) -> Result<Ran, Refusal> {
        let mut done = 0;
        loop {
            let next = self.inflow.stretch(steps - done);
            let field = self.inflow.field();
            let ran = match self.single {
                true => step(state, field).inspect(|ran| tell(ran.steps))?,
                false => run(state, field, next, next, |more| tell(done + more))?,
            };
            self.inflow.done(ran.steps);
            done += ran.steps;
            if done == steps || ran.stopped.is_some() {
                return Ok(Ran {
                    steps: done,
                    stopped: ran.stopped,
                });
            }
        }
    }
}

/// Spacing and step, from wherever they are given: they must agree with each other
/// and with the record.
fn lengths_of(
    arguments: &Arguments,
    state: &State,
    rivers: Option<&Rivers>,
) -> Result<Lengths, Failure> {
    let mut lengths = Lengths {
        spacing: arguments.spacing,
        step_ms: arguments.step_ms,
    };
    let ratio = state.parameters.r;
    if let Some(file) = &arguments.description {
        let described = described_in(file)?;
        let other = described.state.parameters.r;
        if other != ratio {
            let words = format!("spacing-per-step is {other} mm/s there and {ratio} in the record");
            return Err(Failure::file(file, words));
        }
        lengths = lengths.and(described.lengths).map_err(Failure::usage)?;
    }
    if let Some(rivers) = rivers {
        lengths = lengths.and(rivers.lengths).map_err(Failure::usage)?;
    }
    if lengths.spacing > Some(WIDEST) {
        return Err(Failure::usage(format!("a spacing is at most {WIDEST} mm")));
    }
    lengths.fit(ratio).map_err(Failure::usage)?;
    let mut lengths = lengths.completed(ratio);
    // One that follows from a long step is too wide to reckon with, and nobody's.
    lengths.spacing = lengths.spacing.filter(|spacing| *spacing <= WIDEST);
    Ok(lengths)
}

/// How many steps to take: so many, or those that lead to a moment.
fn steps_of(
    steps: Option<u64>,
    until: Option<Timestamp>,
    clock: &Clock,
    lengths: &Lengths,
) -> Result<u64, Failure> {
    match (steps, until, clock.step_ms) {
        (Some(steps), None, _) => Ok(steps),
        (None, Some(until), Some(step_ms)) => steps_until(until, clock, step_ms),
        (None, Some(_), None) => Err(Failure::usage(match lengths.spacing {
            Some(_) => "spacing over spacing-per-step is no whole number of ms, as --until needs",
            None => "--until needs the length of a step: --step-ms MS, or the spacing",
        })),
        (Some(_), Some(_), _) => Err(Failure::usage("--steps or --until, not both")),
        (None, None, _) => Err(Failure::usage("--steps N or --until TIME is missing")),
    }
}

/// How many steps lead to a moment.
fn steps_until(until: Timestamp, clock: &Clock, step_ms: u64) -> Result<u64, Failure> {
    let (start, end) = (to_date(clock.start), to_date(until));
    let way = milliseconds(until) - milliseconds(clock.start);
    if way < 0 {
        return Err(Failure::usage(format!(
            "the record is of {start}, which is past {end}"
        )));
    }
    let (steps, over) = (way / i128::from(step_ms), way % i128::from(step_ms));
    if over != 0 {
        return Err(Failure::usage(format!(
            "from {start} to {end} is no whole number of steps of {step_ms} ms: {over} ms over"
        )));
    }
    u64::try_from(steps).map_err(|_| Failure::usage("so many steps are too many"))
}

/// The inflow that is the same with each step, from the options.
fn steady(arguments: &Arguments, state: &State) -> Result<Vec<i64>, Failure> {
    let mut inflow = vec![0i64; state.h.len()];
    for &(i, j, mm) in &arguments.inflow {
        inside((i, j), state)?;
        let cell = &mut inflow[j * state.parameters.w + i];
        *cell = cell.saturating_add(mm);
    }
    Ok(inflow)
}

/// Whether a cell is one of the state's.
pub fn inside((i, j): (usize, usize), state: &State) -> Result<(), Failure> {
    let (w, n) = (state.parameters.w, state.parameters.n);
    if i >= w || j >= n {
        let words = format!("cell {i} {j} is outside the grid, {w} by {n}");
        return Err(Failure::usage(words));
    }
    Ok(())
}
