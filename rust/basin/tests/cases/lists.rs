//! Lists of step and run calls, each with what it is lent beside the state.

use reference::state::MAX_STEPS;
use reference::{RunAnswer, State, StepAnswer};

use super::calls::Outcome;
use super::common::{numbers, Random, Spread};
use super::{Call, Case, H, S, U, V};

/// A step or run, with what it is lent beside the state.
#[derive(Clone, Debug)]
pub struct Entry {
    pub call: Call,
    pub inflow: Vec<i64>,
    /// 1 of a step.
    pub steps: u64,
    pub work: usize,
}

impl Entry {
    pub fn random(random: &mut Random, cells: usize) -> Self {
        let (call, steps) = match random.below(12) {
            0..=3 => (Call::Step, 1),
            4..=8 => (Call::Run, random.below(13) as u64),
            9 => (Call::Run, 0),
            10 => (Call::Run, random.pick(&[60, 10_000])),
            _ => (Call::Run, random.pick(&[10_001, 1 << 40, u64::MAX])),
        };
        let most = random.pick(&[0, 2, 100, 1_000]);
        let (least, most) = match steps {
            // This inflow stops the run.
            10_000 => (1_000, 1_000),
            _ => random.pick(&[(-most, most), (0, most), (-most, 0)]),
        };
        let mut inflow = numbers(random, Spread::Even, cells, least, most);
        match random.below(20) {
            0 => inflow.push(1),
            1 => inflow.truncate(cells - 1),
            2 => inflow[random.below(cells)] = random.pick(&[-1_001, 1_001, i64::MIN, i64::MAX]),
            _ => {}
        }
        let work = match random.below(20) {
            0 => 8 * cells - 1,
            1 => random.below(8 * cells),
            2..=9 => 8 * cells,
            _ => 8 * cells + random.below(7),
        };
        Entry {
            call,
            inflow,
            steps,
            work,
        }
    }

    /// Moves a state on by single steps of the independent version and counts
    /// them.
    pub fn steps_done(&self, state: &mut State) -> u64 {
        let State {
            parameters: p,
            h,
            b,
            u,
            v,
            barriers,
        } = state;
        let &Entry {
            ref inflow,
            steps,
            work,
            ..
        } = self;
        let mut space = vec![0; work];
        // A run of no step is tested like any other, and leaves the state.
        let tested = reference::run(p, h, b, u, v, barriers, inflow, 0, &mut space);
        if steps > MAX_STEPS || tested != (RunAnswer::Finished { steps: 0 }) {
            return 0;
        }
        let mut step = || reference::step(p, h, b, u, v, barriers, inflow, &mut space);
        (0..steps)
            .take_while(|_| step() == StepAnswer::Done)
            .count() as u64
    }

    /// What comes in with one step, over all cells.
    pub fn inflow_sum(&self) -> i128 {
        self.inflow.iter().map(|&s| i128::from(s)).sum()
    }

    /// Lends what this call takes beside the state of a case.
    pub fn put(&self, case: &mut Case) {
        case.fields[S].clone_from(&self.inflow);
        case.steps = self.steps;
        case.work = self.work;
    }
}

/// Takes the state that a step or run left.
pub fn take_stepped(case: &mut Case, outcome: Outcome) {
    for (field, after) in [H, U, V].into_iter().zip(outcome.written.stepped) {
        case.fields[field] = after;
    }
}
