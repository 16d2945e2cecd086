//! Total depth over lists of step and run calls: the total after the list is
//! the total before it plus, for each call, steps done times the sum of its
//! inflow. Steps done are worked out here, from the first state and the calls
//! alone, by single steps of the literal formulas.

use crate::common::literal::PAPER;
use crate::common::{
    numbers, random_state, run_state, step_state, totals_of, within_limits, Random, Spread, SPREADS,
};
use reference::{State, TotalAnswer};

#[derive(Clone, Copy, Debug, PartialEq)]
enum Kind {
    Step,
    Run(u64),
}

/// A call with what it is lent, beside the state.
#[derive(Clone, Debug)]
struct Call {
    kind: Kind,
    inflow: Vec<i64>,
    work: Vec<i64>,
}

impl Call {
    fn random(random: &mut Random, cells: usize) -> Self {
        let kind = match random.below(12) {
            0..=3 => Kind::Step,
            4..=8 => Kind::Run(random.below(13) as u64),
            9 => Kind::Run(0),
            10 => Kind::Run(random.pick(&[60, 10_000])),
            _ => Kind::Run(random.pick(&[10_001, 1 << 40, u64::MAX])),
        };
        // A run of 10,000 steps is stopped by this inflow at the latest.
        let most = match kind {
            Kind::Run(10_000) => 1_000,
            _ => random.pick(&[0, 2, 100, 1_000]),
        };
        let least = match kind {
            Kind::Run(10_000) => most,
            _ => -most,
        };
        let mut inflow = numbers(random, Spread::Even, cells, least, most);
        match random.below(20) {
            0 => inflow.push(0),
            1 => inflow.truncate(cells - 1),
            2 => inflow[random.below(cells)] = random.pick(&[-1_001, 1_001, i64::MIN, i64::MAX]),
            _ => {}
        }
        let room = match random.below(20) {
            0 => 8 * cells - 1,
            1 => random.below(8 * cells),
            2..=9 => 8 * cells,
            _ => 8 * cells + random.below(9),
        };
        let work = numbers(random, Spread::Even, room, -9, 9);
        Call { kind, inflow, work }
    }

    /// A refusal other than 6, for a state within the limits, as 01 tells it.
    fn refusal(&self, cells: usize) -> Option<Vec<i128>> {
        if matches!(self.kind, Kind::Run(steps) if steps > 10_000) {
            return Some(vec![1]);
        }
        if self.inflow.len() != cells || self.work.len() < 8 * cells {
            return Some(vec![2]);
        }
        self.inflow
            .iter()
            .position(|s| !(-1_000..=1_000).contains(s))
            .map(|cell| vec![4, 5, cell as i128])
    }

    fn asked(&self) -> u64 {
        match self.kind {
            Kind::Step => 1,
            Kind::Run(steps) => steps,
        }
    }

    /// Moves the state on by single steps, and counts them. Gives the answer
    /// as 01 tells it.
    fn by_single_steps(&self, state: &mut State) -> (u64, Vec<i128>) {
        if let Some(told) = self.refusal(state.h.len()) {
            return (0, told);
        }
        for done in 0..self.asked() {
            match PAPER.step(state, &self.inflow) {
                Ok(next) => *state = next,
                Err((pass, field, cell)) => {
                    let mut told = vec![6, pass, field, cell];
                    if self.kind != Kind::Step {
                        told.push(done.into());
                    }
                    return (done, told);
                }
            }
        }
        let told = match self.kind {
            Kind::Step => vec![0],
            Kind::Run(steps) => vec![0, steps.into()],
        };
        (self.asked(), told)
    }

    /// Makes the call itself, and gives its answer and the work space after.
    fn make(&self, state: &mut State) -> (Vec<i128>, Vec<i64>) {
        let mut work = self.work.clone();
        let told = match self.kind {
            Kind::Step => step_state(state, &self.inflow, &mut work).told(),
            Kind::Run(steps) => run_state(state, &self.inflow, steps, &mut work).told(),
        };
        (told, work)
    }
}

fn total(state: &State) -> i128 {
    match totals_of(state) {
        [TotalAnswer::Total(depth), _] => depth.into(),
        refused => panic!("{refused:?} {state:?}"),
    }
}

fn random_start(random: &mut Random) -> State {
    let spread = if random.once_in(4) {
        random.pick(&SPREADS)
    } else {
        Spread::Calm
    };
    let size = match random.below(10) {
        0 => (1, 1 + random.below(6)),
        1 => (1 + random.below(6), 1),
        2 => (1 + random.below(8), 1 + random.below(8)),
        _ => (1 + random.below(4), 1 + random.below(4)),
    };
    let kind = random.below(3) as u8;
    random_state(random, spread, size, kind)
}

/// How often each thing happened over all the lists.
#[derive(Debug, Default)]
struct Seen {
    empty_lists: usize,
    steps_done: usize,
    steps_stopped: usize,
    runs_finished: usize,
    runs_of_none: usize,
    runs_stopped_at_once: usize,
    runs_cut_short: usize,
    refused: [usize; 5],
    /// Where less came in than was asked for.
    lists_with_less_done: usize,
}

#[test]
fn total_depth_balances_over_lists_of_calls() {
    let mut seen = Seen::default();
    for seed in 0..4_000 {
        let mut random = Random::new(1_000 + seed);
        let first = random_start(&mut random);
        let cells = first.h.len();
        let calls: Vec<Call> = (0..random.below(7))
            .map(|_| Call::random(&mut random, cells))
            .collect();
        let input = || format!("seed {seed}: {first:?} {calls:?}");

        // What should happen, from the first state and the calls alone.
        let mut state = first.clone();
        let mut expected = Vec::new();
        let (mut entered, mut less_done) = (0, false);
        for call in &calls {
            let (done, told) = call.by_single_steps(&mut state);
            let inflow: i128 = call.inflow.iter().map(|&s| i128::from(s)).sum();
            entered += i128::from(done) * inflow;
            less_done |= done < call.asked() && inflow != 0;
            expected.push((state.clone(), told));
        }
        seen.empty_lists += usize::from(calls.is_empty());
        seen.lists_with_less_done += usize::from(less_done);

        // What the core does.
        let mut state = first.clone();
        let before = total(&state);
        for (call, (state_after, told_after)) in calls.iter().zip(&expected) {
            let (told, work) = call.make(&mut state);
            assert_eq!(&told, told_after, "{}", input());
            assert_eq!(&state, state_after, "{}", input());
            assert!(within_limits(&state), "{}", input());
            let cleared = if matches!(told[0], 1 | 2) {
                0
            } else {
                8 * cells
            };
            assert!(work[..cleared].iter().all(|&x| x == 0), "{}", input());
            assert_eq!(work[cleared..], call.work[cleared..], "{}", input());
            count(&mut seen, call, &told);
        }
        assert_eq!(total(&state), before + entered, "{}", input());
    }
    println!("{seen:?}");
    let enough = [
        seen.empty_lists,
        seen.steps_done,
        seen.steps_stopped,
        seen.runs_finished,
        seen.runs_of_none,
        seen.runs_stopped_at_once,
        seen.runs_cut_short,
        seen.refused[1],
        seen.refused[2],
        seen.refused[4],
        seen.lists_with_less_done,
    ];
    assert!(enough.iter().all(|&times| times > 100), "{seen:?}");
}

fn count(seen: &mut Seen, call: &Call, told: &[i128]) {
    match (call.kind, told) {
        (Kind::Step, [0]) => seen.steps_done += 1,
        (Kind::Step, [6, ..]) => seen.steps_stopped += 1,
        (Kind::Run(0), [0, 0]) => seen.runs_of_none += 1,
        (Kind::Run(_), [0, _]) => seen.runs_finished += 1,
        (Kind::Run(_), [6, _, _, _, 0]) => seen.runs_stopped_at_once += 1,
        (Kind::Run(_), [6, ..]) => seen.runs_cut_short += 1,
        (_, [number @ 1..=4, ..]) => seen.refused[*number as usize] += 1,
        _ => panic!("{told:?}"),
    }
}

#[test]
fn a_run_is_as_many_single_steps() {
    let (mut finished, mut cut_short) = (0, 0);
    for seed in 0..2_000 {
        let mut random = Random::new(9_000 + seed);
        let first = random_start(&mut random);
        let cells = first.h.len();
        let most = random.pick(&[0, 5, 1_000]);
        let inflow = numbers(&mut random, Spread::Even, cells, -most, most);
        let steps = random.below(40) as u64;
        let mut work = vec![1; 8 * cells];

        let mut by_run = first.clone();
        let told = run_state(&mut by_run, &inflow, steps, &mut work).told();

        let mut by_steps = first.clone();
        let mut done = 0;
        let mut last = vec![0];
        while done < steps && last == [0] {
            last = step_state(&mut by_steps, &inflow, &mut work).told();
            done += u64::from(last == [0]);
        }
        last.push(done.into());
        assert_eq!(told, last, "seed {seed}: {first:?} {inflow:?} {steps}");
        assert_eq!(by_run, by_steps, "seed {seed}: {first:?} {inflow:?}");
        finished += usize::from(last[0] == 0 && steps > 1);
        cut_short += usize::from(last[0] == 6 && done > 0);
    }
    assert!(finished > 100 && cut_short > 100, "{finished} {cut_short}");
}

#[test]
fn the_longest_run_finishes_in_calm_water() {
    let mut random = Random::new(77);
    for kind in 0..3 {
        let mut state = random_state(&mut random, Spread::Calm, (4, 3), kind);
        state.parameters.c = 0;
        let inflow = [1, -1, 0, 0, 0, 0, 0, 0, 0, 0, 2, -2];
        let mut work = vec![1; 8 * 12];
        let mut by_steps = state.clone();
        let before = total(&state);
        let told = run_state(&mut state, &inflow, 10_000, &mut work).told();
        assert_eq!(told, [0, 10_000], "{state:?}");
        assert_eq!(total(&state), before);
        for _ in 0..10_000 {
            let told = step_state(&mut by_steps, &inflow, &mut work).told();
            assert_eq!(told, [0], "{by_steps:?}");
        }
        assert_eq!(state, by_steps);
    }
}
