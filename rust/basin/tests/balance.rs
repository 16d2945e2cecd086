//! Total depth over lists of step and run calls of the proved library: the
//! total after a list is the total before it plus, for each call, steps done
//! times the sum of its inflow. Steps done are worked out by the independent
//! version, from the first state and the calls alone.

use crate::cases::calls::compare;
use crate::cases::common::Random;
use crate::cases::lists::{take_stepped, Entry};
use crate::cases::{small_size, Call, Case, H, U, V};

/// What the library answers on the state of a case.
fn total(case: &Case, at: &str) -> i128 {
    let outcome = compare(case, Call::TotalDepth, at);
    assert_eq!(outcome.told, [0], "{at}: {case:?}");
    outcome.written.total[0].into()
}

/// How often each thing happened over all the lists.
#[derive(Debug, Default)]
struct Seen {
    empty_lists: usize,
    /// Of the total, over a list.
    rises: usize,
    falls: usize,
    steps_done: usize,
    steps_stopped: usize,
    runs_finished: usize,
    runs_of_none: usize,
    runs_stopped_at_once: usize,
    runs_cut_short: usize,
    refused: [usize; 5],
    /// Where less came in than was asked for.
    lists_with_less_done: usize,
    /// With barriers.
    barred: usize,
}

impl Seen {
    fn count(&mut self, call: Call, told: &[u64]) {
        match (call, told) {
            (Call::Step, [0]) => self.steps_done += 1,
            (Call::Step, [6, ..]) => self.steps_stopped += 1,
            (Call::Run, [0, 0]) => self.runs_of_none += 1,
            (Call::Run, [0, _]) => self.runs_finished += 1,
            (Call::Run, [6, _, _, _, 0]) => self.runs_stopped_at_once += 1,
            (Call::Run, [6, ..]) => self.runs_cut_short += 1,
            (_, [number @ 1..=4, ..]) => self.refused[*number as usize] += 1,
            _ => panic!("{call:?} told {told:?}"),
        }
    }

    fn assert_enough(&self) {
        let counts = [
            self.empty_lists,
            self.rises,
            self.falls,
            self.steps_done,
            self.steps_stopped,
            self.runs_finished,
            self.runs_of_none,
            self.runs_stopped_at_once,
            self.runs_cut_short,
            self.refused[1],
            self.refused[2],
            self.refused[4],
            self.lists_with_less_done,
            self.barred,
        ];
        assert!(counts.iter().all(|&times| times > 100), "{self:?}");
    }
}

/// Makes the calls of a list, and takes the balance.
fn balance(first: &Case, list: &[Entry], seen: &mut Seen, at: &str) {
    // What is due, from the first state and the calls alone.
    let mut state = first.state();
    let (mut due, mut less_done) = (0, false);
    for entry in list {
        let inflow = entry.inflow_sum();
        let done = entry.steps_done(&mut state);
        due += i128::from(done) * inflow;
        less_done |= done < entry.steps && inflow != 0;
    }

    // What the library does.
    let mut case = first.clone();
    let before = total(&case, at);
    for entry in list {
        entry.put(&mut case);
        let outcome = compare(&case, entry.call, at);
        seen.count(entry.call, &outcome.told);
        take_stepped(&mut case, outcome);
    }
    let after = total(&case, at);
    assert_eq!(after, before + due, "{at}: {first:?} {list:?}");
    assert_eq!(case.state(), state, "{at}: {first:?} {list:?}");

    seen.barred += usize::from(case.barriers.iter().any(|&barrier| barrier != 0));
    seen.empty_lists += usize::from(list.is_empty());
    seen.rises += usize::from(after > before);
    seen.falls += usize::from(after < before);
    seen.lists_with_less_done += usize::from(less_done);
}

#[test]
fn total_depth_balances_over_lists_of_calls() {
    let mut seen = Seen::default();
    for seed in 1_000..5_000 {
        let mut random = Random::new(seed);
        let size = small_size(&mut random);
        let kind = random.below(3) as u8;
        let first = match random.below(6) {
            0 => Case::good_of_kind(&mut random, size, kind),
            1 => Case::brink(&mut random, size, kind),
            _ => Case::gentle(&mut random, size, kind),
        };
        let list: Vec<_> = (0..random.below(7))
            .map(|_| Entry::random(&mut random, size.0 * size.1))
            .collect();
        balance(&first, &list, &mut seen, &format!("seed {seed}"));
    }
    println!("{seen:?}");
    seen.assert_enough();
}

#[test]
fn total_depth_balances_on_large_grids() {
    let mut seen = Seen::default();
    for seed in 5_000..5_012 {
        let mut random = Random::new(seed);
        let size = random.pick(&[(64, 64), (64, 63), (33, 64), (64, 1), (1, 64), (16, 16)]);
        let kind = random.below(3) as u8;
        let first = Case::gentle(&mut random, size, kind);
        let list: Vec<_> = (0..4)
            .map(|_| Entry::random(&mut random, size.0 * size.1))
            .collect();
        balance(&first, &list, &mut seen, &format!("seed {seed}"));
    }
    println!("{seen:?}");
    assert!(seen.runs_finished > 5 && seen.steps_done > 5, "{seen:?}");
}

/// A state that total depth refuses is refused by every call of a list, and by
/// total depth after it as before.
#[test]
fn a_refused_state_stays_refused() {
    let mut seen = [0; 6];
    for seed in 6_000..6_200 {
        let mut random = Random::new(seed);
        let size = small_size(&mut random);
        let cells = size.0 * size.1;
        let mut case = Case::gentle(&mut random, size, 2);
        match random.below(8) {
            0 => case.p.kind = 3,
            1 => case.fields[V].push(0),
            2 => case.barriers.push(0),
            3 => case.p.r = 999,
            4 => case.fields[H][random.below(cells)] = 999,
            5 => case.barriers[random.below(cells)] = 4,
            // The west edge of cell 0 is closed.
            6 => case.fields[U][0] = 1,
            _ => {
                let cell = random.below(cells);
                (case.fields[V][cell], case.barriers[cell]) = (1, 2);
            }
        }
        let at = format!("seed {seed}");
        let before = compare(&case, Call::TotalDepth, &at).told;
        seen[before[0] as usize] += 1;
        for _ in 0..1 + random.below(4) {
            let entry = Entry::random(&mut random, cells);
            entry.put(&mut case);
            let outcome = compare(&case, entry.call, &at);
            assert!((1..6).contains(&outcome.told[0]), "{at}: {case:?}");
            for (field, after) in [H, U, V].into_iter().zip(outcome.written.stepped) {
                assert_eq!(after, case.fields[field], "{at}: {case:?}");
            }
        }
        let after = compare(&case, Call::TotalDepth, &at).told;
        assert_eq!(after, before, "{at}: {case:?}");
    }
    assert!(
        seen[0] == 0 && seen[1..].iter().all(|&n| n > 10),
        "{seen:?}"
    );
}
