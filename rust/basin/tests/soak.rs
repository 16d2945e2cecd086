//! Load and faults: random calls of the whole library, one after another, each
//! compared with the independent version in all that is told and all that is
//! lent, refused calls too, with fences beside every slice ([`cases`]). About
//! half of the calls have a fault or two, and half of the states barriers. Some
//! come in lists on one state, over which the balance of total depth is taken.
//!
//! A short one is part of every test run. The long one, of ten million calls,
//! takes some minutes, from a seed of its own each time; `SOAK=5` makes five
//! times as many:
//!
//! ```sh
//! SOAK=1 cargo test --offline --manifest-path rust/Cargo.toml -p basin --test all soak
//! ```
//!
//! The calls come in rounds, and each round has a seed. A call that fails
//! prints it, with all that went into the call; `SOAK_SEED` with that number
//! begins with the same round. Should the library ever bring the whole process
//! down, the last line of progress has a seed to begin with.

use std::env;
use std::io::{self, Write};
use std::time::{Instant, SystemTime, UNIX_EPOCH};

use crate::cases::calls;
use crate::cases::changes::{change_bytes, Changed};
use crate::cases::common::{random_timestamp, Random, NUMBERS};
use crate::cases::lists::{take_stepped, Entry};
use crate::cases::records::{answer_for, compare_pair, compare_read, expect_state, Lent};
use crate::cases::rounding::{compare_rnd, random_quotient, Rounded};
use crate::cases::{any_numbers, put_faults, Call, Case, CALLS, Q};
use reference::{State, Timestamp};

/// Places in [`Soak::told`] after those of the calls on a state.
const READ: usize = CALLS.len();
const COMPARE: usize = READ + 1;
const RND: usize = READ + 2;

/// How often what happened.
#[derive(Clone, Default)]
struct Soak {
    /// By call, then number. Of rnd, what is not rounded counts as a 1.
    told: [[u64; NUMBERS]; RND + 1],
    /// Lists of steps and runs whose balance was taken, the steps done in them,
    /// and the lists over which total depth fell, stayed and rose.
    lists: u64,
    steps: u64,
    moved: [u64; 3],
    /// Calls on a state without barriers, and with some.
    barred: [u64; 2],
}

// ---- calls

impl Soak {
    fn calls(&self) -> u64 {
        self.told.as_flattened().iter().sum()
    }

    fn call(&mut self, case: &Case, call: Call, at: &str) -> calls::Outcome {
        let outcome = calls::compare(case, call, at);
        let barred = case.barriers.iter().any(|&barrier| barrier != 0);
        self.barred[usize::from(barred)] += 1;
        self.told[call as usize][outcome.told[0] as usize] += 1;
        outcome
    }

    fn read(&mut self, record: &[u8], lent: Lent, at: &str) {
        let told = compare_read(record, lent, at).told;
        self.told[READ][told[0] as usize] += 1;
    }

    fn compare(&mut self, first: &[u8], second: &[u8], answer: [u64; 8], at: &str) -> Vec<u64> {
        let told = compare_pair(first, second, answer, at);
        self.told[COMPARE][told[0] as usize] += 1;
        told
    }

    fn rnd(&mut self, random: &mut Random, at: &str) {
        let (a, b) = random_quotient(random);
        let rounded = compare_rnd(a, b, random.next() as i64, at);
        self.told[RND][usize::from(rounded == Rounded::Refused)] += 1;
    }
}

// ---- rounds

/// Width and height: mostly a few cells, with long rows and columns, and the
/// largest grid now and then.
fn size(random: &mut Random) -> (usize, usize) {
    match random.below(200) {
        0 => (64, 64),
        1..=3 => (16, 16),
        4..=6 => (64, 1),
        7..=9 => (1, 64),
        10..=12 => (1 + random.below(64), 1 + random.below(16)),
        _ => (1 + random.below(6), 1 + random.below(6)),
    }
}

impl Soak {
    fn round(&mut self, seed: u64) {
        let mut random = Random::new(seed);
        let at = format!("SOAK_SEED={seed}");
        match random.below(16) {
            0..=8 => self.on_a_state(&mut random, &at),
            9..=11 => self.on_records(&mut random, &at),
            12..=13 => self.list(&mut random, &at),
            _ => (0..4).for_each(|_| self.rnd(&mut random, &at)),
        }
    }

    /// Some calls on one state, every second time with a fault or two.
    fn on_a_state(&mut self, random: &mut Random, at: &str) {
        let (size, kind) = (size(random), random.below(3) as u8);
        let mut case = match random.below(4) {
            0 => Case::brink(random, size, kind),
            1 => Case::gentle(random, size, kind),
            _ => Case::good_of_kind(random, size, kind),
        };
        let times = random.pick(&[0, 0, 1, 2]);
        let faults = put_faults(random, &mut case, times);
        let at = format!("{at}, {faults:?}");
        for _ in 0..4 {
            self.call(&case, random.pick(&CALLS), &at);
        }
    }

    /// A record, often a damaged one, that is read, and compared with the one
    /// it was made from.
    fn on_records(&mut self, random: &mut Random, at: &str) {
        let changed = Changed::random(random);
        let (record, good) = (&changed.record, &changed.good);
        let mut lent = Lent::any(random, changed.cells);
        if random.once_in(8) {
            lent.fields[random.below(5)] = random.below(changed.cells + 1);
        }
        self.read(record, lent, at);
        let answer = any_numbers(random);
        self.compare(record, good, answer, at);
        self.compare(good, record, answer, at);
    }
}

// ---- lists

/// The last record that was written in a list, and what was written.
struct Last {
    record: Vec<u8>,
    state: State,
    timestamp: Timestamp,
}

impl Soak {
    /// A list of steps and runs on one state, refused ones too, with the other
    /// calls between them, and the balance over the whole list.
    fn list(&mut self, random: &mut Random, at: &str) {
        let size = match random.below(50) {
            0 => random.pick(&[(16, 16), (64, 1), (1, 64), (7, 9), (64, 64)]),
            _ => (1 + random.below(5), 1 + random.below(5)),
        };
        let kind = random.below(3) as u8;
        let mut case = match random.below(6) {
            0 => Case::good_of_kind(random, size, kind),
            1 => Case::brink(random, size, kind),
            _ => Case::gentle(random, size, kind),
        };
        // Moved on by the independent version alone, step by step.
        let mut state = case.state();
        let before = self.total(&case, at);
        let mut due = 0;
        let mut last = None;
        for _ in 0..random.below(6) {
            let entry = Entry::random(random, size.0 * size.1);
            let done = entry.steps_done(&mut state);
            due += i128::from(done) * entry.inflow_sum();
            self.steps += done;

            entry.put(&mut case);
            let outcome = self.call(&case, entry.call, at);
            take_stepped(&mut case, outcome);
            assert_eq!(case.state(), state, "{at}: {entry:?}");
            self.between(random, &mut case, &mut last, at);
        }
        let after = self.total(&case, at);
        assert_eq!(after, before + due, "{at}: the balance");
        self.lists += 1;
        self.moved[(after.cmp(&before) as i8 + 1) as usize] += 1;
    }

    fn total(&mut self, case: &Case, at: &str) -> i128 {
        let outcome = self.call(case, Call::TotalDepth, at);
        outcome.written.total[0].into()
    }

    /// A call or some on the state that a step or run left.
    fn between(&mut self, random: &mut Random, case: &mut Case, last: &mut Option<Last>, at: &str) {
        match random.below(4) {
            0 => drop(self.call(case, random.pick(&CALLS), at)),
            1 => {
                // The tendencies of the state's own vorticity, whole and as doubles.
                let outcome = self.call(case, Call::PotentialVorticity, at);
                let [q, ..] = outcome.written.destinations;
                case.fields[Q] = q[..case.fields[Q].len()].to_vec();
                self.call(case, Call::Tendencies, at);
                self.call(case, Call::ProbeGrid, at);
                self.call(case, Call::TotalEnergy, at);
            }
            _ => *last = Some(self.stored(random, case, last.take(), at)),
        }
    }

    /// Writes the state, reads it back, compares the record with the last one,
    /// and then damages it.
    fn stored(
        &mut self,
        random: &mut Random,
        case: &mut Case,
        last: Option<Last>,
        at: &str,
    ) -> Last {
        let state = case.state();
        let timestamp = match &last {
            Some(last) if random.once_in(2) => last.timestamp,
            // In the same second.
            Some(last) if random.once_in(2) => Timestamp {
                milliseconds: random.below(1_000) as u64,
                ..last.timestamp
            },
            _ => random_timestamp(random),
        };
        case.timestamp = timestamp;
        let outcome = self.call(case, Call::Write, at);
        let record = outcome.written.record[..outcome.told[1] as usize].to_vec();
        let lent = Lent::any(random, state.h.len());
        expect_state(&record, lent, (&state, timestamp), at);
        self.told[READ][0] += 1;
        if let Some(last) = last {
            let answer = answer_for(last.timestamp, timestamp, last.state == state);
            let told = self.compare(&last.record, &record, case.answer, at);
            assert_eq!(told, [0, answer], "{at}: two records");
        }
        let mut damaged = record.clone();
        change_bytes(random, &mut damaged);
        self.read(&damaged, lent, at);
        self.compare(&record, &damaged, case.answer, at);
        Last {
            record,
            state,
            timestamp,
        }
    }
}

// ---- the soak

/// A line that is seen though tests are captured.
fn say(line: &str) {
    // Who does not listen does not stop the test.
    let _ = writeln!(io::stderr(), "{line}");
}

impl Soak {
    /// Every number was told by every call that can tell it, often.
    fn assert_enough(&self) {
        let least = self.calls() / 4_000;
        let numbers = |call: usize| match call {
            READ => vec![0, 1, 2, 3, 4, 5, 7, 8, 9],
            COMPARE => vec![0, 1, 2, 3, 4, 5, 7, 9],
            RND => vec![0, 1],
            _ => match CALLS[call] {
                Call::Step | Call::Run => vec![0, 1, 2, 3, 4, 5, 6],
                Call::PotentialVorticity | Call::Tendencies => vec![0, 1, 2, 3, 4, 5, 8],
                Call::Probe => vec![0, 1, 2, 3, 4, 5, 10],
                Call::ProbeGrid => vec![0, 1, 2, 3, 4, 5, 8],
                Call::Write => vec![0, 1, 2, 3, 4, 5, 8, 9],
                _ => vec![0, 1, 2, 3, 4, 5],
            },
        };
        for call in 0..=RND {
            let enough = |&number: &usize| self.told[call][number] >= least;
            assert!(numbers(call).iter().all(enough), "{}", self.table());
        }
        assert!(self.moved.iter().all(|&lists| lists >= least));
        let [open, barred] = self.barred;
        assert!(barred * 3 > open && open * 3 > barred, "{open} {barred}");
    }

    /// Calls by the number that was told, of those that were.
    fn table(&self) -> String {
        let told = |&number: &usize| self.told.iter().any(|told| told[number] > 0);
        let numbers: Vec<_> = (0..NUMBERS).filter(told).collect();
        let name = |call: usize| match call {
            READ => "Read".to_string(),
            COMPARE => "Compare".to_string(),
            RND => "Rnd".to_string(),
            _ => format!("{:?}", CALLS[call]),
        };
        let mut table = format!("{:20}", "told");
        table.extend(numbers.iter().map(|number| format!("{number:9}")));
        for (call, told) in self.told.iter().enumerate() {
            table += &format!("\n{:20}", name(call));
            table.extend(numbers.iter().map(|&number| format!("{:9}", told[number])));
        }
        table
    }
}

/// Makes so many calls, in rounds from this seed on; says how far it is where
/// that is wanted.
fn soak(calls: u64, first: u64, aloud: bool) -> Soak {
    let began = Instant::now();
    let mut soak = Soak::default();
    let (mut seed, mut next) = (first, 0);
    while soak.calls() < calls {
        if aloud && soak.calls() >= next {
            let seconds = began.elapsed().as_secs();
            say(&format!(
                "soak: {} calls in {seconds} s, SOAK_SEED={seed} is next",
                soak.calls()
            ));
            next += calls / 40;
        }
        soak.round(seed);
        seed = seed.wrapping_add(1);
    }
    if aloud {
        let (calls, seconds) = (soak.calls(), began.elapsed().as_secs_f64());
        let rate = calls as f64 / seconds;
        say(&format!(
            "soak: {calls} calls in {seconds:.1} s, {rate:.0} a second, from SOAK_SEED={first}"
        ));
        let Soak {
            lists,
            steps,
            moved,
            ..
        } = soak;
        say(&format!(
            "soak: {lists} balances over {steps} steps; total fell, stayed, rose: {moved:?}"
        ));
        say(&soak.table());
    }
    soak
}

/// The number in a variable of the environment, if it is set.
fn number(name: &str) -> Option<u64> {
    let text = env::var(name).ok()?;
    Some(
        text.parse()
            .unwrap_or_else(|_| panic!("{name}={text} is no number")),
    )
}

#[test]
fn random_calls_of_the_whole_library() {
    let seed = number("SOAK_SEED");
    if let Some(times @ 1..) = number("SOAK") {
        // So fine that a later soak takes none of the seeds of this one.
        let clock = SystemTime::now().duration_since(UNIX_EPOCH);
        let seed = seed.unwrap_or_else(|| clock.expect("after 1970").as_nanos() as u64);
        soak(times * 10_000_000, seed, true).assert_enough();
    } else {
        let soak = soak(120_000, seed.unwrap_or(1), false);
        println!("{}", soak.table());
        soak.assert_enough();
    }
}
