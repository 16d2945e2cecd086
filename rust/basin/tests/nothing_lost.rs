//! Nothing that a call has to tell is lost: whenever a C function returns 0, all
//! of it is there. While a total, the constants of a record and an answer were
//! lists with a length, a short one took what fitted, and the call returned 0
//! all the same:
//!
//! - total depth, without a place for the total, gave none;
//! - a run, with one place for its answer, stepped the state and did not say how
//!   far it came;
//! - a record was read without its G, c and R, where there was no place for them;
//! - a comparison, with one place for its answer, did not say what it came to.
//!
//! Now each is lent as a pointer to as many numbers as are declared, and the doubles
//! of a probe are too. Here just these are lent, between memory that nobody may touch,
//! and other numbers stand in them before the call.

use std::fs;
use std::path::Path;

use crate::cases::calls::UNFILLED_DOUBLE;
use crate::cases::calls::{answered, array, independent, parameters, Doubles};
use crate::cases::changes::Changed;
use crate::cases::common::{moment, record_of, two_cells, Random};
use crate::cases::memory::{Guarded, Plain};
use crate::cases::records::{self, answer_for, independent_pair, Lent, TIMESTAMP};
use crate::cases::{add, any_numbers, random_case, Call, Case, H, S, TOTALS};
use basin::raw;

/// Room for the numbers that a call is lent to tell something in.
struct Tight {
    page: Guarded,
    /// They end straight before memory without access, or start straight after
    /// it.
    at_end: bool,
}

impl Tight {
    fn both() -> [Self; 2] {
        [false, true].map(|at_end| Tight {
            page: Guarded::new(64),
            at_end,
        })
    }

    fn lend<T: Plain, const N: usize>(&mut self, standing: [T; N]) -> &mut [T; N] {
        array(self.page.lend(&standing, self.at_end))
    }
}

#[test]
fn a_total_that_returns_0_is_given() {
    let mut random = Random::new(101);
    // Refused, and given.
    let mut met = [0; 2];
    for (mut totals, mut answers) in Tight::both().into_iter().zip(Tight::both()) {
        let mut total_of = |case: &Case, call: Call| {
            let p = &parameters(case);
            let ([h, b, u, v, ..], z) = (&case.fields, &case.barriers);
            let [total] = totals.lend([case.total]);
            let answer = answers.lend(case.answer);
            let number = match call {
                Call::TotalDepth => raw::total_depth(p, h, b, u, v, z, total, answer),
                _ => raw::total_energy(p, h, b, u, v, z, total, answer),
            };
            (number, *total, *answer)
        };
        let example = Case::example_2();
        let depth = total_of(&example, Call::TotalDepth);
        assert_eq!(depth, (0, 2_000, [0; 8]));
        let energy = total_of(&example, Call::TotalEnergy);
        assert_eq!(energy, (0, 78_530_000_000, [0; 8]));

        for number in 0..5_000 {
            let (case, faults) = random_case(&mut random);
            for call in TOTALS {
                let expected = independent(&case, call);
                let [total] = expected.written.total[..] else {
                    panic!("a total is one number");
                };
                let told = &expected.told;
                let (returned, given, answer) = total_of(&case, call);
                let at = || format!("case {number}, {faults:?}: {call:?} {case:?}");
                assert_eq!(returned, told[0], "{}", at());
                assert_eq!(answer, answered(told), "{}", at());
                // After a refusal, the number that was lent.
                assert_eq!(given, total, "{}", at());
                add(&mut met, [returned != 0, returned == 0]);
            }
        }
    }
    assert!(met.iter().all(|&times| times > 5_000), "{met:?}");
}

#[test]
fn a_probe_that_returns_0_gives_its_doubles() {
    let mut random = Random::new(105);
    // Refused, exact, near.
    let mut met = [0; 3];
    for (mut doubles, mut answers) in Tight::both().into_iter().zip(Tight::both()) {
        let mut probe = |case: &Case| {
            let p = &parameters(case);
            let ([h, b, u, v, q, _], z) = (&case.fields, &case.barriers);
            let three = doubles.lend([0, 4, 8].map(|k| UNFILLED_DOUBLE + f64::from(k)));
            let answer = answers.lend(case.answer);
            let number = raw::probe(p, h, b, u, v, z, q, case.cell, three, answer);
            (number, *three, *answer)
        };
        let (number, three, answer) = probe(&Case::example_2());
        assert_eq!((number, answer), (0, [0; 8]));
        assert_eq!(three, [0.0, -1_574_400_000.0, -3_148_800_000.0]);

        for number in 0..5_000 {
            let (case, faults) = random_case(&mut random);
            let expected = independent(&case, Call::Probe);
            let (returned, three, answer) = probe(&case);
            let at = || format!("case {number}, {faults:?}: {case:?}");
            assert_eq!(returned, expected.told[0], "{}", at());
            assert_eq!(answer, answered(&expected.told), "{}", at());
            // After a refusal, the doubles that were lent.
            let three = Doubles(three.to_vec());
            assert_eq!(three, expected.written.probed, "{}", at());
            let outcome = match expected.told[..] {
                [0, trust] => 1 + trust as usize,
                _ => 0,
            };
            met[outcome] += 1;
        }
    }
    println!("{met:?}");
    assert!(met.iter().all(|&times| times > 200), "{met:?}");
}

#[test]
fn a_run_that_returns_0_says_how_far_it_came() {
    let mut random = Random::new(102);
    // Finished without a step, and with some; stopped; refused.
    let mut met = [0; 4];
    for mut answers in Tight::both() {
        let mut run = |case: &Case| {
            let [mut h, b, mut u, mut v, _, s] = case.fields.clone();
            let (z, steps) = (&case.barriers, case.steps);
            let mut work = vec![7; case.lent_work()];
            let (p, answer) = (&parameters(case), answers.lend(case.answer));
            let number = raw::run(
                p, &mut h, &b, &mut u, &mut v, z, &s, steps, &mut work, answer,
            );
            (number, *answer, [h, u, v])
        };
        // What comes in goes out again, so that the longest run finishes.
        let mut example = Case::basin();
        example.fields[S] = vec![1, -1, 2, -2, 3, -3];
        for steps in [0, 1, 5, 10_000] {
            example.steps = steps;
            let (number, answer, _) = run(&example);
            assert_eq!((number, answer), (0, [0, steps, 0, 0, 0, 0, 0, 0]));
        }
        // One cell with room for two steps of 10 mm.
        let mut full = Case::example_2();
        (full.fields[H], full.fields[S]) = (vec![99_975], vec![10]);
        let (number, answer, [h, ..]) = run(&full);
        assert_eq!((number, answer), (6, [6, 1, 0, 0, 2, 0, 0, 0]));
        assert_eq!(h, [99_995]);

        for number in 0..5_000 {
            let (case, faults) = random_case(&mut random);
            let at = || format!("case {number}, {faults:?}: {case:?}");
            let expected = independent(&case, Call::Run);
            let (returned, answer, stepped) = run(&case);
            assert_eq!(returned, expected.told[0], "{}", at());
            assert_eq!(answer, answered(&expected.told), "{}", at());
            assert_eq!(stepped, expected.written.stepped, "{}", at());
            let outcome = match answer {
                [0, 0, ..] => 0,
                [0, ..] => 1,
                [6, ..] => 2,
                _ => 3,
            };
            met[outcome] += 1;
        }
    }
    assert!(met.iter().all(|&times| times > 500), "{met:?}");
}

#[test]
fn a_record_that_is_read_gives_its_constants() {
    let mut random = Random::new(103);
    // Refused, and read.
    let mut met = [0; 2];
    for (mut numbers, mut answers) in Tight::both().into_iter().zip(Tight::both()) {
        let mut read = |record: &[u8], lent: Lent| {
            let mut filled = records::Outcome::before(lent);
            let ([h, b, u, v], z) = (&mut filled.fields, &mut filled.barriers);
            let constants = numbers.lend(lent.constants);
            let answer = answers.lend(lent.answer);
            let number = raw::read(record, h, b, u, v, z, constants, answer);
            (
                number,
                *constants,
                *answer,
                (filled.fields, filled.barriers),
            )
        };
        let example = record_of(&Case::example_2().state(), TIMESTAMP);
        let given = read(&example, Lent::enough(1));
        let (seconds, milliseconds) = (TIMESTAMP.seconds, TIMESTAMP.milliseconds);
        let answer = [0, 1, 1, 0, seconds, milliseconds, 0, 0];
        let fields = [2_000, 0, 100, -50].map(|number| vec![number]);
        let filled = (fields, vec![0]);
        assert_eq!(given, (0, [9_810, 10, 1_000], answer, filled));

        for number in 0..5_000 {
            let Changed { cells, record, .. } = Changed::random(&mut random);
            let lent = Lent::any(&mut random, cells);
            let expected = records::independent(&record, lent);
            let (returned, constants, answer, filled) = read(&record, lent);
            let at = || format!("case {number}: {}", records::hex(&record));
            assert_eq!(returned, expected.told[0], "{}", at());
            assert_eq!(answer, answered(&expected.told), "{}", at());
            // After a refusal, the numbers that were lent.
            assert_eq!(constants, expected.constants, "{}", at());
            assert_eq!(filled, (expected.fields, expected.barriers), "{}", at());
            add(&mut met, [returned != 0, returned == 0]);
        }
    }
    assert!(met.iter().all(|&times| times > 1_000), "{met:?}");
}

#[test]
fn a_comparison_that_returns_0_says_what_it_came_to() {
    let mut random = Random::new(104);
    // Refused, and by what it came to.
    let (mut refused, mut met) = (0, [0; 4]);
    for mut answers in Tight::both() {
        let mut compare = |first: &[u8], second: &[u8], standing| {
            let answer = answers.lend(standing);
            (raw::compare(first, second, answer), *answer)
        };
        let mut other = two_cells();
        other.h[1] += 1;
        let times = [(5, 0), (5, 1), (4, 999)].map(|(seconds, ms)| moment(seconds, ms));
        for [time, other_time] in times.iter().flat_map(|&a| times.map(|b| [a, b])) {
            let first = record_of(&two_cells(), time);
            for (second, same) in [(&two_cells(), true), (&other, false)] {
                let second = record_of(second, other_time);
                let result = answer_for(time, other_time, same);
                for standing in [[0; 8], [1; 8], [2; 8], [3; 8], [u64::MAX; 8]] {
                    let told = compare(&first, &second, standing);
                    assert_eq!(told, (0, [0, result, 0, 0, 0, 0, 0, 0]));
                }
            }
        }

        for number in 0..10_000 {
            let Changed { good, record, .. } = Changed::random(&mut random);
            for (first, second) in [(&good, &record), (&record, &good)] {
                let told = independent_pair(first, second);
                let (returned, answer) = compare(first, second, any_numbers(&mut random));
                let at = || format!("case {number}: {}", records::hex(&record));
                assert_eq!(returned, told[0], "{}", at());
                assert_eq!(answer, answered(&told), "{}", at());
                match told[..] {
                    [0, result] => met[result as usize] += 1,
                    _ => refused += 1,
                }
            }
        }
    }
    println!("{refused} {met:?}");
    assert!(refused > 1_000, "{refused}");
    assert!(met.iter().all(|&times| times > 5), "{met:?}");
}

/// A length would let a caller lend too little again.
#[test]
fn the_header_takes_no_length_for_what_is_told() {
    let header = Path::new(env!("CARGO_MANIFEST_DIR")).join("../../include/basin.h");
    let header = fs::read_to_string(header).expect("the header");
    for name in ["answer", "total", "constants", "rounded", "doubles"] {
        assert!(!header.contains(&format!("{name}_len")), "{name}");
    }
    // Every function ends with its answer, but for rnd and the version.
    let functions = header.matches("\nuint64_t basin_").count();
    assert_eq!(functions, 13);
    assert_eq!(header.matches("uint64_t answer[8]);").count(), 11);
    assert_eq!(header.matches("int64_t *rounded);").count(), 1);
    assert_eq!(header.matches("int64_t *total,").count(), 2);
    assert_eq!(header.matches("int64_t constants[3],").count(), 1);
    assert_eq!(header.matches(" double doubles[3],\n").count(), 1);
}
