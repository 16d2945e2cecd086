//! Steps and runs of the proved library beside those of the independent
//! version: worked examples 3, 5 and 9, every size of grid in every kind, long
//! runs, and states at the brink, which leave a bound of h, of u or of v, in
//! the first pass or in the second, at once or after some steps. (Their tests 1
//! to 5, and calls with faults, are in comparison.rs.)
//!
//! Every comparison is of all that is told and of all that is lent: the state,
//! the work space with what lies past the part that is used, and the fences
//! beside them ([`cases::calls`]).

use crate::cases::calls::compare;
use crate::cases::common::Random;
use crate::cases::{add, small_size, Call, Case, H, S, STEPPING, U, V};

/// h, u and v after a call that tells this.
fn stepped(case: &Case, call: Call, told: &[u64], at: &str) -> [Vec<i64>; 3] {
    let outcome = compare(case, call, at);
    assert_eq!(outcome.told, told, "{at}: {call:?} {case:?}");
    outcome.written.stepped
}

/// h, u and v as they are lent.
fn unstepped(case: &Case) -> [Vec<i64>; 3] {
    [H, U, V].map(|field| case.fields[field].clone())
}

// ---- the worked examples

#[test]
fn example_3_one_cell() {
    let mut case = Case::example_2();
    let after = [vec![2_000], vec![99], vec![-51]];
    assert_eq!(stepped(&case, Call::Step, &[0], "example 3"), after);
    case.steps = 1;
    assert_eq!(stepped(&case, Call::Run, &[0, 1], "example 3"), after);
}

#[test]
fn example_5_two_cells() {
    let mut case = Case::example_4();
    case.p.r = 100_000;
    let after = [vec![2_005, 2_995], vec![108, -98], vec![0, 0]];
    assert_eq!(stepped(&case, Call::Step, &[0], "example 5"), after);
    case.steps = 1;
    assert_eq!(stepped(&case, Call::Run, &[0, 1], "example 5"), after);
}

#[test]
fn example_9_work_space_and_run_length() {
    for good in [Case::example_2(), Case::example_4(), Case::basin()] {
        let before = unstepped(&good);
        let mut short = good.clone();
        short.work = 8 * good.fields[H].len() - 1;
        for call in STEPPING {
            assert_eq!(stepped(&short, call, &[2], "example 9"), before);
        }
        let mut run = good;
        run.steps = 0;
        assert_eq!(stepped(&run, Call::Run, &[0, 0], "example 9"), before);
        run.steps = 10_001;
        assert_eq!(stepped(&run, Call::Run, &[1], "example 9"), before);
    }
}

// ---- every size

#[test]
fn steps_of_every_size_in_every_kind() {
    let mut random = Random::new(41);
    // By kind: gentle steps accepted; wild ones accepted, and refused with 6.
    let (mut gentle, mut wild) = ([0; 3], [[0; 2]; 3]);
    for w in 1..=64 {
        for n in 1..=64 {
            for kind in 0..3 {
                let mut case = Case::gentle(&mut random, (w, n), kind as u8);
                let told = compare(&case, Call::Step, "a size").told;
                gentle[kind] += usize::from(told == [0]);
                // The others now and then, for the time they take.
                if random.once_in(8) {
                    case.steps = 2;
                    compare(&case, Call::Run, "a size");
                }
                if random.once_in(8) {
                    let case = Case::good_of_kind(&mut random, (w, n), kind as u8);
                    let told = compare(&case, Call::Step, "a wild size").told;
                    add(&mut wild[kind], [told[0] == 0, told[0] == 6]);
                }
            }
        }
    }
    println!("{gentle:?} {wild:?}");
    assert!(gentle.iter().all(|&k| k > 4_000), "{gentle:?}");
    assert!(wild.as_flattened().iter().all(|&k| k > 50), "{wild:?}");
}

// ---- runs

#[test]
fn runs_of_up_to_10_000_steps() {
    let mut random = Random::new(42);
    let mut finished = 0;
    for size in [(1, 1), (2, 1), (1, 3), (3, 2), (2, 4), (5, 4)] {
        for kind in 0..3 {
            for steps in [9_999, 10_000] {
                let mut case = Case::gentle(&mut random, size, kind);
                // What comes in at one end goes out at the other.
                let inflow = &mut case.fields[S];
                inflow.fill(0);
                inflow[0] += 2;
                *inflow.last_mut().expect("a cell") -= 2;
                case.p.c /= 100;
                case.steps = steps;
                let told = compare(&case, Call::Run, "a long run").told;
                finished += usize::from(told == [0, steps]);
            }
        }
    }
    println!("{finished}");
    assert!(finished > 30, "{finished}");
}

#[test]
fn runs_of_the_largest_grid() {
    let mut random = Random::new(43);
    for kind in 0..3 {
        for steps in [1, 7, 40] {
            let mut case = Case::gentle(&mut random, (64, 64), kind);
            case.steps = steps;
            let told = compare(&case, Call::Run, "a large run").told;
            assert_eq!(told, [0, steps], "{kind}");
        }
    }
}

// ---- refusal 6

#[test]
fn of_several_places_past_a_bound_the_first_is_told() {
    // At rest and even, but for what is put in.
    let still = |(w, n): (usize, usize), kind: u8, depth: i64| {
        let mut case = Case::example_2();
        (case.p.w, case.p.n, case.p.kind, case.p.c) = (w, n, kind, 0);
        let cells = w * n;
        case.fields = [depth, 0, 0, 0, 0, 0].map(|number| vec![number; cells]);
        case.barriers = vec![0; cells];
        case.work = 8 * cells;
        case
    };
    let told = |case: &Case, place: [u64; 3], at: &str| {
        let [pass, field, cell] = place;
        let told = [6, pass, field, cell];
        assert_eq!(stepped(case, Call::Step, &told, at), unstepped(case));
        let run = [&told[..], &[0]].concat();
        assert_eq!(stepped(case, Call::Run, &run, at), unstepped(case));
    };
    for kind in 0..3 {
        for (depth, inflow) in [(1_000, -1), (100_000, 1)] {
            for first in 0..12 {
                let mut case = still((4, 3), kind, depth);
                case.fields[S][first..].fill(inflow);
                told(&case, [1, 0, first as u64], "depths");
                // Velocities too, mostly at lower cells.
                case.fields[1][0] = 100_000;
                told(&case, [1, 0, first as u64], "depths first");
            }
        }
        // A hill drives the water off on all sides: u before v.
        for hill in 0..12 {
            let mut case = still((4, 3), kind, 50_000);
            case.fields[1][hill] = 100_000;
            let (i, row) = (hill % 4, hill - hill % 4);
            let edges = [hill, row + (i + 1) % 4];
            let open = edges.into_iter().filter(|&k| !case.is_closed(U, k));
            let first = open.min().expect("an open edge");
            told(&case, [1, 2, first as u64], "a hill");
        }
        // In one column nothing drives u.
        for hill in 0..5 {
            let mut case = still((1, 5), kind, 50_000);
            case.fields[1][hill] = 100_000;
            let edges = [hill, (hill + 1) % 5];
            let open = edges.into_iter().filter(|&k| !case.is_closed(V, k));
            let first = open.min().expect("an open edge");
            told(&case, [1, 3, first as u64], "a hill in a column");
        }
    }
}

#[test]
fn runs_at_the_brink_leave_every_bound_in_both_passes() {
    // By pass, then h, u, v: runs stopped at once, and after some steps.
    let mut runs = [[[0; 2]; 3]; 2];
    // The same of a step.
    let mut steps = [[0; 3]; 2];
    // Runs that finish, of some steps, and steps that are accepted.
    let mut done = [0; 2];
    let place = |pass: u64, field: u64| {
        let field = [H, U, V].into_iter().position(|k| k as u64 == field);
        (pass as usize - 1, field.expect("h, u or v"))
    };
    for kind in 0..3 {
        let seed = 44 + u64::from(kind);
        let mut random = Random::new(seed);
        for number in 0..3_000 {
            let at = format!("seed {seed}, case {number}");
            let size = small_size(&mut random);
            let mut case = Case::brink(&mut random, size, kind);
            case.steps = random.below(60) as u64;
            match compare(&case, Call::Run, &at).told[..] {
                [0, steps] => done[0] += usize::from(steps > 0),
                [6, pass, field, _, steps] => {
                    let (pass, field) = place(pass, field);
                    runs[pass][field][usize::from(steps > 0)] += 1;
                }
                ref told => panic!("{told:?} {case:?}"),
            }
            match compare(&case, Call::Step, &at).told[..] {
                [0] => done[1] += 1,
                [6, pass, field, _] => {
                    let (pass, field) = place(pass, field);
                    steps[pass][field] += 1;
                }
                ref told => panic!("{told:?} {case:?}"),
            }
        }
    }
    println!("{runs:?} {steps:?} {done:?}");
    let often = runs.as_flattened().as_flattened();
    assert!(often.iter().all(|&k| k > 30), "{runs:?}");
    assert!(steps.as_flattened().iter().all(|&k| k > 50), "{steps:?}");
    assert!(done.iter().all(|&k| k > 1_000), "{done:?}");
}
