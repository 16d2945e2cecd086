//! Vorticity, tendencies, step and totals against 01's formulas taken
//! literally, and the ways in which copies of the scheme go astray.

use crate::common::literal::{self, Variant, NO_E_F, PAPER};
use crate::common::{any_state, numbers, random_q, random_state, step_state};
use crate::common::{tendencies_of, totals_of, vorticity_of, Random, Spread, SPREADS};
use reference::scheme::{round_div, WEIGHTS};
use reference::{State, TotalAnswer};

#[test]
fn rounding_is_to_the_nearest_with_halves_away_from_zero() {
    let mut random = Random::new(1);
    let mut ties = 0;
    for case in 0..200_000 {
        let b = match case % 3 {
            0 => random.between(1, 9),
            1 => random.between(1, 1 << 42),
            _ => 2 * random.between(1, 1_000),
        };
        let a = if case % 5 == 0 {
            b / 2 * random.pick(&[-3, -1, 1, 3])
        } else {
            random.between(-(1 << 57), 1 << 57) >> random.below(57)
        };
        let got = i128::from(round_div(a, b));
        assert_eq!(got, PAPER.rnd(a.into(), b.into()), "{a} / {b}");
        // The distance is at most a half, and at a half the result lies outward.
        let miss = 2 * (i128::from(a) - got * i128::from(b));
        assert!(miss.abs() <= b.into(), "{a} / {b}");
        if miss.abs() == b.into() {
            ties += 1;
            assert!(got.abs() * i128::from(b) > i128::from(a).abs(), "{a} / {b}");
        }
        assert_eq!(round_div(-a, b), -round_div(a, b), "{a} / {b}");
    }
    assert!(ties > 1_000);
    // No numerator and no positive denominator overflows.
    for a in [i64::MIN, i64::MIN + 1, -1, 0, 1, i64::MAX] {
        for b in [1, 2, 3, i64::MAX - 1, i64::MAX] {
            assert_eq!(
                i128::from(round_div(a, b)),
                PAPER.rnd(a.into(), b.into()),
                "{a} / {b}"
            );
        }
    }
}

#[test]
fn the_weights_are_the_table_of_01() {
    assert_eq!(WEIGHTS, PAPER.table);
}

#[test]
fn vorticity_and_tendencies_follow_the_literal_formulas() {
    let mut random = Random::new(2);
    for _ in 0..4_000 {
        let state = any_state(&mut random);
        let own = PAPER.vorticity(&state);
        assert_eq!(vorticity_of(&state), Ok(own.clone()), "{state:?}");
        assert!(own.iter().all(|q| q.abs() <= 1_966_080), "{state:?}");
        let spread = random.pick(&SPREADS);
        let lent = random_q(&mut random, spread, &state.parameters);
        for q in [own, lent] {
            let got = tendencies_of(&state, &q);
            assert_eq!(got, Ok(PAPER.tendencies(&state, &q)), "{state:?} {q:?}");
        }
    }
}

#[test]
fn totals_follow_the_literal_formulas() {
    let mut random = Random::new(3);
    for _ in 0..4_000 {
        let state = any_state(&mut random);
        let depth: i64 = state.h.iter().sum();
        let told = totals_of(&state).map(|answer| answer.told());
        let expected = [depth.into(), literal::energy(&state)];
        assert_eq!(told, expected.map(|total| vec![0, total]), "{state:?}");
    }
}

#[test]
fn the_greatest_totals_fit() {
    let cells = 64 * 64;
    let state = State {
        parameters: reference::Parameters {
            w: 64,
            n: 64,
            kind: 0,
            g: 10_000,
            c: 0,
            r: 1_000,
        },
        h: vec![100_000; cells],
        b: vec![100_000; cells],
        u: vec![-5_000; cells],
        v: vec![5_000; cells],
        barriers: vec![0; cells],
    };
    let greatest = [409_600_000, 2_498_560_000_000_000_000];
    assert_eq!(totals_of(&state), greatest.map(TotalAnswer::Total));
}

/// The step of the library, in the form of the literal one.
fn step_of(state: &State, inflow: &[i64]) -> Result<State, (i128, i128, i128)> {
    let mut after = state.clone();
    let mut work = vec![-1; 8 * inflow.len()];
    let told = step_state(&mut after, inflow, &mut work).told();
    assert!(work.iter().all(|&x| x == 0), "{state:?} {inflow:?}");
    match told[..] {
        [0] => Ok(after),
        [6, pass, field, cell] => {
            assert_eq!(&after, state, "{inflow:?}");
            Err((pass, field, cell))
        }
        _ => panic!("{told:?} for {state:?} {inflow:?}"),
    }
}

fn inflow_for(random: &mut Random, state: &State) -> Vec<i64> {
    let most = random.pick(&[0, 3, 1_000]);
    numbers(random, Spread::Even, state.h.len(), -most, most)
}

#[test]
fn step_follows_the_literal_passes() {
    let mut random = Random::new(4);
    let (mut done, mut refused) = (0, 0);
    for _ in 0..6_000 {
        let state = any_state(&mut random);
        let inflow = inflow_for(&mut random, &state);
        let got = step_of(&state, &inflow);
        assert_eq!(got, PAPER.step(&state, &inflow), "{state:?} {inflow:?}");
        match got {
            Ok(_) => done += 1,
            Err(_) => refused += 1,
        }
    }
    assert!(done > 1_000 && refused > 1_000, "{done} {refused}");
}

/// How many of so many calm states a wrong step would show in, where both
/// steps are accepted.
fn differing(seed: u64, variant: Variant) -> (usize, usize) {
    let mut random = Random::new(seed);
    let (mut differing, mut compared) = (0, 0);
    while compared < 500 {
        let size = (2 + random.below(5), 2 + random.below(5));
        let kind = random.below(3) as u8;
        let mut state = random_state(&mut random, Spread::Calm, size, kind);
        // Strong rotation, so that the vorticity terms count.
        state.parameters.c = random.pick(&[-10_000, 10_000]);
        let inflow = inflow_for(&mut random, &state);
        let (got, wrong) = (step_of(&state, &inflow), variant.step(&state, &inflow));
        if let (Ok(got), Ok(wrong)) = (got, wrong) {
            compared += 1;
            differing += usize::from(got != wrong);
        }
    }
    (differing, compared)
}

#[test]
fn wrong_steps_would_be_noticed() {
    assert_eq!(differing(5, PAPER).0, 0);
    let wrong = [
        ("E and F dropped", NO_E_F),
        (
            "beta from the edge's own cell",
            Variant {
                beta_from_own_cell: true,
                ..PAPER
            },
        ),
        (
            "net divergence rounded per cell",
            Variant {
                net_divergence: true,
                ..PAPER
            },
        ),
        (
            "second pass on the first",
            Variant {
                second_pass_on_first: true,
                ..PAPER
            },
        ),
        (
            "vorticity of the start in both passes",
            Variant {
                vorticity_of_start: true,
                ..PAPER
            },
        ),
        (
            "first pass returned",
            Variant {
                one_pass: true,
                ..PAPER
            },
        ),
        (
            "barriers not looked at",
            Variant {
                boundary_alone: true,
                ..PAPER
            },
        ),
        (
            "bits of a barrier swapped",
            Variant {
                bits_swapped: true,
                ..PAPER
            },
        ),
        (
            "barrier of the cell beyond",
            Variant {
                barrier_beyond: true,
                ..PAPER
            },
        ),
        (
            "wall corners across the wall",
            Variant {
                across_walls: true,
                ..PAPER
            },
        ),
        (
            "velocities at a wall",
            Variant {
                moving_walls: true,
                ..PAPER
            },
        ),
        (
            "the cell between walls as one of two",
            Variant {
                half_of_a_cell: true,
                ..PAPER
            },
        ),
        (
            "corners of the near wall at the far one",
            Variant {
                near_corners: true,
                ..PAPER
            },
        ),
        (
            "wall corners at barriers",
            Variant {
                walls_of_barriers: true,
                ..PAPER
            },
        ),
    ];
    for (name, variant) in wrong {
        let (differing, compared) = differing(5, variant);
        println!("{name}: {differing} of {compared}");
        assert!(differing > 0, "{name}: never seen in {compared}");
    }
}

#[test]
fn halves_rounded_up_would_be_noticed() {
    // U/(2R) = -5·(2000+2000)/8000 is -2.5 at the west edge of cell 1, in both
    // passes.
    let parameters = reference::Parameters {
        w: 2,
        n: 1,
        kind: 0,
        g: 1,
        c: 0,
        r: 4_000,
    };
    let state = State {
        parameters,
        h: vec![2_000; 2],
        b: vec![0; 2],
        u: vec![0, -5],
        v: vec![0; 2],
        barriers: vec![0; 2],
    };
    let up = Variant {
        halves_up: true,
        ..PAPER
    };
    let depths = |result: Result<State, _>| result.expect("accepted").h;
    assert_eq!(depths(step_of(&state, &[0, 0])), [2_003, 1_997]);
    assert_eq!(depths(up.step(&state, &[0, 0])), [2_002, 1_998]);
}

#[test]
fn a_net_divergence_would_let_the_total_drift() {
    let net = Variant {
        net_divergence: true,
        ..PAPER
    };
    let mut random = Random::new(6);
    let mut drifted = 0;
    for _ in 0..500 {
        let kind = random.below(3) as u8;
        let state = random_state(&mut random, Spread::Calm, (5, 4), kind);
        let inflow = vec![0; 20];
        let before: i64 = state.h.iter().sum();
        if let Ok(after) = net.step(&state, &inflow) {
            drifted += usize::from(after.h.iter().sum::<i64>() != before);
        }
        if let Ok(after) = step_of(&state, &inflow) {
            assert_eq!(after.h.iter().sum::<i64>(), before, "{state:?}");
        }
    }
    assert!(drifted > 100, "{drifted}");
}
