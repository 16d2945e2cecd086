//! The probe (02, request U3): its worked numbers, its doubles against 01's
//! formulas taken literally, how far they are from the whole numbers, and where it
//! says exact. Its refusals are in refusals.rs.

use crate::common::literal::{self, PAPER};
use crate::common::{any_state, at_rest, bits, corners, distance, is_open};
use crate::common::{large_state, narrow_state};
use crate::common::{probe_grid_of, probe_of, random_q, random_size, tendencies_of};
use crate::common::{worked_probes, Random, Spread, WorkedProbe};
use reference::{ProbeAnswer, ProbeGridAnswer, State};

/// Whether a grid is exact, and its doubles. Each cell by itself is told the same.
fn probed(state: &State, q: &[i64]) -> (bool, [Vec<f64>; 3]) {
    let (answer, doubles) = probe_grid_of(state, q);
    let exact = match answer {
        ProbeGridAnswer::Exact => true,
        ProbeGridAnswer::Near => false,
        ProbeGridAnswer::Refused(refusal) => panic!("{refusal:?} of {state:?} {q:?}"),
    };
    assert_eq!(answer.told(), [0, i128::from(!exact)]);
    let cells = state.h.len();
    // All of a small grid, and the first and the last of a large one.
    for cell in (0..cells).filter(|cell| cells <= 16 || [0, cells - 1].contains(cell)) {
        let at = doubles.each_ref().map(|list| list[cell].to_bits());
        let alone = match probe_of(state, q, cell) {
            ProbeAnswer::Exact(alone) if exact => alone,
            ProbeAnswer::Near(alone) if !exact => alone,
            other => panic!("{other:?} of {state:?} {q:?}, cell {cell}"),
        };
        assert_eq!(alone.map(f64::to_bits), at, "{state:?} {q:?}, cell {cell}");
    }
    (exact, doubles)
}

/// The greatest distance of the doubles from the whole tendencies. That of -D is 0,
/// and in an exact grid all are.
fn farthest(state: &State, q: &[i64]) -> u64 {
    let (exact, [dh, du, dv]) = probed(state, q);
    let whole = tendencies_of(state, q).expect("within the limits");
    let most = |doubles: &[f64], whole: &[i64]| {
        let all = doubles.iter().zip(whole);
        all.map(|(&x, &z)| distance(x, z)).max().expect("a cell")
    };
    assert_eq!(most(&dh, &whole.h), 0, "{state:?} {q:?}");
    let farthest = most(&du, &whole.u).max(most(&dv, &whole.v));
    let allowed = if exact { 0 } else { 64 };
    assert!(farthest <= allowed, "{farthest}: {state:?} {q:?}");
    farthest
}

// ---- worked numbers

#[test]
fn worked_numbers() {
    for worked in worked_probes() {
        let WorkedProbe {
            state,
            q,
            cell,
            whole,
            doubles,
            ..
        } = &worked;
        assert_eq!(bits(doubles), worked.bits);
        let answer = probe_of(state, q, *cell);
        let (exact, got) = match answer {
            ProbeAnswer::Exact(got) => (true, got),
            ProbeAnswer::Near(got) => (false, got),
            ProbeAnswer::Refused(refusal) => panic!("{refusal:?} of {state:?}"),
        };
        assert_eq!(exact, worked.exact, "{state:?}");
        assert_eq!(answer.told(), [0, i128::from(!exact)]);
        assert_eq!(bits(&got), worked.bits, "{got:?} of {state:?}");
        let of_cells = tendencies_of(state, q).expect("within the limits");
        let of_cell = [of_cells.h, of_cells.u, of_cells.v].map(|list| list[*cell]);
        assert_eq!(of_cell, *whole, "{state:?}");
        farthest(state, q);
    }
}

#[test]
fn still_water_has_minus_0_and_a_closed_edge_0() {
    let (nothing, minus) = (0f64.to_bits(), (-0f64).to_bits());
    for kind in 0..3 {
        let mut state = at_rest(2, 2);
        state.parameters.kind = kind;
        state.barriers[3] = 3;
        let (exact, [dh, du, dv]) = probed(&state, &vec![-7; corners(&state.parameters)]);
        assert!(exact);
        assert_eq!(bits(&dh), [minus; 4]);
        // On open edges -P·U is a product with 0.0, of any sign.
        for doubles in [du, dv] {
            assert_eq!(doubles, [0.0; 4]);
            assert_eq!(doubles[3].to_bits(), nothing);
        }
    }
    let mut state = at_rest(2, 2);
    state.parameters.kind = 2;
    let (_, [_, du, dv]) = probed(&state, &[-7; 9]);
    assert_eq!([du[0], du[2], dv[0], dv[1]].map(f64::to_bits), [nothing; 4]);
}

// ---- the formulas

#[test]
fn doubles_follow_the_literal_formulas() {
    let mut random = Random::new(71);
    // Grids: exact; near; with a closed edge.
    let mut met = [0; 3];
    for number in 0..4_000 {
        let (size, kind) = (random_size(&mut random), random.below(3) as u8);
        let (state, q) = match number % 4 {
            0 => narrow_state(&mut random, size, kind),
            1 => large_state(&mut random, size, kind),
            2 => {
                let state = any_state(&mut random);
                let q = random_q(&mut random, Spread::Mixed, &state.parameters);
                (state, q)
            }
            _ => {
                let state = any_state(&mut random);
                let q = PAPER.vorticity(&state);
                (state, q)
            }
        };
        let (exact, doubles) = probed(&state, &q);
        let expected = PAPER.doubles(&state, &q);
        for (got, expected) in doubles.iter().zip(&expected) {
            assert_eq!(bits(got), bits(expected), "{state:?} {q:?}");
        }
        met[usize::from(!exact)] += 1;
        met[2] += usize::from(!is_open(&state));
    }
    println!("{met:?}");
    assert!(met.iter().all(|&times| times > 800), "{met:?}");
}

/// A way to add the terms of a tendency that 01 does not write.
type Sum = fn([f64; 7]) -> f64;

const WRONG_SUMS: [(&str, Sum); 4] = [
    ("from right to left", |terms| {
        let [rest @ .., last] = terms;
        rest.into_iter().rev().fold(last, |sum, term| term + sum)
    }),
    ("in pairs", |[a, b, c, d, e, f, g]| {
        (a + b) + (c + d) + (e + f) + g
    }),
    ("Bernoulli first", |[a, b, c, d, e, f, g]| {
        g + a + b + c + d + e + f
    }),
    ("in more digits, and rounded at the end", |terms| {
        let whole: i128 = terms.iter().map(|&x| x as i128).sum();
        whole as f64
    }),
];

#[test]
fn wrong_sums_would_be_noticed() {
    let mut random = Random::new(72);
    let mut differing = [0; WRONG_SUMS.len()];
    let mut rounded = 0;
    let mut cells = 0;
    for _ in 0..500 {
        let size = (1 + random.below(4), 1 + random.below(4));
        let (mut state, q) = large_state(&mut random, size, 0);
        state.barriers.fill(0);
        let (_, [_, du, dv]) = probed(&state, &q);
        let whole = tendencies_of(&state, &q).expect("within the limits");
        let of_edges = [(du, whole.u), (dv, whole.v)];
        for ((doubles, whole), terms) in of_edges.into_iter().zip(literal::terms(&state, &q)) {
            for ((double, whole), terms) in doubles.iter().zip(whole).zip(terms) {
                cells += 1;
                for ((_, sum), count) in WRONG_SUMS.iter().zip(&mut differing) {
                    *count += usize::from(sum(terms) != *double);
                }
                // The double of the whole number in its place.
                rounded += usize::from(whole as f64 != *double);
            }
        }
    }
    println!("{differing:?} and {rounded} of {cells}");
    for ((name, _), differing) in WRONG_SUMS.iter().zip(differing) {
        assert!(differing > 0, "{name}: never seen in {cells}");
    }
    assert!(rounded > 0, "never seen in {cells}");
}

// ---- how far to trust them

#[test]
fn exact_doubles_are_the_whole_numbers_and_near_ones_at_most_64_off() {
    let mut random = Random::new(73);
    let (mut exact, mut most) = (0, 0);
    for number in 0..6_000 {
        let (size, kind) = (random_size(&mut random), random.below(3) as u8);
        let (state, q) = match number % 3 {
            0 => narrow_state(&mut random, size, kind),
            1 => large_state(&mut random, size, kind),
            _ => {
                let state = any_state(&mut random);
                let q = random_q(&mut random, Spread::Extreme, &state.parameters);
                (state, q)
            }
        };
        exact += usize::from(probed(&state, &q).0);
        most = most.max(farthest(&state, &q));
    }
    println!("{exact} exact, the others up to {most} off");
    assert!(exact >= 2_000, "{exact}");
    assert!(most >= 12, "{most}");
}

/// A field, the numbers about its narrow bounds, and whether each is narrow.
type Bound = (fn(&mut State, &mut [i64], usize, i64), [(i64, bool); 6]);

#[test]
fn the_narrow_bounds_are_exact_at_every_cell() {
    let heights = [10_000, 9_999, 10_001, 1_000, 100_000, 10_002];
    let heights = heights.map(|x| (x, x <= 10_000));
    let speeds = [-500, 500, -501, 501, 499, 5_000].map(|x: i64| (x, x.abs() <= 500));
    let vorticities = [
        (-1_000_000, true),
        (1_000_000, true),
        (-1_000_001, false),
        (1_000_001, false),
        (999_999, true),
        (2_000_000, false),
    ];
    let bounds: [Bound; 5] = [
        (|state, _, cell, x| state.h[cell] = x, heights),
        (|state, _, cell, x| state.b[cell] = x, heights),
        (|state, _, cell, x| state.u[cell] = x, speeds),
        (|state, _, cell, x| state.v[cell] = x, speeds),
        (|_, q, cell, x| q[cell] = x, vorticities),
    ];
    let mut random = Random::new(74);
    // Velocities count on every edge where none is closed; q on every corner of any.
    let sizes = [(1, 1), (3, 2), (1, 5), (64, 1), (8, 8)];
    let kinds = (0..3).flat_map(|kind| sizes.map(|size| (size, kind)));
    for (size, kind) in kinds {
        let (mut state, q) = narrow_state(&mut random, size, kind);
        state.barriers.fill(0);
        let taken = if kind == 0 { &bounds[..] } else { &bounds[4..] };
        for &(put, numbers) in taken {
            for (number, narrow) in numbers {
                let places = if kind == 0 { state.h.len() } else { q.len() };
                for cell in 0..places {
                    let (mut state, mut q) = (state.clone(), q.clone());
                    put(&mut state, &mut q, cell, number);
                    // In the probed cell, and in one far from it.
                    let (exact, _) = probed(&state, &q);
                    assert_eq!(exact, narrow, "{number} in cell {cell} of {state:?} {q:?}");
                    farthest(&state, &q);
                }
            }
        }
    }
}
