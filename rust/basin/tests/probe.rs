//! The probe of a cell and of a grid (02, request U3), by the proved library and by
//! the independent version: worked numbers, every cell of grids of every kind, the
//! bounds at which doubles are no longer exact, how far they can be off, and what is
//! refused. (Random calls with faults, two causes at once, long lists and lists
//! beside memory without access are where those of the other calls are.)
//!
//! Every accepted probe is held to the library's whole tendencies: no double is off
//! where the grid is narrow, none by more than 64 elsewhere, and -D never
//! ([`cases::calls`]). Doubles are compared by their bits.

use crate::cases::calls::{assert_alone, compare, expect, farthest, Doubles, Outcome};
use crate::cases::common::{large_state, narrow_state, worked_probes, Random, WorkedProbe};
use crate::cases::{random_size, Call, Case, BARRIERS, H, PROBING, Q, U, V};
use basin::{Probe, Trust};
use reference::State;

/// A state and q with good things beside them.
fn case((state, q): (State, Vec<i64>)) -> Case {
    let inflow = vec![0; state.h.len()];
    Case::beside(state, q, inflow)
}

/// What both give for a grid, where both accept.
fn probed(case: &Case, at: &str) -> Outcome {
    let grid = compare(case, Call::ProbeGrid, at);
    assert_eq!(grid.told[0], 0, "{at}: {case:?}");
    grid
}

// ---- worked numbers

#[test]
fn worked_numbers() {
    for worked in worked_probes() {
        let WorkedProbe {
            state,
            q,
            cell,
            exact,
            whole,
            doubles,
            bits,
        } = worked;
        let mut case = case((state, q));
        case.cell = cell;
        let outcome = compare(&case, Call::Probe, "worked");
        assert_eq!(outcome.told, [0, u64::from(!exact)], "{case:?}");
        let three = outcome.written.probed.0;
        assert_eq!(three, doubles, "{case:?}");
        let got = three.iter().map(|x| x.to_bits());
        assert!(got.eq(bits), "{case:?}");
        let tendencies = compare(&case, Call::Tendencies, "worked").written;
        let of_cell = tendencies.destinations.map(|list| list[cell]);
        assert_eq!(of_cell, whole, "{case:?}");
        let grid = probed(&case, "worked");
        (0..case.fields[H].len()).for_each(|cell| assert_alone(&case, cell, &grid, "worked"));
    }
}

#[test]
fn the_safe_calls_say_how_far_to_trust_them() {
    let p = basin::Parameters {
        w: 2,
        n: 1,
        kind: 0,
        g: 10_000,
        c: 0,
        r: 1_000,
    };
    let (b, velocities, q) = ([10_000, 0], [500, -500], [1_000_000, -1_000_000]);
    for (h, dh, du, trust) in [
        (10_000, 20_000_000.0, -314_572_800_000_000.0, Trust::Exact),
        (10_001, 20_001_000.0, -314_541_342_720_000.0, Trust::Near),
    ] {
        let (h, u, v, z) = ([10_000, h], velocities, velocities, [0, 0]);
        let dv = 0.0;
        let probe = basin::probe(&p, &h, &b, &u, &v, &z, &q, 0);
        assert_eq!(probe, Ok(Probe { dh, du, dv, trust }));
        let [mut all_h, mut all_u, mut all_v] = [[0.5; 3]; 3];
        let told = basin::probe_grid(
            &p, &h, &b, &u, &v, &z, &q, &mut all_h, &mut all_u, &mut all_v,
        );
        assert_eq!(told, Ok(trust));
        assert_eq!((all_h[0], all_u[0], all_v[0]), (dh, du, dv));
        assert_eq!([all_h[2], all_u[2], all_v[2]], [0.5; 3]);
    }
}

#[test]
fn still_water_has_minus_0_and_a_closed_edge_0() {
    for kind in 0..3 {
        let mut case = Case::example_2();
        (case.p.w, case.p.n, case.p.kind) = (3, 3, kind);
        case.fit();
        (case.fields[U], case.fields[V]) = (vec![0; 9], vec![0; 9]);
        // Any level, and weights of both signs.
        case.fields[H] = (0..9).map(|k| 5_000 - 7 * k).collect();
        let corners = case.length(Q) as i64;
        case.fields[Q] = (0..corners).map(|k| 1_000 - 300 * k).collect();
        case.barriers[4] = 3;
        let [dh, du, dv] = probed(&case, "still").written.doubles;
        assert_eq!(dh, Doubles(vec![-0.0; 9]));
        for (field, doubles) in [(U, du), (V, dv)] {
            let closed = case.closed(field);
            assert!(closed.contains(&4));
            let of_closed = closed.iter().map(|&cell| doubles.0[cell]).collect();
            assert_eq!(Doubles(of_closed), Doubles(vec![0.0; closed.len()]));
        }
    }
}

// ---- every cell

#[test]
fn every_cell_of_grids_of_every_kind() {
    let mut random = Random::new(111);
    // By kind, then exact and near.
    let mut met = [[0; 2]; 3];
    for number in 0..900 {
        let kind = number % 3;
        let size = match number {
            0..=2 => (64, 64),
            3..=5 => (64, 1),
            6..=8 => (1, 64),
            _ => random_size(&mut random),
        };
        let good = match random.below(3) {
            0 => case(narrow_state(&mut random, size, kind as u8)),
            _ => Case::good_of_kind(&mut random, size, kind as u8),
        };
        let at = format!("case {number}");
        let grid = probed(&good, &at);
        met[kind][grid.told[1] as usize] += 1;
        let cells = good.fields[H].len();
        // All of a small grid, and every so many of a large one.
        for cell in (0..cells).step_by(1 + cells / 64).chain([cells - 1]) {
            assert_alone(&good, cell, &grid, &at);
        }
    }
    println!("{met:?}");
    assert!(met.as_flattened().iter().all(|&k| k > 80), "{met:?}");
}

// ---- how far to trust them

/// The field, the greatest size of its numbers in a narrow grid, and whether they may
/// be below 0.
const NARROW: [(usize, i64, bool); 5] = [
    (H, 10_000, false),
    (1, 10_000, false),
    (U, 500, true),
    (V, 500, true),
    (Q, 1_000_000, true),
];

#[test]
fn the_narrow_bounds_are_exact_in_the_probed_cell_and_in_the_farthest() {
    let mut random = Random::new(112);
    for size in [(1, 1), (2, 1), (1, 2), (5, 4), (64, 64)] {
        let mut narrow = case(narrow_state(&mut random, size, 0));
        narrow.barriers.fill(0);
        let cells = size.0 * size.1;
        // The grid wraps, so that half of its sides is as far as can be.
        let middle = size.1 / 2 * size.0 + size.0 / 2;
        for (probed, changed) in [(0, 0), (0, middle), (0, cells - 1), (cells - 1, 0)] {
            for (field, most, signed) in NARROW {
                let mut numbers = vec![most - 1, most, most + 1];
                if signed {
                    numbers.extend([1 - most, -most, -most - 1]);
                }
                for number in numbers {
                    let mut case = narrow.clone();
                    case.cell = probed;
                    case.fields[field][changed] = number;
                    let trust = u64::from(number.abs() > most);
                    for call in PROBING {
                        let told = compare(&case, call, "a bound").told;
                        assert_eq!(told, [0, trust], "{number} in {field}: {call:?} {case:?}");
                    }
                }
            }
        }
        // Neither inflow nor barriers nor what is beside the state count.
        narrow.fields[5].fill(1_000);
        narrow.barriers.fill(3);
        narrow.clear_closed_edges();
        (narrow.p.g, narrow.p.c, narrow.p.r) = (10_000, -10_000, 1_000_000);
        for call in PROBING {
            let told = compare(&narrow, call, "barred").told;
            assert_eq!(told, [0, 0], "{call:?} {narrow:?}");
        }
    }
}

#[test]
fn near_doubles_are_off_by_12_and_more_but_not_by_more_than_64() {
    let mut random = Random::new(113);
    let mut most = 0;
    for _ in 0..2_000 {
        let (size, kind) = (random_size(&mut random), random.below(3) as u8);
        let large = case(large_state(&mut random, size, kind));
        let grid = probed(&large, "large");
        assert_eq!(grid.told, [0, 1], "{large:?}");
        most = most.max(farthest(&large, Call::ProbeGrid, &grid.written));
    }
    println!("up to {most} off");
    assert!((12..=64).contains(&most), "{most}");
}

// ---- refusals

/// Causes in the order of their tests, of the closed basin of 3 by 2 cells, and what
/// each tells by itself. The last one is of a probed cell, or of a probed grid.
type Cause = (fn(&mut Case), &'static [u64]);

const CAUSES: [Cause; 13] = [
    (|case| case.p.kind = 3, &[1]),
    (|case| case.resize(Q, 6), &[2]),
    (|case| case.p.g = 0, &[3]),
    (|case| case.put(H, 5, 999), &[4, 0, 5]),
    (|case| case.put(1, 5, -1), &[4, 1, 5]),
    (|case| case.put(U, 4, 5_001), &[4, 2, 4]),
    (|case| case.put(V, 4, 5_001), &[4, 3, 4]),
    (|case| case.put(BARRIERS, 3, 4), &[4, 6, 3]),
    (|case| case.put(Q, 1, 2_000_001), &[4, 4, 1]),
    (|case| case.put(Q, 11, -2_000_001), &[4, 4, 11]),
    (|case| case.put(U, 3, 1), &[5, 2, 3]),
    (|case| case.put(V, 0, 1), &[5, 3, 0]),
    (
        |case| {
            case.cell = 6;
            case.destinations[1] = 5;
        },
        &[],
    ),
];

#[test]
fn of_two_causes_the_first_is_told_and_10_and_8_come_after_5() {
    for call in PROBING {
        let last: &[u64] = match call {
            Call::Probe => &[10],
            _ => &[8],
        };
        for (k, (first, told)) in CAUSES.iter().enumerate() {
            let told = if told.is_empty() { last } else { told };
            for (second, _) in &CAUSES[k..] {
                let mut case = Case::basin();
                second(&mut case);
                first(&mut case);
                expect(&case, call, told, "two causes");
            }
        }
    }
}

#[test]
fn a_cell_is_one_of_the_grid_or_refused_whatever_its_bits() {
    let mut random = Random::new(114);
    for size in [(1, 1), (3, 2), (64, 1), (1, 64), (64, 64)] {
        let cells = size.0 * size.1;
        let mut case = Case::good_of_size(&mut random, size);
        for (cell, told) in [
            (0, 0),
            (cells - 1, 0),
            (cells, 10),
            (cells + 1, 10),
            (64 * 64, 10),
            (1 << 32, 10),
            ((1 << 32) + cells - 1, 10),
            (1 << 63, 10),
            (usize::MAX - 1, 10),
            (usize::MAX, 10),
        ] {
            case.cell = cell;
            expect(&case, Call::Probe, &[told], "a cell");
            // A grid takes none.
            expect(&case, Call::ProbeGrid, &[0], "no cell");
        }
    }
}

#[test]
fn destinations_longer_than_the_grid_and_one_of_them_short() {
    let mut random = Random::new(115);
    for size in [(1, 1), (3, 2), (64, 1), (64, 64)] {
        let cells = size.0 * size.1;
        let mut case = Case::good_of_size(&mut random, size);
        for longer in [[0, 0, 0], [1, 0, 7], [0, 64, 1], [5_000, 5_000, 5_000]] {
            case.destinations = longer.map(|more| cells + more);
            expect(&case, Call::ProbeGrid, &[0], "long");
            for which in 0..3 {
                let long = case.destinations[which];
                for short in [0, cells / 2, cells - 1] {
                    case.destinations[which] = short;
                    expect(&case, Call::ProbeGrid, &[8], "short");
                    // Those of a cell are always three.
                    let told = compare(&case, Call::Probe, "no destination").told;
                    assert_eq!(told[0], 0, "{case:?}");
                }
                case.destinations[which] = long;
            }
        }
    }
}
