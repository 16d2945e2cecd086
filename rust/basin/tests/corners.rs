//! Corners on a wall (02, request U5), by the proved library and by the independent
//! version: worked numbers, every length of a q and of what is filled with one, every
//! corner outside its bounds, and which cells and velocities a corner takes. (Random
//! calls with faults, two causes at once, long lists and lists beside memory without
//! access are where those of the other fields are.)
//!
//! Every accepted call of tendencies asks for an energy rate of exactly 0, whatever
//! corners are lent ([`cases::calls`]).

use crate::cases::calls::{compare, expect, parameters};
use crate::cases::common::literal::{self, vorticity_of_01, Three, PAPER};
use crate::cases::common::{corners, corners_to_try, differing, every_grid, opposite_walls};
use crate::cases::common::{own_corners, q_lengths, random_barriers, random_q, wall_corners};
use crate::cases::common::{worked_channel, worked_corners, worked_turning_basin};
use crate::cases::common::{Random, Spread};
use crate::cases::{Call, Case, CALLS, H, PROBING, Q, U, V};

/// The calls that take a q.
const WITH_Q: [Call; 3] = [Call::Tendencies, Call::Probe, Call::ProbeGrid];

/// Still water of one depth in a grid that turns fast, so that every corner has a q.
fn turning((w, n): (usize, usize), kind: u8) -> Case {
    let mut case = Case::example_2();
    (case.p.w, case.p.n, case.p.kind, case.p.c) = (w, n, kind, 10_000);
    case.fit();
    case.fields[H].fill(5_000);
    case.fields[U].fill(0);
    case.fields[V].fill(0);
    case
}

/// Any case within the limits, with a q that is just as long as it has to be.
fn any(random: &mut Random, size: (usize, usize), kind: u8) -> Case {
    let mut case = Case::good_of_kind(random, size, kind);
    case.fit();
    case
}

/// The potential vorticity of a case, which both fill in, and nothing past it.
fn own_q(case: &Case, at: &str) -> Vec<i64> {
    let outcome = compare(case, Call::PotentialVorticity, at);
    assert_eq!(outcome.told, [0], "{at}: {case:?}");
    let [q, ..] = outcome.written.destinations;
    assert_eq!(q[..corners(&case.p)], PAPER.vorticity(&case.state())[..]);
    q[..corners(&case.p)].to_vec()
}

// ---- worked numbers

#[test]
fn worked_numbers() {
    for (state, q) in worked_corners() {
        let cells = state.h.len();
        let case = Case::beside(state, q.clone(), vec![0; cells]);
        assert_eq!(own_q(&case, "worked"), q);
    }

    let (state, q, tendencies) = worked_channel();
    let case = Case::beside(state, q, vec![0; 2]);
    let filled = compare(&case, Call::Tendencies, "worked").written;
    let [h, u, v] = filled.destinations;
    assert_eq!(Three { h, u, v }, tendencies);
    // The same in doubles, which are exact.
    let grid = compare(&case, Call::ProbeGrid, "worked");
    assert_eq!(grid.told, [0, 0]);
    let whole = [tendencies.h, tendencies.u, tendencies.v];
    for (doubles, whole) in grid.written.doubles.iter().zip(whole) {
        assert!(doubles.0.iter().zip(whole).all(|(&x, z)| x == z as f64));
    }

    let [before, after] = worked_turning_basin();
    let mut case = Case::beside(before, vec![0; 9], vec![0; 4]);
    case.steps = 1;
    for call in [Call::Step, Call::Run] {
        let outcome = compare(&case, call, "worked");
        assert_eq!(outcome.told[0], 0);
        let stepped = [&after.h, &after.u, &after.v].map(Vec::clone);
        assert_eq!(outcome.written.stepped, stepped);
    }
}

// ---- how many

#[test]
fn both_packages_count_the_same_corners() {
    for (size, kind) in every_grid() {
        let case = turning(size, kind);
        let count = parameters(&case).corners();
        assert_eq!(count, case.p.corners(), "{:?}", case.p);
        assert_eq!(count, corners(&case.p), "{:?}", case.p);
    }
    // Sides that no call knows are counted as far as a number goes.
    let mut case = turning((1, 1), 2);
    (case.p.w, case.p.n) = (usize::MAX, usize::MAX);
    assert_eq!(parameters(&case).corners(), usize::MAX);
}

#[test]
fn a_q_has_a_number_a_corner_or_is_refused_with_2() {
    // Lengths that are right, and wrong, of each kind.
    let mut tried = [[0; 3]; 2];
    for (size, kind) in every_grid() {
        let good = turning(size, kind);
        for (length, right) in q_lengths(&good.p) {
            let mut case = good.clone();
            case.resize(Q, length);
            for call in CALLS {
                let refused = WITH_Q.contains(&call) && !right;
                expect(&case, call, &[if refused { 2 } else { 0 }], "a length");
            }
            tried[usize::from(!right)][usize::from(kind)] += 1;
        }
    }
    // Without walls a number a cell is right.
    assert_eq!(tried, [[56, 28, 28], [84, 112, 112]]);
}

#[test]
fn what_is_filled_with_q_has_a_place_a_corner_or_is_refused_with_8() {
    for (size, kind) in every_grid() {
        let good = turning(size, kind);
        let right = corners(&good.p);
        for (length, _) in q_lengths(&good.p) {
            let mut case = good.clone();
            case.vorticity = length;
            let number = if length < right { 8 } else { 0 };
            expect(&case, Call::PotentialVorticity, &[number], "a destination");
            // Tendencies go by cells.
            case.vorticity = 0;
            expect(&case, Call::Tendencies, &[0], "no destination of q");
        }
    }
}

#[test]
fn a_refused_corner_is_told_by_its_index() {
    for (size, kind) in every_grid() {
        let good = turning(size, kind);
        let right = corners(&good.p);
        for corner in corners_to_try(&good.p) {
            let mut case = good.clone();
            case.put(Q, right - 1, i64::MAX);
            case.put(Q, corner, -2_000_001);
            for call in WITH_Q {
                expect(&case, call, &[4, 4, corner as u64], "a corner");
            }
        }
    }
}

#[test]
fn a_corner_past_its_narrow_bound_is_told_wherever_it_is() {
    for (size, kind) in every_grid() {
        let good = turning(size, kind);
        for corner in corners_to_try(&good.p) {
            for (number, trust) in [(1_000_000, 0), (-1_000_001, 1)] {
                let mut case = good.clone();
                case.put(Q, corner, number);
                for call in PROBING {
                    let told = compare(&case, call, "a narrow bound").told;
                    assert_eq!(told, [0, trust], "{corner}: {call:?} {:?}", case.p);
                }
            }
        }
    }
}

// ---- which cells

/// A depth changes its own four corners and no other: nothing reaches across a wall.
#[test]
fn a_depth_counts_at_its_own_corners_alone() {
    for (size, kind) in every_grid() {
        let case = turning(size, kind);
        let q = own_q(&case, "one depth");
        let cells = case.length(H);
        for cell in (0..cells).step_by(1 + cells / 50).chain([cells - 1]) {
            let mut deeper = case.clone();
            deeper.fields[H][cell] = 100_000;
            let mut own = own_corners(&case.p, cell).to_vec();
            own.sort();
            own.dedup();
            let seen = differing(&q, &own_q(&deeper, "one deeper cell"));
            assert_eq!(seen, own, "{cell} of {:?}", case.p);
        }
    }
}

#[test]
fn a_corner_counts_at_its_own_cells_alone() {
    let mut random = Random::new(131);
    // Grids of each kind in which it counts.
    let mut counted = [0; 3];
    for (size, kind) in every_grid() {
        let mut case = any(&mut random, size, kind);
        case.fields[Q].fill(0);
        let tendencies = |case: &Case| {
            let outcome = compare(case, Call::Tendencies, "a corner");
            outcome.written.destinations
        };
        let before = tendencies(&case);
        let corner = random.pick(&corners_to_try(&case.p));
        case.put(Q, corner, 2_000_000);
        let after = tendencies(&case);
        assert_eq!(after[0], before[0], "{case:?}");
        // An edge's tendency goes by the corners of the two cells beside it.
        let w = case.p.w;
        let has = |cell: usize| own_corners(&case.p, cell).contains(&corner);
        let west = |cell: usize| cell - cell % w + (cell % w + w - 1) % w;
        let south = |cell: usize| (cell + case.length(H) - w) % case.length(H);
        for cell in differing(&after[1], &before[1]) {
            assert!(has(cell) || has(west(cell)), "{corner}, {cell}: {case:?}");
        }
        for cell in differing(&after[2], &before[2]) {
            assert!(has(cell) || has(south(cell)), "{corner}, {cell}: {case:?}");
        }
        counted[usize::from(kind)] += usize::from(after != before);
    }
    assert!(counted.iter().all(|&grids| grids > 15), "{counted:?}");
}

#[test]
fn a_wall_has_the_water_of_its_own_side() {
    let mut random = Random::new(132);
    for (size, kind) in every_grid() {
        let mut case = any(&mut random, size, kind);
        case.p.c = 10_000;
        let q = own_q(&case, "before");
        for (cells, corners) in opposite_walls(&case.p) {
            let mut other = case.clone();
            for cell in cells {
                other.fields[H][cell] = random.pick(&[1_000, 100_000]);
            }
            let seen = differing(&q, &own_q(&other, "after"));
            let any = corners.iter().any(|corner| seen.contains(corner));
            assert!(!any, "{seen:?} of {case:?} and {:?}", other.fields[H]);
        }
    }
}

#[test]
fn velocities_do_not_count_at_a_wall() {
    let mut random = Random::new(133);
    for (size, kind) in every_grid() {
        let case = any(&mut random, size, kind);
        let mut still = case.clone();
        still.fields[U].fill(0);
        still.fields[V].fill(0);
        let mut unturned = case.clone();
        unturned.p.c = 0;
        let [q, of_still, of_unturned] = [&case, &still, &unturned].map(|case| own_q(case, "q"));
        for corner in wall_corners(&case.p) {
            assert_eq!(q[corner], of_still[corner], "{corner} of {case:?}");
            assert_eq!(of_unturned[corner], 0, "{corner} of {case:?}");
        }
    }
}

/// Neither at its ends nor along it, and a corner on a wall stays one where a
/// barrier ends at it.
#[test]
fn a_barrier_makes_no_wall_corner() {
    let mut random = Random::new(134);
    for (size, kind) in every_grid() {
        let mut case = any(&mut random, size, kind);
        let cells = case.length(H);
        for barriers in [vec![3; cells], random_barriers(&mut random, cells)] {
            case.barriers = barriers;
            case.clear_closed_edges();
            let mut open = case.clone();
            open.barriers.fill(0);
            assert_eq!(own_q(&case, "barred"), own_q(&open, "open"), "{case:?}");
        }
    }
}

// ---- what stays

#[test]
fn a_grid_without_walls_keeps_its_numbers() {
    let mut random = Random::new(135);
    for (size, _) in every_grid() {
        let case = any(&mut random, size, 0);
        assert_eq!(own_q(&case, "no walls"), vorticity_of_01(&case.state()));
    }
}

#[test]
fn energy_is_kept_with_any_lent_corners_and_any_barriers() {
    let mut random = Random::new(136);
    for (size, kind) in every_grid() {
        for _ in 0..5 {
            let mut case = any(&mut random, size, kind);
            case.barriers = random_barriers(&mut random, case.length(H));
            case.clear_closed_edges();
            let spread = random.pick(&[Spread::Even, Spread::Extreme, Spread::Mixed]);
            case.fields[Q] = random_q(&mut random, spread, &case.p);
            let outcome = compare(&case, Call::Tendencies, "any corners");
            assert_eq!(outcome.told, [0], "{case:?}");
            let [h, u, v] = outcome.written.destinations;
            let rate = literal::energy_rate(&case.state(), &Three { h, u, v });
            assert_eq!(rate, 0, "{case:?}");
        }
    }
}
