//! Corners on a wall (02, request U5): worked numbers, how many corners a grid has,
//! what a q of another length is told, and which cells and velocities a corner takes.
//! (The literal formulas of the other tests have them too, on random states.)

use crate::common::literal::{self, vorticity_of_01, Variant, PAPER};
use crate::common::{any_state, at_rest, clear_closed_edges, corners, corners_to_try};
use crate::common::{differing, every_grid, opposite_walls, own_corners, q_lengths};
use crate::common::{probe_grid_of, probe_of, random_barriers, random_q, random_state};
use crate::common::{step_state, tendencies_of, vorticity_of, wall_corners};
use crate::common::{worked_channel, worked_corners, worked_turning_basin};
use crate::common::{Random, Spread, SPREADS};
use reference::{energy_rate, potential_vorticity, Parameters, State};

/// Still water of one depth in a grid that turns fast, so that every corner has a q.
fn turning((w, n): (usize, usize), kind: u8) -> State {
    let mut state = at_rest(w, n);
    (state.parameters.kind, state.parameters.c) = (kind, 10_000);
    state
}

fn own_q(state: &State) -> Vec<i64> {
    vorticity_of(state).expect("within the limits")
}

// ---- worked numbers

#[test]
fn worked_numbers() {
    for (state, q) in worked_corners() {
        assert_eq!(vorticity_of(&state), Ok(q));
    }
    let (state, q, tendencies) = worked_channel();
    assert_eq!(tendencies_of(&state, &q), Ok(tendencies));

    let [before, after] = worked_turning_basin();
    let mut state = before.clone();
    let told = step_state(&mut state, &[0; 4], &mut [7; 32]).told();
    assert_eq!((told, state), (vec![0], after));
    let across = Variant {
        across_walls: true,
        ..PAPER
    };
    let by_01 = across.step(&before, &[0; 4]).expect("accepted");
    assert_eq!(by_01.v, [0, 0, 48, -113]);
}

// ---- how many

#[test]
fn a_walled_side_has_corners_of_its_own() {
    for ((w, n), kind) in every_grid() {
        let p = turning((w, n), kind).parameters;
        let count = [w * n, w * (n + 1), (w + 1) * (n + 1)][usize::from(kind)];
        assert_eq!(p.corners(), count, "{p:?}");
        assert_eq!(corners(&p), count, "{p:?}");
        // Each is a corner of some cell.
        let mut used = vec![false; count];
        for corner in (0..w * n).flat_map(|cell| own_corners(&p, cell)) {
            used[corner] = true;
        }
        assert!(used.into_iter().all(|used| used), "{p:?}");
    }
    let p = turning((3, 2), 2).parameters;
    let none = [(0, 2, 2), (3, 65, 1), (usize::MAX, 1, 2), (3, 2, 3)];
    for (w, n, kind) in none {
        assert_eq!(Parameters { w, n, kind, ..p }.corners(), 0);
    }
}

/// What the three calls that take a q tell.
fn told_of_q(state: &State, q: &[i64]) -> [Vec<i128>; 3] {
    let tendencies = match tendencies_of(state, q) {
        Ok(_) => vec![0],
        Err(refusal) => refusal.told(),
    };
    let probe = probe_of(state, q, 0).told();
    let (grid, _) = probe_grid_of(state, q);
    [tendencies, probe, grid.told()]
}

#[test]
fn a_q_has_a_number_a_corner_or_is_refused_with_2() {
    for (size, kind) in every_grid() {
        let state = turning(size, kind);
        for (length, right) in q_lengths(&state.parameters) {
            for told in told_of_q(&state, &vec![7; length]) {
                let number = if right { 0 } else { 2 };
                assert_eq!(told[0], number, "{length} of {:?}", state.parameters);
            }
        }
    }
}

#[test]
fn what_is_filled_with_q_has_a_place_a_corner_or_is_refused_with_8() {
    for (size, kind) in every_grid() {
        let state = turning(size, kind);
        let (p, right) = (state.parameters, corners(&state.parameters));
        for (length, _) in q_lengths(&p) {
            let State { h, b, u, v, .. } = &state;
            let mut q = vec![i64::MIN; length];
            let answer = potential_vorticity(&p, h, b, u, v, &state.barriers, &mut q);
            let number = if length < right { 8 } else { 0 };
            assert_eq!(answer.told(), [number], "{length} of {p:?}");
            // 262,144 · 10,000 / 20,000
            let filled = if length < right { 0 } else { right };
            assert!(q[..filled].iter().all(|&q| q == 131_072), "{p:?}");
            assert!(q[filled..].iter().all(|&q| q == i64::MIN), "{p:?}");
        }
    }
}

#[test]
fn a_refused_corner_is_told_by_its_index() {
    for (size, kind) in every_grid() {
        let state = turning(size, kind);
        let right = corners(&state.parameters);
        for corner in corners_to_try(&state.parameters) {
            let mut q = vec![2_000_000; right];
            q[right - 1] = i64::MAX;
            q[corner] = -2_000_001;
            for told in told_of_q(&state, &q) {
                assert_eq!(told, [4, 4, corner as i128], "{:?}", state.parameters);
            }
        }
    }
}

// ---- which cells

/// A depth changes its own four corners and no other: nothing reaches across a wall.
#[test]
fn a_depth_counts_at_its_own_corners_alone() {
    for (size, kind) in every_grid() {
        let state = turning(size, kind);
        let q = own_q(&state);
        let cells = state.h.len();
        for cell in (0..cells).step_by(1 + cells / 50).chain([cells - 1]) {
            let mut deeper = state.clone();
            deeper.h[cell] = 100_000;
            let mut own = own_corners(&state.parameters, cell).to_vec();
            own.sort();
            own.dedup();
            assert_eq!(differing(&q, &own_q(&deeper)), own, "{cell} of {deeper:?}");
        }
    }
}

#[test]
fn a_wall_has_the_water_of_its_own_side() {
    let mut random = Random::new(91);
    let mut tried = 0;
    for (size, kind) in every_grid() {
        let mut state = random_state(&mut random, Spread::Even, size, kind);
        state.parameters.c = 10_000;
        let q = own_q(&state);
        for (cells, corners) in opposite_walls(&state.parameters) {
            let mut other = state.clone();
            for cell in cells {
                other.h[cell] = random.pick(&[1_000, 100_000]);
            }
            let seen = differing(&q, &own_q(&other));
            let any = corners.iter().any(|corner| seen.contains(corner));
            assert!(!any, "{seen:?} of {state:?} and {:?}", other.h);
            tried += 1;
        }
    }
    assert!(tried > 100, "{tried}");
}

#[test]
fn velocities_do_not_count_at_a_wall() {
    let mut random = Random::new(92);
    for (size, kind) in every_grid() {
        let spread = random.pick(&SPREADS);
        let state = random_state(&mut random, spread, size, kind);
        let q = own_q(&state);
        let mut still = state.clone();
        (still.u, still.v) = (vec![0; state.u.len()], vec![0; state.v.len()]);
        let of_still = own_q(&still);
        let mut unturned = state.clone();
        unturned.parameters.c = 0;
        let of_unturned = own_q(&unturned);
        for corner in wall_corners(&state.parameters) {
            assert_eq!(q[corner], of_still[corner], "{corner} of {state:?}");
            assert_eq!(of_unturned[corner], 0, "{corner} of {state:?}");
        }
    }
}

/// Neither at its ends nor along it, and a corner on a wall stays one where a
/// barrier ends at it.
#[test]
fn a_barrier_makes_no_wall_corner() {
    let mut random = Random::new(93);
    for (size, kind) in every_grid() {
        let mut barred = random_state(&mut random, Spread::Even, size, kind);
        let layouts = [
            vec![3; barred.h.len()],
            random_barriers(&mut random, barred.h.len()),
        ];
        for barriers in layouts {
            barred.barriers = barriers;
            clear_closed_edges(&mut barred);
            let mut open = barred.clone();
            open.barriers.fill(0);
            assert_eq!(own_q(&barred), own_q(&open), "{barred:?}");
        }
    }
}

// ---- what stays

#[test]
fn a_grid_without_walls_keeps_its_numbers() {
    let mut random = Random::new(94);
    // Grids with walls that have another q in some corner.
    let mut moved = 0;
    for _ in 0..2_000 {
        let state = any_state(&mut random);
        let (q, by_01) = (own_q(&state), vorticity_of_01(&state));
        if state.parameters.kind == 0 {
            assert_eq!(q, by_01, "{state:?}");
            continue;
        }
        // Off the walls every other grid keeps them too.
        let p = &state.parameters;
        let on_wall = wall_corners(p);
        let mut differs = false;
        for (cell, by_01) in by_01.into_iter().enumerate() {
            let [southwest, ..] = own_corners(p, cell);
            let wall = on_wall.binary_search(&southwest).is_ok();
            assert!(wall || q[southwest] == by_01, "{cell} of {state:?}");
            differs |= q[southwest] != by_01;
        }
        moved += usize::from(differs);
    }
    assert!(moved > 1_000, "{moved}");
}

#[test]
fn energy_is_kept_with_any_lent_corners() {
    let mut random = Random::new(95);
    for (size, kind) in every_grid() {
        for _ in 0..10 {
            let spread = random.pick(&SPREADS);
            let state = random_state(&mut random, spread, size, kind);
            let q = random_q(&mut random, Spread::Mixed, &state.parameters);
            let rates = tendencies_of(&state, &q).expect("within the limits");
            let rate = energy_rate(&state, &rates.h, &rates.u, &rates.v);
            assert_eq!(rate, 0, "{state:?} {q:?}");
            assert_eq!(literal::energy_rate(&state, &rates), 0, "{state:?} {q:?}");
        }
    }
}
