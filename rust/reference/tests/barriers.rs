//! Barriers (02, request U2: piers): its worked numbers. (Random states of the
//! other tests have barriers in every second one.)

use crate::common::literal::Three;
use crate::common::{four_cells_and_a_jetty, one_cell, record_field, record_of_01, step_state};
use crate::common::{tendencies_of, totals_of};
use reference::{energy_rate, enstrophy_rate, read, Parameters, State, StepAnswer};

/// The two cells of worked example 4, with these velocities and barriers.
fn two_cells(u: [i64; 2], v: [i64; 2], barriers: &[u8]) -> State {
    State {
        parameters: Parameters {
            w: 2,
            n: 1,
            kind: 0,
            g: 9_810,
            c: 0,
            r: 100_000,
        },
        h: vec![2_000, 3_000],
        b: vec![0, 0],
        u: u.to_vec(),
        v: v.to_vec(),
        barriers: barriers.to_vec(),
    }
}

#[test]
fn two_cells_with_a_barrier_between_them() {
    let mut state = two_cells([10, 0], [0, 0], &[0, 1]);
    let tendencies = Three {
        h: vec![50_000, -50_000],
        u: vec![30_859_591_680_000, 0],
        v: vec![0, 0],
    };
    assert_eq!(tendencies_of(&state, &[0, 0]), Ok(tendencies));
    let stepped = State {
        h: vec![2_003, 2_997],
        u: vec![108, 0],
        ..state.clone()
    };
    let answer = step_state(&mut state, &[0, 0], &mut [7; 16]);
    assert_eq!((answer, state), (StepAnswer::Done, stepped));
}

#[test]
fn refusals_by_barriers() {
    let still = [0, 0];
    let cases: [(State, &[i128]); 7] = [
        // A velocity on a closed edge: u before v, then the lowest cell.
        (two_cells([10, 5], still, &[0, 1]), &[5, 2, 1]),
        (two_cells([10, 5], [1, 1], &[2, 1]), &[5, 2, 1]),
        (two_cells(still, [1, 1], &[3, 0]), &[5, 3, 0]),
        // A byte above 3, as the field after v.
        (two_cells([10, 0], still, &[255, 4]), &[4, 6, 0]),
        (two_cells([10, 0], [0, 5_001], &[4, 0]), &[4, 3, 1]),
        (two_cells([10, 0], still, &[0, 4]), &[4, 6, 1]),
        (two_cells([10, 0], still, &[0]), &[2]),
    ];
    for (mut state, told) in cases {
        // q and the inflow come after them, and are outside too.
        let q = [0, 2_000_001];
        let refused = tendencies_of(&state, &q).expect_err("refused");
        let before_5 = told[0] < 5;
        let of_q: &[i128] = if before_5 { told } else { &[4, 4, 1] };
        assert_eq!(refused.told(), of_q, "{state:?}");
        for total in totals_of(&state) {
            assert_eq!(total.told(), told, "{state:?}");
        }
        let before = state.clone();
        let answer = step_state(&mut state, &[1_001, 0], &mut [0; 16]);
        let of_inflow: &[i128] = if before_5 { told } else { &[4, 5, 0] };
        assert_eq!(answer.told(), of_inflow, "{state:?}");
        assert_eq!(state, before);
    }
}

/// Energy is kept with any barriers. Enstrophy need not be, even where the boundary
/// closes nothing.
#[test]
fn rates_of_four_cells() {
    let mut state = four_cells_and_a_jetty();
    let q = [1_000, -2_000, 3_000, -4_000];
    let rates = |state: &State| {
        let Three { h, u, v } = tendencies_of(state, &q).expect("within the limits");
        let energy = energy_rate(state, &h, &u, &v);
        (energy, enstrophy_rate(&state.parameters, &q, &h, &u, &v))
    };
    assert_eq!(rates(&state), (0, -135_141_859_431_808_000));
    state.barriers = vec![0; 4];
    assert_eq!(rates(&state), (0, 0));
}

#[test]
fn records_of_one_cell() {
    let cell = one_cell();
    let record = record_of_01(&cell, 0);
    let told = |record: &[u8]| {
        let [mut h, mut b, mut u, mut v] = [[0; 2]; 4];
        let mut barriers = [7, 7];
        let answer = read(record, &mut h, &mut b, &mut u, &mut v, &mut barriers);
        (answer.told(), barriers)
    };
    let with_tag_9 = |value: &[u8]| told(&[record.clone(), record_field(9, value)].concat());
    assert_eq!(with_tag_9(&[]), (vec![2], [7, 7]));
    assert_eq!(with_tag_9(&[4]), (vec![4, 6, 0], [7, 7]));
    assert_eq!(with_tag_9(&[3]), (vec![5, 2, 0], [7, 7]));
    // Where tag 9 is absent there is no barrier, and that is filled in.
    let accepted = vec![0, 1, 1, 0, 9_810, 10, 1_000, 0, 0];
    assert_eq!(told(&record), (accepted.clone(), [0, 7]));
    assert_eq!(with_tag_9(&[0]), (accepted, [0, 7]));
}
