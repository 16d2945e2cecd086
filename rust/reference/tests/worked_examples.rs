//! The worked examples of 01 (01: soundings), one test each.

use crate::common::literal::Three;
use crate::common::{run_state, step_state, within_limits, written};
use crate::common::{tendencies_of, totals_of, vorticity_of};
use reference::scheme::round_div;
use reference::{
    read, step_program, Field, Parameters, Refusal, RunAnswer, State, StepAnswer, TotalAnswer,
};

/// What holds where an example does not say otherwise.
fn state(w: usize, n: usize) -> State {
    let zeros = vec![0; w * n];
    State {
        parameters: Parameters {
            w,
            n,
            kind: 0,
            g: 9810,
            c: 0,
            r: 1000,
        },
        h: zeros.clone(),
        b: zeros.clone(),
        u: zeros.clone(),
        v: zeros,
        barriers: vec![0; w * n],
    }
}

fn example_2() -> State {
    let mut state = state(1, 1);
    state.parameters.c = 10;
    state.h = vec![2000];
    state.u = vec![100];
    state.v = vec![-50];
    state
}

fn example_4() -> State {
    let mut state = state(2, 1);
    state.h = vec![2000, 3000];
    state.u = vec![10, 0];
    state
}

/// The state after a step without inflow.
fn stepped(mut state: State) -> State {
    let cells = state.h.len();
    let mut work = vec![7; 8 * cells];
    let answer = step_state(&mut state, &vec![0; cells], &mut work);
    assert_eq!(answer, StepAnswer::Done);
    assert_eq!(work, vec![0; 8 * cells]);
    state
}

#[test]
fn example_1_rounding() {
    assert_eq!(round_div(5, 2), 3);
    assert_eq!(round_div(-5, 2), -3);
    assert_eq!(round_div(7, 3), 2);
    assert_eq!(round_div(0, 9), 0);
}

#[test]
fn example_2_one_cell() {
    let state = example_2();
    assert_eq!(vorticity_of(&state), Ok(vec![328]));
    assert_eq!(
        tendencies_of(&state, &[328]),
        Ok(Three {
            h: vec![0],
            u: vec![-1_574_400_000],
            v: vec![-3_148_800_000],
        })
    );
    let totals = [2_000, 78_530_000_000];
    assert_eq!(totals_of(&state), totals.map(TotalAnswer::Total));
}

#[test]
fn example_3_one_cell_stepped() {
    let after = stepped(example_2());
    assert_eq!(
        (after.h, after.u, after.v),
        (vec![2000], vec![99], vec![-51])
    );
}

#[test]
fn example_4_two_cells() {
    let state = example_4();
    assert_eq!(vorticity_of(&state), Ok(vec![0, 0]));
    assert_eq!(
        tendencies_of(&state, &[0, 0]),
        Ok(Three {
            h: vec![50_000, -50_000],
            u: vec![30_859_591_680_000, -30_859_591_680_000],
            v: vec![0, 0],
        })
    );
    let totals = [5_000, 255_060_500_000];
    assert_eq!(totals_of(&state), totals.map(TotalAnswer::Total));
}

#[test]
fn example_5_two_cells_stepped() {
    let mut state = example_4();
    state.parameters.r = 100_000;
    let after = stepped(state);
    assert_eq!(after.h, [2005, 2995]);
    assert_eq!(after.u, [108, -98]);
    assert_eq!(after.v, [0, 0]);
}

#[test]
fn example_6_closed_edge() {
    let mut state = example_4();
    state.parameters.kind = 2;
    let refusal = Refusal::ClosedEdge {
        field: Field::VelocityU,
        cell: 0,
    };
    assert_eq!(refusal.told(), [5, 2, 0]);
    assert_eq!(vorticity_of(&state), Err(refusal));
    // Two cells between walls have six corners.
    assert_eq!(tendencies_of(&state, &[0; 6]), Err(refusal));
    assert_eq!(tendencies_of(&state, &[0; 2]), Err(Refusal::Lengths));
    assert_eq!(totals_of(&state), [TotalAnswer::Refused(refusal); 2]);
    let answer = step_state(&mut state, &[0, 0], &mut [0; 16]);
    assert_eq!(answer, StepAnswer::Refused(refusal));
}

#[test]
fn example_7_least_depth() {
    let mut state = example_2();
    state.h = vec![999];
    let refusal = Refusal::Value {
        field: Field::Depth,
        cell: 0,
    };
    assert_eq!(refusal.told(), [4, 0, 0]);
    assert!(!within_limits(&state));
    assert_eq!(vorticity_of(&state), Err(refusal));
    assert_eq!(tendencies_of(&state, &[0]), Err(refusal));
    assert_eq!(totals_of(&state), [TotalAnswer::Refused(refusal); 2]);
    let answer = step_state(&mut state, &[0], &mut [0; 8]);
    assert_eq!(answer, StepAnswer::Refused(refusal));

    state.h = vec![1000];
    assert!(within_limits(&state));
    assert!(vorticity_of(&state).is_ok());
    assert!(tendencies_of(&state, &[0]).is_ok());
    assert!(totals_of(&state).iter().all(|total| total.told()[0] == 0));
    let answer = step_state(&mut state, &[0], &mut [0; 8]);
    assert_eq!(answer, StepAnswer::Done);
}

#[test]
fn example_8_greatest_vorticity() {
    let mut state = state(2, 2);
    state.parameters.c = 10_000;
    state.h = vec![1000; 4];
    state.v = vec![5000, -5000, 0, 0];
    state.u = vec![-5000, 0, 5000, 0];
    let q = vorticity_of(&state).expect("within the limits");
    assert_eq!(q[0], 1_966_080);
}

#[test]
fn example_9_work_space_and_run_length() {
    let steps = |steps: u64, work: &mut [i64]| {
        let mut state = example_2();
        let answer = run_state(&mut state, &[0], steps, work);
        assert_eq!(state, example_2());
        answer
    };
    let short = RunAnswer::Refused(Refusal::Lengths);
    let long = RunAnswer::Refused(Refusal::Grid);
    assert_eq!((short.told(), long.told()), (vec![2], vec![1]));
    assert_eq!(steps(0, &mut [0; 8]), RunAnswer::Finished { steps: 0 });
    assert_eq!(steps(0, &mut [0; 7]), short);
    assert_eq!(steps(10_001, &mut [0; 8]), long);
    let answer = step_state(&mut example_2(), &[0], &mut [0; 7]);
    assert_eq!(answer, StepAnswer::Refused(Refusal::Lengths));
}

#[test]
fn example_10_step_program() {
    let hex = "010003010100 02000C000026520000000A000003E8 0300080000000000000000 \
               040004000007D0 05000400000000 0600020064 070002FFCE";
    let digits: Vec<u8> = hex
        .chars()
        .filter_map(|digit| digit.to_digit(16))
        .map(|digit| digit as u8)
        .collect();
    let record: Vec<u8> = digits.chunks(2).map(|two| two[0] << 4 | two[1]).collect();
    assert_eq!(step_program(&record), "total 2000\n0 0 2000 99 -51\n");

    // The input is the record of example 2 at time 0, which is written with tags 8
    // and 9.
    let state = example_2();
    let [mut h, mut b, mut u, mut v] = [[1]; 4];
    let mut barriers = [1];
    let answer = read(&record, &mut h, &mut b, &mut u, &mut v, &mut barriers);
    assert_eq!(answer.told(), [0, 1, 1, 0, 9810, 10, 1000, 0, 0]);
    assert_eq!((h, b, u, v), ([2000], [0], [100], [-50]));
    assert_eq!(barriers, [0]);
    let more = [8, 0, 2, 0, 0, 9, 0, 1, 0];
    assert_eq!(written(&state, 0), [&record[..], &more].concat());
}
