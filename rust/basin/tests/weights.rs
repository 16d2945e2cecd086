//! The weights of a cell, which the library works out as sums of its corners (02,
//! request U4) and the independent version by the rows of 01's table: corners with
//! zeros, with opposite numbers and at their bounds. Doubles are compared by their
//! bits, since a sum and a row could differ in the sign of a zero.

use crate::cases::calls::{assert_alone, compare, Doubles};
use crate::cases::common::literal::corner_sides;
use crate::cases::common::Random;
use crate::cases::{Call, Case, H, Q, U, V};

const SIDE: usize = 4;

/// Every choice of three numbers at the four corners of a cell.
fn corners() -> impl Iterator<Item = [i64; 4]> {
    let three = [-2_000_000, 0, 2_000_000];
    (0..81).map(move |k: usize| [1, 3, 9, 27].map(|digit| three[k / digit % 3]))
}

/// Lends them over a grid of four by four: each cell has the same four corners, in one
/// of four orders.
fn lend(case: &mut Case, four: [i64; 4]) {
    let [columns, rows] = corner_sides(&case.p);
    let own = |corner: usize| four[corner / columns % 2 * 2 + corner % columns % 2];
    case.fields[Q] = (0..columns * rows).map(own).collect();
}

/// What both give: the whole tendencies, and the doubles of the grid. Each cell by
/// itself has these doubles too.
fn both(case: &Case, at: &str) -> ([Vec<i64>; 3], [Doubles; 3]) {
    let tendencies = compare(case, Call::Tendencies, at);
    assert_eq!(tendencies.told, [0], "{at}: {case:?}");
    let grid = compare(case, Call::ProbeGrid, at);
    (0..SIDE * SIDE).for_each(|cell| assert_alone(case, cell, &grid, at));
    (tendencies.written.destinations, grid.written.doubles)
}

#[test]
fn every_choice_of_three_corners_in_any_water() {
    let mut random = Random::new(121);
    let mut tried = 0;
    for (number, four) in corners().enumerate() {
        for kind in 0..3 {
            let mut case = Case::good_of_kind(&mut random, (SIDE, SIDE), kind);
            lend(&mut case, four);
            both(&case, &format!("corners {number}, kind {kind}"));
            tried += 1;
        }
    }
    assert_eq!(tried, 3 * 81);
}

/// Level water in which all currents are as fast: what is left of a tendency are its
/// products with the weights. Where these are all zeros, so is it, and its sign is
/// that of zeros which the weights give.
#[test]
fn zeros_keep_their_sign() {
    let mut random = Random::new(122);
    // Doubles of Tu and Tv that are +0.0, -0.0, and others.
    let mut met = [0; 3];
    for (number, four) in corners().enumerate() {
        for _ in 0..32 {
            let mut case = Case::example_2();
            (case.p.w, case.p.n) = (SIDE, SIDE);
            case.fit();
            case.fields[H].fill(5_000);
            for field in [U, V] {
                let speeds = case.fields[field].iter_mut();
                speeds.for_each(|speed| *speed = random.pick(&[-500, 500]));
            }
            lend(&mut case, four);
            let at = format!("corners {number}");
            let (whole, doubles) = both(&case, &at);
            for (whole, doubles) in whole[1..].iter().zip(&doubles[1..]) {
                for (&whole, double) in whole.iter().zip(&doubles.0) {
                    assert_eq!(whole == 0, *double == 0.0, "{at}: {case:?}");
                    let zero = usize::from(double.is_sign_negative());
                    met[if whole == 0 { zero } else { 2 }] += 1;
                }
            }
        }
    }
    println!("{met:?}");
    assert!(met.iter().all(|&k| k > 10), "{met:?}");
}
