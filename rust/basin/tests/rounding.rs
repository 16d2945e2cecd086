//! Rounding by the proved library and by the independent version.

use crate::cases::add;
use crate::cases::calls::UNFILLED;
use crate::cases::common::Random;
use crate::cases::rounding::{compare_rnd, random_quotient, Rounded, MOST_A, MOST_B};

#[test]
fn random_quotients_are_rounded_alike() {
    let mut met = [0; 5];
    let mut halves = [0; 2];
    let (mut at_bound, mut beyond) = ([0; 3], [0; 2]);
    for seed in 11..=12 {
        let mut random = Random::new(seed);
        for number in 0..150_000 {
            let (a, b) = random_quotient(&mut random);
            let rounded = compare_rnd(a, b, UNFILLED, &format!("seed {seed}, case {number}"));
            met[rounded as usize] += 1;
            if rounded == Rounded::Half {
                halves[usize::from(a < 0)] += 1;
            }
            if rounded == Rounded::Refused {
                let beyond_a = !(-MOST_A..=MOST_A).contains(&a);
                add(&mut beyond, [beyond_a, !beyond_a]);
            } else {
                add(&mut at_bound, [a == MOST_A, a == -MOST_A, b == MOST_B]);
            }
        }
    }
    println!("{met:?} {halves:?} {at_bound:?} {beyond:?}");
    let all = [&met[..], &halves, &at_bound, &beyond].concat();
    assert!(
        all.iter().all(|&times| times > 1_000),
        "{met:?} {halves:?} {at_bound:?} {beyond:?}"
    );
}

#[test]
fn small_quotients_and_bounds_are_rounded_alike() {
    assert_eq!(basin::rnd(5, 2), Some(3));
    assert_eq!(basin::rnd(-5, 2), Some(-3));
    assert_eq!(basin::rnd(7, 3), Some(2));
    assert_eq!(basin::rnd(0, 9), Some(0));
    for b in 0..=60 {
        for a in -300..=300 {
            compare_rnd(a, b, UNFILLED, "small");
        }
    }
    let beside = |x: i64| [x.saturating_sub(1), x, x.saturating_add(1)];
    let ends_a = [i64::MIN, -MOST_A, 0, MOST_A, i64::MAX].map(beside);
    let ends_b = [i64::MIN, 0, 2, MOST_B / 2, MOST_B, i64::MAX].map(beside);
    for &a in ends_a.as_flattened() {
        for &b in ends_b.as_flattened() {
            compare_rnd(a, b, UNFILLED, "at a bound");
        }
    }
}

#[test]
fn a_refused_quotient_keeps_the_number_that_is_lent() {
    let mut random = Random::new(13);
    let quotients = [(5, 2), (-7, 3), (MOST_A + 1, 2), (5, 0), (5, MOST_B + 1)];
    for lent in [i64::MIN, -1, 0, i64::MAX] {
        for k in 0..1_000 {
            let (a, b) = match quotients.get(k) {
                Some(&quotient) => quotient,
                None => random_quotient(&mut random),
            };
            compare_rnd(a, b, lent, "a number lent");
        }
    }
}
