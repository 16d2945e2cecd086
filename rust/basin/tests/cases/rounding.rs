//! A quotient rounded by both versions, and quotients made at random.

use basin::raw;
use reference::scheme::round_div;

use super::calls::FENCE;
use super::common::Random;

pub const MOST_A: i64 = 1 << 58;
pub const MOST_B: i64 = 1 << 43;

/// The result by the independent version; none where the quotient is out of
/// range.
fn independent(a: i64, b: i64) -> Option<i64> {
    let known = (-MOST_A..=MOST_A).contains(&a) && (1..=MOST_B).contains(&b);
    known.then(|| round_div(a, b))
}

/// What the function of the C interface says, and the number that it leaves
/// where `lent` stood.
pub fn expected(a: i64, b: i64, lent: i64) -> (u64, i64) {
    match independent(a, b) {
        Some(rounded) => (0, rounded),
        None => (4, lent),
    }
}

/// Compares one quotient, whatever number is lent for it, and says how it is
/// rounded.
pub fn compare_rnd(a: i64, b: i64, lent: i64, at: &str) -> Rounded {
    let mut places = [FENCE, lent, FENCE];
    let number = raw::rnd(a, b, &mut places[1]);
    let (told, left) = expected(a, b, lent);
    assert_eq!(number, told, "{at}: rnd({a}/{b}) over {lent}");
    assert_eq!(
        places,
        [FENCE, left, FENCE],
        "{at}: rnd({a}/{b}) over {lent}"
    );

    let got = basin::rnd(a, b);
    assert_eq!(got, independent(a, b), "{at}: rnd({a}/{b})");
    let Some(rounded) = got else {
        return Rounded::Refused;
    };
    // Once more in plain words: nearest, and of two the one further from zero.
    let (a, b, whole) = (i128::from(a), i128::from(b), i128::from(rounded));
    let twice_off = 2 * (whole * b - a);
    assert!(twice_off.abs() <= b, "{at}: rnd({a}/{b}) {rounded}");
    if twice_off.abs() == b {
        let away = twice_off.signum() == a.signum();
        assert!(away, "{at}: rnd({a}/{b}) {rounded}");
        return Rounded::Half;
    }
    match (twice_off * a.signum()).signum() {
        0 => Rounded::Exact,
        1 => Rounded::Away,
        _ => Rounded::Towards,
    }
}

#[derive(Clone, Copy, Debug, PartialEq)]
pub enum Rounded {
    Refused,
    Exact,
    /// Away from zero, not from a half.
    Away,
    Towards,
    Half,
}

/// A divisor within its bounds: anything, or one that the scheme divides by.
pub fn random_divisor(random: &mut Random) -> i64 {
    match random.below(6) {
        0 => random.between(1, 10),
        1 => MOST_B - random.between(0, 4),
        2 => random.between(4_000, 400_000),
        3 => 2 * random.between(1_000, 1_000_000),
        4 => 3_145_728 * random.between(1_000, 1_000_000),
        _ => ((random.next() >> 1) as i64 >> random.between(20, 62)).max(1),
    }
}

/// A dividend within its bounds, often on or beside a half or a whole.
pub fn random_dividend(random: &mut Random, b: i64) -> i64 {
    let near = match random.below(5) {
        0 => random.pick(&[-1, 1]) * (MOST_A - random.between(0, 4)),
        1 => random.between(-10, 10),
        2 => (random.next() as i64) >> random.between(5, 62),
        way => {
            // The nearest half or whole below a random quotient.
            let most = MOST_A / b;
            let whole = random.between(-most, most) * b;
            let half = if way == 3 { b / 2 } else { 0 };
            whole + half + random.between(-1, 1)
        }
    };
    near.clamp(-MOST_A, MOST_A)
}

/// A quotient of these two, or one with a number far outside now and then.
pub fn random_quotient(random: &mut Random) -> (i64, i64) {
    let wild_a = [MOST_A + 1, -MOST_A - 1, i64::MIN, i64::MIN + 1, i64::MAX];
    let wild_b = [0, -1, -2, MOST_B + 1, i64::MIN, i64::MAX];
    let mut b = random_divisor(random);
    let mut a = random_dividend(random, b);
    match random.below(40) {
        0 => a = random.pick(&wild_a),
        1 => b = random.pick(&wild_b),
        2 => a = random.next() as i64,
        3 => b = random.next() as i64,
        _ => {}
    }
    (a, b)
}
