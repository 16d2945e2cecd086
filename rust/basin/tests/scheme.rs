//! What potential vorticity, tendencies and totals fill in: the numbers of the
//! worked examples (their refusals are in comparison.rs), fields at their bounds
//! in eight patterns each, and random grids. In these one tendency is then put
//! off by one: the energy rate shows it always in dh and mostly in du and dv,
//! the enstrophy rate, where no edge is closed, mostly in each of the three.
//!
//! Every comparison is with the independent version, and every accepted one of
//! tendencies asks for the rates that are 0 ([`cases::calls`]).

use crate::cases::calls::{compare, rates, Written};
use crate::cases::common::literal::{self, corner_sides};
use crate::cases::common::Random;
use crate::cases::{add, random_size, Call, Case, BOUNDS, H, Q, TOTALS, U, V};

/// What both write, where both accept.
fn accepted(case: &Case, call: Call, at: &str) -> Written {
    let outcome = compare(case, call, at);
    assert_eq!(outcome.told, [0], "{at}: {call:?} {case:?}");
    outcome.written
}

fn filled(case: &Case, call: Call, at: &str) -> [Vec<i64>; 3] {
    accepted(case, call, at).destinations
}

/// Total depth and four times total energy, which are those of 01's formulas
/// taken literally.
fn totals(case: &Case, at: &str) -> [i64; 2] {
    let totals = TOTALS.map(|call| accepted(case, call, at).total[0]);
    let depth: i64 = case.fields[H].iter().sum();
    let energy = literal::energy(&case.state());
    assert_eq!(
        totals.map(i128::from),
        [depth.into(), energy],
        "{at}: {case:?}"
    );
    totals
}

// ---- the worked examples

#[test]
fn example_2_one_cell() {
    let case = Case::example_2();
    let [q, ..] = filled(&case, Call::PotentialVorticity, "example 2");
    assert_eq!(q, [328]);
    let [dh, du, dv] = filled(&case, Call::Tendencies, "example 2");
    assert_eq!((dh[0], du[0], dv[0]), (0, -1_574_400_000, -3_148_800_000));
    assert_eq!(totals(&case, "example 2"), [2_000, 78_530_000_000]);
}

#[test]
fn example_4_two_cells() {
    let case = Case::example_4();
    let [q, ..] = filled(&case, Call::PotentialVorticity, "example 4");
    assert_eq!(q, [0, 0]);
    let [dh, du, dv] = filled(&case, Call::Tendencies, "example 4");
    assert_eq!(dh, [50_000, -50_000]);
    assert_eq!(du, [30_859_591_680_000, -30_859_591_680_000]);
    assert_eq!(dv, [0, 0]);
    assert_eq!(totals(&case, "example 4"), [5_000, 255_060_500_000]);
}

#[test]
fn example_8_greatest_vorticity() {
    let mut case = Case::example_2();
    (case.p.w, case.p.n, case.p.c) = (2, 2, 10_000);
    case.fit();
    case.fields[H] = vec![1_000; 4];
    case.fields[U] = vec![-5_000, 0, 5_000, 0];
    case.fields[V] = vec![5_000, -5_000, 0, 0];
    let [q, ..] = filled(&case, Call::PotentialVorticity, "example 8");
    assert_eq!(q[0], 1_966_080);
}

// ---- numbers at their bounds

/// Which cells of a field have its upper bound; the others have its lower.
type Pattern = fn(usize, usize) -> bool;

const PATTERNS: [Pattern; 8] = [
    |_, _| true,
    |_, _| false,
    |i, _| i % 2 == 0,
    |i, _| i % 2 == 1,
    |_, j| j % 2 == 0,
    |_, j| j % 2 == 1,
    |i, j| (i + j) % 2 == 0,
    |i, j| (i + j) % 2 == 1,
];

/// Least and greatest of what was filled in.
#[derive(Debug)]
struct Ends(i64, i64);

impl Ends {
    fn widen(&mut self, numbers: &[i64]) {
        for &x in numbers {
            *self = Ends(self.0.min(x), self.1.max(x));
        }
    }

    fn reach(&self, most: i64) -> bool {
        self.0 <= -most && self.1 >= most
    }
}

#[test]
fn fields_at_their_bounds_in_eight_patterns_each() {
    let sizes = [
        (4, 4),
        (2, 2),
        (6, 2),
        (2, 4),
        (3, 5),
        (1, 4),
        (4, 1),
        (1, 1),
    ];
    let mut random = Random::new(21);
    let mut ends = [(); 4].map(|()| Ends(0, 0));
    let mut kinds = [0; 3];
    // Steps refused and accepted.
    let mut stepped = [0; 2];
    // Every pattern of h, u, v and q beside every other; one of b at random.
    for number in 0..3 * 8usize.pow(4) {
        let kind = number % 3;
        let octal = |digit: u32| number / 3 / 8usize.pow(digit) % 8;
        let patterns = [octal(0), random.below(8), octal(1), octal(2), octal(3), 0];
        let (w, n) = if random.once_in(2) {
            sizes[0]
        } else {
            random.pick(&sizes)
        };
        let mut case = Case::good_of_kind(&mut random, (w, n), kind as u8);
        case.p.g = random.pick(&[1, 10_000]);
        case.p.c = random.pick(&[-10_000, 10_000]);
        case.p.r = random.pick(&[1_000, 1_000_000]);
        let [columns, _] = corner_sides(&case.p);
        let columns = [w, w, w, w, columns, w];
        let fields = case.fields.iter_mut().zip(columns);
        for (((field, columns), pattern), (low, high)) in fields.zip(patterns).zip(BOUNDS) {
            for (place, number) in field.iter_mut().enumerate() {
                let upper = PATTERNS[pattern](place % columns, place / columns);
                *number = if upper { high } else { low };
            }
        }
        case.clear_closed_edges();
        kinds[kind] += 1;
        let at = format!("patterns {patterns:?}");
        let [q, ..] = filled(&case, Call::PotentialVorticity, &at);
        let tendencies = filled(&case, Call::Tendencies, &at);
        compare(&case, Call::ProbeGrid, &at);
        totals(&case, &at);
        stepped[usize::from(compare(&case, Call::Step, &at).told == [0])] += 1;
        ends[0].widen(&q[..case.length(Q)]);
        for (ends, numbers) in ends[1..].iter_mut().zip(&tendencies) {
            ends.widen(&numbers[..w * n]);
        }
    }
    println!("{ends:?} {stepped:?}");
    assert_eq!(kinds, [4_096; 3]);
    assert!(stepped.iter().all(|&k| k > 20), "{stepped:?}");
    // The greatest q of 01's example 8; four fluxes of 5,000 mm/s by 200,000 mm
    // out of one cell; and four such fluxes times weights of 6 by 2,000,000,
    // beside a step of the bottom of 100,000 mm.
    let momentum = 48_000_000_000_000_000 + 786_432 * 4 * 10_000 * 100_000;
    let most = [1_966_080, 4_000_000_000, momentum, momentum];
    for (ends, most) in ends.iter().zip(most) {
        assert!(ends.reach(most), "{ends:?} {most}");
    }
}

#[test]
fn the_largest_totals() {
    let mut random = Random::new(22);
    let mut case = Case::good_of_kind(&mut random, (64, 64), 0);
    case.barriers.fill(0);
    case.p.g = 10_000;
    for ((field, (_, high)), sign) in case.fields.iter_mut().zip(BOUNDS).zip([1, 1, 1, -1, 1, 1]) {
        field.fill(sign * high);
    }
    // Per cell 2·200,000·5,000² + 2·10,000·100,000·300,000.
    let cell = 10_000_000_000_000 + 600_000_000_000_000;
    assert_eq!(totals(&case, "largest"), [409_600_000, 4_096 * cell]);
}

// ---- random grids

#[test]
fn random_grids_keep_energy_and_without_closed_edges_enstrophy() {
    let (mut grids, mut lent_own) = (0, 0);
    // Enstrophy rates other than 0: without closed edges, and with some by kind.
    let mut changing = [0; 4];
    // Of tendencies off by one, in dh, du, dv: how many; seen by the energy
    // rate; without closed edges; seen by the enstrophy rate.
    let mut off_by_one = [[0; 4]; 3];
    for kind in 0..3 {
        let seed = 31 + kind as u64;
        let mut random = Random::new(seed);
        for number in 0..2_000 {
            let at = format!("seed {seed}, case {number}");
            let size = random_size(&mut random);
            let mut case = Case::good_of_kind(&mut random, size, kind as u8);
            let cells = size.0 * size.1;
            let [q, ..] = filled(&case, Call::PotentialVorticity, &at);
            if random.once_in(4) {
                // What one call fills can be lent to the other.
                case.fields[Q] = q[..case.length(Q)].to_vec();
                lent_own += 1;
            }
            let tendencies = filled(&case, Call::Tendencies, &at);
            totals(&case, &at);
            for (field, numbers) in [(U, &tendencies[1]), (V, &tendencies[2])] {
                let closed = case.closed(field).into_iter();
                let moving = closed.filter(|&cell| numbers[cell] != 0).count();
                assert_eq!(moving, 0, "{at}: {case:?}");
            }
            grids += 1;
            let open = case.is_open();
            let (_, enstrophy) = rates(&case, &tendencies);
            changing[if open { 0 } else { 1 + kind }] += usize::from(enstrophy != 0);

            let mut wrong = tendencies;
            let (which, cell) = (random.below(3), random.below(cells));
            wrong[which][cell] += random.pick(&[-1, 1]);
            let (energy, enstrophy) = rates(&case, &wrong);
            // The Bernoulli function is above 0, a flux need not be.
            assert!(which != 0 || energy != 0, "{at}: {case:?}");
            let seen = [true, energy != 0, open, open && enstrophy != 0];
            add(&mut off_by_one[which], seen);
        }
    }
    println!("{changing:?} {off_by_one:?} {lent_own}");
    assert_eq!(grids, 6_000);
    assert!(lent_own > 1_000, "{lent_own}");
    assert_eq!(changing[0], 0);
    assert!(changing[1..].iter().all(|&k| k > 500), "{changing:?}");
    for [times, by_energy, open, by_enstrophy] in off_by_one {
        assert!(times > 1_500 && by_energy * 2 > times, "{off_by_one:?}");
        assert!(open > 250 && by_enstrophy * 2 > open, "{off_by_one:?}");
    }
}
