//! The proved library against the independent version, call by call: random
//! calls with every kind of fault, every bound from both sides, every size of
//! grid in every kind, every pair of causes, and whatever stands in the answer.
//! (Where the tests pass a step, it may still leave a bound: stepping.rs. What
//! the writer writes is read back in record.rs.)
//!
//! Each comparison is of all that is told and of all that is lent
//! ([`cases::calls`]). One that fails prints all that went into the call, and
//! where the call was made at random the seed and the number of the case too.

use crate::cases::calls::{answered, call_raw, compare, expect, independent, Written, UNANSWERED};
use crate::cases::causes;
use crate::cases::common::{first_told, record_size, Random, NUMBERS, TESTED};
use crate::cases::{add, any_numbers, next_outside, random_case, Call, Case};
use crate::cases::{BARRIERS, BOUNDS, CALLS, FAULTS, FILLING, H, PROBING, TOTALS, U, V};

// ---- random calls

/// How often what happened.
#[derive(Debug, Default)]
struct Coverage {
    calls: usize,
    /// By call, then number.
    told: [[usize; NUMBERS]; CALLS.len()],
    /// Cases with this fault alone.
    fault: [usize; FAULTS.len()],
    /// Accepted, by call, then kind.
    kind: [[usize; 3]; CALLS.len()],
    /// Accepted: one cell; one column; one row; 64 by 64.
    size: [usize; 4],
    /// Accepted with a number at the lower bound, and at the upper, by field.
    at_bound: [[usize; 2]; 7],
    /// Refusal 4 of a number one below the lower bound, and one above the
    /// upper, by field.
    one_past: [[usize; 2]; 7],
    /// Refusal 4 at cell 0, and at the last of several, by field.
    value_cell: [[usize; 2]; 7],
    /// Refusal 5 at cell 0, at the last of several closed edges, and where a
    /// barrier closes an edge, of u and of v.
    edge_cell: [[usize; 3]; 2],
    /// Accepted with barriers, by call.
    barred: [usize; CALLS.len()],
    /// By call and destination: accepted with it just long enough, and longer;
    /// refusal 8 where it alone is short, by one place, and empty.
    destination: [[[usize; 4]; 3]; CALLS.len()],
    /// The same of the record.
    record: [usize; 4],
    /// By probing call: accepted as exact, and as near.
    trust: [[usize; 2]; PROBING.len()],
    /// Accepted with the last of several cells probed, and refusal 10 of the one
    /// past it.
    probed: [usize; 2],
    /// By a refusal's number, then that of the next cause, 0 for none.
    next: [[usize; NUMBERS]; NUMBERS],
    /// Of two numbers outside: in one field, in two fields.
    next_field: [usize; 2],
}

impl Coverage {
    fn count(&mut self, case: &Case, call: Call, told: &[u64]) {
        self.calls += 1;
        self.told[call as usize][told[0] as usize] += 1;
        let (w, n) = (case.p.w, case.p.n);
        match *told {
            [0, ..] => {
                self.kind[call as usize][case.p.kind as usize] += 1;
                let sizes = [(w, n) == (1, 1), w == 1, n == 1, (w, n) == (64, 64)];
                add(&mut self.size, sizes);
                self.barred[call as usize] += usize::from(case.barriers.iter().any(|&z| z != 0));
                for &field in call.fields() {
                    let (low, high) = BOUNDS[field];
                    let bounds = [low, high].map(|bound| case.has(field, bound));
                    add(&mut self.at_bound[field], bounds);
                }
                self.count_destinations(case, call, true);
                if let Some(place) = PROBING.iter().position(|&probing| probing == call) {
                    self.trust[place][told[1] as usize] += 1;
                }
                let last = w * n > 1 && case.cell == w * n - 1;
                self.probed[0] += usize::from(call == Call::Probe && last);
            }
            [8] => self.count_destinations(case, call, false),
            [10] => self.probed[1] += usize::from(case.cell == w * n),
            [4, field, cell] => {
                let (field, cell) = (field as usize, cell as usize);
                let number = case.number(field, cell);
                let past = next_outside(field).map(|past| number == past);
                add(&mut self.one_past[field], past);
                let ends = [cell == 0, cell > 0 && cell == case.length(field) - 1];
                add(&mut self.value_cell[field], ends);
            }
            [5, field, cell] => {
                let (field, cell) = (field as usize, cell as usize);
                let last = case.closed(field).last() == Some(&cell);
                let barred = case.barriers[cell] != 0;
                let places = [cell == 0, cell > 0 && last, barred];
                add(&mut self.edge_cell[field - U], places);
            }
            _ => {}
        }
    }

    fn count_destinations(&mut self, case: &Case, call: Call, accepted: bool) {
        let cells = case.p.w * case.p.n;
        if call == Call::Write {
            let (length, needed) = (case.record, record_size(cells));
            let lengths = [
                accepted && length == needed,
                accepted && length > needed,
                length + 1 == needed,
                length == 0,
            ];
            add(&mut self.record, lengths);
        }
        let needed = case.destination_needed(call);
        let lengths = (0..call.destinations()).map(|k| case.destination(call, k));
        let alone = lengths.clone().filter(|&length| length < needed).count() == 1;
        for (counts, length) in self.destination[call as usize].iter_mut().zip(lengths) {
            let lengths = [
                accepted && length == needed,
                accepted && length > needed,
                alone && length + 1 == needed,
                alone && length == 0,
            ];
            add(counts, lengths);
        }
    }

    fn count_next(&mut self, told: &[u64], next: &[u64]) {
        self.next[told[0] as usize][next[0] as usize] += 1;
        if told[0] == 4 && next[0] == 4 {
            self.next_field[usize::from(told[1] != next[1])] += 1;
        }
    }

    fn assert_enough(&self) {
        let often = |counts: &[usize], least: usize, what: &str| {
            assert!(counts.iter().all(|&k| k >= least), "{what}: {self:#?}");
        };
        assert!(self.calls >= 300_000, "{self:#?}");
        for (call, told) in CALLS.into_iter().zip(self.told) {
            often(&told[..=0], 5_000, "accepted");
            often(&told[1..=5], 1_000, "refused");
            if call.is_stepping() {
                often(&told[6..=6], 1_000, "refused with 6");
            }
            let destinations = &self.destination[call as usize][..call.destinations()];
            if call.is_filling() {
                often(&told[8..=8], 1_000, "refused with 8");
                often(destinations.as_flattened(), 200, "a destination");
            }
            if call == Call::Write {
                often(&told[8..=9], 1_000, "refused with 8 and 9");
                often(&self.record, 200, "a record");
            }
            if call == Call::Probe {
                often(&told[10..=10], 500, "refused with 10");
            }
        }
        often(self.trust.as_flattened(), 1_000, "exact and near");
        often(&self.probed, 100, "a cell at the end");
        often(&self.fault, 500, "a fault alone");
        often(self.kind.as_flattened(), 2_000, "accepted, by kind");
        often(&self.size, 200, "accepted, by size");
        often(self.at_bound.as_flattened(), 500, "at a bound");
        often(self.one_past.as_flattened(), 150, "one past a bound");
        often(self.value_cell.as_flattened(), 150, "ends of a field");
        often(self.edge_cell.as_flattened(), 200, "closed edges");
        often(&self.barred, 2_000, "accepted with barriers");
        for number in 1..=5 {
            // After 4 and 5 there may be another of the same number.
            let first = if number < 4 { number + 1 } else { number };
            often(&self.next[number][first..=5], 100, "two causes");
            often(&self.next[number][8..=8], 100, "8 as the second cause");
            often(&self.next[number][10..=10], 10, "10 as the second cause");
        }
        let with_9 = [1, 2, 3].map(|number| self.next[number][9]);
        often(&with_9, 20, "9 as the second cause");
        let after_9 = [4, 5, 8].map(|number| self.next[9][number]);
        often(&after_9, 20, "9 as the first cause");
        often(&self.next_field, 500, "two numbers outside");
    }
}

#[test]
fn random_calls_are_answered_alike() {
    let mut coverage = Coverage::default();
    for seed in 1..=4 {
        let mut random = Random::new(seed);
        for number in 0..10_000 {
            let (case, faults) = random_case(&mut random);
            if let [fault] = faults[..] {
                coverage.fault[fault as usize] += 1;
            }
            for call in CALLS {
                let at = format!("seed {seed}, case {number}, {faults:?}");
                let told = compare(&case, call, &at).told;
                coverage.count(&case, call, &told);
                if !matches!(told[0], 0 | 6) {
                    // With its cause taken away, the next one is told.
                    let mut mended = case.clone();
                    mended.mend(&told);
                    let at = format!("{at}, mended after {told:?}");
                    let next = compare(&mended, call, &at).told;
                    coverage.count(&mended, call, &next);
                    coverage.count_next(&told, &next);
                }
            }
        }
    }
    println!("{coverage:?}");
    coverage.assert_enough();
}

// ---- every bound

#[test]
fn the_worked_examples_are_told_as_01_says() {
    let one_cell = |h: i64| {
        let mut case = Case::example_2();
        case.fields[H] = vec![h];
        case
    };
    let two_cells = |kind: u8| {
        let mut case = Case::example_4();
        case.set_kind(kind);
        case
    };
    for call in CALLS {
        expect(&one_cell(2_000), call, &[0], "example 2");
        expect(&two_cells(0), call, &[0], "example 4");
        expect(&two_cells(2), call, &[5, 2, 0], "example 6");
        expect(&one_cell(999), call, &[4, 0, 0], "example 7");
        expect(&one_cell(1_000), call, &[0], "example 7");
    }

    let mut short = one_cell(2_000);
    short.work = 7;
    let mut none = one_cell(2_000);
    none.steps = 0;
    let mut long = one_cell(2_000);
    long.steps = 10_001;
    for call in CALLS {
        if call.has_work_space() {
            expect(&short, call, &[2], "example 9");
        }
        if call.has_run_length() {
            expect(&none, call, &[0], "example 9");
            expect(&long, call, &[1], "example 9");
        }
    }
    assert_eq!(compare(&none, Call::Run, "example 9").told, [0, 0]);
}

#[test]
fn every_bound_of_a_field_is_exact_at_every_cell() {
    // Every byte of a barrier is in barriers.rs.
    for (field, (low, high)) in BOUNDS.into_iter().enumerate().take(BARRIERS) {
        for cell in 0..Case::basin().length(field) {
            let numbers = [
                (low - 1, false),
                (low, true),
                (high, true),
                (high + 1, false),
                (i64::MIN, false),
                (i64::MAX, false),
            ];
            for (number, inside) in numbers {
                let mut case = Case::basin();
                case.fields[field][cell] = number;
                let told: &[u64] = match (inside, case.is_closed(field, cell)) {
                    (false, _) => &[4, field as u64, cell as u64],
                    (true, false) => &[0],
                    (true, true) => &[5, field as u64, cell as u64],
                };
                for call in CALLS {
                    // What a call does not take cannot stop it.
                    let taken = call.fields().contains(&field);
                    expect(&case, call, if taken { told } else { &[0] }, "a bound");
                }
            }
        }
    }
}

#[test]
fn every_bound_of_a_constant_is_exact() {
    type Put = fn(&mut Case, i64);
    let constants: [(i64, i64, Put); 3] = [
        (1, 10_000, |case, g| case.p.g = g),
        (-10_000, 10_000, |case, c| case.p.c = c),
        (1_000, 1_000_000, |case, r| case.p.r = r),
    ];
    for (low, high, put) in constants {
        for (number, told) in [
            (low - 1, 3),
            (low, 0),
            (high, 0),
            (high + 1, 3),
            (i64::MIN, 3),
            (i64::MAX, 3),
        ] {
            let mut case = Case::basin();
            put(&mut case, number);
            for call in CALLS {
                expect(&case, call, &[told], "a constant");
            }
        }
    }
}

#[test]
fn every_kind_is_known_or_not() {
    for kind in 0..=255 {
        let mut case = Case::basin();
        case.set_kind(kind);
        for call in CALLS {
            expect(&case, call, &[u64::from(kind > 2)], "a kind");
        }
    }
}

#[test]
fn run_lengths_and_work_spaces_are_tested_where_they_are_taken() {
    for steps in [0, 1, 9_999, 10_000, 10_001, 1 << 32, 1 << 63, u64::MAX] {
        let mut case = Case::basin();
        case.steps = steps;
        for call in CALLS {
            let told = u64::from(call.has_run_length() && steps > 10_000);
            expect(&case, call, &[told], "a run length");
        }
    }
    // Longer ones are lent in limits.rs.
    for work in [0, 1, 6, 42, 47, 48, 49, 55] {
        let mut case = Case::basin();
        case.work = work;
        for call in CALLS {
            let told = if call.has_work_space() && work < 48 {
                2
            } else {
                0
            };
            expect(&case, call, &[told], "a work space");
        }
    }
}

#[test]
fn every_length_of_a_field_but_one_is_refused() {
    for field in 0..BOUNDS.len() {
        for length in 0..=13 {
            let mut case = Case::basin();
            let right = case.needed(field);
            case.resize(field, length);
            for call in CALLS {
                let wrong = call.fields().contains(&field) && length != right;
                expect(&case, call, &[if wrong { 2 } else { 0 }], "a length");
            }
        }
    }
}

#[test]
fn a_destination_of_fewer_places_is_refused() {
    for call in FILLING {
        for which in 0..call.destinations() {
            for length in 0..=13 {
                let mut case = Case::basin();
                let needed = case.destination_needed(call);
                case.set_destination(call, which, length);
                let told = if length < needed { 8 } else { 0 };
                expect(&case, call, &[told], "a destination");
                // Another one is long, or short too.
                for other in [0, 5, 6, 7] {
                    case.destinations = [other; 3];
                    case.set_destination(call, which, length);
                    let others = call.destinations() > 1 && other < needed;
                    let told = if length < needed || others { 8 } else { 0 };
                    expect(&case, call, &[told], "destinations");
                }
            }
        }
    }
}

#[test]
fn a_cell_past_the_last_is_refused() {
    let past = [6, 7, 8, 4_096, (1 << 32) + 5, (1 << 63) + 5, usize::MAX];
    for cell in (0..6).chain(past) {
        let mut case = Case::basin();
        case.cell = cell;
        for call in CALLS {
            let refused = call == Call::Probe && cell >= 6;
            expect(&case, call, &[if refused { 10 } else { 0 }], "a cell");
        }
    }
}

#[test]
fn a_record_of_fewer_bytes_is_refused() {
    // 3 by 2 cells.
    for length in (0..=140).chain([1_000, 70_000]) {
        let mut case = Case::basin();
        case.record = length;
        let told = if length < 130 { 8 } else { 0 };
        for call in CALLS {
            let told = if call == Call::Write { told } else { 0 };
            expect(&case, call, &[told], "a record");
        }
    }
}

#[test]
fn a_refused_total_keeps_the_number_that_is_lent() {
    let mut random = Random::new(8);
    let ends = [i64::MIN, i64::MIN + 1, -1, 0, 1, i64::MAX];
    for call in TOTALS {
        for k in 0..14 {
            let mut case = Case::basin();
            case.total = match ends.get(k) {
                Some(&total) => total,
                None => random.next() as i64,
            };
            expect(&case, call, &[0], "a total");
            case.fields[H][5] = 999;
            expect(&case, call, &[4, 0, 5], "a refused total");
        }
    }
}

#[test]
fn closed_edges_are_those_of_01() {
    let mut random = Random::new(5);
    for (w, n) in [(1, 1), (1, 3), (3, 1), (4, 3), (64, 2), (2, 64)] {
        let mut closed = 0;
        for kind in 0..=2 {
            // With velocities of 0 a state is good for any kind.
            let mut still = Case::good_of_size(&mut random, (w, n));
            still.barriers.fill(0);
            still.set_kind(kind);
            still.fields[U].fill(0);
            still.fields[V].fill(0);
            for field in [U, V] {
                for cell in 0..w * n {
                    let on_wall = match field {
                        U => kind == 2 && cell % w == 0,
                        _ => kind != 0 && cell < w,
                    };
                    closed += usize::from(on_wall);
                    let refusal = [5, field as u64, cell as u64];
                    for velocity in [-5_000, -1, 1, 5_000] {
                        let mut case = still.clone();
                        case.fields[field][cell] = velocity;
                        for call in CALLS {
                            let told = if on_wall { &refusal[..] } else { &[0] };
                            expect(&case, call, told, "an edge");
                        }
                    }
                }
            }
        }
        // The south wall of kinds 1 and 2, and the west wall of kind 2.
        assert_eq!(closed, 2 * w + n);
    }
}

#[test]
fn every_size_is_accepted_in_every_kind_and_tested_to_its_last_cell() {
    let mut random = Random::new(6);
    // By call, then kind.
    let mut accepted = [[0; 3]; CALLS.len()];
    for w in 1..=64 {
        for n in 1..=64 {
            for kind in 0..=2 {
                let case = Case::good_of_kind(&mut random, (w, n), kind);
                // Steps and runs of every size are in stepping.rs.
                for call in CALLS.into_iter().filter(|call| !call.is_stepping()) {
                    expect(&case, call, &[0], "a size");
                    accepted[call as usize][kind as usize] += 1;
                }
                let call = random.pick(&CALLS);
                let field = random.pick(call.fields());
                let mut bad = case.clone();
                let last = bad.needed(field) - 1;
                bad.put(field, last, random.pick(&next_outside(field)));
                let told = [4, field as u64, last as u64];
                expect(&bad, call, &told, "a last cell");
                let call = random.pick(&FILLING);
                let mut short = case;
                let (which, last) = (
                    random.below(call.destinations()),
                    short.destination_needed(call) - 1,
                );
                short.set_destination(call, which, last);
                expect(&short, call, &[8], "a last place");
                short.record = record_size(w * n) - 1;
                expect(&short, Call::Write, &[8], "a last byte");
            }
        }
    }
    for (call, accepted) in CALLS.into_iter().zip(accepted) {
        let sizes = if call.is_stepping() { 0 } else { 4_096 };
        assert_eq!(accepted, [sizes; 3], "{call:?}");
    }
}

#[test]
fn huge_sides_are_refused_whatever_their_product() {
    let sides = [
        0,
        1,
        2,
        64,
        65,
        1 << 31,
        1 << 32,
        (1 << 32) + 1,
        1 << 62,
        1 << 63,
        usize::MAX - 1,
        usize::MAX,
    ];
    let small = 1..=64;
    for w in sides {
        for n in sides {
            let product = w.wrapping_mul(n);
            for length in [0, 1, 2, 64, 65, product.min(4_096)] {
                for number in [0, 1_000, i64::MIN, i64::MAX] {
                    let mut case = Case::basin();
                    (case.p.w, case.p.n) = (w, n);
                    case.fields = [(); 6].map(|()| vec![number; length]);
                    case.barriers = vec![number as u8; length];
                    case.work = 8 * length;
                    case.vorticity = length;
                    case.destinations = [length; 3];
                    case.record = record_size(length);
                    for call in CALLS {
                        let told = compare(&case, call, "huge").told;
                        let known = small.contains(&w) && small.contains(&n);
                        assert_eq!(told == [1], !known, "{call:?} {case:?}");
                    }
                }
            }
        }
    }
}

// ---- the order of the causes

/// A cause of refusal that can be put into the closed basin of 3 by 2 cells, or
/// into what is lent beside it.
#[derive(Clone, Copy, Debug, PartialEq)]
enum Cause {
    State(causes::Cause),
    Steps,
    Work,
    /// A destination of q, or of a tendency, of so many places.
    Vorticity(usize),
    Destination(usize, usize),
    /// A record of so many bytes.
    Record(usize),
    /// A cell to be probed.
    Cell(usize),
}

impl Cause {
    fn all() -> Vec<Self> {
        let fields: Vec<_> = (0..BOUNDS.len()).collect();
        let mut causes = vec![Cause::Steps, Cause::Work];
        causes.extend(causes::Cause::of(&fields).into_iter().map(Cause::State));
        let late = [1_000, 65_536, u64::MAX].map(causes::Cause::Milliseconds);
        causes.extend(late.map(Cause::State));
        causes.extend([0, 6, 11].map(Cause::Vorticity));
        for which in 0..3 {
            causes.extend([0, 5].map(|length| Cause::Destination(which, length)));
        }
        // Without tags 8 and 9, without 9, and a byte less.
        causes.extend([0, 116, 121, 129].map(Cause::Record));
        causes.extend([6, usize::MAX].map(Cause::Cell));
        causes
    }

    fn put(self, case: &mut Case) {
        match self {
            Cause::State(cause) => cause.put(case),
            Cause::Steps => case.steps = 10_001,
            Cause::Work => case.work = 47,
            Cause::Vorticity(length) => case.vorticity = length,
            Cause::Destination(which, length) => case.destinations[which] = length,
            Cause::Record(length) => case.record = length,
            Cause::Cell(cell) => case.cell = cell,
        }
    }

    /// What a call tells that this alone stops; nothing where the call does
    /// not look at it.
    fn told(self, call: Call) -> Option<Vec<u64>> {
        let (looked_at, told) = match self {
            Cause::State(cause) => {
                let looked_at = match cause {
                    causes::Cause::Length(field, _) | causes::Cause::Value(field, ..) => {
                        call.fields().contains(&field)
                    }
                    causes::Cause::Milliseconds(_) => call == Call::Write,
                    _ => true,
                };
                (looked_at, cause.told())
            }
            Cause::Steps => (call.has_run_length(), vec![1]),
            Cause::Work => (call.has_work_space(), vec![2]),
            Cause::Vorticity(_) => (call == Call::PotentialVorticity, vec![8]),
            Cause::Destination(which, _) => {
                let lent = call != Call::PotentialVorticity && which < call.destinations();
                (lent, vec![8])
            }
            Cause::Record(_) => (call == Call::Write, vec![8]),
            Cause::Cell(_) => (call == Call::Probe, vec![10]),
        };
        looked_at.then_some(told)
    }
}

#[test]
fn of_two_causes_the_first_by_test_field_and_cell_is_told() {
    let with = |causes: &[Cause]| {
        let mut case = Case::basin();
        causes.iter().for_each(|cause| cause.put(&mut case));
        case
    };
    let causes = Cause::all();
    let mut pairs = 0;
    // The numbers that stand beside a 9, of the writer, and beside a 10, of the probe.
    let mut beside = [[0; NUMBERS]; 2];
    for &one in &causes {
        for &other in &causes {
            let case = with(&[one, other]);
            if one != other && case == with(&[other]) {
                // Put over the first, so not two causes.
                continue;
            }
            pairs += 1;
            for call in CALLS {
                let told = [one, other].map(|cause| cause.told(call));
                if let [Some(one), Some(other)] = &told {
                    for (beside, number) in beside.iter_mut().zip([9, 10]) {
                        beside[other[0] as usize] += usize::from(one[0] == number);
                    }
                }
                let told = told.into_iter().flatten();
                let first = first_told(&TESTED, told).unwrap_or(vec![0]);
                expect(&case, call, &first, &format!("{one:?}, {other:?}"));
            }
        }
    }
    println!("{pairs} pairs {beside:?}");
    assert!(pairs > 5_000, "{pairs}");
    assert!([1, 2, 3, 4, 5, 8].iter().all(|&k| beside[0][k] > 1));
    assert!([1, 2, 3, 4, 5].iter().all(|&k| beside[1][k] > 1));
}

// ---- the C functions by themselves

#[test]
fn all_eight_places_are_set_whatever_stood_there() {
    let seed = 7;
    let mut random = Random::new(seed);
    let mut met = [0; NUMBERS];
    for number in 0..5_000 {
        let (mut case, faults) = random_case(&mut random);
        for call in CALLS {
            // All of one kind; what an answer could be; anything.
            let standing = [
                [0; 8],
                [1; 8],
                [u64::MAX; 8],
                [0, 0, 0, 0, 0, 0, 0, 1],
                [6, 2, 3, 1, 9_999, 0, 0, 0],
                UNANSWERED,
                any_numbers(&mut random),
            ];
            for answer in standing {
                case.answer = answer;
                let at = format!("seed {seed}, case {number}, {faults:?}");
                let told = compare(&case, call, &at).told;
                met[told[0] as usize] += 1;
            }
        }
    }
    println!("{met:?}");
    for number in [0, 1, 2, 3, 4, 5, 6, 8, 9, 10] {
        assert!(met[number] > 500, "{met:?}");
    }
}

#[test]
fn fields_that_are_read_may_be_the_same() {
    let still = [0; 6];
    let even = [5_000; 6];
    // A depth that is too fast for a velocity.
    let fast = [5_001; 6];
    // A step only reads b and the inflow; h, u and v are lent apart.
    let slope = [0, 1, 2, 3, 4, 5];
    let alike: [[&[i64]; 6]; 3] = [
        [&even, &even, &still, &still, &even, &still],
        [&fast, &still, &fast, &still, &still, &still],
        [&even, &slope, &still, &still, &slope, &slope],
    ];
    for (lent, number) in alike.into_iter().zip([0, 4, 0]) {
        // Without walls a q is as long as the other fields.
        let mut case = Case::basin();
        case.set_kind(0);
        case.fields = lent.map(Vec::from);
        let barriers = [0; 6];
        for call in CALLS {
            let expected = independent(&case, call);
            assert_eq!(expected.told[0], number, "{call:?}");
            let mut answer = UNANSWERED;
            let mut written = Written::before(&case, call);
            let read = (lent, &barriers[..]);
            let told = call_raw(&case, call, read, written.slices(), &mut answer);
            assert_eq!(told, number, "{call:?}");
            assert_eq!(answer, answered(&expected.told), "{call:?}");
            assert_eq!(written, expected.written, "{call:?}");
        }
    }
}
