//! The record calls of the proved library beside those of the independent
//! version: records in every order of their tags, of every size and timestamp,
//! every answer of a comparison, and records changed at random. (Damage, and
//! what else a read is refused with, is in record_refusals.rs; the writer's
//! tests, and calls of it with faults, are in comparison.rs.)
//!
//! Every comparison is of all that is told and of all that is lent: fields and
//! constants with what lies past the part that is filled, and the fences beside
//! them ([`cases::records`], [`cases::calls`]). One that fails prints the record
//! in hex, and where it was made at random the seed and the number of the case.

use crate::cases::calls::{timestamp, UNANSWERED};
use crate::cases::changes::Changed;
use crate::cases::common::{any_state, random_state, within_limits, Random, NUMBERS, SPREADS};
use crate::cases::common::{every_order, moment, random_timestamp, record_fields, record_of};
use crate::cases::common::{record_of_01, shuffle, shuffled, some_fields, two_cells};
use crate::cases::records::{answer_for, basin, TIMESTAMP};
use crate::cases::records::{compare_pair, compare_read, expect_pair, expect_read, expect_state};
use crate::cases::records::{field, hex, of_record, written, Lent};
use crate::cases::{add, any_numbers, Case, BARRIERS, BOUNDS, U, V};
use reference::{Parameters, State, Timestamp};

// ---- good records

#[test]
fn example_10_one_cell() {
    let record = "010003010100 02000C000026520000000A000003E8 0300080000000000000000 \
                  040004000007D0 05000400000000 0600020064 070002FFCE";
    let record = record.replace(' ', "");
    let state = Case::example_2().state();
    // 01's record has neither tag 8 nor tag 9, which the writer adds.
    let old = record_of_01(&state, 0);
    assert_eq!(hex(&old), record);
    expect_state(&old, Lent::enough(1), (&state, 0), "example 10");
    let written = written(&state, 0, "example 10");
    assert_eq!(hex(&written), record + "0800020000" + "09000100");
    expect_pair(&old, &written, &[0, 0], "example 10");
    expect_state(&written, Lent::enough(1), (&state, 0), "example 10");
    expect_pair(&written, &written, &[0, 0], "example 10");
    let p = basin::Parameters {
        w: 1,
        n: 1,
        kind: 0,
        g: 9_810,
        c: 10,
        r: 1_000,
    };
    assert_eq!(p.record_len(), 65);
}

#[test]
fn lengths_of_records_and_work_spaces_do_not_overflow() {
    let lengths = |w, n| {
        let p = basin::Parameters {
            w,
            n,
            kind: 0,
            g: 0,
            c: 0,
            r: 0,
        };
        [p.record_len(), p.work_len()]
    };
    assert_eq!(lengths(64, 64), [53_300, 32_768]);
    assert_eq!(lengths(0, 7), [52, 0]);
    for (w, n) in [(1 << 32, 1 << 32), (usize::MAX, 1), (1, usize::MAX / 8)] {
        assert_eq!(lengths(w, n)[0], usize::MAX, "{w} {n}");
    }
}

/// In every order these fields read as the state at this time; gives the number of
/// orders.
fn every_order_reads(state: &State, time: Timestamp, fields: &mut [Vec<u8>]) -> usize {
    let mut random = Random::new(61);
    let cells = state.h.len();
    let rising = written(state, time, "an order");
    let mut neighbour = state.clone();
    neighbour.h[cells - 1] += 1;
    let neighbour = record_of(&neighbour, time);
    let mut orders = 0;
    every_order(fields, 0, &mut |fields| {
        let record = fields.concat();
        let lent = Lent::any(&mut random, cells);
        expect_state(&record, lent, (state, time), "an order");
        expect_pair(&rising, &record, &[0, 0], "an order");
        expect_pair(&record, &neighbour, &[0, 3], "an order");
        orders += 1;
    });
    orders
}

#[test]
fn seven_tags_in_every_order_of_small_grids() {
    for state in [Case::example_2().state(), two_cells(), basin()] {
        let time = moment(TIMESTAMP.seconds, 0);
        let mut fields = record_fields(&state, time);
        assert_eq!(every_order_reads(&state, time, &mut fields[..7]), 5_040);
    }
}

/// One cell with a barrier on its west edge.
fn barred_cell() -> State {
    State {
        u: vec![0],
        barriers: vec![1],
        ..Case::example_2().state()
    }
}

#[test]
fn eight_tags_in_every_order() {
    let (open, barred) = (Case::example_2().state(), barred_cell());
    let whole = moment(TIMESTAMP.seconds, 0);
    for (lacking, state, time) in [(8, open, TIMESTAMP), (7, barred, whole)] {
        let mut fields = record_fields(&state, time);
        fields.remove(lacking);
        assert_eq!(every_order_reads(&state, time, &mut fields), 40_320);
    }
}

/// By the library alone, for the time that so many take.
#[test]
fn nine_tags_in_every_order() {
    let state = barred_cell();
    let rising = written(&state, TIMESTAMP, "an order");
    let p = basin::Parameters {
        w: 1,
        n: 1,
        kind: 0,
        g: 9_810,
        c: 10,
        r: 1_000,
    };
    let told = basin::Read {
        parameters: p,
        timestamp: timestamp(TIMESTAMP),
    };
    let mut orders = 0;
    every_order(&mut record_fields(&state, TIMESTAMP), 0, &mut |fields| {
        let record = fields.concat();
        let [mut h, mut b, mut u, mut v] = [[7]; 4];
        let mut barriers = [7];
        let read = basin::read(&record, &mut h, &mut b, &mut u, &mut v, &mut barriers);
        assert_eq!(read, Ok(told), "{}", hex(&record));
        let filled = (h, b, u, v, barriers);
        let expected = ([2_000], [0], [0], [-50], [1]);
        assert_eq!(filled, expected, "{}", hex(&record));
        let same = basin::compare(&rising, &record);
        assert_eq!(same, Ok(basin::Comparison::Same), "{}", hex(&record));
        orders += 1;
    });
    assert_eq!(orders, 362_880);
}

#[test]
fn records_of_every_size_are_written_and_read_to_the_last_cell() {
    let mut random = Random::new(62);
    let mut kinds = [0; 3];
    for w in 1..=64 {
        for n in 1..=64 {
            let kind = random.below(3);
            let spread = random.pick(&SPREADS);
            let state = random_state(&mut random, spread, (w, n), kind as u8);
            let timestamp = random_timestamp(&mut random);
            let rising = written(&state, timestamp, "a size");
            assert_eq!(rising, record_of(&state, timestamp), "{state:?}");
            let record = match random.below(2) {
                0 => rising.clone(),
                _ => shuffled(&mut random, &state, timestamp),
            };
            let lent = Lent::any(&mut random, w * n);
            expect_state(&record, lent, (&state, timestamp), "a size");
            expect_pair(&rising, &record, &[0, 0], "a size");
            kinds[kind] += 1;

            // A place too few for the last cell, in one field.
            let mut short = lent;
            short.fields[random.below(5)] = w * n - 1;
            expect_read(&record, short, &[8], "a last place");
            // Its number outside, and velocities on the last closed edges.
            let refused = |random: &mut Random, (which, cell), number: i64, told: u64| {
                let mut state = state.clone();
                field(&mut state, which)[cell] = number;
                let record = shuffled(random, &state, timestamp);
                let told = [told, which as u64, cell as u64];
                expect_read(&record, lent, &told, "a last cell");
                expect_pair(&rising, &record, &of_record(&told, 2), "a last cell");
            };
            let which = random.below(4);
            let (low, high) = BOUNDS[which];
            let past = random.pick(&[low - 1, high + 1]);
            refused(&mut random, (which, w * n - 1), past, 4);
            let mut barred = state.clone();
            barred.barriers[w * n - 1] = random.pick(&[4, 255]);
            let barred = shuffled(&mut random, &barred, timestamp);
            let told = [4, BARRIERS as u64, (w * n - 1) as u64];
            expect_read(&barred, lent, &told, "a last barrier");
            if kind == 2 {
                refused(&mut random, (U, (n - 1) * w), -1, 5);
            }
            if kind != 0 {
                refused(&mut random, (V, w - 1), 1, 5);
            }
            // A depth there that is all that differs.
            let mut other = state.clone();
            let depth = &mut other.h[w * n - 1];
            *depth += if *depth == BOUNDS[0].1 { -1 } else { 1 };
            let other = shuffled(&mut random, &other, timestamp);
            expect_pair(&rising, &other, &[0, 3], "a last cell");
        }
    }
    assert!(kinds.iter().all(|&k| k > 1_000), "{kinds:?}");
}

#[test]
fn what_was_written_reads_back_and_what_was_read_writes_back() {
    let seed = 63;
    let mut random = Random::new(seed);
    // By kind; with tags that rise; without tag 8 or 9; with barriers; with every
    // constant at a bound.
    let (mut kinds, mut rising_tags, mut old) = ([0; 3], 0, 0);
    let (mut barred, mut at_bounds) = (0, 0);
    for number in 0..12_000 {
        let at = format!("seed {seed}, case {number}");
        let state = any_state(&mut random);
        let timestamp = random_timestamp(&mut random);
        let rising = written(&state, timestamp, &at);
        let mut fields = some_fields(&mut random, &state, timestamp);
        if random.once_in(4) {
            rising_tags += 1;
        } else {
            shuffle(&mut random, &mut fields);
        }
        let record = fields.concat();
        let lent = Lent::any(&mut random, state.h.len());
        for record in [&rising, &record] {
            let outcome = compare_read(record, lent, &at);
            let read = outcome.state().expect("it was written so");
            assert_eq!(read, (state.clone(), timestamp), "{at}: {}", hex(record));
            // From another order the tags rise again, and tags 8 and 9 are there.
            assert_eq!(written(&read.0, read.1, &at), rising, "{at}");
        }
        kinds[usize::from(state.parameters.kind)] += 1;
        old += usize::from(record.len() < rising.len());
        barred += usize::from(state.barriers.iter().any(|&barrier| barrier != 0));
        let Parameters { g, c, r, .. } = state.parameters;
        let ends = [1, 10_000].contains(&g) && c.abs() == 10_000;
        at_bounds += usize::from(ends && [1_000, 1_000_000].contains(&r));
    }
    println!("{kinds:?} {rising_tags} {old} {barred} {at_bounds}");
    assert!(kinds.iter().all(|&k| k > 3_000), "{kinds:?}");
    let often = [rising_tags, old, barred, at_bounds];
    assert!(often.iter().all(|&k| k > 2_000), "{often:?}");
}

#[test]
fn seconds_of_every_bit_are_kept_and_compared_without_a_sign() {
    let mut timestamps = vec![0, 2, 3, u64::MAX, u64::MAX - 1, TIMESTAMP.seconds];
    timestamps.extend((0..64).map(|bit| 1 << bit));
    timestamps.extend((0..64).map(|bit| u64::MAX >> bit));
    let state = two_cells();
    let mut other = two_cells();
    other.v[1] = -5_000;
    for &timestamp in &timestamps {
        let record = written(&state, timestamp, "a timestamp");
        expect_state(&record, Lent::enough(2), (&state, timestamp), "a timestamp");
        for &later in &timestamps {
            let told = answer_for(timestamp, later, true);
            let same = record_of(&state, later);
            expect_pair(&record, &same, &[0, told], "a timestamp");
            let told = answer_for(timestamp, later, false);
            let other = record_of(&other, later);
            expect_pair(&record, &other, &[0, told], "a timestamp");
        }
    }
}

#[test]
fn constants_and_answers_are_set_or_kept_whatever_stood_there() {
    let good = record_of(&two_cells(), TIMESTAMP);
    let with = |change: fn(&mut State)| {
        let mut state = two_cells();
        change(&mut state);
        record_of(&state, TIMESTAMP)
    };
    let records = [
        good.clone(),
        with(|s| s.parameters.kind = 3),
        with(|s| s.b.push(0)),
        with(|s| s.barriers.clear()),
        with(|s| s.parameters.c = 10_001),
        with(|s| s.u[1] = 5_001),
        with(|s| s.barriers[1] = 4),
        with(|s| s.parameters.kind = 2),
        with(|s| s.barriers[1] = 3),
        good[..60].to_vec(),
        record_of(&two_cells(), moment(5, 1_000)),
    ];
    let mut random = Random::new(75);
    // All of one kind; G, c and R of this record or of another; anything.
    let constants = [
        [0; 3],
        [i64::MIN; 3],
        [i64::MAX; 3],
        [9_810, -10, 1_000],
        [1, 10_000, 1_000_000],
        [(); 3].map(|()| random.next() as i64),
    ];
    let answers = [
        [0; 8],
        [1; 8],
        [u64::MAX; 8],
        [0, 0, 0, 0, 0, 0, 0, 1],
        [0, 2, 1, 0, TIMESTAMP.seconds, TIMESTAMP.milliseconds, 0, 0],
        [5, 2, 2, 0, 0, 0, 0, 0],
        UNANSWERED,
        any_numbers(&mut random),
    ];
    let mut met = [0; NUMBERS];
    for record in &records {
        for constants in constants {
            for answer in answers {
                for cells in [1, 2] {
                    let lent = Lent {
                        constants,
                        answer,
                        ..Lent::enough(cells)
                    };
                    let told = compare_read(record, lent, "standing").told;
                    met[told[0] as usize] += 1;
                }
                compare_pair(record, &good, answer, "standing");
                compare_pair(&good, record, answer, "standing");
            }
        }
    }
    assert!([0, 1, 2, 3, 4, 5, 7, 8, 9].iter().all(|&k| met[k] > 40));
}

// ---- comparison

/// What a comparison tells with the two records the other way round.
fn turned(answer: u64) -> u64 {
    [0, 2, 1, 3][answer as usize]
}

/// States that differ from the basin in one part each, all within the limits.
fn neighbours() -> Vec<State> {
    let mut neighbours = vec![];
    let changes: [fn(&mut Parameters); 7] = [
        |p| (p.w, p.n) = (2, 3),
        |p| p.kind = 0,
        |p| p.kind = 1,
        |p| p.g += 1,
        |p| p.g -= 256,
        |p| p.c = -p.c,
        |p| p.r -= 65_536,
    ];
    for change in changes {
        let mut state = basin();
        change(&mut state.parameters);
        if state.parameters.w == 2 {
            // At rest, so that no edge is closed to it.
            state.u.fill(0);
            state.v.fill(0);
        }
        neighbours.push(state);
    }
    for which in 0..4 {
        for cell in 0..6 {
            for by in [1, -1, 256, 2_048] {
                let mut state = basin();
                field(&mut state, which)[cell] += by;
                if within_limits(&state) {
                    neighbours.push(state);
                }
            }
            // A velocity the other way.
            let mut state = basin();
            let number = &mut field(&mut state, which)[cell];
            *number = -*number;
            if within_limits(&state) && state != basin() {
                neighbours.push(state);
            }
        }
    }
    // Barriers where nothing flows.
    for (cell, barrier) in (0..6).flat_map(|cell| [1, 2, 3].map(|barrier| (cell, barrier))) {
        let mut state = basin();
        state.barriers[cell] = barrier;
        if within_limits(&state) {
            neighbours.push(state);
        }
    }
    neighbours
}

#[test]
fn states_that_differ_in_one_part_are_told_apart() {
    let mut random = Random::new(68);
    let neighbours = neighbours();
    let mut still = basin();
    still.u.fill(0);
    still.v.fill(0);
    let mut by_answer = [0; 4];
    let times = [
        (moment(5, 0), moment(5, 0)),
        (moment(5, 0), moment(4, 999)),
        (moment(5, 1), moment(5, 2)),
        (moment(0, 999), moment(u64::MAX, 0)),
        (moment(u64::MAX, 0), moment(1 << 63, 999)),
    ];
    for state in &neighbours {
        assert!(within_limits(state), "{state:?}");
        // The one with its sides changed differs from the still one alone.
        let from = if state.parameters.w == 2 {
            &still
        } else {
            &basin()
        };
        for (time, other_time) in times {
            let told = answer_for(time, other_time, false);
            for _ in 0..4 {
                let first = shuffled(&mut random, from, time);
                let second = shuffled(&mut random, state, other_time);
                expect_pair(&first, &second, &[0, told], "neighbours");
                by_answer[told as usize] += 1;
                expect_pair(&second, &first, &[0, turned(told)], "neighbours");
                // The same state in another order.
                let again = shuffled(&mut random, state, other_time);
                expect_pair(&second, &again, &[0, 0], "the same");
                by_answer[0] += 1;
            }
        }
    }
    println!("{} {by_answer:?}", neighbours.len());
    assert!(neighbours.len() > 60, "{}", neighbours.len());
    assert!(by_answer.iter().all(|&k| k > 200), "{by_answer:?}");
}

#[test]
fn the_first_record_is_tested_wholly_before_the_second() {
    let good = |time: u64| record_of(&basin(), time);
    let bad = |time: u64| {
        let with = |change: fn(&mut State)| {
            let mut state = basin();
            change(&mut state);
            record_of(&state, time)
        };
        let whole = good(time);
        let late = moment(time, 1_000);
        let records: [(Vec<u8>, &[u64]); 19] = [
            (vec![], &[7, 0]),
            (whole[..1].to_vec(), &[7, 0]),
            (whole[..115].to_vec(), &[7, 101]),
            (whole[..120].to_vec(), &[7, 116]),
            (whole[..129].to_vec(), &[7, 121]),
            ([&whole[..], &[1]].concat(), &[7, 130]),
            (whole[..101].to_vec(), &[7, 101]),
            (record_of(&basin(), late), &[9]),
            (with(|s| s.parameters.n = 65), &[1]),
            (with(|s| s.u.push(0)), &[2]),
            (with(|s| s.barriers.clear()), &[2]),
            (with(|s| s.parameters.r = 999), &[3]),
            (with(|s| s.parameters.g = 10_001), &[3]),
            (with(|s| s.v[5] = -5_001), &[4, 3, 5]),
            (with(|s| s.h[3] = 999), &[4, 0, 3]),
            (with(|s| s.barriers[3] = 4), &[4, 6, 3]),
            (with(|s| s.u[3] = 1), &[5, 2, 3]),
            (with(|s| s.v[2] = -1), &[5, 3, 2]),
            (with(|s| s.barriers[4] = 2), &[5, 3, 4]),
        ];
        records.map(|(record, told)| (record, told.to_vec()))
    };
    let times = [0, 5, u64::MAX];
    let mut pairs = 0;
    for time in times {
        for other_time in times {
            for (record, told) in bad(time) {
                let first = of_record(&told, 1);
                let second = of_record(&told, 2);
                expect_pair(&record, &good(other_time), &first, "the first refused");
                expect_pair(&good(other_time), &record, &second, "the second refused");
                for (other, _) in bad(other_time) {
                    expect_pair(&record, &other, &first, "both refused");
                    pairs += 1;
                }
            }
        }
    }
    assert_eq!(pairs, 9 * 19 * 19);
}

#[test]
fn random_pairs_are_compared_alike_and_the_other_way_round() {
    let seed = 69;
    let mut random = Random::new(seed);
    let mut by_answer = [0; 4];
    for number in 0..15_000 {
        let at = format!("seed {seed}, case {number}");
        let first = any_state(&mut random);
        let mut second = first.clone();
        if random.once_in(2) {
            // One number moved, or a barrier, where it may be.
            let (which, cell) = (random.below(5), random.below(second.h.len()));
            match which {
                4 => second.barriers[cell] ^= random.pick(&[1, 2, 3]),
                _ => field(&mut second, which)[cell] += random.pick(&[-1, 1, 256, -256, 2_048]),
            }
            if !within_limits(&second) {
                second = first.clone();
            }
        } else if random.once_in(8) {
            second = any_state(&mut random);
        }
        let time = random_timestamp(&mut random);
        let (seconds, ms) = (time.seconds, time.milliseconds);
        let other_time = match random.below(6) {
            0..=2 => time,
            3 => moment(seconds ^ 1 << random.below(64), ms),
            4 => moment(seconds, random.pick(&[(ms + 1) % 1_000, 999 - ms, 0])),
            _ => random_timestamp(&mut random),
        };
        let told = answer_for(time, other_time, first == second);
        let one = shuffled(&mut random, &first, time);
        let other = shuffled(&mut random, &second, other_time);
        expect_pair(&one, &other, &[0, told], &at);
        expect_pair(&other, &one, &[0, turned(told)], &at);
        // The same bytes lent twice.
        assert_eq!(basin::compare(&one, &one), Ok(basin::Comparison::Same));
        by_answer[told as usize] += 1;
    }
    println!("{by_answer:?}");
    assert!(by_answer.iter().all(|&k| k > 1_500), "{by_answer:?}");
}

// ---- records changed at random

/// How often what happened.
#[derive(Debug, Default)]
struct Coverage {
    records: usize,
    /// Reads by number.
    read: [usize; NUMBERS],
    /// 7 at the front, within, and at the record's length.
    damage: [usize; 3],
    /// 4 and 5 by field.
    fields: [[usize; 7]; 2],
    /// Comparisons by answer, and by refused record, then number.
    answers: [usize; 4],
    refused: [[usize; NUMBERS]; 2],
    /// Accepted though a byte was changed, and in another order than the
    /// writer's.
    accepted: [usize; 2],
}

impl Coverage {
    fn count_read(&mut self, record: &[u8], told: &[u64]) {
        self.records += 1;
        self.read[told[0] as usize] += 1;
        match *told {
            [7, 0] => self.damage[0] += 1,
            [7, offset] => self.damage[1 + usize::from(offset as usize == record.len())] += 1,
            [number @ (4 | 5), field, _] => {
                self.fields[number as usize - 4][field as usize] += 1;
            }
            _ => {}
        }
    }

    fn count_pair(&mut self, told: &[u64]) {
        match *told {
            [0, answer] => self.answers[answer as usize] += 1,
            [number, record, ..] => {
                self.refused[record as usize - 1][number as usize] += 1;
            }
            _ => panic!("{told:?} is told by no comparison"),
        }
    }

    fn assert_enough(&self) {
        let often = |counts: &[usize], least: usize, what: &str| {
            assert!(counts.iter().all(|&k| k >= least), "{what}: {self:#?}");
        };
        assert!(self.records >= 150_000, "{self:#?}");
        for number in [0, 1, 2, 3, 4, 5, 7, 8, 9] {
            often(&self.read[number..=number], 2_000, "reads");
        }
        often(&self.damage, 2_000, "damage");
        let [values, edges] = self.fields;
        often(&values[..=V], 500, "a 4 by field");
        often(&values[BARRIERS..], 500, "a 4 of the barriers");
        often(&edges[U..=V], 500, "a 5 by field");
        often(&self.answers, 500, "answers");
        for number in [1, 2, 3, 4, 5, 7, 9] {
            for refused in self.refused {
                often(&refused[number..=number], 500, "refused records");
            }
        }
        often(&self.accepted[..1], 300, "accepted, though changed");
        often(&self.accepted[1..], 2_000, "accepted in any order");
    }
}

#[test]
fn records_changed_at_random_are_answered_alike() {
    let mut coverage = Coverage::default();
    for seed in 71..=74 {
        let mut random = Random::new(seed);
        let mut last = record_of(&two_cells(), 0);
        for number in 0..50_000 {
            let Changed {
                cells,
                good,
                rising,
                unchanged,
                record,
            } = Changed::random(&mut random);
            let mut lent = Lent::any(&mut random, cells);
            if random.once_in(12) {
                lent.fields[random.below(5)] = random.below(cells + 1);
            }

            let at = format!("seed {seed}, case {number}");
            let told = compare_read(&record, lent, &at).told;
            coverage.count_read(&record, &told);
            let accepted = told[0] == 0;
            let accepted = [record != unchanged, record != rising].map(|other| accepted && other);
            add(&mut coverage.accepted, accepted);
            // With the record it was made from, and with the last one.
            let answer = any_numbers(&mut random);
            for other in [&good, &last] {
                let told = compare_pair(&record, other, answer, &at);
                coverage.count_pair(&told);
                let told = compare_pair(other, &record, answer, &at);
                coverage.count_pair(&told);
            }
            last = record;
        }
    }
    println!("{coverage:?}");
    coverage.assert_enough();
}
