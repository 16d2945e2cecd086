//! The record: both round trips, tags in any order, with tags 8 and 9 and without,
//! every kind of damage, every value of the milliseconds and of a barrier, and the
//! comparison of two records.

use crate::common::{any_state, every_order, moment, random_state, random_timestamp, shuffled};
use crate::common::{milliseconds_field, record_field, record_fields, record_of, within_limits};
use crate::common::{
    two_cells, two_cells_and_a_barrier, written, Random, Spread, NUMBERS, SPREADS,
};
use reference::{compare, read, CompareAnswer, ReadAnswer, State, Timestamp};

/// What stands in the destinations of a read: places that it must not touch keep
/// these.
const KEPT: i64 = -77;
const KEPT_BYTE: u8 = 77;

/// The five destinations of a read.
#[derive(Clone, Debug, PartialEq)]
struct Destinations {
    /// h, b, u, v
    fields: [Vec<i64>; 4],
    barriers: Vec<u8>,
}

impl Destinations {
    /// So many places each, before a read.
    fn of(room: usize) -> Self {
        Destinations {
            fields: [(); 4].map(|()| vec![KEPT; room]),
            barriers: vec![KEPT_BYTE; room],
        }
    }

    /// The same after a read of this state.
    fn with(state: &State, room: usize) -> Self {
        let mut filled = Destinations::of(room);
        let fields = [&state.h, &state.b, &state.u, &state.v];
        for (place, field) in filled.fields.iter_mut().zip(fields) {
            place[..field.len()].copy_from_slice(field);
        }
        filled.barriers[..state.barriers.len()].copy_from_slice(&state.barriers);
        filled
    }

    fn read(&mut self, record: &[u8]) -> ReadAnswer {
        let [h, b, u, v] = &mut self.fields;
        read(record, h, b, u, v, &mut self.barriers)
    }
}

/// Reads into destinations of `room` places. Gives the answer as 01 tells it
/// and the destinations.
fn read_into(record: &[u8], room: usize) -> (Vec<i128>, Destinations) {
    let mut destinations = Destinations::of(room);
    (destinations.read(record).told(), destinations)
}

/// What reading the record of this state should tell.
fn told_for(state: &State, timestamp: impl Into<Timestamp>) -> Vec<i128> {
    let (p, timestamp) = (state.parameters, timestamp.into());
    let scalars = [p.w as i64, p.n as i64, p.kind.into(), p.g, p.c, p.r];
    let mut told = vec![0];
    told.extend(scalars.map(i128::from));
    told.extend([timestamp.seconds, timestamp.milliseconds].map(i128::from));
    told
}

/// The record is read as this state, into destinations of `room` places.
fn assert_read(record: &[u8], room: usize, state: &State, timestamp: impl Into<Timestamp>) {
    let (told, destinations) = read_into(record, room);
    assert_eq!(told, told_for(state, timestamp), "{state:?}: {record:?}");
    let expected = Destinations::with(state, room);
    assert_eq!(destinations, expected, "{state:?}: {record:?}");
}

/// The record is refused, and no destination is touched.
fn assert_refused(record: &[u8], expected: &[i128], what: &str) {
    let (told, destinations) = read_into(record, 64);
    assert_eq!(told, expected, "{what}: {record:?}");
    assert_eq!(destinations, Destinations::of(64), "{what}: {record:?}");
}

#[test]
fn reading_what_was_written_gives_the_state_back() {
    let mut random = Random::new(100);
    for _ in 0..5_000 {
        let state = any_state(&mut random);
        let timestamp = random_timestamp(&mut random);
        let record = written(&state, timestamp);
        assert_eq!(record, record_of(&state, timestamp), "{state:?}");
        let room = state.h.len() + random.below(5);
        assert_read(&record, room, &state, timestamp);
    }
}

#[test]
fn writing_keeps_the_rest_of_its_destination() {
    let state = two_cells_and_a_barrier();
    let State {
        parameters: p,
        h,
        b,
        u,
        v,
        barriers,
    } = &state;
    let mut out = vec![0xEE; 52 + 26 + 3];
    let time = moment(5, 999);
    let answer = reference::write(p, h, b, u, v, barriers, time, &mut out);
    assert_eq!(answer.told(), [0, 78]);
    assert_eq!(out[..78], record_of(&state, time));
    assert_eq!(out[78..], [0xEE; 3]);
    assert_eq!(out[68..78], [8, 0, 2, 3, 0xE7, 9, 0, 2, 0, 2]);
}

/// A record read, and written again.
fn rewritten(record: &[u8], cells: usize) -> Vec<u8> {
    let mut destinations = Destinations::of(cells);
    match destinations.read(record) {
        ReadAnswer::Read {
            parameters,
            timestamp,
        } => {
            let Destinations { fields, barriers } = destinations;
            let [h, b, u, v] = fields;
            let state = State {
                parameters,
                h,
                b,
                u,
                v,
                barriers,
            };
            written(&state, timestamp)
        }
        refused => panic!("{refused:?} {record:?}"),
    }
}

#[test]
fn writing_what_was_read_gives_its_fields_back_by_rising_tag() {
    let mut random = Random::new(101);
    for _ in 0..2_000 {
        let state = any_state(&mut random);
        let cells = state.h.len();
        let timestamp = random_timestamp(&mut random);
        let fields = record_fields(&state, timestamp);
        let rising = fields.concat();
        assert_eq!(rewritten(&rising, cells), rising, "{rising:?}");
        let mut turned = fields.clone();
        turned.rotate_left(random.below(9));
        assert_eq!(rewritten(&turned.concat(), cells), rising, "{turned:?}");
        // What lacks tag 8 or 9 gets it, of zeros, where it belongs.
        for lacking in [&[8][..], &[9], &[8, 9]] {
            let mut old = fields.clone();
            old.retain(|field| !lacking.contains(&field[0]));
            let mut restored = fields.clone();
            let zeroed = restored
                .iter_mut()
                .filter(|field| lacking.contains(&field[0]));
            zeroed.for_each(|field| field[3..].fill(0));
            let old = old.concat();
            assert_eq!(rewritten(&old, cells), restored.concat(), "{old:?}");
        }
    }
}

#[test]
fn the_largest_record_has_53_300_bytes() {
    let mut random = Random::new(102);
    let state = random_state(&mut random, Spread::Mixed, (64, 64), 2);
    let last = moment(u64::MAX, 999);
    let record = written(&state, last);
    assert_eq!(record.len(), 53_300);
    assert_read(&record, 4_096, &state, last);
}

/// In every order these fields read as the state at this time.
fn every_order_reads(state: &State, time: Timestamp, fields: &mut [Vec<u8>], orders: usize) {
    let rising = record_of(state, time);
    let told = told_for(state, time);
    let filled = Destinations::with(state, 3);
    let mut tried = 0;
    every_order(fields, 0, &mut |fields| {
        let record = fields.concat();
        let (got, destinations) = read_into(&record, 3);
        assert!(got == told && destinations == filled, "{record:?}");
        assert_eq!(compare(&rising, &record), CompareAnswer::Same, "{record:?}");
        tried += 1;
    });
    assert_eq!(tried, orders);
}

#[test]
fn tags_in_every_order_read_the_same() {
    let (barred, open) = (two_cells_and_a_barrier(), two_cells());
    let (whole, later) = (moment(12, 0), moment(12, 250));
    let mut nine = record_fields(&barred, later);
    every_order_reads(&barred, later, &mut nine, 362_880);
    let mut without_9 = record_fields(&open, later);
    without_9.remove(8);
    every_order_reads(&open, later, &mut without_9, 40_320);
    let mut without_8 = record_fields(&barred, whole);
    without_8.remove(7);
    every_order_reads(&barred, whole, &mut without_8, 40_320);
    let mut seven = record_fields(&open, whole);
    every_order_reads(&open, whole, &mut seven[..7], 5_040);
}

#[test]
fn every_value_of_tag_8_is_read_or_refused() {
    let state = two_cells();
    for value in 0..=u16::MAX {
        let milliseconds = u64::from(value);
        let record = record_of(&state, moment(12, milliseconds));
        if milliseconds <= 999 {
            let expected = told_for(&state, moment(12, milliseconds));
            assert_eq!(read_into(&record, 2).0, expected, "{value}");
        } else {
            assert_refused(&record, &[9], "milliseconds");
        }
    }
}

#[test]
fn every_value_of_a_barrier_is_read_or_refused() {
    let mut state = two_cells();
    (state.u, state.v) = (vec![0; 2], vec![0; 2]);
    for cell in 0..2 {
        for value in 0..=255 {
            let mut state = state.clone();
            state.barriers[cell] = value;
            let record = record_of(&state, 12);
            if value <= 3 {
                assert_read(&record, 3, &state, 12);
            } else {
                assert_refused(&record, &[4, 6, cell as i128], "a barrier");
            }
        }
    }
}

#[test]
fn a_record_cut_off_anywhere_is_refused() {
    let record = record_of(&two_cells(), 12);
    let mut starts = vec![0];
    for field in record_fields(&two_cells(), 12) {
        starts.push(starts[starts.len() - 1] + field.len());
    }
    for length in 0..record.len() {
        if starts[7..].contains(&length) {
            // All of tag 9 is cut off, or of 8 and 9: a record can do without.
            assert_read(&record[..length], 2, &two_cells(), 12);
            continue;
        }
        // Cut at the end of a field a tag is missing, else the last one is bad.
        let offset = *starts
            .iter()
            .filter(|&&start| start <= length)
            .max()
            .expect("0 is one");
        let expected = [7, offset as i128];
        assert_refused(&record[..length], &expected, "cut off");
        let mut told = vec![7, 1, offset as i128];
        assert_eq!(compare(&record[..length], &record).told(), told);
        told[1] = 2;
        assert_eq!(compare(&record, &record[..length]).told(), told);
    }
    assert_eq!(read_into(&record, 2).0[0], 0);
}

/// The fields of the small state with one of them replaced, and the offset of
/// that one.
fn with_field(place: usize, field: Vec<u8>) -> (Vec<u8>, usize) {
    let mut fields = record_fields(&two_cells(), 12);
    let offset = fields[..place].concat().len();
    fields[place] = field;
    (fields.concat(), offset)
}

#[test]
fn one_or_two_bytes_left_are_refused() {
    let whole = record_of(&two_cells(), 12);
    for rest in [&[1][..], &[0], &[9], &[10], &[1, 0], &[200, 200]] {
        let record = [&whole, rest].concat();
        let expected = [7, whole.len() as i128];
        assert_refused(&record, &expected, "bytes left");
        assert_refused(rest, &[7, 0], "nothing else");
    }
}

#[test]
fn an_unknown_tag_is_refused() {
    for tag in (0..=255).filter(|tag| !(1..=9).contains(tag)) {
        for place in 0..9 {
            let mut field = record_fields(&two_cells(), 12)[place].clone();
            field[0] = tag;
            let (record, offset) = with_field(place, field);
            assert_refused(&record, &[7, offset as i128], "unknown tag");
        }
        let whole = record_of(&two_cells(), 12);
        let record = [whole.clone(), record_field(tag, &[])].concat();
        let expected = [7, whole.len() as i128];
        assert_refused(&record, &expected, "unknown tag at the end");
    }
}

#[test]
fn a_repeated_tag_is_refused() {
    let fields = record_fields(&two_cells(), 12);
    for again in 0..9 {
        for place in 0..=9 {
            let mut damaged = fields.clone();
            damaged.insert(place, fields[again].clone());
            // The second of the two is the bad one.
            let second = if place <= again { again + 1 } else { place };
            let offset = damaged[..second].concat().len();
            assert_refused(&damaged.concat(), &[7, offset as i128], "repeated tag");
        }
        // So is a repeat that is bad in a later way too.
        let mut record = fields.concat();
        let offset = record.len();
        record.extend([again as u8 + 1, 255, 255]);
        assert_refused(&record, &[7, offset as i128], "repeated tag, past the end");
    }
}

#[test]
fn a_value_past_the_end_is_refused() {
    let fields = record_fields(&two_cells(), 12);
    for last in 0..9 {
        let mut order = fields.clone();
        let field = order.remove(last);
        let offset = order.concat().len();
        order.push(field);
        let good = order.concat();
        assert_eq!(read_into(&good, 2).0[0], 0);
        for more in [1, 2, 1_000] {
            let mut record = good.clone();
            let length = good.len() - offset - 3 + more;
            record[offset + 1..offset + 3].copy_from_slice(&(length as u16).to_be_bytes());
            assert_refused(&record, &[7, offset as i128], "value past the end");
        }
    }
}

#[test]
fn tags_1_2_3_and_8_of_a_wrong_length_are_refused() {
    for (place, right) in [(0, 3), (1, 12), (2, 8), (7, 2)] {
        for length in (0..30).chain([255, 256, 65_535]) {
            if length == right {
                continue;
            }
            let field = record_field(place as u8 + 1, &vec![1; length]);
            let (record, offset) = with_field(place, field);
            assert_refused(&record, &[7, offset as i128], "wrong length");
        }
    }
}

#[test]
fn a_missing_tag_is_refused_at_the_records_length() {
    let fields = record_fields(&two_cells(), 12);
    // Every set of the nine in which one of the first seven is missing.
    for set in (0..512).filter(|set| set & 127 != 127) {
        let record: Vec<u8> = (0..9)
            .filter(|k| set >> k & 1 == 1)
            .flat_map(|k| fields[k].clone())
            .collect();
        let expected = [7, record.len() as i128];
        assert_refused(&record, &expected, "missing tag");
    }
}

#[test]
fn the_first_bad_tag_is_reported() {
    let fields = record_fields(&two_cells(), 12);
    // Field 2 unknown, field 5 of a wrong length, the last one missing.
    let mut damaged = fields[..6].to_vec();
    damaged[2][0] = 99;
    let offset = fields[..2].concat().len() as i128;
    assert_refused(&damaged.concat(), &[7, offset], "two bad tags");
    // A bad tag goes before a bad grid, length or value.
    let mut state = two_cells();
    state.parameters.kind = 3;
    state.h = vec![999];
    let mut record = record_of(&state, 12);
    assert_refused(&record, &[1], "bad kind");
    record.push(1);
    let expected = [7, record.len() as i128 - 1];
    assert_refused(&record, &expected, "bad kind, byte left");
}

#[test]
fn tags_4_to_7_and_9_of_a_wrong_length_are_a_2() {
    for (place, right) in [(3, 8), (4, 8), (5, 4), (6, 4), (8, 2)] {
        for length in (0..20).chain([65_535]) {
            if length == right {
                continue;
            }
            let field = record_field(place as u8 + 1, &vec![0; length]);
            let (record, _) = with_field(place, field);
            assert_refused(&record, &[2], "wrong length of a field");
            let told = compare(&record, &[]).told();
            assert_eq!(told, [2, 1], "{record:?}");
        }
    }
}

#[test]
fn reading_tests_7_1_2_8_3_9_4_5_in_this_order() {
    // Bad in every way; each cause is then taken away in turn.
    let mut state = two_cells();
    state.parameters.kind = 2;
    state.u[0] = 1; // 5
    state.barriers = vec![0, 5]; // 4
    state.b[1] = 100_001; // 4
    let late = moment(1, 1_000); // 9
    state.parameters.g = 0; // 3
    let room = 1; // 8
    state.h.push(1_000); // 2
    state.parameters.w = 0; // 1
    let damage = [10]; // 7

    let record = [record_of(&state, late), damage.to_vec()].concat();
    let expected = vec![7, record.len() as i128 - 1];
    assert_eq!(read_into(&record, room).0, expected);
    assert_eq!(read_into(&record_of(&state, late), room).0, [1]);
    state.parameters.w = 2;
    assert_eq!(read_into(&record_of(&state, late), room).0, [2]);
    state.h.pop();
    assert_eq!(read_into(&record_of(&state, late), room).0, [8]);
    let record = record_of(&state, late);
    for short in 0..5 {
        // Each of the five destinations may be the short one.
        let mut lent = Destinations::of(2);
        match lent.fields.get_mut(short) {
            Some(field) => field.truncate(1),
            None => lent.barriers.truncate(1),
        }
        let before = lent.clone();
        assert_eq!(lent.read(&record).told(), [8]);
        assert_eq!(lent, before);
    }
    assert_eq!(read_into(&record, 2).0, [3]);
    // A comparison lends nothing, so it never meets 8.
    assert_eq!(compare(&record, &[]).told(), [3, 1]);
    state.parameters.g = 1;
    let record = record_of(&state, late);
    assert_eq!(read_into(&record, 2).0, [9]);
    assert_eq!(compare(&record, &[]).told(), [9, 1]);
    assert_eq!(read_into(&record_of(&state, 1), 2).0, [4, 1, 1]);
    state.b[1] = 0;
    assert_eq!(read_into(&record_of(&state, 1), 2).0, [4, 6, 1]);
    state.barriers[1] = 1;
    assert_eq!(read_into(&record_of(&state, 1), 2).0, [5, 2, 0]);
    state.u[0] = 0;
    assert_eq!(read_into(&record_of(&state, 1), 2).0, [5, 2, 1]);
    state.u[1] = 0;
    assert_eq!(read_into(&record_of(&state, 1), 2).0, [5, 3, 0]);
    state.v = vec![0, 0];
    assert_read(&record_of(&state, 1), 2, &state, 1);
}

#[test]
fn a_value_is_reported_by_field_and_not_by_place() {
    let mut state = two_cells();
    state.h[1] = 999;
    state.b[0] = -1;
    state.u[1] = 5_001;
    state.v[0] = -5_001;
    state.barriers = vec![255, 4];
    let mut fields = record_fields(&state, 3);
    fields.reverse();
    assert_refused(&fields.concat(), &[4, 0, 1], "h");
    state.h[1] = 1_000;
    assert_refused(&record_of(&state, 3), &[4, 1, 0], "b");
    state.b[0] = 0;
    assert_refused(&record_of(&state, 3), &[4, 2, 1], "u");
    state.u[1] = 5_000;
    assert_refused(&record_of(&state, 3), &[4, 3, 0], "v");
    state.v[0] = -5_000;
    assert_refused(&record_of(&state, 3), &[4, 6, 0], "barriers");
    state.barriers[0] = 0;
    assert_refused(&record_of(&state, 3), &[4, 6, 1], "barriers");
    state.barriers[1] = 0;
    assert_read(&record_of(&state, 3), 2, &state, 3);
}

#[test]
fn numbers_of_every_sign_are_read_and_bounded() {
    // Lowest and highest four-byte and two-byte numbers.
    for value in [i32::MIN.into(), -1, i32::MAX.into()] {
        let mut state = two_cells();
        state.h[0] = value;
        assert_refused(&record_of(&state, 0), &[4, 0, 0], "h");
        state = two_cells();
        state.b[1] = value;
        assert_refused(&record_of(&state, 0), &[4, 1, 1], "b");
        for constant in 0..2 {
            state = two_cells();
            match constant {
                0 => state.parameters.g = value,
                _ => state.parameters.r = value,
            }
            assert_refused(&record_of(&state, 0), &[3], "constant");
        }
    }
    for value in [i16::MIN.into(), i16::MAX.into()] {
        let mut state = two_cells();
        state.u[1] = value;
        assert_refused(&record_of(&state, 0), &[4, 2, 1], "u");
        state = two_cells();
        state.v[1] = value;
        assert_refused(&record_of(&state, 0), &[4, 3, 1], "v");
    }
    let mut state = two_cells();
    state.parameters.c = -10_000;
    state.u = vec![-5_000, 5_000];
    assert_read(&written(&state, 9), 2, &state, 9);
}

/// A state that differs from the given one in one number, still within the
/// limits.
fn neighbour(random: &mut Random, state: &State) -> State {
    loop {
        let mut other = state.clone();
        let k = random.below(state.h.len());
        let by = random.pick(&[-1, 1]);
        let p = &mut other.parameters;
        match random.below(8) {
            0 => p.g += by,
            1 => p.c += by,
            2 => p.r += by,
            3 => other.h[k] += by,
            4 => other.b[k] += by,
            5 => other.u[k] += by,
            6 => other.v[k] += by,
            _ => other.barriers[k] ^= random.pick(&[1, 2, 3]),
        }
        if within_limits(&other) {
            return other;
        }
    }
}

/// By second, then by millisecond, then by state.
fn expected_comparison(time: Timestamp, other: Timestamp, same: bool) -> CompareAnswer {
    let later = |a: Timestamp, b: Timestamp| {
        a.seconds > b.seconds || a.seconds == b.seconds && a.milliseconds > b.milliseconds
    };
    if later(time, other) {
        CompareAnswer::FirstNewer
    } else if later(other, time) {
        CompareAnswer::SecondNewer
    } else if same {
        CompareAnswer::Same
    } else {
        CompareAnswer::Conflict
    }
}

#[test]
fn comparison_goes_by_second_then_millisecond_up_to_the_last() {
    let (state, mut other) = (two_cells(), two_cells());
    other.h[0] += 1;
    let moments = [0, 1, 4, 5, 1 << 32, 1 << 63, u64::MAX]
        .into_iter()
        .flat_map(|seconds| [0, 1, 255, 256, 998, 999].map(|ms| moment(seconds, ms)));
    for time in moments.clone() {
        let record = record_of(&state, time);
        for later in moments.clone() {
            for (second, same) in [(&state, true), (&other, false)] {
                let expected = expected_comparison(time, later, same);
                let got = compare(&record, &record_of(second, later));
                assert_eq!(got, expected, "{time:?} {later:?}");
            }
        }
    }
}

#[test]
fn comparison_orders_by_timestamp_and_tells_states_apart() {
    let mut random = Random::new(103);
    let mut answers = [0; 4];
    for _ in 0..4_000 {
        let size = (2 + random.below(4), 2 + random.below(4));
        let kind = random.below(3) as u8;
        let spread = random.pick(&SPREADS);
        let first = random_state(&mut random, spread, size, kind);
        let second = if random.once_in(2) {
            first.clone()
        } else {
            neighbour(&mut random, &first)
        };
        let time = random_timestamp(&mut random);
        let other_time = match random.below(6) {
            0 | 1 => time,
            2 => moment(time.seconds.wrapping_add(1), time.milliseconds),
            3 => moment(time.seconds, (time.milliseconds + 1) % 1_000),
            4 => moment(time.seconds.wrapping_sub(1), 999),
            _ => random_timestamp(&mut random),
        };
        let expected = expected_comparison(time, other_time, first == second);
        // Neither the order of the tags nor a tag 8 or 9 of zeros is part of the
        // meaning.
        let a = written(&first, time);
        let b = shuffled(&mut random, &second, other_time);
        let got = compare(&a, &b);
        assert_eq!(
            got, expected,
            "{first:?} {time:?} {second:?} {other_time:?}"
        );
        let swapped = match got {
            CompareAnswer::FirstNewer => CompareAnswer::SecondNewer,
            CompareAnswer::SecondNewer => CompareAnswer::FirstNewer,
            other => other,
        };
        assert_eq!(compare(&b, &a), swapped, "{first:?} {second:?}");
        let same = first == second && time == other_time;
        assert_eq!(got == CompareAnswer::Same, same, "{first:?} {second:?}");
        assert_eq!(compare(&a, &a), CompareAnswer::Same, "{first:?}");
        let told = got.told();
        assert_eq!(told[0], 0);
        answers[told[1] as usize] += 1;
    }
    assert!(answers.iter().all(|&times| times > 200), "{answers:?}");
}

#[test]
fn comparison_tells_every_part_of_a_state_apart() {
    let mut state = two_cells_and_a_barrier();
    state.u[1] = 0;
    let record = written(&state, 5);
    let changes: [fn(&mut State); 12] = [
        |s| (s.parameters.w, s.parameters.n) = (1, 2),
        |s| {
            s.parameters.kind = 1;
            s.v = vec![0, 0];
        },
        |s| s.parameters.g += 1,
        |s| s.parameters.c += 1,
        |s| s.parameters.r += 1,
        |s| s.h[1] += 1,
        |s| s.b[0] += 1,
        |s| s.u[0] += 1,
        |s| s.v[0] -= 1,
        |s| s.barriers[1] = 0,
        |s| s.barriers[1] = 1,
        |s| s.barriers[1] = 3,
    ];
    for change in changes {
        let mut other = state.clone();
        change(&mut other);
        let told = |time: u64| compare(&record, &written(&other, time)).told();
        assert_eq!(told(5), [0, 3], "{other:?}");
        assert_eq!(told(4), [0, 1], "{other:?}");
        assert_eq!(told(6), [0, 2], "{other:?}");
    }
    // Equal states under two timestamps are told by the newer one.
    assert_eq!(compare(&record, &written(&state, 4)).told(), [0, 1]);
    assert_eq!(compare(&record, &written(&state, u64::MAX)).told(), [0, 2]);
    assert_eq!(compare(&record, &record).told(), [0, 0]);
}

#[test]
fn comparison_tells_kinds_apart() {
    // At rest a state is within the limits under each kind.
    let mut states = [two_cells(), two_cells(), two_cells()];
    for (kind, state) in states.iter_mut().enumerate() {
        state.parameters.kind = kind as u8;
        (state.u, state.v) = (vec![0, 0], vec![0, 0]);
    }
    for first in &states {
        for second in &states {
            let same = first.parameters.kind == second.parameters.kind;
            let expected = if same { [0, 0] } else { [0, 3] };
            let told = compare(&written(first, 1), &written(second, 1)).told();
            assert_eq!(told, expected);
        }
    }
}

#[test]
fn comparison_says_which_record_is_refused() {
    let good = record_of(&two_cells(), 1);
    type Change = fn(&mut State);
    let bad: [(Change, &[i128]); 8] = [
        (|s| s.parameters.n = 65, &[1]),
        (|s| s.u.push(0), &[2]),
        (|s| s.barriers.clear(), &[2]),
        (|s| s.parameters.r = 999, &[3]),
        (|s| s.v[1] = -5_001, &[4, 3, 1]),
        (|s| s.barriers[1] = 4, &[4, 6, 1]),
        (|s| s.parameters.kind = 2, &[5, 2, 0]),
        (|s| s.barriers[1] = 3, &[5, 2, 1]),
    ];
    let records: Vec<(Vec<u8>, Vec<i128>)> = bad
        .iter()
        .map(|(change, told)| {
            let mut state = two_cells();
            change(&mut state);
            (record_of(&state, 1), told.to_vec())
        })
        .chain([
            (vec![1], vec![7, 0]),
            (record_of(&two_cells(), moment(1, 1_000)), vec![9]),
        ])
        .collect();
    let with = |told: &[i128], which: i128| {
        let mut list = vec![told[0], which];
        list.extend(&told[1..]);
        list
    };
    for (record, told) in &records {
        assert_eq!(compare(record, &good).told(), with(told, 1));
        assert_eq!(compare(&good, record).told(), with(told, 2));
        for (other, _) in &records {
            // The first record is tested wholly before the second.
            assert_eq!(compare(record, other).told(), with(told, 1));
        }
    }
}

#[test]
fn any_bytes_are_answered() {
    let mut random = Random::new(104);
    let mut numbers = [0; NUMBERS];
    for _ in 0..60_000 {
        // A good record with a few bytes changed, or bytes at random.
        let mut record = if random.once_in(10) {
            let length = random.below(90);
            (0..length).map(|_| random.next() as u8).collect()
        } else {
            let mut fields = record_fields(&two_cells(), random.next());
            match random.below(6) {
                0 => drop(fields.remove(7)),
                1 => drop(fields.remove(8)),
                2 => fields.truncate(7),
                3 => fields[7] = milliseconds_field(random.below(2_000) as u64),
                4 => fields[8][3] = random.pick(&[0, 1, 2, 3, 4, 128, 255]),
                _ => {}
            }
            fields.concat()
        };
        for _ in 0..random.below(4) {
            if !record.is_empty() {
                let place = random.below(record.len());
                record[place] = random.pick(&[0, 1, 2, 3, 4, 7, 64, 127, 128, 255]);
            }
        }
        let room = random.below(5);
        let (told, destinations) = read_into(&record, room);
        numbers[told[0] as usize] += 1;
        if told[0] != 0 {
            assert_eq!(destinations, Destinations::of(room), "{record:?}");
        }
        let other = record_of(&two_cells(), 7);
        let first = compare(&record, &other).told();
        let second = compare(&other, &record).told();
        if first[0] == 0 {
            assert_eq!(second[0], 0, "{record:?}");
        } else {
            assert_eq!((first[1], second[1]), (1, 2), "{record:?}");
            assert_eq!(first[2..], second[2..], "{record:?}");
        }
    }
    // Every number that a reader can give was met.
    assert!(
        [0, 1, 2, 3, 4, 5, 7, 8, 9].iter().all(|&k| numbers[k] > 20),
        "{numbers:?}"
    );
}
