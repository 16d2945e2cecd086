//! Timestamps to the millisecond (02, request U1), by the proved library and by
//! the independent version: worked numbers, every value of tag 8, numbers of 64
//! bits, and comparisons in one second. (Its place among the tags and wrong
//! lengths are in record.rs and record_refusals.rs; refusal 9 beside other causes
//! is in record_refusals.rs and comparison.rs.)

use crate::cases::calls::expect;
use crate::cases::common::{milliseconds_field, moment, record_field, record_fields, record_of};
use crate::cases::common::{record_of_01, two_cells, TIME_NUMBERS};
use crate::cases::records::{answer_for, expect_pair, expect_read, expect_refused, expect_state};
use crate::cases::records::{of_record, written, Lent};
use crate::cases::{Call, Case, CALLS, H};
use reference::{State, Timestamp};

// ---- worked numbers, on the cell of worked example 10

fn cell(h: i64) -> State {
    State {
        h: vec![h],
        ..Case::example_2().state()
    }
}

/// Worked example 10's record, which has neither tag 8 nor tag 9.
fn dock() -> Vec<u8> {
    record_of_01(&cell(2_000), 0)
}

fn with_tag_8(record: &[u8], milliseconds: u64) -> Vec<u8> {
    [record, &milliseconds_field(milliseconds)].concat()
}

#[test]
fn worked_numbers_of_a_write() {
    let record = written(&cell(2_000), moment(5, 999), "worked");
    assert_eq!(record.len(), 65);
    assert_eq!(record[..56], record_of_01(&cell(2_000), 5));
    assert_eq!(record[56..61], [8, 0, 2, 3, 0xE7]);
    for milliseconds in [1_000, 65_536] {
        let mut case = Case::example_2();
        case.fields[H] = vec![999];
        case.record = 0;
        case.timestamp = moment(0, milliseconds);
        expect(&case, Call::Write, &[9], "worked");
    }
}

#[test]
fn worked_numbers_of_a_read() {
    let late = with_tag_8(&record_of_01(&cell(999), 0), 1_000);
    expect_read(&late, Lent::enough(1), &[9], "worked");
    let mut short = Lent::enough(1);
    short.fields[3] = 0;
    expect_read(&late, short, &[8], "worked");
    let mut weightless = cell(999);
    weightless.parameters.g = 0;
    let late = record_of(&weightless, moment(0, 1_000));
    expect_read(&late, Lent::enough(1), &[3], "worked");

    let first = [milliseconds_field(250), dock()].concat();
    expect_state(
        &first,
        Lent::enough(1),
        (&cell(2_000), moment(0, 250)),
        "worked",
    );
}

#[test]
fn worked_numbers_of_damage() {
    let short = [dock(), record_field(8, &[0])].concat();
    expect_refused(&short, &[7, 56], "worked");
    let twice = with_tag_8(&with_tag_8(&dock(), 0), 0);
    expect_refused(&twice, &[7, 61], "worked");
    // Tag 7 is 5 bytes long, as tag 8 is.
    let without_7 = with_tag_8(&dock()[..51], 0);
    expect_refused(&without_7, &[7, 56], "worked");
}

#[test]
fn worked_numbers_of_a_comparison() {
    let at = |h, seconds, milliseconds| record_of(&cell(h), moment(seconds, milliseconds));
    let old = record_of_01(&cell(2_000), 5);
    expect_pair(&at(2_001, 5, 250), &at(2_000, 5, 249), &[0, 1], "worked");
    expect_pair(&at(2_000, 4, 999), &old, &[0, 2], "worked");
    expect_pair(&old, &at(2_000, 5, 0), &[0, 0], "worked");
    expect_pair(&old, &at(2_001, 5, 0), &[0, 3], "worked");
}

// ---- every value

#[test]
fn every_value_of_tag_8_is_read_or_refused() {
    let state = Case::example_2().state();
    let good = record_of(&state, moment(5, 500));
    let mut fields = record_fields(&state, 5);
    fields.remove(7);
    let (mut accepted, mut refused) = (0, 0);
    for milliseconds in 0..=0xFFFF {
        // Each place takes its turn.
        let mut fields = fields.clone();
        fields.insert(milliseconds as usize % 9, milliseconds_field(milliseconds));
        let (record, time) = (fields.concat(), moment(5, milliseconds));
        if milliseconds <= 999 {
            expect_state(&record, Lent::enough(1), (&state, time), "a value");
            let told = answer_for(time, moment(5, 500), true);
            expect_pair(&record, &good, &[0, told], "a value");
            accepted += 1;
        } else {
            expect_read(&record, Lent::enough(1), &[9], "a value");
            expect_pair(&record, &good, &of_record(&[9], 1), "a value");
            expect_pair(&good, &record, &of_record(&[9], 2), "a value");
            refused += 1;
        }
    }
    assert_eq!((accepted, refused), (1_000, 64_536));
}

#[test]
fn seconds_and_milliseconds_of_64_bits_are_written_and_read_back_or_refused() {
    let state = two_cells();
    for time in TIME_NUMBERS
        .into_iter()
        .flat_map(|seconds| TIME_NUMBERS.map(|milliseconds| moment(seconds, milliseconds)))
    {
        if time.milliseconds <= 999 {
            let record = written(&state, time, "a moment");
            assert_eq!(record, record_of(&state, time), "{time:?}");
            expect_state(&record, Lent::enough(2), (&state, time), "a moment");
        } else {
            // No other call takes a timestamp.
            let mut case = Case::basin();
            case.timestamp = time;
            for call in CALLS {
                let told = if call == Call::Write { 9 } else { 0 };
                expect(&case, call, &[told], "a moment");
            }
        }
    }
}

// ---- comparisons

/// The records of a state at a moment: of a whole second, without tag 8 as well.
fn records_at(state: &State, time: Timestamp) -> Vec<Vec<u8>> {
    let mut records = vec![record_of(state, time)];
    if time.milliseconds == 0 {
        records.push(record_of_01(state, time.seconds));
    }
    records
}

#[test]
fn all_pairs_of_moments_with_tag_8_and_without() {
    // The last but two times 1,000 is 384 in 64 bits.
    let moments = [
        (0, 0),
        (0, 1),
        (0, 384),
        (0, 999),
        (1, 0),
        (4, 999),
        (5, 0),
        (5, 249),
        (5, 250),
        (5, 999),
        (6, 0),
        (18_446_744_073_709_552, 0),
        (u64::MAX, 0),
        (u64::MAX, 999),
    ]
    .map(|(seconds, milliseconds)| moment(seconds, milliseconds));
    let mut other = two_cells();
    other.h[1] += 1;
    let mut by_answer = [0; 4];
    for time in moments {
        for first in records_at(&two_cells(), time) {
            for other_time in moments {
                for (state, same) in [(&two_cells(), true), (&other, false)] {
                    for second in records_at(state, other_time) {
                        let told = answer_for(time, other_time, same);
                        expect_pair(&first, &second, &[0, told], "moments");
                        by_answer[told as usize] += 1;
                    }
                }
            }
        }
    }
    // 14 moments, 6 of them with two records.
    assert_eq!(by_answer.iter().sum::<usize>(), 20 * 20 * 2);
    assert_eq!(by_answer[0], 8 + 6 * 4);
    assert_eq!(by_answer[3], by_answer[0]);
    assert_eq!(by_answer[1], by_answer[2]);
}
