//! Numbers and lengths near the limits of the machine: sides, run lengths and
//! timestamps of all 64 bits, products that wrap to a small number, and lists of
//! up to 2^40 bytes, of which only what is used takes memory. What is told and
//! left is what 01 says: a field of another length than w·n is a 2 however long,
//! and of a work space or destination only the first places matter. Nothing goes
//! over a whole list, or these tests would not end.
//!
//! (The least and the greatest number in every field and constant, and sides
//! whose product is the length of the fields, are in comparison.rs too.)

use crate::cases::calls::{answered, array, call_raw, compare, expect, independent, parameters};
use crate::cases::calls::{read_of, timestamp, Doubles, Written};
use crate::cases::calls::{FENCE, FENCE_BYTE, FENCE_DOUBLE, UNANSWERED, UNTOUCHED};
use crate::cases::common::{moment, record_field, record_fields, record_of, record_size};
use crate::cases::memory::{Mapping, Plain};
use crate::cases::records::{self, basin, expect_pair, expect_state, independent_pair};
use crate::cases::records::{of_record, written, Lent, TIMESTAMP};
use crate::cases::{Call, Case, BARRIERS, CALLS, H, S, U, V};
use basin::{raw, Refusal};

// ---- numbers

#[test]
fn sides_whose_products_wrap() {
    // w·n, 8·w·n or 13·w·n is small, in 64 bits or in 32.
    let sides: [(usize, usize); 14] = [
        (1 << 32, 1 << 32),
        (1 << 32, 1 << 29),
        (1 << 61, 1),
        (1, 1 << 61),
        ((1 << 61) + 1, 1),
        ((1 << 61) + 3, 2),
        (1 << 62, 6),
        ((1 << 63) + 3, 2),
        ((1 << 32) + 3, 2),
        (3, (1 << 32) + 2),
        (usize::MAX, usize::MAX),
        (usize::MAX, 1),
        (usize::MAX / 13 + 1, 1),
        (usize::MAX - 2, usize::MAX - 1),
    ];
    for (w, n) in sides {
        let cells = w.wrapping_mul(n);
        // The fields, work space and record that a wrapping product asks for,
        // and those of the basin.
        for length in [cells.min(4_096), 6] {
            let mut case = Case::basin();
            (case.p.w, case.p.n) = (w, n);
            case.resize_all(length);
            (case.vorticity, case.destinations) = (length, [length; 3]);
            for work in [cells.wrapping_mul(8), 48, 0, usize::MAX] {
                case.work = work;
                case.record = cells.wrapping_mul(13).wrapping_add(52).min(70_000);
                for call in CALLS {
                    expect(&case, call, &[1], "sides");
                }
            }
        }
    }
}

#[test]
fn run_lengths_of_64_bits() {
    let long = [10_001, 1 << 16, (1 << 32) + 3, (1 << 63) + 3, u64::MAX];
    for steps in long {
        let mut case = Case::basin();
        case.steps = steps;
        expect(&case, Call::Run, &[1], "a long run");
    }
    // The longest there is, to its end: what comes in goes out again.
    let mut case = Case::basin();
    case.fields[S] = vec![1, -1, 2, -2, 3, -3];
    case.steps = 10_000;
    assert_eq!(compare(&case, Call::Run, "10,000").told, [0, 10_000]);
}

#[test]
fn all_numbers_the_least_and_the_greatest() {
    for number in [i64::MIN, i64::MIN + 1, -1, i64::MAX - 1, i64::MAX] {
        // Every constant by itself and together, with the fields good and bad.
        for constants in 0..8 {
            let mut case = Case::basin();
            let p = &mut case.p;
            let places = [&mut p.g, &mut p.c, &mut p.r];
            for (k, place) in places.into_iter().enumerate() {
                if constants >> k & 1 == 1 {
                    *place = number;
                }
            }
            // c may be -1.
            let good = constants == 0 || number == -1 && constants == 2;
            for call in CALLS {
                expect(&case, call, &[if good { 0 } else { 3 }], "constants");
            }
            case.fields.iter_mut().for_each(|field| field.fill(number));
            let told: &[u64] = if good { &[4, 0, 0] } else { &[3] };
            for call in CALLS {
                expect(&case, call, told, "all numbers");
            }
        }
    }
}

#[test]
fn the_first_and_the_last_timestamp() {
    let end = moment(u64::MAX, 999);
    let first = written(&basin(), 0, "the first");
    let last = written(&basin(), end, "the last");
    expect_state(&first, Lent::enough(6), (&basin(), 0), "the first");
    expect_state(&last, Lent::enough(6), (&basin(), end), "the last");
    expect_pair(&first, &last, &[0, 2], "the last is newer");
    expect_pair(&last, &first, &[0, 1], "the last is newer");
    expect_pair(&last, &last, &[0, 0], "the same");
}

// ---- long lists

/// Lengths about as long as 32 bits hold (the first: its bytes) and longer, as
/// far as the list goes. A narrower number would take them for negative, for
/// none, for one place fewer than `part`, or for just so many.
fn lengths(part: usize, most: usize) -> Vec<usize> {
    let word = 1 << 32;
    let lengths = [word / 8, word - 1, word, word + part - 1, word + part, most];
    lengths
        .into_iter()
        .filter(|&length| length <= most)
        .collect()
}

/// Places past the first `part` of a list to look at, near and far.
fn places(part: usize, length: usize) -> Vec<usize> {
    let word = 1 << 32;
    let near = [part, part + 1, part + 63, 2 * part, 9 * part, 4_096];
    let far = [
        word / 8,
        word - 1,
        word,
        word + part,
        length / 2,
        length - 1,
    ];
    let places = near.into_iter().chain(far);
    places
        .filter(|place| (part..length).contains(place))
        .collect()
}

/// A long list that starts with these numbers and has marks further on.
struct Long<'a, T> {
    list: &'a mut [T],
    part: usize,
    mark: T,
}

impl<'a, T: Plain + PartialEq + std::fmt::Debug> Long<'a, T> {
    fn new(list: &'a mut [T], start: &[T], mark: T) -> Self {
        let part = start.len();
        list[..part].copy_from_slice(start);
        for place in places(part, list.len()) {
            list[place] = mark;
        }
        Long { list, part, mark }
    }

    /// The numbers at its start are these now, and the marks are as they were.
    fn assert_left(&self, start: &[T], at: &str) {
        assert_eq!(&self.list[..self.part], start, "{at}");
        for place in places(self.part, self.list.len()) {
            assert_eq!(self.list[place], self.mark, "{at}: place {place}");
        }
    }
}

/// One of the lists of numbers that a call is lent.
#[derive(Clone, Copy, Debug)]
enum List {
    Field(usize),
    Destination(usize),
    Work,
}

impl List {
    fn of(call: Call) -> Vec<Self> {
        // Barriers are bytes, and have a test of their own.
        let numbers = call.fields().iter().filter(|&&field| field != BARRIERS);
        let fields = numbers.map(|&field| List::Field(field));
        // So have doubles.
        let destinations = if call.is_probing() {
            0
        } else {
            call.destinations()
        };
        let destinations = (0..destinations).map(List::Destination);
        let work = call.is_stepping().then_some(List::Work);
        fields.chain(destinations).chain(work).collect()
    }

    /// What the call is lent, or leaves, there.
    fn numbers<'a>(self, case: &'a Case, written: &'a Written) -> &'a [i64] {
        match self {
            List::Field(k) => &case.fields[k],
            List::Destination(k) => &written.destinations[k],
            List::Work => &written.work,
        }
    }
}

/// The call with this one of its lists instead.
fn call_with(
    (case, call): (&Case, Call),
    list: List,
    long: &mut [i64],
    written: &mut Written,
    answer: &mut [u64; 8],
) -> u64 {
    let (mut fields, barriers) = read_of(case);
    let mut lent = written.slices();
    match list {
        List::Field(k) => match [H, U, V].into_iter().position(|stepped| stepped == k) {
            Some(place) if call.is_stepping() => lent.stepped[place] = long,
            _ => fields[k] = long,
        },
        List::Destination(k) => lent.destinations[k] = long,
        List::Work => lent.work = long,
    }
    call_raw(case, call, (fields, barriers), lent, answer)
}

/// Lends a long list for this one, and looks at all lists after the call.
fn compare_with(call: Call, list: List, long: &mut [i64], at: &str) {
    let case = Case::basin();
    let before = Written::before(&case, call);
    let accepted = independent(&case, call);
    // A field of so many numbers is refused; of the others the start is used.
    let (told, after) = match list {
        List::Field(_) => (&[2][..], &before),
        _ => (&accepted.told[..], &accepted.written),
    };
    let long = Long::new(long, list.numbers(&case, &before), FENCE);
    let mut written = before.clone();
    let mut answer = UNANSWERED;
    let number = call_with((&case, call), list, long.list, &mut written, &mut answer);
    assert_eq!(number, told[0], "{at}");
    assert_eq!(answer, answered(told), "{at}");
    long.assert_left(list.numbers(&case, after), at);
    // The short list in its place was not lent.
    let mut expected = after.clone();
    match list {
        List::Destination(k) => expected.destinations[k].clone_from(&before.destinations[k]),
        List::Work => expected.work.clone_from(&before.work),
        List::Field(_) => {}
    }
    assert_eq!(written, expected, "{at}");
}

#[test]
fn each_list_of_numbers_of_each_call() {
    let mut mapping = Mapping::long();
    let all: &mut [i64] = mapping.list();
    let mut lists = 0;
    for call in CALLS {
        for list in List::of(call) {
            let case = Case::basin();
            let part = list.numbers(&case, &Written::before(&case, call)).len();
            for length in lengths(part, all.len()) {
                let at = format!("{call:?}, {list:?} of {length}");
                compare_with(call, list, &mut all[..length], &at);
                lists += 1;
            }
        }
    }
    println!("{lists} lists, the longest of {}", all.len());
    assert!(lists > 100, "{lists}");
}

#[test]
fn barriers_of_each_call() {
    let mut mapping = Mapping::long();
    let all: &mut [u8] = mapping.list();
    let case = Case::basin();
    let (fields, barriers) = read_of(&case);
    for call in CALLS {
        let before = Written::before(&case, call);
        for length in lengths(6, all.len()) {
            let at = format!("{call:?}, {length} barriers");
            let long = Long::new(&mut all[..length], barriers, FENCE_BYTE);
            let mut written = before.clone();
            let mut answer = UNANSWERED;
            let read = (fields, &*long.list);
            let number = call_raw(&case, call, read, written.slices(), &mut answer);
            assert_eq!((number, answer), (2, answered(&[2])), "{at}");
            assert_eq!(written, before, "{at}");
            long.assert_left(barriers, &at);
        }
    }
}

#[test]
fn doubles_of_a_grid_into_long_lists() {
    let mut mapping = Mapping::long();
    let all: &mut [f64] = mapping.list();
    let case = Case::basin();
    let expected = independent(&case, Call::ProbeGrid);
    let before = Written::before(&case, Call::ProbeGrid);
    for which in 0..3 {
        for length in lengths(6, all.len()) {
            let at = format!("doubles {which} of {length}");
            let long = Long::new(&mut all[..length], &before.doubles[which].0, FENCE_DOUBLE);
            let mut written = before.clone();
            let mut lent = written.slices();
            lent.doubles[which] = long.list;
            let mut answer = UNANSWERED;
            let number = call_raw(&case, Call::ProbeGrid, read_of(&case), lent, &mut answer);
            assert_eq!((number, answer), (0, answered(&expected.told)), "{at}");
            let filled = Doubles(long.list[..6].to_vec());
            assert_eq!(filled, expected.written.doubles[which], "{at}");
            long.assert_left(&filled.0, &at);
            // The short list in its place was not lent.
            let mut others = expected.written.clone();
            others.doubles[which].clone_from(&before.doubles[which]);
            assert_eq!(written, others, "{at}");
        }
    }
}

#[test]
fn records_that_are_long_places_to_write_to() {
    let mut mapping = Mapping::long();
    let case = Case::basin();
    let expected = independent(&case, Call::Write);
    let before = Written::before(&case, Call::Write);
    let all: &mut [u8] = mapping.list();
    for length in lengths(record_size(6), all.len()) {
        let long = Long::new(&mut all[..length], &before.record, FENCE_BYTE);
        let mut written = before.clone();
        let mut lent = written.slices();
        lent.record = long.list;
        let mut answer = UNANSWERED;
        call_raw(&case, Call::Write, read_of(&case), lent, &mut answer);
        assert_eq!(answer, answered(&[0, record_size(6) as u64]));
        long.assert_left(&expected.written.record, "a long record");
    }
}

/// What is told has a pointer alone: of memory that goes on for long, only the
/// one number, the three or the eight are written.
#[test]
fn what_is_told_at_the_start_of_long_memory() {
    let (mut answers, mut numbers) = (Mapping::long(), Mapping::long());
    let mut doubles = Mapping::long();
    let case = Case::basin();
    for call in CALLS {
        let expected = independent(&case, call);
        let mut written = Written::before(&case, call);
        let answer = Long::new(answers.list(), &UNANSWERED, UNTOUCHED);
        let total = Long::new(numbers.list(), &written.total, FENCE);
        let probed = Long::new(doubles.list(), &written.probed.0, FENCE_DOUBLE);
        let mut lent = written.slices();
        lent.total = &mut total.list[..total.part];
        lent.probed = &mut probed.list[..probed.part];
        let read = read_of(&case);
        call_raw(&case, call, read, lent, array(&mut answer.list[..8]));
        answer.assert_left(&answered(&expected.told), "an answer");
        total.assert_left(&expected.written.total, "a total");
        probed.assert_left(&expected.written.probed.0, "doubles");
        // Those in their places were not lent.
        written.total.clone_from(&expected.written.total);
        written.probed.clone_from(&expected.written.probed);
        assert_eq!(written, expected.written, "{call:?}");
    }

    let (record, lent) = (record_of(&basin(), TIMESTAMP), Lent::enough(6));
    let answer = Long::new(answers.list(), &UNANSWERED, UNTOUCHED);
    let constants = Long::new(numbers.list(), &lent.constants, FENCE);
    let mut filled = records::Outcome::before(lent);
    let [h, b, u, v] = &mut filled.fields;
    raw::read(
        &record,
        h,
        b,
        u,
        v,
        &mut filled.barriers,
        array(&mut constants.list[..3]),
        array(&mut answer.list[..8]),
    );
    let expected = records::independent(&record, lent);
    assert_eq!(filled.fields, expected.fields);
    assert_eq!(filled.barriers, expected.barriers);
    constants.assert_left(&expected.constants, "constants");
    answer.assert_left(&answered(&expected.told), "what is read");

    let answer = Long::new(answers.list(), &UNANSWERED, UNTOUCHED);
    raw::compare(&record, &record, array(&mut answer.list[..8]));
    answer.assert_left(&[0; 8], "a comparison");
    let rounded = Long::new(numbers.list(), &[FENCE], FENCE);
    assert_eq!(raw::rnd(-5, 2, &mut rounded.list[0]), 0);
    rounded.assert_left(&[-3], "a quotient");
}

#[test]
fn records_are_read_into_long_lists() {
    let mut mapping = Mapping::long();
    let all: &mut [i64] = mapping.list();
    let (record, lent) = (record_of(&basin(), TIMESTAMP), Lent::enough(6));
    let expected = records::independent(&record, lent);
    let read = |[h, b, u, v]: [&mut [i64]; 4], barriers: &mut [u8], at: &str| {
        let (mut constants, mut answer) = (lent.constants, lent.answer);
        raw::read(&record, h, b, u, v, barriers, &mut constants, &mut answer);
        assert_eq!(answer, answered(&expected.told), "{at}");
        assert_eq!(constants, expected.constants, "{at}");
    };
    for which in 0..4 {
        let mut short = records::Outcome::before(lent);
        let start = short.fields[which].clone();
        for length in lengths(start.len(), all.len()) {
            let at = format!("field {which} of {length}");
            let long = Long::new(&mut all[..length], &start, FENCE);
            let mut fields = short.fields.each_mut().map(Vec::as_mut_slice);
            fields[which] = long.list;
            read(fields, &mut short.barriers, &at);
            long.assert_left(&expected.fields[which], &at);
        }
        short.fields[which].clone_from(&expected.fields[which]);
        assert_eq!(short.fields, expected.fields, "{which}");
        assert_eq!(short.barriers, expected.barriers, "{which}");
    }
    let all: &mut [u8] = mapping.list();
    let mut short = records::Outcome::before(lent);
    for length in lengths(6, all.len()) {
        let at = format!("{length} barriers");
        let long = Long::new(&mut all[..length], &short.barriers, FENCE_BYTE);
        let fields = short.fields.each_mut().map(Vec::as_mut_slice);
        read(fields, long.list, &at);
        assert_eq!(short.fields, expected.fields, "{at}");
        long.assert_left(&expected.barriers, &at);
    }
}

/// Starts of records, and the offset that is told where zeros follow for long.
fn damaged_by_zeros() -> Vec<(Vec<u8>, u64)> {
    let fields = record_fields(&basin(), TIMESTAMP);
    let [good, seven, eight] = [9, 7, 8].map(|count| fields[..count].concat());
    let longest = [4, 5, 6, 7, 9].map(|tag| record_field(tag, &[1; 0xFFFF]));
    let longest = [fields[..3].concat(), longest.concat()].concat();
    let mut starts = vec![
        // No tag is 0.
        (vec![], 0),
        (good.clone(), 130),
        (longest, 47 + 5 * 0xFFFF),
        (fields[..6].concat(), 101),
        // Two bytes of a tag's length, and all of them, are zeros.
        (vec![1], 0),
        (vec![4], 3),
        // One tag once more, and one that is none.
        ([good.clone(), vec![7, 0, 12]].concat(), 130),
        ([good.clone(), vec![8, 0, 2]].concat(), 130),
        ([good.clone(), vec![9]].concat(), 130),
        ([good.clone(), vec![10]].concat(), 130),
        // Tag 8 of no bytes, and of two, which the zeros are.
        ([seven.clone(), vec![8]].concat(), 116),
        ([seven, vec![8, 0, 2]].concat(), 121),
        // Tag 9 of no bytes, which is damage behind it, and of six zeros.
        ([eight.clone(), vec![9]].concat(), 124),
        ([eight, vec![9, 0, 6]].concat(), 130),
    ];
    // The last value goes on into the zeros, which are enough for it.
    starts.push((good[..110].to_vec(), 116));
    starts
}

#[test]
fn records_that_go_on_for_long() {
    let mut mapping = Mapping::long();
    let all: &mut [u8] = mapping.list();
    let good = record_of(&basin(), TIMESTAMP);
    for (start, offset) in damaged_by_zeros() {
        for length in lengths(start.len(), all.len()) {
            let record = &mut all[..length];
            record[..start.len()].copy_from_slice(&start);
            let at = format!("{} bytes of a record of {length}", start.len());
            refused_at(record, offset, &at);
            for (first, second, which) in [
                (&*record, &good[..], 1),
                (&good, record, 2),
                (record, record, 1),
            ] {
                let told = of_record(&[7, offset], which);
                assert_eq!(independent_pair(first, second), told, "{at}");
                let mut answer = UNANSWERED;
                raw::compare(first, second, &mut answer);
                assert_eq!(answer, answered(&told), "{at}");
            }
            all[..start.len()].fill(0);
        }
    }
}

/// Both versions refuse to read it with 7, and leave what it was to be read
/// into.
fn refused_at(record: &[u8], offset: u64, at: &str) {
    let told = [7, offset];
    let before = records::Outcome::before(Lent::enough(6));
    let mut left = before.clone();
    let ([h, b, u, v], z) = (&mut left.fields, &mut left.barriers);
    let expected = reference::read(record, h, b, u, v, z);
    assert_eq!(expected.told(), told.map(i128::from), "{at}");
    let mut answer = UNANSWERED;
    raw::read(record, h, b, u, v, z, &mut left.constants, &mut answer);
    assert_eq!(answer, answered(&told), "{at}");
    assert_eq!(left, before, "{at}");
}

// ---- several long lists at once, by the safe calls

/// Eight lists of the addresses that the machine gives, more than 2^32 numbers
/// each where it gives 2^40.
fn eighths(mapping: &mut Mapping) -> [&mut [i64]; 8] {
    let all: &mut [i64] = mapping.list();
    let mut parts = all.chunks_exact_mut(all.len() / 8);
    [(); 8].map(|()| parts.next().expect("eight of them"))
}

#[test]
fn destinations_and_work_space_are_long_at_once() {
    let (mut mapping, mut bytes) = (Mapping::long(), Mapping::long());
    let [dh, du, dv, work, h, b, u, v] = eighths(&mut mapping);
    let case = Case::basin();
    let p = &parameters(&case);
    let ([h0, b0, u0, v0, q, s], z) = (&case.fields, &case.barriers);
    for list in [&mut *dh, du, dv] {
        Long::new(list, &[FENCE; 6], FENCE);
    }
    let done = basin::tendencies(p, h0, b0, u0, v0, z, q, dh, du, dv);
    assert_eq!(done, Ok(()));
    let expected = independent(&case, Call::Tendencies).written.destinations;
    for (list, start) in [dh, du, dv].into_iter().zip(&expected) {
        assert_eq!(list[..6], start[..]);
        assert!(places(6, list.len()).iter().all(|&k| list[k] == FENCE));
    }

    let long = Long::new(work, &[FENCE; 48], FENCE);
    let [mut h1, mut u1, mut v1] = [h0, u0, v0].map(Vec::clone);
    let done = basin::run(p, &mut h1, b0, &mut u1, &mut v1, z, s, 3, long.list);
    assert_eq!(done.map(|ran| ran.steps), Ok(3));
    assert_eq!([h1, u1, v1], independent(&case, Call::Run).written.stepped);
    long.assert_left(&[0; 48], "a long work space");

    let record = record_of(&case.state(), moment(5, 250));
    let barriers = Long::new(bytes.list(), &[FENCE_BYTE; 6], FENCE_BYTE);
    let read = basin::read(&record, h, b, u, v, barriers.list);
    assert_eq!(
        read.map(|read| (read.parameters, read.timestamp)),
        Ok((*p, timestamp(moment(5, 250))))
    );
    for (list, field) in [h, b, u, v].into_iter().zip(&case.fields) {
        assert_eq!(list[..6], field[..]);
        assert_eq!(list[6], 0);
    }
    barriers.assert_left(z, "long barriers");
}

#[test]
fn all_fields_are_long_at_once() {
    let (mut mapping, mut bytes) = (Mapping::long(), Mapping::long());
    let mut more = Mapping::long();
    let [h, u, v, work, q, ..] = eighths(&mut mapping);
    let lengths = Refusal::Lengths;
    let p = &parameters(&Case::basin());
    // What is only read may be the same list.
    let long = &*q;
    let z: &[u8] = bytes.list();
    let refused = basin::step(p, h, long, u, v, z, long, work);
    assert_eq!(refused, Err(lengths));
    let refused = basin::run(p, h, long, u, v, z, long, 10_000, work);
    assert_eq!(refused, Err(lengths));
    for total in [basin::total_depth, basin::total_energy] {
        assert_eq!(total(p, long, long, long, long, z), Err(lengths));
    }
    let refused = basin::potential_vorticity(p, long, long, long, long, z, h);
    assert_eq!(refused, Err(lengths));
    let refused = basin::tendencies(p, long, long, long, long, z, long, h, u, v);
    assert_eq!(refused, Err(lengths));
    let refused = basin::probe(p, long, long, long, long, z, long, long.len() - 1);
    assert_eq!(refused, Err(lengths));
    let doubles: &mut [f64] = more.list();
    let (dh, rest) = doubles.split_at_mut(doubles.len() / 3);
    let (du, dv) = rest.split_at_mut(rest.len() / 2);
    let refused = basin::probe_grid(p, long, long, long, long, z, long, dh, du, dv);
    assert_eq!(refused, Err(lengths));
    let (time, mut record) = (timestamp(0.into()), [0; 130]);
    let refused = basin::write(p, long, long, long, long, z, time, &mut record);
    assert_eq!(refused, Err(lengths));
    // Of sides whose product is that length, test 1 comes first.
    let wide = &basin::Parameters {
        w: long.len(),
        n: 1,
        ..*p
    };
    let refused = basin::total_depth(wide, long, long, long, long, z);
    assert_eq!(refused, Err(Refusal::Grid));
    let refused = basin::step(wide, h, long, u, v, z, long, work);
    assert_eq!(refused, Err(Refusal::Grid));
}
