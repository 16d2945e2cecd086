//! Empty lists, and lists beside memory that nobody may touch. Every list of
//! every call is empty by itself and together with the others: as a pointer to
//! no memory at all, which an empty `Vec` has, as one between two fences, and as
//! one to a page without access. Then lists of any length, and the numbers that
//! a call tells, start or end beside such a page, so that a call that only reads
//! there ends the test.
//!
//! What is told and left is compared as everywhere ([`cases`]).

use crate::cases::calls::{answered, array, call_raw, expect, independent, read_of};
use crate::cases::calls::{Written, UNANSWERED};
use crate::cases::changes::Changed;
use crate::cases::common::{record_of, Random, NUMBERS};
use crate::cases::memory::{Guarded, Plain};
use crate::cases::records::{self, basin, expect_pair, expect_read};
use crate::cases::records::{hex, of_record, Lent, TIMESTAMP};
use crate::cases::rounding::{self, random_quotient};
use crate::cases::{any_numbers, random_case, Call, Case, BOUNDS, CALLS};
use basin::raw;

// ---- empty lists

#[test]
fn each_list_by_itself() {
    for call in CALLS {
        for field in 0..BOUNDS.len() {
            let mut case = Case::basin();
            case.resize(field, 0);
            let taken = call.fields().contains(&field);
            expect(&case, call, &[if taken { 2 } else { 0 }], "an empty field");
        }
        for which in 0..call.destinations() {
            let mut case = Case::basin();
            case.set_destination(call, which, 0);
            expect(&case, call, &[8], "no destination");
        }
        let mut case = Case::basin();
        case.work = 0;
        let short = call.has_work_space();
        expect(&case, call, &[if short { 2 } else { 0 }], "no work space");
        let mut case = Case::basin();
        case.record = 0;
        let short = call == Call::Write;
        expect(&case, call, &[if short { 8 } else { 0 }], "no record");
    }
}

/// A case of empty lists alone.
fn nothing(w: usize, n: usize) -> Case {
    let mut case = Case::basin();
    (case.p.w, case.p.n) = (w, n);
    case.resize_all(0);
    (case.work, case.record) = (0, 0);
    (case.vorticity, case.destinations) = (0, [0; 3]);
    case
}

#[test]
fn all_lists_at_once() {
    // No grid has 0 cells, so empty fields are never right.
    for (w, n, told) in [(3, 2, 2), (1, 1, 2), (0, 0, 1), (0, 1, 1), (1, 0, 1)] {
        for call in CALLS {
            expect(&nothing(w, n), call, &[told], "nothing");
        }
    }
    // 2^64 cells, which is 0 in 64 bits.
    for (w, n) in [(1 << 32, 1 << 32), (1 << 63, 2), (2, 1 << 63)] {
        for call in CALLS {
            expect(&nothing(w, n), call, &[1], "nothing for 2^64 cells");
        }
    }
}

#[test]
fn records_and_what_they_are_read_into() {
    let good = record_of(&basin(), TIMESTAMP);
    expect_read(&[], Lent::enough(0), &[7, 0], "nothing");
    expect_read(&[], Lent::enough(6), &[7, 0], "no record");
    expect_read(&good, Lent::enough(0), &[8], "no room at all");
    for which in 0..5 {
        let mut lent = Lent::enough(6);
        lent.fields[which] = 0;
        expect_read(&good, lent, &[8], "no room for a field");
    }

    expect_pair(&[], &[], &of_record(&[7, 0], 1), "two empty records");
    expect_pair(&[], &good, &of_record(&[7, 0], 1), "the first is empty");
    expect_pair(&good, &[], &of_record(&[7, 0], 2), "the second is empty");
}

// ---- beside memory without access

/// Room for every list that a call may be lent, and for what it tells, each
/// between two such pages.
struct Pages {
    fields: [Guarded; 6],
    barriers: Guarded,
    destinations: [Guarded; 3],
    doubles: [Guarded; 3],
    probed: Guarded,
    total: Guarded,
    stepped: [Guarded; 3],
    work: Guarded,
    records: [Guarded; 2],
    constants: Guarded,
    rounded: Guarded,
    answer: Guarded,
    /// The lists end straight before a page, or else start straight after one.
    at_end: bool,
}

/// Lends each list in its room.
fn lend_all<'a, T: Plain, const N: usize>(
    rooms: &'a mut [Guarded; N],
    lists: &[Vec<T>; N],
    at_end: bool,
) -> [&'a mut [T]; N] {
    let mut lists = lists.iter();
    rooms.each_mut().map(|room| {
        let list = lists.next().expect("as many lists as rooms");
        room.lend(list, at_end)
    })
}

impl Pages {
    fn new(at_end: bool) -> Self {
        // More than any list of the cases below.
        let room = || Guarded::new(1 << 20);
        Pages {
            fields: [(); 6].map(|()| room()),
            barriers: room(),
            destinations: [(); 3].map(|()| room()),
            doubles: [(); 3].map(|()| room()),
            probed: room(),
            total: room(),
            stepped: [(); 3].map(|()| room()),
            work: room(),
            records: [(); 2].map(|()| room()),
            constants: room(),
            rounded: room(),
            answer: room(),
            at_end,
        }
    }

    fn call(&mut self, case: &Case, call: Call, at: &str) -> u64 {
        let at_end = self.at_end;
        let before = Written::before(case, call);
        let fields = lend_all(&mut self.fields, &case.fields, at_end);
        let barriers = &*self.barriers.lend(&case.barriers, at_end);
        let doubles = before.doubles.clone().map(|list| list.0);
        let mut lent = Written {
            destinations: lend_all(&mut self.destinations, &before.destinations, at_end),
            doubles: lend_all(&mut self.doubles, &doubles, at_end),
            probed: self.probed.lend(&before.probed.0, at_end),
            total: self.total.lend(&before.total, at_end),
            stepped: lend_all(&mut self.stepped, &before.stepped, at_end),
            work: self.work.lend(&before.work, at_end),
            record: self.records[0].lend(&before.record, at_end),
        };
        let answer = array(self.answer.lend(&case.answer, at_end));
        let read = fields.each_ref().map(|field| &**field);
        let number = call_raw(case, call, (read, barriers), lent.slices(), answer);

        let expected = independent(case, call);
        assert_eq!(number, expected.told[0], "{at}: {call:?} {case:?}");
        assert_eq!(*answer, answered(&expected.told), "{at}: {call:?} {case:?}");
        assert_eq!(lent.copied(), expected.written, "{at}: {call:?} {case:?}");
        assert_eq!((read, barriers), read_of(case), "{at}");
        number
    }

    fn read(&mut self, record: &[u8], lent: Lent, at: &str) -> u64 {
        let before = records::Outcome::before(lent);
        let rooms = self.fields.first_chunk_mut().expect("four of six");
        let [h, b, u, v] = lend_all(rooms, &before.fields, self.at_end);
        let barriers = self.barriers.lend(&before.barriers, self.at_end);
        let constants = array(self.constants.lend(&lent.constants, self.at_end));
        let answer = array(self.answer.lend(&lent.answer, self.at_end));
        let lent_record = self.records[0].lend(record, self.at_end);
        let number = raw::read(lent_record, h, b, u, v, barriers, constants, answer);

        let expected = records::independent(record, lent);
        assert_eq!(number, expected.told[0], "{at}: {}", hex(record));
        assert_eq!(*answer, answered(&expected.told), "{at}: {}", hex(record));
        let fields = [h, b, u, v].map(|field| field.to_vec());
        assert_eq!(fields, expected.fields, "{at}: {}", hex(record));
        assert_eq!(barriers, expected.barriers, "{at}: {}", hex(record));
        assert_eq!(*constants, expected.constants, "{at}: {}", hex(record));
        assert_eq!(lent_record, record, "{at}");
        number
    }

    fn compare(&mut self, first: &[u8], second: &[u8], standing: [u64; 8], at: &str) -> u64 {
        let pair = [first, second].map(<[u8]>::to_vec);
        let answer = array(self.answer.lend(&standing, self.at_end));
        let [one, other] = lend_all(&mut self.records, &pair, self.at_end);
        let number = raw::compare(one, other, answer);

        let told = records::independent_pair(first, second);
        assert_eq!(number, told[0], "{at}: {} {}", hex(first), hex(second));
        assert_eq!(*answer, answered(&told), "{at}");
        assert_eq!([&*one, &*other], [first, second], "{at}");
        number
    }

    /// Whether the quotient is rounded; otherwise the number lent is kept.
    fn rnd(&mut self, (a, b): (i64, i64), lent: i64) -> bool {
        let rounded = self.rounded.lend(&[lent], self.at_end);
        let number = raw::rnd(a, b, &mut rounded[0]);
        let expected = rounding::expected(a, b, lent);
        assert_eq!((number, rounded[0]), expected, "{a} {b} over {lent}");
        number == 0
    }
}

#[test]
fn empty_lists_that_point_to_such_a_page() {
    let mut pages = Pages::new(true);
    for call in CALLS {
        assert_eq!(pages.call(&nothing(3, 2), call, "nothing"), 2);
        assert_eq!(pages.call(&nothing(0, 0), call, "nothing"), 1);
    }
    let none = Lent::enough(0);
    assert_eq!(pages.read(&[], none, "nothing"), 7);
    assert_eq!(pages.read(&record_of(&basin(), 1), none, "no room"), 8);
    assert_eq!(pages.compare(&[], &[], UNANSWERED, "nothing"), 7);
}

#[test]
fn lists_that_start_or_end_beside_such_a_page() {
    let mut random = Random::new(81);
    // By number: of calls on a state, of reads, of comparisons.
    let mut met = [[0; NUMBERS]; 3];
    // Quotients refused, and rounded.
    let mut quotients = [0; 2];
    for at_end in [false, true] {
        let mut pages = Pages::new(at_end);
        for number in 0..1_500 {
            let (case, faults) = random_case(&mut random);
            let at = format!("case {number}, {faults:?}");
            for call in CALLS {
                met[0][pages.call(&case, call, &at) as usize] += 1;
            }
            let Changed {
                record,
                good,
                cells,
                ..
            } = Changed::random(&mut random);
            let mut lent = Lent::any(&mut random, cells);
            if random.once_in(8) {
                lent.fields[random.below(5)] = random.below(cells + 1);
            }
            met[1][pages.read(&record, lent, &at) as usize] += 1;
            for (first, second) in [(&record, &good), (&good, &record)] {
                let told = pages.compare(first, second, any_numbers(&mut random), &at);
                met[2][told as usize] += 1;
            }
            let rounded = pages.rnd(random_quotient(&mut random), random.next() as i64);
            quotients[usize::from(rounded)] += 1;
        }
    }
    println!("{met:?} {quotients:?}");
    for number in [0, 1, 2, 3, 4, 5] {
        assert!(met.iter().all(|met| met[number] > 30), "{met:?}");
    }
    let others = [
        met[0][6], met[0][8], met[0][10], met[1][7], met[1][8], met[2][7],
    ];
    assert!(others.iter().all(|&times| times > 30), "{met:?}");
    assert!(met.iter().all(|met| met[9] > 30), "{met:?}");
    assert!(quotients.iter().all(|&times| times > 30), "{quotients:?}");
}
