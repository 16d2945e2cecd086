//! A record that is read, and two that are compared, by both versions: what
//! they tell and write is compared, and everything lent is looked at before and
//! after. Where that fails, the records are printed in hex.

use std::cmp::Ordering;

use basin::{raw, Comparison, Read, Refusal, Refused};
use reference::{Parameters, ReadAnswer, State, Timestamp};

use super::calls::{self, answered, array, fenced, inside, junk, junk_bytes, told};
use super::calls::{FENCE, FENCE_BYTE, UNANSWERED, UNFILLED, UNTOUCHED};
use super::common::{moment, record_of, record_size, two_cells, within_limits, Random};
use super::{any_numbers, Call, Case};

pub fn hex(record: &[u8]) -> String {
    record.iter().map(|byte| format!("{byte:02X}")).collect()
}

// ---- records to begin with

/// 3 by 2 cells in a basin.
pub fn basin() -> State {
    Case::basin().state()
}

/// No two of its bytes are the same.
pub const TIMESTAMP: Timestamp = Timestamp {
    seconds: 0x0405_0607_0809_0A0B,
    milliseconds: 0x0102,
};

/// The bytes of tag 8, which a record may lack.
pub const TAG_8: usize = 5;

/// The bytes of tag 9, which a record of so many cells may lack.
pub fn tag_9(cells: usize) -> usize {
    3 + cells
}

/// One of the state's fields, by its place in the order h, b, u, v.
pub fn field(state: &mut State, which: usize) -> &mut Vec<i64> {
    let State { h, b, u, v, .. } = state;
    [h, b, u, v].into_iter().nth(which).expect("a field")
}

// ---- reading

/// What is lent to a read beside the record.
#[derive(Clone, Copy, Debug, PartialEq)]
pub struct Lent {
    /// Lengths of h, b, u, v and the barriers.
    pub fields: [usize; 5],
    /// What stands in the constants and in the answer before the call.
    pub constants: [i64; 3],
    pub answer: [u64; 8],
}

impl Lent {
    /// Just enough for so many cells.
    pub fn enough(cells: usize) -> Self {
        Lent {
            fields: [cells; 5],
            // More than four bytes of a record make.
            constants: [1, 2, 3].map(|k| UNFILLED / 2 + k),
            answer: UNANSWERED,
        }
    }

    /// Enough for so many cells, or more, and any numbers in the constants and
    /// in the answer.
    pub fn any(random: &mut Random, cells: usize) -> Self {
        Lent {
            fields: [(); 5].map(|()| cells + random.pick(&[0, 0, 1, 5])),
            constants: [(); 3].map(|()| random.next() as i64),
            answer: any_numbers(random),
        }
    }
}

/// What a read tells, and what is then in all that it may write to, but for its
/// answer.
#[derive(Clone, Debug, PartialEq)]
pub struct Outcome {
    /// 0, w, n, kind, seconds and milliseconds; or the refusal's number and
    /// values.
    pub told: Vec<u64>,
    /// h, b, u, v
    pub fields: [Vec<i64>; 4],
    pub barriers: Vec<u8>,
    /// G, c, R
    pub constants: [i64; 3],
}

impl Outcome {
    /// Nothing told, and the lists as they are lent.
    pub fn before(lent: Lent) -> Self {
        Outcome {
            told: vec![],
            fields: std::array::from_fn(|k| junk(lent.fields[k], k)),
            barriers: junk_bytes(lent.fields[4]),
            constants: lent.constants,
        }
    }

    fn is_accepted(&self) -> bool {
        self.told[0] == 0
    }

    /// The state and timestamp that were read, if one was.
    pub fn state(&self) -> Option<(State, Timestamp)> {
        let [0, w, n, kind, seconds, milliseconds] = self.told[..] else {
            return None;
        };
        let [g, c, r] = self.constants;
        let parameters = Parameters {
            w: w as usize,
            n: n as usize,
            kind: kind as u8,
            g,
            c,
            r,
        };
        let cells = parameters.w * parameters.n;
        let [h, b, u, v] = self.fields.each_ref().map(|field| field[..cells].to_vec());
        let state = State {
            parameters,
            h,
            b,
            u,
            v,
            barriers: self.barriers[..cells].to_vec(),
        };
        Some((state, moment(seconds, milliseconds)))
    }
}

/// What an accepted read tells of w, n and kind, and of the timestamp.
fn accepted([w, n, kind]: [usize; 3], time: Timestamp) -> [u64; 6] {
    let [w, n, kind] = [w, n, kind].map(|number| number as u64);
    [0, w, n, kind, time.seconds, time.milliseconds]
}

/// The independent version.
pub fn independent(record: &[u8], lent: Lent) -> Outcome {
    let mut outcome = Outcome::before(lent);
    let [h, b, u, v] = &mut outcome.fields;
    outcome.told = match reference::read(record, h, b, u, v, &mut outcome.barriers) {
        ReadAnswer::Read {
            parameters: p,
            timestamp,
        } => {
            outcome.constants = [p.g, p.c, p.r];
            accepted([p.w, p.n, p.kind.into()], timestamp).to_vec()
        }
        ReadAnswer::Refused(refusal) => refusal.told().iter().map(|&x| x as u64).collect(),
    };
    outcome
}

/// The proved library, by its safe call.
fn proved(record: &[u8], lent: Lent) -> Outcome {
    let mut outcome = Outcome::before(lent);
    let [h, b, u, v] = &mut outcome.fields;
    outcome.told = match basin::read(record, h, b, u, v, &mut outcome.barriers) {
        Ok(Read {
            parameters: p,
            timestamp: time,
        }) => {
            outcome.constants = [p.g, p.c, p.r];
            let time = moment(time.seconds, time.milliseconds);
            accepted([p.w, p.n, p.kind.into()], time).to_vec()
        }
        Err(refusal) => told(Err(refusal)),
    };
    outcome
}

/// What both give; `at` is where the record came from.
pub fn compare_read(record: &[u8], lent: Lent, at: &str) -> Outcome {
    let sides = || {
        let record = hex(record);
        format!("{at}: the proved library (left) and the independent version (right) read {record} into {lent:?}")
    };
    let expected = independent(record, lent);

    // The function of the C interface, between fences.
    let fenced_record = fenced(record, FENCE_BYTE);
    let before = Outcome::before(lent);
    let mut fields = before.fields.each_ref().map(|field| fenced(field, FENCE));
    let mut barriers = fenced(&before.barriers, FENCE_BYTE);
    let mut constants = fenced(&before.constants, FENCE);
    let mut answer = fenced(&lent.answer, UNTOUCHED);
    let [h, b, u, v] = fields.each_mut().map(|field| inside(field));
    let number = raw::read(
        &fenced_record[1..=record.len()],
        h,
        b,
        u,
        v,
        inside(&mut barriers),
        array(inside(&mut constants)),
        array(inside(&mut answer)),
    );
    assert_eq!(number, expected.told[0], "{}", sides());
    let left = fenced(&answered(&expected.told), UNTOUCHED);
    assert_eq!(answer, left, "{}", sides());
    let left = expected.fields.each_ref().map(|field| fenced(field, FENCE));
    assert_eq!(fields, left, "{}", sides());
    let left = fenced(&expected.barriers, FENCE_BYTE);
    assert_eq!(barriers, left, "{}", sides());
    let left = fenced(&expected.constants, FENCE);
    assert_eq!(constants, left, "{}", sides());
    assert_untouched(&fenced_record, record, at);

    let got = proved(record, lent);
    assert_eq!(got, expected, "{}", sides());
    assert_left(record, &before, &got, at);
    got
}

/// Both tell this.
pub fn expect_read(record: &[u8], lent: Lent, told: &[u64], at: &str) -> Outcome {
    let outcome = compare_read(record, lent, at);
    assert_eq!(outcome.told, told, "{at}: {} into {lent:?}", hex(record));
    outcome
}

fn assert_untouched(fenced: &[u8], record: &[u8], at: &str) {
    let same = matches!(fenced, [FENCE_BYTE, within @ .., FENCE_BYTE] if within == record);
    assert!(same, "{at}: left {} of {}", hex(fenced), hex(record));
}

/// What 01 says of all that is lent, whatever the numbers: a refused read leaves
/// everything, an accepted one gives a state within the limits, in the constants
/// and in the first places of the fields, and leaves the other places.
fn assert_left(record: &[u8], before: &Outcome, got: &Outcome, at: &str) {
    if !got.is_accepted() {
        let left = Outcome {
            told: got.told.clone(),
            ..before.clone()
        };
        assert_eq!(got, &left, "{at}: refused, not left by {}", hex(record));
        return;
    }
    let cells = (got.told[1] * got.told[2]) as usize;
    let lacking = record_size(cells) - record.len();
    let both = TAG_8 + tag_9(cells);
    let known = [0, TAG_8, tag_9(cells), both].contains(&lacking);
    assert!(known, "{at}: {}", hex(record));
    for (after, before) in got.fields.iter().zip(&before.fields) {
        let (after, before) = (&after[cells..], &before[cells..]);
        assert_eq!(after, before, "{at}: not left by {}", hex(record));
    }
    let (after, before) = (&got.barriers[cells..], &before.barriers[cells..]);
    assert_eq!(after, before, "{at}: not left by {}", hex(record));
    let (state, _) = got.state().expect("one was read");
    assert!(within_limits(&state), "{at}: read from {}", hex(record));
}

// ---- comparing

/// What both tell, whatever stands in the answer before; `at` is where the
/// records came from.
pub fn compare_pair(first: &[u8], second: &[u8], answer: [u64; 8], at: &str) -> Vec<u64> {
    let sides = || {
        let (first, second) = (hex(first), hex(second));
        format!("{at}: the proved library (left) and the independent version (right) compare {first} with {second}")
    };
    let expected = independent_pair(first, second);

    let fenced_records = [first, second].map(|record| fenced(record, FENCE_BYTE));
    let mut answer = fenced(&answer, UNTOUCHED);
    let number = raw::compare(
        &fenced_records[0][1..=first.len()],
        &fenced_records[1][1..=second.len()],
        array(inside(&mut answer)),
    );
    assert_eq!(number, expected[0], "{}", sides());
    let left = fenced(&answered(&expected), UNTOUCHED);
    assert_eq!(answer, left, "{}", sides());
    for (after, record) in fenced_records.iter().zip([first, second]) {
        assert_untouched(after, record, at);
    }

    let got = match basin::compare(first, second) {
        Ok(Comparison::Same) => vec![0, 0],
        Ok(Comparison::FirstNewer) => vec![0, 1],
        Ok(Comparison::SecondNewer) => vec![0, 2],
        Ok(Comparison::Conflict) => vec![0, 3],
        Err(Refused { record, refusal }) => {
            assert_ne!(refusal, Refusal::Destination, "{at}: none is lent");
            of_record(&told(Err(refusal)), record)
        }
    };
    assert_eq!(got, expected, "{}", sides());
    got
}

pub fn independent_pair(first: &[u8], second: &[u8]) -> Vec<u64> {
    let told = reference::compare(first, second).told();
    told.iter().map(|&x| x as u64).collect()
}

/// What a comparison tells where reading this record tells so.
pub fn of_record(told: &[u64], record: u8) -> Vec<u64> {
    let mut of_record = vec![told[0], record.into()];
    of_record.extend(&told[1..]);
    of_record
}

/// What a comparison of two good records tells after its 0.
pub fn answer_for(time: impl Into<Timestamp>, other_time: impl Into<Timestamp>, same: bool) -> u64 {
    let (time, other) = (time.into(), other_time.into());
    let by_second = time.seconds.cmp(&other.seconds);
    match by_second.then(time.milliseconds.cmp(&other.milliseconds)) {
        Ordering::Greater => 1,
        Ordering::Less => 2,
        Ordering::Equal if same => 0,
        Ordering::Equal => 3,
    }
}

/// Both tell this.
pub fn expect_pair(first: &[u8], second: &[u8], told: &[u64], at: &str) {
    let got = compare_pair(first, second, UNANSWERED, at);
    assert_eq!(got, told, "{at}: {} and {}", hex(first), hex(second));
}

// ---- what a record of this state does

/// What a read of this state's record tells.
pub fn told_for(state: &State, timestamp: impl Into<Timestamp>) -> [u64; 6] {
    let p = state.parameters;
    accepted([p.w, p.n, p.kind.into()], timestamp.into())
}

/// Reads a record of a state within the limits: what is told and filled in is
/// that state.
pub fn expect_state(
    record: &[u8],
    lent: Lent,
    (state, timestamp): (&State, impl Into<Timestamp>),
    at: &str,
) {
    let outcome = expect_read(record, lent, &told_for(state, timestamp), at);
    let (read, _) = outcome.state().expect("one was read");
    assert_eq!(&read, state, "{at}: {}", hex(record));
}

/// Reading the record is refused with this, and so is comparing it with a good
/// one, whichever is the first.
pub fn expect_refused(record: &[u8], told: &[u64], at: &str) {
    let good = record_of(&two_cells(), TIMESTAMP);
    expect_read(record, Lent::enough(64), told, at);
    expect_pair(record, &good, &of_record(told, 1), at);
    expect_pair(&good, record, &of_record(told, 2), at);
}

/// Writes a state by both versions.
pub fn written(state: &State, timestamp: impl Into<Timestamp>, at: &str) -> Vec<u8> {
    let cells = state.h.len();
    let mut case = Case::beside(state.clone(), vec![0; cells], vec![0; cells]);
    case.timestamp = timestamp.into();
    let outcome = calls::compare(&case, Call::Write, at);
    assert_eq!(outcome.told, [0, record_size(cells) as u64], "{at}");
    outcome.written.record
}
