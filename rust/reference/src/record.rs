//! The record of a state: writer, reader and comparison.
//!
//! A record is a row of fields, each a one-byte tag, a two-byte length and a
//! value; numbers are big-endian. Tag 1 holds w, n and kind, 2 holds G, c and
//! R, 3 the seconds of the timestamp (01: stamp), 4 to 7 hold h, b, u and v, 8
//! holds the milliseconds and 9 the barriers. A record may lack tag 8: its
//! milliseconds are 0. It may lack tag 9: all its barriers are 0.

use std::cmp::Ordering;

use crate::refusal::{CompareAnswer, ReadAnswer, Refusal, WriteAnswer};
use crate::state::{
    test_destinations, test_grid, test_lengths, test_recorded, Fields, Parameters, State, Timestamp,
};

const TAGS: usize = 9;
/// Tags 1 to 7 must be there.
const REQUIRED: usize = 7;
/// Tag and length of a field.
const HEAD: usize = 3;
/// Lengths of the values under tags 1 to 9, where a tag has but one.
const FIXED_LENGTHS: [Option<usize>; TAGS] = [
    Some(3),
    Some(12),
    Some(8),
    None,
    None,
    None,
    None,
    Some(2),
    None,
];

/// Bytes of a record of so many cells.
pub const fn record_size(cells: usize) -> usize {
    52 + 13 * cells
}

/// Writes the record of a state, by rising tag.
pub fn write(
    p: &Parameters,
    h: &[i64],
    b: &[i64],
    u: &[i64],
    v: &[i64],
    barriers: &[u8],
    timestamp: Timestamp,
    out: &mut [u8],
) -> WriteAnswer {
    let fields = Fields {
        h,
        b,
        u,
        v,
        barriers,
    };
    match try_write(p, fields, timestamp, out) {
        Ok(bytes) => WriteAnswer::Written { bytes },
        Err(refusal) => WriteAnswer::Refused(refusal),
    }
}

fn try_write(
    p: &Parameters,
    fields: Fields,
    timestamp: Timestamp,
    out: &mut [u8],
) -> Result<usize, Refusal> {
    let grid = test_grid(p)?;
    test_lengths(grid, fields, None)?;
    test_recorded(p, timestamp, grid, fields)?;
    let cells = grid.cells();
    test_destinations(record_size(cells), [out.len()])?;

    // Every number is within its bound by now, so the casts keep it.
    let mut writer = Writer { out, at: 0 };
    writer.head(1, 3);
    writer.put(&[p.w as u8, p.n as u8, p.kind]);
    writer.head(2, 12);
    writer.put_4([p.g, p.c, p.r].iter());
    writer.head(3, 8);
    writer.put(&timestamp.seconds.to_be_bytes());
    writer.head(4, 4 * cells);
    writer.put_4(fields.h.iter());
    writer.head(5, 4 * cells);
    writer.put_4(fields.b.iter());
    writer.head(6, 2 * cells);
    writer.put_2(fields.u.iter());
    writer.head(7, 2 * cells);
    writer.put_2(fields.v.iter());
    writer.head(8, 2);
    writer.put(&(timestamp.milliseconds as u16).to_be_bytes());
    writer.head(9, cells);
    writer.put(fields.barriers);
    Ok(writer.at)
}

struct Writer<'a> {
    out: &'a mut [u8],
    at: usize,
}

impl Writer<'_> {
    fn put(&mut self, bytes: &[u8]) {
        self.out[self.at..][..bytes.len()].copy_from_slice(bytes);
        self.at += bytes.len();
    }

    fn head(&mut self, tag: u8, length: usize) {
        self.put(&[tag]);
        self.put(&(length as u16).to_be_bytes());
    }

    fn put_4<'a>(&mut self, numbers: impl Iterator<Item = &'a i64>) {
        numbers.for_each(|&x| self.put(&(x as i32).to_be_bytes()));
    }

    fn put_2<'a>(&mut self, numbers: impl Iterator<Item = &'a i64>) {
        numbers.for_each(|&x| self.put(&(x as i16).to_be_bytes()));
    }
}

/// Reads a record into the first w·n places of five lent fields.
pub fn read(
    record: &[u8],
    h: &mut [i64],
    b: &mut [i64],
    u: &mut [i64],
    v: &mut [i64],
    barriers: &mut [u8],
) -> ReadAnswer {
    let rooms = [h.len(), b.len(), u.len(), v.len(), barriers.len()];
    match decode(record, &rooms) {
        Ok((state, timestamp)) => {
            let cells = state.h.len();
            h[..cells].copy_from_slice(&state.h);
            b[..cells].copy_from_slice(&state.b);
            u[..cells].copy_from_slice(&state.u);
            v[..cells].copy_from_slice(&state.v);
            barriers[..cells].copy_from_slice(&state.barriers);
            ReadAnswer::Read {
                parameters: state.parameters,
                timestamp,
            }
        }
        Err(refusal) => ReadAnswer::Refused(refusal),
    }
}

/// Compares two records, the first tested wholly before the second.
pub fn compare(first: &[u8], second: &[u8]) -> CompareAnswer {
    // Nothing is lent, so nothing is too short.
    let decoded = |record, number| {
        decode(record, &[]).map_err(|refusal| CompareAnswer::Refused {
            record: number,
            refusal,
        })
    };
    let (state, timestamp) = match decoded(first, 1) {
        Ok(decoded) => decoded,
        Err(answer) => return answer,
    };
    let (other_state, other_timestamp) = match decoded(second, 2) {
        Ok(decoded) => decoded,
        Err(answer) => return answer,
    };
    match timestamp.cmp(&other_timestamp) {
        Ordering::Greater => CompareAnswer::FirstNewer,
        Ordering::Less => CompareAnswer::SecondNewer,
        Ordering::Equal if state == other_state => CompareAnswer::Same,
        Ordering::Equal => CompareAnswer::Conflict,
    }
}

/// The state and timestamp of a record, after tests 7, 1, 2, 8, 3, 9, 4, 5;
/// `rooms` are the lengths of the destinations.
fn decode(record: &[u8], rooms: &[usize]) -> Result<(State, Timestamp), Refusal> {
    let (required, milliseconds, barriers) = values_by_tag(record)?;
    let [sizes, constants, seconds, h, b, u, v] = required;
    let constant = |k: usize| signed(&constants[4 * k..][..4]);
    let parameters = Parameters {
        w: usize::from(sizes[0]),
        n: usize::from(sizes[1]),
        kind: sizes[2],
        g: constant(0),
        c: constant(1),
        r: constant(2),
    };
    let grid = test_grid(&parameters)?;
    let cells = grid.cells();
    // The fields with the bytes of a cell. An absent one has no length.
    let fields = [(h, 4), (b, 4), (u, 2), (v, 2)];
    let mut fields = fields.into_iter().chain(barriers.map(|value| (value, 1)));
    if fields.any(|(value, bytes)| value.len() != bytes * cells) {
        return Err(Refusal::Lengths);
    }
    test_destinations(cells, rooms.iter().copied())?;
    let numbers = |value: &[u8], bytes| value.chunks_exact(bytes).map(signed).collect();
    let state = State {
        parameters,
        h: numbers(h, 4),
        b: numbers(b, 4),
        u: numbers(u, 2),
        v: numbers(v, 2),
        barriers: barriers.map_or(vec![0; cells], <[u8]>::to_vec),
    };
    let timestamp = Timestamp {
        seconds: unsigned(seconds),
        milliseconds: milliseconds.map_or(0, unsigned),
    };
    test_recorded(&parameters, timestamp, grid, state.fields())?;
    Ok((state, timestamp))
}

/// The values under tags 1 to 7, and those under tags 8 and 9 where these are
/// there.
type Values<'a> = ([&'a [u8]; REQUIRED], Option<&'a [u8]>, Option<&'a [u8]>);

/// Test 7: the values by their tags, those of 1, 2, 3 and 8 of the right length.
fn values_by_tag(record: &[u8]) -> Result<Values<'_>, Refusal> {
    let mut values = [None; TAGS];
    let mut offset = 0;
    while offset < record.len() {
        let damage = Refusal::Record { offset };
        let [tag, high, low, rest @ ..] = &record[offset..] else {
            return Err(damage);
        };
        let index = usize::from(*tag).wrapping_sub(1);
        let slot = values.get_mut(index).ok_or(damage)?;
        if slot.is_some() {
            return Err(damage);
        }
        let length = usize::from(u16::from_be_bytes([*high, *low]));
        let value = rest.get(..length).ok_or(damage)?;
        if FIXED_LENGTHS[index].is_some_and(|right| right != length) {
            return Err(damage);
        }
        *slot = Some(value);
        offset += HEAD + length;
    }
    let missing = Refusal::Record { offset };
    let mut required = [&[][..]; REQUIRED];
    for (place, value) in required.iter_mut().zip(values) {
        *place = value.ok_or(missing)?;
    }
    let [.., milliseconds, barriers] = values;
    Ok((required, milliseconds, barriers))
}

/// A big-endian number without a sign.
fn unsigned(bytes: &[u8]) -> u64 {
    bytes
        .iter()
        .fold(0, |number, &byte| number << 8 | u64::from(byte))
}

/// A big-endian number in two's complement.
#[inline]
fn signed(bytes: &[u8]) -> i64 {
    let negative = bytes.first().is_some_and(|&byte| byte >= 0x80);
    let sign = if negative { -1 } else { 0 };
    bytes
        .iter()
        .fold(sign, |number, &byte| number << 8 | i64::from(byte))
}
