//! Records changed at random: in the state that is written, in the row of
//! fields, in single bytes.

use reference::{State, Timestamp};

use super::common::{random_state, random_timestamp, record_field, Random, SPREADS};
use super::common::{shuffle, shuffled, some_fields};
use super::records::field;
use super::{BOUNDS, U, V};

/// A byte that means something in a record, or any.
fn byte(random: &mut Random) -> u8 {
    match random.below(3) {
        0 => random.next() as u8,
        1 => random.below(11) as u8,
        _ => random.pick(&[0, 64, 65, 0x7F, 0x80, 0xEC, 0xFF]),
    }
}

fn any_small_state(random: &mut Random) -> State {
    let size = match random.below(8) {
        0 => (1, 1),
        1 => (1 + random.below(20), 1 + random.below(5)),
        _ => (1 + random.below(4), 1 + random.below(4)),
    };
    let (spread, kind) = (random.pick(&SPREADS), random.below(3) as u8);
    random_state(random, spread, size, kind)
}

/// Changes a number, a side, the kind, or the length of a field. The state may
/// stay within the limits.
fn change_state(random: &mut Random, state: &mut State) {
    let near = |random: &mut Random, (low, high): (i64, i64)| {
        random.pick(&[low - 1, low, high, high + 1, high + (1 << 14)])
    };
    let p = &mut state.parameters;
    let (w, side) = (p.w, random.pick(&[0, 1, p.w, p.n, 64, 65, 255]));
    match random.below(14) {
        0 => p.w = side,
        1 => p.n = side,
        2 => p.kind = random.pick(&[0, 1, 2, 3, 0x82, 0xFF]),
        3 => p.g = near(random, (1, 10_000)),
        4 => p.c = near(random, (-10_000, 10_000)),
        5 => p.r = near(random, (1_000, 1_000_000)),
        6 => {
            let which = random.below(4);
            let numbers = field(state, which);
            let length = (numbers.len() + random.below(3)).saturating_sub(1);
            numbers.resize(length, 1_000);
        }
        7..=9 => {
            let which = random.below(4);
            let number = near(random, BOUNDS[which]);
            let numbers = field(state, which);
            let cell = random.below(numbers.len().max(1));
            if let Some(place) = numbers.get_mut(cell) {
                *place = number;
            }
        }
        10 | 11 => change_barriers(random, &mut state.barriers),
        _ => {
            // A velocity, mostly on a wall where there is one.
            let which = random.pick(&[U, V]);
            let cell = match which {
                U => w * random.below(4),
                _ => random.below(w + 1),
            };
            if let Some(place) = field(state, which).get_mut(cell) {
                *place = random.pick(&[-5_000, -1, 1, 300]);
            }
        }
    }
}

/// Changes a barrier, which may be above 3 then, or their number.
fn change_barriers(random: &mut Random, barriers: &mut Vec<u8>) {
    let length = barriers.len();
    if random.once_in(4) {
        // One fewer, one more, or none.
        let length = random.pick(&[length.saturating_sub(1), length + 1, 0]);
        // A tag 9 of zeros may be left out, whatever its length.
        barriers.resize(length, random.pick(&[0, 1]));
    } else if length > 0 {
        barriers[random.below(length)] = random.pick(&[0, 1, 2, 3, 3, 4, 5, 128, 255]);
    }
}

/// Changes the milliseconds to some that fit tag 8, which may be above 999.
fn change_milliseconds(random: &mut Random, timestamp: &mut Timestamp) {
    timestamp.milliseconds = match random.below(3) {
        0 => random.pick(&[0, 999, 1_000, 1_001, 0x8000, 0xFFFF]),
        1 => 1_000 + random.below(1_000) as u64,
        _ => random.below(0x1_0000) as u64,
    };
}

/// Changes the row of fields: one twice, one less, or its tag, length or bytes.
fn change_fields(random: &mut Random, fields: &mut Vec<Vec<u8>>) {
    let which = random.below(fields.len());
    let field = fields[which].clone();
    let length = field.len() as u16 - 3;
    match random.below(6) {
        0 => fields.insert(random.below(fields.len() + 1), field),
        1 => drop(fields.remove(which)),
        2 => fields[which][0] = byte(random),
        3 => {
            // The length alone, of which the bytes are not changed.
            let bit = 1 << random.below(16);
            let lengths = [length ^ bit, length + 1, length.wrapping_sub(1)];
            let near = random.pick(&lengths);
            let length = random.pick(&[near, near, 0, 2, 3, 8, 12, 0xFFFF]);
            fields[which][1..3].copy_from_slice(&length.to_be_bytes());
        }
        4 => {
            let mut value = field[3..].to_vec();
            let lengths = [
                value.len() + 1,
                value.len() + 4,
                value.len().saturating_sub(1),
            ];
            value.resize(random.pick(&lengths), 0);
            fields[which] = record_field(field[0], &value);
        }
        _ => fields[which] = (0..random.below(12)).map(|_| byte(random)).collect(),
    }
}

/// Changes, puts in or takes away some bytes.
pub fn change_bytes(random: &mut Random, record: &mut Vec<u8>) {
    let place = random.below(record.len() + 1);
    match random.below(6) {
        0 | 1 if place == record.len() => {}
        0 => record[place] ^= 1 << random.below(8),
        1 => record[place] = byte(random),
        2 => drop(record.drain(place..(place + 1).min(record.len()))),
        3 => record.insert(place, byte(random)),
        4 => record.truncate(place),
        _ => {
            let more = random.pick(&[1, 2, 3, 4, 7]);
            record.extend((0..more).map(|_| byte(random)));
        }
    }
}

/// A record changed at random, or not at all, and what it was made from.
pub struct Changed {
    pub cells: usize,
    /// The record of the state before any change.
    pub good: Vec<u8>,
    /// That of what was changed of state and timestamp, with tags that rise.
    pub rising: Vec<u8>,
    /// And before fields and bytes of it were changed.
    pub unchanged: Vec<u8>,
    pub record: Vec<u8>,
}

impl Changed {
    pub fn random(random: &mut Random) -> Self {
        let mut state = any_small_state(random);
        let cells = state.h.len();
        let mut timestamp = match random.below(2) {
            0 => random.pick(&[0, 1]).into(),
            _ => random_timestamp(random),
        };
        let good = shuffled(random, &state, timestamp);
        let times = random.pick(&[0, 1, 1, 2, 3]);
        (0..times).for_each(|_| change_state(random, &mut state));
        if random.once_in(10) {
            change_milliseconds(random, &mut timestamp);
        }
        let mut fields = some_fields(random, &state, timestamp);
        let rising = fields.concat();
        if !random.once_in(4) {
            shuffle(random, &mut fields);
        }
        if random.once_in(4) {
            change_fields(random, &mut fields);
        }
        let unchanged = fields.concat();
        let mut record = unchanged.clone();
        if random.once_in(4) {
            let times = 1 + random.below(3);
            (0..times).for_each(|_| change_bytes(random, &mut record));
        } else if random.once_in(12) {
            // Bytes that never were a record.
            let length = random.below(80);
            record = (0..length).map(|_| byte(random)).collect();
        }
        Changed {
            cells,
            good,
            rising,
            unchanged,
            record,
        }
    }
}
