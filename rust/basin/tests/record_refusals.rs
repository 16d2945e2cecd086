//! What reading a record is refused with, by the proved library and by the
//! independent version: every kind of damage at every place (7); every byte of a
//! small record set to any, taken out, put in; every w, n and kind (1); other
//! lengths than the grid's (2); destinations too short (8); every bound from
//! both sides (3, 4); every closed edge (5); and of two causes the first, in the
//! order 7, 1, 2, 8, 3, 9, 4, 5. A comparison is refused for the same, but for 8.
//! (The milliseconds by themselves, 9, are in milliseconds.rs.)
//!
//! As in record.rs, all that is told and all that is lent is compared.

use crate::cases::calls::UNANSWERED;
use crate::cases::causes;
use crate::cases::common::{first_told, record_field, record_fields, record_of, shuffle, shuffled};
use crate::cases::common::{two_cells, two_cells_and_a_barrier, Random, NUMBERS, TESTED_IN_READ};
use crate::cases::records::{basin, TIMESTAMP};
use crate::cases::records::{
    compare_pair, compare_read, expect_read, expect_refused, expect_state,
};
use crate::cases::records::{field, hex, of_record, told_for, Lent};
use crate::cases::{Case, BARRIERS, BOUNDS, U, V};
use reference::{Parameters, State, Timestamp};

// ---- damage

/// The fields of a record of two cells and a barrier, rising, falling, in a third
/// order without tag 9, and in a fourth without tag 8.
fn four_orders() -> [Vec<Vec<u8>>; 4] {
    let rising = record_fields(&two_cells_and_a_barrier(), TIMESTAMP);
    let falling = rising.iter().rev().cloned().collect();
    let third = [3, 6, 0, 4, 7, 2, 5, 1].map(|k: usize| rising[k].clone());
    let fourth = [2, 0, 5, 8, 6, 1, 3, 4].map(|k: usize| rising[k].clone());
    [rising, falling, third.to_vec(), fourth.to_vec()]
}

/// What these fields say of the state, which has that tag 9 or no barriers, and of
/// the time.
fn said_by(fields: &[Vec<u8>], state: &State) -> (State, Timestamp) {
    let (mut state, mut time) = (state.clone(), TIMESTAMP);
    if fields.iter().all(|field| field[0] != 8) {
        time.milliseconds = 0;
    }
    if fields.iter().all(|field| field[0] != 9) {
        state.barriers.fill(0);
    }
    (state, time)
}

/// The length of a value that has but one.
fn fixed_length(tag: u8) -> Option<usize> {
    match tag {
        1 => Some(3),
        2 => Some(12),
        3 => Some(8),
        8 => Some(2),
        _ => None,
    }
}

#[test]
fn a_record_cut_off_anywhere_is_refused() {
    // Cut off within a field, and between two; and before a tag 8 or 9 that is
    // last, or both.
    let mut cuts = [0; 3];
    let orders = four_orders().map(|fields| (fields, two_cells_and_a_barrier()));
    let larger = (record_fields(&basin(), TIMESTAMP), basin());
    for (fields, state) in orders.into_iter().chain([larger]) {
        // Each field is the last of some record.
        for turn in 0..fields.len() {
            let mut fields = fields.clone();
            fields.rotate_left(turn);
            let record = fields.concat();
            let mut start = 0;
            let mut starts: Vec<_> = fields
                .iter()
                .map(|field| {
                    start += field.len();
                    start - field.len()
                })
                .collect();
            starts.push(start);
            for length in 0..record.len() {
                // Where a tag is missing, the length is told.
                let count = starts.iter().filter(|&&start| start <= length).count() - 1;
                let offset = starts[count];
                let (left, lost) = fields.split_at(count);
                if offset == length && lost.iter().all(|field| field[0] >= 8) {
                    let (state, time) = said_by(left, &state);
                    let lent = Lent::enough(6);
                    expect_state(&record[..length], lent, (&state, time), "no tag");
                    cuts[2] += 1;
                    continue;
                }
                expect_refused(&record[..length], &[7, offset as u64], "cut off");
                cuts[usize::from(offset == length)] += 1;
            }
        }
    }
    println!("{cuts:?}");
    // Of nine fields three cuts are accepted: before 8, before 9, before both.
    assert_eq!(cuts[1..], [3 * 9 * 9 + 2 * 8 * 8 - 11, 3 * 3 + 2]);
    assert!(cuts[0] > 2_000, "{cuts:?}");
}

#[test]
fn one_or_two_bytes_left_are_refused() {
    for fields in four_orders() {
        for count in 0..=fields.len() {
            let record = fields[..count].concat();
            let offset = record.len() as u64;
            for byte in 0..=255 {
                let rests: [&[u8]; 3] = [&[byte], &[byte, 0], &[1, byte]];
                for rest in rests {
                    let record = [&record, rest].concat();
                    expect_refused(&record, &[7, offset], "bytes left");
                }
            }
        }
    }
}

#[test]
fn every_bit_flipped_and_every_byte_set_to_any() {
    // By number, of flips and of bytes.
    let mut met = [[0; NUMBERS]; 2];
    let good = record_of(&two_cells(), TIMESTAMP);
    let mut channel = basin();
    channel.parameters.kind = 1;
    let channel = record_of(&channel, 1 << 63);
    let mut check = |record: &[u8], which: usize| {
        let told = compare_read(record, Lent::enough(6), "a byte").told;
        met[which][told[0] as usize] += 1;
        let as_first = compare_pair(record, &good, UNANSWERED, "a byte");
        let as_second = compare_pair(&good, record, UNANSWERED, "a byte");
        if told[0] != 0 {
            assert_eq!(as_first, of_record(&told, 1), "{}", hex(record));
            assert_eq!(as_second, of_record(&told, 2), "{}", hex(record));
        }
    };
    let orders = four_orders().map(|fields| fields.concat());
    for record in orders.iter().chain([&channel]) {
        for place in 0..record.len() {
            for bit in 0..8 {
                let mut record = record.clone();
                record[place] ^= 1 << bit;
                check(&record, 0);
            }
        }
    }
    for record in &orders {
        for place in 0..record.len() {
            for byte in 0..=255 {
                let mut record = record.clone();
                record[place] = byte;
                check(&record, 1);
            }
        }
    }
    println!("{met:?}");
    assert_eq!(met[0].iter().sum::<usize>(), 8 * (2 * 78 + 2 * 73 + 130));
    assert_eq!(met[1].iter().sum::<usize>(), 256 * (2 * 78 + 2 * 73));
    for met in met {
        assert!([0, 1, 3, 4, 7].iter().all(|&k| met[k] > 40), "{met:?}");
        assert!(met[5] > 10 && met[9] > 10, "{met:?}");
    }
}

#[test]
fn a_byte_taken_out_or_put_in_anywhere() {
    let mut refused = 0;
    for fields in four_orders() {
        let record = fields.concat();
        for place in 0..=record.len() {
            if place < record.len() {
                let mut shorter = record.clone();
                shorter.remove(place);
                let told = compare_read(&shorter, Lent::enough(6), "taken out").told;
                assert_ne!(told[0], 0, "{}", hex(&shorter));
            }
            for byte in 0..=255 {
                let mut longer = record.clone();
                longer.insert(place, byte);
                let told = compare_read(&longer, Lent::enough(6), "put in").told;
                assert_ne!(told[0], 0, "{}", hex(&longer));
                refused += 1;
            }
        }
    }
    assert_eq!(refused, (2 * 79 + 2 * 74) * 256);
}

#[test]
fn an_unknown_tag_is_refused_at_every_place() {
    for fields in four_orders() {
        for tag in (0..=255).filter(|tag| !(1..=9).contains(tag)) {
            for place in 0..=fields.len() {
                let offset = fields[..place].concat().len() as u64;
                // For a field, and between two.
                let mut instead = fields.clone();
                if place < fields.len() {
                    instead[place][0] = tag;
                    expect_refused(&instead.concat(), &[7, offset], "an unknown tag");
                }
                let mut between = fields.clone();
                let length = usize::from(tag % 5);
                between.insert(place, record_field(tag, &vec![1; length]));
                expect_refused(&between.concat(), &[7, offset], "an unknown tag between");
            }
        }
    }
}

#[test]
fn a_repeated_tag_is_refused_at_every_place() {
    let mut other = two_cells();
    (other.h[0], other.b[0], other.u[0], other.v[0]) = (5_000, 5, 5, 5);
    let others = record_fields(&other, 9);
    for fields in four_orders() {
        for again in 0..fields.len() {
            let tag = fields[again][0];
            let repeats = [
                fields[again].clone(),
                // With another value, none, one past the end, a wrong length.
                others[usize::from(tag) - 1].clone(),
                record_field(tag, &[]),
                vec![tag, 0xFF, 0xFF],
                record_field(tag, &[1; 5]),
            ];
            for repeat in repeats {
                for place in again + 1..=fields.len() {
                    let offset = fields[..place].concat().len() as u64;
                    let mut damaged = fields.clone();
                    damaged.insert(place, repeat.clone());
                    expect_refused(&damaged.concat(), &[7, offset], "a repeated tag");
                    // For another field, which is then missing.
                    if place < fields.len() {
                        damaged.remove(place + 1);
                        expect_refused(&damaged.concat(), &[7, offset], "a repeat instead");
                    }
                }
            }
        }
        // Before the first as well: then the first is the second.
        for again in 0..fields.len() {
            let mut damaged = fields.clone();
            damaged.insert(0, fields[again].clone());
            let offset = damaged[..=again].concat().len() as u64;
            expect_refused(&damaged.concat(), &[7, offset], "a tag before");
        }
    }
}

#[test]
fn a_value_past_the_end_is_refused() {
    for fields in four_orders() {
        for turn in 0..fields.len() {
            let mut fields = fields.clone();
            fields.rotate_left(turn);
            let (record, last) = (fields.concat(), &fields[fields.len() - 1]);
            let offset = record.len() - last.len();
            let length = last.len() - 3;
            let most = 0xFFFF - length;
            for more in (1..=300).chain([most - 1, most]) {
                let mut record = record.clone();
                let length = (length + more) as u16;
                record[offset + 1..offset + 3].copy_from_slice(&length.to_be_bytes());
                expect_refused(&record, &[7, offset as u64], "a value past the end");
            }
        }
    }
}

#[test]
fn huge_lengths_are_refused_at_every_place() {
    let lengths = [
        0x7FFF, 0x8000, 0x8001, 0xFF00, 0xFFFE, 0xFFFF, 0x0100, 0x0201,
    ];
    for fields in four_orders() {
        for place in 0..fields.len() {
            let offset = fields[..place].concat().len();
            for length in lengths {
                let mut record = fields.concat();
                record[offset + 1..offset + 3].copy_from_slice(&u16::to_be_bytes(length));
                expect_refused(&record, &[7, offset as u64], "a huge length");
                // The same with the bytes that it asks for: of h, b, u, v and the
                // barriers it is a 2.
                let mut whole = fields.clone();
                let tag = fields[place][0];
                whole[place] = record_field(tag, &vec![0; length.into()]);
                let told: &[u64] = match fixed_length(tag) {
                    Some(_) => &[7, offset as u64],
                    None => &[2],
                };
                expect_refused(&whole.concat(), told, "a huge value");
            }
        }
    }
    // As long as a record can be that is damaged nowhere, and then damaged at
    // its end. Tags 8 and 9, which it could do without, go to the front.
    let mut fields = record_fields(&two_cells(), TIMESTAMP);
    for place in [3, 4, 5, 6, 8] {
        fields[place] = record_field(place as u8 + 1, &[0; 0xFFFF]);
    }
    fields.rotate_right(2);
    let mut record = fields.concat();
    expect_refused(&record, &[2], "the longest");
    let length = record.len() as u64;
    assert_eq!(length, 52 + 5 * 0xFFFF);
    let last = fields.pop().expect("nine");
    expect_refused(&fields.concat(), &[7, length - 3 - 0xFFFF], "no last field");
    fields.push(last);
    record.push(1);
    expect_refused(&record, &[7, length], "a byte past the longest");
    record.truncate(length as usize - 1);
    expect_refused(&record, &[7, length - 3 - 0xFFFF], "a byte less");
}

#[test]
fn tags_1_2_3_and_8_of_a_wrong_length_are_refused() {
    for fields in four_orders() {
        for place in 0..fields.len() {
            let tag = fields[place][0];
            let Some(right) = fixed_length(tag) else {
                continue;
            };
            let offset = fields[..place].concat().len() as u64;
            let value = &fields[place][3..];
            for length in (0..300).chain([512 + right, 65_535]) {
                if length == right {
                    continue;
                }
                // What is there of the value is right.
                let mut longer = value.to_vec();
                longer.resize(length, 0);
                let mut damaged = fields.clone();
                damaged[place] = record_field(tag, &longer);
                expect_refused(&damaged.concat(), &[7, offset], "a wrong length");
            }
        }
    }
}

#[test]
fn missing_tags_are_refused_at_the_records_length() {
    let mut random = Random::new(64);
    // The empty record is one of them.
    for fields in four_orders() {
        for set in 0..1 << fields.len() {
            let mut some: Vec<_> = (0..fields.len())
                .filter(|k| set >> k & 1 == 1)
                .map(|k| fields[k].clone())
                .collect();
            // Tags 8 and 9 are not missed.
            if some.iter().filter(|field| field[0] < 8).count() == 7 {
                continue;
            }
            for _ in 0..3 {
                let record = some.concat();
                expect_refused(&record, &[7, record.len() as u64], "missing tags");
                shuffle(&mut random, &mut some);
            }
        }
    }
}

#[test]
fn of_two_damages_the_first_in_the_record_is_told() {
    type Damage = fn(&mut [Vec<u8>], usize);
    let damages: [Damage; 4] = [
        |fields, place| fields[place][0] |= 0x80,
        |fields, place| fields[place][0] = fields[place - 1][0],
        |fields, place| fields[place][1..3].fill(0xFF),
        |fields, place| fields[place].truncate(2),
    ];
    let mut pairs = 0;
    for fields in four_orders() {
        for place in 1..fields.len() {
            for damage in damages {
                let mut damaged = fields.clone();
                damage(&mut damaged, place);
                let offset = fields[..place].concat().len() as u64;
                if damaged[place].len() == 2 {
                    // They are left only where nothing follows.
                    damaged.truncate(place + 1);
                }
                expect_refused(&damaged.concat(), &[7, offset], "damage");
                // Any other behind it, a field missing there too.
                for behind in place + 1..damaged.len() {
                    for other in damages {
                        let mut damaged = damaged.clone();
                        other(&mut damaged, behind);
                        expect_refused(&damaged.concat(), &[7, offset], "two damages");
                        pairs += 1;
                    }
                    let mut missing = damaged.clone();
                    missing.remove(behind);
                    expect_refused(&missing.concat(), &[7, offset], "then one is missing");
                }
                // A field missing before it.
                if place > 1 {
                    let short = fields[0].len() as u64;
                    let missing = damaged[1..].concat();
                    expect_refused(&missing, &[7, offset - short], "one is missing before");
                }
            }
        }
    }
    assert_eq!(pairs, (2 * 28 + 2 * 21) * 3 * 4);
}

// ---- refusals 1, 2, 8, 3, 4, 5, and the order of all

#[test]
fn every_width_height_and_kind_is_known_or_not() {
    let known = |byte: u8| (1..=64).contains(&byte);
    // Every byte in each place, with as many cells as that makes, or some.
    for byte in 0..=255 {
        for other in [0, 1, 2, 64, 65, 255] {
            for (w, n) in [(byte, other), (other, byte)] {
                for kind in [0, 1, 2, 3, 128, 255] {
                    let cells = match usize::from(w) * usize::from(n) {
                        few @ 0..=130 => few,
                        _ => 1,
                    };
                    let state = State {
                        parameters: Parameters {
                            w: w.into(),
                            n: n.into(),
                            kind,
                            ..two_cells().parameters
                        },
                        h: vec![1_000; cells],
                        b: vec![0; cells],
                        u: vec![0; cells],
                        v: vec![0; cells],
                        barriers: vec![0; cells],
                    };
                    let record = record_of(&state, 5);
                    let good = known(w) && known(n) && kind < 3;
                    let fits = cells == usize::from(w) * usize::from(n);
                    let told = match (good, fits) {
                        (true, true) => told_for(&state, 5).to_vec(),
                        (true, false) => vec![2],
                        (false, _) => vec![1],
                    };
                    expect_read(&record, Lent::enough(130), &told, "a grid");
                }
            }
        }
        let mut state = basin();
        state.parameters.kind = byte;
        state.u.fill(0);
        state.v.fill(0);
        let told = match byte {
            0..=2 => told_for(&state, 6).to_vec(),
            _ => vec![1],
        };
        let record = record_of(&state, 6);
        expect_read(&record, Lent::enough(6), &told, "a kind");
    }
}

#[test]
fn values_of_other_lengths_than_the_grids_are_a_2() {
    let mut random = Random::new(65);
    for state in [two_cells_and_a_barrier(), basin()] {
        for (tag, bytes) in [(4, 4), (5, 4), (6, 2), (7, 2), (9, 1)] {
            let right = bytes * state.h.len();
            let lengths = (0..=2 * right + 4).chain([256 + right, 0x8000, 0xFFFF]);
            for length in lengths {
                let mut fields = record_fields(&state, TIMESTAMP);
                let field = &mut fields[usize::from(tag) - 1];
                let mut value = field[3..].to_vec();
                value.resize(length, 0);
                *field = record_field(tag, &value);
                shuffle(&mut random, &mut fields);
                let record = fields.concat();
                if length == right {
                    let told = told_for(&state, TIMESTAMP);
                    expect_read(&record, Lent::enough(6), &told, "a length");
                } else {
                    expect_refused(&record, &[2], "a length");
                }
            }
        }
        // All of them of one length that is wrong: a cell less or more, none.
        for cells in [0, state.h.len() - 1, state.h.len() + 1, 100] {
            let mut other = state.clone();
            (0..4).for_each(|which| field(&mut other, which).resize(cells, 1_000));
            other.barriers.resize(cells, 0);
            expect_refused(&record_of(&other, 1), &[2], "lengths");
        }
    }
}

#[test]
fn destinations_of_fewer_places_are_refused() {
    for (state, cells) in [(two_cells_and_a_barrier(), 2), (basin(), 6)] {
        let record = record_of(&state, TIMESTAMP);
        for which in 0..5 {
            for length in 0..=2 * cells + 1 {
                for others in [0, cells - 1, cells, cells + 1, 3 * cells] {
                    let mut lent = Lent::enough(others);
                    lent.fields[which] = length;
                    if length.min(others) < cells {
                        expect_read(&record, lent, &[8], "a destination");
                    } else {
                        expect_state(&record, lent, (&state, TIMESTAMP), "a destination");
                    }
                }
            }
        }
    }
}

#[test]
fn every_bound_of_a_field_is_exact_at_every_cell() {
    let mut random = Random::new(66);
    // By field: inside, outside, on a closed edge.
    let mut met = [[0; 3]; 4];
    for kind in 0..3 {
        let mut still = basin();
        still.parameters.kind = kind;
        still.u.fill(0);
        still.v.fill(0);
        for which in 0..4 {
            let (low, high) = BOUNDS[which];
            let (least, most): (i64, i64) = match which {
                0 | 1 => (i32::MIN.into(), i32::MAX.into()),
                _ => (i16::MIN.into(), i16::MAX.into()),
            };
            let near = [low - 1, low, low + 1, -1, 0, 1, high - 1, high, high + 1];
            // Those of four bytes whose low bytes are those of a number within.
            let bits = [16, 17, 24, 31].map(|bit| 2_000 - (1 << bit));
            let bits_too = [17, 20, 24, 30].map(|bit| 2_000 + (1 << bit));
            let numbers = near.into_iter().chain([least, most]);
            for number in numbers.chain(bits).chain(bits_too) {
                if !(least..=most).contains(&number) {
                    continue;
                }
                for cell in 0..6 {
                    let mut state = still.clone();
                    field(&mut state, which)[cell] = number;
                    let inside = (low..=high).contains(&number);
                    let closed = match which {
                        U => kind == 2 && cell % 3 == 0,
                        V => kind != 0 && cell < 3,
                        _ => false,
                    };
                    let place = [which as u64, cell as u64];
                    let (told, outcome) = match (inside, closed && number != 0) {
                        (false, _) => (vec![4, place[0], place[1]], 1),
                        (true, false) => (told_for(&state, 8).to_vec(), 0),
                        (true, true) => (vec![5, place[0], place[1]], 2),
                    };
                    met[which][outcome] += 1;
                    let record = shuffled(&mut random, &state, 8);
                    if outcome == 0 {
                        expect_state(&record, Lent::enough(6), (&state, 8), "a bound");
                    } else {
                        expect_refused(&record, &told, "a bound");
                    }
                }
            }
        }
    }
    println!("{met:?}");
    for (which, [inside, outside, closed]) in met.into_iter().enumerate() {
        assert!(inside > 50 && outside > 50, "{met:?}");
        assert_eq!(closed > 10, which == U || which == V, "{met:?}");
    }
}

#[test]
fn every_bound_of_a_constant_is_exact() {
    type Put = fn(&mut Parameters, i64);
    let constants: [(i64, i64, Put); 3] = [
        (1, 10_000, |p, g| p.g = g),
        (-10_000, 10_000, |p, c| p.c = c),
        (1_000, 1_000_000, |p, r| p.r = r),
    ];
    for (low, high, put) in constants {
        let mut numbers = vec![low - 1, low, high, high + 1, -1, 0, i32::MIN.into()];
        numbers.push(i32::MAX.into());
        // A bit too many in a higher byte.
        numbers.extend((14..31).flat_map(|bit| [(1 << bit) + 2_000, 2_000 - (1 << bit)]));
        for number in numbers {
            let mut state = two_cells();
            put(&mut state.parameters, number);
            let record = record_of(&state, 8);
            if (low..=high).contains(&number) {
                expect_state(&record, Lent::enough(2), (&state, 8), "a constant");
            } else {
                expect_refused(&record, &[3], "a constant");
            }
        }
    }
}

#[test]
fn closed_edges_are_those_of_01() {
    for (w, n) in [(1, 1), (1, 3), (3, 1), (4, 3), (64, 2), (2, 64)] {
        let mut closed = 0;
        for kind in 0..3 {
            let still = State {
                parameters: Parameters {
                    w,
                    n,
                    kind,
                    ..two_cells().parameters
                },
                h: vec![1_000; w * n],
                b: vec![0; w * n],
                u: vec![0; w * n],
                v: vec![0; w * n],
                barriers: vec![0; w * n],
            };
            for which in [U, V] {
                for cell in 0..w * n {
                    let on_wall = match which {
                        U => kind == 2 && cell % w == 0,
                        _ => kind != 0 && cell < w,
                    };
                    closed += usize::from(on_wall);
                    for velocity in [-5_000, -1, 1, 256, 5_000] {
                        let mut state = still.clone();
                        field(&mut state, which)[cell] = velocity;
                        let record = record_of(&state, 8);
                        if on_wall {
                            let told = [5, which as u64, cell as u64];
                            expect_read(&record, Lent::enough(w * n), &told, "an edge");
                        } else {
                            let lent = Lent::enough(w * n);
                            expect_state(&record, lent, (&state, 8), "an edge");
                        }
                    }
                }
            }
        }
        // The south wall of kinds 1 and 2, and the west wall of kind 2.
        assert_eq!(closed, 2 * w + n);
    }
}

/// A cause of refusal that can be put into the basin of 3 by 2 cells, into its
/// record, or into what is lent.
#[derive(Clone, Copy, Debug, PartialEq)]
enum Cause {
    State(causes::Cause),
    /// A byte past the record.
    Damage,
    /// A field of an unknown tag at the front.
    DamageInFront,
    /// A destination of so many places.
    Destination(usize, usize),
}

use causes::Cause::{Barred, Columns, Edge, Length, Milliseconds, Ratio, Value};
use Cause::{Damage, DamageInFront, Destination, State as In};

/// The fields of a state.
const FIELDS: [usize; 5] = [0, 1, U, V, BARRIERS];

impl Cause {
    fn all() -> Vec<Self> {
        let mut causes = vec![Damage, DamageInFront];
        causes.extend(causes::Cause::of(&FIELDS).into_iter().map(In));
        causes.extend([1_000, 0xFFFF].map(|above| In(Milliseconds(above))));
        for which in 0..5 {
            causes.extend([0, 5].map(|length| Destination(which, length)));
        }
        causes
    }
}

/// What these causes make of the basin: its record in this order, and what is
/// lent.
fn with(causes: &[Cause], order: &[usize; 9]) -> (Vec<u8>, Lent) {
    let (mut case, mut lent) = (Case::basin(), Lent::enough(6));
    case.timestamp = TIMESTAMP;
    for &cause in causes {
        match cause {
            In(cause) => cause.put(&mut case),
            Destination(which, length) => lent.fields[which] = length,
            Damage | DamageInFront => {}
        }
    }
    let fields = record_fields(&case.state(), case.timestamp);
    let mut record = order.map(|k| fields[k].clone()).concat();
    if causes.contains(&DamageInFront) {
        record.splice(0..0, record_field(0, &[]));
    }
    if causes.contains(&Damage) {
        record.push(1);
    }
    (record, lent)
}

#[test]
fn of_two_causes_the_first_of_7_1_2_8_3_9_4_5_is_told() {
    let good = record_of(&basin(), TIMESTAMP);
    let mut random = Random::new(67);
    let causes = Cause::all();
    // By the two numbers that they are told by themselves.
    let mut met = [[0; NUMBERS]; NUMBERS];
    for &one in &causes {
        for &other in &causes {
            let mut order = [0, 1, 2, 3, 4, 5, 6, 7, 8];
            for k in (1..9).rev() {
                order.swap(k, random.below(k + 1));
            }
            let (record, lent) = with(&[one, other], &order);
            if one != other && with(&[other], &order) == (record.clone(), lent) {
                // Put over the first, so not two causes.
                continue;
            }
            let alone = [one, other].map(|cause| {
                let (record, lent) = with(&[cause], &order);
                compare_read(&record, lent, "a cause").told
            });
            let [a, b] = alone.each_ref().map(|told| told[0] as usize);
            met[a][b] += 1;
            let told = compare_read(&record, lent, &format!("{one:?}, {other:?}")).told;
            let first = first_told(&TESTED_IN_READ, alone.clone()).expect("two");
            let at = format!("{one:?}, {other:?}: {} {lent:?}", hex(&record));
            assert_eq!(told[0], first[0], "{at}");
            // A byte past the record is told at its length, which the other
            // cause may change.
            if told[0] != 7 {
                assert_eq!(told, first, "{at}");
            }
            // A comparison is lent no destination, and says which record it is.
            let without = alone.into_iter().filter(|told| told[0] != 8);
            let number = first_told(&TESTED_IN_READ, without).map_or(0, |told| told[0]);
            for (first, second, which) in [(&record, &good, 1), (&good, &record, 2)] {
                let pair = compare_pair(first, second, UNANSWERED, "causes");
                assert_eq!(pair[0], number, "{at}");
                assert!(number == 0 || pair[1] == which, "{at}");
            }
        }
    }
    println!("{met:?}");
    for one in TESTED_IN_READ {
        for other in TESTED_IN_READ {
            assert!(met[one][other] > 1, "{one} {other} {met:?}");
        }
    }
}

#[test]
fn every_cause_of_a_basin_goes_in_the_order_7_1_2_8_3_9_4_5() {
    // Bad in every way; each cause is then taken away in turn.
    let causes = [
        (DamageInFront, vec![7, 0]),
        (In(Columns(0)), vec![1]),
        (In(Length(V, 7)), vec![2]),
        (In(Length(BARRIERS, 0)), vec![2]),
        (Destination(3, 5), vec![8]),
        (Destination(4, 5), vec![8]),
        (In(Ratio(999)), vec![3]),
        (In(Milliseconds(1_000)), vec![9]),
        (In(Value(0, 5, 100_001)), vec![4, 0, 5]),
        (In(Value(1, 4, -1)), vec![4, 1, 4]),
        (In(Value(U, 1, 5_001)), vec![4, 2, 1]),
        (In(Value(V, 4, -5_001)), vec![4, 3, 4]),
        (In(Value(BARRIERS, 1, 255)), vec![4, 6, 1]),
        (In(Value(BARRIERS, 4, 4)), vec![4, 6, 4]),
        (In(Edge(U, 0)), vec![5, 2, 0]),
        (In(Barred(U, 2)), vec![5, 2, 2]),
        (In(Edge(U, 3)), vec![5, 2, 3]),
        (In(Edge(V, 0)), vec![5, 3, 0]),
        (In(Edge(V, 2)), vec![5, 3, 2]),
        (In(Barred(V, 5)), vec![5, 3, 5]),
    ];
    let orders = [
        [0, 1, 2, 3, 4, 5, 6, 7, 8],
        [8, 7, 6, 5, 4, 3, 2, 1, 0],
        [5, 6, 3, 7, 4, 2, 8, 0, 1],
        [4, 3, 8, 6, 5, 1, 2, 7, 0],
    ];
    for order in orders {
        for taken in 0..=causes.len() {
            let left: Vec<_> = causes[taken..].iter().map(|(cause, _)| *cause).collect();
            let (record, lent) = with(&left, &order);
            match causes.get(taken) {
                Some((_, told)) => expect_read(&record, lent, told, "causes"),
                None => expect_read(&record, lent, &told_for(&basin(), TIMESTAMP), "none"),
            };
        }
    }
}
