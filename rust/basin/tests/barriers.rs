//! Barriers (02, request U2: piers), by the proved library and by the independent
//! version: worked numbers, every layout on small grids, every byte at every cell,
//! and tag 9 in every place. (Every second random state of the other tests has
//! barriers too: lists of calls are in balance.rs, two causes at once in
//! comparison.rs and record_refusals.rs, all orders of nine tags in record.rs.)
//!
//! Every accepted call of tendencies asks for an energy rate of exactly 0, and for
//! an enstrophy rate of 0 where no edge is closed ([`cases::calls`]).

use crate::cases::calls::{compare, expect, rates, Written};
use crate::cases::common::{four_cells_and_a_jetty, two_cells_and_a_barrier, Random};
use crate::cases::common::{moment, record_field, record_fields, record_of, record_of_01, shuffle};
use crate::cases::records::{basin, expect_pair, expect_read, expect_refused, expect_state};
use crate::cases::records::{compare_read, hex, told_for, written, Lent, TIMESTAMP};
use crate::cases::{add, Call, Case, BARRIERS, CALLS, Q, S, TOTALS, U, V};
use reference::State;

// ---- worked numbers

/// The two cells of worked example 4, with these velocities and barriers.
fn two_cells(u: [i64; 2], v: [i64; 2], barriers: &[u8]) -> Case {
    let mut case = Case::example_4();
    case.fields[U] = u.to_vec();
    case.fields[V] = v.to_vec();
    case.barriers = barriers.to_vec();
    case
}

/// What both write, where both tell this.
fn accepted(case: &Case, call: Call, told: &[u64], at: &str) -> Written {
    let outcome = compare(case, call, at);
    assert_eq!(outcome.told, told, "{at}: {call:?} {case:?}");
    outcome.written
}

#[test]
fn worked_numbers_of_two_cells() {
    let mut case = two_cells([10, 0], [0, 0], &[0, 1]);
    let [dh, du, dv] = accepted(&case, Call::Tendencies, &[0], "worked").destinations;
    assert_eq!((dh, dv), (vec![50_000, -50_000], vec![0, 0]));
    assert_eq!(du, [30_859_591_680_000, 0]);
    case.p.r = 100_000;
    let after = [vec![2_003, 2_997], vec![108, 0], vec![0, 0]];
    let stepped = accepted(&case, Call::Step, &[0], "worked").stepped;
    assert_eq!(stepped, after);
    case.steps = 1;
    let stepped = accepted(&case, Call::Run, &[0, 1], "worked").stepped;
    assert_eq!(stepped, after);
}

#[test]
fn worked_numbers_of_refusals() {
    let still = [0, 0];
    for call in CALLS {
        let told = |case: Case, told: &[u64]| expect(&case, call, told, "worked");
        told(two_cells([10, 5], still, &[0, 1]), &[5, 2, 1]);
        told(two_cells([10, 5], [1, 1], &[2, 1]), &[5, 2, 1]);
        told(two_cells(still, [1, 1], &[3, 0]), &[5, 3, 0]);
        told(two_cells([10, 0], still, &[255, 4]), &[4, 6, 0]);
        told(two_cells([10, 0], [0, 5_001], &[4, 0]), &[4, 3, 1]);
        told(two_cells([10, 0], still, &[0]), &[2]);
        // Before q and the inflow, which are outside at a lower cell.
        let mut case = two_cells([10, 0], still, &[0, 4]);
        (case.fields[Q], case.fields[S]) = (vec![2_000_001, 0], vec![1_001, 0]);
        told(case, &[4, 6, 1]);
    }
}

#[test]
fn worked_numbers_of_rates() {
    let state = four_cells_and_a_jetty();
    let mut case = Case::beside(state, vec![1_000, -2_000, 3_000, -4_000], vec![0; 4]);
    let mut both = || {
        let tendencies = accepted(&case, Call::Tendencies, &[0], "worked").destinations;
        let rates = rates(&case, &tendencies);
        case.barriers = vec![0; 4];
        rates
    };
    assert_eq!(both(), (0, -135_141_859_431_808_000));
    assert_eq!(both(), (0, 0));
}

#[test]
fn worked_numbers_of_a_record() {
    // Worked example 10's, which has neither tag 8 nor tag 9.
    let state = Case::example_2().state();
    let record = record_of_01(&state, 0);
    let with_tag_9 = |value: &[u8]| [record.clone(), record_field(9, value)].concat();
    expect_refused(&with_tag_9(&[]), &[2], "worked");
    expect_refused(&with_tag_9(&[4]), &[4, 6, 0], "worked");
    expect_refused(&with_tag_9(&[3]), &[5, 2, 0], "worked");
    let mut two = Lent::enough(1);
    two.fields[4] = 2;
    let outcome = expect_read(&record, two, &told_for(&state, 0), "worked");
    let kept = outcome.barriers[1];
    assert_ne!(kept, 0);
    assert_eq!(outcome.barriers, [0, kept]);
    let again = written(&state, 0, "worked");
    assert_eq!(again, [record, vec![8, 0, 2, 0, 0, 9, 0, 1, 0]].concat());
}

// ---- every layout

/// All layouts of barriers on so many cells.
fn layouts(cells: usize) -> impl Iterator<Item = Vec<u8>> {
    let barrier = |layout: usize, cell: usize| (layout >> (2 * cell) & 3) as u8;
    let barriers = move |layout| (0..cells).map(|cell| barrier(layout, cell)).collect();
    (0..1 << (2 * cells)).map(barriers)
}

/// Every layout on 2 by 2 cells, and on three in a row and in a column, of every
/// kind.
fn every_layout(mut visit: impl FnMut((usize, usize), u8, Vec<u8>)) {
    for (w, n) in [(2, 2), (3, 1), (1, 3)] {
        for kind in 0..3 {
            layouts(w * n).for_each(|barriers| visit((w, n), kind, barriers));
        }
    }
}

/// The tendencies of the case, which are those without barriers but for 0 where one
/// stands; q and totals take no notice of them.
fn assert_masked(case: &Case, at: &str) {
    let mut open = case.clone();
    open.barriers.fill(0);
    let [barred, open] = [case, &open].map(|case| {
        let q = accepted(case, Call::PotentialVorticity, &[0], at).destinations;
        let totals = TOTALS.map(|call| accepted(case, call, &[0], at).total);
        let tendencies = accepted(case, Call::Tendencies, &[0], at).destinations;
        (q, totals, tendencies)
    });
    assert_eq!((&barred.0, &barred.1), (&open.0, &open.1), "{at}: {case:?}");
    let [dh, mut du, mut dv] = open.2;
    for (cell, barrier) in case.barriers.iter().enumerate() {
        if barrier % 2 == 1 {
            du[cell] = 0;
        }
        if barrier / 2 == 1 {
            dv[cell] = 0;
        }
    }
    assert_eq!(barred.2, [dh, du, dv], "{at}: {case:?}");
}

#[test]
fn every_layout_of_small_grids_with_random_flow() {
    let mut random = Random::new(51);
    let mut tried = 0;
    // Steps and runs that go on, and those that leave a bound.
    let mut stepped = [0; 2];
    // Enstrophy rates other than 0, of kind 0.
    let mut changing = 0;
    every_layout(|size, kind, barriers| {
        for wild in [false, false, true] {
            let mut case = match wild {
                true => Case::good_of_kind(&mut random, size, kind),
                false => Case::gentle(&mut random, size, kind),
            };
            case.barriers.clone_from(&barriers);
            case.clear_closed_edges();
            assert_masked(&case, "a layout");
            for call in [Call::Step, Call::Run] {
                let outcome = compare(&case, call, "a layout");
                add(&mut stepped, [0, 6].map(|number| outcome.told[0] == number));
                let [_, u, v] = &outcome.written.stepped;
                for (field, velocities) in [(U, u), (V, v)] {
                    let closed = case.closed(field).into_iter();
                    let moving = closed.filter(|&cell| velocities[cell] != 0).count();
                    assert_eq!(moving, 0, "{call:?} {case:?}");
                }
            }
            expect(&case, Call::Write, &[0], "a layout");
            let tendencies = accepted(&case, Call::Tendencies, &[0], "a layout").destinations;
            changing += usize::from(kind == 0 && rates(&case, &tendencies).1 != 0);
            tried += 1;
        }
    });
    println!("{tried} {stepped:?} {changing}");
    assert_eq!(tried, (256 + 64 + 64) * 3 * 3);
    assert!(stepped[0] > 4_000 && stepped[1] > 400, "{stepped:?}");
    assert!(changing > 300, "{changing}");
}

#[test]
fn every_edge_of_every_layout_is_open_or_closed() {
    // Edges that the layout leaves open, and closes.
    let mut edges = [0; 2];
    every_layout(|(w, n), kind, barriers| {
        let mut still = Case::example_2();
        (still.p.w, still.p.n, still.p.kind, still.p.r) = (w, n, kind, 1_000_000);
        still.fit();
        still.fields[U].fill(0);
        still.fields[V].fill(0);
        still.barriers = barriers;
        // All that moves, and each edge by itself.
        let mut moving = still.clone();
        let mut first = None;
        for field in [U, V] {
            moving.fields[field].fill(1);
            for cell in 0..w * n {
                let mut case = still.clone();
                case.fields[field][cell] = -1;
                let closed = case.is_closed(field, cell);
                let told = [5, field as u64, cell as u64];
                for call in CALLS {
                    let told = if closed { &told[..] } else { &[0] };
                    expect(&case, call, told, "an edge");
                }
                edges[usize::from(closed)] += 1;
                first = first.or(closed.then_some(told));
            }
        }
        for call in CALLS {
            let told = first.as_ref().map_or(&[0][..], |told| told);
            expect(&moving, call, told, "all edges");
        }
    });
    println!("{edges:?}");
    // Half of all edges, and of the others those at walls.
    assert_eq!(edges.iter().sum::<usize>(), 3 * (256 * 8 + 2 * 64 * 6));
    assert!(edges[0] > 2_000 && edges[1] > edges[0], "{edges:?}");
}

#[test]
fn barriers_of_large_grids_close_edges_to_the_last_cell() {
    let mut random = Random::new(52);
    for (w, n) in [(64, 64), (64, 1), (1, 64), (63, 2), (16, 16)] {
        let last = w * n - 1;
        for cell in [0, 1, w - 1, w, last - 1, last, random.below(w * n)] {
            for (field, barrier) in [(U, 1), (U, 3), (V, 2), (V, 3)] {
                let mut case = Case::good_of_kind(&mut random, (w, n), 0);
                case.barriers.fill(0);
                for cell in [cell.min(last), last] {
                    case.barriers[cell] = barrier;
                }
                case.clear_closed_edges();
                let call = random.pick(&CALLS);
                expect(&case, call, &[0], "large");
                // On the lower of the two, and on the last alone.
                let told = |cell: usize| [5, field as u64, cell as u64];
                case.fields[field][last] = 1;
                expect(&case, call, &told(last), "large");
                case.fields[field][cell.min(last)] = -1;
                expect(&case, call, &told(cell.min(last)), "large");
            }
        }
    }
}

// ---- every byte

#[test]
fn every_byte_of_a_barrier_is_exact_at_every_cell() {
    let mut still = Case::basin();
    still.fields[U].fill(0);
    still.fields[V].fill(0);
    // By the number that is told, of the still basin and of the one that moves.
    let mut met = [[0; 6]; 2];
    for (which, good) in [still, Case::basin()].iter().enumerate() {
        for (cell, byte) in (0..6).flat_map(|cell| (0..=255).map(move |byte| (cell, byte))) {
            let mut case = good.clone();
            case.barriers[cell] = byte;
            let place = |field: usize| [field as u64, cell as u64];
            let told = match byte {
                4.. => [&[4][..], &place(BARRIERS)].concat(),
                1 | 3 if case.fields[U][cell] != 0 => [&[5][..], &place(U)].concat(),
                2 | 3 if case.fields[V][cell] != 0 => [&[5][..], &place(V)].concat(),
                _ => vec![0],
            };
            for call in CALLS {
                expect(&case, call, &told, "a byte");
            }
            met[which][told[0] as usize] += 1;
            // The same in a record.
            let (state, record) = (case.state(), record_of(&case.state(), 8));
            if told == [0] {
                expect_state(&record, Lent::enough(6), (&state, 8), "a byte");
            } else {
                expect_refused(&record, &told, "a byte");
            }
        }
    }
    // Three west edges of the basin have a current, and three south edges.
    assert_eq!(met[0], [6 * 4, 0, 0, 0, 6 * 252, 0]);
    assert_eq!(met[1], [6 * 4 - 11, 0, 0, 0, 6 * 252, 11]);
}

// ---- tag 9

/// The fields of a record but for tag 9, and what they say with it: of one that has
/// tag 8, and of one that has none.
fn without_tag_9(state: &State) -> [(Vec<Vec<u8>>, reference::Timestamp); 2] {
    let whole = moment(TIMESTAMP.seconds, 0);
    [(TIMESTAMP, 8), (whole, 7)].map(|(time, count)| {
        let fields = record_fields(state, time);
        (fields[..count].to_vec(), time)
    })
}

#[test]
fn tag_9_in_every_place_absent_empty_short_and_long() {
    let mut random = Random::new(53);
    let mut barred = basin();
    barred.barriers = vec![3, 2, 2, 1, 0, 1];
    for state in [two_cells_and_a_barrier(), barred] {
        let mut open = state.clone();
        open.barriers.fill(0);
        let right = state.barriers.len();
        for (mut fields, time) in without_tag_9(&state) {
            for turn in 0..4 {
                expect_state(
                    &fields.concat(),
                    Lent::any(&mut random, right),
                    (&open, time),
                    "absent",
                );
                for place in 0..=fields.len() {
                    let with = |length: usize| {
                        let mut value = state.barriers.clone();
                        value.resize(length, 0);
                        let mut fields = fields.clone();
                        fields.insert(place, record_field(9, &value));
                        fields
                    };
                    let (record, lent) = (with(right).concat(), Lent::any(&mut random, right));
                    expect_state(&record, lent, (&state, time), "right");
                    for length in [0, 1, right - 1, right + 1, 2 * right, 0xFFFF] {
                        if length != right {
                            expect_refused(&with(length).concat(), &[2], "a length");
                        }
                    }
                    // Twice, and cut off.
                    let twice = [with(right).concat(), record_field(9, &[])].concat();
                    expect_refused(&twice, &[7, record.len() as u64], "twice");
                    let mut last = fields.clone();
                    last.push(record_field(9, &state.barriers));
                    let cut = last.concat();
                    let told = [7, fields.concat().len() as u64];
                    expect_refused(&cut[..cut.len() - 1 - turn % right], &told, "cut off");
                }
                shuffle(&mut random, &mut fields);
            }
        }
    }
}

#[test]
fn what_is_lacking_comes_back_as_zeros_where_it_belongs() {
    let mut random = Random::new(54);
    for number in 0..300 {
        let size = (1 + random.below(4), 1 + random.below(4));
        let state = Case::good_of_size(&mut random, size).state();
        let fields = record_fields(&state, TIMESTAMP);
        for lacking in [&[8][..], &[9], &[8, 9]] {
            let at = format!("case {number}, without {lacking:?}");
            let mut left = fields.clone();
            left.retain(|field| !lacking.contains(&field[0]));
            let mut restored = fields.clone();
            for field in &mut restored {
                if lacking.contains(&field[0]) {
                    field[3..].fill(0);
                }
            }
            let (record, restored) = (left.concat(), restored.concat());
            let outcome = compare_read(&record, Lent::enough(state.h.len()), &at);
            let (read, time) = outcome.state().expect("accepted");
            let again = written(&read, time, &at);
            assert_eq!(hex(&again), hex(&restored), "{at}");
            // The record's own bytes are the same up to the first that it lacks.
            let kept = fields[..usize::from(lacking[0]) - 1].concat().len();
            assert_eq!(again[..kept], record[..kept], "{at}");
        }
    }
}

#[test]
fn states_are_the_same_where_their_barriers_are() {
    // All layouts of two cells at rest.
    let records: Vec<_> = layouts(2)
        .map(|barriers| {
            let mut state = two_cells_and_a_barrier();
            (state.u, state.v) = (vec![0; 2], vec![0; 2]);
            state.barriers = barriers;
            state
        })
        .map(|state| (record_of(&state, 5), state))
        .collect();
    assert_eq!(records.len(), 16);
    for (first, state) in &records {
        for (second, other) in &records {
            let told = if state == other { 0 } else { 3 };
            expect_pair(first, second, &[0, told], "layouts");
        }
        // An absent tag 9 is one of zeros.
        let absent = record_of_01(state, 5);
        let none = state.barriers == [0, 0];
        let told = if none { 0 } else { 3 };
        expect_pair(first, &absent, &[0, told], "absent");
        expect_pair(&absent, first, &[0, told], "absent");
        // Newer is newer, whatever the barriers.
        let later = record_of(state, 6);
        expect_pair(&records[0].0, &later, &[0, 2], "later");
    }
}
