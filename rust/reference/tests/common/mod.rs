//! What the tests share: a random generator, random states, the limits and
//! the record written out once more, and 01's formulas in their literal form.

// Each package that shares this uses a part.
#![allow(dead_code)]

pub mod literal;
mod random;

pub use random::Random;

use std::fs;
use std::path::Path;

use literal::{corner_sides, Three};
use reference::{FillAnswer, Parameters, ProbeAnswer, ProbeGridAnswer, Refusal};
use reference::{RunAnswer, State, StepAnswer, Timestamp, TotalAnswer};

/// Places of counts by number: 0, and the numbers of the refusals. 02 goes up to
/// 13.
pub const NUMBERS: usize = 14;

/// The order in which a call on a state tests for its refusals, and that of a
/// record that is read.
pub const TESTED: [usize; 9] = [1, 2, 3, 9, 4, 5, 6, 8, 10];
pub const TESTED_IN_READ: [usize; 8] = [7, 1, 2, 8, 3, 9, 4, 5];
/// The order in which 4 tests the fields, by their numbers: h, b, u, v, the
/// barriers, then q or s.
const FIELDS_TESTED: [usize; 7] = [0, 1, 2, 3, 6, 4, 5];

/// Of what some causes tell each by itself, what they tell together: by the order
/// of the tests, then by that of the fields, then by the other values, the cell
/// among them. A 0 comes after all.
pub fn first_told<T>(order: &[usize], told: impl IntoIterator<Item = Vec<T>>) -> Option<Vec<T>>
where
    T: Copy + Ord + TryInto<usize>,
{
    let place = |order: &[usize], number: T| {
        let number = number.try_into().ok();
        let place = order.iter().position(|&k| Some(k) == number);
        place.unwrap_or(order.len())
    };
    told.into_iter().min_by_key(|told| {
        let field = match told[..] {
            [_, field, _] => place(&FIELDS_TESTED, field),
            _ => 0,
        };
        (place(order, told[0]), field, told.clone())
    })
}

/// How the numbers of a random state are spread.
#[derive(Clone, Copy, Debug, PartialEq)]
pub enum Spread {
    /// Anywhere within the bounds.
    Even,
    /// At a bound.
    Extreme,
    /// Either, number by number.
    Mixed,
    /// Slow water of nearly even depth and a short time step, so that steps
    /// are mostly accepted.
    Calm,
}

pub const SPREADS: [Spread; 4] = [Spread::Even, Spread::Extreme, Spread::Mixed, Spread::Calm];

/// One number of a field with bounds `low` and `high`.
fn number(random: &mut Random, spread: Spread, low: i64, high: i64) -> i64 {
    let at_bound = match spread {
        Spread::Even | Spread::Calm => false,
        Spread::Extreme => true,
        Spread::Mixed => random.once_in(2),
    };
    if at_bound {
        random.pick(&[low, high])
    } else {
        random.between(low, high)
    }
}

/// So many numbers of a field with bounds `low` and `high`.
pub fn numbers(random: &mut Random, spread: Spread, count: usize, low: i64, high: i64) -> Vec<i64> {
    (0..count)
        .map(|_| number(random, spread, low, high))
        .collect()
}

/// How many corners a grid has, apart from the library: the numbers of its q.
pub fn corners(p: &Parameters) -> usize {
    let [columns, rows] = corner_sides(p);
    columns.saturating_mul(rows)
}

/// Every small grid of every kind, and the largest ones: width and height, and kind.
pub fn every_grid() -> impl Iterator<Item = ((usize, usize), u8)> {
    let small = (1..=5).flat_map(|w| (1..=5).map(move |n| (w, n)));
    let sizes = small.chain([(64, 1), (1, 64), (64, 64)]);
    sizes.flat_map(|size| (0..3).map(move |kind| (size, kind)))
}

/// The corners of a cell, sw, se, nw and ne: they wrap only where there is no wall.
pub fn own_corners(p: &Parameters, cell: usize) -> [usize; 4] {
    let [columns, rows] = corner_sides(p);
    let (i, j) = (cell % p.w, cell / p.w);
    let places = [(i, j), (i + 1, j), (i, j + 1), (i + 1, j + 1)];
    places.map(|(x, y)| y % rows * columns + x % columns)
}

/// The corners on a wall, in index order.
pub fn wall_corners(p: &Parameters) -> Vec<usize> {
    let [columns, rows] = corner_sides(p);
    let on_wall = |corner: &usize| {
        let (x, y) = (corner % columns, corner / columns);
        p.kind == 2 && (x == 0 || x == p.w) || p.kind != 0 && (y == 0 || y == p.n)
    };
    (0..columns * rows).filter(on_wall).collect()
}

/// The places at which two lists differ.
pub fn differing(one: &[i64], other: &[i64]) -> Vec<usize> {
    assert_eq!(one.len(), other.len());
    (0..one.len()).filter(|&k| one[k] != other[k]).collect()
}

/// For each wall with other cells along the opposite one: the cells along it, and the
/// corners on the opposite one.
pub fn opposite_walls(p: &Parameters) -> Vec<(Vec<usize>, Vec<usize>)> {
    let &Parameters { w, n, kind, .. } = p;
    let [columns, rows] = corner_sides(p);
    let row = |j: usize, y: usize| {
        let cells = (0..w).map(|i| j * w + i).collect();
        (cells, (0..columns).map(|x| y * columns + x).collect())
    };
    let column = |i: usize, x: usize| {
        let cells = (0..n).map(|j| j * w + i).collect();
        (cells, (0..rows).map(|y| y * columns + x).collect())
    };
    let mut walls = vec![];
    if kind != 0 && n > 1 {
        walls.extend([row(0, n), row(n - 1, 0)]);
    }
    if kind == 2 && w > 1 {
        walls.extend([column(0, w), column(w - 1, 0)]);
    }
    walls
}

/// Corners of such a grid to try: all of a small one, and of a large one the last row
/// and the last column.
pub fn corners_to_try(p: &Parameters) -> Vec<usize> {
    let [columns, rows] = corner_sides(p);
    let all = 0..columns * rows;
    let last = |corner: &usize| corner / columns == rows - 1 || corner % columns == columns - 1;
    all.filter(|corner| columns * rows <= 36 || last(corner))
        .collect()
}

/// Lengths of a q, and whether each is right: a number a corner, one fewer, one
/// more, a number a cell, none.
pub fn q_lengths(p: &Parameters) -> [(usize, bool); 5] {
    let right = corners(p);
    [right, right - 1, right + 1, p.w * p.n, 0].map(|length| (length, length == right))
}

/// Any q of such a grid within its bound.
pub fn random_q(random: &mut Random, spread: Spread, p: &Parameters) -> Vec<i64> {
    numbers(random, spread, corners(p), -2_000_000, 2_000_000)
}

/// Width and height: mostly up to 8, with single rows and columns, and up to
/// 64 now and then.
pub fn random_size(random: &mut Random) -> (usize, usize) {
    match random.below(100) {
        0 => (1 + random.below(64), 1 + random.below(64)),
        1..=10 => (1, 1 + random.below(16)),
        11..=20 => (1 + random.below(16), 1),
        _ => (1 + random.below(8), 1 + random.below(8)),
    }
}

/// Barriers for so many cells: none in half of the cases; else on any edges, on
/// some, on one, or on all west edges, all south edges or all.
pub fn random_barriers(random: &mut Random, cells: usize) -> Vec<u8> {
    let mut barriers = vec![0; cells];
    match random.below(8) {
        0 | 1 => barriers.fill_with(|| random.below(4) as u8),
        2 => barriers[random.below(cells)] = random.pick(&[1, 2, 3]),
        3 if random.once_in(2) => barriers.fill(random.pick(&[1, 2, 3])),
        3 => barriers.fill_with(|| random.pick(&[0, 0, 0, 0, 0, 1, 2, 3])),
        _ => {}
    }
    barriers
}

/// A state within the limits, every second time with barriers.
pub fn random_state(random: &mut Random, spread: Spread, size: (usize, usize), kind: u8) -> State {
    let mut state = random_state_without_barriers(random, spread, size, kind);
    state.barriers = random_barriers(random, state.h.len());
    clear_closed_edges(&mut state);
    assert!(within_limits(&state), "{state:?}");
    state
}

pub fn random_state_without_barriers(
    random: &mut Random,
    spread: Spread,
    (w, n): (usize, usize),
    kind: u8,
) -> State {
    let cells = w * n;
    let mut state = if spread == Spread::Calm {
        let depth = random.between(2_000, 60_000);
        let ripple = random.between(0, depth / 20);
        let speed = random.between(0, 300);
        State {
            parameters: Parameters {
                w,
                n,
                kind,
                g: random.between(1, 10_000),
                c: random.between(-100, 100),
                r: random.between(80_000, 1_000_000),
            },
            h: numbers(random, spread, cells, depth - ripple, depth + ripple),
            b: numbers(random, spread, cells, 0, ripple),
            u: numbers(random, spread, cells, -speed, speed),
            v: numbers(random, spread, cells, -speed, speed),
            barriers: vec![0; cells],
        }
    } else {
        State {
            parameters: Parameters {
                w,
                n,
                kind,
                g: number(random, spread, 1, 10_000),
                c: number(random, spread, -10_000, 10_000),
                r: number(random, spread, 1_000, 1_000_000),
            },
            h: numbers(random, spread, cells, 1_000, 100_000),
            b: numbers(random, spread, cells, 0, 100_000),
            u: numbers(random, spread, cells, -5_000, 5_000),
            v: numbers(random, spread, cells, -5_000, 5_000),
            barriers: vec![0; cells],
        }
    };
    clear_closed_edges(&mut state);
    state
}

/// A state within the limits of any spread, size and kind.
pub fn any_state(random: &mut Random) -> State {
    let spread = random.pick(&SPREADS);
    let size = random_size(random);
    let kind = random.below(3) as u8;
    random_state(random, spread, size, kind)
}

/// A state and a q whose numbers are between these sizes: h and b, u and v, q. The
/// signs of a field are any, or all alike.
fn state_of_sizes(
    random: &mut Random,
    spread: Spread,
    size: (usize, usize),
    kind: u8,
    [height, speed, vorticity]: [(i64, i64); 3],
) -> (State, Vec<i64>) {
    let mut state = random_state(random, spread, size, kind);
    let cells = state.h.len();
    let mut sizes = |count, (low, high)| numbers(random, spread, count, low, high);
    let (low, high) = height;
    state.h = sizes(cells, (low.max(1_000), high));
    state.b = sizes(cells, height);
    let [u, v] = [(); 2].map(|()| sizes(cells, speed));
    let q = sizes(corners(&state.parameters), vorticity);
    let mut signed = |mut field: Vec<i64>| {
        let signs = random.pick(&[&[1][..], &[-1], &[-1, 1], &[-1, 1]]);
        field.iter_mut().for_each(|x| *x *= random.pick(signs));
        field
    };
    (state.u, state.v) = (signed(u), signed(v));
    let q = signed(q);
    clear_closed_edges(&mut state);
    (state, q)
}

/// A state and a q that make a narrow grid (02), up to its bounds: 10,000 of h and
/// b, 500 of u and v, 1,000,000 of q.
pub fn narrow_state(random: &mut Random, size: (usize, usize), kind: u8) -> (State, Vec<i64>) {
    let spread = random.pick(&[Spread::Even, Spread::Extreme, Spread::Mixed]);
    let sizes = [(0, 10_000), (0, 500), (0, 1_000_000)];
    state_of_sizes(random, spread, size, kind, sizes)
}

/// A state and a q of numbers so large that doubles round the tendencies most.
pub fn large_state(random: &mut Random, size: (usize, usize), kind: u8) -> (State, Vec<i64>) {
    let sizes = [(90_000, 100_000), (4_900, 5_000), (1_900_000, 2_000_000)];
    let (mut state, q) = state_of_sizes(random, Spread::Even, size, kind, sizes);
    state.parameters.g = 10_000;
    (state, q)
}

/// Whether the west edge of a cell is closed, and its south edge: by the boundary
/// or by a barrier.
pub fn closed_edges(state: &State, cell: usize) -> [bool; 2] {
    let Parameters { w, kind, .. } = state.parameters;
    let barrier = state.barriers[cell];
    [
        kind == 2 && cell.is_multiple_of(w) || barrier % 2 == 1,
        kind != 0 && cell / w == 0 || barrier / 2 % 2 == 1,
    ]
}

/// Whether no edge of the grid is closed.
pub fn is_open(state: &State) -> bool {
    (0..state.h.len()).all(|cell| closed_edges(state, cell) == [false; 2])
}

pub fn clear_closed_edges(state: &mut State) {
    for cell in 0..state.h.len() {
        let [west, south] = closed_edges(state, cell);
        if west {
            state.u[cell] = 0;
        }
        if south {
            state.v[cell] = 0;
        }
    }
}

/// 01's limits of a state, apart from the library.
pub fn within_limits(state: &State) -> bool {
    let p = state.parameters;
    if !(1..=64).contains(&p.w) || !(1..=64).contains(&p.n) || p.kind > 2 {
        return false;
    }
    let cells = p.w * p.n;
    let inside = |field: &[i64], low, high| {
        field.len() == cells && field.iter().all(|x| (low..=high).contains(x))
    };
    let barriers = &state.barriers;
    (1..=10_000).contains(&p.g)
        && (-10_000..=10_000).contains(&p.c)
        && (1_000..=1_000_000).contains(&p.r)
        && inside(&state.h, 1_000, 100_000)
        && inside(&state.b, 0, 100_000)
        && inside(&state.u, -5_000, 5_000)
        && inside(&state.v, -5_000, 5_000)
        && barriers.len() == cells
        && barriers.iter().all(|&barrier| barrier < 4)
        && (0..cells).all(|cell| {
            let [west, south] = closed_edges(state, cell);
            (!west || state.u[cell] == 0) && (!south || state.v[cell] == 0)
        })
}

fn filled(answer: FillAnswer) -> Result<(), Refusal> {
    match answer {
        FillAnswer::Done => Ok(()),
        FillAnswer::Refused(refusal) => Err(refusal),
    }
}

/// The potential vorticity of an owned state, by the public call.
pub fn vorticity_of(state: &State) -> Result<Vec<i64>, Refusal> {
    let mut q = vec![i64::MIN; corners(&state.parameters)];
    let State {
        parameters,
        h,
        b,
        u,
        v,
        barriers,
    } = state;
    let answer = reference::potential_vorticity(parameters, h, b, u, v, barriers, &mut q);
    filled(answer).map(|()| q)
}

/// The tendencies -D, Tu and Tv of an owned state, by the public call.
pub fn tendencies_of(state: &State, q: &[i64]) -> Result<Three, Refusal> {
    let [mut dh, mut du, mut dv] = [(); 3].map(|()| vec![i64::MIN; state.h.len()]);
    let State {
        parameters,
        h,
        b,
        u,
        v,
        barriers,
    } = state;
    let answer = reference::tendencies(
        parameters, h, b, u, v, barriers, q, &mut dh, &mut du, &mut dv,
    );
    let (h, u, v) = (dh, du, dv);
    filled(answer).map(|()| Three { h, u, v })
}

/// The probe of a cell of an owned state, by the public call.
pub fn probe_of(state: &State, q: &[i64], cell: usize) -> ProbeAnswer {
    let State {
        parameters,
        h,
        b,
        u,
        v,
        barriers,
    } = state;
    reference::probe(parameters, h, b, u, v, barriers, q, cell)
}

/// The probe of all cells of an owned state, by the public call, and what it fills
/// in.
pub fn probe_grid_of(state: &State, q: &[i64]) -> (ProbeGridAnswer, [Vec<f64>; 3]) {
    let [mut dh, mut du, mut dv] = [(); 3].map(|()| vec![f64::NAN; state.h.len()]);
    let State {
        parameters,
        h,
        b,
        u,
        v,
        barriers,
    } = state;
    let answer = reference::probe_grid(
        parameters, h, b, u, v, barriers, q, &mut dh, &mut du, &mut dv,
    );
    (answer, [dh, du, dv])
}

/// The bits of doubles, which tell -0.0 from 0.0.
pub fn bits(doubles: &[f64]) -> Vec<u64> {
    doubles.iter().map(|x| x.to_bits()).collect()
}

/// How far a double is from a whole number; it has to be one too.
pub fn distance(double: f64, whole: i64) -> u64 {
    assert_eq!(double.fract(), 0.0, "{double} is no whole number");
    // Both are below 2^57.
    (double as i64).abs_diff(whole)
}

/// The totals of an owned state, by the public calls: depth, and four times energy.
pub fn totals_of(state: &State) -> [TotalAnswer; 2] {
    let State {
        parameters,
        h,
        b,
        u,
        v,
        barriers,
    } = state;
    [
        reference::total_depth(parameters, h, b, u, v, barriers),
        reference::total_energy(parameters, h, b, u, v, barriers),
    ]
}

/// The public step on an owned state.
pub fn step_state(state: &mut State, inflow: &[i64], work: &mut [i64]) -> StepAnswer {
    reference::step(
        &state.parameters,
        &mut state.h,
        &state.b,
        &mut state.u,
        &mut state.v,
        &state.barriers,
        inflow,
        work,
    )
}

/// The public run on an owned state.
pub fn run_state(state: &mut State, inflow: &[i64], steps: u64, work: &mut [i64]) -> RunAnswer {
    reference::run(
        &state.parameters,
        &mut state.h,
        &state.b,
        &mut state.u,
        &mut state.v,
        &state.barriers,
        inflow,
        steps,
        work,
    )
}

/// A moment to the millisecond. (Where none is wanted, a number stands for a
/// whole second.)
pub fn moment(seconds: u64, milliseconds: u64) -> Timestamp {
    Timestamp {
        seconds,
        milliseconds,
    }
}

/// Seconds, and milliseconds, at their bounds and at those of narrower numbers.
pub const TIME_NUMBERS: [u64; 9] = [0, 1, 998, 999, 1_000, 65_535, 1 << 16, 1 << 32, u64::MAX];

/// A number of 64 bits: any, with those at the ends of its range, of few bytes and
/// of the highest bit.
pub fn random_number(random: &mut Random) -> u64 {
    match random.below(4) {
        0 => random.pick(&[0, 1, 1 << 63, u64::MAX]),
        1 => random.next() >> random.below(64),
        _ => random.next(),
    }
}

/// A timestamp that a record can have, often of a whole second.
pub fn random_timestamp(random: &mut Random) -> Timestamp {
    let milliseconds = match random.below(4) {
        0 | 1 => 0,
        2 => random.pick(&[1, 255, 256, 998, 999]),
        _ => random.below(1_000) as u64,
    };
    moment(random_number(random), milliseconds)
}

/// The bytes of a record of so many cells, apart from the library.
pub fn record_size(cells: usize) -> usize {
    52 + 13 * cells
}

/// The public writer on an owned state, into a record of the right size.
pub fn written(state: &State, timestamp: impl Into<Timestamp>) -> Vec<u8> {
    let State {
        parameters,
        h,
        b,
        u,
        v,
        barriers,
    } = state;
    let mut record = vec![0; record_size(h.len())];
    let time = timestamp.into();
    let answer = reference::write(parameters, h, b, u, v, barriers, time, &mut record);
    assert_eq!(answer.told(), [0, record.len() as i128], "{state:?}");
    record
}

/// One field of a record.
pub fn record_field(tag: u8, value: &[u8]) -> Vec<u8> {
    let mut field = vec![tag];
    field.extend((value.len() as u16).to_be_bytes());
    field.extend(value);
    field
}

/// Tag 8 of so many milliseconds, which need not be within the limits.
pub fn milliseconds_field(milliseconds: u64) -> Vec<u8> {
    let value = u16::try_from(milliseconds).expect("fits two bytes");
    record_field(8, &value.to_be_bytes())
}

/// The nine fields of a state's record by rising tag, apart from the library.
/// State and timestamp need not be within the limits. Where the milliseconds are
/// 0, a record may do without the last field but one, and without barriers without
/// the last.
pub fn record_fields(state: &State, timestamp: impl Into<Timestamp>) -> Vec<Vec<u8>> {
    let p = state.parameters;
    let timestamp = timestamp.into();
    let four = |numbers: &[i64]| -> Vec<u8> {
        numbers
            .iter()
            .flat_map(|&x| i32::try_from(x).expect("fits four bytes").to_be_bytes())
            .collect()
    };
    let two = |numbers: &[i64]| -> Vec<u8> {
        numbers
            .iter()
            .flat_map(|&x| i16::try_from(x).expect("fits two bytes").to_be_bytes())
            .collect()
    };
    vec![
        record_field(1, &[p.w as u8, p.n as u8, p.kind]),
        record_field(2, &four(&[p.g, p.c, p.r])),
        record_field(3, &timestamp.seconds.to_be_bytes()),
        record_field(4, &four(&state.h)),
        record_field(5, &four(&state.b)),
        record_field(6, &two(&state.u)),
        record_field(7, &two(&state.v)),
        milliseconds_field(timestamp.milliseconds),
        record_field(9, &state.barriers),
    ]
}

/// The record of a state, apart from the library.
pub fn record_of(state: &State, timestamp: impl Into<Timestamp>) -> Vec<u8> {
    record_fields(state, timestamp).concat()
}

/// The record of a state without barriers at a whole second, as 01 has it: without
/// tags 8 and 9.
pub fn record_of_01(state: &State, seconds: u64) -> Vec<u8> {
    record_fields(state, seconds)[..7].concat()
}

/// Shuffles the fields of a record.
pub fn shuffle(random: &mut Random, fields: &mut [Vec<u8>]) {
    for k in (1..fields.len()).rev() {
        fields.swap(k, random.below(k + 1));
    }
}

/// The fields of a record by rising tag; of a whole second mostly without tag 8,
/// and without barriers mostly without tag 9.
pub fn some_fields(random: &mut Random, state: &State, timestamp: Timestamp) -> Vec<Vec<u8>> {
    let mut fields = record_fields(state, timestamp);
    let (milliseconds, barriers) = (timestamp.milliseconds, &state.barriers);
    if barriers.iter().all(|&barrier| barrier == 0) && !random.once_in(3) {
        fields.remove(8);
    }
    if milliseconds == 0 && !random.once_in(3) {
        fields.remove(7);
    }
    fields
}

/// Such fields in some order.
pub fn shuffled(random: &mut Random, state: &State, timestamp: impl Into<Timestamp>) -> Vec<u8> {
    let mut fields = some_fields(random, state, timestamp.into());
    shuffle(random, &mut fields);
    fields.concat()
}

/// Two cells that wrap, with a negative number wherever one is allowed.
pub fn two_cells() -> State {
    State {
        parameters: Parameters {
            w: 2,
            n: 1,
            kind: 0,
            g: 9_810,
            c: -10,
            r: 1_000,
        },
        h: vec![2_000, 3_000],
        b: vec![0, 17],
        u: vec![100, -1],
        v: vec![-50, 5_000],
        barriers: vec![0, 0],
    }
}

/// The same with a barrier on the south edge of the second cell.
pub fn two_cells_and_a_barrier() -> State {
    State {
        v: vec![-50, 0],
        barriers: vec![0, 2],
        ..two_cells()
    }
}

/// Four cells that wrap, with a jetty of two edges: those of 02's rates.
pub fn four_cells_and_a_jetty() -> State {
    State {
        parameters: Parameters {
            w: 2,
            n: 2,
            kind: 0,
            g: 9_810,
            c: 100,
            r: 200_000,
        },
        h: vec![2_000, 2_500, 1_500, 3_000],
        b: vec![10, 20, 30, 40],
        u: vec![10, 0, -40, 50],
        v: vec![7, -14, 0, 35],
        barriers: vec![0, 1, 2, 0],
    }
}

/// The cell of worked examples 2 and 10.
pub fn one_cell() -> State {
    State {
        parameters: Parameters {
            w: 1,
            n: 1,
            kind: 0,
            g: 9_810,
            c: 10,
            r: 1_000,
        },
        h: vec![2_000],
        b: vec![0],
        u: vec![100],
        v: vec![-50],
        barriers: vec![0],
    }
}

/// Worked numbers of 02's probe: -D, Tu and Tv of a cell.
pub struct WorkedProbe {
    pub state: State,
    pub q: Vec<i64>,
    pub cell: usize,
    pub exact: bool,
    /// Those of the scheme, the doubles, and the bits of these.
    pub whole: [i64; 3],
    pub doubles: [f64; 3],
    pub bits: [u64; 3],
}

/// Those of worked example 2; of two cells at the narrow bounds, and past one of
/// them; of numbers that doubles round; of closed edges, at a wall and at a barrier;
/// and of the channel of [`worked_channel`].
pub fn worked_probes() -> [WorkedProbe; 11] {
    let state = |(w, n, kind, g), fields: [&[i64]; 4], barriers: &[u8]| {
        let [h, b, u, v] = fields.map(Vec::from);
        State {
            parameters: Parameters {
                w,
                n,
                kind,
                g,
                c: 10,
                r: 1_000,
            },
            h,
            b,
            u,
            v,
            barriers: barriers.to_vec(),
        }
    };
    let (channel, corners, _) = worked_channel();
    [
        WorkedProbe {
            state: state((1, 1, 0, 9_810), [&[2_000], &[0], &[100], &[-50]], &[0]),
            q: vec![328],
            cell: 0,
            exact: true,
            whole: [0, -1_574_400_000, -3_148_800_000],
            doubles: [-0.0, -1_574_400_000.0, -3_148_800_000.0],
            bits: [
                0x8000_0000_0000_0000,
                0xC1D7_75DC_0000_0000,
                0xC1E7_75DC_0000_0000,
            ],
        },
        WorkedProbe {
            state: state(
                (2, 1, 0, 10_000),
                [&[10_000, 10_000], &[10_000, 0], &[500, -500], &[500, -500]],
                &[0, 0],
            ),
            q: vec![1_000_000, -1_000_000],
            cell: 0,
            exact: true,
            whole: [20_000_000, -314_572_800_000_000, 0],
            doubles: [20_000_000.0, -314_572_800_000_000.0, 0.0],
            bits: [0x4173_12D0_0000_0000, 0xC2F1_E1A3_0000_0000, 0],
        },
        WorkedProbe {
            state: state(
                (2, 1, 0, 10_000),
                [&[10_000, 10_001], &[10_000, 0], &[500, -500], &[500, -500]],
                &[0, 0],
            ),
            q: vec![1_000_000, -1_000_000],
            cell: 0,
            exact: false,
            whole: [20_001_000, -314_541_342_720_000, 0],
            doubles: [20_001_000.0, -314_541_342_720_000.0, 0.0],
            bits: [0x4173_130E_8000_0000, 0xC2F1_E12D_D000_0000, 0],
        },
        WorkedProbe {
            state: state(
                (1, 2, 0, 9_810),
                [
                    &[99_999, 87_654],
                    &[0, 1],
                    &[-4_999, -4_999],
                    &[4_997, 4_321],
                ],
                &[0, 0],
            ),
            q: vec![2_000_000, 1_999_997],
            cell: 0,
            exact: false,
            whole: [126_853_428, 41_965_184_222_088_228, 44_646_748_085_517_588],
            doubles: [
                126_853_428.0,
                41_965_184_222_088_240.0,
                44_646_748_085_517_584.0,
            ],
            bits: [
                0x419E_3E84_D000_0000,
                0x4362_A2E3_9B4F_B986,
                0x4363_D3BF_6300_6FA2,
            ],
        },
        WorkedProbe {
            state: state(
                (2, 1, 0, 10_000),
                [&[99_999, 87_654], &[1, 1], &[1, 5_000], &[4_999, 4_997]],
                &[0, 0],
            ),
            q: vec![2_000_000, 1_234_567],
            cell: 0,
            exact: false,
            whole: [
                -938_077_347,
                36_016_112_248_688_268,
                -18_212_927_894_737_506,
            ],
            doubles: [
                -938_077_347.0,
                36_016_112_248_688_272.0,
                -18_212_927_894_737_504.0,
            ],
            bits: [
                0xC1CB_F4F6_5180_0000,
                0x435F_FD1D_A631_83A4,
                0xC350_2D23_EE5F_1498,
            ],
        },
        WorkedProbe {
            state: state(
                (2, 1, 2, 9_810),
                [&[2_000, 3_000], &[0, 0], &[0, 10], &[0, 0]],
                &[0, 0],
            ),
            q: vec![1_000, 2_000, 3_000, 4_000, 5_000, 6_000],
            cell: 0,
            exact: true,
            whole: [-50_000, 0, 0],
            doubles: [-50_000.0, 0.0, 0.0],
            bits: [0xC0E8_6A00_0000_0000, 0, 0],
        },
        WorkedProbe {
            state: state(
                (2, 1, 2, 9_810),
                [&[2_000, 3_000], &[0, 0], &[0, 10], &[0, 0]],
                &[0, 0],
            ),
            q: vec![1_000, 2_000, 3_000, 4_000, 5_000, 6_000],
            cell: 1,
            exact: true,
            whole: [50_000, -30_859_591_680_000, 0],
            doubles: [50_000.0, -30_859_591_680_000.0, 0.0],
            bits: [0x40E8_6A00_0000_0000, 0xC2BC_110F_0000_0000, 0],
        },
        WorkedProbe {
            state: state(
                (2, 1, 0, 9_810),
                [&[2_000, 3_000], &[0, 0], &[10, 0], &[0, 0]],
                &[0, 1],
            ),
            q: vec![1_000, 2_000],
            cell: 1,
            exact: true,
            whole: [-50_000, 0, -900_000_000],
            doubles: [-50_000.0, 0.0, -900_000_000.0],
            bits: [0xC0E8_6A00_0000_0000, 0, 0xC1CA_D274_8000_0000],
        },
        WorkedProbe {
            state: state(
                (2, 1, 0, 9_810),
                [&[2_000, 3_000], &[0, 0], &[10, 0], &[0, 0]],
                &[0, 1],
            ),
            q: vec![1_000, 2_000],
            cell: 0,
            exact: true,
            whole: [50_000, 30_859_591_680_000, -900_000_000],
            doubles: [50_000.0, 30_859_591_680_000.0, -900_000_000.0],
            bits: [
                0x40E8_6A00_0000_0000,
                0x42BC_110F_0000_0000,
                0xC1CA_D274_8000_0000,
            ],
        },
        WorkedProbe {
            state: channel.clone(),
            q: corners.clone(),
            cell: 0,
            exact: true,
            whole: [-120_000, 2_160_000_000, 0],
            doubles: [-120_000.0, 2_160_000_000.0, 0.0],
            bits: [0xC0FD_4C00_0000_0000, 0x41E0_17DF_8000_0000, 0],
        },
        WorkedProbe {
            state: channel,
            q: corners,
            cell: 1,
            exact: true,
            whole: [120_000, 3_600_000_000, -54_514_560_000],
            doubles: [120_000.0, 3_600_000_000.0, -54_514_560_000.0],
            bits: [
                0x40FD_4C00_0000_0000,
                0x41EA_D274_8000_0000,
                0xC229_62A4_5800_0000,
            ],
        },
    ]
}

/// A shoal along the south wall and deep water along the north wall, two by two
/// cells, with or without walls in the west and in the east.
fn shoal(kind: u8, u: [i64; 4]) -> State {
    State {
        parameters: Parameters {
            w: 2,
            n: 2,
            kind,
            g: 9_810,
            c: 100,
            r: 1_000,
        },
        h: vec![2_000, 3_000, 50_000, 60_000],
        b: vec![0; 4],
        u: u.to_vec(),
        v: vec![0, 0, 7, -9],
        barriers: vec![0; 4],
    }
}

/// Worked numbers of 02's corners on a wall: states and their own q, of one cell
/// between four walls, of a channel and of a basin.
pub fn worked_corners() -> [(State, Vec<i64>); 3] {
    let mut cell = one_cell();
    cell.parameters.kind = 2;
    (cell.u, cell.v) = (vec![0], vec![0]);
    [
        (cell, vec![328; 4]),
        (
            shoal(1, [30, -20, 10, 40]),
            vec![2_621, 2_621, 310, 55, 119, 119],
        ),
        (
            shoal(2, [0, -20, 0, 40]),
            vec![3_277, 2_621, 2_185, 252, 55, 208, 131, 119, 109],
        ),
    ]
}

/// A channel of one column, a lent q and the tendencies with it.
pub fn worked_channel() -> (State, Vec<i64>, Three) {
    let state = State {
        parameters: Parameters {
            w: 1,
            n: 2,
            kind: 1,
            g: 10,
            c: 0,
            r: 1_000,
        },
        h: vec![2_000, 4_000],
        b: vec![0; 2],
        u: vec![50, -50],
        v: vec![0, 20],
        barriers: vec![0; 2],
    };
    let tendencies = Three {
        h: vec![-120_000, 120_000],
        u: vec![2_160_000_000, 3_600_000_000],
        v: vec![0, -54_514_560_000],
    };
    (state, vec![1_000, 2_000, 3_000], tendencies)
}

/// A basin that turns fast, and the same a step later. With the cells across the
/// walls, v would be 48 and -113 there.
pub fn worked_turning_basin() -> [State; 2] {
    let before = State {
        parameters: Parameters {
            w: 2,
            n: 2,
            kind: 2,
            g: 1,
            c: 10_000,
            r: 50_000,
        },
        h: vec![20_000, 30_000, 50_000, 60_000],
        b: vec![0; 4],
        u: vec![0, -200, 0, 400],
        v: vec![0, 0, 70, -90],
        barriers: vec![0; 4],
    };
    let after = State {
        h: vec![20_064, 29_995, 49_598, 60_343],
        u: vec![0, -204, 0, 397],
        v: vec![0, 0, 53, -106],
        ..before.clone()
    };
    [before, after]
}

/// A state at rest with level water.
pub fn at_rest(w: usize, n: usize) -> State {
    let cells = w * n;
    State {
        parameters: Parameters {
            w,
            n,
            kind: 0,
            g: 9_810,
            c: 0,
            r: 1_000,
        },
        h: vec![5_000; cells],
        b: vec![0; cells],
        u: vec![0; cells],
        v: vec![0; cells],
        barriers: vec![0; cells],
    }
}

/// A record of one cell and of this kind, made so long by its b: the reader
/// refuses it with 2, or with 1.
pub fn record_of_length(length: usize, kind: u8) -> Vec<u8> {
    let mut state = at_rest(1, 1);
    state.parameters.kind = kind;
    let mut fields = record_fields(&state, 1);
    let others = record_of(&state, 1).len() - fields[4].len();
    fields[4] = record_field(5, &vec![0; length - others - 3]);
    let record = fields.concat();
    assert_eq!(record.len(), length);
    record
}

/// Calls `visit` with every order of the fields from `from` on.
pub fn every_order(fields: &mut [Vec<u8>], from: usize, visit: &mut impl FnMut(&[Vec<u8>])) {
    if from == fields.len() {
        return visit(fields);
    }
    for k in from..fields.len() {
        fields.swap(from, k);
        every_order(fields, from + 1, visit);
        fields.swap(from, k);
    }
}

/// Every file of tests in this package is a module of `all.rs`, whose text this
/// is: one that is not would never run.
pub fn assert_all_named(package: &str, all: &str) {
    for file in fs::read_dir(Path::new(package).join("tests")).expect("the tests") {
        let path = file.expect("a file").path();
        let name = path.file_stem().unwrap_or_default().display();
        if path.extension().is_some_and(|end| end == "rs") && !path.ends_with("all.rs") {
            let module = format!("\nmod {name};\n");
            assert!(all.contains(&module), "{} is no module", path.display());
        }
    }
}
