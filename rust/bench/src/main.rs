//! Times the calls of the proved library and those of the independent version
//! in one run, on the same closed basins:
//!
//! ```sh
//! cargo run --release --offline --manifest-path rust/Cargo.toml -p bench
//! ```
//!
//! Rounds of the two take turns, and the least time of each counts: whatever
//! else the machine does can only add to it. The table is printed after half a
//! minute.

// The generator of random states is shared with the tests.
#[path = "../../reference/tests/common/mod.rs"]
mod common;

use std::hint::black_box;
use std::time::{Duration, Instant};

use common::{clear_closed_edges, numbers, random_q, random_state_without_barriers, written};
use common::{Random, Spread};
use reference::{CompareAnswer, FillAnswer, ProbeGridAnswer, ReadAnswer, TotalAnswer};
use reference::{Parameters, RunAnswer, State, StepAnswer, WriteAnswer};

/// Columns and rows. In one row or column every cell is at a wall. On one cell,
/// what a call takes beside its cells counts most.
const GRIDS: [(usize, usize); 5] = [(16, 16), (64, 64), (64, 1), (1, 64), (1, 1)];
const KIND: u8 = 2;
const TIMESTAMP: Moment = Moment {
    seconds: 848_880_000,
    milliseconds: 250,
};
/// Cells of all the states that a call is timed on, one after the other: the
/// branches of a single one are learnt by the processor, more or less by chance.
/// Each step of a run has a state of its own.
const CELLS: usize = 4 * 64 * 64;
/// The states at most: more of a small grid would not stay in the nearest caches,
/// and these would be timed.
const STATES: usize = 64;
/// How often all rows are timed, one after the other, so that what slows the
/// machine for a second or two does not fill the time of a row.
const SWEEPS: usize = 4;
/// Rounds of a row in each.
const ROUNDS: usize = 8;
/// What a round takes at least, with either version, in the warm-up.
const ROUND: Duration = Duration::from_millis(4);

/// A call of both versions. Each says whether it was accepted.
struct Call {
    name: &'static str,
    /// How many steps it takes, 0 where it leaves the state.
    steps: u64,
    proved: Version,
    independent: Version,
}

impl Call {
    /// Cells that the call works out, those of each step.
    fn cells(&self, (w, n): (usize, usize)) -> usize {
        w * n * self.steps.max(1) as usize
    }

    /// How many states it is timed on.
    fn states(&self, size: (usize, usize)) -> usize {
        (CELLS / self.cells(size)).clamp(1, STATES)
    }
}

type Version = fn(&mut Lent) -> bool;

/// A name, and the function of both versions with what it takes after the
/// parameters; or `record` and one that takes none.
macro_rules! call {
    ($name:literal, record |$l:ident| $function:ident($($lent:expr),*)) => {
        Call {
            name: $name,
            steps: 0,
            proved: |$l| basin::$function($($lent),*).accepted(),
            independent: |$l| reference::$function($($lent),*).accepted(),
        }
    };
    ($name:literal, |$l:ident| $function:ident($($lent:expr),*)) => {
        Call {
            name: $name,
            steps: 0,
            proved: |$l| {
                let answer = basin::$function(&$l.proved_parameters, $($lent),*);
                $l.total = answer.total();
                answer.accepted()
            },
            independent: |$l| {
                let answer = reference::$function(&$l.independent_parameters, $($lent),*);
                $l.total = answer.total();
                answer.accepted()
            },
        }
    };
}

#[rustfmt::skip]
const CALLS: [Call; 9] = [
    Call { steps: 1,
           ..call!("step", |l| step(&mut l.h, &l.b, &mut l.u, &mut l.v, &l.barriers, &l.inflow, &mut l.work)) },
    Call { steps: 100,
           ..call!("run of 100 steps", |l| run(&mut l.h, &l.b, &mut l.u, &mut l.v, &l.barriers, &l.inflow, 100, &mut l.work)) },
    call!("potential vorticity", |l| potential_vorticity(&l.h, &l.b, &l.u, &l.v, &l.barriers, &mut l.own_q)),
    call!("tendencies", |l| tendencies(&l.h, &l.b, &l.u, &l.v, &l.barriers, &l.q, &mut l.dh, &mut l.du, &mut l.dv)),
    call!("probe of a grid", |l| probe_grid(&l.h, &l.b, &l.u, &l.v, &l.barriers, &l.q, &mut l.double_dh, &mut l.double_du, &mut l.double_dv)),
    call!("total depth", |l| total_depth(&l.h, &l.b, &l.u, &l.v, &l.barriers)),
    call!("write", |l| write(&l.h, &l.b, &l.u, &l.v, &l.barriers, TIMESTAMP.into(), &mut l.written)),
    call!("read", record |l| read(&l.record, &mut l.own_q, &mut l.dh, &mut l.du, &mut l.dv, &mut l.read_barriers)),
    call!("compare", record |l| compare(&l.record, &l.same)),
];

/// A timestamp, for both versions.
struct Moment {
    seconds: u64,
    milliseconds: u64,
}

macro_rules! timestamps {
    ($($version:ident)*) => {
        $(impl From<Moment> for $version::Timestamp {
            fn from(of: Moment) -> Self {
                let (seconds, milliseconds) = (of.seconds, of.milliseconds);
                Self { seconds, milliseconds }
            }
        })*
    };
}

timestamps! { basin reference }

/// All that the calls can be lent.
#[derive(PartialEq)]
struct Lent {
    proved_parameters: basin::Parameters,
    independent_parameters: reference::Parameters,
    h: Vec<i64>,
    b: Vec<i64>,
    u: Vec<i64>,
    v: Vec<i64>,
    /// All 0, so that times compare with those from before there were barriers.
    barriers: Vec<u8>,
    q: Vec<i64>,
    /// Filled with the state's own potential vorticity. A record is read into
    /// this, the tendencies and barriers of its own.
    own_q: Vec<i64>,
    read_barriers: Vec<u8>,
    dh: Vec<i64>,
    du: Vec<i64>,
    dv: Vec<i64>,
    double_dh: Vec<f64>,
    double_du: Vec<f64>,
    double_dv: Vec<f64>,
    inflow: Vec<i64>,
    work: Vec<i64>,
    total: i64,
    /// The state's record, and once more: two records that are the same have to
    /// be compared to the end.
    record: Vec<u8>,
    same: Vec<u8>,
    /// Filled with the record.
    written: Vec<u8>,
    /// h, u and v before any step.
    start: [Vec<i64>; 3],
}

impl Lent {
    /// Random basins of this size: any for a call that leaves its state, calm
    /// ones for steps, which others refuse.
    fn all(call: &Call, size: (usize, usize)) -> Vec<Self> {
        let mut random = Random::new(1);
        let state = |random: &mut Random| match call.steps {
            0 => random_state_without_barriers(random, Spread::Even, size, KIND),
            _ => seiche(random, size),
        };
        (0..call.states(size))
            .map(|_| {
                let state = state(&mut random);
                Lent::new(&mut random, state)
            })
            .collect()
    }

    fn new(random: &mut Random, state: State) -> Self {
        let record = written(&state, TIMESTAMP);
        let State {
            parameters,
            h,
            b,
            u,
            v,
            barriers,
        } = state;
        let cells = h.len();
        let reference::Parameters {
            w,
            n,
            kind,
            g,
            c,
            r,
        } = parameters;
        Lent {
            proved_parameters: basin::Parameters {
                w,
                n,
                kind,
                g,
                c,
                r,
            },
            independent_parameters: parameters,
            start: [&h, &u, &v].map(Vec::clone),
            h,
            b,
            u,
            v,
            barriers,
            q: random_q(random, Spread::Even, &parameters),
            own_q: vec![0; parameters.corners()],
            read_barriers: vec![7; cells],
            dh: vec![0; cells],
            du: vec![0; cells],
            dv: vec![0; cells],
            double_dh: vec![0.5; cells],
            double_du: vec![0.5; cells],
            double_dv: vec![0.5; cells],
            inflow: numbers(random, Spread::Even, cells, -2, 2),
            work: vec![-1; 8 * cells],
            total: 0,
            same: record.clone(),
            written: vec![0; record.len()],
            record,
        }
    }

    fn restore(&mut self) {
        let fields = [&mut self.h, &mut self.u, &mut self.v];
        for (field, start) in fields.into_iter().zip(&self.start) {
            field.copy_from_slice(start);
        }
    }
}

/// A closed basin over an uneven bottom, its water tilted, with currents both
/// ways: it swings to and fro and stays within the bounds.
fn seiche(random: &mut Random, (w, n): (usize, usize)) -> State {
    let cells = w * n;
    let b = numbers(random, Spread::Even, cells, 0, 2_000);
    // From -500 mm at one corner to 500 mm at the other.
    let tilt = |k: usize| (1_000 * (k % w + k / w) / (w + n)) as i64 - 500;
    let mut state = State {
        parameters: Parameters {
            w,
            n,
            kind: KIND,
            g: 9_810,
            c: random.between(5, 15),
            r: random.between(60_000, 120_000),
        },
        h: (0..cells).map(|k| 10_000 + tilt(k) - b[k]).collect(),
        b,
        u: numbers(random, Spread::Even, cells, -300, 300),
        v: numbers(random, Spread::Even, cells, -300, 300),
        barriers: vec![0; cells],
    };
    clear_closed_edges(&mut state);
    state
}

trait Answer {
    fn accepted(&self) -> bool;

    /// The number that it is, of a total; of a probe, 1 where it is near.
    fn total(&self) -> i64 {
        0
    }
}

impl<E> Answer for Result<(), E> {
    fn accepted(&self) -> bool {
        self.is_ok()
    }
}

impl<E> Answer for Result<basin::Trust, E> {
    fn accepted(&self) -> bool {
        self.is_ok()
    }

    fn total(&self) -> i64 {
        matches!(self, Ok(basin::Trust::Near)).into()
    }
}

impl<E> Answer for Result<basin::Ran, E> {
    fn accepted(&self) -> bool {
        matches!(self, Ok(ran) if ran.stopped.is_none())
    }
}

impl<E> Answer for Result<i64, E> {
    fn accepted(&self) -> bool {
        self.is_ok()
    }

    fn total(&self) -> i64 {
        *self.as_ref().unwrap_or(&0)
    }
}

impl<E> Answer for Result<usize, E> {
    fn accepted(&self) -> bool {
        self.is_ok()
    }
}

impl<E> Answer for Result<basin::Read, E> {
    fn accepted(&self) -> bool {
        matches!(self, Ok(read) if read.timestamp == TIMESTAMP.into())
    }
}

impl<E> Answer for Result<basin::Comparison, E> {
    fn accepted(&self) -> bool {
        matches!(self, Ok(basin::Comparison::Same))
    }
}

impl Answer for FillAnswer {
    fn accepted(&self) -> bool {
        *self == FillAnswer::Done
    }
}

impl Answer for ProbeGridAnswer {
    fn accepted(&self) -> bool {
        !matches!(self, ProbeGridAnswer::Refused(_))
    }

    fn total(&self) -> i64 {
        (*self == ProbeGridAnswer::Near).into()
    }
}

impl Answer for StepAnswer {
    fn accepted(&self) -> bool {
        *self == StepAnswer::Done
    }
}

impl Answer for RunAnswer {
    fn accepted(&self) -> bool {
        matches!(self, RunAnswer::Finished { .. })
    }
}

impl Answer for TotalAnswer {
    fn accepted(&self) -> bool {
        matches!(self, TotalAnswer::Total(_))
    }

    fn total(&self) -> i64 {
        match *self {
            TotalAnswer::Total(total) => total,
            TotalAnswer::Refused(_) => 0,
        }
    }
}

impl Answer for WriteAnswer {
    fn accepted(&self) -> bool {
        matches!(self, WriteAnswer::Written { .. })
    }
}

impl Answer for ReadAnswer {
    fn accepted(&self) -> bool {
        matches!(self, ReadAnswer::Read { timestamp, .. } if *timestamp == TIMESTAMP.into())
    }
}

impl Answer for CompareAnswer {
    fn accepted(&self) -> bool {
        *self == CompareAnswer::Same
    }
}

/// Calls the version on each of these.
fn pass(version: Version, lent: &mut [Lent]) {
    for lent in lent {
        assert!(black_box(version(black_box(lent))), "refused");
    }
}

/// How long it takes to do so this many times. That a stepped state is then put
/// back is not counted.
fn time(call: &Call, version: Version, lent: &mut [Lent], repeats: u32) -> Duration {
    if call.steps == 0 {
        // Nothing is put back. The clock is read once, so that reading it does
        // not count on small grids.
        let start = Instant::now();
        (0..repeats).for_each(|_| pass(version, lent));
        return start.elapsed();
    }
    let mut total = Duration::ZERO;
    for _ in 0..repeats {
        lent.iter_mut().for_each(Lent::restore);
        let start = Instant::now();
        pass(version, lent);
        total += start.elapsed();
    }
    total
}

/// Both versions leave the same numbers.
fn check(call: &Call, size: (usize, usize)) {
    let [proved, independent] = [call.proved, call.independent].map(|version| {
        let mut lent = Lent::all(call, size);
        time(call, version, &mut lent, 1);
        lent
    });
    let same = proved == independent;
    assert!(same, "{} gives different numbers", call.name);
}

/// The least nanoseconds per cell, and per step of these, of both versions.
fn compare(call: &Call, size: (usize, usize)) -> [f64; 2] {
    let versions = [call.proved, call.independent];
    // The same places in memory for both: times depend on these.
    let mut lent = Lent::all(call, size);
    // Both warm up until a round is long enough for either.
    let mut repeats = 1;
    while versions.map(|version| time(call, version, &mut lent, repeats) >= ROUND) != [true; 2] {
        repeats *= 2;
    }
    let mut least = [Duration::MAX; 2];
    for round in 0..ROUNDS {
        // Each goes first in every second round.
        for k in [round % 2, 1 - round % 2] {
            least[k] = least[k].min(time(call, versions[k], &mut lent, repeats));
        }
    }
    let cells = f64::from(repeats) * (call.states(size) * call.cells(size)) as f64;
    least.map(|time| time.as_nanos() as f64 / cells)
}

fn main() {
    if cfg!(debug_assertions) {
        eprintln!("not a release build: the independent version is not optimised");
    }
    let rows = CALLS.iter().flat_map(|call| GRIDS.map(|grid| (call, grid)));
    rows.clone().for_each(|(call, grid)| check(call, grid));
    let mut least = [[f64::MAX; 2]; CALLS.len() * GRIDS.len()];
    for _ in 0..SWEEPS {
        for ((call, grid), least) in rows.clone().zip(&mut least) {
            let [proved, independent] = compare(call, grid);
            *least = [least[0].min(proved), least[1].min(independent)];
        }
    }

    println!("ns per cell and step grid    proved  independent  ratio");
    for ((call, (w, n)), [proved, independent]) in rows.zip(least) {
        if (w, n) == GRIDS[0] {
            println!();
        }
        let (name, ratio) = (call.name, proved / independent);
        let grid = format!("{w}x{n}");
        println!("{name:<20} {grid:<6} {proved:>7.2}  {independent:>11.2}  {ratio:>5.2}");
    }
}

#[test]
fn both_versions_leave_the_same_numbers() {
    for call in &CALLS {
        for size in GRIDS {
            check(call, size);
        }
    }
}
