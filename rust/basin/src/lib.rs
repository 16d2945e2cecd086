//! The proved basin core (document 01, and requests U1, U2, U3 and U5 of document
//! 02), called from safe Rust.
//!
//! The library behind these calls is `libbasin.a`, which `install/build basin`
//! writes once every function is proved to meet its contract; the calls here
//! only pass slices on and put names to the numbers that come back. They take
//! any numbers and any lengths: what is refused is returned as a [`Refusal`].
//!
//! The core has the step of a state and runs of it ([`step`], [`run`]), the
//! totals ([`total_depth`], [`total_energy`]), the potential vorticity and the
//! tendencies ([`potential_vorticity`], [`tendencies`]), these in double precision
//! ([`probe`], [`probe_grid`]), the record of a state ([`write()`], [`read`],
//! [`compare`]) and the rounding of the scheme ([`rnd`]).
//!
//! Barriers (02: piers) close edges inside the grid. Every call on a state is lent
//! them straight after v, a byte for each cell: 1 closes its west edge, 2 its south
//! edge, 3 both, 0 none. A closed edge is then as at the boundary: its velocity must
//! be 0, and stays 0.
//!
//! Potential vorticity q goes by corners, of which a walled side has its own (02,
//! request U5): [`Parameters::corners`] says how many there are. A corner off the
//! walls takes the four cells around it and the velocities at their edges. One on a
//! wall takes the water of its own side alone, and no velocity.
//!
//! The archive is looked for in the repository's `target/staticlib`, or in
//! the folder that the environment variable `BASIN_LIB_DIR` names when this
//! package is built.
//!
//! ```
//! use basin::{compare, potential_vorticity, probe, read, rnd, run, step, tendencies};
//! use basin::{total_depth, total_energy, write, Comparison, Field, Parameters, Probe, Ran};
//! use basin::{Read, Refusal, Refused, Timestamp, Trust};
//!
//! // One cell, 2,000 mm deep, that wraps both ways, without barriers.
//! let p = Parameters { w: 1, n: 1, kind: 0, g: 9810, c: 10, r: 1000 };
//! let (mut h, b, mut u, mut v) = ([2000], [0], [100], [-50]);
//! let open = [0];
//! assert_eq!(total_depth(&p, &h, &b, &u, &v, &open), Ok(2000));
//! assert_eq!(total_energy(&p, &h, &b, &u, &v, &open), Ok(78_530_000_000));
//!
//! let mut q = [0];
//! assert_eq!(potential_vorticity(&p, &h, &b, &u, &v, &open, &mut q), Ok(()));
//! assert_eq!(q, [328]);
//!
//! let (mut dh, mut du, mut dv) = ([0], [0], [0]);
//! let done = tendencies(&p, &h, &b, &u, &v, &open, &q, &mut dh, &mut du, &mut dv);
//! assert_eq!(done, Ok(()));
//! assert_eq!((dh, du, dv), ([0], [-1_574_400_000], [-3_148_800_000]));
//!
//! // The same of one cell in double precision: in a grid of small numbers, exactly.
//! let (dh, du, dv) = (0.0, -1_574_400_000.0, -3_148_800_000.0);
//! let probed = |cell| probe(&p, &h, &b, &u, &v, &open, &q, cell);
//! assert_eq!(probed(0), Ok(Probe { dh, du, dv, trust: Trust::Exact }));
//! assert_eq!(probed(1), Err(Refusal::NoSuchCell));
//!
//! // Between four walls the cell has four corners, without walls the same one four
//! // times.
//! assert_eq!(p.corners(), 1);
//! let dock = Parameters { kind: 2, ..p };
//! assert_eq!(dock.corners(), 4);
//! let mut corners = vec![0; dock.corners()];
//! let done = potential_vorticity(&dock, &h, &b, &[0], &[0], &open, &mut corners);
//! assert_eq!((done, &corners[..]), (Ok(()), &[328; 4][..]));
//! let refused = probe(&dock, &h, &b, &[0], &[0], &open, &q, 0);
//! assert_eq!(refused, Err(Refusal::Lengths));
//!
//! // Too shallow by a millimetre.
//! let refusal = total_depth(&p, &[999], &b, &u, &v, &open).unwrap_err();
//! assert_eq!(refusal, Refusal::Value { field: Field::Depth, cell: 0 });
//! assert_eq!(refusal.number(), 4);
//! assert_eq!(refusal.to_string(), "refusal 4: depth h outside its bounds, cell 0");
//!
//! // A barrier of 1 closes the west edge, which u goes through, and one of 2 the
//! // south edge, which v goes through. More than 3 is none.
//! let refusal = |barrier| total_depth(&p, &h, &b, &u, &v, &[barrier]).unwrap_err();
//! assert_eq!(refusal(1), Refusal::ClosedEdge { field: Field::VelocityU, cell: 0 });
//! assert_eq!(refusal(2), Refusal::ClosedEdge { field: Field::VelocityV, cell: 0 });
//! assert_eq!(refusal(4), Refusal::Value { field: Field::Barriers, cell: 0 });
//! assert_eq!(refusal(4).to_string(), "refusal 4: barrier outside its bounds, cell 0");
//! assert_eq!(total_depth(&p, &h, &b, &[0], &v, &[1]), Ok(2000));
//!
//! // The record of this state, as of a minute past 2000-01-01 00:00, and one a
//! // quarter of a second later.
//! let time = Timestamp { seconds: 60, milliseconds: 0 };
//! let mut record = vec![0; p.record_len()];
//! assert_eq!(write(&p, &h, &b, &u, &v, &open, time, &mut record), Ok(65));
//! let later_time = Timestamp { milliseconds: 250, ..time };
//! let mut later = record.clone();
//! assert_eq!(write(&p, &h, &b, &u, &v, &open, later_time, &mut later), Ok(65));
//! assert_eq!(compare(&record, &record), Ok(Comparison::Same));
//! assert_eq!(compare(&record, &later), Ok(Comparison::SecondNewer));
//!
//! // A second has no more than 999 whole milliseconds.
//! let no_time = Timestamp { milliseconds: 1000, ..time };
//! let refused = write(&p, &h, &b, &u, &v, &open, no_time, &mut later);
//! assert_eq!(refused, Err(Refusal::Milliseconds));
//!
//! // Read into fields with room for two cells, of which the first is filled.
//! let [mut h2, mut b2, mut u2, mut v2] = [[7; 2]; 4];
//! let mut barriers = [7; 2];
//! let done = read(&later, &mut h2, &mut b2, &mut u2, &mut v2, &mut barriers);
//! assert_eq!(done, Ok(Read { parameters: p, timestamp: later_time }));
//! assert_eq!((h2, b2, u2, v2), ([2000, 7], [0, 7], [100, 7], [-50, 7]));
//! assert_eq!(barriers, [0, 7]);
//!
//! // The last field but one, the milliseconds, begins at byte 56, and the last
//! // one, the barriers, at byte 61. Its value is cut off.
//! let damaged = Refusal::Record { offset: 61 };
//! let refused = read(&later[..64], &mut h2, &mut b2, &mut u2, &mut v2, &mut barriers);
//! assert_eq!(refused, Err(damaged));
//! let refused = compare(&record, &later[..64]).unwrap_err();
//! assert_eq!(refused, Refused { record: 2, refusal: damaged });
//! assert_eq!(refused.to_string(), "record 2: refusal 7: a damaged record, at byte 61");
//!
//! // A record may lack these two: barriers and milliseconds are 0 then.
//! assert_eq!(compare(&later, &later[..61]), Ok(Comparison::Same));
//! assert_eq!(compare(&record, &later[..56]), Ok(Comparison::Same));
//!
//! // A step needs 8 numbers of work space per cell, which it leaves 0.
//! let mut work = vec![7; p.work_len()];
//! let done = step(&p, &mut h, &b, &mut u, &mut v, &open, &[0], &mut work);
//! assert_eq!(done, Ok(()));
//! assert_eq!((h, u, v), ([2000], [99], [-51]));
//! assert_eq!(work, [0; 8]);
//! let short = step(&p, &mut h, &b, &mut u, &mut v, &open, &[0], &mut work[1..]);
//! assert_eq!(short, Err(Refusal::Lengths));
//!
//! // 10 mm come in with each step.
//! let mut run = |steps| run(&p, &mut h, &b, &mut u, &mut v, &open, &[10], steps, &mut work);
//! assert_eq!(run(0), Ok(Ran { steps: 0, stopped: None }));
//! assert_eq!(run(100), Ok(Ran { steps: 100, stopped: None }));
//! assert_eq!(run(10_001), Err(Refusal::Grid));
//! assert_eq!(total_depth(&p, &h, &b, &u, &v, &open), Ok(3000));
//!
//! // As deep as it may be, it can take no more: the run stops where it is.
//! let mut h = [100_000];
//! let full = Refusal::OutOfBounds { pass: 1, field: Field::Depth, cell: 0 };
//! let stopped = basin::run(&p, &mut h, &b, &mut u, &mut v, &open, &[10], 100, &mut work);
//! assert_eq!(stopped, Ok(Ran { steps: 0, stopped: Some(full) }));
//! assert_eq!(
//!     full.to_string(),
//!     "refusal 6: pass 1 leaves the bounds of depth h, cell 0"
//! );
//!
//! assert_eq!(rnd(-5, 2), Some(-3));
//! ```

#![deny(unsafe_code)]
// A call takes a whole state as separate fields, and its destinations too.
#![allow(clippy::too_many_arguments)]

#[doc(hidden)]
#[allow(unsafe_code)]
pub mod raw;
mod refusal;

use std::ops::RangeInclusive;

pub use refusal::{Field, Refusal, Refused};

/// The scalars of a state. Any numbers may stand here; the calls test them.
#[derive(Clone, Copy, Debug, PartialEq, Eq, Hash)]
pub struct Parameters {
    /// Columns.
    pub w: usize,
    /// Rows.
    pub n: usize,
    /// What closes the grid (01: the seam): 0 nothing, 1 a wall along the
    /// south edges of row 0, 2 a wall along the west edges of column 0 too. Since
    /// the grid wraps, such a wall is the one at the other end as well.
    pub kind: u8,
    /// G, gravity in mm/s².
    pub g: i64,
    /// Coriolis parameter times spacing, mm/s.
    pub c: i64,
    /// R, spacing over time step, mm/s.
    pub r: i64,
}

/// The longest run that one call of [`run`] takes, in steps.
pub const LONGEST_RUN: u64 = 10_000;

/// The bounds of the scalars. They are for words to a person; the calls test them.
impl Parameters {
    /// Columns and rows.
    pub const SIDE: RangeInclusive<usize> = 1..=64;
    /// The kinds of boundary.
    pub const KIND: RangeInclusive<u8> = 0..=2;
    /// G, mm/s².
    pub const GRAVITY: RangeInclusive<i64> = 1..=10_000;
    /// Coriolis parameter times spacing, mm/s.
    pub const CORIOLIS: RangeInclusive<i64> = -10_000..=10_000;
    /// R, spacing over time step, mm/s.
    pub const RATIO: RangeInclusive<i64> = 1_000..=1_000_000;
}

impl Parameters {
    /// How many numbers of work space a step or run needs: 8·w·n. Where that is
    /// more than a `usize` holds, the grid is one that every call refuses.
    pub fn work_len(&self) -> usize {
        self.w.saturating_mul(self.n).saturating_mul(8)
    }

    /// How many corners the grid has, which is how many numbers a potential
    /// vorticity q has: w·n of kind 0, w·(n + 1) of kind 1, (w + 1)·(n + 1) of kind
    /// 2. They go row by row from the southwest. The cell in column i of row j has
    /// those in corner columns i and i + 1 of corner rows j and j + 1, where the one
    /// past the last is the first. Where there are more than a `usize` holds, or the
    /// kind is another, the grid is one that every call refuses.
    pub fn corners(&self) -> usize {
        let more = |side: usize, walled: bool| side.saturating_add(walled.into());
        let columns = more(self.w, self.kind == 2);
        let rows = more(self.n, matches!(self.kind, 1 | 2));
        columns.saturating_mul(rows)
    }

    /// How many bytes the record that [`write()`] makes of such a state has:
    /// 52 + 13·w·n. Where that is more than a `usize` holds, the grid is one that
    /// every call refuses.
    pub fn record_len(&self) -> usize {
        let fields = self.w.saturating_mul(self.n).saturating_mul(13);
        fields.saturating_add(52)
    }
}

/// The moment of a state, counted from 2000-01-01 00:00 (01: the stamp). Any
/// numbers may stand here; the calls test them. Of two moments the greater is the
/// later one, by second and then by millisecond, as [`compare`] has it.
#[derive(Clone, Copy, Debug, PartialEq, Eq, PartialOrd, Ord, Hash)]
pub struct Timestamp {
    /// Whole seconds.
    pub seconds: u64,
    /// Milliseconds past them, 0 to 999: more are refused with 9.
    pub milliseconds: u64,
}

/// How far a run came.
#[derive(Clone, Copy, Debug, PartialEq, Eq, Hash)]
#[must_use = "a run may stop early"]
pub struct Ran {
    /// The steps done.
    pub steps: u64,
    /// What stopped the run before all its steps were done: the refusal of the
    /// next one, always a 6.
    pub stopped: Option<Refusal>,
}

/// What a record holds beside the fields and the barriers.
#[derive(Clone, Copy, Debug, PartialEq, Eq, Hash)]
pub struct Read {
    /// The scalars of the state.
    pub parameters: Parameters,
    /// The moment of the state.
    pub timestamp: Timestamp,
}

/// What two records are to each other. Two states are the same where their
/// parameters, fields and barriers are.
#[derive(Clone, Copy, Debug, PartialEq, Eq, Hash)]
pub enum Comparison {
    /// The same state under the same timestamp, to the millisecond.
    Same,
    /// The first has the later timestamp, whatever the states.
    FirstNewer,
    /// The second has the later timestamp, whatever the states.
    SecondNewer,
    /// Different states under one timestamp (01: clash).
    Conflict,
}

impl Comparison {
    /// Panics at a number that is none: see [`Refusal::from_told`].
    fn from_told(number: u64) -> Self {
        match number {
            0 => Comparison::Same,
            1 => Comparison::FirstNewer,
            2 => Comparison::SecondNewer,
            3 => Comparison::Conflict,
            _ => panic!("libbasin.a told comparison {number}, which is none"),
        }
    }
}

/// How far the doubles of a probe can be trusted.
#[derive(Clone, Copy, Debug, PartialEq, Eq, Hash)]
pub enum Trust {
    /// They are the whole numbers that [`tendencies`] gives. The grid is narrow: every
    /// h and b of it is at most 10,000, every u and v is -500 to 500, and every number
    /// of the lent q, at whatever corner, is -1,000,000 to 1,000,000.
    Exact,
    /// The double of -D is that whole number, those of Tu and Tv are at most 64 away.
    Near,
}

impl Trust {
    /// Panics at a number that is none: see [`Refusal::from_told`].
    fn from_told(number: u64) -> Self {
        match number {
            0 => Trust::Exact,
            1 => Trust::Near,
            _ => panic!("libbasin.a told trust {number}, which is none"),
        }
    }
}

/// The tendencies of a cell in double precision, scaled as those of [`tendencies`].
#[derive(Clone, Copy, Debug, PartialEq)]
pub struct Probe {
    /// -D, of h.
    pub dh: f64,
    /// Tu, of u at the west edge; 0.0 where it is closed.
    pub du: f64,
    /// Tv, of v at the south edge; 0.0 where it is closed.
    pub dv: f64,
    /// How far to trust the three.
    pub trust: Trust,
}

/// Takes one step with the given inflow, in mm: `h`, `u` and `v` are stepped in
/// place, and after a refusal they are left as they were.
///
/// The tests go by number: 1 to 5 of the state and the inflow, whose numbers
/// come after the barriers in 4, with a work space shorter than
/// [`Parameters::work_len`] under 2; then 6, a pass that leaves a bound. After
/// 1 and 2 the work space is left as it was. Otherwise, refused or not, its
/// first `work_len` numbers are 0 after the call, and the rest are left.
pub fn step(
    p: &Parameters,
    h: &mut [i64],
    b: &[i64],
    u: &mut [i64],
    v: &mut [i64],
    barriers: &[u8],
    inflow: &[i64],
    work: &mut [i64],
) -> Result<(), Refusal> {
    answered(|answer| raw::step(p, h, b, u, v, barriers, inflow, work, answer))
}

/// Takes up to `steps` steps with the same inflow, and stops before one that
/// would be refused with 6: `h`, `u` and `v` are left as they are after the
/// steps done.
///
/// The tests 1 to 5, with a run above 10,000 steps under 1, and the work space
/// are as with [`step`]; these refusals leave `h`, `u` and `v` as they were.
pub fn run(
    p: &Parameters,
    h: &mut [i64],
    b: &[i64],
    u: &mut [i64],
    v: &mut [i64],
    barriers: &[u8],
    inflow: &[i64],
    steps: u64,
    work: &mut [i64],
) -> Result<Ran, Refusal> {
    let answer = told(|answer| raw::run(p, h, b, u, v, barriers, inflow, steps, work, answer));
    match accepted(&answer) {
        Ok(()) => Ok(Ran {
            steps: answer[1],
            stopped: None,
        }),
        // The steps come after the three values of the refusal.
        Err(refusal @ Refusal::OutOfBounds { .. }) => Ok(Ran {
            steps: answer[4],
            stopped: Some(refusal),
        }),
        Err(refusal) => Err(refusal),
    }
}

/// Total depth of a state, in mm: the sum of h. Tests 1 to 5. Who wants to know
/// first whether a state is refused can ask for this: it writes to no field.
pub fn total_depth(
    p: &Parameters,
    h: &[i64],
    b: &[i64],
    u: &[i64],
    v: &[i64],
    barriers: &[u8],
) -> Result<i64, Refusal> {
    let mut total = 0;
    answered(|answer| raw::total_depth(p, h, b, u, v, barriers, &mut total, answer))?;
    Ok(total)
}

/// Four times total energy of a state, kinetic and potential. Tests 1 to 5.
pub fn total_energy(
    p: &Parameters,
    h: &[i64],
    b: &[i64],
    u: &[i64],
    v: &[i64],
    barriers: &[u8],
) -> Result<i64, Refusal> {
    let mut total = 0;
    answered(|answer| raw::total_energy(p, h, b, u, v, barriers, &mut total, answer))?;
    Ok(total)
}

/// Fills the first [`Parameters::corners`] places of `q` with the potential
/// vorticity of a state, times spacing times 65,536, corner by corner. The places
/// past them are left as they were, and after a refusal all places are.
///
/// A corner on a wall takes the Coriolis parameter alone, without velocities, over
/// the mean depth of the cells inside: of two, or of one where two walls meet.
/// Barriers are tested, but make no wall.
///
/// The tests go by number: 1 to 5 of the state, then 8, `q` with fewer places than
/// corners.
pub fn potential_vorticity(
    p: &Parameters,
    h: &[i64],
    b: &[i64],
    u: &[i64],
    v: &[i64],
    barriers: &[u8],
    q: &mut [i64],
) -> Result<(), Refusal> {
    answered(|answer| raw::potential_vorticity(p, h, b, u, v, barriers, q, answer))
}

/// Fills the first w·n places of `dh`, `du` and `dv` with the tendencies of a
/// state and a potential vorticity `q`, which has a number for each of the
/// [`Parameters::corners`] and may be any within its bounds: 01's -D, the rate of h
/// times 2 spacings, and Tu and Tv, the rates of u and v times spacing times
/// 3,145,728. Tu and Tv are 0 on edges that the boundary or a barrier closes. The
/// places past them are left as they were, and after a refusal all places are.
///
/// The tests go by number: 1 to 5 of the state and `q`, where a `q` of another length
/// is a 2, and its numbers come after the barriers in 4, which tells the corner as
/// the cell; then 8, one of `dh`, `du` and `dv` shorter than w·n.
pub fn tendencies(
    p: &Parameters,
    h: &[i64],
    b: &[i64],
    u: &[i64],
    v: &[i64],
    barriers: &[u8],
    q: &[i64],
    dh: &mut [i64],
    du: &mut [i64],
    dv: &mut [i64],
) -> Result<(), Refusal> {
    answered(|answer| raw::tendencies(p, h, b, u, v, barriers, q, dh, du, dv, answer))
}

/// The tendencies of one cell in double precision, and how far to trust them. The
/// cell is given by its index, j·w + i for column i of row j. `q` is as with
/// [`tendencies`].
///
/// They are 01's formulas in `f64`, each operation rounded once: products first, and
/// sums from left to right. The mark is that of the whole grid, not of the cell.
///
/// The tests go by number: 1 to 5 of the state and `q`; then 10, no such cell.
pub fn probe(
    p: &Parameters,
    h: &[i64],
    b: &[i64],
    u: &[i64],
    v: &[i64],
    barriers: &[u8],
    q: &[i64],
    cell: usize,
) -> Result<Probe, Refusal> {
    let mut three = [0.0; 3];
    let answer = told(|answer| raw::probe(p, h, b, u, v, barriers, q, cell, &mut three, answer));
    accepted(&answer)?;
    let [dh, du, dv] = three;
    let trust = Trust::from_told(answer[1]);
    Ok(Probe { dh, du, dv, trust })
}

/// Fills the first w·n places of `dh`, `du` and `dv` with what [`probe`] gives for each
/// cell, and gives its mark. The places past them are left as they were, and after a
/// refusal all places are.
///
/// The tests go by number: 1 to 5 of the state and `q`; then 8, one of `dh`, `du` and
/// `dv` shorter than w·n.
pub fn probe_grid(
    p: &Parameters,
    h: &[i64],
    b: &[i64],
    u: &[i64],
    v: &[i64],
    barriers: &[u8],
    q: &[i64],
    dh: &mut [f64],
    du: &mut [f64],
    dv: &mut [f64],
) -> Result<Trust, Refusal> {
    let answer = told(|answer| raw::probe_grid(p, h, b, u, v, barriers, q, dh, du, dv, answer));
    accepted(&answer)?;
    Ok(Trust::from_told(answer[1]))
}

/// Writes the record of a state into the first [`Parameters::record_len`] bytes
/// of `record`, by rising tag, and gives their number. The bytes past them are
/// left as they were, and after a refusal all bytes are.
///
/// The tests go in the order 1, 2, 3 of the state; 9, milliseconds above 999; 4, 5;
/// then 8, `record` too short.
pub fn write(
    p: &Parameters,
    h: &[i64],
    b: &[i64],
    u: &[i64],
    v: &[i64],
    barriers: &[u8],
    timestamp: Timestamp,
    record: &mut [u8],
) -> Result<usize, Refusal> {
    let (seconds, ms) = (timestamp.seconds, timestamp.milliseconds);
    let answer = told(|answer| raw::write(p, h, b, u, v, barriers, seconds, ms, record, answer));
    accepted(&answer)?;
    Ok(answer[1] as usize)
}

/// Reads a record, its tags in any order, into the first w·n places of `h`,
/// `b`, `u`, `v` and `barriers`. The places past them are left as they were, and
/// after a refusal all places are. A record may lack tag 8: its milliseconds are 0
/// then. It may lack tag 9: zeros are filled into `barriers` then.
///
/// The tests go in the order 7, a damaged record; 1; 2; 8, one of the five
/// shorter than w·n; 3; 9, milliseconds above 999; 4, 5. So what is read passes
/// the tests of state and timestamp in every call.
pub fn read(
    record: &[u8],
    h: &mut [i64],
    b: &mut [i64],
    u: &mut [i64],
    v: &mut [i64],
    barriers: &mut [u8],
) -> Result<Read, Refusal> {
    let mut constants = [0; 3];
    let answer = told(|answer| raw::read(record, h, b, u, v, barriers, &mut constants, answer));
    accepted(&answer)?;
    let [_, w, n, kind, seconds, milliseconds, ..] = answer;
    let [g, c, r] = constants;
    let parameters = Parameters {
        w: w as usize,
        n: n as usize,
        kind: u8::try_from(kind)
            .unwrap_or_else(|_| panic!("libbasin.a told kind {kind}, which is none")),
        g,
        c,
        r,
    };
    Ok(Read {
        parameters,
        timestamp: Timestamp {
            seconds,
            milliseconds,
        },
    })
}

/// Compares two records by [`Timestamp`], and where that is the same by state. The
/// order of their tags does not count, nor whether milliseconds of 0 are left out,
/// or barriers that are all 0.
///
/// The first is tested wholly before the second, each in the order 7, 1, 2, 3,
/// 9, 4, 5.
pub fn compare(first: &[u8], second: &[u8]) -> Result<Comparison, Refused> {
    let answer = told(|answer| raw::compare(first, second, answer));
    // What comes next is the record that is refused, or the comparison's result.
    let [number, next, values @ ..] = &answer;
    Refused::from_told(*number, *next, values)?;
    Ok(Comparison::from_told(*next))
}

/// The answer of a call: a number, which it returns too, and what is told with
/// it.
fn told(call: impl FnOnce(&mut [u64; 8]) -> u64) -> [u64; 8] {
    let mut answer = [0; 8];
    call(&mut answer);
    answer
}

fn accepted(answer: &[u64; 8]) -> Result<(), Refusal> {
    let [number, values @ ..] = answer;
    Refusal::from_told(*number, values)
}

/// Makes a call that tells no value with a 0.
fn answered(call: impl FnOnce(&mut [u64; 8]) -> u64) -> Result<(), Refusal> {
    accepted(&told(call))
}

/// The version of the library that is linked: 10,000 times major, 100 times
/// minor, and patch. It is that of this package.
pub fn version() -> u64 {
    raw::version()
}

/// 01's rnd(a/b): the nearest whole number, halves away from zero. `None`
/// unless |a| is at most 2^58 and b is 1 to 2^43, which is more than the scheme
/// needs.
pub fn rnd(a: i64, b: i64) -> Option<i64> {
    let mut rounded = 0;
    match raw::rnd(a, b, &mut rounded) {
        0 => Some(rounded),
        _ => None,
    }
}

// The README's examples are tests.
#[cfg(doctest)]
#[doc = include_str!("../../../README.md")]
struct Readme;
