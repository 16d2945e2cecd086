//! What the calls answer: refusals (01: turned back) and results.
//!
//! `told` gives the list of 01's number and values for an answer. Accepted
//! calls begin with 0, refused ones with the number of the refusal.

use crate::state::{Parameters, Timestamp};

/// A field that a refusal can name, with its number: of a number or a byte per
/// cell, or of a number per corner.
#[derive(Clone, Copy, Debug, PartialEq, Eq, PartialOrd, Ord)]
pub enum Field {
    /// h
    Depth = 0,
    /// b
    Bottom = 1,
    /// u
    VelocityU = 2,
    /// v
    VelocityV = 3,
    /// q, by corners
    Vorticity = 4,
    /// s (01: river entry)
    Inflow = 5,
    /// Barriers (02: piers). Their number is the last, though they are tested
    /// straight after v.
    Barriers = 6,
}

impl Field {
    /// The field's number.
    fn told(self) -> i128 {
        self as i128
    }
}

/// Why a call did nothing. Refusal 6 is not here: only step and run know it,
/// and it carries a pass.
#[derive(Clone, Copy, Debug, PartialEq, Eq)]
pub enum Refusal {
    /// w, n or kind unknown, or a run too long.
    Grid,
    /// A field does not have w·n numbers, q not one a corner, or the work space is
    /// short.
    Lengths,
    /// G, c or R outside its bound.
    Constants,
    /// A value outside its bound. Of q, `cell` is the corner.
    Value { field: Field, cell: usize },
    /// A velocity on a closed edge.
    ClosedEdge { field: Field, cell: usize },
    /// A damaged record; `offset` is that of the bad tag, or the record's
    /// length where a tag is missing.
    Record { offset: usize },
    /// A lent destination is too short.
    Destination,
    /// Milliseconds above 999.
    Milliseconds,
    /// A probed cell outside the grid.
    NoSuchCell,
}

impl Refusal {
    /// 01's table, and 02's: the number of each refusal, then its values.
    pub fn told(&self) -> Vec<i128> {
        match *self {
            Refusal::Grid => vec![1],
            Refusal::Lengths => vec![2],
            Refusal::Constants => vec![3],
            Refusal::Value { field, cell } => vec![4, field.told(), cell as i128],
            Refusal::ClosedEdge { field, cell } => vec![5, field.told(), cell as i128],
            Refusal::Record { offset } => vec![7, offset as i128],
            Refusal::Destination => vec![8],
            Refusal::Milliseconds => vec![9],
            Refusal::NoSuchCell => vec![10],
        }
    }
}

/// The answer of a call that only fills destinations.
#[derive(Clone, Copy, Debug, PartialEq, Eq)]
pub enum FillAnswer {
    Done,
    Refused(Refusal),
}

impl FillAnswer {
    /// `[0]`, or the refusal.
    pub fn told(&self) -> Vec<i128> {
        match self {
            FillAnswer::Done => vec![0],
            FillAnswer::Refused(refusal) => refusal.told(),
        }
    }
}

impl From<Result<(), Refusal>> for FillAnswer {
    fn from(result: Result<(), Refusal>) -> Self {
        match result {
            Ok(()) => FillAnswer::Done,
            Err(refusal) => FillAnswer::Refused(refusal),
        }
    }
}

/// The answer of the probe of a cell: -D, Tu and Tv in double precision, and how
/// far to trust them.
#[derive(Clone, Copy, Debug, PartialEq)]
pub enum ProbeAnswer {
    /// They are the whole numbers.
    Exact([f64; 3]),
    /// Tu and Tv may be off by up to 64.
    Near([f64; 3]),
    Refused(Refusal),
}

impl ProbeAnswer {
    /// `[0, 0]` for exact, `[0, 1]` for near, or the refusal. The doubles are told
    /// beside it.
    pub fn told(&self) -> Vec<i128> {
        match self {
            ProbeAnswer::Exact(_) => vec![0, 0],
            ProbeAnswer::Near(_) => vec![0, 1],
            ProbeAnswer::Refused(refusal) => refusal.told(),
        }
    }
}

/// The answer of the probe of a grid, which fills destinations with its doubles.
#[derive(Clone, Copy, Debug, PartialEq, Eq)]
pub enum ProbeGridAnswer {
    Exact,
    Near,
    Refused(Refusal),
}

impl ProbeGridAnswer {
    /// As that of a cell.
    pub fn told(&self) -> Vec<i128> {
        match self {
            ProbeGridAnswer::Exact => vec![0, 0],
            ProbeGridAnswer::Near => vec![0, 1],
            ProbeGridAnswer::Refused(refusal) => refusal.told(),
        }
    }
}

/// The answer of a step.
#[derive(Clone, Copy, Debug, PartialEq, Eq)]
pub enum StepAnswer {
    Done,
    /// Refusal 6: this pass (1 or 2) left the bound of this field at this cell.
    OutOfBounds {
        pass: u8,
        field: Field,
        cell: usize,
    },
    Refused(Refusal),
}

impl StepAnswer {
    /// `[0]`, `[6, pass, field, cell]`, or the refusal.
    pub fn told(&self) -> Vec<i128> {
        match *self {
            StepAnswer::Done => vec![0],
            StepAnswer::OutOfBounds { pass, field, cell } => {
                vec![6, pass.into(), field.told(), cell as i128]
            }
            StepAnswer::Refused(refusal) => refusal.told(),
        }
    }
}

/// The answer of a run.
#[derive(Clone, Copy, Debug, PartialEq, Eq)]
pub enum RunAnswer {
    /// All the steps asked for were done.
    Finished {
        steps: u64,
    },
    /// `steps` were done; the next one met refusal 6.
    Stopped {
        steps: u64,
        pass: u8,
        field: Field,
        cell: usize,
    },
    Refused(Refusal),
}

impl RunAnswer {
    /// `[0, steps]`, `[6, pass, field, cell, steps]`, or the refusal.
    pub fn told(&self) -> Vec<i128> {
        match *self {
            RunAnswer::Finished { steps } => vec![0, steps.into()],
            RunAnswer::Stopped {
                steps,
                pass,
                field,
                cell,
            } => vec![6, pass.into(), field.told(), cell as i128, steps.into()],
            RunAnswer::Refused(refusal) => refusal.told(),
        }
    }
}

/// The answer of a total.
#[derive(Clone, Copy, Debug, PartialEq, Eq)]
pub enum TotalAnswer {
    Total(i64),
    Refused(Refusal),
}

impl TotalAnswer {
    /// `[0, total]`, or the refusal.
    pub fn told(&self) -> Vec<i128> {
        match *self {
            TotalAnswer::Total(total) => vec![0, total.into()],
            TotalAnswer::Refused(refusal) => refusal.told(),
        }
    }
}

impl From<Result<i64, Refusal>> for TotalAnswer {
    fn from(result: Result<i64, Refusal>) -> Self {
        match result {
            Ok(total) => TotalAnswer::Total(total),
            Err(refusal) => TotalAnswer::Refused(refusal),
        }
    }
}

/// The answer of the record writer.
#[derive(Clone, Copy, Debug, PartialEq, Eq)]
pub enum WriteAnswer {
    Written { bytes: usize },
    Refused(Refusal),
}

impl WriteAnswer {
    /// `[0, bytes]`, or the refusal.
    pub fn told(&self) -> Vec<i128> {
        match *self {
            WriteAnswer::Written { bytes } => vec![0, bytes as i128],
            WriteAnswer::Refused(refusal) => refusal.told(),
        }
    }
}

/// The answer of the record reader.
#[derive(Clone, Copy, Debug, PartialEq, Eq)]
pub enum ReadAnswer {
    Read {
        parameters: Parameters,
        timestamp: Timestamp,
    },
    Refused(Refusal),
}

impl ReadAnswer {
    /// `[0, w, n, kind, G, c, R, seconds, milliseconds]`, or the refusal.
    pub fn told(&self) -> Vec<i128> {
        match *self {
            ReadAnswer::Read {
                parameters: p,
                timestamp,
            } => vec![
                0,
                p.w as i128,
                p.n as i128,
                p.kind.into(),
                p.g.into(),
                p.c.into(),
                p.r.into(),
                timestamp.seconds.into(),
                timestamp.milliseconds.into(),
            ],
            ReadAnswer::Refused(refusal) => refusal.told(),
        }
    }
}

/// The answer of the comparison of two records.
#[derive(Clone, Copy, Debug, PartialEq, Eq)]
pub enum CompareAnswer {
    /// Same state, same second and millisecond.
    Same,
    FirstNewer,
    SecondNewer,
    /// One timestamp, different states (01: clash).
    Conflict,
    /// `record` is 1 or 2: the record that was refused.
    Refused {
        record: u8,
        refusal: Refusal,
    },
}

impl CompareAnswer {
    /// `[0, 0]` to `[0, 3]`, or the refusal with the record after its number.
    pub fn told(&self) -> Vec<i128> {
        match self {
            CompareAnswer::Same => vec![0, 0],
            CompareAnswer::FirstNewer => vec![0, 1],
            CompareAnswer::SecondNewer => vec![0, 2],
            CompareAnswer::Conflict => vec![0, 3],
            CompareAnswer::Refused { record, refusal } => {
                let mut told = refusal.told();
                told.insert(1, (*record).into());
                told
            }
        }
    }
}
