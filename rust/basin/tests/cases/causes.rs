//! Causes of refusal that can be put into the closed basin of 3 by 2 cells, for
//! tests of two causes at once. Each test adds those of what else its calls are
//! lent.

use super::{next_outside, Case, Q, U, V};

/// A cause in the state, or in its timestamp.
#[derive(Clone, Copy, Debug, PartialEq)]
pub enum Cause {
    Columns(usize),
    Rows(usize),
    Kind(u8),
    /// A field of so many numbers.
    Length(usize, usize),
    Gravity(i64),
    Coriolis(i64),
    Ratio(i64),
    Milliseconds(u64),
    /// A number outside, in this field at this cell.
    Value(usize, usize, i64),
    /// A velocity on a closed edge, in this field at this cell.
    Edge(usize, usize),
    /// A barrier where this field has a velocity, at this cell.
    Barred(usize, usize),
}

impl Cause {
    /// Those of a state, with wrong lengths of these fields and numbers outside in
    /// them.
    pub fn of(fields: &[usize]) -> Vec<Self> {
        let mut causes = vec![];
        // The last of each is known, but the fields do not fit: a 2.
        causes.extend([0, 65, 255, 2].map(Cause::Columns));
        causes.extend([0, 65, 255, 4].map(Cause::Rows));
        causes.extend([3, 255].map(Cause::Kind));
        for &field in fields {
            // The basin has twelve corners, and the last of them is past its cells.
            let (lengths, cells) = match field {
                Q => ([0, 6, 11], [0, 5, 11]),
                _ => ([0, 5, 7], [0, 2, 5]),
            };
            causes.extend(lengths.map(|length| Cause::Length(field, length)));
            for cell in cells {
                causes.extend(next_outside(field).map(|x| Cause::Value(field, cell, x)));
            }
        }
        causes.extend([0, 10_001].map(Cause::Gravity));
        causes.extend([-10_001, 10_001].map(Cause::Coriolis));
        causes.extend([999, 1_000_001].map(Cause::Ratio));
        causes.extend([0, 3].map(|cell| Cause::Edge(U, cell)));
        causes.extend([0, 1, 2].map(|cell| Cause::Edge(V, cell)));
        causes.extend([1, 2, 4].map(|cell| Cause::Barred(U, cell)));
        causes.extend([3, 4, 5].map(|cell| Cause::Barred(V, cell)));
        causes
    }

    pub fn put(self, case: &mut Case) {
        match self {
            Cause::Columns(w) => case.p.w = w,
            Cause::Rows(n) => case.p.n = n,
            Cause::Kind(kind) => case.p.kind = kind,
            Cause::Length(field, length) => case.resize(field, length),
            Cause::Gravity(g) => case.p.g = g,
            Cause::Coriolis(c) => case.p.c = c,
            Cause::Ratio(r) => case.p.r = r,
            Cause::Milliseconds(above) => case.timestamp.milliseconds = above,
            Cause::Value(field, cell, x) => case.put(field, cell, x),
            Cause::Edge(field, cell) => case.put(field, cell, 1),
            Cause::Barred(field, cell) => {
                // Too few barriers may not have the cell.
                if let Some(barrier) = case.barriers.get_mut(cell) {
                    *barrier |= [1, 2][field - U];
                }
            }
        }
    }

    /// What a call tells that looks at it, where nothing else is wrong.
    pub fn told(self) -> Vec<u64> {
        let at = |number, field, cell| vec![number, field as u64, cell as u64];
        match self {
            Cause::Columns(1..=64) | Cause::Rows(1..=64) | Cause::Length(..) => vec![2],
            Cause::Columns(_) | Cause::Rows(_) | Cause::Kind(_) => vec![1],
            Cause::Gravity(_) | Cause::Coriolis(_) | Cause::Ratio(_) => vec![3],
            Cause::Milliseconds(_) => vec![9],
            Cause::Value(field, cell, _) => at(4, field, cell),
            Cause::Edge(field, cell) | Cause::Barred(field, cell) => at(5, field, cell),
        }
    }
}
