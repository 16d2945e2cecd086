//! What a refusal speaks of, so that its words have the number that was found.
//!
//! The core tells a refusal by number, field and cell. What stands there is looked
//! up here, in the state that was lent or in the bytes of the record, for words
//! alone: nothing is decided by it.

use basin::{Field, Parameters};

use crate::state::State;

/// What a refusal speaks of.
#[derive(Clone, Copy)]
pub enum Subject<'a> {
    /// A state, and the inflow lent with it.
    State(&'a State, &'a [i64]),
    /// The bytes of a record.
    Record(&'a [u8]),
    /// The sides of a grid.
    Sides(usize, usize),
}

/// The tags of a record that the words need.
const SCALARS: u8 = 1;
const CONSTANTS: u8 = 2;
const MILLISECONDS: u8 = 8;
/// Tags are 1 to this; those up to 7 must be there.
const LAST_TAG: u8 = 9;
const LAST_REQUIRED: u8 = 7;

impl Subject<'_> {
    /// Columns and rows, and the kind of the boundary.
    pub fn grid(&self) -> Option<(usize, usize, u8)> {
        match self {
            Subject::State(state, _) => {
                let Parameters { w, n, kind, .. } = state.parameters;
                Some((w, n, kind))
            }
            Subject::Record(record) => match value(record, SCALARS)? {
                [w, n, kind] => Some((usize::from(*w), usize::from(*n), *kind)),
                _ => None,
            },
            Subject::Sides(w, n) => Some((*w, *n, 0)),
        }
    }

    /// G, c and R.
    pub fn constants(&self) -> Option<[i64; 3]> {
        match self {
            Subject::State(state, _) => {
                let Parameters { g, c, r, .. } = state.parameters;
                Some([g, c, r])
            }
            Subject::Record(record) => {
                let bytes = value(record, CONSTANTS)?;
                Some([
                    number(bytes, 4, 0)?,
                    number(bytes, 4, 1)?,
                    number(bytes, 4, 2)?,
                ])
            }
            Subject::Sides(..) => None,
        }
    }

    /// The milliseconds of the timestamp.
    pub fn milliseconds(&self) -> Option<u64> {
        match self {
            Subject::State(state, _) => Some(state.timestamp.milliseconds),
            Subject::Record(record) => match value(record, MILLISECONDS)? {
                &[high, low] => Some(u64::from(u16::from_be_bytes([high, low]))),
                _ => None,
            },
            Subject::Sides(..) => None,
        }
    }

    /// The number of a field in a cell.
    pub fn number(&self, field: Field, cell: usize) -> Option<i64> {
        match self {
            Subject::State(state, inflow) => {
                let numbers = match field {
                    Field::Depth => &state.h,
                    Field::Bottom => &state.b,
                    Field::VelocityU => &state.u,
                    Field::VelocityV => &state.v,
                    Field::Inflow => *inflow,
                    Field::Barriers => return Some(i64::from(*state.barriers.get(cell)?)),
                    Field::Vorticity => return None,
                };
                numbers.get(cell).copied()
            }
            Subject::Record(record) => {
                let (tag, size) = stored(field)?;
                number(value(record, tag)?, size, cell)
            }
            Subject::Sides(..) => None,
        }
    }

    /// What is wrong with the tag of a record at this byte.
    pub fn damage(&self, offset: usize) -> Option<String> {
        let Subject::Record(record) = self else {
            return None;
        };
        let (before, rest) = record.split_at_checked(offset)?;
        let [tag, high, low, after @ ..] = rest else {
            return match rest.len() {
                0 => missing(record),
                _ => Some("too few bytes are left for a tag and its length".into()),
            };
        };
        let length = usize::from(u16::from_be_bytes([*high, *low]));
        Some(match *tag {
            _ if offset == 0 && is_text(record) => {
                "this is a text; make writes the record of a description".into()
            }
            tag if !(1..=LAST_TAG).contains(&tag) => format!("tag {tag} is unknown"),
            tag if value(before, tag).is_some() => format!("tag {tag} is there twice"),
            tag if length > after.len() => {
                let left = after.len();
                format!("the value of tag {tag} has {length} bytes, and {left} are left")
            }
            tag => format!("the value of tag {tag} has {length} bytes, a wrong length"),
        })
    }

    /// The first field of a record whose bytes are not those of its cells: its
    /// name, the bytes it has and those it needs.
    pub fn wrong_length(&self) -> Option<(Field, usize, usize)> {
        let Subject::Record(record) = self else {
            return None;
        };
        let (w, n, _) = self.grid()?;
        let fields = [
            Field::Depth,
            Field::Bottom,
            Field::VelocityU,
            Field::VelocityV,
            Field::Barriers,
        ];
        fields.into_iter().find_map(|field| {
            let (tag, size) = stored(field)?;
            let (has, needs) = (value(record, tag)?.len(), size * w * n);
            (has != needs).then_some((field, has, needs))
        })
    }
}

/// The tag of a field in a record, and its bytes a cell.
fn stored(field: Field) -> Option<(u8, usize)> {
    match field {
        Field::Depth => Some((4, 4)),
        Field::Bottom => Some((5, 4)),
        Field::VelocityU => Some((6, 2)),
        Field::VelocityV => Some((7, 2)),
        Field::Barriers => Some((9, 1)),
        Field::Vorticity | Field::Inflow => None,
    }
}

/// Whether bytes are likely a text: a record begins with a tag, and no text does.
fn is_text(bytes: &[u8]) -> bool {
    let start = &bytes[..bytes.len().min(64)];
    let letter = |byte: &u8| byte.is_ascii_graphic() || b" \t\r\n".contains(byte);
    start.iter().all(letter)
}

/// The first tag that a record lacks and must have.
fn missing(record: &[u8]) -> Option<String> {
    let absent = (1..=LAST_REQUIRED).find(|&tag| value(record, tag).is_none());
    absent.map(|tag| format!("it ends without tag {tag}"))
}

/// The value of a tag, in a record whose tags are in order.
fn value(record: &[u8], sought: u8) -> Option<&[u8]> {
    let mut rest = record;
    while let [tag, high, low, after @ ..] = rest {
        let length = usize::from(u16::from_be_bytes([*high, *low]));
        let value = after.get(..length)?;
        if *tag == sought {
            return Some(value);
        }
        rest = &after[length..];
    }
    None
}

/// A number of a list of numbers with so many bytes each. A single byte has no
/// sign, as a record has it.
fn number(bytes: &[u8], size: usize, index: usize) -> Option<i64> {
    match *bytes.get(size * index..size * (index + 1))? {
        [byte] => Some(i64::from(byte)),
        [a, b] => Some(i64::from(i16::from_be_bytes([a, b]))),
        [a, b, c, d] => Some(i64::from(i32::from_be_bytes([a, b, c, d]))),
        _ => None,
    }
}
