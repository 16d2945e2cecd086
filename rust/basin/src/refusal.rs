//! Refusals (01: turned back), the fields that they name, and how they are told.
//! Each has one line in a table below, with its number; all else is made of it.

use std::error::Error;
use std::fmt;
use std::ops::RangeInclusive;

/// What a number that the library tells can stand for; none where it is no such
/// thing.
trait Told: Sized {
    fn from_told(number: u64) -> Option<Self>;
}

/// A cell or an offset. The library is only for machines where a usize has 64
/// bits.
impl Told for usize {
    fn from_told(number: u64) -> Option<Self> {
        Some(number as usize)
    }
}

/// One of two, counted from 1: a pass, or a record.
impl Told for u8 {
    fn from_told(number: u64) -> Option<Self> {
        matches!(number, 1 | 2).then_some(number as u8)
    }
}

// ---- fields

/// A line is a field's number, its name in Rust, its bounds, its name in words, and
/// 01's letter for it where 01 has the field.
macro_rules! fields {
    (
        $(#[$attribute:meta])*
        pub enum $Field:ident {
            $($number:literal: $field:ident $least:literal to $most:literal
                = $name:literal $($letter:literal)?,)*
        }
    ) => {
        $(#[$attribute])*
        #[derive(Clone, Copy, Debug, PartialEq, Eq, PartialOrd, Ord, Hash)]
        pub enum $Field {
            $(#[doc = concat!($number, ": ", $name $(, " ", $letter)?)] $field = $number,)*
        }

        impl $Field {
            /// The number by which the library tells the field.
            pub fn number(self) -> u8 {
                self as u8
            }

            /// The numbers that the field may have: others are a
            /// [`Refusal::Value`]. It is for words to a person; the calls test
            /// them.
            pub fn bounds(self) -> RangeInclusive<i64> {
                match self {
                    $($Field::$field => $least..=$most,)*
                }
            }
        }

        impl Told for $Field {
            fn from_told(number: u64) -> Option<Self> {
                match number {
                    $($number => Some($Field::$field),)*
                    _ => None,
                }
            }
        }

        /// The field's name and 01's letter for it.
        impl fmt::Display for $Field {
            fn fmt(&self, to: &mut fmt::Formatter) -> fmt::Result {
                to.write_str(match self {
                    $($Field::$field => concat!($name $(, " ", $letter)?),)*
                })
            }
        }
    };
}

fields! {
    /// A field that a refusal can name: of a number or a byte per cell, or, of q, of
    /// a number per corner.
    pub enum Field {
        0: Depth 1_000 to 100_000 = "depth" "h",
        1: Bottom 0 to 100_000 = "bottom height" "b",
        2: VelocityU -5_000 to 5_000 = "velocity" "u",
        3: VelocityV -5_000 to 5_000 = "velocity" "v",
        4: Vorticity -2_000_000 to 2_000_000 = "potential vorticity" "q",
        5: Inflow -1_000 to 1_000 = "inflow" "s", // 01: river entry
        6: Barriers 0 to 3 = "barrier", // 02: piers; tested straight after v all the same
    }
}

impl Field {
    /// What the field has a number or a byte for, in words: of q a corner, of every
    /// other field a cell.
    pub fn place(self) -> &'static str {
        match self {
            Field::Vorticity => "corner",
            _ => "cell",
        }
    }
}

// ---- refusals

/// A line is a refusal's number, its name, the values that follow the number in
/// an answer, in their order, and its cause in words, which may name them and one
/// word more.
macro_rules! refusals {
    (
        $(#[$attribute:meta])*
        $visibility:vis enum $Refusal:ident {
            $($(#[$doc:meta])*
            $number:literal: $refusal:ident $({ $($value:ident: $kind:ty),* })?
                = $cause:literal $(with $word:ident = $said:expr)?,)*
        }
    ) => {
        $(#[$attribute])*
        #[derive(Clone, Copy, Debug, PartialEq, Eq, Hash)]
        $visibility enum $Refusal {
            $(
                #[doc = concat!($number, ":")]
                $(#[$doc])*
                $refusal $({ $($value: $kind),* })?,
            )*
        }

        impl $Refusal {
            /// The number of 01, or of 02, for the refusal.
            pub fn number(&self) -> u8 {
                match self {
                    $($Refusal::$refusal { .. } => $number,)*
                }
            }

            /// The cause in words, without the number.
            pub fn cause(&self) -> String {
                match self {
                    $($Refusal::$refusal $({ $($value),* })? => format!($cause $(, $word = $said)?),)*
                }
            }

            /// What the library told: a number, 0 where nothing is refused, and
            /// the values that follow it in the answer.
            ///
            /// Panics at a number, pass or field that is none. The proved library
            /// never tells one: another library was linked then.
            #[inline]
            pub(crate) fn from_told(number: u64, values: &[u64]) -> Result<(), Self> {
                match number {
                    0 => Ok(()),
                    number => Err(Self::refused(number, values)),
                }
            }

            // apart, so that the values of a call that is done are not looked at
            #[cold]
            fn refused(number: u64, values: &[u64]) -> Self {
                let known = Self::known(number, values.iter().copied());
                known.unwrap_or_else(|| {
                    panic!("libbasin.a told refusal {number} with {values:?}, which is none")
                })
            }

            fn known(number: u64, mut values: impl Iterator<Item = u64>) -> Option<Self> {
                match number {
                    $($number => Some($Refusal::$refusal $({
                        $($value: Told::from_told(values.next()?)?),*
                    })?),)*
                    _ => None,
                }
            }
        }

        impl fmt::Display for $Refusal {
            fn fmt(&self, to: &mut fmt::Formatter) -> fmt::Result {
                write!(to, "refusal {}: {}", self.number(), self.cause())
            }
        }
    };
}

refusals! {
    /// Why a call gave no result, or a run took no further step. Calls that come
    /// later can be refused for more reasons, so the list is open.
    #[non_exhaustive]
    pub enum Refusal {
        /// w, n or kind unknown, or a run too long.
        1: Grid = "unknown w, n or kind, or too long a run",
        /// a field to be read or stepped does not have w·n numbers (in a record,
        /// the bytes of w·n numbers), q not one for each of the
        /// [`Parameters::corners`](crate::Parameters::corners), or the work space is
        /// short.
        2: Lengths = "a field of a wrong length, or too little work space",
        /// G, c or R outside its bounds.
        3: Constants = "G, c or R outside its bounds",
        /// a value outside its bounds. Of q, `cell` is the corner.
        4: Value { field: Field, cell: usize }
            = "{field} outside its bounds, {place} {cell}" with place = field.place(),
        /// a velocity on an edge that the boundary or a barrier closes.
        5: ClosedEdge { field: Field, cell: usize } = "{field} on a closed edge, cell {cell}",
        /// a pass of the step, 1 or 2, leaves the bounds of h, u or v.
        6: OutOfBounds { pass: u8, field: Field, cell: usize }
            = "pass {pass} leaves the bounds of {field}, cell {cell}",
        /// a damaged record; `offset` is that of the first bad tag, or the
        /// record's length where a tag is missing.
        7: Record { offset: usize } = "a damaged record, at byte {offset}",
        /// a field to be filled has fewer than w·n places, of q fewer than there are
        /// corners, or a record to be written fewer than
        /// [`Parameters::record_len`](crate::Parameters::record_len).
        8: Destination = "a field or record to be filled is too short",
        /// the milliseconds of a [`Timestamp`](crate::Timestamp) above 999;
        /// tested straight after 3.
        9: Milliseconds = "milliseconds above 999",
        /// the cell of a [`probe`](crate::probe) is outside the grid; tested after 5.
        10: NoSuchCell = "a probed cell outside the grid",
    }
}

impl Error for Refusal {}

/// Why two records could not be compared: one of them is refused.
#[derive(Clone, Copy, Debug, PartialEq, Eq, Hash)]
pub struct Refused {
    /// Which record, 1 or 2. A 2 says that the first one is good.
    pub record: u8,
    /// What reading it would be refused with, were there room for it.
    pub refusal: Refusal,
}

impl Refused {
    /// What the library told, as with [`Refusal::from_told`], of this record: it
    /// comes straight after the number.
    pub(crate) fn from_told(number: u64, record: u64, values: &[u64]) -> Result<(), Self> {
        Refusal::from_told(number, values).map_err(|refusal| Refused {
            record: Told::from_told(record)
                .unwrap_or_else(|| panic!("libbasin.a told record {record}, which is none")),
            refusal,
        })
    }
}

impl fmt::Display for Refused {
    fn fmt(&self, to: &mut fmt::Formatter) -> fmt::Result {
        write!(to, "record {}: {}", self.record, self.refusal)
    }
}

/// The refusal is in the text already.
impl Error for Refused {}

#[cfg(test)]
mod tests {
    use super::{Field, Refusal, Refused, Told};
    use std::fmt;

    // Two lines with numbers that 02 goes up to.
    refusals! {
        /// Refusals to come.
        enum Later {
            /// the widths of the rows.
            12: Width { row: usize } = "a width outside its bounds, row {row}",
            /// the densities of the layers.
            13: Density = "a density outside its bounds",
        }
    }

    #[test]
    fn a_number_of_two_digits_is_told_and_printed_whole() {
        let width = Later::from_told(12, &[63, 0, 0]).unwrap_err();
        assert_eq!(width, Later::Width { row: 63 });
        assert_eq!(width.number(), 12);
        assert_eq!(
            width.to_string(),
            "refusal 12: a width outside its bounds, row 63"
        );
        let density = Later::from_told(13, &[0, 0, 0]).unwrap_err();
        assert_eq!(
            density.to_string(),
            "refusal 13: a density outside its bounds"
        );
        assert_eq!(Later::from_told(0, &[0, 0, 0]), Ok(()));
    }

    #[test]
    fn every_line_of_the_tables_goes_there_and_back() {
        for number in 0..7 {
            let field = Field::from_told(number).expect("one of seven");
            assert_eq!(u64::from(field.number()), number);
        }
        assert_eq!(Field::from_told(7), None);
        for number in 1..=10 {
            // Good for a pass, for a field and for a cell.
            let refusal = Refusal::from_told(number, &[2; 7]).unwrap_err();
            assert_eq!(u64::from(refusal.number()), number);
            let refused = Refused::from_told(number, 1, &[2; 7]).unwrap_err();
            assert_eq!(refused, Refused { record: 1, refusal });
        }
        assert_eq!(
            Refusal::from_told(6, &[1, 3, 4_095, 10, 0, 0, 0]),
            Err(Refusal::OutOfBounds {
                pass: 1,
                field: Field::VelocityV,
                cell: 4_095
            })
        );
    }

    #[test]
    fn a_corner_is_not_called_a_cell() {
        let told = |field| Refusal::from_told(4, &[field, 8]).unwrap_err().cause();
        assert_eq!(
            told(4),
            "potential vorticity q outside its bounds, corner 8"
        );
        assert_eq!(told(5), "inflow s outside its bounds, cell 8");
    }

    #[test]
    fn what_no_line_has_is_no_refusal() {
        let known = |number, values: [u64; 3]| Refusal::known(number, values.into_iter());
        assert_eq!(known(11, [0; 3]), None);
        assert_eq!(known(u64::MAX, [0; 3]), None);
        // No such field, and no such pass.
        assert_eq!(known(4, [7, 0, 0]), None);
        assert_eq!(known(6, [0, 0, 0]), None);
        assert_eq!(known(6, [3, 0, 0]), None);
        assert_eq!(Refusal::known(7, [].into_iter()), None);
    }
}
