//! Why a call is turned down.

use std::{error::Error, fmt};

/// The refusals of a call, in checking order: a call answers the first that
/// applies. A number is a name and not a place in that order: 8 is checked before 7.
/// Refusal 1 belongs to drawing files.
#[derive(Clone, Copy, Debug, Eq, Hash, PartialEq)]
#[non_exhaustive]
pub enum Refusal {
    /// 2: the columns of one list differ in length. Only a call by columns can
    /// meet it.
    ColumnsDiffer,
    /// 3: a list holds more than 4,096 entries.
    TooManyEntries,
    /// 4: the scratch has too few words. Only a call by columns can meet it.
    ShortScratch,
    /// 5: a number that is NaN or infinite, a start equal to its end (+0 and -0 are
    /// equal), width or height not above 0, a right or bottom edge that is not
    /// finite, a threshold below 0 (-0 passes), or, by columns, an orientation above
    /// 1.
    InvalidInput,
    /// 6: in congestion a coordinate or the cutoff is no whole multiple of 1/64,
    /// or above 1,048,576 in absolute value.
    OffGrid,
    /// 8: the shortest column that pieces are to be written to holds fewer entries
    /// than there are pieces. Only [`columns::join`](crate::columns::join) can meet
    /// it.
    ShortOutput,
    /// 7: the drawing's visit count is above the allowance.
    WorkLimitExceeded,
}

impl Refusal {
    /// The refusal's number.
    pub fn number(self) -> u32 {
        match self {
            Self::ColumnsDiffer => 2,
            Self::TooManyEntries => 3,
            Self::ShortScratch => 4,
            Self::InvalidInput => 5,
            Self::OffGrid => 6,
            Self::ShortOutput => 8,
            Self::WorkLimitExceeded => 7,
        }
    }

    /// What a call's status says: nothing where it is 0, or else the refusal.
    /// The port's contracts leave no status but 0 and 2 to 8.
    pub(crate) fn check(status: u32) -> Result<(), Self> {
        Err(match status {
            0 => return Ok(()),
            2 => Self::ColumnsDiffer,
            3 => Self::TooManyEntries,
            4 => Self::ShortScratch,
            5 => Self::InvalidInput,
            6 => Self::OffGrid,
            8 => Self::ShortOutput,
            7 => Self::WorkLimitExceeded,
            _ => unreachable!("the port has no status {status}"),
        })
    }
}

impl fmt::Display for Refusal {
    fn fmt(&self, formatter: &mut fmt::Formatter<'_>) -> fmt::Result {
        formatter.write_str(match self {
            Self::ColumnsDiffer => "the columns of a list differ in length",
            Self::TooManyEntries => "a list holds more than 4,096 entries",
            Self::ShortScratch => "the scratch has too few words",
            Self::InvalidInput => "an entry or a setting is unfit",
            Self::OffGrid => "a coordinate or the cutoff is off the grid",
            Self::ShortOutput => "an output column has too few entries for the pieces",
            Self::WorkLimitExceeded => "the visit count is above the allowance",
        })
    }
}

impl Error for Refusal {}
