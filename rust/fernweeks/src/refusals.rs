//! Why a call says no.

use std::error::Error;
use std::fmt;

/// Why a table was not opened.
#[derive(Clone, Copy, PartialEq, Eq, Debug)]
pub enum OpenRefusal {
    /// 4: the timestamp is no whole number of the range, or negative zero.
    NoTimestamp,
    /// 1: the scan for the column header met a line that is no UTF-8.
    Unreadable {
        /// Its number, from 1.
        line: u64,
    },
    /// 2: there is no column header.
    NoColumns,
}

/// Why there is no answer from this state, part and list. Nothing has changed.
#[derive(Clone, Copy, PartialEq, Eq, Debug)]
pub enum NextRefusal {
    /// 5: the state is spoilt, or the part is not the one that it stands in.
    Spoilt,
    /// 6: there is a line that is no UTF-8 before the next element.
    Unreadable,
    /// 7: the next element has more AS numbers than the list has places.
    TooFewPlaces,
}

impl OpenRefusal {
    /// The number that the specification gives it.
    pub fn number(self) -> u32 {
        match self {
            OpenRefusal::NoTimestamp => 4,
            OpenRefusal::Unreadable { .. } => 1,
            OpenRefusal::NoColumns => 2,
        }
    }
}

impl NextRefusal {
    /// The number that the specification gives it.
    pub fn number(self) -> u32 {
        match self {
            NextRefusal::Spoilt => 5,
            NextRefusal::Unreadable => 6,
            NextRefusal::TooFewPlaces => 7,
        }
    }
}

impl fmt::Display for OpenRefusal {
    fn fmt(&self, f: &mut fmt::Formatter<'_>) -> fmt::Result {
        match self {
            OpenRefusal::NoTimestamp => f.write_str("the timestamp is no whole number of seconds from year 0 to 9999"),
            OpenRefusal::Unreadable { line } => write!(f, "line {line}, above the table, is not UTF-8"),
            OpenRefusal::NoColumns => f.write_str("there is no column header in the first 64 lines"),
        }
    }
}

impl fmt::Display for NextRefusal {
    fn fmt(&self, f: &mut fmt::Formatter<'_>) -> fmt::Result {
        f.write_str(match self {
            NextRefusal::Spoilt => "the state is spoilt, or it does not belong to this part",
            NextRefusal::Unreadable => "a line of the table is not UTF-8",
            NextRefusal::TooFewPlaces => "a route has more AS numbers than there are places",
        })
    }
}

impl Error for OpenRefusal {}
impl Error for NextRefusal {}
