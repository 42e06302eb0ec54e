//! A reader of router tables (the listings that `show ip bgp` prints) that is proved correct.
//!
//! The reader is the archive that `tools/build.py archive` writes; this crate gives its calls Rust's types. A table is read in
//! parts: [`State::open`] takes the header with the first part, [`State::next`] gives one element after the other until the part's
//! end, [`State::turn`] goes to the next part and keeps the prefix that blank-prefix routes stand under.
//!
//! ```
//! use fernweeks::{Asn, Next, State};
//!
//! let table = b"   Network          Next Hop            Metric LocPrf Weight Path\n\
//!     *> 198.51.100.0/24  192.0.2.1                0             0 64501 64502 i\n";
//! let mut asns = [Asn(0); 16];
//! let mut state = State::open(table, 0.0)?;
//! while let Next::Element(element) = state.next(table, &mut asns)? {
//!     assert_eq!(element.prefix.to_string(), "198.51.100.0/24");
//!     assert_eq!(asns[..element.count], [Asn(64501), Asn(64502)]);
//! }
//! # Ok::<(), Box<dyn std::error::Error>>(())
//! ```
//!
//! Parts may be cut anywhere, but only parts that end behind a line feed give the elements of the whole table: [`Parts`] cuts a
//! listing so. A refusal leaves the state and every lent list as they were.

#![deny(unsafe_code, missing_docs)]

pub mod calls;
mod layout;
mod parts;
mod refusals;

pub use parts::{Parts, HEADER_LINES};
pub use refusals::{NextRefusal, OpenRefusal};

use std::fmt;
use std::net::IpAddr;

/// The bytes of a state.
pub const STATE_LEN: usize = 128;

/// The bytes of an element.
pub const ELEMENT_LEN: usize = 176;

/// An AS number.
#[derive(Clone, Copy, PartialEq, Eq, PartialOrd, Ord, Hash, Debug, Default)]
#[repr(transparent)]
pub struct Asn(pub u32);

/// An address and a length; host bits are kept.
#[derive(Clone, Copy, PartialEq, Eq, Hash, Debug)]
pub struct Prefix {
    /// The address.
    pub addr: IpAddr,
    /// At most 32 for IPv4, 128 for IPv6.
    pub len: u8,
}

/// The origin of a route, by the letter at the end of its path: `i`, `e`, `?`.
#[derive(Clone, Copy, PartialEq, Eq, Hash, Debug)]
pub enum Origin {
    /// `i`
    Igp,
    /// `e`
    Egp,
    /// `?`
    Incomplete,
}

/// What one route of the table says. Its AS numbers stand in the list that was lent to [`State::next`], from place 0.
#[derive(Clone, Copy, PartialEq, Debug)]
pub struct Element {
    /// An announcement; so is every route of a table.
    pub announce: bool,
    /// The timestamp that the table was opened with.
    pub timestamp: f64,
    /// The router ID, or 0.0.0.0 where the table has none.
    pub peer_ip: IpAddr,
    /// The local AS, or 0 where the table has none.
    pub peer_asn: Asn,
    /// The prefix that the route stands under.
    pub prefix: Prefix,
    /// The next hop.
    pub next_hop: IpAddr,
    /// How many AS numbers the path has.
    pub count: usize,
    /// The last of these.
    pub origin_asn: Option<Asn>,
    /// The origin.
    pub origin: Option<Origin>,
    /// The local preference.
    pub local_pref: Option<u32>,
    /// The metric (MED).
    pub metric: Option<u32>,
}

/// What [`State::next`] answers where it does not refuse.
#[derive(Clone, Copy, PartialEq, Debug)]
pub enum Next {
    /// The next element of the part.
    Element(Element),
    /// The part has no further element.
    End,
}

/// Where the reading of a table stands: a plain value that can be kept, copied and sent.
#[derive(Clone, Copy, PartialEq, Eq, Hash)]
pub struct State([u8; STATE_LEN]);

/// Whether the first 128 of these bytes look like a table.
pub fn detect(bytes: &[u8]) -> bool {
    calls::detect(bytes) != 0
}

impl State {
    /// Reads the header at the front of the text: the whole table, or its first part, which must have the column header.
    ///
    /// The timestamp is a whole number of seconds, -62167219200 (year 0) to 253402300799 (the end of 9999), and not negative zero.
    pub fn open(text: &[u8], timestamp: f64) -> Result<State, OpenRefusal> {
        let mut bytes = [0; STATE_LEN];
        match calls::open(text, timestamp, &mut bytes) {
            0 => Ok(State(bytes)),
            4 => Err(OpenRefusal::NoTimestamp),
            1 => Err(OpenRefusal::Unreadable { line: calls::line_at_fault(text) }),
            2 => Err(OpenRefusal::NoColumns),
            n => unreachable!("open answered {n}"),
        }
    }

    /// The next element of the part at hand, with its AS numbers in `asns` from place 0 on; the places behind them stay as they are.
    pub fn next(&mut self, part: &[u8], asns: &mut [Asn]) -> Result<Next, NextRefusal> {
        let mut element = [0; ELEMENT_LEN];
        match calls::next(&mut self.0, part, calls::numbers(asns), &mut element) {
            0 => Ok(Next::Element(layout::element(&element))),
            255 => Ok(Next::End),
            5 => Err(NextRefusal::Spoilt),
            6 => Err(NextRefusal::Unreadable),
            7 => Err(NextRefusal::TooFewPlaces),
            n => unreachable!("next answered {n}"),
        }
    }

    /// Goes to the next part: the position becomes 0, all else is kept.
    pub fn turn(&mut self) {
        let answer = calls::turn(&mut self.0);
        debug_assert_eq!(answer, 0, "the bytes of a state spell one");
    }

    /// The state that these bytes spell (`docs/LAYOUT.md`), if they spell one. It may still be one that [`State::next`] refuses.
    pub fn from_bytes(bytes: [u8; STATE_LEN]) -> Option<State> {
        // Turn refuses exactly the bytes that spell no state.
        let mut turned = bytes;
        (calls::turn(&mut turned) == 0).then_some(State(bytes))
    }

    /// The state's bytes.
    pub fn to_bytes(self) -> [u8; STATE_LEN] {
        self.0
    }
}

impl fmt::Debug for State {
    fn fmt(&self, f: &mut fmt::Formatter<'_>) -> fmt::Result {
        f.write_str("State(")?;
        self.0.iter().try_for_each(|byte| write!(f, "{byte:02x}"))?;
        f.write_str(")")
    }
}

impl fmt::Display for Asn {
    fn fmt(&self, f: &mut fmt::Formatter<'_>) -> fmt::Result {
        self.0.fmt(f)
    }
}

impl fmt::Display for Prefix {
    fn fmt(&self, f: &mut fmt::Formatter<'_>) -> fmt::Result {
        write!(f, "{}/{}", self.addr, self.len)
    }
}

impl fmt::Display for Origin {
    fn fmt(&self, f: &mut fmt::Formatter<'_>) -> fmt::Result {
        f.write_str(match self {
            Origin::Igp => "IGP",
            Origin::Egp => "EGP",
            Origin::Incomplete => "INCOMPLETE",
        })
    }
}
