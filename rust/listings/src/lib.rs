//! Listings made from a seed: for the tests, the comparison with the Rust reader, and the benchmark.

mod odd;
mod random;
mod table;

pub use odd::{damaged, odd};
pub use random::Random;
pub use table::{table, HEADER};

/// The example of the specification: two elements.
pub const EXAMPLE: &str = "BGP table version is 7, local router ID is 192.0.2.254, vrf id 0
Default local pref 100, local AS 64500
   Network          Next Hop            Metric LocPrf Weight Path
*> 198.51.100.0/24  192.0.2.1                0             0 64501 64502 i
*                   192.0.2.2                     150      0 64503 64502 i
";
