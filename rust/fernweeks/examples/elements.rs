//! Prints the elements of a listing, read in parts of 64 KiB: prefix, next hop, AS numbers, origin.
//!
//!     cargo run --release --example elements -- FILE     (or < FILE)

use fernweeks::{Asn, Next, Parts, State, HEADER_LINES};
use std::error::Error;
use std::fs::File;
use std::io::{self, BufWriter, Read, Write};

fn main() -> Result<(), Box<dyn Error>> {
    match std::env::args_os().nth(1) {
        Some(file) => print_elements(File::open(file)?),
        None => print_elements(io::stdin().lock()),
    }
}

fn print_elements(listing: impl Read) -> Result<(), Box<dyn Error>> {
    let mut out = BufWriter::new(io::stdout().lock());
    let mut asns = vec![Asn(0); 16_384];
    let mut parts = Parts::new(listing, 64 * 1024);

    let mut part = parts.next(HEADER_LINES)?;
    let mut state = State::open(part, 0.0)?;
    while !part.is_empty() {
        while let Next::Element(element) = state.next(part, &mut asns)? {
            write!(out, "{} {}", element.prefix, element.next_hop)?;
            for asn in &asns[..element.count] {
                write!(out, " {asn}")?;
            }
            match element.origin {
                Some(origin) => writeln!(out, " {origin}")?,
                None => writeln!(out)?,
            }
        }
        state.turn();
        part = parts.next(1)?;
    }
    Ok(out.flush()?)
}
