//! The Rust reader's program as two calls: its sources, taken in where they stand, under the lines of its main that read whole listings.

#![allow(dead_code, unused_imports, unexpected_cfgs)]

#[path = "../../../../shared/oracle/src/models.rs"]
mod models;
#[path = "../../../../shared/src/parser/text_dump.rs"]
mod text_dump;

use models::BgpElem;
use std::fs::File;
use std::io::{BufRead, BufReader, BufWriter, Result, Write};
use std::path::Path;
use text_dump::{infer_timestamp_from_path, TextDumpElemIterator};

/// `oracle parse 0 FILE`: the number of elements.
pub fn parse(file: &Path) -> Result<u64> {
    let reader = BufReader::new(File::open(file)?);
    Ok(TextDumpElemIterator::new(reader, 0.0)?.count() as u64)
}

/// `oracle run path FILE`: PSV header and PSV lines. The file begins with a path line.
pub fn run(file: &Path, out: &mut dyn Write) -> Result<()> {
    let mut reader = BufReader::new(File::open(file)?);
    let mut path = String::new();
    reader.read_line(&mut path)?;
    let timestamp = infer_timestamp_from_path(path.strip_suffix('\n').unwrap_or(&path)).unwrap_or(0.0);
    let elems = TextDumpElemIterator::new(reader, timestamp)?;
    let mut out = BufWriter::new(out);
    writeln!(out, "{}", BgpElem::get_psv_header())?;
    for elem in elems {
        writeln!(out, "{}", elem.to_psv())?;
    }
    out.flush()
}
