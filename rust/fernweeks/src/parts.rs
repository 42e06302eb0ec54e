//! A listing taken from a reader in parts that end behind a line feed.

use std::io::{ErrorKind, Read, Result};

/// As many lines as the scan for the column header may take: a first part with these has the whole header.
pub const HEADER_LINES: usize = 64;

/// Cuts what a reader gives into parts. A part is what fills the buffer up to its last line feed; the rest is carried over to the
/// part behind it. The buffer grows only where a line is longer than it.
pub struct Parts<R> {
    input: R,
    buffer: Vec<u8>,
    given: usize,
    filled: usize,
    ended: bool,
}

impl<R: Read> Parts<R> {
    /// Parts of at most `size` bytes, where the lines allow it.
    pub fn new(input: R, size: usize) -> Self {
        Parts { input, buffer: vec![0; size.max(1)], given: 0, filled: 0, ended: false }
    }

    /// The next part, with at least so many lines (and at least one) unless the input ends before; empty once it has ended.
    pub fn next(&mut self, lines: usize) -> Result<&[u8]> {
        self.buffer.copy_within(self.given..self.filled, 0);
        self.filled -= self.given;
        self.given = 0;
        loop {
            self.fill()?;
            let text = &self.buffer[..self.filled];
            if self.ended {
                self.given = self.filled;
                break;
            }
            if text.iter().filter(|b| **b == b'\n').take(lines.max(1)).count() == lines.max(1) {
                self.given = text.iter().rposition(|b| *b == b'\n').map_or(0, |at| at + 1);
                break;
            }
            self.buffer.resize(2 * self.buffer.len(), 0);
        }
        Ok(&self.buffer[..self.given])
    }

    fn fill(&mut self) -> Result<()> {
        while !self.ended && self.filled < self.buffer.len() {
            match self.input.read(&mut self.buffer[self.filled..]) {
                Ok(0) => self.ended = true,
                Ok(n) => self.filled += n,
                Err(e) if e.kind() == ErrorKind::Interrupted => {}
                Err(e) => return Err(e),
            }
        }
        Ok(())
    }
}
