//! Standard output, with its failures told.

use crate::failure::Failure;
use std::io::{self, BufWriter, Write};

/// Writes all of a text, now.
pub fn put(text: &[u8]) -> Result<(), Failure> {
    let mut out = io::stdout().lock();
    out.write_all(text).and_then(|()| out.flush()).map_err(Failure::Output)
}

/// Writes lines one after another, without holding them all.
pub fn put_lines(mut lines: impl Iterator<Item = String>) -> Result<(), Failure> {
    let mut out = BufWriter::new(io::stdout().lock());
    let written = lines.try_for_each(|line| out.write_all(line.as_bytes()));
    written.and_then(|()| out.flush()).map_err(Failure::Output)
}
