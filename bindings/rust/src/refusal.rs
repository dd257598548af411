//! Refusals, with their words.

use crate::refusals::words;
use std::fmt;

/// A refusal: its number, and its three numbers, 0 where unused. `Display` says it in words.
#[derive(Clone, Copy, Debug, PartialEq, Eq)]
pub struct Refusal {
    /// Which refusal it is: docs/refusals.tsv lists them.
    pub number: u32,
    /// Its three numbers.
    pub values: [usize; 3],
}

impl fmt::Display for Refusal {
    fn fmt(&self, out: &mut fmt::Formatter<'_>) -> fmt::Result {
        match words(self.number, self.values) {
            Some(words) => out.write_str(&words),
            None => write!(out, "a refusal that this crate has no words for"),
        }
    }
}

impl std::error::Error for Refusal {}
