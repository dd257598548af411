//! The words that every command here takes: how many seeds, the first one, and how many subdivisions.

use oracle::record::Block;
use std::ops::Range;

pub const USAGE: &str = "COUNT [FIRST [N | larger]]: the blocks of COUNT seeds from FIRST (0) on, \
                         with 1 to 16 subdivisions each, or N (1 to 64), or 17 to 64";

/// How many subdivisions a seed's block has: 1 to 16 or 17 to 64 as the seed chooses, or as many as are asked for.
#[derive(Debug, PartialEq, Clone, Copy)]
pub enum Sizes {
    Chosen,
    Larger,
    All(usize),
}

#[derive(Debug, PartialEq)]
pub struct Seeds {
    pub range: Range<u64>,
    pub sizes: Sizes,
}

impl Seeds {
    /// The seeds that the words ask for, or none if they are not of the form.
    pub fn parse(words: &[String]) -> Option<Seeds> {
        let words: Vec<&str> = words.iter().map(String::as_str).collect();
        let (count, first, sizes) = match words[..] {
            [count] => (count, "0", Sizes::Chosen),
            [count, first] => (count, first, Sizes::Chosen),
            [count, first, "larger"] => (count, first, Sizes::Larger),
            [count, first, n] => {
                (count, first, Sizes::All(n.parse().ok().filter(|n| (1..=64).contains(n))?))
            }
            _ => return None,
        };
        let (count, first): (u64, u64) = (count.parse().ok()?, first.parse().ok()?);
        Some(Seeds { range: first..first.checked_add(count)?, sizes })
    }

    /// Each seed with its block.
    pub fn blocks(&self) -> impl Iterator<Item = (u64, Block)> + '_ {
        self.range.clone().map(|seed| (seed, crate::block_of(seed, self.sizes)))
    }
}
