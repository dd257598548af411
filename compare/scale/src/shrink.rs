//! A smaller block that still shows a difference.

use crate::difference::difference;
use crate::ours::Ours;
use oracle::record::{block_length, Block};
use std::io;

/// Whether the two differ on the block as they did at first: in the answer, in a vertex number, ..
fn shows(ours: &mut Ours, block: &Block, what: &str) -> io::Result<bool> {
    let kind = |text: &str| text.split(' ').next().map(str::to_owned);
    Ok(matches!(difference(ours, block)?, Err(now) if kind(&now) == kind(what)))
}

/// The block without the neighbour at a side.
fn without(block: &Block, side: u32) -> Block {
    let length = block_length(2 * block.n);
    let before = (block.mask & ((1 << side) - 1)).count_ones() as usize;
    let mut smaller = block.clone();
    smaller.mask &= !(1 << side);
    smaller.neighbours.drain(before * length..(before + 1) * length);
    smaller
}

/// The block with the samples from..to plainly outside or plainly inside.
fn plain(block: &Block, from: usize, to: usize, inside: bool) -> Block {
    let number = if inside { block.threshold + 1.0 } else { block.threshold - 1.0 };
    let mut smaller = block.clone();
    let centre = smaller.centre.len();
    for place in from..to {
        match place.checked_sub(centre) {
            None => smaller.centre[place] = number,
            Some(place) => smaller.neighbours[place] = number,
        }
    }
    smaller
}

/// Drops neighbours, then makes ever shorter runs of samples plain, as long as the two still differ.
pub fn shrink(ours: &mut Ours, block: &Block, what: &str) -> io::Result<Block> {
    let mut smallest = block.clone();
    let mut keep = |smaller: Block, smallest: &mut Block| {
        if smaller != *smallest && shows(ours, &smaller, what)? {
            *smallest = smaller;
        }
        Ok::<(), io::Error>(())
    };
    keep(Block { base: [0.0; 3], size: 1.0, ..smallest.clone() }, &mut smallest)?;
    for side in (0..6).filter(|side| block.mask >> side & 1 == 1) {
        keep(without(&smallest, side), &mut smallest)?;
    }
    let samples = smallest.centre.len() + smallest.neighbours.len();
    let mut run = samples;
    while run > 0 {
        for from in (0..samples).step_by(run) {
            for inside in [false, true] {
                keep(plain(&smallest, from, samples.min(from + run), inside), &mut smallest)?;
            }
        }
        run /= 2;
    }
    Ok(smallest)
}
