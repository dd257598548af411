//! `scale COUNT [FIRST [N]]`: the blocks of COUNT seeds from FIRST (0) on through both meshers. It
//! stops at the first difference, shrinks the block and keeps both records.

use blocks::seeds::{Seeds, USAGE};
use oracle::record::Block;
use scale::difference::difference;
use scale::ours::Ours;
use scale::shrink::shrink;
use std::io::{self, Write};
use std::process::ExitCode;

const STEP: usize = 500;

fn keep(block: &Block, smaller: &Block) -> io::Result<()> {
    std::fs::write("difference.record", block.to_record())?;
    std::fs::write("difference-small.record", smaller.to_record())
}

/// Whether no block differs.
fn compare(seeds: &Seeds) -> io::Result<bool> {
    let mut ours = Ours::start()?;
    let (mut vertices, mut triangles) = (0, 0);
    let count = seeds.range.clone().count();
    for (done, (seed, block)) in (1..).zip(seeds.blocks()) {
        match difference(&mut ours, &block)? {
            Ok(counts) => {
                vertices += counts.vertices;
                triangles += counts.triangles;
            }
            Err(what) => {
                println!("\nseed {seed} (n {}, mask {}): {what}", block.n, block.mask);
                keep(&block, &shrink(&mut ours, &block, &what)?)?;
                println!(
                    "the block is in difference.record, a smaller one in difference-small.record"
                );
                return Ok(false);
            }
        }
        if done % STEP == 0 || done == count {
            print!("\r{done} blocks, {vertices} vertices, {triangles} triangles, no difference");
            io::stdout().flush()?;
        }
    }
    println!();
    Ok(true)
}

fn main() -> ExitCode {
    let words: Vec<String> = std::env::args().skip(1).collect();
    let Some(seeds) = Seeds::parse(&words) else {
        eprintln!("run {USAGE}");
        return ExitCode::from(2);
    };
    match compare(&seeds) {
        Ok(true) => ExitCode::SUCCESS,
        Ok(false) => ExitCode::FAILURE,
        Err(reason) => {
            eprintln!("run: {reason}");
            ExitCode::from(2)
        }
    }
}
