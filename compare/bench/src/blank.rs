//! The viewer's blank, beside its call for the subdivisions: both judge the record whole, so what is between them is the search for
//! two samples on two sides of the threshold.

use crate::{best, Outcome};
use sirveshan::{neighbours_length, sample_length, viewer, Block, Header, Record};
use std::hint::black_box;

const N: usize = 16;

fn record(mask: u8, inside: Option<usize>) -> Result<Vec<u8>, String> {
    let block = Block { base: [10.0, 20.0, 30.0], size: 8.0, subdivisions: N };
    let own = sample_length(N);
    let mut samples = vec![-1.0; own + neighbours_length(N, mask)];
    if let Some(place) = inside {
        samples[place] = 1.0;
    }
    let neighbours = samples.split_off(own);
    let record = Record::new(Header { block, mask, threshold: 0.0 }, samples, neighbours);
    record.write().map_err(|refusal| refusal.to_string())
}

fn row(name: &str, mask: u8, inside: Option<usize>) -> Outcome {
    let record = &record(mask, inside)?;
    if viewer::blank(record) != Ok(inside.is_none()) {
        return Err(format!("{name}: not the answer"));
    }
    let mut calls: Vec<Box<dyn FnMut() + '_>> = vec![
        Box::new(|| {
            let _ = black_box(viewer::subdivisions(black_box(record)));
        }),
        Box::new(|| {
            let _ = black_box(viewer::blank(black_box(record)));
        }),
    ];
    let [judging, all] = best(&mut calls)[..] else { unreachable!() };
    println!("| {name} | {mask} | {} | {judging:.1} | {all:.1} |", record.len());
    Ok(())
}

pub fn table() -> Outcome {
    println!("| block, n = {N} | mask | bytes | judging µs | blank µs |");
    println!("|---|---|---|---|---|");
    for mask in [0, 63] {
        row("all on one side", mask, None)?;
        row("the second sample differs", mask, Some(1))?;
    }
    Ok(())
}
