//! The sheet of a run, beside extraction of the same blocks: from samples that are at hand, and from records that are read first.

use crate::faces::{block, NOISY, SMOOTH, WAVY};
use crate::ours::Buffers;
use crate::{best, ready, Library, Outcome};
use oracle::record::Block;
use oracle::Star;
use sirveshan::{read_record, sheet_total, Header, Record};
use std::hint::black_box;

const N: usize = 16;

fn header(block: &Block) -> Header {
    let Block { base, size, n, mask, threshold, .. } = *block;
    Header { block: sirveshan::Block { base, size, subdivisions: n }, mask, threshold }
}

fn record(block: &Block) -> Result<Vec<u8>, String> {
    let record = Record::new(header(block), block.centre.clone(), block.neighbours.clone());
    record.write().map_err(|refusal| refusal.to_string())
}

/// Reads a record into the lent samples and meshes it.
fn read_and_extract(bytes: &[u8], samples: &mut [f32], lent: &mut Buffers) {
    let header = read_record(bytes, samples).expect("a record that was written");
    let (centre, neighbours) = samples.split_at(sirveshan::sample_length(N));
    let Buffers { store, vertices, triangles } = lent;
    let made = sirveshan::extract(&header, centre, neighbours, store, vertices, triangles);
    black_box(made).expect("a block that was meshed before");
}

fn row(face: &str, mask: u8, records: usize) -> Outcome {
    let block = block(N, mask, face);
    let blocks = vec![block.clone(); records];
    let one = record(&block)?;
    let run = one.repeat(records);
    let mut lent = ready(Library::Ours, &block, &Star::new(&block))?;
    let mut others = ready(Library::Ours, &block, &Star::new(&block))?;
    let mut samples = vec![0.0; block.centre.len() + block.neighbours.len()];
    let total = sheet_total(&run).map_err(|refusal| refusal.to_string())?;
    if total.triangles != (records * lent.triangles.len() / 3) as u64 {
        return Err(format!("{face}, mask {mask}: not the triangles of the meshes"));
    }
    let mut calls: Vec<Box<dyn FnMut() + '_>> = vec![
        Box::new(|| {
            let _ = black_box(sheet_total(black_box(&run)));
        }),
        Box::new(|| {
            for block in &blocks {
                let _ = black_box(lent.extract(Library::Ours, black_box(block)));
            }
        }),
        Box::new(|| {
            for record in run.chunks_exact(one.len()) {
                read_and_extract(black_box(record), &mut samples, &mut others);
            }
        }),
    ];
    let times: Vec<f64> = best(&mut calls).iter().map(|time| time / records as f64).collect();
    let [sheet, extraction, read] = times[..] else { unreachable!() };
    println!(
        "| {face} | {mask} | {records} | {sheet:.1} | {extraction:.1} | {read:.1} | {:.2} | {:.2} |",
        sheet / extraction,
        sheet / read
    );
    Ok(())
}

pub fn table() -> Outcome {
    println!("| face, n = {N} | mask | records | sheet µs | extraction µs | reading and extraction µs | of extraction | of both |");
    println!("|---|---|---|---|---|---|---|---|");
    for face in [SMOOTH, WAVY, NOISY] {
        row(face, 0, 1000)?;
        row(face, 63, 40)?;
    }
    Ok(())
}
