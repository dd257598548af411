//! The weld, beside extraction of the same block, without the list of edges and with it. The pass changes its lists: each timed call
//! begins with a copy of them, which is timed by itself and taken off.

use crate::faces::{block, NOISY, SMOOTH, WAVY};
use crate::ours::{header, Buffers};
use crate::{best, ready, Library, Outcome, GROWTH};
use oracle::record::Block;
use oracle::Star;
use sirveshan::{extract_whole, weld};
use std::hint::black_box;

/// What the pass is given, and what it works in.
#[derive(Clone)]
struct Lists {
    vertices: Vec<f32>,
    triangles: Vec<u32>,
    edges: Vec<u32>,
}

impl Lists {
    fn copy(&mut self, from: &Lists) {
        self.vertices.copy_from_slice(&from.vertices);
        self.triangles.copy_from_slice(&from.triangles);
        self.edges.copy_from_slice(&from.edges);
    }

    /// How many vertices are left.
    fn weld(&mut self) -> Result<usize, String> {
        let Lists { vertices, triangles, edges } = self;
        let (held, count) = (edges.len() as u32, (triangles.len() / 3) as u32);
        let counts = weld(held, count, vertices, triangles, edges);
        counts.map(|counts| counts.vertices).map_err(|refusal| refusal.to_string())
    }
}

/// Extraction with the list of edges, which has a place for each vertex.
fn whole(block: &Block, buffers: &mut Buffers, edges: &mut [u32]) -> Outcome {
    let Buffers { store, vertices, triangles } = buffers;
    let (header, centre, neighbours) = (header(block), &block.centre, &block.neighbours);
    extract_whole(&header, centre, neighbours, store, vertices, triangles, edges)
        .map(|_| ())
        .map_err(|refusal| refusal.to_string())
}

fn row(face: &str, n: usize, mask: u8) -> Outcome {
    let block = &block(n, mask, face);
    let mut plain = ready(Library::Ours, block, &Star::new(block))?;
    let mut told = ready(Library::Ours, block, &Star::new(block))?;
    let mut edges = vec![0; plain.vertices.len() / 6];
    whole(block, &mut told, &mut edges)?;
    let Buffers { vertices, triangles, .. } = &told;
    let given =
        Lists { vertices: vertices.clone(), triangles: triangles.clone(), edges: edges.clone() };
    let (mut copied, mut welded) = (given.clone(), given.clone());
    let left = welded.weld()?;
    let mut calls: Vec<Box<dyn FnMut() + '_>> = vec![
        Box::new(|| {
            let _ = black_box(plain.extract(Library::Ours, black_box(block)));
        }),
        Box::new(|| {
            let _ = black_box(whole(black_box(block), &mut told, &mut edges));
        }),
        Box::new(|| black_box(&mut copied).copy(black_box(&given))),
        Box::new(|| {
            black_box(&mut welded).copy(black_box(&given));
            let _ = black_box(black_box(&mut welded).weld());
        }),
    ];
    let [extraction, with_edges, copying, both] = best(&mut calls)[..] else { unreachable!() };
    let (vertices, pass) = (given.edges.len(), both - copying);
    println!(
        "| {face} | {n} | {mask} | {vertices} | {} | {extraction:.1} | {with_edges:.1} | {pass:.1} | {:.2} | {:.1} |",
        vertices - left,
        pass / extraction,
        1000.0 * pass / vertices as f64,
    );
    Ok(())
}

/// Smooth faces as they grow, and the other kinds at n = 16 and 64, without and with finer sides.
pub fn table() -> Outcome {
    println!(
        "| face | n | mask | vertices | doubled | extraction µs | with edges µs | weld µs | weld by extraction | weld ns a vertex |"
    );
    println!("|---|---|---|---|---|---|---|---|---|---|");
    for n in GROWTH {
        row(SMOOTH, n, 0)?;
    }
    for (face, mask) in [(SMOOTH, 63), (WAVY, 0), (NOISY, 0), (NOISY, 63)] {
        row(face, 16, mask)?;
        row(face, 64, mask)?;
    }
    Ok(())
}
