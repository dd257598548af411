//! Both meshers on one block, compared place by place.

use crate::ours::{Ours, Room, MARK};
use oracle::record::Block;
use oracle::{Answer, Star};
use std::io;

/// How many places more than wanted each buffer has.
const BEYOND: usize = 3;

pub struct Counts {
    pub vertices: usize,
    pub triangles: usize,
}

/// The first place at which ours is not what the Rust has, or was written beyond its end.
fn compare(what: &str, ours: &[u32], wanted: &[u32]) -> Result<(), String> {
    for (place, (ours, wanted)) in ours.iter().zip(wanted).enumerate() {
        if ours != wanted {
            return Err(format!("{what} {place}: ours {ours:08x}, the Rust {wanted:08x}"));
        }
    }
    match ours[wanted.len()..].iter().position(|&place| place != MARK) {
        Some(place) => Err(format!("{what} {}: written beyond the end", wanted.len() + place)),
        None => Ok(()),
    }
}

/// The sample reads that a mesh of so many vertices takes (document 02, [7]).
fn reads(block: &Block, vertices: usize) -> u32 {
    let face = block.n * block.n;
    let sides = block.mask.count_ones() as usize;
    (8 * face * block.n + 9 * sides * face + 14 * vertices) as u32
}

/// The counts if both meshers agree on the block: counts, reads, every vertex bit, every triangle, every
/// place of the index store, and nothing written beyond. Otherwise where they differ.
pub fn difference(ours: &mut Ours, block: &Block) -> io::Result<Result<Counts, String>> {
    let Answer { mesh, store } = Star::new(block).answer();
    let vertices: Vec<u32> =
        mesh.vertices.as_flattened().iter().map(|number| number.to_bits()).collect();
    let triangles = mesh.triangles.as_flattened();
    let room = Room {
        store: store.len() + BEYOND,
        vertices: vertices.len() + BEYOND,
        triangles: triangles.len() + BEYOND,
    };
    let answer = ours.extract(block, &room)?;
    let wanted = [
        0,
        mesh.vertices.len() as u32,
        mesh.triangles.len() as u32,
        reads(block, mesh.vertices.len()),
    ];
    if answer.numbers != wanted {
        return Ok(Err(format!("answer: ours {:?}, the Rust {wanted:?}", answer.numbers)));
    }
    let same = compare("vertex number", &answer.vertices, &vertices)
        .and_then(|()| compare("triangle corner", &answer.triangles, triangles))
        .and_then(|()| compare("store place", &answer.store, &store));
    let counts = Counts { vertices: mesh.vertices.len(), triangles: mesh.triangles.len() };
    Ok(same.map(|()| counts))
}
