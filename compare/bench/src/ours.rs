//! Our mesher, and the one of another commit where its library is linked, with buffers that are made
//! once and not cleared between blocks.

use crate::before;
use oracle::builder::Builder;
use oracle::record::Block;

#[derive(Clone, Copy)]
pub enum Library {
    Ours,
    Before,
}

/// The lent buffers; a test may lend a shorter part of one.
pub struct Buffers {
    pub store: Vec<u32>,
    pub vertices: Vec<f32>,
    pub triangles: Vec<u32>,
}

/// The counts of vertices and triangles, or the refusal in words.
pub type Answer = Result<(usize, usize), String>;

impl Buffers {
    /// Just the room that a mesh of `n` subdivisions needs.
    pub fn new(n: usize, mesh: &Builder) -> Buffers {
        Buffers {
            store: vec![0; sirveshan::store_length(n)],
            vertices: vec![0.0; 6 * mesh.vertices.len()],
            triangles: vec![0; 3 * mesh.triangles.len()],
        }
    }

    /// Whether they hold the mesh, bit for bit.
    pub fn hold(&self, mesh: &Builder) -> bool {
        let bits = |numbers: &[f32]| numbers.iter().map(|k| k.to_bits()).collect::<Vec<_>>();
        bits(&self.vertices) == bits(mesh.vertices.as_flattened())
            && self.triangles == mesh.triangles.as_flattened()
    }

    pub fn extract(&mut self, library: Library, block: &Block) -> Answer {
        let Buffers { store, vertices, triangles } = self;
        match library {
            Library::Ours => extract(block, store, vertices, triangles),
            Library::Before => before::extract(block, store, vertices, triangles),
        }
    }
}

/// The block as our calls take it.
pub fn header(block: &Block) -> sirveshan::Header {
    let Block { base, size, n, mask, threshold, .. } = *block;
    let block = sirveshan::Block { base, size, subdivisions: n };
    sirveshan::Header { block, mask, threshold }
}

pub fn extract(
    block: &Block,
    store: &mut [u32],
    vertices: &mut [f32],
    triangles: &mut [u32],
) -> Answer {
    let header = header(block);
    sirveshan::extract(&header, &block.centre, &block.neighbours, store, vertices, triangles)
        .map(|counts| (counts.vertices, counts.triangles))
        .map_err(|refusal| refusal.to_string())
}
