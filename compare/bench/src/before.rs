//! Extraction by the library of another commit: `compare/before` renames its call to `before_extract`, so
//! that both can be linked, and says which form the call has there. A mesh that is not the Rust's is told.

use crate::ours::Answer;
use oracle::record::Block;

/// Whether such a library is linked.
pub const LINKED: bool = !cfg!(before = "none");

#[cfg(before = "none")]
pub fn extract(_: &Block, _: &mut [u32], _: &mut [f32], _: &mut [u32]) -> Answer {
    Err("no library of another commit is linked: compare/before REV does that".into())
}

/// Up to commit 69f4ee1 (libmeshing.a): numbers one by one, the answer's three through pointers.
#[cfg(before = "scalars")]
pub fn extract(
    block: &Block,
    store: &mut [u32],
    vertices: &mut [f32],
    triangles: &mut [u32],
) -> Answer {
    #[rustfmt::skip]
    extern "C" {
        fn before_extract(
            x: f32, y: f32, z: f32, size: f32, subdivisions: usize, mask: u8, threshold: f32,
            centre: *const f32, centre_length: usize, neighbours: *const f32, neighbours_length: usize,
            store: *mut u32, store_length: usize, vertices: *mut f32, vertices_length: usize,
            triangles: *mut u32, triangles_length: usize,
            first: *mut usize, second: *mut usize, third: *mut usize,
        ) -> usize;
    }
    let Block { n, mask, threshold, base: [x, y, z], size, centre, neighbours } = block;
    let (mut first, mut second, mut third) = (0, 0, 0);
    // Each pointer goes with the length of the slice it comes from, and the slices live through the call.
    #[rustfmt::skip]
    let number = unsafe {
        before_extract(
            *x, *y, *z, *size, *n, *mask, *threshold,
            centre.as_ptr(), centre.len(), neighbours.as_ptr(), neighbours.len(),
            store.as_mut_ptr(), store.len(), vertices.as_mut_ptr(), vertices.len(),
            triangles.as_mut_ptr(), triangles.len(),
            &mut first, &mut second, &mut third,
        )
    };
    match number {
        0 => Ok((first, second)),
        number => Err(format!("refused {number} {first} {second} {third}")),
    }
}

/// After it (libsirveshan.a): the header and the answer by value.
#[cfg(before = "header")]
pub fn extract(
    block: &Block,
    store: &mut [u32],
    vertices: &mut [f32],
    triangles: &mut [u32],
) -> Answer {
    #[repr(C)]
    struct Header {
        base: [f32; 3],
        size: f32,
        subdivisions: usize,
        mask: u8,
        threshold: f32,
    }
    #[repr(C)]
    struct Extracted {
        refused: [usize; 4],
        vertices: usize,
        triangles: usize,
        // A library from before document 02, [7], leaves it alone.
        _reads: u64,
    }
    #[rustfmt::skip]
    extern "C" {
        fn before_extract(
            header: Header,
            centre: *const f32, centre_length: usize, neighbours: *const f32, neighbours_length: usize,
            store: *mut u32, store_length: usize, vertices: *mut f32, vertices_length: usize,
            triangles: *mut u32, triangles_length: usize,
        ) -> Extracted;
    }
    let Block { n, mask, threshold, base, size, centre, neighbours } = block;
    let header =
        Header { base: *base, size: *size, subdivisions: *n, mask: *mask, threshold: *threshold };
    // Each pointer goes with the length of the slice it comes from, and the slices live through the call.
    #[rustfmt::skip]
    let answer = unsafe {
        before_extract(
            header,
            centre.as_ptr(), centre.len(), neighbours.as_ptr(), neighbours.len(),
            store.as_mut_ptr(), store.len(), vertices.as_mut_ptr(), vertices.len(),
            triangles.as_mut_ptr(), triangles.len(),
        )
    };
    match answer.refused {
        [0, ..] => Ok((answer.vertices, answer.triangles)),
        refused => Err(format!("refused {refused:?}")),
    }
}
