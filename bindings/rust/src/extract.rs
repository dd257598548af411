//! Extraction into lent buffers.

use crate::{linked, Header, Refusal};

/// How many vertices and triangles a mesh has, and how many sample reads it took.
#[derive(Clone, Copy, Debug, PartialEq, Eq)]
pub struct Counts {
    /// Vertices, six f32 each.
    pub vertices: usize,
    /// Triangles, three indices each.
    pub triangles: usize,
    /// Sample reads made once every check had passed: eight a regular cell, nine a transition cell,
    /// fourteen a vertex. At most [`most_reads`](crate::most_reads).
    pub reads: u64,
}

/// Meshes a block into lent buffers: six f32 for a vertex (position, gradient), three indices for a
/// triangle. All beyond what is written stays; a refusal alters nothing.
///
/// `neighbours` holds the samples of the finer neighbours one after another, in side order. `store`
/// is room that extraction works in, [`store_length`](crate::store_length) places; what it holds
/// before does not matter.
pub fn extract(
    header: &Header,
    centre: &[f32],
    neighbours: &[f32],
    store: &mut [u32],
    vertices: &mut [f32],
    triangles: &mut [u32],
) -> Result<Counts, Refusal> {
    // SAFETY: each pointer goes with the length of the slice it comes from, the slices live through
    // the call, and the &mut ones are distinct by Rust's own rules.
    let answer = unsafe {
        linked::sirveshan_extract(
            header.into(),
            centre.as_ptr(),
            centre.len(),
            neighbours.as_ptr(),
            neighbours.len(),
            store.as_mut_ptr(),
            store.len(),
            vertices.as_mut_ptr(),
            vertices.len(),
            triangles.as_mut_ptr(),
            triangles.len(),
        )
    };
    counts_of(answer)
}

/// The same, and the number of each vertex's grid edge in the first places of a further list, which
/// [`weld`](crate::weld()) takes: 3 times the [`sample_place`](crate::sample_place) of the edge's
/// lower end, plus 0, 1, 2 for x, y, z; [`NO_EDGE`](crate::NO_EDGE) for the vertex of a transition
/// cell. Refusal 23, after 9 and before 10, where the list has fewer places than the mesh has
/// vertices: it tells how many those are.
pub fn extract_whole(
    header: &Header,
    centre: &[f32],
    neighbours: &[f32],
    store: &mut [u32],
    vertices: &mut [f32],
    triangles: &mut [u32],
    edges: &mut [u32],
) -> Result<Counts, Refusal> {
    // SAFETY: as in `extract`.
    let answer = unsafe {
        linked::sirveshan_extract_whole(
            header.into(),
            centre.as_ptr(),
            centre.len(),
            neighbours.as_ptr(),
            neighbours.len(),
            store.as_mut_ptr(),
            store.len(),
            vertices.as_mut_ptr(),
            vertices.len(),
            triangles.as_mut_ptr(),
            triangles.len(),
            edges.as_mut_ptr(),
            edges.len(),
        )
    };
    counts_of(answer)
}

/// The same with a summary by layer, as [`make_summary`](crate::make_summary) and
/// [`set_sample`](crate::set_sample) leave it: layers that are not marked and lie wholly on one side
/// of the threshold are passed over. Refusal 14 where the summary has too few layers, 26 with the first
/// layer that is not marked and differs in value from one made afresh, both before 9. With any other
/// answer it and all lists are the same as without the summary; of a mesh the reads are fewer by eight
/// for each cell passed over.
#[allow(clippy::too_many_arguments)]
pub fn extract_layered(
    header: &Header,
    centre: &[f32],
    neighbours: &[f32],
    summary: &[f32],
    store: &mut [u32],
    vertices: &mut [f32],
    triangles: &mut [u32],
    edges: &mut [u32],
) -> Result<Counts, Refusal> {
    // SAFETY: as in `extract`.
    let answer = unsafe {
        linked::sirveshan_extract_layered(
            header.into(),
            centre.as_ptr(),
            centre.len(),
            neighbours.as_ptr(),
            neighbours.len(),
            summary.as_ptr(),
            summary.len(),
            store.as_mut_ptr(),
            store.len(),
            vertices.as_mut_ptr(),
            vertices.len(),
            triangles.as_mut_ptr(),
            triangles.len(),
            edges.as_mut_ptr(),
            edges.len(),
        )
    };
    counts_of(answer)
}

fn counts_of(answer: linked::Extracted) -> Result<Counts, Refusal> {
    answer.refused.check()?;
    let linked::Extracted { vertices, triangles, reads, .. } = answer;
    Ok(Counts { vertices, triangles, reads })
}
