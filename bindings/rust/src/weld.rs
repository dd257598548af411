//! The weld: of the regular vertices made on one grid edge only the first stays.

use crate::{linked, Counts, Refusal};

/// What stands in the place of a grid edge's number for a vertex of a transition cell, which is given
/// none, also where it lies on one.
pub const NO_EDGE: u32 = u32::MAX;

/// Welds a mesh in its own lists and answers the new counts: of the vertices with one number in
/// `edges` only the first is kept, the kept close up in their order, and the triangles are
/// renumbered. A vertex with [`NO_EDGE`] is always kept. It takes up to 480 KiB of stack.
///
/// So many vertices, of six f32, and triangles, of three indices, are looked at. All beyond the new
/// counts stays; a refusal alters nothing. It reads no sample, so `reads` is 0.
///
/// Refusals 14 (vertices, then triangles), 23 and 17, in that order. Up to 65,536 vertices the time
/// is close to linear for extraction's lists; above, the triangles are gone over once for each
/// 65,536. For lists that are not extraction's it may grow with the square of the vertices' count.
///
/// ```
/// use sirveshan::{weld, NO_EDGE};
///
/// let mut vertices = [0.0; 24];
/// let mut triangles = [0, 1, 2, 2, 1, 3];
/// let mut edges = [7, NO_EDGE, 7, NO_EDGE];
/// let counts = weld(4, 2, &mut vertices, &mut triangles, &mut edges).unwrap();
/// assert_eq!((counts.vertices, counts.triangles), (3, 2));
/// assert_eq!(triangles, [0, 1, 0, 0, 1, 2]);
/// ```
pub fn weld(
    vertex_count: u32,
    triangle_count: u32,
    vertices: &mut [f32],
    triangles: &mut [u32],
    edges: &mut [u32],
) -> Result<Counts, Refusal> {
    // SAFETY: each pointer goes with the length of the slice it comes from, the slices live through
    // the call, and they are distinct by Rust's own rules.
    let answer = unsafe {
        linked::sirveshan_weld(
            vertex_count,
            triangle_count,
            vertices.as_mut_ptr(),
            vertices.len(),
            triangles.as_mut_ptr(),
            triangles.len(),
            edges.as_mut_ptr(),
            edges.len(),
        )
    };
    answer.refused.check()?;
    Ok(Counts { vertices: answer.vertices, triangles: answer.triangles, reads: 0 })
}
