//! Lengths of lists and places in them. None of these panics: what does not fit a `usize` answers `usize::MAX`,
//! which no call accepts as a length.

use crate::Header;

/// The most subdivisions that a block may have.
pub const MOST_SUBDIVISIONS: usize = 64;

/// The most that a sample, a threshold, a coordinate of a base or a block's size may be in size. A sample beyond it is bad, as
/// one that is not finite is.
pub const MOST_SIZE: f32 = 1_048_576.0;

/// The bytes of a record before its samples.
pub const RECORD_HEADER: usize = 27;

/// The bytes of an STL file before its triangles.
pub const STL_HEADER: usize = 84;

/// The bytes of a triangle in an STL file.
pub const STL_TRIANGLE: usize = 50;

/// The largest size of a raw volume along an axis.
pub const MOST_ACROSS: usize = 1024;

/// The most bytes of a run that has a sheet.
pub const MOST_RUN: usize = 1_073_741_824;

/// How many samples a block of `subdivisions` has: the points of its grid, and one more layer at
/// each of its six faces.
///
/// ```
/// assert_eq!(sirveshan::sample_length(2), 81);
/// ```
pub fn sample_length(subdivisions: usize) -> usize {
    let m = subdivisions.saturating_add(1);
    m.saturating_mul(m).saturating_mul(m.saturating_add(6))
}

/// How many samples the finer neighbours at the sides of `mask` have together.
pub fn neighbours_length(subdivisions: usize, mask: u8) -> usize {
    sides(mask).saturating_mul(sample_length(subdivisions.saturating_mul(2)))
}

/// How many places of the index store a block of `subdivisions` uses.
pub fn store_length(subdivisions: usize) -> usize {
    let n = subdivisions;
    let square = n.saturating_mul(n);
    square.saturating_mul(n.saturating_mul(4).saturating_add(60))
}

/// How many f32 the summary by layer of a block of `subdivisions` has.
pub fn summary_length(subdivisions: usize) -> usize {
    subdivisions.saturating_mul(2)
}

/// How many bytes the record of such a block has.
pub fn record_length(subdivisions: usize, mask: u8) -> usize {
    let samples = sample_length(subdivisions).saturating_add(neighbours_length(subdivisions, mask));
    samples.saturating_mul(4).saturating_add(RECORD_HEADER)
}

/// How many bytes the STL file of so many triangles has.
pub fn stl_length(triangles: usize) -> usize {
    triangles.saturating_mul(STL_TRIANGLE).saturating_add(STL_HEADER)
}

/// How many bytes a raw volume of these sizes has.
pub fn volume_length(sizes: [usize; 3]) -> usize {
    sizes.into_iter().fold(4, usize::saturating_mul)
}

/// How many sides `mask` names.
fn sides(mask: u8) -> usize {
    (mask & 63).count_ones() as usize
}

/// As many vertices as such a block has at most, as is proved (`Enough` in crates/promises): 3n (n² + 4n − 1), and
/// 4n (2n + 1) more for each side of `mask`.
///
/// ```
/// assert_eq!(sirveshan::most_vertices(64, 63), 1_033_536);
/// ```
pub fn most_vertices(subdivisions: usize, mask: u8) -> usize {
    let n = subdivisions;
    let layers = n.saturating_mul(n.saturating_add(4)).saturating_sub(1);
    let side = n.saturating_mul(n.saturating_mul(2).saturating_add(1)).saturating_mul(4);
    n.saturating_mul(layers).saturating_mul(3).saturating_add(sides(mask).saturating_mul(side))
}

/// As many triangles as such a block has at most, as is proved (`Enough` in crates/promises): 5n³, and 12n² more for
/// each side of `mask`.
///
/// ```
/// assert_eq!(sirveshan::most_triangles(64, 63), 1_605_632);
/// ```
pub fn most_triangles(subdivisions: usize, mask: u8) -> usize {
    let n = subdivisions;
    let most = n.saturating_mul(5).saturating_add(12 * sides(mask));
    n.saturating_mul(n).saturating_mul(most)
}

/// As many sample reads as extraction reports at most, as is proved (`Reads` in crates/promises): 50n³ + 168n² − 42n, and
/// 121n² + 56n more for each side of `mask`.
///
/// ```
/// assert_eq!(sirveshan::most_reads(64, 63), 16_787_840);
/// ```
pub fn most_reads(subdivisions: usize, mask: u8) -> u64 {
    let n = subdivisions;
    let cells =
        n.saturating_mul(8).saturating_add(9 * sides(mask)).saturating_mul(n.saturating_mul(n));
    cells.saturating_add(most_vertices(n, mask).saturating_mul(14)) as u64
}

/// Where the sample of a grid point stands among the samples of its block. Coordinates are 0 to
/// `subdivisions`; one of the three may be a step outside. Any other point was never sampled.
///
/// ```
/// assert_eq!(sirveshan::sample_place(2, [1, 2, 0]), Some(15));
/// assert_eq!(sirveshan::sample_place(2, [-1, 1, 2]), Some(32));
/// assert_eq!(sirveshan::sample_place(2, [-1, -1, 0]), None);
/// ```
pub fn sample_place(subdivisions: usize, point: [i32; 3]) -> Option<usize> {
    let m = subdivisions.checked_add(1)?;
    let within = |k: i32| usize::try_from(k).ok().filter(|&k| k < m);
    let coordinates = point.map(within);
    let nested = |a: usize, b: usize, c: usize| {
        a.checked_mul(m)?.checked_add(b)?.checked_mul(m)?.checked_add(c)
    };
    match coordinates {
        [Some(x), Some(y), Some(z)] => nested(x, y, z),
        [None, Some(i), Some(j)] => nested(m.checked_add(face(m, 0, point[0])?)?, i, j),
        [Some(i), None, Some(j)] => nested(m.checked_add(face(m, 1, point[1])?)?, i, j),
        [Some(i), Some(j), None] => nested(m.checked_add(face(m, 2, point[2])?)?, i, j),
        _ => None,
    }
}

/// Which of the six faces a coordinate that lies outside is on, if it is one step outside.
fn face(m: usize, axis: usize, coordinate: i32) -> Option<usize> {
    match coordinate {
        -1 => Some(2 * axis),
        above if usize::try_from(above) == Ok(m) => Some(2 * axis + 1),
        _ => None,
    }
}

/// The grid point whose sample stands at a place: the other way round from [`sample_place`].
///
/// ```
/// assert_eq!(sirveshan::sample_point(2, 15), Some([1, 2, 0]));
/// assert_eq!(sirveshan::sample_point(2, 32), Some([-1, 1, 2]));
/// assert_eq!(sirveshan::sample_point(2, 81), None);
/// ```
pub fn sample_point(subdivisions: usize, place: usize) -> Option<[i32; 3]> {
    if place >= sample_length(subdivisions) {
        return None;
    }
    let m = subdivisions.checked_add(1)?;
    let last = i32::try_from(m).ok()?;
    let [layer, i, j] = [place / m / m, place / m % m, place % m].map(|k| k as i32);
    Some(match layer - last {
        0 => [-1, i, j],
        1 => [last, i, j],
        2 => [i, -1, j],
        3 => [i, last, j],
        4 => [i, j, -1],
        5 => [i, j, last],
        _ => [layer, i, j],
    })
}

impl Header {
    /// How many samples the block itself has.
    pub fn centre_length(&self) -> usize {
        sample_length(self.block.subdivisions)
    }

    /// How many samples its finer neighbours have together.
    pub fn neighbours_length(&self) -> usize {
        neighbours_length(self.block.subdivisions, self.mask)
    }
}
