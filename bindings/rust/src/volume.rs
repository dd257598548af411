//! Raw volumes: one flat list of f32, little-endian, x fastest, and the blocks that are cut from it.

use crate::{linked, sample_length, Refusal, MOST_SUBDIVISIONS};

/// Cuts a block out of a raw volume into a lent list and answers the number of its samples. All
/// beyond stays; a refusal alters nothing.
///
/// The volume's point `first` becomes the block's (0, 0, 0). A point beyond the volume takes the
/// nearest of the volume's samples.
pub fn cut_block(
    volume: &[u8],
    sizes: [usize; 3],
    subdivisions: usize,
    first: [usize; 3],
    samples: &mut [f32],
) -> Result<usize, Refusal> {
    // SAFETY: each pointer goes with the length of its slice, which lives through the call.
    let answer = unsafe {
        linked::sirveshan_cut(
            volume.as_ptr(),
            volume.len(),
            sizes.into(),
            subdivisions,
            first.into(),
            samples.as_mut_ptr(),
            samples.len(),
        )
    };
    answer.refused.check()?;
    Ok(answer.samples)
}

/// The bytes of a raw volume with its sizes along x, y and z. Nothing is judged until it is cut.
///
/// ```
/// use sirveshan::{sample_place, Volume};
///
/// let bytes: Vec<u8> = (0..60).flat_map(|k| (k as f32).to_le_bytes()).collect();
/// let volume = Volume::new(&bytes, [4, 3, 5]);
/// let samples = volume.cut(2, [2, 0, 0]).unwrap();
/// assert_eq!(samples[0], 2.0);
/// assert_eq!(samples[sample_place(2, [1, 2, 0]).unwrap()], 11.0);
/// assert_eq!(volume.first_points(2).count(), 4);
/// ```
#[derive(Clone, Copy, Debug)]
pub struct Volume<'a> {
    bytes: &'a [u8],
    sizes: [usize; 3],
}

impl<'a> Volume<'a> {
    /// A volume of these bytes.
    pub fn new(bytes: &'a [u8], sizes: [usize; 3]) -> Volume<'a> {
        Volume { bytes, sizes }
    }

    /// The samples of the block that begins at `first`. Never answers refusal 14: the room is made.
    pub fn cut(&self, subdivisions: usize, first: [usize; 3]) -> Result<Vec<f32>, Refusal> {
        // More subdivisions than that are refused before any room is looked at.
        let mut samples = vec![0.0; sample_length(subdivisions.min(MOST_SUBDIVISIONS))];
        cut_block(self.bytes, self.sizes, subdivisions, first, &mut samples)?;
        Ok(samples)
    }

    /// Where the blocks of the whole volume begin, side by side, x fastest: together they have every
    /// cell, and the last ones along an axis may reach beyond the volume.
    pub fn first_points(&self, subdivisions: usize) -> impl Iterator<Item = [usize; 3]> {
        let step = subdivisions.max(1);
        let [x, y, z] = self.sizes.map(|size| size.saturating_sub(1).div_ceil(step).max(1));
        (0..z).flat_map(move |c| {
            (0..y).flat_map(move |b| (0..x).map(move |a| [a * step, b * step, c * step]))
        })
    }
}
