//! Summaries by layer: the least and the greatest sample of each layer of cells along x.

use crate::{linked, summary_length, Refusal, MOST_SUBDIVISIONS};

/// Makes the summary of a block's samples in the first places of a lent list, two f32 a layer. All
/// beyond stays; a refusal alters nothing.
pub fn make_summary(
    subdivisions: usize,
    samples: &[f32],
    summary: &mut [f32],
) -> Result<(), Refusal> {
    // SAFETY: each pointer goes with the length of its slice, which lives through the call.
    let refused = unsafe {
        linked::sirveshan_make_summary(
            subdivisions,
            samples.as_ptr(),
            samples.len(),
            summary.as_mut_ptr(),
            summary.len(),
        )
    };
    refused.check()
}

/// Sets the sample of a grid point, and makes each layer that holds the point afresh in a lent
/// summary, marked or not. All other samples and layers stay; a refusal alters nothing.
pub fn set_sample(
    subdivisions: usize,
    samples: &mut [f32],
    [x, y, z]: [i32; 3],
    value: f32,
    summary: &mut [f32],
) -> Result<(), Refusal> {
    // SAFETY: each pointer goes with the length of its slice, which lives through the call; the two
    // slices are borrowed apart.
    let refused = unsafe {
        linked::sirveshan_set_sample(
            subdivisions,
            samples.as_mut_ptr(),
            samples.len(),
            x,
            y,
            z,
            value,
            summary.as_mut_ptr(),
            summary.len(),
        )
    };
    refused.check()
}

/// The summary of a block's samples, kept beside them.
///
/// ```
/// use sirveshan::Summary;
///
/// let mut samples = vec![-1.0; sirveshan::sample_length(2)];
/// let mut summary = Summary::make(2, &samples).unwrap();
/// assert_eq!(summary.layer(1), Some([-1.0, -1.0]));
/// summary.set(&mut samples, [2, 0, 0], 3.5).unwrap();
/// assert_eq!([summary.layer(0), summary.layer(1)], [Some([-1.0, -1.0]), Some([-1.0, 3.5])]);
/// ```
#[derive(Clone, Debug)]
pub struct Summary {
    subdivisions: usize,
    extents: Vec<f32>,
}

impl Summary {
    /// The summary of the samples of a block of `subdivisions`. Never answers refusal 14.
    pub fn make(subdivisions: usize, samples: &[f32]) -> Result<Summary, Refusal> {
        let mut extents = vec![0.0; summary_length(subdivisions.min(MOST_SUBDIVISIONS))];
        make_summary(subdivisions, samples, &mut extents)?;
        Ok(Summary { subdivisions, extents })
    }

    /// Sets one of the samples that this is the summary of, and brings the layers that hold the
    /// point up to date.
    pub fn set(&mut self, samples: &mut [f32], point: [i32; 3], value: f32) -> Result<(), Refusal> {
        set_sample(self.subdivisions, samples, point, value, &mut self.extents)
    }

    /// The least and the greatest sample of the layer x: none where it is marked, and for a layer
    /// that the block does not have.
    pub fn layer(&self, x: usize) -> Option<[f32; 2]> {
        let extent = self.extents.chunks_exact(2).nth(x)?;
        let extent = [extent[0], extent[1]];
        extent.iter().all(|number| !number.is_nan()).then_some(extent)
    }

    /// As it is lent: two f32 a layer.
    pub fn as_slice(&self) -> &[f32] {
        &self.extents
    }

    /// The same, to be marked: a NaN in either f32 says that a layer is not worked out. Write one into
    /// each layer that holds a sample which is to change by other means than [`Summary::set`]; the
    /// planes 1 to n - 1 are in two layers each.
    pub fn as_mut_slice(&mut self) -> &mut [f32] {
        &mut self.extents
    }
}
