//! Transvoxel extraction over sampled f32 blocks, proved in Rattle and linked as a static library.
//!
//! [`extract()`] is one call with lent buffers: it allocates nothing, keeps nothing and refuses by
//! number what it cannot use, with no buffer altered. [`Mesher`] keeps buffers of the right sizes
//! for a stage that meshes block after block. [`Record`] is a block with its samples, read from and
//! written to the bytes of a block record. [`viewer`] has the calls over record bytes alone. [`Stl`]
//! writes a mesh as an STL file and reads one. [`Volume`] cuts blocks from a raw volume.
//! [`sheet()`] tells the figures of each record of a run. [`repair()`] mends a damaged delivery and
//! lists what it changed. [`weld()`] takes out the vertices that were made twice, by the grid edges
//! that [`extract_whole`] tells; [`Mesher::welded`] does both. [`Summary`] keeps the least and the
//! greatest sample of each layer of a block whose samples change, and [`Mesher::extract_layered`]
//! passes over the layers that it shows to hold no surface.
//!
//! What is proved is the library below: this crate hands its slices over and names its answers.
//!
//! ```
//! use sirveshan::{Block, Header, Mesher};
//!
//! // One inside corner: document 01's case A.
//! let mut centre = vec![0.0; sirveshan::sample_length(1)];
//! centre[0] = 1.0;
//! let block = Block { base: [0.0; 3], size: 1.0, subdivisions: 1 };
//! let header = Header { block, mask: 0, threshold: 0.5 };
//! let mut mesher = Mesher::new();
//! let mesh = mesher.extract(&header, &centre, &[]).unwrap();
//! assert_eq!(mesh.vertices[0], [0.5, 0.0, 0.0, -0.5, 0.0, 0.0]);
//! assert_eq!(mesh.triangles, [[0, 1, 2]]);
//! ```
//!
//! A sample at or above the threshold is inside. Seen from outside a triangle's corners run
//! counter-clockwise. A vertex's gradient points to where samples grow, so on a smooth face inward;
//! it is not divided by the grid's step and not of unit length.
#![warn(missing_docs)]

mod block;
mod extract;
mod lengths;
mod linked;
mod mesher;
mod record;
mod refusal;
mod refusals;
mod repair;
mod sheet;
mod stl;
mod summary;
pub mod viewer;
mod volume;
mod weld;

pub use block::{Block, Header, Side};
pub use extract::{extract, extract_layered, extract_whole, Counts};
pub use lengths::{
    most_reads, most_triangles, most_vertices, neighbours_length, record_length, sample_length,
    sample_place, sample_point, stl_length, store_length, summary_length, volume_length,
    MOST_ACROSS, MOST_RUN, MOST_SIZE, MOST_SUBDIVISIONS, RECORD_HEADER, STL_HEADER, STL_TRIANGLE,
};
pub use mesher::{Mesh, Mesher};
pub use record::{read_record, write_record, Record};
pub use refusal::Refusal;
pub use repair::{repair, Change};
pub use sheet::{sheet, sheet_line, sheet_total, Figures, SheetLine, SheetLines};
pub use stl::{read_stl, write_stl, Facet, Stl};
pub use summary::{make_summary, set_sample, Summary};
pub use volume::{cut_block, Volume};
pub use weld::{weld, NO_EDGE};

/// The examples of docs/API.md are tests too.
#[cfg(doctest)]
#[doc = include_str!("../../../docs/API.md")]
mod api_page {}
