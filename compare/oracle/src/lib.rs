//! The Rust mesher's answer for a block: vertices, triangles and index store.

pub mod builder;
pub mod record;
pub mod sample;

use builder::Builder;
use record::{block_length, Block};
use sample::Sample;
use std::fmt::Write;
use transvoxel::implementation::algorithm::Extractor;
use transvoxel::structs::block_star_view::BlockStarView;
use transvoxel::structs::transition_sides::TransitionSide::{self, *};
use transvoxel::structs::voxel_blocks::VoxelVecBlock;

type Samples = VoxelVecBlock<f32, Sample>;

const SIDES: [TransitionSide; 6] = [LowX, HighX, LowY, HighY, LowZ, HighZ];

/// A block in the mesher's own form, ready to be meshed any number of times.
pub struct Star {
    view: BlockStarView<f32, Sample, Samples, Samples>,
    threshold: Sample,
}

impl Star {
    pub fn new(block: &Block) -> Star {
        let central = transvoxel::prelude::Block::new(block.base, block.size, block.n);
        let samples = |numbers: &[f32]| numbers.iter().copied().map(Sample).collect();
        let mut view = BlockStarView::new_simple(VoxelVecBlock {
            block: central,
            data: samples(&block.centre),
        });
        let mut parts = block.neighbours.chunks_exact(block_length(2 * block.n));
        for (place, side) in SIDES.into_iter().enumerate() {
            if block.mask >> place & 1 == 1 {
                let data = samples(parts.next().expect("a neighbour for each named side"));
                let block = central.high_res_neighbour_to(side);
                view = view.with_neighbour(VoxelVecBlock { block, data }, side);
            }
        }
        Star { view, threshold: Sample(block.threshold) }
    }

    /// The mesh alone, as the mesher gives it.
    pub fn extract(&self) -> Builder {
        Extractor::new(&self.view, self.threshold, Builder::default()).extract()
    }

    /// The mesh and the index store that it leaves.
    pub fn answer(&self) -> Answer {
        let (mesh, store) =
            Extractor::new(&self.view, self.threshold, Builder::default()).extract_with_store();
        Answer { mesh, store: store.iter().map(|index| index.0 as u32).collect() }
    }
}

pub struct Answer {
    pub mesh: Builder,
    pub store: Vec<u32>,
}

impl Answer {
    /// The text of document 01's listing program, without its limits.
    pub fn listing(&self) -> String {
        let Builder { vertices, triangles } = &self.mesh;
        let mut text = format!("mesh {} {}\n", vertices.len(), triangles.len());
        for vertex in vertices {
            text.push('v');
            for number in vertex {
                write!(text, " {:08x}", number.to_bits()).unwrap();
            }
            text.push('\n');
        }
        for [first, second, third] in triangles {
            writeln!(text, "t {first} {second} {third}").unwrap();
        }
        text
    }

    /// The index store, a place a line.
    pub fn store_text(&self) -> String {
        self.store.iter().map(|index| format!("{index}\n")).collect()
    }
}
