//! Stand-in for the crate `transvoxel_data`: the project's own tables, written
//! as Rust arrays by build.rs from the numbers in tools/tables.

/// A class: how many vertices and triangles, and each triangle's three corners.
#[derive(Clone, Copy)]
pub struct CellData<const CORNERS: usize> {
    pub counts: u8,
    pub vertex_index: [u8; CORNERS],
}

impl<const CORNERS: usize> CellData<CORNERS> {
    pub fn get_vertex_count(&self) -> u8 {
        self.counts >> 4
    }
    pub fn get_triangle_count(&self) -> u8 {
        self.counts & 0x0F
    }
}

include!(concat!(env!("OUT_DIR"), "/tables.rs"));
