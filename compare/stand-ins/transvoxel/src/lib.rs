//! Stand-in for the mesher's module roots: lib.rs, the three mod.rs and the
//! prelude.  Every file under compare/transvoxel is compiled as it stands.

#[rustfmt::skip]
#[path = "../../../transvoxel/src/traits"]
pub mod traits {
    pub mod coordinate;
    pub mod data_field;
    pub mod mesh_builder;
    pub mod voxel_block;
    pub mod voxel_data;
}

#[rustfmt::skip]
#[path = "../../../transvoxel/src/structs"]
pub mod structs {
    pub mod block;
    pub mod block_star_view;
    pub mod generic_mesh;
    pub mod grid_point;
    pub mod position;
    pub mod transition_sides;
    pub mod voxel_blocks;
    pub mod voxel_index;

    #[path = "../../../stand-ins/transvoxel/src/vertex_index.rs"]
    pub mod vertex_index;
}

#[rustfmt::skip]
#[path = "../../../transvoxel/src/implementation"]
pub mod implementation {
    pub mod aux_tables;
    pub mod rotation;
    pub mod tables_wrapper;
    pub mod voxel_coordinates;

    /// algorithm.rs, with one more way to end an extraction beside its own.
    pub mod algorithm {
        include!("../../../transvoxel/src/implementation/algorithm.rs");
        include!("index_store.rs");
    }
}

pub mod prelude {
    pub use crate::structs::block::Block;
    pub use crate::structs::transition_sides::{TransitionSide, TransitionSides};
}
