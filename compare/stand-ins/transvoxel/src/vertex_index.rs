//! Stand-in for structs/vertex_index.rs: a vertex's place in the vertex buffer.

#[derive(Clone, Copy, Debug, Default, PartialEq, Eq)]
pub struct VertexIndex(pub usize);
