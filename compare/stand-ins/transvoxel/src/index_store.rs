// Included after algorithm.rs, in its module: the mesher keeps its index store
// to itself, and only here can it be handed out with that file unchanged.

impl<C, V, CentralBlock, DenserNeighbourBlock, M>
    Extractor<'_, C, V, CentralBlock, DenserNeighbourBlock, M>
where
    C: Coordinate,
    V: VoxelData,
    CentralBlock: VoxelBlock<C, V>,
    DenserNeighbourBlock: VoxelBlock<C, V>,
    M: MeshBuilder<V, C>,
{
    /// `extract`, which also gives the index store: regular places, then transition places.
    pub fn extract_with_store(mut self) -> (M, Vec<VertexIndex>) {
        self.extract_regular_cells();
        self.extract_transition_cells();
        let SharedVertexIndices { regular, transition, .. } = self.shared_storage;
        (self.mesh_builder, [regular, transition].concat())
    }
}
