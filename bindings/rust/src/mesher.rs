//! Extraction with buffers that are kept.

use crate::{extract, extract_layered, extract_whole, weld};
use crate::{Counts, Header, Record, Refusal, Summary};

/// A mesh that a [`Mesher`] lends out.
#[derive(Clone, Copy, Debug, PartialEq)]
pub struct Mesh<'a> {
    /// Position x, y, z and gradient x, y, z of each vertex.
    pub vertices: &'a [[f32; 6]],
    /// Three vertex indices for each triangle.
    pub triangles: &'a [[u32; 3]],
    /// The sample reads that it took, as [`Counts`] tells them.
    pub reads: u64,
    /// How many vertices were doubled, and are no more: 0 where nothing was welded.
    pub doubled: usize,
}

/// Buffers that grow to what the blocks need and are used again for the next block.
#[derive(Clone, Debug, Default)]
pub struct Mesher {
    store: Vec<u32>,
    vertices: Vec<[f32; 6]>,
    triangles: Vec<[u32; 3]>,
    edges: Vec<u32>,
    welds: bool,
}

impl Mesher {
    /// A mesher with no room yet.
    pub fn new() -> Mesher {
        Mesher::default()
    }

    /// The same, and each mesh is welded: of the regular vertices made on one grid edge only the
    /// first stays. The surface is the same, corner by corner and bit for bit. The vertices of
    /// transition cells stay, so by index the mesh stays open along a finer face. The weld takes up
    /// to 480 KiB of stack.
    ///
    /// ```
    /// use sirveshan::{sample_length, Block, Header, Mesher};
    ///
    /// // A level surface that nine grid edges cross; two of them were given a vertex twice.
    /// let centre: Vec<f32> = (0..sample_length(2)).map(|place| (place % 3) as f32).collect();
    /// let block = Block { base: [0.0; 3], size: 1.0, subdivisions: 2 };
    /// let header = Header { block, mask: 0, threshold: 0.5 };
    /// let mut mesher = Mesher::new().welded();
    /// let mesh = mesher.extract(&header, &centre, &[]).unwrap();
    /// assert_eq!((mesh.vertices.len(), mesh.doubled, mesh.triangles.len()), (9, 2, 8));
    /// ```
    pub fn welded(self) -> Mesher {
        Mesher { welds: true, ..self }
    }

    /// Meshes the block of a record.
    pub fn mesh(&mut self, record: &Record) -> Result<Mesh<'_>, Refusal> {
        self.extract(&record.header, &record.centre, &record.neighbours)
    }

    /// Meshes a block. Never answers refusal 9, 10 or 23: where room is short, it is made.
    pub fn extract(
        &mut self,
        header: &Header,
        centre: &[f32],
        neighbours: &[f32],
    ) -> Result<Mesh<'_>, Refusal> {
        self.extract_by(header, centre, neighbours, None)
    }

    /// The same, and layers that a summary of the centre's samples shows to lie on one side of the
    /// threshold are passed over: the mesh is the same, its reads are fewer by eight for each cell
    /// passed over. Answers refusal 14 for a summary of too few layers, and 26 for one with a layer that
    /// differs in value from one made afresh.
    ///
    /// ```
    /// use sirveshan::{sample_length, sample_place, Block, Header, Mesher, Summary};
    ///
    /// // A surface in the last of four layers.
    /// let mut centre = vec![-1.0; sample_length(4)];
    /// centre[sample_place(4, [4, 2, 2]).unwrap()] = 1.0;
    /// let summary = Summary::make(4, &centre).unwrap();
    /// let block = Block { base: [0.0; 3], size: 1.0, subdivisions: 4 };
    /// let header = Header { block, mask: 0, threshold: 0.0 };
    /// let mut mesher = Mesher::new();
    /// let reads = mesher.extract(&header, &centre, &[]).unwrap().reads;
    /// let fewer = mesher.extract_layered(&header, &centre, &[], &summary).unwrap().reads;
    /// assert_eq!(reads - fewer, 3 * 8 * 4 * 4);
    /// ```
    pub fn extract_layered(
        &mut self,
        header: &Header,
        centre: &[f32],
        neighbours: &[f32],
        summary: &Summary,
    ) -> Result<Mesh<'_>, Refusal> {
        self.extract_by(header, centre, neighbours, Some(summary.as_slice()))
    }

    fn extract_by(
        &mut self,
        header: &Header,
        centre: &[f32],
        neighbours: &[f32],
        summary: Option<&[f32]>,
    ) -> Result<Mesh<'_>, Refusal> {
        let counts = loop {
            match self.try_extract(header, centre, neighbours, summary) {
                Err(Refusal { number: 9, values: [places, ..] }) => self.store.resize(places, 0),
                Err(Refusal { number: 23, values: [places, ..] }) => self.edges.resize(places, 0),
                Err(Refusal { number: 10, values: [vertices, triangles, _] }) => {
                    self.make_room(vertices, triangles)
                }
                answer => break answer?,
            }
        };
        let kept = if self.welds { self.weld(counts)? } else { counts };
        Ok(Mesh {
            vertices: &self.vertices[..kept.vertices],
            triangles: &self.triangles[..kept.triangles],
            reads: counts.reads,
            doubled: counts.vertices - kept.vertices,
        })
    }

    fn try_extract(
        &mut self,
        header: &Header,
        centre: &[f32],
        neighbours: &[f32],
        summary: Option<&[f32]>,
    ) -> Result<Counts, Refusal> {
        let Mesher { store, vertices, triangles, edges, welds } = self;
        let (vertices, triangles) = (vertices.as_flattened_mut(), triangles.as_flattened_mut());
        if let Some(told) = summary {
            return extract_layered(
                header, centre, neighbours, told, store, vertices, triangles, edges,
            );
        }
        if *welds {
            return extract_whole(header, centre, neighbours, store, vertices, triangles, edges);
        }
        extract(header, centre, neighbours, store, vertices, triangles)
    }

    /// A mesh of a block is never refused here: its counts fit 32 bits and its corners name vertices.
    fn weld(&mut self, Counts { vertices, triangles, .. }: Counts) -> Result<Counts, Refusal> {
        weld(
            vertices as u32,
            triangles as u32,
            self.vertices.as_flattened_mut(),
            self.triangles.as_flattened_mut(),
            &mut self.edges,
        )
    }

    fn make_room(&mut self, vertices: usize, triangles: usize) {
        self.vertices.resize(vertices.max(self.vertices.len()), [0.0; 6]);
        self.triangles.resize(triangles.max(self.triangles.len()), [0; 3]);
    }
}
