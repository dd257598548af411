//! Binary STL files: a mesh written as one, and the corners of one's triangles.

use crate::{linked, Mesh, Refusal};

/// A triangle of an STL file: the positions of its three corners.
pub type Facet = [[f32; 3]; 3];

/// Writes a mesh as an STL file into a lent buffer and answers its length. All beyond stays; a
/// refusal alters nothing.
///
/// `vertices` has six f32 a vertex, of which the first three are its position; `triangles` three
/// indices a triangle. A last part vertex or triangle is not read.
pub fn write_stl(vertices: &[f32], triangles: &[u32], bytes: &mut [u8]) -> Result<usize, Refusal> {
    // SAFETY: each pointer goes with the length of its slice, which lives through the call.
    let answer = unsafe {
        linked::sirveshan_write_stl(
            vertices.as_ptr(),
            vertices.len(),
            triangles.as_ptr(),
            triangles.len(),
            bytes.as_mut_ptr(),
            bytes.len(),
        )
    };
    answer.refused.check()?;
    Ok(answer.length)
}

/// Reads an STL file into a lent list, nine f32 a triangle, and answers its count of triangles. All
/// beyond stays; a refusal alters nothing. Header, normals and attributes are not looked at.
pub fn read_stl(bytes: &[u8], positions: &mut [f32]) -> Result<usize, Refusal> {
    // SAFETY: each pointer goes with the length of its slice, which lives through the call.
    let answer = unsafe {
        linked::sirveshan_read_stl(
            bytes.as_ptr(),
            bytes.len(),
            positions.as_mut_ptr(),
            positions.len(),
        )
    };
    answer.refused.check()?;
    Ok(answer.triangles)
}

/// Buffers for STL files that grow to what is needed and are used again for the next one.
///
/// ```
/// use sirveshan::{Mesh, Stl};
///
/// let vertices = [[0.0; 6], [1.0, 0.0, 0.0, 0.0, 0.0, 0.0], [0.0, 1.0, 0.0, 0.0, 0.0, 0.0]];
/// let mesh = Mesh { vertices: &vertices, triangles: &[[0, 1, 2]], reads: 0, doubled: 0 };
/// let (mut written, mut read) = (Stl::new(), Stl::new());
/// let file = written.write(&mesh).unwrap();
/// assert_eq!(file.len(), 134);
/// assert_eq!(read.read(file).unwrap(), [[[0.0; 3], [1.0, 0.0, 0.0], [0.0, 1.0, 0.0]]]);
/// ```
#[derive(Clone, Debug, Default)]
pub struct Stl {
    bytes: Vec<u8>,
    facets: Vec<Facet>,
}

impl Stl {
    /// Buffers with no room yet.
    pub fn new() -> Stl {
        Stl::default()
    }

    /// The file of a mesh. Never answers refusal 14: where room is short, it is made.
    pub fn write(&mut self, mesh: &Mesh) -> Result<&[u8], Refusal> {
        let (vertices, triangles) = (mesh.vertices.as_flattened(), mesh.triangles.as_flattened());
        let length = loop {
            match write_stl(vertices, triangles, &mut self.bytes) {
                Err(Refusal { number: 14, values: [wanted, ..] }) => self.bytes.resize(wanted, 0),
                answer => break answer?,
            }
        };
        Ok(&self.bytes[..length])
    }

    /// The triangles of a file. Never answers refusal 14: where room is short, it is made.
    pub fn read(&mut self, file: &[u8]) -> Result<&[Facet], Refusal> {
        let count = loop {
            match read_stl(file, self.facets.as_flattened_mut().as_flattened_mut()) {
                Err(Refusal { number: 14, values: [wanted, ..] }) => {
                    self.facets.resize(wanted / 9, Facet::default())
                }
                answer => break answer?,
            }
        };
        Ok(&self.facets[..count])
    }
}
