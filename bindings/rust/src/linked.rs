//! The C face of the proved library, as include/sirveshan.h declares it. Only this crate's own files call it.

use crate::{Block, Figures, Header, Refusal};

#[repr(C)]
#[derive(Clone, Copy)]
pub struct CHeader {
    base: [f32; 3],
    size: f32,
    subdivisions: usize,
    mask: u8,
    threshold: f32,
}

#[repr(C)]
pub struct CRefusal {
    number: usize,
    values: [usize; 3],
}

#[repr(C)]
pub struct Extracted {
    pub refused: CRefusal,
    pub vertices: usize,
    pub triangles: usize,
    pub reads: u64,
}

#[repr(C)]
pub struct ReadAnswer {
    pub refused: CRefusal,
    pub header: CHeader,
}

#[repr(C)]
pub struct Written {
    pub refused: CRefusal,
    pub length: usize,
}

#[repr(C)]
pub struct TrianglesRead {
    pub refused: CRefusal,
    pub triangles: usize,
}

#[repr(C)]
pub struct Mended {
    pub refused: CRefusal,
    pub changes: usize,
}

#[repr(C)]
pub struct CPoint {
    axes: [usize; 3],
}

#[repr(C)]
pub struct SamplesCut {
    pub refused: CRefusal,
    pub samples: usize,
}

#[repr(C)]
pub struct Sampled {
    pub refused: CRefusal,
    pub value: f32,
    pub kind: usize,
}

#[repr(C)]
pub struct CFigures {
    inside: u64,
    edges: [u64; 3],
    vertices: u64,
    triangles: u64,
}

#[repr(C)]
pub struct LineTold {
    pub refused: CRefusal,
    pub figures: CFigures,
    pub next: usize,
}

#[repr(C)]
pub struct TotalTold {
    pub refused: CRefusal,
    pub figures: CFigures,
}

#[repr(C)]
pub struct Welded {
    pub refused: CRefusal,
    pub vertices: usize,
    pub triangles: usize,
}

extern "C" {
    pub fn sirveshan_subdivisions(src: *const u8, length: usize) -> u64;
    pub fn sirveshan_blank(src: *const u8, length: usize) -> u64;
    pub fn sirveshan_sample(src: *const u8, length: usize, x: i32, y: i32, z: i32) -> u64;
    pub fn sirveshan_sample_kind(src: *const u8, length: usize, x: i32, y: i32, z: i32) -> Sampled;
    pub fn sirveshan_extract(
        header: CHeader,
        centre: *const f32,
        centre_length: usize,
        neighbours: *const f32,
        neighbours_length: usize,
        store: *mut u32,
        store_length: usize,
        vertices: *mut f32,
        vertices_length: usize,
        triangles: *mut u32,
        triangles_length: usize,
    ) -> Extracted;
    pub fn sirveshan_extract_whole(
        header: CHeader,
        centre: *const f32,
        centre_length: usize,
        neighbours: *const f32,
        neighbours_length: usize,
        store: *mut u32,
        store_length: usize,
        vertices: *mut f32,
        vertices_length: usize,
        triangles: *mut u32,
        triangles_length: usize,
        edges: *mut u32,
        edges_length: usize,
    ) -> Extracted;
    pub fn sirveshan_extract_layered(
        header: CHeader,
        centre: *const f32,
        centre_length: usize,
        neighbours: *const f32,
        neighbours_length: usize,
        summary: *const f32,
        summary_length: usize,
        store: *mut u32,
        store_length: usize,
        vertices: *mut f32,
        vertices_length: usize,
        triangles: *mut u32,
        triangles_length: usize,
        edges: *mut u32,
        edges_length: usize,
    ) -> Extracted;
    pub fn sirveshan_read(
        src: *const u8,
        length: usize,
        samples: *mut f32,
        samples_length: usize,
    ) -> ReadAnswer;
    pub fn sirveshan_write(
        header: CHeader,
        centre: *const f32,
        centre_length: usize,
        neighbours: *const f32,
        neighbours_length: usize,
        bytes: *mut u8,
        bytes_length: usize,
    ) -> Written;
    pub fn sirveshan_write_stl(
        vertices: *const f32,
        vertices_length: usize,
        triangles: *const u32,
        triangles_length: usize,
        bytes: *mut u8,
        bytes_length: usize,
    ) -> Written;
    pub fn sirveshan_read_stl(
        src: *const u8,
        length: usize,
        positions: *mut f32,
        positions_length: usize,
    ) -> TrianglesRead;
    pub fn sirveshan_repair(
        header: CHeader,
        centre: *mut u32,
        centre_length: usize,
        neighbours: *mut u32,
        neighbours_length: usize,
        filler: f32,
        changes: *mut u32,
        changes_length: usize,
    ) -> Mended;
    pub fn sirveshan_cut(
        src: *const u8,
        length: usize,
        sizes: CPoint,
        n: usize,
        first: CPoint,
        samples: *mut f32,
        samples_length: usize,
    ) -> SamplesCut;
    pub fn sirveshan_sheet_line(run: *const u8, length: usize, at: usize) -> LineTold;
    pub fn sirveshan_sheet_total(run: *const u8, length: usize) -> TotalTold;
    pub fn sirveshan_weld(
        vertex_count: u32,
        triangle_count: u32,
        vertices: *mut f32,
        vertices_length: usize,
        triangles: *mut u32,
        triangles_length: usize,
        edges: *mut u32,
        edges_length: usize,
    ) -> Welded;
    pub fn sirveshan_make_summary(
        n: usize,
        samples: *const f32,
        samples_length: usize,
        summary: *mut f32,
        summary_length: usize,
    ) -> CRefusal;
    pub fn sirveshan_set_sample(
        n: usize,
        samples: *mut f32,
        samples_length: usize,
        x: i32,
        y: i32,
        z: i32,
        value: f32,
        summary: *mut f32,
        summary_length: usize,
    ) -> CRefusal;
}

impl From<[usize; 3]> for CPoint {
    fn from(axes: [usize; 3]) -> CPoint {
        CPoint { axes }
    }
}

impl From<CFigures> for Figures {
    fn from(figures: CFigures) -> Figures {
        let CFigures { inside, edges, vertices, triangles } = figures;
        Figures { inside, edges, vertices, triangles }
    }
}

impl From<&Header> for CHeader {
    fn from(header: &Header) -> CHeader {
        let Header { block: Block { base, size, subdivisions }, mask, threshold } = *header;
        CHeader { base, size, subdivisions, mask, threshold }
    }
}

impl From<CHeader> for Header {
    fn from(header: CHeader) -> Header {
        let CHeader { base, size, subdivisions, mask, threshold } = header;
        Header { block: Block { base, size, subdivisions }, mask, threshold }
    }
}

impl CRefusal {
    /// The refusal, if it is one: 0 stands for none.
    pub fn check(self) -> Result<(), Refusal> {
        match self.number {
            0 => Ok(()),
            number => Err(Refusal { number: number as u32, values: self.values }),
        }
    }
}
