//! STL files: a mesh written and read back, each refusal with the lent buffer unchanged, and buffers that grow.

use sirveshan::{
    read_stl, sample_length, stl_length, write_stl, Block, Header, Mesh, Mesher, Refusal, Stl,
};

const MARK: u32 = 0x7fa5_a5a5;

/// Two triangles over four vertices, and a part of each at the end.
fn lists() -> (Vec<f32>, Vec<u32>) {
    let vertices = (0..6 * 4 + 5).map(|k| k as f32 - 9.5).collect();
    (vertices, vec![0, 1, 2, 3, 2, 0, 77, 77])
}

fn file() -> Vec<u8> {
    let (vertices, triangles) = lists();
    let mut bytes = vec![7; stl_length(2)];
    assert_eq!(write_stl(&vertices, &triangles, &mut bytes), Ok(184));
    bytes
}

fn writing_refused(triangles: &[u32], room: usize, number: u32, first: usize) {
    let mut bytes = vec![7; room];
    let wanted = Refusal { number, values: [first, 0, 0] };
    assert_eq!(write_stl(&lists().0, triangles, &mut bytes), Err(wanted));
    assert!(bytes.iter().all(|&byte| byte == 7));
}

fn reading_refused(bytes: &[u8], room: usize, number: u32, first: usize) {
    let mut positions = vec![f32::from_bits(MARK); room];
    let wanted = Refusal { number, values: [first, 0, 0] };
    assert_eq!(read_stl(bytes, &mut positions), Err(wanted));
    assert!(positions.iter().all(|number| number.to_bits() == MARK));
}

#[test]
fn the_file_is_as_the_form_says() {
    let bytes = file();
    assert!(bytes[..80].iter().all(|&byte| byte == 0));
    assert_eq!(bytes[80..84], [2, 0, 0, 0]);
    let (vertices, triangles) = lists();
    for (facet, corners) in bytes[84..].chunks(50).zip(triangles.chunks(3)) {
        let positions = corners.iter().flat_map(|&v| &vertices[6 * v as usize..][..3]);
        let wanted: Vec<u8> = positions.flat_map(|number| number.to_le_bytes()).collect();
        assert_eq!(
            (&facet[..12], &facet[12..48], &facet[48..]),
            (&[0; 12][..], &wanted[..], &[0; 2][..])
        );
    }
}

#[test]
fn all_beyond_stays() {
    let (vertices, triangles) = lists();
    let mut bytes = vec![7; 190];
    assert_eq!(write_stl(&vertices, &triangles, &mut bytes), Ok(184));
    assert_eq!(bytes[184..], [7; 6]);
    let mut positions = vec![f32::from_bits(MARK); 20];
    assert_eq!(read_stl(&file(), &mut positions), Ok(2));
    assert!(positions[18..].iter().all(|number| number.to_bits() == MARK));
}

#[test]
fn writing_refuses() {
    writing_refused(&[0, 1, 2], 133, 14, 134);
    writing_refused(&[0, 1, 4], 0, 17, 0);
    writing_refused(&[0, 1, 2, 0, u32::MAX, 4, 9, 9, 9], 500, 17, 1);
}

#[test]
fn reading_refuses() {
    let mut bytes = file();
    reading_refused(&[], 20, 16, 84);
    reading_refused(&bytes[..83], 20, 16, 84);
    reading_refused(&bytes[..183], 20, 16, 184);
    reading_refused(&bytes, 17, 14, 18);
    bytes[80..84].fill(0xff);
    reading_refused(&bytes, 20, 16, 84 + 50 * u32::MAX as usize);
}

#[test]
fn words_of_the_refusals() {
    let words = |number, first| Refusal { number, values: [first, 0, 0] }.to_string();
    assert_eq!(words(16, 84), "STL: the file needs 84 bytes (0: more triangles than 32 bits hold)");
    assert_eq!(words(17, 5), "triangle 5 names no vertex");
}

#[test]
fn buffers_grow_and_are_used_again() {
    let mut centre = vec![0.0; sample_length(1)];
    centre[0] = 1.0;
    let block = Block { base: [0.0; 3], size: 1.0, subdivisions: 1 };
    let header = Header { block, mask: 0, threshold: 0.5 };
    let (mut mesher, mut written, mut read) = (Mesher::new(), Stl::new(), Stl::new());
    let mesh = mesher.extract(&header, &centre, &[]).unwrap();
    let case_a = [[[0.5, 0.0, 0.0], [0.0, 0.5, 0.0], [0.0, 0.0, 0.5]]];
    let empty = Mesh { vertices: &[], triangles: &[], reads: 0, doubled: 0 };
    for _ in 0..2 {
        assert_eq!(read.read(written.write(&mesh).unwrap()).unwrap(), case_a);
        assert_eq!(written.write(&empty).unwrap(), [0; 84]);
        assert_eq!(read.read(&[0; 84]).unwrap(), [[[0.0; 3]; 3]; 0]);
    }
    let unnamed = Mesh { triangles: &[[0, 1, 2], [2, 1, 3]], ..mesh };
    assert_eq!(written.write(&unnamed), Err(Refusal { number: 17, values: [1, 0, 0] }));
    assert_eq!(read.read(&[0; 85]), Err(Refusal { number: 16, values: [84, 0, 0] }));
}
