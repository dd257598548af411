//! Case A and every refusal of extraction, with the buffers seen unchanged.

use sirveshan::{
    extract, neighbours_length, sample_length, store_length, Block, Counts, Header, Mesher,
    Refusal, MOST_SUBDIVISIONS,
};

/// What one call is given; each test changes the part that it is about.
#[derive(Clone)]
struct Call {
    header: Header,
    centre: Vec<f32>,
    neighbours: Vec<f32>,
    store: usize,
    vertices: usize,
    triangles: usize,
}

fn header_a() -> Header {
    let block = Block { base: [0.0; 3], size: 1.0, subdivisions: 1 };
    Header { block, mask: 0, threshold: 0.5 }
}

fn block_a() -> Block {
    header_a().block
}

fn case_a() -> Call {
    let mut centre = vec![0.0; sample_length(1)];
    centre[0] = 1.0;
    Call {
        header: header_a(),
        centre,
        neighbours: vec![],
        store: store_length(1),
        vertices: 18,
        triangles: 3,
    }
}

fn with_block(block: Block) -> Call {
    Call { header: Header { block, ..header_a() }, ..case_a() }
}

fn with_mask(mask: u8) -> Call {
    Call { header: Header { mask, ..header_a() }, ..case_a() }
}

struct Buffers {
    store: Vec<u32>,
    vertices: Vec<f32>,
    triangles: Vec<u32>,
}

/// As an f32 a NaN with a payload that nothing may lose.
const MARK: u32 = 0x7fa5_a5a5;

fn run(call: &Call) -> (Result<Counts, Refusal>, Buffers) {
    let mut buffers = Buffers {
        store: vec![MARK; call.store],
        vertices: vec![f32::from_bits(MARK); call.vertices],
        triangles: vec![MARK; call.triangles],
    };
    let answer = extract(
        &call.header,
        &call.centre,
        &call.neighbours,
        &mut buffers.store,
        &mut buffers.vertices,
        &mut buffers.triangles,
    );
    (answer, buffers)
}

fn refused(call: Call, number: u32, values: [usize; 3]) {
    let (answer, buffers) = run(&call);
    assert_eq!(answer, Err(Refusal { number, values }));
    assert!(buffers.store.iter().all(|&place| place == MARK));
    assert!(buffers.vertices.iter().all(|number| number.to_bits() == MARK));
    assert!(buffers.triangles.iter().all(|&index| index == MARK));
}

/// The next number away from 0.
fn beyond(number: f32) -> f32 {
    f32::from_bits(number.to_bits() + 1)
}

#[test]
fn case_a_comes_out_and_all_beyond_stays() {
    let call = Call { store: store_length(1) + 5, vertices: 18 + 7, triangles: 3 + 2, ..case_a() };
    let (answer, buffers) = run(&call);
    assert_eq!(answer, Ok(Counts { vertices: 3, triangles: 1, reads: 50 }));
    #[rustfmt::skip]
    let wanted = [
        0.5, 0.0, 0.0, -0.5, 0.0, 0.0,
        0.0, 0.5, 0.0, 0.0, -0.5, 0.0,
        0.0, 0.0, 0.5, 0.0, 0.0, -0.5_f32,
    ];
    let bits = |numbers: &[f32]| numbers.iter().map(|number| number.to_bits()).collect::<Vec<_>>();
    assert_eq!(bits(&buffers.vertices[..18]), bits(&wanted));
    assert_eq!(buffers.triangles[..3], [0, 1, 2]);
    assert!(buffers.store[..store_length(1)].iter().all(|&place| place < 3));
    assert!(buffers.store[store_length(1)..].iter().all(|&place| place == MARK));
    assert!(buffers.vertices[18..].iter().all(|number| number.to_bits() == MARK));
    assert!(buffers.triangles[3..].iter().all(|&index| index == MARK));
}

#[test]
fn subdivisions() {
    for n in [0, MOST_SUBDIVISIONS + 1, usize::MAX] {
        refused(with_block(Block { subdivisions: n, ..block_a() }), 1, [n, 0, 0]);
    }
}

#[test]
fn mask() {
    refused(with_mask(64), 2, [64, 0, 0]);
    refused(with_mask(255), 2, [255, 0, 0]);
}

#[test]
fn measures() {
    let too_far = beyond(1_048_576.0);
    for bad in [f32::NAN, f32::INFINITY, -too_far, too_far] {
        for axis in 0..3 {
            let mut block = block_a();
            block.base[axis] = bad;
            refused(with_block(block), 3, [axis, 0, 0]);
        }
        refused(with_block(Block { size: bad, ..block_a() }), 3, [3, 0, 0]);
        let header = Header { threshold: bad, ..header_a() };
        refused(Call { header, ..case_a() }, 3, [4, 0, 0]);
    }
    let small = f32::from_bits((1.0_f32 / 1024.0).to_bits() - 1);
    refused(with_block(Block { size: small, ..block_a() }), 3, [3, 0, 0]);
}

#[test]
fn lengths() {
    let fine = neighbours_length(1, 1);
    refused(Call { centre: vec![0.0; 31], ..case_a() }, 4, [32, 0, 0]);
    refused(Call { neighbours: vec![0.0; fine], ..with_mask(9) }, 5, [3, 0, 0]);
    refused(Call { neighbours: vec![0.0; fine + 1], ..with_mask(1) }, 6, [fine, 0, 0]);
    refused(Call { neighbours: vec![0.0], ..case_a() }, 6, [0, 0, 0]);
}

#[test]
fn samples() {
    let mut centre = case_a().centre;
    centre[31] = f32::NAN;
    refused(Call { centre, ..case_a() }, 7, [31, 0, 0]);
    let mut neighbours = vec![0.0; neighbours_length(1, 1)];
    neighbours[4] = f32::NEG_INFINITY;
    refused(Call { neighbours, ..with_mask(1) }, 7, [36, 0, 0]);
}

#[test]
fn faces() {
    // (0, 0, 0) is inside, and at the side low x it is the face's point u = 1, v = 0.
    let neighbours = vec![0.0; neighbours_length(1, 1)];
    refused(Call { neighbours, ..with_mask(1) }, 8, [0, 1, 0]);
}

#[test]
fn room() {
    refused(Call { store: store_length(1) - 1, ..case_a() }, 9, [64, 0, 0]);
    refused(Call { vertices: 17, ..case_a() }, 10, [3, 1, 0]);
    refused(Call { triangles: 2, ..case_a() }, 10, [3, 1, 0]);
}

#[test]
fn a_mesher_makes_room_and_lends_the_mesh() {
    let call = case_a();
    let mut mesher = Mesher::new();
    for _ in 0..2 {
        let mesh = mesher.extract(&call.header, &call.centre, &[]).unwrap();
        assert_eq!(mesh.vertices.len(), 3);
        assert_eq!(mesh.triangles, [[0, 1, 2]]);
    }
    let blank = vec![0.0; sample_length(1)];
    let mesh = mesher.extract(&call.header, &blank, &[]).unwrap();
    assert_eq!(mesh.vertices.len() + mesh.triangles.len(), 0);
}
