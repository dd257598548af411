//! Extraction with the list of grid edges, the weld, and a mesher that does both; refusals with the lists seen unchanged.

use sirveshan::{
    extract_whole, most_triangles, most_vertices, neighbours_length, sample_length, store_length,
    weld, Block, Counts, Header, Mesher, Refusal, NO_EDGE,
};

/// A level surface between z = 0 and z = 1, with `n` subdivisions.
fn level(n: usize) -> (Header, Vec<f32>) {
    let block = Block { base: [0.0; 3], size: 1.0, subdivisions: n };
    let centre = (0..sample_length(n)).map(|place| (place % (n + 1)) as f32).collect();
    (Header { block, mask: 0, threshold: 0.5 }, centre)
}

struct Lists {
    vertices: Vec<f32>,
    triangles: Vec<u32>,
    edges: Vec<u32>,
}

/// As an f32 a NaN with a payload that nothing may lose.
const MARK: u32 = 0x7fa5_a5a5;

impl Lists {
    fn new(vertices: usize, triangles: usize, edges: usize) -> Lists {
        Lists {
            vertices: vec![f32::from_bits(MARK); vertices],
            triangles: vec![MARK; triangles],
            edges: vec![MARK; edges],
        }
    }

    fn extract(&mut self, header: &Header, centre: &[f32]) -> Result<Counts, Refusal> {
        let mut store = vec![0; store_length(header.block.subdivisions)];
        let Lists { vertices, triangles, edges } = self;
        extract_whole(header, centre, &[], &mut store, vertices, triangles, edges)
    }

    fn weld(&mut self, vertices: usize, triangles: usize) -> Result<Counts, Refusal> {
        let (held, count) = (vertices as u32, triangles as u32);
        weld(held, count, &mut self.vertices, &mut self.triangles, &mut self.edges)
    }

    /// Every bit of them.
    fn bits(&self) -> Vec<u32> {
        let floats = self.vertices.iter().map(|number| number.to_bits());
        floats.chain(self.triangles.iter().copied()).chain(self.edges.iter().copied()).collect()
    }

    fn corner(&self, place: usize) -> &[f32] {
        &self.vertices[6 * self.triangles[place] as usize..][..6]
    }
}

/// Room that is enough for a block without finer sides.
fn roomy(n: usize) -> Lists {
    Lists::new(6 * most_vertices(n, 0), 3 * most_triangles(n, 0), most_vertices(n, 0))
}

#[test]
fn one_vertex_an_edge() {
    let (header, centre) = level(4);
    let mut lists = roomy(4);
    let counts = lists.extract(&header, &centre).unwrap();
    let corners: Vec<Vec<f32>> =
        (0..3 * counts.triangles).map(|place| lists.corner(place).to_vec()).collect();
    let welded = lists.weld(counts.vertices, counts.triangles).unwrap();
    assert!(welded.vertices < counts.vertices);
    assert_eq!(welded, Counts { vertices: 25, triangles: counts.triangles, reads: 0 });
    let mut edges = lists.edges[..25].to_vec();
    edges.sort_unstable();
    edges.dedup();
    assert_eq!(edges.len(), 25);
    assert!(corners.iter().enumerate().all(|(place, six)| lists.corner(place) == six.as_slice()));
    let once = lists.bits();
    assert_eq!(lists.weld(25, counts.triangles), Ok(welded));
    assert_eq!(lists.bits(), once);
}

#[test]
fn a_mesher_welds() {
    let (mut plain, mut welding) = (Mesher::new(), Mesher::new().welded());
    for n in [5, 2, 9, 1] {
        let (header, centre) = level(n);
        let all = plain.extract(&header, &centre, &[]).unwrap();
        let mesh = welding.extract(&header, &centre, &[]).unwrap();
        assert_eq!(mesh.vertices.len(), (n + 1) * (n + 1));
        assert_eq!(mesh.doubled, all.vertices.len() - mesh.vertices.len());
        assert_eq!((mesh.reads, all.doubled), (all.reads, 0));
        assert_eq!(mesh.triangles.len(), all.triangles.len());
        for (corners, before) in mesh.triangles.iter().zip(all.triangles) {
            let six = |mesh: &[[f32; 6]], corner: u32| mesh[corner as usize];
            let same = |k: usize| six(mesh.vertices, corners[k]) == six(all.vertices, before[k]);
            assert!((0..3).all(same));
        }
    }
}

#[test]
fn transition_vertices_are_marked_and_kept() {
    let (header, centre) = level(2);
    let header = Header { mask: 1, ..header };
    // The neighbour has two points where the block has one.
    let fine: Vec<f32> =
        (0..neighbours_length(2, 1)).map(|place| (place % 5) as f32 / 2.0).collect();
    let mut lists = Lists::new(6 * most_vertices(2, 1), 3 * most_triangles(2, 1), 200);
    let mut store = vec![0; store_length(2)];
    let Lists { vertices, triangles, edges } = &mut lists;
    let counts =
        extract_whole(&header, &centre, &fine, &mut store, vertices, triangles, edges).unwrap();
    let marked = |edges: &[u32]| edges.iter().filter(|&&edge| edge == NO_EDGE).count();
    let transition = marked(&lists.edges[..counts.vertices]);
    assert!(transition > 0 && lists.edges[..11].iter().all(|&edge| edge != NO_EDGE));
    let welded = lists.weld(counts.vertices, counts.triangles).unwrap();
    assert_eq!(welded.vertices, 9 + transition);
    assert_eq!(marked(&lists.edges[..welded.vertices]), transition);
}

#[test]
fn extraction_refuses_short_edges() {
    let (header, centre) = level(2);
    let refused = |mut lists: Lists, number, values| {
        assert_eq!(lists.extract(&header, &centre), Err(Refusal { number, values }));
        assert!(lists.bits().iter().all(|&bits| bits == MARK));
    };
    refused(Lists::new(0, 0, 10), 23, [11, 0, 0]);
    refused(Lists::new(65, 24, 11), 10, [11, 8, 0]);
}

#[test]
fn the_weld_refuses() {
    let refused = |lists: [usize; 3], counts: [usize; 2], number, first| {
        let mut lists = Lists::new(lists[0], lists[1], lists[2]);
        let answer = lists.weld(counts[0], counts[1]);
        assert_eq!(answer, Err(Refusal { number, values: [first, 0, 0] }));
        assert!(lists.bits().iter().all(|&bits| bits == MARK));
    };
    refused([11, 5, 1], [2, 2], 14, 12);
    refused([12, 5, 1], [2, 2], 14, 6);
    refused([12, 6, 1], [2, 2], 23, 2);
    refused([12, 6, 2], [2, 2], 17, 0);
    refused([12, 6, 2], [u32::MAX as usize, 2], 14, 6 * u32::MAX as usize);
}

#[test]
fn words_of_the_refusal() {
    let words = Refusal { number: 23, values: [11, 0, 0] }.to_string();
    assert_eq!(words, "the list of edges needs 11 places");
}
