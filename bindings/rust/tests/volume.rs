//! Blocks cut from a raw volume: each sample the nearest, blocks side by side, a block with finer neighbours from a volume of
//! twice the resolution, each refusal with the lent list unchanged.

use sirveshan::{
    cut_block, sample_length, sample_place, volume_length, Block, Header, Mesher, Record, Refusal,
    Volume, MOST_SUBDIVISIONS,
};

const MARK: u32 = 0x7fa5_a5a5;
const SIZES: [usize; 3] = [7, 5, 6];

/// Each sample tells its place.
fn bytes() -> Vec<u8> {
    (0..7 * 5 * 6).flat_map(|k| (k as f32).to_le_bytes()).collect()
}

fn points(n: usize) -> impl Iterator<Item = [i32; 3]> {
    let n = n as i32;
    let span = move || -1..=n + 1;
    let plane = span().flat_map(move |x| span().map(move |y| (x, y)));
    let points = plane.flat_map(move |(x, y)| span().map(move |z| [x, y, z]));
    points.filter(move |&point| sample_place(n as usize, point).is_some())
}

fn nearest(first: [usize; 3], point: [i32; 3]) -> f32 {
    let at = |axis: usize| (first[axis] as i32 + point[axis]).clamp(0, SIZES[axis] as i32 - 1);
    (at(0) + SIZES[0] as i32 * (at(1) + SIZES[1] as i32 * at(2))) as f32
}

fn refused(
    volume: &[u8],
    sizes: [usize; 3],
    n: usize,
    first: [usize; 3],
    room: usize,
    wanted: [usize; 2],
) {
    let mut samples = vec![f32::from_bits(MARK); room];
    let refusal = Refusal { number: wanted[0] as u32, values: [wanted[1], 0, 0] };
    assert_eq!(cut_block(volume, sizes, n, first, &mut samples), Err(refusal));
    assert!(samples.iter().all(|sample| sample.to_bits() == MARK));
}

#[test]
fn each_sample_is_the_nearest() {
    let bytes = bytes();
    assert_eq!(bytes.len(), volume_length(SIZES));
    let volume = Volume::new(&bytes, SIZES);
    for n in [1, 2, 3, 16, MOST_SUBDIVISIONS] {
        for first in [[0, 0, 0], [3, 2, 4], [6, 4, 5], [0, 4, 2]] {
            let samples = volume.cut(n, first).unwrap();
            assert_eq!(samples.len(), sample_length(n));
            for point in points(n) {
                assert_eq!(samples[sample_place(n, point).unwrap()], nearest(first, point));
            }
        }
    }
}

#[test]
fn all_beyond_stays() {
    let mut samples = vec![f32::from_bits(MARK); sample_length(2) + 9];
    assert_eq!(cut_block(&bytes(), SIZES, 2, [1, 1, 1], &mut samples), Ok(sample_length(2)));
    assert!(samples[sample_length(2)..].iter().all(|sample| sample.to_bits() == MARK));
}

/// On the common face, and a layer before and after it: so the gradients agree there too.
#[test]
fn blocks_side_by_side_agree() {
    const N: i32 = 2;
    let bytes = bytes();
    let volume = Volume::new(&bytes, SIZES);
    for first in [[0, 0, 0], [1, 2, 3], [4, 2, 3]] {
        for axis in 0..3 {
            let mut onward = first;
            onward[axis] += N as usize;
            let (one, next) = (volume.cut(2, first).unwrap(), volume.cut(2, onward).unwrap());
            for (step, u, v) in (-1..=1).flat_map(|s| (0..9).map(move |k| (s, k / 3, k % 3))) {
                let at = |along| {
                    let point = [[along, u, v], [u, along, v], [u, v, along]][axis];
                    sample_place(2, point).unwrap()
                };
                assert_eq!(one[at(N + step)], next[at(step)]);
            }
        }
    }
}

/// A volume of twice the resolution: at even points the samples are those of the volume above.
fn finer(sizes: [usize; 3]) -> Vec<u8> {
    let sample = |place: usize| {
        let [x, y, z] =
            [place % sizes[0], place / sizes[0] % sizes[1], place / sizes[0] / sizes[1]];
        if [x, y, z].iter().all(|along| along % 2 == 0) {
            return nearest([x / 2, y / 2, z / 2], [0; 3]);
        }
        ((59 * x + 31 * y + 83 * z) % 211) as f32
    };
    (0..sizes.iter().product()).flat_map(|place| sample(place).to_le_bytes()).collect()
}

#[test]
fn finer_neighbours_from_twice_the_resolution_pass() {
    let (bytes, first) = (bytes(), [2, 2, 2]);
    let centre = Volume::new(&bytes, SIZES).cut(2, first).unwrap();
    for sizes in [[13, 9, 11], [14, 10, 12]] {
        let bytes = finer(sizes);
        let fine = Volume::new(&bytes, sizes);
        let mut neighbours = vec![];
        for (axis, beyond) in [(0, 0), (0, 4), (1, 0), (1, 4), (2, 0), (2, 4)] {
            let mut start = first;
            start[axis] = beyond;
            neighbours.extend(fine.cut(4, start.map(|along| 2 * along)).unwrap());
        }
        let block = Block { base: [0.0; 3], size: 2.0, subdivisions: 2 };
        let header = Header { block, mask: 63, threshold: 99.5 };
        let record = Record::new(header, centre.clone(), neighbours);
        assert!(!Mesher::new().mesh(&record).unwrap().triangles.is_empty());
    }
}

#[test]
fn blocks_of_the_whole_volume_begin_a_side_apart_and_pass() {
    let bytes = bytes();
    let volume = Volume::new(&bytes, SIZES);
    let firsts: Vec<[usize; 3]> = volume.first_points(2).collect();
    assert_eq!(firsts.len(), 3 * 2 * 3);
    assert_eq!(firsts[..4], [[0, 0, 0], [2, 0, 0], [4, 0, 0], [0, 2, 0]]);
    for first in firsts {
        let block = Block { base: first.map(|at| at as f32), size: 2.0, subdivisions: 2 };
        let header = Header { block, mask: 0, threshold: 99.5 };
        assert!(Record::new(header, volume.cut(2, first).unwrap(), vec![]).write().is_ok());
    }
    assert_eq!(Volume::new(&[], [1, 1, 1]).first_points(4).collect::<Vec<_>>(), [[0, 0, 0]]);
    assert_eq!(Volume::new(&[], [0, 5, 6]).first_points(0).count(), 20);
}

#[test]
fn refusals_in_their_order() {
    let good = bytes();
    let mut bad = good.clone();
    bad[4 * 9..4 * 10].copy_from_slice(&f32::NAN.to_le_bytes());
    bad[4 * 43..4 * 44].copy_from_slice(&1048577.0f32.to_le_bytes());
    refused(&[], [0; 3], 0, [9; 3], 0, [1, 0]);
    refused(&[], [0; 3], MOST_SUBDIVISIONS + 1, [9; 3], 0, [1, MOST_SUBDIVISIONS + 1]);
    refused(&[], [0, 5, 6], 1, [9; 3], 0, [20, 0]);
    refused(&good, [7, 5, 1025], 1, [9; 3], 0, [20, 0]);
    refused(&good, [7, 5, usize::MAX], 1, [9; 3], 0, [20, 0]);
    refused(&good[1..], SIZES, 1, [9; 3], 0, [21, 0]);
    refused(&good, [7, 5, 5], 1, [9; 3], 0, [21, 0]);
    refused(&bad, SIZES, 1, [7, 0, 0], 0, [22, 0]);
    refused(&bad, SIZES, 1, [0, 0, 6], 0, [22, 0]);
    refused(&bad, SIZES, 1, [usize::MAX; 3], 0, [22, 0]);
    // Both are taken at (1, 0, 0): z = 1 comes before x = 2 in the block's order.
    refused(&bad, SIZES, 1, [1, 0, 0], 0, [7, 43]);
    refused(&bad, SIZES, 1, [2, 1, 0], 0, [7, 9]);
    refused(&good, SIZES, 2, [0; 3], 80, [14, 81]);
}
