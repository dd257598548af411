//! A block from a seed, for comparisons.  Every block passes document 01's
//! refusals 1 to 8; the seeds of any run of 64 meet every mask.

mod field;
mod random;
pub mod seeds;

use field::{Field, Point, LIMIT};
use oracle::record::Block;
use random::Random;
use seeds::Sizes;

/// The points of a block of `n` subdivisions, in the order of their places.
pub fn points(n: i64) -> impl Iterator<Item = [i64; 3]> {
    let in_block =
        (0..=n).flat_map(move |x| (0..=n).flat_map(move |y| (0..=n).map(move |z| [x, y, z])));
    let faces = (0..6).flat_map(move |side| {
        (0..=n).flat_map(move |i| {
            (0..=n).map(move |j| face_point(side, if side & 1 == 0 { -1 } else { n + 1 }, i, j))
        })
    });
    in_block.chain(faces)
}

/// The point whose coordinate across a side is `across`, the other two being i and j.
fn face_point(side: usize, across: i64, i: i64, j: i64) -> Point {
    match side / 2 {
        0 => [across, i, j],
        1 => [i, across, j],
        _ => [i, j, across],
    }
}

fn place_in_block(n: i64, [x, y, z]: Point) -> usize {
    let m = n + 1;
    (m * m * x + m * y + z) as usize
}

/// A neighbour's samples, taken where it lies; where a point of the common face
/// would be on another side of the threshold, it takes the centre's sample.
fn neighbour(
    field: &Field,
    n: i64,
    side: usize,
    salt: u64,
    centre: &[f32],
    threshold: f32,
) -> Vec<f32> {
    let mut origin = [0; 3];
    origin[side / 2] = if side & 1 == 0 { -2 * n } else { 2 * n };
    let place = |point: Point| std::array::from_fn(|k| point[k] + origin[k]);
    let mut samples: Vec<f32> = points(2 * n).map(|point| field.at(place(point), salt)).collect();
    let (near, far) = if side & 1 == 0 { (0, 2 * n) } else { (n, 0) };
    for i in 0..=n {
        for j in 0..=n {
            let coarse = centre[place_in_block(n, face_point(side, near, i, j))];
            let fine = &mut samples[place_in_block(2 * n, face_point(side, far, 2 * i, 2 * j))];
            if (coarse >= threshold) != (*fine >= threshold) {
                *fine = coarse;
            }
        }
    }
    samples
}

/// Mostly small; every number from 1 to 16 is met.
fn subdivisions(random: &mut Random) -> i64 {
    let most = random.pick(&[1, 2, 2, 3, 3, 4, 4, 5, 6, 8, 11, 16]);
    1 + random.below(most) as i64
}

/// Mostly below 34; every number from 17 to 64 is met.
fn larger(random: &mut Random) -> i64 {
    let most = random.pick(&[1, 1, 4, 4, 8, 8, 16, 17, 48]);
    17 + random.below(most) as i64
}

fn threshold(random: &mut Random) -> f32 {
    let small = random.signed_unit();
    let large = 1000.0 * random.signed_unit();
    random.pick(&[0.0, -0.0, 0.5, 0.5, small, small, large, LIMIT, -LIMIT, f32::from_bits(3)])
}

fn base(random: &mut Random) -> f32 {
    let small = random.signed_unit();
    let large = LIMIT * random.signed_unit();
    random.pick(&[0.0, 0.0, -0.0, small, small, small, large, LIMIT, -LIMIT])
}

fn size(random: &mut Random) -> f32 {
    let around_one = 1.5 + random.signed_unit();
    let large = 1000.0 * around_one;
    random.pick(&[1.0, around_one, around_one, around_one, large, 1.0 / 1024.0, LIMIT])
}

/// The block of a seed.
pub fn block(seed: u64) -> Block {
    block_of(seed, Sizes::Chosen)
}

/// The block of a seed, with so many subdivisions.
pub fn block_of(seed: u64, sizes: Sizes) -> Block {
    let mut random = Random::new(seed);
    let mask = (seed % 64) as u8;
    let chosen = subdivisions(&mut random);
    let n = match sizes {
        Sizes::Chosen => chosen,
        Sizes::Larger => larger(&mut random),
        Sizes::All(n) => n as i64,
    };
    let threshold = threshold(&mut random);
    let base = [base(&mut random), base(&mut random), base(&mut random)];
    let size = size(&mut random);
    let field = Field::new(&mut random, n, threshold);
    let differing = field.is_rough() && random.below(2) == 0;
    let centre: Vec<f32> = points(n).map(|point| field.at(point.map(|k| 2 * k), 0)).collect();
    let mut neighbours = Vec::new();
    for side in (0..6).filter(|side| mask >> side & 1 == 1) {
        let salt = if differing { 1 + side as u64 } else { 0 };
        neighbours.extend(neighbour(&field, n, side, salt, &centre, threshold));
    }
    Block { n: n as usize, mask, threshold, base, size, centre, neighbours }
}
