//! Fields to sample: each gives a value at every point of the fine grid, where
//! the centre's grid points are the even ones.

use crate::random::{mixed, signed_unit, Random};

pub const LIMIT: f32 = 1_048_576.0;

pub type Point = [i64; 3];

enum Shape {
    /// A tilted plane with bumps on it.
    Smooth { normal: [f32; 3], offset: f32, bumps: f32 },
    /// Every point for itself.
    Noise,
    /// Plateaus: the threshold itself, its next numbers and a few others.
    Levels(Vec<f32>),
    /// Outside but for a slab one or two fine steps thick, or inside but for it.
    Ledge { axis: usize, from: i64, thick: i64, tilt: i64, sign: f32 },
    /// One point on the other side than all others.
    Lone { at: Point, sign: f32 },
}

pub struct Field {
    shape: Shape,
    seed: u64,
    threshold: f32,
    scale: f32,
}

fn bounded(number: f32) -> f32 {
    number.clamp(-LIMIT, LIMIT)
}

fn levels(random: &mut Random, threshold: f32, scale: f32) -> Vec<f32> {
    let near = [threshold, threshold.next_up(), threshold.next_down()];
    let steps = [threshold + scale, threshold - scale, -threshold];
    let zeros = [0.0, -0.0, f32::from_bits(1), -f32::from_bits(1)];
    let limits = [LIMIT, -LIMIT, LIMIT.next_down(), (-LIMIT).next_up()];
    let all = [&near[..], &steps[..], &zeros[..], &limits[..]].concat();
    let count = 2 + random.below(4);
    let mut chosen = vec![threshold, threshold - scale];
    chosen.extend((0..count).map(|_| random.pick(&all)));
    chosen.into_iter().map(bounded).collect()
}

impl Field {
    /// A field for a centre of `n` subdivisions.
    pub fn new(random: &mut Random, n: i64, threshold: f32) -> Field {
        let scale = random.pick(&[1.0, 1.0, 1.0, 0.001, 100.0, 1_000_000.0, 1e-38, 1e-44]);
        let sign = random.pick(&[1.0, -1.0]);
        let within = |random: &mut Random| random.below(2 * n as u64 + 1) as i64;
        let shape = match random.below(8) {
            0 | 1 => Shape::Smooth {
                normal: [random.signed_unit(), random.signed_unit(), random.signed_unit()],
                offset: n as f32 * random.signed_unit(),
                bumps: random.pick(&[0.0, 1.0, 3.0]),
            },
            2 | 3 => Shape::Noise,
            4 | 5 => Shape::Levels(levels(random, threshold, scale)),
            6 => Shape::Ledge {
                axis: random.below(3) as usize,
                from: within(random),
                thick: 1 + random.below(2) as i64,
                tilt: random.pick(&[0, 0, 1, 3]),
                sign,
            },
            _ => Shape::Lone { at: [within(random), within(random), within(random)], sign },
        };
        Field { shape, seed: random.bits(), threshold, scale }
    }

    /// Whether neighbours may be sampled from other values than the centre's.
    pub fn is_rough(&self) -> bool {
        matches!(self.shape, Shape::Noise | Shape::Levels(_))
    }

    fn hash(&self, point: Point, salt: u64) -> u64 {
        let start = mixed(self.seed ^ mixed(salt));
        point.iter().fold(start, |bits, &k| mixed(bits.wrapping_mul(31).wrapping_add(k as u64)))
    }

    /// Value noise with a lattice step of four fine steps, in -1..1.
    fn bump(&self, point: Point) -> f32 {
        let mut sum = 0.0;
        for corner in 0..8_i64 {
            let mut share = 1.0;
            let mut lattice = [0; 3];
            for axis in 0..3 {
                let high = corner >> axis & 1;
                let part = point[axis].rem_euclid(4) as f32 / 4.0;
                lattice[axis] = point[axis].div_euclid(4) + high;
                share *= if high == 1 { part } else { 1.0 - part };
            }
            sum += share * signed_unit(self.hash(lattice, 1));
        }
        sum
    }

    /// The value at a point; `salt` tells values at the same point apart in a rough field.
    pub fn at(&self, point: Point, salt: u64) -> f32 {
        let hash = self.hash(point, salt);
        let height = match &self.shape {
            Shape::Levels(levels) => return levels[(hash % levels.len() as u64) as usize],
            Shape::Noise => signed_unit(hash),
            Shape::Smooth { normal, offset, bumps } => {
                let along = |axis: usize| normal[axis] * point[axis] as f32;
                along(0) + along(1) + along(2) - offset + bumps * self.bump(point)
            }
            Shape::Ledge { axis, from, thick, tilt, sign } => {
                let across = if *tilt == 0 { 0 } else { point[(axis + 1) % 3].div_euclid(*tilt) };
                let within = (*from..from + thick).contains(&(point[*axis] + across));
                let size = 1.0 + signed_unit(hash) / 2.0;
                if within {
                    sign * size
                } else {
                    -sign * size
                }
            }
            Shape::Lone { at, sign } => {
                if point == *at {
                    *sign
                } else {
                    -sign
                }
            }
        };
        bounded(self.threshold + self.scale * height)
    }
}
