//! The blocks that are timed. Each face has a value at every point of the fine grid, whose even points
//! are the centre's.

use blocks::points;
use oracle::record::Block;

pub const SMOOTH: &str = "smooth";
pub const WAVY: &str = "wavy";
pub const NOISY: &str = "noisy";

/// A quarry face: a bumpy height.
fn smooth([x, y, z]: [f32; 3], n: f32) -> f32 {
    z - n - 1.7 * (0.31 * x).sin() - 1.3 * (0.23 * y + 0.1 * x).cos() + 0.37
}

/// A wavy sphere: about twice the surface, 838 vertices and 1,668 triangles at n = 16.
fn wavy(point: [f32; 3], n: f32) -> f32 {
    let [x, y, z] = point.map(|k| (k - n) / n);
    let waves = (11.0 * x).sin() * (11.0 * y + 0.5).cos() + (11.0 * z).sin();
    0.75 + 0.08 * waves - (x * x + y * y + z * z).sqrt()
}

fn noisy(point: [i64; 3]) -> f32 {
    let [x, y, z] = point.map(|k| k as u64);
    let mut bits = x ^ y.rotate_left(21) ^ z.rotate_left(42);
    for _ in 0..2 {
        bits = (bits ^ bits >> 31).wrapping_mul(0x9e37_79b9_7f4a_7c15);
    }
    (bits >> 40) as f32 / (1 << 23) as f32 - 1.0
}

fn value(face: &str, point: [i64; 3], n: usize) -> f32 {
    match face {
        SMOOTH => smooth(point.map(|k| k as f32), n as f32),
        WAVY => wavy(point.map(|k| k as f32), n as f32),
        _ => noisy(point),
    }
}

pub fn block(n: usize, mask: u8, face: &str) -> Block {
    let centre = points(n as i64).map(|p| value(face, p.map(|k| 2 * k), n)).collect();
    let mut neighbours = Vec::new();
    for side in (0..6).filter(|side| mask >> side & 1 == 1) {
        let mut origin = [0; 3];
        origin[side / 2] = if side & 1 == 0 { -2 * n as i64 } else { 2 * n as i64 };
        let at = |p: [i64; 3]| value(face, std::array::from_fn(|k| p[k] + origin[k]), n);
        neighbours.extend(points(2 * n as i64).map(at));
    }
    Block { n, mask, threshold: 0.0, base: [10.0, 20.0, 30.0], size: 8.0, centre, neighbours }
}
