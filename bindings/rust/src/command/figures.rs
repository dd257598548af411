//! Figures of a mesh: bounding box, surface area, whether it is closed, and the volume that a closed one encloses. They are
//! worked out in f64 from the f32 positions, and are not proved.

use sirveshan::Mesh;
use std::collections::HashMap;

type Position = [f32; 3];
pub type Bounds = (Position, Position);

/// The lowest and the highest corner of all vertices, if there are any.
pub fn bounding_box(mesh: &Mesh) -> Option<Bounds> {
    box_of(mesh.vertices.iter().map(position))
}

/// The lowest and the highest corner of positions.
pub fn box_of(mut positions: impl Iterator<Item = Position>) -> Option<Bounds> {
    let first = positions.next()?;
    Some(positions.fold((first, first), |(low, high), at| {
        let least = std::array::from_fn(|k| low[k].min(at[k]));
        let most = std::array::from_fn(|k| high[k].max(at[k]));
        (least, most)
    }))
}

pub fn surface_area(mesh: &Mesh) -> f64 {
    let area = |[a, b, c]: [[f64; 3]; 3]| length(cross(minus(b, a), minus(c, a))) / 2.0;
    triangles(mesh, [0.0; 3]).map(area).fold(0.0, |sum, part| sum + part)
}

/// How many triangle sides have no side the other way to meet. A mesh is closed when there are none: each directed side of
/// a triangle is then run through the other way by another's, as often. A side is told by the bits of the positions of its
/// ends, since at low faces several vertices have one position; a side of no length needs none to meet.
pub fn open_sides(mesh: &Mesh) -> usize {
    let mut balance: HashMap<[[u32; 3]; 2], isize> = HashMap::new();
    for [a, b, c] in mesh.triangles.iter().map(|corners| corners.map(|k| place(mesh, k))) {
        for (from, to) in [(a, b), (b, c), (c, a)] {
            *balance.entry([from.min(to), from.max(to)]).or_default() += order(from, to);
        }
    }
    balance.values().map(|sides| sides.unsigned_abs()).sum()
}

/// The volume inside a closed mesh. Triangles run counter-clockwise seen from outside: what lies inside the surface counts,
/// and a cavity counts below 0.
pub fn enclosed_volume(mesh: &Mesh) -> f64 {
    let (origin, _) = bounding_box(mesh).unwrap_or_default();
    let from = origin.map(f64::from);
    let volume = |[a, b, c]: [[f64; 3]; 3]| dot(a, cross(b, c)) / 6.0;
    triangles(mesh, from).map(volume).fold(0.0, |sum, part| sum + part)
}

fn position(vertex: &[f32; 6]) -> Position {
    [vertex[0], vertex[1], vertex[2]]
}

/// A vertex's position as bits, with one zero.
fn place(mesh: &Mesh, index: u32) -> [u32; 3] {
    position(&mesh.vertices[index as usize]).map(|number| (number + 0.0).to_bits())
}

fn order(from: [u32; 3], to: [u32; 3]) -> isize {
    from.cmp(&to) as isize
}

/// The corners of each triangle, as seen from a point.
fn triangles<'a>(mesh: &'a Mesh, from: [f64; 3]) -> impl Iterator<Item = [[f64; 3]; 3]> + 'a {
    let corner = move |k: u32| minus(position(&mesh.vertices[k as usize]).map(f64::from), from);
    mesh.triangles.iter().map(move |corners| corners.map(corner))
}

fn minus(a: [f64; 3], b: [f64; 3]) -> [f64; 3] {
    std::array::from_fn(|k| a[k] - b[k])
}

fn cross(a: [f64; 3], b: [f64; 3]) -> [f64; 3] {
    let part = |i: usize, j: usize| a[i] * b[j] - a[j] * b[i];
    [part(1, 2), part(2, 0), part(0, 1)]
}

fn dot(a: [f64; 3], b: [f64; 3]) -> f64 {
    a[0] * b[0] + a[1] * b[1] + a[2] * b[2]
}

fn length(a: [f64; 3]) -> f64 {
    dot(a, a).sqrt()
}
