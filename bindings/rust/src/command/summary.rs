//! A mesh in a few lines, a word and its figures each.

use crate::figures::{bounding_box, enclosed_volume, open_sides, surface_area, Bounds};
use sirveshan::Mesh;

/// Of a welded mesh, with its vertices counted as they were before the weld.
pub fn summary(mesh: &Mesh) -> Vec<u8> {
    lines(mesh, mesh.vertices.len() + mesh.doubled)
}

/// Of a welded mesh as it is.
pub fn welded_summary(mesh: &Mesh) -> Vec<u8> {
    lines(mesh, mesh.vertices.len())
}

/// The surface is the same before the weld and after it, and so is each line but the first.
fn lines(mesh: &Mesh, vertices: usize) -> Vec<u8> {
    let mut text = format!("vertices {vertices}\ntriangles {}\n", mesh.triangles.len());
    text += &format!("doubled {}\n", mesh.doubled);
    text += &box_line(bounding_box(mesh));
    text += &format!("area {}\n", figure(surface_area(mesh)));
    text += &volume_line(mesh);
    text += &format!("reads {}\n", mesh.reads);
    text.into_bytes()
}

pub fn box_line(bounds: Option<Bounds>) -> String {
    match bounds {
        Some(([x, y, z], [x1, y1, z1])) => format!("box {x} {y} {z} to {x1} {y1} {z1}\n"),
        None => "box none\n".to_string(),
    }
}

fn volume_line(mesh: &Mesh) -> String {
    match open_sides(mesh) {
        _ if mesh.triangles.is_empty() => "volume none: there is no surface\n".to_string(),
        0 => format!("volume {}\n", figure(enclosed_volume(mesh))),
        1 => "volume none: the mesh is not closed, 1 side is open\n".to_string(),
        open => format!("volume none: the mesh is not closed, {open} sides are open\n"),
    }
}

/// A number to nine digits, more than f32 positions bear.
fn figure(number: f64) -> String {
    let rounded: f64 = format!("{number:.8e}").parse().unwrap_or(number);
    format!("{rounded}")
}
