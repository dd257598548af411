//! Document 01's listing of a mesh, at any size.

use sirveshan::Mesh;

/// `mesh` with the counts, a `v` line a vertex (six f32 as bits in hex) and a `t` line a triangle (three indices).
pub fn listing(mesh: &Mesh) -> Vec<u8> {
    let (vertices, triangles) = (mesh.vertices.len(), mesh.triangles.len());
    let mut text = Vec::with_capacity(32 + 56 * vertices + 24 * triangles);
    text.extend_from_slice(format!("mesh {vertices} {triangles}\n").as_bytes());
    for vertex in mesh.vertices {
        text.push(b'v');
        vertex.iter().for_each(|number| put_hex(&mut text, number.to_bits()));
        text.push(b'\n');
    }
    for triangle in mesh.triangles {
        text.push(b't');
        triangle.iter().for_each(|&index| put_decimal(&mut text, index));
        text.push(b'\n');
    }
    text
}

/// A space and eight hex digits.
fn put_hex(text: &mut Vec<u8>, word: u32) {
    text.push(b' ');
    for digit in (0..8).rev() {
        text.push(b"0123456789abcdef"[(word >> (4 * digit) & 15) as usize]);
    }
}

/// A space and a number.
fn put_decimal(text: &mut Vec<u8>, number: u32) {
    let mut digits = [0; 10];
    let mut first = digits.len();
    let mut rest = number;
    while first == digits.len() || rest > 0 {
        first -= 1;
        digits[first] = b'0' + (rest % 10) as u8;
        rest /= 10;
    }
    text.push(b' ');
    text.extend_from_slice(&digits[first..]);
}
