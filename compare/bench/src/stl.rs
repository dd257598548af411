//! STL files: writing and reading in times of a copy of the same bytes, all in one process.

use crate::faces::{block, NOISY, SMOOTH, WAVY};
use crate::ours::Buffers;
use crate::{best, ready, Library, Outcome};
use oracle::Star;
use sirveshan::{read_stl, stl_length, write_stl};
use std::hint::black_box;

/// A mesh as lists, some of them laid one after another with their indices moved on.
struct Lists {
    vertices: Vec<f32>,
    triangles: Vec<u32>,
}

fn lists(face: &str, n: usize) -> Result<Lists, String> {
    let block = block(n, 0, face);
    let Buffers { vertices, triangles, .. } = ready(Library::Ours, &block, &Star::new(&block))?;
    Ok(Lists { vertices, triangles })
}

impl Lists {
    fn count(&self) -> usize {
        self.triangles.len() / 3
    }

    /// So many meshes of this kind, for a file that no cache holds.
    fn repeated(&self, times: usize) -> Lists {
        let held = (self.vertices.len() / 6) as u32;
        let moved = |k: u32| self.triangles.iter().map(move |corner| corner + k * held);
        Lists {
            vertices: self.vertices.repeat(times),
            triangles: (0..times as u32).flat_map(moved).collect(),
        }
    }
}

/// The file, held to what the form says of its length and to what is read back of it.
fn written(lists: &Lists) -> Result<(Vec<u8>, Vec<f32>), String> {
    let mut file = vec![0; stl_length(lists.count())];
    let mut positions = vec![0.0; 9 * lists.count()];
    let told = |refusal: sirveshan::Refusal| refusal.to_string();
    let length = write_stl(&lists.vertices, &lists.triangles, &mut file).map_err(told)?;
    let count = read_stl(&file, &mut positions).map_err(told)?;
    let corners = lists.triangles.iter().flat_map(|&v| &lists.vertices[6 * v as usize..][..3]);
    if length != file.len() || count != lists.count() || !corners.eq(positions.iter()) {
        return Err("the file is not the mesh's".into());
    }
    Ok((file, positions))
}

fn row(name: &str, lists: &Lists) -> Outcome {
    let (file, mut positions) = written(lists)?;
    let (mut copied, mut made) = (file.clone(), file.clone());
    let mut calls: Vec<Box<dyn FnMut() + '_>> = vec![
        Box::new(|| black_box(&mut copied).copy_from_slice(black_box(&file))),
        Box::new(|| {
            let (vertices, triangles) = (black_box(&lists.vertices), black_box(&lists.triangles));
            let _ = black_box(write_stl(vertices, triangles, black_box(&mut made)));
        }),
        Box::new(|| {
            let _ = black_box(read_stl(black_box(&file), black_box(&mut positions)));
        }),
    ];
    let [copying, writing, reading] = best(&mut calls)[..] else { unreachable!() };
    println!(
        "| {name} | {} | {} | {copying:.2} | {writing:.2} | {:.1} | {reading:.2} | {:.1} |",
        lists.count(),
        file.len(),
        writing / copying,
        reading / copying,
    );
    Ok(())
}

/// The faces at n = 16, and so many of the noisy ones that the file has 40 million bytes or more.
pub fn table() -> Outcome {
    println!(
        "| mesh | triangles | bytes | copy µs | write µs | times a copy | read µs | times a copy |"
    );
    println!("|---|---|---|---|---|---|---|---|");
    for face in [SMOOTH, WAVY, NOISY] {
        row(face, &lists(face, 16)?)?;
    }
    let noisy = lists(NOISY, 16)?;
    let times = 40_000_000 / stl_length(noisy.count()) + 1;
    row(&format!("{times} noisy"), &noisy.repeated(times))
}
