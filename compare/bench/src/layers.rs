//! A tall block, of which one layer holds the surface, with a summary and without one; and a sample set beside a summary made afresh.
//! A call with a store one place short is refused with 9 once all else has been judged: what a call takes longer is counting and
//! writing.

use crate::{best, Outcome};
use sirveshan::{extract_layered, extract_whole, make_summary, sample_place, set_sample};
use sirveshan::{
    most_triangles, most_vertices, sample_length, store_length, Block, Header, Summary,
};
use std::hint::black_box;

const TALL: [usize; 3] = [16, 32, 64];

/// Samples that grow along x and waver a little: the threshold is passed in the layer in the middle alone.
fn tall(n: usize) -> Vec<f32> {
    let mut samples = vec![0.0; sample_length(n)];
    for x in -1..=n as i32 + 1 {
        for y in -1..=n as i32 + 1 {
            for z in -1..=n as i32 + 1 {
                if let Some(place) = sample_place(n, [x, y, z]) {
                    let (u, v) = (0.37 * y as f32, 0.23 * z as f32);
                    samples[place] = x as f32 - (n / 2) as f32 + 0.5 + 0.4 * u.sin() * v.cos();
                }
            }
        }
    }
    samples
}

struct Lent {
    header: Header,
    samples: Vec<f32>,
    store: Vec<u32>,
    vertices: Vec<f32>,
    triangles: Vec<u32>,
    edges: Vec<u32>,
}

impl Lent {
    fn new(n: usize) -> Lent {
        let block = Block { base: [0.0; 3], size: 1.0, subdivisions: n };
        Lent {
            header: Header { block, mask: 0, threshold: 0.0 },
            samples: tall(n),
            store: vec![0; store_length(n)],
            vertices: vec![0.0; 6 * most_vertices(n, 0)],
            triangles: vec![0; 3 * most_triangles(n, 0)],
            edges: vec![0; most_vertices(n, 0)],
        }
    }

    /// Triangles and reads, or the number of the refusal; the store is lent but for so many places.
    fn extract(&mut self, summary: Option<&[f32]>, short: usize) -> Result<(usize, u64), u32> {
        let Lent { header, samples, store, vertices, triangles, edges } = self;
        let places = store.len() - short;
        let store = &mut store[..places];
        let answer = match summary {
            None => extract_whole(header, samples, &[], store, vertices, triangles, edges),
            Some(told) => {
                extract_layered(header, samples, &[], told, store, vertices, triangles, edges)
            }
        };
        answer.map(|counts| (counts.triangles, counts.reads)).map_err(|refusal| refusal.number)
    }
}

fn extraction(n: usize) -> Outcome {
    let summary = Summary::make(n, &tall(n)).map_err(|refusal| refusal.to_string())?;
    let marks = vec![f32::NAN; 2 * n];
    let told = [None, Some(summary.as_slice()), Some(&marks[..])];
    let names = ["none", "made", "all marked"];
    let mut lent: Vec<Lent> = (0..6).map(|_| Lent::new(n)).collect();
    let mut meshes = Vec::new();
    for (k, lent) in lent.iter_mut().enumerate() {
        meshes.push(lent.extract(told[k / 2], k % 2));
    }
    let mut calls: Vec<Box<dyn FnMut() + '_>> = Vec::new();
    for (k, lent) in lent.iter_mut().enumerate() {
        calls.push(Box::new(move || {
            let _ = black_box(lent.extract(black_box(told[k / 2]), k % 2));
        }));
    }
    let times = best(&mut calls);
    for (kind, name) in names.iter().enumerate() {
        let (all, judging) = (times[2 * kind], times[2 * kind + 1]);
        let (Ok((triangles, reads)), Err(9)) = (meshes[2 * kind], meshes[2 * kind + 1]) else {
            return Err(format!("n = {n}, {name}: not the answers"));
        };
        println!(
            "| {n} | {name} | {triangles} | {reads} | {all:.1} | {judging:.1} | {:.1} |",
            all - judging
        );
    }
    Ok(())
}

fn setting(n: usize) -> Outcome {
    let given = tall(n);
    let (mut summary, mut samples, mut kept) = (vec![0.0; 2 * n], given.clone(), vec![0.0; 2 * n]);
    let middle = [n as i32 / 2, 1, 1];
    make_summary(n, &given, &mut kept)
        .and_then(|()| set_sample(n, &mut samples, middle, 0.25, &mut kept))
        .map_err(|refusal| refusal.to_string())?;
    let mut calls: Vec<Box<dyn FnMut() + '_>> = vec![
        Box::new(|| {
            let _ = black_box(make_summary(n, black_box(&given), &mut summary));
        }),
        Box::new(|| {
            let _ = black_box(set_sample(n, black_box(&mut samples), middle, 0.25, &mut kept));
        }),
    ];
    let [made, set] = best(&mut calls)[..] else { unreachable!() };
    println!("| {n} | {made:.1} | {set:.1} | {:.2} |", set / made);
    Ok(())
}

pub fn table() -> Outcome {
    println!("| n | summary | triangles | reads | the whole call µs | judging µs | counting and writing µs |");
    println!("|---|---|---|---|---|---|---|");
    for n in TALL {
        extraction(n)?;
    }
    println!();
    println!("| n | a summary made µs | a sample set µs | set by made |");
    println!("|---|---|---|---|");
    for n in TALL {
        setting(n)?;
    }
    Ok(())
}
