//! Ours against the Rust, same blocks, same process: microseconds a block, judging included.

mod before;
mod blank;
mod faces;
mod layers;
mod ours;
mod sheet;
mod stl;
mod volume;
mod weld;

use faces::{block, NOISY, SMOOTH, WAVY};
use oracle::record::Block;
use oracle::Star;
use ours::{extract, Buffers, Library};
use std::cell::RefCell;
use std::hint::black_box;
use std::process::ExitCode;
use std::time::{Duration, Instant};

const USAGE: &str = "\
bench [N..]                               a table of times, for n = 4, 8 and 16 or those named
bench growth                              the same as n grows to 64, with no finer neighbour, for tools/growth.py
bench parts [N]                           where our time goes, at n = 16 or the one named
bench stl                                 STL files: writing and reading against a copy of the same bytes
bench blank                               the viewer's question whether a block is blank
bench volume [SIZE]                       a raw volume of SIZE samples a side (512) cut whole, against reading its file once
bench sheet                               the sheet of a run against extraction of the same blocks
bench weld                                the weld beside extraction of the same block
bench layers                              a tall block with a summary by layer and without, and a sample set
bench ours|before|rust TIMES N MASK FACE  meshes one block that often and prints nothing
                                          (FACE: smooth, wavy, noisy); compare/instructions counts it";
const SIZES: [usize; 3] = [4, 8, 16];
const GROWTH: [usize; 8] = [2, 4, 8, 16, 24, 32, 48, 64];
const MASKS: [u8; 3] = [0, 1, 63];
/// A round of calls in seconds: short, so that some rounds are not interrupted.
const ROUND: f64 = 3e-4;
const WHOLE: Duration = Duration::from_millis(700);

type Outcome = Result<(), String>;

/// Seconds for a call, as the mean of so many.
fn mean(call: &mut dyn FnMut(), times: u32) -> f64 {
    let start = Instant::now();
    for _ in 0..times {
        call();
    }
    start.elapsed().as_secs_f64() / f64::from(times)
}

/// The best of many short rounds of each call, taken in turn, in microseconds a call. Every other time all but the last go backwards, so that
/// of two libraries none is always the one that finds the block in the caches.
fn best(calls: &mut [Box<dyn FnMut() + '_>]) -> Vec<f64> {
    let mut best: Vec<f64> = calls.iter_mut().map(|call| mean(call, 10)).collect();
    let times: Vec<u32> = best.iter().map(|&time| (ROUND / time).clamp(1.0, 50.0) as u32).collect();
    let end = Instant::now() + WHOLE * calls.len() as u32;
    let mut turns: Vec<usize> = (0..calls.len()).collect();
    while Instant::now() < end {
        for &k in &turns {
            best[k] = best[k].min(mean(&mut calls[k], times[k]));
        }
        turns[..calls.len() - 1].reverse();
    }
    best.iter().map(|time| 1e6 * time).collect()
}

/// Buffers for a library that has given the Rust's mesh for the block.
fn ready(library: Library, block: &Block, star: &Star) -> Result<Buffers, String> {
    let mesh = star.extract();
    let mut buffers = Buffers::new(block.n, &mesh);
    let counts =
        buffers.extract(library, block).map_err(|why| format!("n = {}: {why}", block.n))?;
    if counts != (mesh.vertices.len(), mesh.triangles.len()) || !buffers.hold(&mesh) {
        return Err(format!("n = {}, mask {}: the mesh is not the Rust's", block.n, block.mask));
    }
    Ok(buffers)
}

fn row(face: &str, n: usize, mask: u8) -> Outcome {
    let block = &block(n, mask, face);
    let star = &Star::new(block);
    let libraries =
        if before::LINKED { &[Library::Ours, Library::Before][..] } else { &[Library::Ours] };
    let mut buffers = Buffers::new(n, &star.extract());
    for &library in libraries {
        buffers = ready(library, block, star)?;
    }
    // Where buffers lie counts for some hundredths at n = 64, so that both libraries write into the same.
    let buffers = &RefCell::new(buffers);
    let mut calls: Vec<Box<dyn FnMut()>> = Vec::new();
    for &library in libraries {
        calls.push(Box::new(move || {
            let _ = black_box(buffers.borrow_mut().extract(library, black_box(block)));
        }));
    }
    calls.push(Box::new(|| {
        black_box(black_box(star).extract());
    }));
    let times = best(&mut calls);
    let mesh = star.extract();
    let counts = format!("{} | {}", mesh.vertices.len(), mesh.triangles.len());
    let (ours, rust) = (times[0], times[times.len() - 1]);
    let cells: Vec<String> = times.iter().map(|time| format!("{time:.1} | ")).collect();
    println!("| {face} | {n} | {mask} | {counts} | {}{:.1} |", cells.concat(), rust / ours);
    Ok(())
}

fn heading() {
    let before = if before::LINKED { " before µs |" } else { "" };
    println!(
        "| face | n | mask | vertices | triangles | ours µs |{before} Rust µs | times as fast |"
    );
    println!("|---|---|---|---|---|---|---|---|{}", if before::LINKED { "---|" } else { "" });
}

fn growth() -> Outcome {
    heading();
    for face in [SMOOTH, NOISY] {
        for n in GROWTH {
            row(face, n, 0)?;
        }
    }
    Ok(())
}

fn table(sizes: &[usize]) -> Outcome {
    heading();
    for face in [SMOOTH, WAVY, NOISY] {
        for &n in sizes.iter().filter(|&&n| face != WAVY || n >= 16) {
            for mask in MASKS {
                row(face, n, mask)?;
            }
        }
    }
    Ok(())
}

/// A call without a store is refused once all is judged, and one without room once all is counted.
fn parts(n: usize) -> Outcome {
    println!("| face | mask | judging | tables, case numbers, counting | clearing, writing |");
    println!("|---|---|---|---|---|");
    for face in [SMOOTH, WAVY, NOISY] {
        for mask in [0, 63] {
            let block = &block(n, mask, face);
            let buffers = ready(Library::Ours, block, &Star::new(block))?;
            let room = (buffers.store.len(), buffers.vertices.len());
            let mut calls: Vec<Box<dyn FnMut()>> = Vec::new();
            for (places, floats) in [(0, room.1), (room.0, 0), room] {
                let Buffers { mut store, mut vertices, mut triangles } =
                    ready(Library::Ours, block, &Star::new(block))?;
                calls.push(Box::new(move || {
                    let (store, vertices) = (&mut store[..places], &mut vertices[..floats]);
                    let _ = black_box(extract(black_box(block), store, vertices, &mut triangles));
                }));
            }
            let [judged, counted, all] = best(&mut calls)[..] else { unreachable!() };
            let (counting, writing) = (counted - judged, all - counted);
            println!("| {face} | {mask} | {judged:.1} | {counting:.1} | {writing:.1} |");
        }
    }
    Ok(())
}

fn many(who: &str, times: usize, block: &Block) -> Outcome {
    let star = Star::new(block);
    let library = match who {
        "ours" => Library::Ours,
        "before" => Library::Before,
        _ => {
            (0..times).for_each(|_| {
                black_box(black_box(&star).extract());
            });
            return Ok(());
        }
    };
    let mut buffers = ready(library, block, &star)?;
    for _ in 0..times {
        black_box(buffers.extract(library, black_box(block)))?;
    }
    Ok(())
}

fn number<T: std::str::FromStr>(word: &str) -> Result<T, String> {
    word.parse().map_err(|_| format!("'{word}' is no number here\n{USAGE}"))
}

fn run(words: &[&str]) -> Outcome {
    match words {
        [] => table(&SIZES),
        ["-h" | "--help"] => {
            println!("{USAGE}");
            Ok(())
        }
        ["growth"] => growth(),
        ["stl"] => stl::table(),
        ["blank"] => blank::table(),
        ["volume"] => volume::table(512),
        ["volume", size] => volume::table(number(size)?),
        ["sheet"] => sheet::table(),
        ["weld"] => weld::table(),
        ["layers"] => layers::table(),
        ["parts"] => parts(16),
        ["parts", n] => parts(number(n)?),
        ["ours" | "before" | "rust", times, n, mask, face @ ("smooth" | "wavy" | "noisy")] => {
            many(words[0], number(times)?, &block(number(n)?, number(mask)?, face))
        }
        sizes => {
            let sizes: Result<Vec<usize>, String> = sizes.iter().map(|word| number(word)).collect();
            table(&sizes?)
        }
    }
}

fn main() -> ExitCode {
    let words: Vec<String> = std::env::args().skip(1).collect();
    match run(&words.iter().map(String::as_str).collect::<Vec<_>>()) {
        Ok(()) => ExitCode::SUCCESS,
        Err(why) => {
            eprintln!("bench: {why}");
            ExitCode::FAILURE
        }
    }
}
