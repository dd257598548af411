//! A raw volume cut into blocks, in times of reading its file once.

use crate::Outcome;
use sirveshan::{cut_block, sample_length, Volume};
use std::fs::{self, File};
use std::hint::black_box;
use std::io::{self, Read, Write};
use std::path::PathBuf;
use std::time::Instant;

/// The file is read in pieces of so many bytes.
const PIECE: usize = 1 << 20;
const ROUNDS: usize = 3;

/// A volume's file that goes when it is done with.
struct VolumeFile(PathBuf);

impl VolumeFile {
    fn create(bytes: &[u8]) -> io::Result<VolumeFile> {
        let name = format!("sirveshan-{}.volume", std::process::id());
        let file = VolumeFile(std::env::temp_dir().join(name));
        File::create(&file.0)?.write_all(bytes)?;
        Ok(file)
    }

    fn read_once(&self, piece: &mut [u8]) -> io::Result<usize> {
        let (mut file, mut length) = (File::open(&self.0)?, 0);
        loop {
            match file.read(piece)? {
                0 => return Ok(length),
                read => length += read,
            }
        }
    }
}

impl Drop for VolumeFile {
    fn drop(&mut self) {
        let _ = fs::remove_file(&self.0);
    }
}

/// A wavy surface across the volume.
fn samples(size: usize) -> Vec<u8> {
    let wave: Vec<f32> = (0..size).map(|k| (k as f32 / 7.0).sin() * 9.0).collect();
    let half = size as f32 / 2.0;
    let mut bytes = Vec::with_capacity(4 * size * size * size);
    for z in 0..size {
        for y in 0..size {
            let plain = half - y as f32 + wave[z];
            wave.iter().for_each(|along| bytes.extend((plain + along).to_le_bytes()));
        }
    }
    bytes
}

/// The best of a few rounds, in milliseconds.
fn best(mut round: impl FnMut() -> Outcome) -> Result<f64, String> {
    let mut best = f64::MAX;
    for _ in 0..ROUNDS {
        let start = Instant::now();
        round()?;
        best = best.min(start.elapsed().as_secs_f64());
    }
    Ok(1e3 * best)
}

fn row(bytes: &[u8], size: usize, n: usize, reading: f64) -> Outcome {
    let sizes = [size; 3];
    let firsts: Vec<[usize; 3]> = Volume::new(bytes, sizes).first_points(n).collect();
    let mut samples = vec![0.0; sample_length(n)];
    let cutting = best(|| {
        for &first in &firsts {
            let cut = cut_block(bytes, sizes, n, first, black_box(&mut samples));
            cut.map_err(|refusal| refusal.to_string())?;
        }
        Ok(())
    })?;
    let (blocks, taken) = (firsts.len(), firsts.len() * samples.len());
    let (each, times) = (1e3 * cutting / blocks as f64, cutting / reading);
    println!("| {size} | {n} | {blocks} | {taken} | {reading:.0} | {cutting:.0} | {each:.1} | {times:.1} |");
    Ok(())
}

/// A cubic volume of that size, cut whole at n = 4, 8, 16 and 64.
pub fn table(size: usize) -> Outcome {
    let bytes = samples(size);
    let told = |error: io::Error| error.to_string();
    let file = VolumeFile::create(&bytes).map_err(told)?;
    let mut piece = vec![0; PIECE];
    let reading = best(|| match file.read_once(&mut piece) {
        Ok(length) if length == bytes.len() => Ok(()),
        Ok(_) => Err("the file is not as long as the volume".into()),
        Err(error) => Err(told(error)),
    })?;
    println!("| size | n | blocks | samples taken | read the file, ms | cut, ms | a block, µs | times reading |");
    println!("|---|---|---|---|---|---|---|---|");
    [4, 8, 16, 64].into_iter().try_for_each(|n| row(&bytes, size, n, reading))
}
