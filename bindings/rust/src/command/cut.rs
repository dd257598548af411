//! `sirveshan cut`: a block of a raw volume as a record, or the whole volume as a run of records.

use crate::arguments::{missing, read, Arguments};
use crate::failure::{refusal_line, tell, Failure};
use crate::jobs::in_order;
use crate::mapped::Bytes;
use crate::progress::Progress;
use crate::whole_file::WholeFile;
use crate::Command;
use sirveshan::{
    record_length, volume_length, write_record, Block, Header, Refusal, Volume, MOST_ACROSS,
};
use std::ffi::OsStr;
use std::io::{self, BufWriter, Stdout, Write};

pub const COMMAND: Command = Command {
    name: "cut",
    usage: "cut VOLUME|- SX SY SZ -n N (--at X Y Z | --all) --threshold T -o FILE|- [OPTIONS]",
    about: "\
cuts a block out of a raw volume and writes its record, or the whole volume as a run of records

VOLUME is one flat list of f32, little-endian, x fastest; SX, SY and SZ are its sizes, 1 to 1,024 each. A
point beyond the volume takes the nearest of its samples. The file is mapped, not held in memory; it must
not be changed or cut short meanwhile. With --all each block that has a bad sample (7) is told of on
standard error. FILE stands there whole or not at all; standard output is written block by block and ends
before the first that is refused.

    -n N            the block's subdivisions
    --at X Y Z      the volume's point that becomes the block's first
    --all           every block, side by side from the volume's first point on, x fastest; the last ones
                    along an axis may reach beyond the volume
    --threshold T   a sample at or above it is inside
    --base X Y Z    the block's lowest point, with --all that of the first block (0 0 0)
    --size S        the length of a block's side (N: the samples lie 1 apart)
    -o FILE         the file to write, - for standard output
    --force         overwrite FILE if it is there
    --skip-refused  with --all, leave out blocks that have a bad sample; the exit status is 1 all the same,
                    and where no block is left there is no FILE
    --jobs N        with --all, cut on N threads (1 to 256)
",
    run,
};

fn run(mut arguments: Arguments) -> Result<(), Failure> {
    let (overwrite, skip) = (arguments.flag("--force"), arguments.flag("--skip-refused"));
    let jobs = arguments.jobs()?;
    let (all, at) = (arguments.flag("--all"), arguments.three("--at")?);
    let (subdivisions, threshold) = (arguments.value("-n")?, arguments.value("--threshold")?);
    let (base, size) = (arguments.three("--base")?, arguments.value("--size")?);
    let file = arguments.option("-o")?;
    let [path, x, y, z] = arguments.by_place(["VOLUME", "SX", "SY", "SZ"])?;
    let sizes = [read("SX", &x)?, read("SY", &y)?, read("SZ", &z)?];
    let subdivisions: usize = subdivisions.ok_or_else(|| missing("-n N"))?;
    let threshold = threshold.ok_or_else(|| missing("--threshold T"))?;
    let file = file.ok_or_else(|| missing("-o FILE"))?;
    if all == at.is_some() {
        return Err(Failure::Usage("one of --at X Y Z and --all is wanted".into()));
    }
    if !all && (skip || jobs.is_some()) {
        return Err(Failure::Usage("--skip-refused and --jobs go with --all".into()));
    }
    let bytes = Bytes::open(&path, most_bytes(sizes))?;
    let cutter = Cutter {
        volume: Volume::new(bytes.as_slice(), sizes),
        subdivisions,
        threshold,
        base: base.unwrap_or([0.0; 3]),
        size: size.unwrap_or(subdivisions as f32),
    };
    let records = Records::open(&file, overwrite)?;
    match at {
        Some(first) => cutter.one(first, records),
        None => cutter.all(records, skip, jobs.unwrap_or(1)),
    }
}

/// A byte more than the volume has: a longer one is refused with 21 just so, and a size above the most with 20.
fn most_bytes(sizes: [usize; 3]) -> usize {
    volume_length(sizes.map(|size| size.min(MOST_ACROSS))) + 1
}

/// What all blocks of a call have in common.
struct Cutter<'a> {
    volume: Volume<'a>,
    subdivisions: usize,
    threshold: f32,
    base: [f32; 3],
    size: f32,
}

impl Cutter<'_> {
    /// The record of the block that begins at a point.
    fn record(&self, first: [usize; 3], base: [f32; 3]) -> Result<Vec<u8>, Refusal> {
        let &Cutter { volume, subdivisions, threshold, size, .. } = self;
        let block = Block { base, size, subdivisions };
        let header = Header { block, mask: 0, threshold };
        let samples = volume.cut(subdivisions, first)?;
        let mut bytes = vec![0; record_length(subdivisions, 0)];
        write_record(&header, &samples, &[], &mut bytes)?;
        Ok(bytes)
    }

    /// Where a block of the whole volume lies: a side on for each block.
    fn base_of(&self, first: [usize; 3]) -> [f32; 3] {
        let mut base = self.base;
        for (along, first) in base.iter_mut().zip(first) {
            let blocks = first / self.subdivisions.max(1);
            *along = (f64::from(*along) + f64::from(self.size) * blocks as f64) as f32;
        }
        base
    }

    fn one(&self, first: [usize; 3], mut records: Records) -> Result<(), Failure> {
        records.put(&self.record(first, self.base).map_err(Failure::Refused)?)?;
        records.finish()
    }

    fn all(&self, mut records: Records, skip: bool, jobs: usize) -> Result<(), Failure> {
        let (mut progress, mut done, mut refused) = (Progress::new(), 0, 0);
        let firsts = self.volume.first_points(self.subdivisions).map(Ok);
        let cut = || |first| (first, self.record(first, self.base_of(first)));
        let ended = in_order(jobs, firsts, cut, |(first, record)| {
            done += 1;
            progress.tell(done);
            match record {
                Ok(record) if skip || refused == 0 => records.put(&record),
                Ok(_) => Ok(()),
                Err(refusal) if refusal.number == BAD_SAMPLE => {
                    progress.erase();
                    refused += 1;
                    tell_refused(&refusal, first);
                    Ok(())
                }
                Err(refusal) => Err(Failure::Refused(refusal)),
            }
        });
        progress.erase();
        ended?;
        if refused == 0 {
            return records.finish();
        }
        if skip && refused == done {
            tell("sirveshan: every block is refused: nothing is written");
        }
        records.end(skip && refused < done)?;
        Err(Failure::SomeRefused)
    }
}

const BAD_SAMPLE: u32 = 7;

fn tell_refused(refusal: &Refusal, [x, y, z]: [usize; 3]) {
    tell(&format!("{} (the block at {x} {y} {z})", refusal_line(refusal)));
}

/// Where the records go.
enum Records {
    Output(BufWriter<Stdout>),
    File(WholeFile),
}

impl Records {
    fn open(path: &OsStr, overwrite: bool) -> Result<Records, Failure> {
        if path == "-" {
            return Ok(Records::Output(BufWriter::new(io::stdout())));
        }
        WholeFile::create(path, overwrite).map(Records::File)
    }

    fn put(&mut self, record: &[u8]) -> Result<(), Failure> {
        match self {
            Records::Output(out) => out.write_all(record).map_err(Failure::Output),
            Records::File(file) => file.put(record),
        }
    }

    fn finish(self) -> Result<(), Failure> {
        match self {
            Records::Output(mut out) => out.flush().map_err(Failure::Output),
            Records::File(file) => file.finish(),
        }
    }

    /// A file goes unless it is to be kept; standard output has what it got.
    fn end(self, keep: bool) -> Result<(), Failure> {
        match self {
            Records::File(_) if !keep => Ok(()),
            records => records.finish(),
        }
    }
}
