//! `sirveshan stl`: the mesh of a record, or of each record of a run, as one STL file; or what such a file holds.

use crate::arguments::{missing, Arguments};
use crate::failure::{tell_refusal, Failure};
use crate::input::{Piece, Run};
use crate::jobs::in_order;
use crate::mesh::mesher;
use crate::progress::Progress;
use crate::stl_check::check;
use crate::whole_file::WholeFile;
use crate::{output, Command};
use sirveshan::{Record, Refusal, Stl, STL_HEADER, STL_TRIANGLE};
use std::ffi::OsStr;

pub const COMMAND: Command = Command {
    name: "stl",
    usage: "stl RECORD|- -o FILE|- [--weld] [--force] [--skip-refused] [--jobs N], or stl --check FILE|-",
    about: "\
writes the mesh of a record as a binary STL file, or tells what such a file holds

RECORD may be a run: records laid end to end. Their triangles become one file, in order; no corner is
shared between triangles, so none between records. A refused record is told of on standard error, and
then nothing is written. FILE stands there whole or not at all.

    -o FILE         the file to write, - for standard output
    --weld          weld each mesh before it is written: the facets are the same, bit for bit
    --force         overwrite FILE if it is there
    --skip-refused  write the records of a run that are not refused; the exit status is 1 all the same
    --jobs N        mesh the records of a run on N threads (1 to 256)
    --check         read an STL file and print its triangles, the bounding box of its finite corners,
                    how many facets are degenerate (two corners at one place) and how many have a
                    corner that is not finite
",
    run,
};

fn run(mut arguments: Arguments) -> Result<(), Failure> {
    if arguments.flag("--check") {
        let [path] = arguments.by_place(["FILE"])?;
        return check(&path);
    }
    let (overwrite, skip) = (arguments.flag("--force"), arguments.flag("--skip-refused"));
    let weld = arguments.flag("--weld");
    let jobs = arguments.jobs()?.unwrap_or(1);
    let file = arguments.option("-o")?;
    let [path] = arguments.by_place(["RECORD"])?;
    let file = file.ok_or_else(|| missing("-o FILE"))?;
    let pieces = Run::open(&path)?;
    let mut facets = Facets::new(Target::open(&file, overwrite)?);
    in_order(jobs, pieces, || worker(weld), |answer| facets.put(answer))?;
    facets.finish(skip)
}

/// What became of a record: the bytes of its facets.
struct Answer {
    number: usize,
    alone: bool,
    facets: Result<Vec<u8>, Refusal>,
}

/// Meshes record after record with the same buffers.
fn worker(weld: bool) -> impl FnMut(Piece) -> Answer {
    let (mut mesher, mut stl) = (mesher(weld), Stl::new());
    move |Piece { number, alone, bytes }| {
        let facets = Record::read(&bytes).and_then(|record| {
            let file = stl.write(&mesher.mesh(&record)?)?;
            Ok(file[STL_HEADER..].to_vec())
        });
        Answer { number, alone, facets }
    }
}

/// Where a file goes. Standard output can't be written over, and the count stands first: its facets wait for the last.
enum Target {
    Output(Vec<u8>),
    File(WholeFile),
}

impl Target {
    fn open(path: &OsStr, overwrite: bool) -> Result<Target, Failure> {
        let header = [0; STL_HEADER];
        if path == "-" {
            return Ok(Target::Output(header.to_vec()));
        }
        let mut file = WholeFile::create(path, overwrite)?;
        file.put(&header)?;
        Ok(Target::File(file))
    }

    fn put(&mut self, facets: &[u8]) -> Result<(), Failure> {
        match self {
            Target::Output(bytes) => bytes.extend_from_slice(facets),
            Target::File(file) => file.put(facets)?,
        }
        Ok(())
    }

    fn finish(self, count: u32) -> Result<(), Failure> {
        let count = count.to_le_bytes();
        match self {
            Target::Output(mut bytes) => {
                bytes[COUNT_AT..STL_HEADER].copy_from_slice(&count);
                output::put(&bytes)
            }
            Target::File(mut file) => {
                file.put_at(COUNT_AT as u64, &count)?;
                file.finish()
            }
        }
    }
}

const COUNT_AT: usize = STL_HEADER - size_of::<u32>();
const TOO_MANY: Refusal = Refusal { number: 16, values: [0; 3] };

/// The facets of all records, in order.
struct Facets {
    target: Target,
    count: usize,
    progress: Progress,
    refused: bool,
}

impl Facets {
    fn new(target: Target) -> Facets {
        Facets { target, count: 0, progress: Progress::new(), refused: false }
    }

    fn put(&mut self, answer: Answer) -> Result<(), Failure> {
        match answer.facets {
            Ok(facets) => {
                self.count += facets.len() / STL_TRIANGLE;
                self.target.put(&facets)?;
            }
            Err(refusal) => {
                self.progress.erase();
                self.refused = true;
                tell_refusal(&refusal, answer.number, answer.alone);
            }
        }
        if !answer.alone {
            self.progress.tell(answer.number);
        }
        Ok(())
    }

    fn finish(mut self, skip: bool) -> Result<(), Failure> {
        self.progress.erase();
        if self.refused && !skip {
            return Err(Failure::SomeRefused);
        }
        let count = u32::try_from(self.count).map_err(|_| Failure::Refused(TOO_MANY))?;
        self.target.finish(count)?;
        if self.refused {
            return Err(Failure::SomeRefused);
        }
        Ok(())
    }
}
