//! `sirveshan mesh`: the mesh of a record, or of each record of a run.

use crate::arguments::Arguments;
use crate::failure::{refusal_numbers, tell_refusal, Failure};
use crate::input::{Piece, Run};
use crate::jobs::in_order;
use crate::progress::Progress;
use crate::{listing, output, summary, Command};
use sirveshan::{Mesh, Mesher, Record, Refusal};

pub const COMMAND: Command = Command {
    name: "mesh",
    usage: "mesh RECORD|- [--weld] [--summary] [--jobs N]",
    about: "\
prints the mesh of a record: its listing, or --summary

The listing is document 01's at any size: `mesh` with the counts of vertices and triangles, a `v`
line a vertex (position x y z and gradient x y z, as f32 bits in hex), a `t` line a triangle (three
vertex indices).

RECORD may be a run: records laid end to end. Each is meshed by itself, and the answers come in order.
A refused record of a run has a line `refused N A B C` in its place, and the run goes on; each
summary of a run begins with a line `record K`.

    --weld      of the regular vertices made on one grid edge keep only the first; the surface is the
                same. The vertices of transition cells stay, also on an edge that has a regular one:
                by index the mesh stays open along a finer face
    --summary   counts, how many vertices are doubled (with --weld: were, and are taken out), bounding
                box, surface area and, of a closed mesh, the enclosed volume; last the sample reads
                that it took once every check had passed
    --jobs N    mesh the records of a run on N threads (1 to 256)
",
    run,
};

fn run(mut arguments: Arguments) -> Result<(), Failure> {
    let summary = arguments.flag("--summary");
    let weld = arguments.flag("--weld");
    let text = match (summary, weld) {
        (false, _) => listing::listing,
        (true, false) => summary::summary,
        (true, true) => summary::welded_summary,
    };
    let jobs = arguments.jobs()?.unwrap_or(1);
    let [path] = arguments.by_place(["RECORD"])?;
    let mut answers = Answers { numbered: summary, progress: Progress::new(), refused: false };
    let pieces = Run::open(&path)?;
    in_order(jobs, pieces, || worker(weld || summary, text), |answer| answers.put(answer))?;
    answers.progress.erase();
    if answers.refused {
        return Err(Failure::SomeRefused);
    }
    Ok(())
}

/// What became of a record.
struct Answer {
    number: usize,
    alone: bool,
    text: Result<Vec<u8>, Refusal>,
}

/// A mesher, of welded meshes where they are asked for.
pub fn mesher(weld: bool) -> Mesher {
    if weld {
        Mesher::new().welded()
    } else {
        Mesher::new()
    }
}

/// Meshes record after record with the same buffers.
fn worker(weld: bool, text: fn(&Mesh) -> Vec<u8>) -> impl FnMut(Piece) -> Answer {
    let mut mesher = mesher(weld);
    move |Piece { number, alone, bytes }| {
        let read = Record::read(&bytes);
        let meshed = read.and_then(|record| mesher.mesh(&record).map(|mesh| text(&mesh)));
        Answer { number, alone, text: meshed }
    }
}

/// Where the answers go: texts to standard output, refusals to standard error.
struct Answers {
    /// Whether a record of a run has its number before its text.
    numbered: bool,
    progress: Progress,
    refused: bool,
}

impl Answers {
    fn put(&mut self, answer: Answer) -> Result<(), Failure> {
        self.progress.erase();
        if self.numbered && !answer.alone {
            output::put(format!("record {}\n", answer.number).as_bytes())?;
        }
        match answer.text {
            Ok(text) => output::put(&text)?,
            Err(refusal) => self.put_refusal(&refusal, answer.number, answer.alone)?,
        }
        if !answer.alone {
            self.progress.tell(answer.number);
        }
        Ok(())
    }

    fn put_refusal(
        &mut self,
        refusal: &Refusal,
        number: usize,
        alone: bool,
    ) -> Result<(), Failure> {
        self.refused = true;
        tell_refusal(refusal, number, alone);
        if alone {
            return Ok(());
        }
        output::put(format!("{}\n", refusal_numbers(refusal)).as_bytes())
    }
}
