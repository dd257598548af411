//! `sirveshan repair`: a damaged record made usable, and what was changed.

use crate::arguments::{missing, Arguments};
use crate::failure::{tell, Failure};
use crate::input::Input;
use crate::whole_file::WholeFile;
use crate::{output, Command};
use sirveshan::{Change, Header, Record, MOST_SIZE};
use std::fmt::Write;
use std::io;

pub const COMMAND: Command = Command {
    name: "repair",
    usage: "repair RECORD|- --filler X -o FILE [--force] [--plain]",
    about: "\
repairs the samples of a damaged record and lists every change

Each sample that is not finite or beyond 1,048,576 becomes the filler; then, where the centre and a
finer neighbour lie on two sides of the threshold, the neighbour's sample takes the centre's bits.
The changes go to standard output in order. A line names the centre or the neighbour by its side,
the point in that block's own grid (0 to n, a neighbour's 0 to 2n, and a step outside), the value
before and after. How many there were is told on standard error. FILE stands there whole, once its
changes are listed, or not at all. What is written can be meshed.

    --filler X      the value that bad samples become
    -o FILE         the record to write
    --force         overwrite FILE if it is there
    --plain         for programs: a line `LIST PLACE OLD NEW` a change; list 0 is the centre, 1 the
                    neighbours, and the bits before and after are eight hex digits each
",
    run,
};

fn run(mut arguments: Arguments) -> Result<(), Failure> {
    let (overwrite, plain) = (arguments.flag("--force"), arguments.flag("--plain"));
    let (filler, file) = (arguments.value("--filler")?, arguments.option("-o")?);
    let [path] = arguments.by_place(["RECORD"])?;
    let filler: f32 = filler.ok_or_else(|| missing("--filler X"))?;
    let file = file.ok_or_else(|| missing("-o FILE"))?;
    if file == "-" {
        return Err(Failure::Usage("-o wants a file: standard output has the list".into()));
    }
    let mut record =
        Record::read_damaged(&Input::open(&path)?.whole()?).map_err(Failure::Refused)?;
    let changes = record.repair(filler).map_err(Failure::Refused)?;
    let bytes = record.write().map_err(Failure::Refused)?;
    let line = if plain { plain_line } else { words };
    let mut target = WholeFile::create(&file, overwrite)?;
    target.put(&bytes)?;
    // No repaired record stands there whose list could not be written.
    let lines = changes.iter().map(|change| line(change, &record.header));
    output::put_lines(lines).map_err(list_lost)?;
    target.finish()?;
    tell(&summary(&changes, filler));
    Ok(())
}

/// A list that its reader cut short is told of too: the record went with it.
fn list_lost(failure: Failure) -> Failure {
    match failure {
        Failure::Output(error) => {
            let words = format!("the list of changes: {error}; no record is written");
            Failure::Output(io::Error::other(words))
        }
        other => other,
    }
}

fn plain_line(&Change { list, place, old, new }: &Change, _: &Header) -> String {
    format!("{list} {place} {old:08x} {new:08x}\n")
}

fn words(change: &Change, header: &Header) -> String {
    let mut line = match change.point(header) {
        Some((None, [x, y, z])) => format!("centre ({x}, {y}, {z})"),
        Some((Some(side), [x, y, z])) => format!("neighbour at {} ({x}, {y}, {z})", side.name()),
        None => format!("list {} place {}", change.list, change.place),
    };
    let _ = writeln!(line, ": {} becomes {}", value(change.old), value(change.new));
    line
}

/// A sample in words; of a NaN its bits too, which nothing else tells.
fn value(bits: u32) -> String {
    let sample = f32::from_bits(bits);
    if sample.is_nan() {
        return format!("NaN with bits {bits:08x}");
    }
    format!("{sample}")
}

/// What was bad is what no block may have; all other changes were taken from the centre.
fn summary(changes: &[Change], filler: f32) -> String {
    if changes.is_empty() {
        return "nothing to repair: the record is written as it was".to_string();
    }
    let is_bad = |change: &&Change| {
        let old = f32::from_bits(change.old);
        old.is_nan() || old.abs() > MOST_SIZE
    };
    let bad = changes.iter().filter(is_bad).count();
    let taken = changes.len() - bad;
    format!(
        "{} became {filler}, {} the centre's bits",
        counted(bad, "sample", "samples"),
        counted(taken, "fine sample took", "fine samples took")
    )
}

fn counted(count: usize, one: &str, many: &str) -> String {
    format!("{count} {}", if count == 1 { one } else { many })
}
