//! `sirveshan sheet`: the figures of each record of a run, and their total.

use crate::arguments::Arguments;
use crate::failure::{refusal_line, tell_refusal, Failure};
use crate::jobs::in_order;
use crate::mapped::Bytes;
use crate::progress::Progress;
use crate::{output, Command};
use sirveshan::{sheet_line, Figures, Refusal, SheetLine, MOST_RUN};
use std::io;

pub const COMMAND: Command = Command {
    name: "sheet",
    usage: "sheet RUN|- [--csv] [--jobs N]",
    about: "\
prints the figures of each record of a run, and their total

RUN is the file of records laid end to end by their length fields, or - for standard input. A line a
record, counted from 0: the inside samples among its in-block points, its crossing grid edges along
x, y and z, the vertices and the triangles of its mesh. No mesh is made: all are counted from the
samples. A refused record has a line with its refusal and adds nothing; one that is cut ends the
sheet. The last line is the total. A file is mapped, not held in memory; it must not be changed or cut
short meanwhile.

    --csv       comma-separated: a head line, refusals by their numbers, figures empty where refused
    --jobs N    count on N threads (1 to 256)
",
    run,
};

fn run(mut arguments: Arguments) -> Result<(), Failure> {
    let form = if arguments.flag("--csv") { CSV } else { TABLE };
    let jobs = arguments.jobs()?.unwrap_or(1);
    let [path] = arguments.by_place(["RUN"])?;
    let bytes = Bytes::open(&path, MOST_RUN + 1)?;
    let run = bytes.as_slice();
    sheet_line(run, run.len()).map_err(Failure::Refused)?;
    output::put(form.head.as_bytes())?;
    let mut sheet = Sheet {
        form,
        progress: Progress::new(),
        lines: 0,
        end: 0,
        total: Figures::default(),
        refused: false,
    };
    in_order(jobs, begins(run).map(Ok), || |at| line_at(run, at), |line| sheet.put(line))?;
    sheet.progress.erase();
    follows(run.len(), sheet.end)?;
    output::put((sheet.form.line)("total", &Ok(sheet.total)).as_bytes())?;
    if sheet.refused {
        return Err(Failure::SomeRefused);
    }
    Ok(())
}

/// Where each record of a run begins, by the length fields alone, so that threads need not wait for the one before.
fn begins(run: &[u8]) -> impl Iterator<Item = usize> + '_ {
    let next = |&at: &usize| {
        let field = run.get(at..at + 4)?.try_into().ok()?;
        let next = at + 4 + u32::from_be_bytes(field) as usize;
        (next < run.len()).then_some(next)
    };
    std::iter::successors((!run.is_empty()).then_some(0), next)
}

fn line_at(run: &[u8], at: usize) -> SheetLine {
    sheet_line(run, at).ok().flatten().expect("the place is in a run that is not refused")
}

/// A record begins where the call says that the one before it ends, and so does the run's end: the split has no say.
fn follows(begin: usize, end: usize) -> Result<(), Failure> {
    if begin == end {
        return Ok(());
    }
    let changed = io::Error::new(io::ErrorKind::InvalidData, "changed while it was read");
    Err(Failure::Cannot("the run".into(), changed))
}

/// How a sheet is printed.
struct Form {
    head: &'static str,
    /// A line, by what it is of: a record's number, or the total.
    line: fn(&str, &Result<Figures, Refusal>) -> String,
    /// Whether a refusal is told in words beside the sheet.
    tells: bool,
}

const TABLE: Form = Form {
    head: "  record        inside       x edges       y edges       z edges      vertices     triangles\n",
    line: |name, figures| match figures {
        Ok(figures) => {
            let columns = columns(figures).map(|number| format!("{number:>14}")).concat();
            format!("{name:>8}{columns}\n")
        }
        Err(refusal) => format!("{name:>8}  {}\n", refusal_line(refusal)),
    },
    tells: false,
};

const CSV: Form = Form {
    head: "record,refusal,first,second,third,inside,x_edges,y_edges,z_edges,vertices,triangles\n",
    line: |name, figures| match figures {
        Ok(figures) => {
            let refusal = if name == "total" { ",,,," } else { ",0,0,0,0" };
            let columns = columns(figures).map(|number| format!(",{number}")).concat();
            format!("{name}{refusal}{columns}\n")
        }
        Err(Refusal { number, values: [a, b, c] }) => {
            format!("{name},{number},{a},{b},{c},,,,,,\n")
        }
    },
    tells: true,
};

fn columns(figures: &Figures) -> [u64; 6] {
    let [x, y, z] = figures.edges;
    [figures.inside, x, y, z, figures.vertices, figures.triangles]
}

/// A sheet as it is printed.
struct Sheet {
    form: Form,
    progress: Progress,
    lines: usize,
    /// Where the last line's record ends.
    end: usize,
    total: Figures,
    refused: bool,
}

impl Sheet {
    fn put(&mut self, SheetLine { bytes, figures }: SheetLine) -> Result<(), Failure> {
        self.progress.erase();
        follows(bytes.start, self.end)?;
        self.end = bytes.end;
        output::put((self.form.line)(&self.lines.to_string(), &figures).as_bytes())?;
        match figures {
            Ok(figures) => self.total += figures,
            Err(refusal) => self.put_refusal(&refusal),
        }
        self.lines += 1;
        if self.lines > 1 {
            self.progress.tell(self.lines);
        }
        Ok(())
    }

    fn put_refusal(&mut self, refusal: &Refusal) {
        self.refused = true;
        if self.form.tells {
            tell_refusal(refusal, self.lines, false);
        }
    }
}
