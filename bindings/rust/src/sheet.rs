//! The sheet of a run of records, laid end to end by their length fields: a line a record, and their total.

use crate::{linked, Refusal};
use std::iter::FusedIterator;
use std::ops::{AddAssign, Range};

/// What is counted in a block, or in several.
#[derive(Clone, Copy, Debug, Default, PartialEq, Eq)]
pub struct Figures {
    /// Inside samples among the (n+1)^3 in-block points.
    pub inside: u64,
    /// Crossing grid edges along x, y and z: one end is inside and the other is not.
    pub edges: [u64; 3],
    /// Vertices of the mesh that extraction makes.
    pub vertices: u64,
    /// Triangles of that mesh.
    pub triangles: u64,
}

/// Lines are added up so. The figures of all records of a run fit: that is proved.
impl AddAssign for Figures {
    fn add_assign(&mut self, more: Figures) {
        self.inside += more.inside;
        for (sum, edges) in self.edges.iter_mut().zip(more.edges) {
            *sum += edges;
        }
        self.vertices += more.vertices;
        self.triangles += more.triangles;
    }
}

/// A line of the sheet.
#[derive(Clone, Debug, PartialEq, Eq)]
pub struct SheetLine {
    /// The bytes of the run that it is of: a record, or the cut end.
    pub bytes: Range<usize>,
    /// The record's figures, or why it is refused.
    pub figures: Result<Figures, Refusal>,
}

/// The line of the record that begins at a place of a run; none at the run's end and beyond it. A run above
/// [`MOST_RUN`](crate::MOST_RUN) bytes is refused by 11.
///
/// Judged are the reader's 11, 12, 1, 2, 3, 13, 7, and then 8. A record that is cut, with fewer than four bytes left or fewer than its length
/// field tells, is refused by 11 and has all bytes that are left.
pub fn sheet_line(run: &[u8], at: usize) -> Result<Option<SheetLine>, Refusal> {
    // SAFETY: the pointer goes with the length of its slice, which lives through the call.
    let answer = unsafe { linked::sirveshan_sheet_line(run.as_ptr(), run.len(), at) };
    let refused = answer.refused.check();
    if answer.next == 0 {
        return refused.map(|()| None);
    }
    let figures = refused.map(|()| answer.figures.into());
    Ok(Some(SheetLine { bytes: at..answer.next, figures }))
}

/// The figures of all records of a run that are not refused, added up. A run above [`MOST_RUN`](crate::MOST_RUN) bytes is refused by 11.
pub fn sheet_total(run: &[u8]) -> Result<Figures, Refusal> {
    // SAFETY: the pointer goes with the length of its slice, which lives through the call.
    let answer = unsafe { linked::sirveshan_sheet_total(run.as_ptr(), run.len()) };
    answer.refused.check()?;
    Ok(answer.figures.into())
}

/// The lines of a run, one after another. A run above [`MOST_RUN`](crate::MOST_RUN) bytes is refused by 11.
///
/// ```
/// use sirveshan::{sheet, sheet_total, Figures};
///
/// let mut run = std::fs::read("../../examples/case-a.record").unwrap();
/// run.extend([0, 0, 0, 1, 9]);
/// run.extend([0, 0]);
/// let lines: Vec<_> = sheet(&run).unwrap().collect();
/// let corner = Figures { inside: 1, edges: [1, 1, 1], vertices: 3, triangles: 1 };
/// assert_eq!(lines[0].figures, Ok(corner));
/// assert_eq!(lines[1].bytes, 155..160);
/// assert_eq!(lines[2].bytes, 160..162);
/// assert!(lines[1..].iter().all(|line| line.figures.as_ref().unwrap_err().number == 11));
/// assert_eq!(sheet_total(&run), Ok(corner));
/// ```
pub fn sheet(run: &[u8]) -> Result<SheetLines<'_>, Refusal> {
    sheet_line(run, run.len())?;
    Ok(SheetLines { run, at: 0 })
}

/// What [`sheet`] answers.
#[derive(Clone, Debug)]
pub struct SheetLines<'run> {
    run: &'run [u8],
    at: usize,
}

impl Iterator for SheetLines<'_> {
    type Item = SheetLine;

    fn next(&mut self) -> Option<SheetLine> {
        let line = sheet_line(self.run, self.at).ok().flatten()?;
        self.at = line.bytes.end;
        Some(line)
    }
}

impl FusedIterator for SheetLines<'_> {}
