//! A repair pass for damaged deliveries: bad samples become a filler, fine samples that disagree with the centre take its bits,
//! and every change is listed.

use crate::{linked, sample_length, sample_point, Header, Record, Refusal, Side};

/// A sample that was changed.
#[repr(C)]
#[derive(Clone, Copy, Debug, Default, PartialEq, Eq, Hash)]
pub struct Change {
    /// The list that it is in: 0 is the centre's, 1 the neighbours'.
    pub list: u32,
    /// Its place there.
    pub place: u32,
    /// The bits that stood there just before.
    pub old: u32,
    /// The bits that it was given.
    pub new: u32,
}

impl Change {
    /// The side whose neighbour it is in, none for the centre, and its grid point in that block; nothing where the block has no
    /// such place.
    pub fn point(&self, header: &Header) -> Option<(Option<Side>, [i32; 3])> {
        let (n, place) = (header.block.subdivisions, self.place as usize);
        if self.list == 0 {
            return Some((None, sample_point(n, place)?));
        }
        let fine = n.checked_mul(2)?;
        let side = Side::named(header.mask).nth(place / sample_length(fine))?;
        Some((Some(side), sample_point(fine, place % sample_length(fine))?))
    }
}

/// Repairs a delivery in place: each sample that refusal 7 is about becomes the filler; then, at each point that refusal 8 is
/// about, the fine sample takes the centre's bits. Answers how many changes were made, which are listed in order in the first
/// places of `changes`. All beyond stays; a refusal alters nothing.
///
/// Refusal 19 tells how many changes there are.
pub fn repair(
    header: &Header,
    centre: &mut [f32],
    neighbours: &mut [f32],
    filler: f32,
    changes: &mut [Change],
) -> Result<usize, Refusal> {
    // SAFETY: each pointer goes with the length of the slice it comes from, the slices live through the call, and the &mut ones
    // are distinct by Rust's own rules. An f32 has the size and the alignment of a u32, every pattern is a value of both, and a
    // Change is four u32.
    let answer = unsafe {
        linked::sirveshan_repair(
            header.into(),
            centre.as_mut_ptr().cast(),
            centre.len(),
            neighbours.as_mut_ptr().cast(),
            neighbours.len(),
            filler,
            changes.as_mut_ptr().cast(),
            4 * changes.len(),
        )
    };
    answer.refused.check()?;
    Ok(answer.changes)
}

impl Record {
    /// Repairs the record's samples and answers the changes, in order. Never answers refusal 19: room is made for the list.
    ///
    /// ```
    /// use sirveshan::{Block, Change, Header, Record};
    ///
    /// let block = Block { base: [0.0; 3], size: 1.0, subdivisions: 1 };
    /// let header = Header { block, mask: 0, threshold: 0.5 };
    /// let mut record = Record::new(header, vec![0.0; 32], vec![]);
    /// record.centre[5] = f32::INFINITY;
    /// let change = Change { list: 0, place: 5, old: 0x7f800000, new: 0x3f800000 };
    /// assert_eq!(record.repair(1.0), Ok(vec![change]));
    /// assert_eq!(record.repair(1.0), Ok(vec![]));
    /// ```
    pub fn repair(&mut self, filler: f32) -> Result<Vec<Change>, Refusal> {
        let Record { header, centre, neighbours } = self;
        let mut changes = Vec::new();
        loop {
            match repair(header, centre, neighbours, filler, &mut changes) {
                Err(Refusal { number: 19, values: [wanted, ..] }) => {
                    changes.resize(wanted, Change::default())
                }
                answer => return answer.map(|_| changes),
            }
        }
    }
}
