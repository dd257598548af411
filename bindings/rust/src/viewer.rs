//! The calls that a viewer makes with the bytes of one record. They judge the record whole, as the reader does, and write
//! nowhere.

use crate::{linked, read_record, Refusal, Side};
use std::fmt;

const REFUSED: u64 = 100;
const SAMPLE_REFUSED: u64 = 1 << 32;

/// The block's subdivisions.
pub fn subdivisions(record: &[u8]) -> Result<usize, Refusal> {
    // SAFETY: the pointer goes with the length of its slice, which lives through the call.
    let answer = unsafe { linked::sirveshan_subdivisions(record.as_ptr(), record.len()) };
    match answer.checked_sub(REFUSED) {
        None => Ok(answer as usize),
        Some(number) => Err(refusal(record, number)),
    }
}

/// Whether the block is blank: all in-block samples, and all of each finer neighbour in the face that it shares with the
/// block, lie on one side of the threshold. The mesh of a blank block has no triangle; and a block that extraction takes is
/// blank exactly when its mesh has none.
pub fn blank(record: &[u8]) -> Result<bool, Refusal> {
    // SAFETY: the pointer goes with the length of its slice, which lives through the call.
    let answer = unsafe { linked::sirveshan_blank(record.as_ptr(), record.len()) };
    match answer.checked_sub(REFUSED) {
        None => Ok(answer == 1),
        Some(number) => Err(refusal(record, number)),
    }
}

/// The sample at a grid point of the block: coordinates 0 to n, of which one may be a step outside.
/// Any other point was never sampled, which is refusal 15.
pub fn sample(record: &[u8], x: i32, y: i32, z: i32) -> Result<f32, Refusal> {
    // SAFETY: the pointer goes with the length of its slice, which lives through the call.
    let answer = unsafe { linked::sirveshan_sample(record.as_ptr(), record.len(), x, y, z) };
    match answer.checked_sub(SAMPLE_REFUSED) {
        None => Ok(f32::from_bits(answer as u32)),
        // The packed number is a refusal's alone: the call beside it tells its three numbers too.
        Some(_) => sample_kind(record, x, y, z).map(|sampled| sampled.value),
    }
}

/// The store that a sample came from. `Display` says `in-block`, or `face-` and the face's number.
#[derive(Clone, Copy, Debug, PartialEq, Eq)]
pub enum PlaceKind {
    /// A point of the block itself.
    InBlock,
    /// A point one step outside, on the extension face beyond this side.
    Face(Side),
}

impl fmt::Display for PlaceKind {
    fn fmt(&self, out: &mut fmt::Formatter<'_>) -> fmt::Result {
        match self {
            PlaceKind::InBlock => out.write_str("in-block"),
            PlaceKind::Face(side) => write!(out, "face-{}", side.number()),
        }
    }
}

/// A sample and the store that it came from.
#[derive(Clone, Copy, Debug, PartialEq)]
pub struct Sampled {
    /// The sample.
    pub value: f32,
    /// Where it is stored.
    pub kind: PlaceKind,
}

/// The sample at a grid point, as [`sample`] answers it, with the store that it came from. The first
/// number of refusal 15 is how many coordinates are outside, 1 to 3.
pub fn sample_kind(record: &[u8], x: i32, y: i32, z: i32) -> Result<Sampled, Refusal> {
    // SAFETY: the pointer goes with the length of its slice, which lives through the call.
    let answer = unsafe { linked::sirveshan_sample_kind(record.as_ptr(), record.len(), x, y, z) };
    answer.refused.check()?;
    let kind = match Side::ALL.get(answer.kind) {
        Some(&side) => PlaceKind::Face(side),
        None => PlaceKind::InBlock,
    };
    Ok(Sampled { value: answer.value, kind })
}

/// The refusal of a call that tells the number alone: the reader, which judges the same in the same
/// order, has its three numbers.
fn refusal(record: &[u8], number: u64) -> Refusal {
    match read_record(record, &mut []) {
        Err(refusal) if u64::from(refusal.number) == number => refusal,
        _ => Refusal { number: number as u32, values: [0; 3] },
    }
}
