//! Block records: bytes to a block with its samples, and back.

use crate::{linked, record_length, Header, Refusal, RECORD_HEADER};

/// Reads a record into a lent list: the block's samples first, then those of its neighbours. All
/// beyond stays; a refusal alters nothing.
pub fn read_record(bytes: &[u8], samples: &mut [f32]) -> Result<Header, Refusal> {
    // SAFETY: each pointer goes with the length of its slice, which lives through the call.
    let answer = unsafe {
        linked::sirveshan_read(bytes.as_ptr(), bytes.len(), samples.as_mut_ptr(), samples.len())
    };
    answer.refused.check()?;
    Ok(answer.header.into())
}

/// Writes the record of a block into a lent buffer and answers its length. All beyond stays; a
/// refusal alters nothing.
pub fn write_record(
    header: &Header,
    centre: &[f32],
    neighbours: &[f32],
    bytes: &mut [u8],
) -> Result<usize, Refusal> {
    // SAFETY: each pointer goes with the length of its slice, which lives through the call.
    let answer = unsafe {
        linked::sirveshan_write(
            header.into(),
            centre.as_ptr(),
            centre.len(),
            neighbours.as_ptr(),
            neighbours.len(),
            bytes.as_mut_ptr(),
            bytes.len(),
        )
    };
    answer.refused.check()?;
    Ok(answer.length)
}

/// A block with its samples, as a record holds them.
///
/// ```
/// use sirveshan::{Block, Header, Record};
///
/// let block = Block { base: [0.0; 3], size: 1.0, subdivisions: 1 };
/// let header = Header { block, mask: 0, threshold: 0.5 };
/// let record = Record::new(header, vec![0.0; 32], vec![]);
/// let bytes = record.write().unwrap();
/// assert_eq!(bytes.len(), 155);
/// assert_eq!(Record::read(&bytes), Ok(record));
/// ```
#[derive(Clone, Debug, PartialEq)]
pub struct Record {
    /// The block, the sides with finer neighbours, the threshold.
    pub header: Header,
    /// The block's samples.
    pub centre: Vec<f32>,
    /// The samples of its finer neighbours, one after another in side order.
    pub neighbours: Vec<f32>,
}

impl Record {
    /// A record of these parts. Nothing is judged until it is written or meshed.
    pub fn new(header: Header, centre: Vec<f32>, neighbours: Vec<f32>) -> Record {
        Record { header, centre, neighbours }
    }

    /// Reads the bytes of one record. Never answers refusal 14: room is made for the samples.
    pub fn read(bytes: &[u8]) -> Result<Record, Refusal> {
        let mut centre = vec![0.0; bytes.len().saturating_sub(RECORD_HEADER) / 4];
        let header = read_record(bytes, &mut centre)?;
        let neighbours = centre.split_off(header.centre_length());
        Ok(Record { header, centre, neighbours })
    }

    /// Reads the bytes of a record whose samples may be damaged: they are taken as they stand, for [`Record::repair`]. All but
    /// the samples is judged as in [`Record::read`], so 7 is not.
    pub fn read_damaged(bytes: &[u8]) -> Result<Record, Refusal> {
        let head = RECORD_HEADER.min(bytes.len());
        let mut sound = bytes.to_vec();
        sound[head..].fill(0);
        let mut record = Record::read(&sound)?;
        let samples = record.centre.iter_mut().chain(&mut record.neighbours);
        for (sample, pattern) in samples.zip(bytes[head..].chunks_exact(4)) {
            *sample = f32::from_be_bytes([pattern[0], pattern[1], pattern[2], pattern[3]]);
        }
        Ok(record)
    }

    /// The bytes of the record. Never answers refusal 14: the room is made.
    pub fn write(&self) -> Result<Vec<u8>, Refusal> {
        // What is refused for its lengths is judged before any room is looked at.
        match write_record(&self.header, &self.centre, &self.neighbours, &mut []) {
            Err(Refusal { number: 14, values: [length, ..] }) => {
                let mut bytes = vec![0; length];
                write_record(&self.header, &self.centre, &self.neighbours, &mut bytes)?;
                Ok(bytes)
            }
            answer => answer.map(|_| Vec::new()),
        }
    }

    /// How many bytes it has when it is written.
    pub fn length(&self) -> usize {
        record_length(self.header.block.subdivisions, self.header.mask)
    }
}
