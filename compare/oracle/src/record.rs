//! A block record's bytes as a block, and back.  The refusals are not the Rust
//! mesher's business: a record that is not whole is an error, nothing is judged.

/// What a record says: samples are the centre's, then each named side's in side order.
#[derive(Clone, Debug, PartialEq)]
pub struct Block {
    pub n: usize,
    pub mask: u8,
    pub threshold: f32,
    pub base: [f32; 3],
    pub size: f32,
    pub centre: Vec<f32>,
    pub neighbours: Vec<f32>,
}

const HEADER: usize = 27;

/// The samples of one block with n subdivisions.
pub fn block_length(n: usize) -> usize {
    let m = n + 1;
    m * m * m + 6 * m * m
}

/// The samples of the neighbour blocks that a mask names.
pub fn neighbours_length(n: usize, mask: u8) -> usize {
    mask.count_ones() as usize * block_length(2 * n)
}

fn f32_at(bytes: &[u8], at: usize) -> f32 {
    f32::from_bits(u32::from_be_bytes(bytes[at..at + 4].try_into().unwrap()))
}

impl Block {
    /// The block of one whole record.
    pub fn from_record(record: &[u8]) -> Result<Block, String> {
        if record.len() < HEADER || record_length(record) != Some(record.len()) {
            return Err(format!("{} bytes are not one record", record.len()));
        }
        let [version, n, mask] = [record[4], record[5], record[6]];
        if version != 1 || n == 0 || mask > 63 {
            return Err(format!("version {version}, n {n}, mask {mask}"));
        }
        let n = n as usize;
        let length = block_length(n) + neighbours_length(n, mask);
        if record.len() != HEADER + 4 * length {
            return Err(format!("{} bytes for {length} samples", record.len() - HEADER));
        }
        let mut centre: Vec<f32> =
            (0..length).map(|place| f32_at(record, HEADER + 4 * place)).collect();
        let neighbours = centre.split_off(block_length(n));
        Ok(Block {
            n,
            mask,
            threshold: f32_at(record, 7),
            base: [f32_at(record, 11), f32_at(record, 15), f32_at(record, 19)],
            size: f32_at(record, 23),
            centre,
            neighbours,
        })
    }

    /// The record of this block.
    pub fn to_record(&self) -> Vec<u8> {
        let mut record = vec![0; 4];
        record.extend([1, self.n as u8, self.mask]);
        let header = [self.threshold, self.base[0], self.base[1], self.base[2], self.size];
        for number in header.iter().chain(&self.centre).chain(&self.neighbours) {
            record.extend(number.to_bits().to_be_bytes());
        }
        let length = (record.len() - 4) as u32;
        record[..4].copy_from_slice(&length.to_be_bytes());
        record
    }
}

/// The whole length of the record that begins here, by its length field.
pub fn record_length(bytes: &[u8]) -> Option<usize> {
    let field = bytes.get(..4)?;
    Some(4 + u32::from_be_bytes(field.try_into().unwrap()) as usize)
}
