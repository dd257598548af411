//! Document 01's case A, byte for byte, and what its index store holds.

use oracle::record::{block_length, Block};
use oracle::Star;

fn case_a() -> Block {
    let mut centre = vec![0.0; block_length(1)];
    centre[0] = 1.0;
    Block { n: 1, mask: 0, threshold: 0.5, base: [0.0; 3], size: 1.0, centre, neighbours: vec![] }
}

const LISTING: &str = "\
mesh 3 1
v 3f000000 00000000 00000000 bf000000 00000000 00000000
v 00000000 3f000000 00000000 00000000 bf000000 00000000
v 00000000 00000000 3f000000 00000000 00000000 bf000000
t 0 1 2
";

#[test]
fn listing() {
    assert_eq!(Star::new(&case_a()).answer().listing(), LISTING);
}

/// Every step leaves the block, so no vertex is stored.
#[test]
fn store() {
    assert_eq!(Star::new(&case_a()).answer().store, vec![0; 64]);
}

#[test]
fn record_round_trip() {
    let record = case_a().to_record();
    assert_eq!(record.len(), 27 + 4 * 32);
    assert_eq!(Block::from_record(&record), Ok(case_a()));
    assert!(Block::from_record(&record[1..]).is_err());
}
