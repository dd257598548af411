//! What a run of seeds brings, and that the oracle takes all of it.

use blocks::seeds::{Seeds, Sizes};
use oracle::record::{block_length, neighbours_length, Block};
use oracle::Star;
use std::collections::BTreeSet;

#[test]
fn every_n_and_every_mask() {
    let met: Vec<Block> = (0..2048).map(blocks::block).collect();
    let sizes: BTreeSet<usize> = met.iter().map(|block| block.n).collect();
    let masks: BTreeSet<u8> = met.iter().map(|block| block.mask).collect();
    assert_eq!(sizes, (1..=16).collect());
    assert_eq!(masks, (0..64).collect());
}

#[test]
fn every_larger_n() {
    let met = (0..2048).map(|seed| blocks::block_of(seed * 64, Sizes::Larger).n);
    assert_eq!(met.collect::<BTreeSet<usize>>(), (17..=64).collect());
}

#[test]
fn lengths_and_limits() {
    for block in (0..256).map(blocks::block) {
        assert_eq!(block.centre.len(), block_length(block.n));
        assert_eq!(block.neighbours.len(), neighbours_length(block.n, block.mask));
        let samples = block.centre.iter().chain(&block.neighbours);
        assert!(samples.into_iter().all(|sample| sample.abs() <= 1_048_576.0));
        assert_eq!(Block::from_record(&block.to_record()), Ok(block));
    }
}

/// The added way to end an extraction gives the mesh of the mesher's own.
#[test]
fn same_mesh_both_ways() {
    for block in (0..256).map(blocks::block) {
        let star = Star::new(&block);
        let (own, added) = (star.extract(), star.answer().mesh);
        assert_eq!((own.vertices, own.triangles), (added.vertices, added.triangles));
    }
}

#[test]
fn subdivisions_that_are_asked_for() {
    for n in [1, 16, 64] {
        let block = blocks::block_of(5, Sizes::All(n));
        assert_eq!((block.n, block.mask), (n, 5));
        assert_eq!(block.centre.len(), block_length(n));
        assert_eq!(block.neighbours.len(), neighbours_length(n, 5));
    }
}

#[test]
fn words() {
    let parsed =
        |words: &str| Seeds::parse(&words.split(' ').map(String::from).collect::<Vec<_>>());
    assert_eq!(parsed("3"), Some(Seeds { range: 0..3, sizes: Sizes::Chosen }));
    assert_eq!(parsed("3 7"), Some(Seeds { range: 7..10, sizes: Sizes::Chosen }));
    assert_eq!(parsed("3 7 16"), Some(Seeds { range: 7..10, sizes: Sizes::All(16) }));
    assert_eq!(parsed("3 7 larger"), Some(Seeds { range: 7..10, sizes: Sizes::Larger }));
    for wrong in ["", "x", "-1", "1 2 0", "1 2 65", "1 larger", "1 2 3 4", "1 18446744073709551615"]
    {
        assert_eq!(parsed(wrong), None, "{wrong}");
    }
}
