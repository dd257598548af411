//! Repair: what is changed and how it is listed, the bits that stay, a second pass, and each refusal with nothing altered.

use sirveshan::{
    repair, sample_length, sample_place, Block, Change, Header, Mesher, Record, Refusal, Side,
};

const A_NAN: u32 = 0xffa1_2345;
const INFINITE: u32 = 0x7f80_0000;
const BEYOND: u32 = 0x4980_0001;
const NEGATIVE_ZERO: u32 = 0x8000_0000;

/// Inside everywhere, with two finer neighbours.
fn sound() -> Record {
    let block = Block { base: [0.0; 3], size: 1.0, subdivisions: 1 };
    let header = Header { block, mask: Side::LowX.bit() | Side::HighZ.bit(), threshold: 0.75 };
    Record::new(header, vec![1.0; header.centre_length()], vec![1.0; header.neighbours_length()])
}

/// Where low x's (0, 1, 1) stands in its neighbour, and high z's (0, 0, 1) in the other.
fn shared() -> [usize; 2] {
    [sample_place(2, [2, 2, 2]).unwrap(), sample_length(2) + sample_place(2, [0, 0, 0]).unwrap()]
}

fn damaged() -> Record {
    let mut record = sound();
    let [low_x, high_z] = shared();
    record.centre[4] = f32::from_bits(A_NAN);
    record.neighbours[40] = f32::from_bits(INFINITE);
    record.neighbours[low_x] = f32::from_bits(NEGATIVE_ZERO);
    record.neighbours[high_z] = f32::from_bits(BEYOND);
    record
}

fn bits(record: &Record) -> Vec<u32> {
    record.centre.iter().chain(&record.neighbours).map(|sample| sample.to_bits()).collect()
}

fn changes(filler: f32) -> [Change; 5] {
    let (filler, one) = (filler.to_bits(), 1f32.to_bits());
    let [low_x, high_z] = shared().map(|place| place as u32);
    [
        Change { list: 0, place: 4, old: A_NAN, new: filler },
        Change { list: 1, place: 40, old: INFINITE, new: filler },
        Change { list: 1, place: high_z, old: BEYOND, new: filler },
        Change { list: 1, place: low_x, old: NEGATIVE_ZERO, new: one },
        Change { list: 1, place: high_z, old: filler, new: one },
    ]
}

#[test]
fn every_change_is_listed_and_all_else_stays() {
    let mut record = damaged();
    assert_eq!(record.repair(0.5), Ok(changes(0.5).to_vec()));
    let mut wanted = sound();
    (wanted.centre[4], wanted.neighbours[40]) = (0.5, 0.5);
    assert_eq!(bits(&record), bits(&wanted));
    assert_eq!(record.repair(-3.0), Ok(vec![]));
    assert_eq!(bits(&record), bits(&wanted));
    assert!(Mesher::new().mesh(&record).is_ok());
}

#[test]
fn undone_from_the_last_the_list_gives_the_delivery_back() {
    let mut record = damaged();
    for change in record.repair(-0.0).unwrap().iter().rev() {
        let list = if change.list == 0 { &mut record.centre } else { &mut record.neighbours };
        let sample = &mut list[change.place as usize];
        assert_eq!(sample.to_bits(), change.new);
        *sample = f32::from_bits(change.old);
    }
    assert_eq!(bits(&record), bits(&damaged()));
}

#[test]
fn what_is_accepted_is_not_changed() {
    let mut record = sound();
    assert_eq!(record.repair(0.0), Ok(vec![]));
    assert_eq!(bits(&record), bits(&sound()));
}

#[test]
fn all_beyond_the_list_stays() {
    let Record { header, mut centre, mut neighbours } = damaged();
    let mark = Change { list: 7, place: 7, old: 7, new: 7 };
    let mut list = [mark; 7];
    assert_eq!(repair(&header, &mut centre, &mut neighbours, 0.5, &mut list), Ok(5));
    assert_eq!(list[..5], changes(0.5));
    assert_eq!(list[5..], [mark; 2]);
}

fn refused(record: Record, filler: f32, room: usize, number: u32, first: usize) {
    let mut list = vec![Change::default(); room];
    let Record { header, mut centre, mut neighbours } = record.clone();
    let wanted = Refusal { number, values: [first, 0, 0] };
    assert_eq!(repair(&header, &mut centre, &mut neighbours, filler, &mut list), Err(wanted));
    assert_eq!(bits(&Record::new(header, centre, neighbours)), bits(&record));
    assert!(list.iter().all(|&change| change == Change::default()));
}

#[test]
fn a_refusal_alters_nothing() {
    for filler in [f32::NAN, f32::INFINITY, f32::NEG_INFINITY, 1048576.1, -1048577.0] {
        refused(damaged(), filler, 5, 18, 0);
    }
    refused(damaged(), 0.5, 4, 19, 5);
    refused(damaged(), 1048576.0, 3, 19, 4);
    refused(damaged(), 0.5, 0, 19, 5);
    let mut other = damaged();
    other.neighbours.pop();
    refused(other, f32::NAN, 0, 5, 5);
}

#[test]
fn a_changes_point() {
    let header = damaged().header;
    let at = |list, place| Change { list, place, old: 0, new: 0 }.point(&header);
    assert_eq!(at(0, 4), Some((None, [1, 0, 0])));
    assert_eq!(at(0, 8), Some((None, [-1, 0, 0])));
    assert_eq!(at(0, 32), None);
    let points = changes(0.5).map(|change| change.point(&header).unwrap());
    let fine =
        [(Some(Side::HighZ), [0; 3]), (Some(Side::LowX), [2; 3]), (Some(Side::HighZ), [0; 3])];
    assert_eq!(points[2..], fine);
    assert_eq!(at(1, 2 * 81), None);
}

#[test]
fn a_damaged_record_is_read_as_it_stands() {
    let mut sound_bytes = sound().write().unwrap();
    assert_eq!(bits(&Record::read_damaged(&sound_bytes).unwrap()), bits(&sound()));
    let at = 27 + 4 * 4;
    sound_bytes[at..at + 4].copy_from_slice(&A_NAN.to_be_bytes());
    assert_eq!(Record::read(&sound_bytes).map_err(|refusal| refusal.number), Err(7));
    let mut record = Record::read_damaged(&sound_bytes).unwrap();
    assert_eq!(record.centre[4].to_bits(), A_NAN);
    assert_eq!(record.repair(1.0).unwrap().len(), 1);
    assert_eq!(record.write(), sound().write());
    for (length, number) in [(0, 11), (26, 11), (sound_bytes.len() - 1, 11)] {
        let cut = Record::read_damaged(&sound_bytes[..length]);
        assert_eq!(cut.map_err(|refusal| refusal.number).unwrap_err(), number);
    }
    sound_bytes[5] = 0;
    assert_eq!(Record::read_damaged(&sound_bytes).unwrap_err().number, 1);
}
