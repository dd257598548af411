//! Records: both round trips, each refusal of reader and writer with the lent buffer unchanged, and the viewer's calls.

use sirveshan::viewer::{self, PlaceKind, Sampled};
use sirveshan::{
    neighbours_length, read_record, record_length, sample_length, sample_place, write_record,
    Block, Header, Mesher, Record, Refusal, Side,
};

const MARK: u32 = 0x7fa5_a5a5;

fn header(subdivisions: usize, mask: u8) -> Header {
    let block = Block { base: [1.0, -0.0, 3.5], size: 8.0, subdivisions };
    Header { block, mask, threshold: 0.5 }
}

/// Each sample tells its place.
fn record(subdivisions: usize, mask: u8) -> Record {
    let centre = sample_length(subdivisions);
    let all: Vec<f32> =
        (0..centre + neighbours_length(subdivisions, mask)).map(|k| k as f32).collect();
    Record::new(header(subdivisions, mask), all[..centre].to_vec(), all[centre..].to_vec())
}

fn bytes() -> Vec<u8> {
    record(1, 0).write().unwrap()
}

fn changed(at: usize, byte: u8) -> Vec<u8> {
    let mut bytes = bytes();
    bytes[at] = byte;
    bytes
}

fn reading_refused(bytes: &[u8], number: u32, values: [usize; 3]) {
    let mut samples = vec![f32::from_bits(MARK); 40];
    assert_eq!(read_record(bytes, &mut samples), Err(Refusal { number, values }));
    assert!(samples.iter().all(|sample| sample.to_bits() == MARK));
    assert_eq!(Record::read(bytes), Err(Refusal { number, values }));
    assert_eq!(viewer::subdivisions(bytes), Err(Refusal { number, values }));
    assert_eq!(viewer::blank(bytes), Err(Refusal { number, values }));
    assert_eq!(viewer::sample(bytes, 0, 0, 0), Err(Refusal { number, values }));
    assert_eq!(viewer::sample_kind(bytes, 0, 0, 0), Err(Refusal { number, values }));
}

fn writing_refused(record: &Record, number: u32, values: [usize; 3]) {
    let mut bytes = vec![7; 200];
    let answer = write_record(&record.header, &record.centre, &record.neighbours, &mut bytes);
    assert_eq!(answer, Err(Refusal { number, values }));
    assert!(bytes.iter().all(|&byte| byte == 7));
    assert_eq!(record.write(), Err(Refusal { number, values }));
}

#[test]
fn what_is_written_is_read_and_what_is_read_is_written() {
    for (n, mask) in [(1, 0), (1, 63), (2, 0b100001), (16, 0), (17, 1), (64, 0)] {
        let record = record(n, mask);
        let bytes = record.write().unwrap();
        assert_eq!(bytes.len(), record_length(n, mask));
        let read = Record::read(&bytes).unwrap();
        assert_eq!(read, record);
        assert_eq!(read.header.block.base[1].to_bits(), (-0.0_f32).to_bits());
        assert_eq!(read.write().unwrap(), bytes);
    }
}

#[test]
fn all_beyond_stays() {
    let mut samples = vec![f32::from_bits(MARK); 33];
    assert_eq!(read_record(&bytes(), &mut samples), Ok(header(1, 0)));
    assert_eq!(samples[31], 31.0);
    assert_eq!(samples[32].to_bits(), MARK);
    let mut room = vec![7; 156];
    let record = record(1, 0);
    assert_eq!(write_record(&record.header, &record.centre, &[], &mut room), Ok(155));
    assert_eq!(room[..155], bytes());
    assert_eq!(room[155], 7);
}

#[test]
fn the_reader_refuses() {
    reading_refused(&[], 11, [0; 3]);
    reading_refused(&bytes()[..154], 11, [0; 3]);
    reading_refused(&changed(4, 2), 12, [2, 0, 0]);
    reading_refused(&changed(5, 65), 1, [65, 0, 0]);
    reading_refused(&changed(5, 17), 13, [7776, 0, 0]);
    reading_refused(&changed(6, 64), 2, [64, 0, 0]);
    reading_refused(&changed(23, 0), 3, [3, 0, 0]);
    reading_refused(&changed(5, 2), 13, [81, 0, 0]);
    reading_refused(&changed(27 + 4 * 5, 0x7f), 7, [5, 0, 0]);
}

#[test]
fn the_reader_wants_room() {
    let mut samples = vec![f32::from_bits(MARK); 31];
    let wanted = Refusal { number: 14, values: [32, 0, 0] };
    assert_eq!(read_record(&bytes(), &mut samples), Err(wanted));
    assert!(samples.iter().all(|sample| sample.to_bits() == MARK));
}

#[test]
fn the_writer_refuses() {
    let good = record(1, 0);
    let with = |header: Header| Record { header, ..good.clone() };
    writing_refused(&with(Header { mask: 64, ..good.header }), 2, [64, 0, 0]);
    writing_refused(&with(Header { mask: 1, ..good.header }), 5, [0, 0, 0]);
    writing_refused(&with(Header { threshold: f32::NAN, ..good.header }), 3, [4, 0, 0]);
    let block = Block { subdivisions: usize::MAX, ..good.header.block };
    writing_refused(&with(Header { block, ..good.header }), 1, [usize::MAX, 0, 0]);
    writing_refused(&Record { centre: vec![0.0; 33], ..good.clone() }, 4, [32, 0, 0]);
    writing_refused(&Record { neighbours: vec![0.0], ..good.clone() }, 6, [0, 0, 0]);
    writing_refused(&Record { centre: vec![f32::NAN; 32], ..good.clone() }, 7, [0, 0, 0]);
    let wanted = Refusal { number: 14, values: [155, 0, 0] };
    assert_eq!(write_record(&good.header, &good.centre, &[], &mut [0; 154]), Err(wanted));
}

#[test]
fn the_viewer_reads() {
    let bytes = record(2, 1).write().unwrap();
    assert_eq!(viewer::subdivisions(&bytes), Ok(2));
    assert_eq!(viewer::blank(&bytes), Ok(false));
    for (point, kind) in [
        ([0, 0, 0], PlaceKind::InBlock),
        ([1, 2, 0], PlaceKind::InBlock),
        ([2, 2, 2], PlaceKind::InBlock),
        ([-1, 1, 2], PlaceKind::Face(Side::LowX)),
        ([3, 0, 0], PlaceKind::Face(Side::HighX)),
        ([0, -1, 2], PlaceKind::Face(Side::LowY)),
        ([2, 3, 0], PlaceKind::Face(Side::HighY)),
        ([0, 2, -1], PlaceKind::Face(Side::LowZ)),
        ([1, 2, 3], PlaceKind::Face(Side::HighZ)),
    ] {
        let value = sample_place(2, point).unwrap() as f32;
        let [x, y, z] = point;
        assert_eq!(viewer::sample(&bytes, x, y, z), Ok(value));
        assert_eq!(viewer::sample_kind(&bytes, x, y, z), Ok(Sampled { value, kind }));
    }
}

#[test]
fn a_point_never_sampled_tells_how_many_coordinates_are_outside() {
    let bytes = record(2, 1).write().unwrap();
    for ([x, y, z], outside) in [
        ([-1, -1, 0], 2),
        ([-1, 3, 9], 3),
        ([0, 4, 0], 1),
        ([0, 0, -2], 1),
        ([i32::MIN, 0, 0], 1),
        ([0, i32::MAX, 0], 1),
    ] {
        assert_eq!(sample_place(2, [x, y, z]), None);
        let never = Refusal { number: 15, values: [outside, 0, 0] };
        assert_eq!(viewer::sample(&bytes, x, y, z), Err(never));
        assert_eq!(viewer::sample_kind(&bytes, x, y, z), Err(never));
    }
}

#[test]
fn a_blank_record() {
    let blank = Record::new(header(1, 0), vec![0.0; 32], vec![]);
    assert_eq!(viewer::blank(&blank.write().unwrap()), Ok(true));
    let mut mesher = Mesher::new();
    assert_eq!(mesher.mesh(&blank).unwrap().triangles.len(), 0);
}

/// Its own samples are all outside, and its finer neighbour's are not.
#[test]
fn a_ledge_is_not_blank() {
    let bytes = std::fs::read("../../examples/ledge.record").unwrap();
    assert_eq!(viewer::blank(&bytes), Ok(false));
    let ledge = Record::read(&bytes).unwrap();
    let mut mesher = Mesher::new();
    assert_eq!(mesher.mesh(&ledge).unwrap().triangles.len(), 14);
    let alone = Record::new(Header { mask: 0, ..ledge.header }, ledge.centre, vec![]);
    assert_eq!(viewer::blank(&alone.write().unwrap()), Ok(true));
    assert_eq!(mesher.mesh(&alone).unwrap().triangles.len(), 0);
}
