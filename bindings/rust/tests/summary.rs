//! Summaries by layer: made and kept up to date, each refusal with both lists unchanged, zeros of both signs, marks.

use sirveshan::{
    make_summary, sample_length, sample_place, set_sample, summary_length, Block, Header, Mesher,
    Refusal, Summary, MOST_SUBDIVISIONS,
};

const MARK: u32 = 0x7fa5_a5a5;

/// Samples that grow along x: those of the plane x are x and x + 0.5.
fn samples(n: usize) -> Vec<f32> {
    let mut samples = vec![-7.0; sample_length(n)];
    for x in 0..=n as i32 {
        for y in 0..=n as i32 {
            for z in 0..=n as i32 {
                let place = sample_place(n, [x, y, z]).unwrap();
                samples[place] = x as f32 + if (y + z) % 2 == 0 { 0.0 } else { 0.5 };
            }
        }
    }
    samples
}

fn marked(length: usize) -> Vec<f32> {
    vec![f32::from_bits(MARK); length]
}

fn bits(numbers: &[f32]) -> Vec<u32> {
    numbers.iter().map(|number| number.to_bits()).collect()
}

fn refusal(number: u32, first: usize) -> Result<(), Refusal> {
    Err(Refusal { number, values: [first, 0, 0] })
}

#[test]
fn made_layer_by_layer() {
    for n in 1..=4 {
        let mut summary = marked(summary_length(n) + 3);
        assert_eq!(make_summary(n, &samples(n), &mut summary), Ok(()));
        for (x, extent) in summary[..2 * n].chunks(2).enumerate() {
            assert_eq!(extent, [x as f32, x as f32 + 1.5]);
        }
        assert_eq!(bits(&summary[2 * n..]), [MARK; 3]);
    }
}

#[test]
fn making_refuses() {
    let refused = |n, samples: &[f32], room, number, first| {
        let mut summary = marked(room);
        assert_eq!(make_summary(n, samples, &mut summary), refusal(number, first));
        assert!(bits(&summary).iter().all(|&pattern| pattern == MARK));
    };
    let mut given = samples(2);
    refused(0, &given, 4, 1, 0);
    refused(usize::MAX, &given, 4, 1, usize::MAX);
    refused(2, &given[1..], 4, 4, 81);
    refused(2, &given, 3, 14, 4);
    given[80] = f32::INFINITY;
    refused(2, &given, 3, 7, 80);
}

#[test]
fn setting_refuses() {
    let refused = |n, given: &[f32], point, value, room, number, first| {
        let (mut samples, mut summary) = (given.to_vec(), marked(room));
        let answer = set_sample(n, &mut samples, point, value, &mut summary);
        assert_eq!(answer, refusal(number, first));
        assert_eq!(bits(&samples), bits(given));
        assert!(bits(&summary).iter().all(|&pattern| pattern == MARK));
    };
    let mut given = samples(2);
    let many = MOST_SUBDIVISIONS + 1;
    refused(many, &given, [0; 3], 0.0, 4, 1, many);
    refused(2, &given[1..], [0; 3], 0.0, 4, 4, 81);
    refused(2, &given, [-1, 3, 0], f32::NAN, 3, 15, 2);
    refused(2, &given, [0, i32::MIN, 0], f32::NAN, 3, 15, 1);
    refused(2, &given, [-1, 1, 2], f32::NAN, 3, 7, 32);
    refused(2, &given, [0, 0, 1], 1.0, 3, 14, 4);
    given[5] = f32::NAN;
    refused(2, &given, [-1, 3, 0], f32::NAN, 3, 7, 5);
}

#[test]
fn set_touches_the_layers_that_hold_the_point() {
    let given = samples(4);
    for (x, touched) in [(0, 0..1), (1, 0..2), (3, 2..4), (4, 3..4)] {
        let (mut samples, mut summary) = (given.clone(), marked(8));
        assert_eq!(set_sample(4, &mut samples, [x, 2, 3], 99.0, &mut summary), Ok(()));
        let place = sample_place(4, [x, 2, 3]).unwrap();
        assert!((0..samples.len()).all(|k| samples[k] == if k == place { 99.0 } else { given[k] }));
        for (layer, extent) in summary.chunks(2).enumerate() {
            if touched.contains(&layer) {
                assert_eq!(extent, [layer as f32, 99.0]);
            } else {
                assert_eq!(bits(extent), [MARK; 2]);
            }
        }
    }
    let (mut samples, mut summary) = (given, marked(8));
    assert_eq!(set_sample(4, &mut samples, [5, 0, 4], 99.0, &mut summary), Ok(()));
    assert_eq!(bits(&summary), [MARK; 8]);
    assert_eq!(samples[sample_place(4, [5, 0, 4]).unwrap()], 99.0);
}

#[test]
fn of_equals_the_first_is_kept() {
    let mut samples = vec![0.0; sample_length(1)];
    samples[3] = -0.0;
    let summary = Summary::make(1, &samples).unwrap();
    assert_eq!(bits(summary.as_slice()), [0, 0]);
    samples[0] = -0.0;
    let summary = Summary::make(1, &samples).unwrap();
    assert_eq!(bits(summary.as_slice()), [1 << 31, 1 << 31]);
}

#[test]
fn kept_beside_the_samples() {
    let mut samples = samples(3);
    let mut summary = Summary::make(3, &samples).unwrap();
    summary.as_mut_slice()[5] = f32::NAN;
    assert_eq!(
        [summary.layer(1), summary.layer(2), summary.layer(3)],
        [Some([1.0, 2.5]), None, None]
    );
    summary.set(&mut samples, [2, 1, 1], -4.0).unwrap();
    assert_eq!([summary.layer(1), summary.layer(2)], [Some([-4.0, 2.5]), Some([-4.0, 3.5])]);
    assert_eq!(bits(summary.as_slice()), bits(Summary::make(3, &samples).unwrap().as_slice()));
    assert_eq!(summary.set(&mut samples, [9, 9, 9], 0.0), refusal(15, 3));
    assert_eq!(Summary::make(3, &samples[1..]).map(|_| ()), refusal(4, 160));
    assert_eq!(
        Refusal { number: 26, values: [3, 0, 0] }.to_string(),
        "layer 3 of the summary differs in value from one made afresh"
    );
}

/// Extraction passes over the layers on one side, and the mesh is the same.
#[test]
fn meshed_with_a_summary() {
    let samples = samples(3);
    let block = Block { base: [0.0; 3], size: 1.0, subdivisions: 3 };
    let header = Header { block, mask: 0, threshold: 1.75 };
    let mut summary = Summary::make(3, &samples).unwrap();
    let (mut mesher, mut other) = (Mesher::new(), Mesher::new());
    let plain = mesher.extract(&header, &samples, &[]).unwrap();
    let mut passed_over = |summary: &Summary| {
        let mesh = other.extract_layered(&header, &samples, &[], summary)?;
        assert_eq!((mesh.vertices, mesh.triangles), (plain.vertices, plain.triangles));
        Ok((plain.reads - mesh.reads) / (8 * 3 * 3))
    };
    assert_eq!(passed_over(&summary), Ok(2));
    summary.as_mut_slice()[4] = f32::NAN;
    assert_eq!(passed_over(&summary), Ok(1));
    summary.as_mut_slice()[2] += 0.25;
    assert_eq!(passed_over(&summary), Err(Refusal { number: 26, values: [1, 0, 0] }));
    let shorter = Summary::make(2, &self::samples(2)).unwrap();
    assert_eq!(passed_over(&shorter), Err(Refusal { number: 14, values: [6, 0, 0] }));
}
