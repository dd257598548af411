//! Lengths at the sizes that blocks have, and at absurd ones, where nothing panics.

use sirveshan::{
    most_reads, most_triangles, most_vertices, neighbours_length, record_length, sample_length,
    sample_place, sample_point, stl_length, store_length, volume_length, Side,
};

#[test]
fn lengths_of_real_blocks() {
    assert_eq!([1, 2, 4, 16, 64].map(sample_length), [32, 81, 275, 6647, 299_975]);
    assert_eq!(neighbours_length(1, 63), 6 * 81);
    assert_eq!(neighbours_length(16, 0b100), 42471);
    assert_eq!(neighbours_length(64, 63), 6 * 2_246_535);
    assert_eq!([1, 12, 16, 64].map(store_length), [64, 15552, 31744, 1_294_336]);
    assert_eq!(record_length(1, 0), 155);
    assert_eq!([0, 1, 226].map(stl_length), [84, 134, 11384]);
    assert_eq!([[7, 5, 6], [1024; 3], [0, 9, 9]].map(volume_length), [840, 1 << 32, 0]);
    assert_eq!(most_vertices(1, 0), 12);
    assert_eq!(most_vertices(16, 63), 27_984);
    assert_eq!(most_triangles(16, 63), 5 * 4096 + 12 * 6 * 256);
    assert_eq!([most_vertices(0, 63), most_triangles(0, 63)], [0, 0]);
    assert_eq!(
        [(0, 63), (1, 0), (1, 63), (16, 0)].map(|(n, mask)| most_reads(n, mask)),
        [0, 176, 1238, 247_136]
    );
}

#[test]
fn every_place_is_some_points_and_no_two_points_share_one() {
    let n = 3;
    let span = -2..=n + 2;
    let points = span.clone().flat_map(|x| span.clone().map(move |y| (x, y)));
    let points = points.flat_map(|(x, y)| (-2..=n + 2).map(move |z| [x, y, z]));
    let mut places: Vec<usize> = points.filter_map(|p| sample_place(n as usize, p)).collect();
    places.sort_unstable();
    assert_eq!(places, (0..sample_length(3)).collect::<Vec<_>>());
}

#[test]
fn a_places_point_is_at_that_place() {
    for n in [1, 2, 5] {
        for place in 0..sample_length(n) {
            assert_eq!(sample_place(n, sample_point(n, place).unwrap()), Some(place));
        }
        assert_eq!(sample_point(n, sample_length(n)), None);
    }
    assert_eq!(sample_point(usize::MAX, 0), None);
    assert_eq!(sample_point(1 << 40, 5), None);
}

#[test]
fn absurd_lengths_do_not_panic() {
    for n in [usize::MAX, usize::MAX - 1, usize::MAX / 2, 1 << 40] {
        assert_eq!(sample_length(n), usize::MAX);
        assert_eq!(neighbours_length(n, 63), usize::MAX);
        assert_eq!(neighbours_length(n, 0), 0);
        assert_eq!(store_length(n), usize::MAX);
        assert_eq!(record_length(n, 1), usize::MAX);
        assert_eq!(most_vertices(n, 255), usize::MAX);
        assert_eq!(most_triangles(n, 0), usize::MAX);
        assert_eq!(most_reads(n, 0), u64::MAX);
        assert_eq!(volume_length([n, 9, n]), usize::MAX);
        assert_eq!(sample_place(n, [i32::MAX, 0, -5]), None);
        assert_eq!(sample_place(n, [-1, i32::MAX, i32::MAX]), None);
    }
    assert_eq!(sample_place(usize::MAX - 1, [0, 0, 9]), Some(9));
}

#[test]
fn sides() {
    let named: Vec<&str> = Side::named(0b010011).map(Side::name).collect();
    assert_eq!(named, ["low x", "high x", "low z"]);
    assert_eq!(Side::ALL.map(Side::bit), [1, 2, 4, 8, 16, 32]);
    assert_eq!(Side::ALL.map(Side::number), [0, 1, 2, 3, 4, 5]);
}
