//! The counts, at the ends of what is allowed and beyond.

use relief::{
    pair_count, pixel_count, read_flow_len, read_samples_len, read_weights_len, tape_bytes,
    MAX_PAIRS, MAX_PIXELS, MAX_SIDE, MAX_TAPE_BYTES,
};

#[test]
fn of_allowed_sizes() {
    assert_eq!((pixel_count(1, 1), pair_count(1, 1)), (1, 0));
    assert_eq!((pixel_count(3, 2), pair_count(3, 2)), (6, 7));
    assert_eq!(
        (pixel_count(1, MAX_SIDE), pair_count(1, MAX_SIDE)),
        (4_096, 4_095)
    );
    assert_eq!(pixel_count(MAX_SIDE, 256), MAX_PIXELS);
    assert_eq!(pair_count(1_024, 1_024), 2_095_104);
    let sides = (0..=12).map(|bits| 1 << bits);
    let sizes = sides
        .clone()
        .flat_map(|width| sides.clone().map(move |height| (width, height)));
    assert_eq!(
        sizes.map(|(width, height)| pair_count(width, height)).max(),
        Some(MAX_PAIRS)
    );
}

#[test]
fn of_other_sizes() {
    let other = [0, MAX_SIDE + 1, u32::MAX];
    let mut sizes = vec![(MAX_SIDE, 257), (257, MAX_SIDE), (MAX_SIDE, MAX_SIDE)];
    for side in other {
        sizes.extend([(side, 1), (1, side), (side, side)]);
    }
    for (width, height) in sizes {
        assert_eq!(
            (pixel_count(width, height), pair_count(width, height)),
            (0, 0)
        );
    }
}

#[test]
fn of_tapes() {
    assert_eq!((tape_bytes(1, 0, 0), tape_bytes(2, 0, 1)), (18, 25));
    assert_eq!((tape_bytes(2, 1, 0), tape_bytes(2, 1, 1)), (23, 28));
    assert_eq!(MAX_TAPE_BYTES, 18_858_000);
    let other = [
        (0, 0, 0),
        (MAX_PIXELS + 1, 0, 0),
        (1, MAX_PAIRS + 1, 0),
        (1, 0, MAX_PAIRS + 1),
        (usize::MAX, usize::MAX, usize::MAX),
    ];
    for (samples_len, weights_len, flow_len) in other {
        assert_eq!(tape_bytes(samples_len, weights_len, flow_len), 0);
    }
}

#[test]
fn for_reading() {
    let lengths = |tape_len| {
        let samples_len = read_samples_len(tape_len);
        (
            samples_len,
            read_weights_len(tape_len),
            read_flow_len(tape_len),
        )
    };
    for tape_len in 0..18 {
        assert_eq!(lengths(tape_len), (0, 0, 0));
    }
    assert_eq!(lengths(18), (1, 0, 0));
    assert_eq!(lengths(21), (2, 2, 2));
    for tape_len in [MAX_TAPE_BYTES, usize::MAX] {
        assert_eq!(lengths(tape_len), (MAX_PIXELS, MAX_PAIRS, MAX_PAIRS));
    }
}
