//! Price and check.

use relief::{check, price, Figures, Outcome, Reason, Terms, MAX_WEIGHT};

use crate::support::{faulty_terms, refused, Fault, NONE, SAMPLES, TERMS};

const CHECKED: Figures = Figures {
    outcome: Outcome::Checked,
    moved: 0,
    price: 0,
    floor: 0,
    slack: 0,
};

#[test]
fn check_gives_the_figures_and_fills_the_image() {
    let values = [
        (-256, [384, 384], 131_072, 131_072, 0),
        (0, [128, 640], 262_144, 0, 262_144),
        (256, [0, 896], 540_672, -376_832, 917_504),
    ];
    for (flow, image_due, price, floor, slack) in values {
        let mut image = [-1; 2];
        let figures = check(&TERMS, &SAMPLES, &NONE, &[flow], &mut image);
        let due = Figures {
            price,
            floor,
            slack,
            ..CHECKED
        };
        assert_eq!((figures, image), (Ok(due), image_due));
    }
}

#[test]
fn price_gives_no_floor() {
    let figures = price(&TERMS, &SAMPLES, &NONE, &[384, 384]);
    assert_eq!(
        figures,
        Ok(Figures {
            price: 131_072,
            ..CHECKED
        })
    );
}

#[test]
fn both_ends_of_the_box() {
    let terms = Terms {
        weight: 0,
        low: 8,
        high: 12,
        ..TERMS
    };
    let mut image = [-1; 2];
    let due = Figures {
        price: 1_920 * 1_920 + 1_921 * 1_921,
        ..CHECKED
    };
    let floor = due.price as i64;
    let figures = check(&terms, &[0, 20], &NONE, &[0], &mut image);
    assert_eq!(figures, Ok(Figures { floor, ..due }));
    assert_eq!(image, [2_048, 3_327]);
    assert_eq!(price(&terms, &[0, 20], &NONE, &image), Ok(due));
    for (outside, place) in [([2_047, 3_327], 0), ([2_048, 3_328], 1)] {
        let answer = price(&terms, &[0, 20], &NONE, &outside);
        assert_eq!(answer, refused(Reason::ImageValue, place));
    }
}

#[test]
fn no_pairs() {
    let terms = Terms { width: 1, ..TERMS };
    let mut image = [-1];
    assert_eq!(check(&terms, &[7], &NONE, &[], &mut image), Ok(CHECKED));
    assert_eq!(image, [1_920]);
    assert_eq!(price(&terms, &[7], &NONE, &image), Ok(CHECKED));
    let answer = price(&terms, &[7], &[0], &image);
    assert_eq!(answer, refused(Reason::WeightsLength, 0));
}

/// Each pair has its own weight, and that of the terms does not matter.
#[test]
fn weights() {
    let (samples, weights) = ([0, 10, 20, 40], [1, 2, 4, 8]);
    let due = Figures {
        price: 143_894,
        ..CHECKED
    };
    let (floor, slack) = (-143_538, 287_432);
    for weight in [0, 256, MAX_WEIGHT] {
        let terms = Terms {
            height: 2,
            weight,
            ..TERMS
        };
        let mut image = [-1; 4];
        let figures = check(&terms, &samples, &weights, &weights, &mut image);
        assert_eq!(
            figures,
            Ok(Figures {
                floor,
                slack,
                ..due
            })
        );
        assert_eq!(image, [123, 2_690, 5_241, 10_378]);
        assert_eq!(price(&terms, &samples, &weights, &image), Ok(due));
        for (place, sign) in (0..4).flat_map(|place| [(place, 1), (place, -1)]) {
            let mut flow = [0; 4];
            flow[place] = sign * (weights[place] + 1);
            let answer = check(&terms, &samples, &weights, &flow, &mut image);
            assert_eq!(answer, refused(Reason::FlowValue, place as u64));
        }
    }
}

#[test]
fn the_terms_weight_at_every_pair() {
    let (mut image, mut other) = ([-1; 2], [-1; 2]);
    let figures = check(&TERMS, &SAMPLES, &NONE, &[-100], &mut image);
    let weighted = check(&TERMS, &SAMPLES, &[256], &[-100], &mut other);
    assert_eq!((figures, image), (weighted, other));
    let priced = price(&TERMS, &SAMPLES, &NONE, &image);
    assert_eq!(priced, price(&TERMS, &SAMPLES, &[256], &image));
}

#[test]
fn both_ends_of_a_weight() {
    let terms = Terms { width: 3, ..TERMS };
    let samples = [0, 2, 4];
    let price = |weights: &[i32]| price(&terms, &samples, weights, &[0, 1, 2]);
    assert!(price(&[0, MAX_WEIGHT as i32]).is_ok());
    for outside in [-1, MAX_WEIGHT as i32 + 1, i32::MIN, i32::MAX] {
        let mut image = [-1; 3];
        for (weights, place) in [([outside, outside], 0), ([0, outside], 1)] {
            let due = refused(Reason::Weight, place);
            assert_eq!(price(&weights), due);
            let answer = check(&terms, &samples, &weights, &[0; 2], &mut image);
            assert_eq!((answer, image), (due, [-1; 3]));
        }
    }
}

#[test]
fn refusals_of_check() {
    let mut image = [-1; 2];
    for (terms, reason) in faulty_terms() {
        let answer = check(&terms, &[], &[-1], &[], &mut image);
        assert_eq!(answer, refused(reason, 0));
    }
    let faults: [Fault; 7] = [
        (&[0], &[-1; 2], &[], 1, Reason::SamplesLength),
        (&SAMPLES, &[-1; 2], &[], 1, Reason::FlowLength),
        (&SAMPLES, &[-1; 2], &[9], 1, Reason::WeightsLength),
        (&SAMPLES, &[-1], &[9], 1, Reason::ImageLength),
        (&SAMPLES, &[-1], &[9], 2, Reason::Weight),
        (&SAMPLES, &[8], &[9], 2, Reason::FlowValue),
        (&SAMPLES, &NONE, &[257], 2, Reason::FlowValue),
    ];
    for (samples, weights, flow, room, reason) in faults {
        let answer = check(&TERMS, samples, weights, flow, &mut image[..room]);
        assert_eq!(answer, refused(reason, 0));
    }
    assert_eq!(image, [-1; 2]);
}

#[test]
fn refusals_of_price() {
    for (terms, reason) in faulty_terms() {
        assert_eq!(price(&terms, &[], &[-1], &[]), refused(reason, 0));
    }
    let faults: [Fault; 6] = [
        (&[0], &[-1; 2], &[-1], 0, Reason::SamplesLength),
        (&SAMPLES, &[-1; 2], &[-1], 0, Reason::WeightsLength),
        (&SAMPLES, &[-1], &[-1], 0, Reason::ImageLength),
        (&SAMPLES, &[-1], &[-1; 2], 0, Reason::Weight),
        (&SAMPLES, &[0], &[0, 65_536], 1, Reason::ImageValue),
        (&SAMPLES, &NONE, &[0, 65_536], 1, Reason::ImageValue),
    ];
    for (samples, weights, image, place, reason) in faults {
        let answer = price(&TERMS, samples, weights, image);
        assert_eq!(answer, refused(reason, place as u64));
    }
}

#[test]
fn calls_at_the_same_time() {
    std::thread::scope(|threads| {
        for flow in -4..4 {
            threads.spawn(move || {
                for _ in 0..1_000 {
                    let mut image = [-1; 2];
                    check(&TERMS, &SAMPLES, &NONE, &[flow], &mut image).unwrap();
                    assert_eq!(image, [128 - flow, 640 + flow]);
                }
            });
        }
    });
}
