//! Document 01's "Values to compare", as requests F-1 and F-3 change them, a job with a weight for
//! each pair, readings and box, the shares of a fall, and the laws of T and its root.

use relief_inputs::{about_the_box, flat, jointed, narrow_box, two_by_one, two_by_two, Case, Tape};
use relief_reference::problem::widened;
use relief_reference::rounds::{
    next_t, quick_rounds, quick_share, steady_rounds, steady_share, T_UNIT,
};
use relief_reference::terms::reading;
use relief_reference::Outcome::{Checked, Settled, Spent};
use relief_reference::{price, Grid, Outcome, Rounds, Terms};

use crate::support::{figures, read_back, refusal, Calls};

#[test]
fn pairs_go_down_first_then_right() {
    let grid = Grid::new(3, 2).unwrap();
    let pairs = [(0, 3), (1, 4), (2, 5), (0, 1), (1, 2), (3, 4), (4, 5)];
    assert!(grid.pairs().eq(pairs));
    for (width, height) in [(1, 1), (1, 9), (9, 1), (7, 5), (64, 64)] {
        let grid = Grid::new(width, height).unwrap();
        assert_eq!(grid.pairs().count(), grid.pair_count());
    }
}

#[test]
fn samples_are_read_at_the_centre_of_their_level() {
    for (sample, value) in [(0, 128), (1, 384), (254, 65_152), (255, 65_408)] {
        assert_eq!(reading(sample), value);
    }
}

#[test]
fn the_box_has_all_values_of_its_levels() {
    for (low, high, bounds) in [
        (0, 255, 0..=65_535),
        (8, 12, 2_048..=3_327),
        (7, 7, 1_792..=2_047),
        (0, 0, 0..=255),
        (255, 255, 65_280..=65_535),
    ] {
        let terms = Terms {
            low,
            high,
            ..two_by_one().terms
        };
        assert_eq!(terms.bounds(), bounds);
    }
}

#[test]
fn without_weight_the_image_is_the_readings_clamped() {
    let job = about_the_box();
    // 1920^2 + 128^2 + 129^2 + 62081^2.
    let price = 3_857_769_986;
    let image = [2_048, 2_048, 2_176, 2_688, 3_200, 3_327, 3_327];
    for (answer, outcome) in [
        (job.check(&[0; 6]).unwrap(), Checked),
        (job.run().unwrap(), Settled),
    ] {
        assert_eq!(answer.flow, [0; 6]);
        assert_eq!(answer.image, image);
        assert_eq!(answer.figures, figures(outcome, 0, price, price as i64, 0));
    }
}

#[test]
fn price_takes_both_ends_of_the_box_and_nothing_beyond() {
    let job = narrow_box();
    let ends = job.price(&[2_048, 3_327]);
    assert_eq!(ends, Ok(figures(Checked, 0, 10_650_881, 0, 0)));
    for within in [2_048, 2_049, 3_071, 3_072, 3_073, 3_326, 3_327] {
        assert!(job.price(&[within, 3_327]).is_ok(), "{within}");
        assert!(job.price(&[2_048, within]).is_ok(), "{within}");
    }
    for outside in [-1, 2_047, 3_328, 65_536] {
        assert_eq!(job.price(&[outside, 2_048]), Err(refusal(9, 0)));
        assert_eq!(job.price(&[3_327, outside]), Err(refusal(9, 1)));
    }
    for (low, high, lower, upper) in [(0, 0, 0, 255), (255, 255, 65_280, 65_535)] {
        let mut job = flat(1, 1);
        (job.terms.low, job.terms.high) = (low, high);
        assert!(job.price(&[lower]).is_ok());
        assert!(job.price(&[upper]).is_ok());
        assert_eq!(job.price(&[lower - 1]), Err(refusal(9, 0)));
        assert_eq!(job.price(&[upper + 1]), Err(refusal(9, 0)));
    }
}

#[test]
fn checks_of_the_two_by_one_job() {
    let job = two_by_one();
    for (flow, image, price, floor, slack) in [
        (0, [128, 640], 262_144, 0, 262_144),
        (-256, [384, 384], 131_072, 131_072, 0),
        (256, [0, 896], 540_672, -376_832, 917_504),
    ] {
        let answer = job.check(&[flow]).unwrap();
        assert_eq!(answer.image, image);
        assert_eq!(answer.figures, figures(Checked, 0, price, floor, slack));
        assert_eq!(job.price(&image), Ok(figures(Checked, 0, price, 0, 0)));
    }
    assert_eq!(job.check(&[257]), Err(refusal(8, 0)));
}

/// The 2 by 1 job's samples 0 and 2, then 10, with weights 0 and 512.
#[test]
fn checks_of_the_job_with_a_joint() {
    let job = jointed();
    for (flow, image, price, floor, slack) in [
        (0, [128, 640, 2_688], 2_097_152, 0, 2_097_152),
        (-511, [128, 1_151, 2_177], 1_572_866, 1_570_814, 2_052),
        (-512, [128, 1_152, 2_176], 1_572_864, 1_572_864, 0),
        (512, [128, 128, 3_200], 3_670_016, -2_621_440, 6_291_456),
    ] {
        let answer = job.check(&[0, flow]).unwrap();
        assert_eq!(answer.image, image);
        assert_eq!(answer.figures, figures(Checked, 0, price, floor, slack));
        assert_eq!(job.price(&image), Ok(figures(Checked, 0, price, 0, 0)));
    }
    // Each number is held to its own weight, and the first beyond it is named.
    for (flow, place) in [([1, 0], 0), ([-1, -513], 0), ([0, 513], 1), ([0, -513], 1)] {
        assert_eq!(job.check(&flow), Err(refusal(8, place)));
    }
    // A weight beyond its limit is named before a flow number and after the lengths, and one weight
    // is not enough.
    for (weights, flow, refused) in [
        (vec![0, 65_281], &[1, 0][..], refusal(2, 1)),
        (vec![0, 65_281], &[0], refusal(5, 0)),
        (vec![0], &[0, 0], refusal(19, 0)),
        (vec![0], &[0], refusal(5, 0)),
    ] {
        let other = Case {
            weights,
            ..jointed()
        };
        assert_eq!(other.check(flow), Err(refused));
    }
    // .. and before an image value.
    let over = Case {
        weights: vec![0, 65_281],
        ..jointed()
    };
    assert_eq!(over.price(&[65_536, 640, 2_688]), Err(refusal(2, 1)));
}

#[test]
fn runs_of_the_job_with_a_joint() {
    for (quick, allowance, flow, outcome, moved, totals) in [
        (0, 0, 0, Spent, 0, (2_097_152, 0, 2_097_152)),
        (0, 1, -256, Spent, 1, (1_703_936, 917_504, 786_432)),
        (0, 2, -448, Spent, 2, (1_581_056, 1_433_600, 147_456)),
        (0, 3, -512, Settled, 3, (1_572_864, 1_572_864, 0)),
        (0, 100, -512, Settled, 3, (1_572_864, 1_572_864, 0)),
        (2, 0, -448, Spent, 0, (1_581_056, 1_433_600, 147_456)),
        (3, 0, -512, Settled, 0, (1_572_864, 1_572_864, 0)),
    ] {
        let rounds = Rounds { quick, allowance };
        assert_run_of(jointed(), rounds, &[0, flow], outcome, moved, totals);
    }
    // Without weights both pairs have that of the terms.
    let unweighted = Case {
        weights: Vec::new(),
        ..jointed()
    };
    let rounds = Rounds {
        quick: 0,
        allowance: 100,
    };
    let totals = (1_179_648, 1_179_648, 0);
    assert_run_of(unweighted, rounds, &[-256, -256], Settled, 5, totals);
}

/// Runs the 2 by 1 job and compares the flow it leaves and all of its figures.
fn assert_run(rounds: Rounds, flow: i32, outcome: Outcome, moved: u32, totals: (u64, i64, u64)) {
    assert_run_of(two_by_one(), rounds, &[flow], outcome, moved, totals);
}

fn assert_run_of(
    mut job: Case,
    rounds: Rounds,
    flow: &[i32],
    outcome: Outcome,
    moved: u32,
    totals: (u64, i64, u64),
) {
    job.rounds = rounds;
    let answer = job.run().unwrap();
    let (price, floor, slack) = totals;
    assert_eq!(answer.flow, flow);
    assert_eq!(answer.work, vec![0; 2 * flow.len()]);
    assert_eq!(answer.figures, figures(outcome, moved, price, floor, slack));
}

#[test]
fn runs_of_the_two_by_one_job() {
    let steady = |allowance| Rounds {
        quick: 0,
        allowance,
    };
    assert_run(steady(16), -253, Spent, 16, (131_090, 131_054, 36));
    assert_run(steady(17), -254, Settled, 17, (131_080, 131_064, 16));
    assert_run(steady(100), -254, Settled, 17, (131_080, 131_064, 16));
    let quick = Rounds {
        quick: 3,
        allowance: 0,
    };
    assert_run(quick, -157, Spent, 0, (150_674, 111_470, 39_204));
}

#[test]
fn shares_of_a_fall() {
    for (fall, quick, steady) in [
        (0, 0, 0),
        (3, 0, 0),
        (4, 0, 0),
        (5, 0, 1),
        (7, 0, 1),
        (8, 1, 1),
        (12, 1, 1),
        (13, 1, 2),
        (20, 2, 2),
        (21, 2, 3),
    ] {
        assert_eq!(quick_share(fall), quick);
        assert_eq!(quick_share(-fall), -quick);
        assert_eq!(steady_share(fall), steady);
        assert_eq!(steady_share(-fall), -steady);
    }
}

/// Either neighbour of the share is farther from an eighth of the fall, or as far and farther
/// from zero.
#[test]
fn the_steady_share_is_the_nearest() {
    for fall in -65_535..=65_535_i64 {
        let distances = |share: i64| ((8 * share - fall).abs(), share.abs());
        let share = steady_share(fall);
        assert!(distances(share) < distances(share - 1), "{fall}");
        assert!(distances(share) < distances(share + 1), "{fall}");
    }
}

/// The 2 by 1 job, as it is and with its samples swapped, and the sign of its flows.
fn two_by_one_both_ways() -> [(Case, i64); 2] {
    let mut swapped = two_by_one();
    swapped.samples.reverse();
    [(two_by_one(), -1), (swapped, 1)]
}

#[test]
fn steady_rounds_from_a_given_flow() {
    for (job, sign) in two_by_one_both_ways() {
        let problem = job.problem();
        for (flow, fall, next) in [
            (248, 16, 250),
            (249, 14, 251),
            (250, 12, 251),
            (251, 10, 252),
            (253, 6, 254),
            (254, 4, 254),
            (256, 0, 256),
        ] {
            let start = vec![sign * flow];
            let image = problem.image_of(&start);
            assert_eq!(problem.differences(&image), [sign * fall]);
            let steady = steady_rounds(&problem, start, 1);
            assert_eq!(steady.flow, [sign * next]);
            assert_eq!(steady.moved == 0, next == flow);
        }
    }
}

#[test]
fn a_settled_run_leaves_a_fall_of_exactly_a_half() {
    for (job, sign) in two_by_one_both_ways() {
        let answer = job.run().unwrap();
        assert_eq!(answer.figures.outcome, Settled);
        let differences = job.problem().differences(&widened(&answer.image));
        assert_eq!(differences, [4 * sign]);
    }
}

/// With steady rounds' rounding the third would leave 158.
#[test]
fn quick_rounds_keep_their_rounding() {
    for (job, sign) in two_by_one_both_ways() {
        for (count, flow) in [(0, 0), (1, 64), (2, 112), (3, 157)] {
            assert_eq!(quick_rounds(&job.problem(), count), [sign * flow]);
        }
    }
}

#[test]
fn t_begins_as_in_the_document() {
    assert_eq!(T_UNIT, 65_536);
    assert_eq!(next_t(T_UNIT), 106_039);
    assert_eq!(next_t(106_039), 143_754);
}

/// `root` is the largest whole number whose square is at most `square`.
fn is_root(root: u64, square: u64) -> bool {
    let (root, square) = (u128::from(root), u128::from(square));
    root * root <= square && square < (root + 1) * (root + 1)
}

#[test]
fn integer_square_root_law() {
    let edges = [0, 1, 2, 1 << 59, (1 << 59) - 1, u64::MAX - 1, u64::MAX];
    let sides = (1..2_000).chain([T_UNIT, (1 << 31) - 1, 1 << 31, u64::from(u32::MAX)]);
    let around_squares = sides.flat_map(|side| {
        let square = side * side;
        [square - 1, square, square + 1]
    });
    for square in around_squares.chain(edges) {
        assert!(is_root(square.isqrt(), square), "{square}");
    }
}

#[test]
fn t_never_falls_and_stays_in_range() {
    let mut t = T_UNIT;
    for _ in 0..4_096 {
        let square = T_UNIT * T_UNIT + 4 * t * t;
        let following = next_t(t);
        assert!(square < 1 << 59);
        assert!(following > t);
        // T comes from the root by halving, so one of two roots leads to it.
        let root = 2 * following - T_UNIT;
        assert!(is_root(root, square) || is_root(root + 1, square));
        t = following;
    }
}

#[test]
fn slack_above_zero_may_belong_to_the_best_image() {
    let job = narrow_box();
    let price = 10_650_881;
    for (flow, floor, slack) in [(0, 7_376_641, 3_274_240), (-1_280, 10_650_881, 0)] {
        let answer = job.check(&[flow]).unwrap();
        assert_eq!(answer.image, [2_048, 3_327]);
        assert_eq!(answer.figures, figures(Checked, 0, price, floor, slack));
    }
}

#[test]
fn check_of_two_by_two_pixels() {
    let answer = two_by_two().check(&[1, 2, 4, 8]).unwrap();
    assert_eq!(answer.image, [123, 2_690, 5_241, 10_378]);
    assert_eq!(
        answer.figures,
        figures(Checked, 0, 10_501_298, -143_538, 10_644_836)
    );
}

#[test]
fn one_pixel() {
    let job = flat(1, 1);
    assert_eq!(job.grid().pair_count(), 0);
    let answer = job.run().unwrap();
    assert_eq!(answer.image, [1_920]);
    assert_eq!(answer.figures, figures(Settled, 0, 0, 0, 0));
    assert_eq!(job.check(&[]).unwrap().image, [1_920]);
}

#[test]
fn limits_of_the_weight() {
    let mut job = two_by_one();
    job.terms.weight = 65_280;
    let largest = job.tape(&[65_280]);
    assert!(job.run().is_ok());
    assert!(job.check(&[-65_280]).is_ok());
    assert!(job.price(&[0, 0]).is_ok());
    assert_eq!(job.check(&[65_281]), Err(refusal(8, 0)));
    assert!(read_back(&largest, 2, 1).answer.is_ok());

    job.terms.weight = 65_281;
    assert_eq!(
        price(&job.terms, &job.samples, &[], &[0, 0]),
        Err(refusal(2, 0))
    );
    let mut beyond = largest;
    beyond[6..8].copy_from_slice(&65_281_u16.to_le_bytes());
    assert_eq!(read_back(&beyond, 2, 1).answer, Err(refusal(2, 5)));
}

#[test]
fn limits_of_the_weight_of_a_pair() {
    let mut job = two_by_one();
    job.weights = vec![65_280];
    let mut tape = Tape::new(&job, &[65_280]);
    assert!(job.run().is_ok());
    assert!(job.check(&[-65_280]).is_ok());
    assert!(job.price(&[0, 0]).is_ok());
    assert_eq!(job.check(&[65_281]), Err(refusal(8, 0)));
    assert!(read_back(&tape.bytes, 2, 1).answer.is_ok());

    tape.set_pair_weight(0, 65_281);
    assert_eq!(read_back(&tape.bytes, 2, 1).answer, Err(refusal(2, 19)));
    for beyond in [65_281, -1] {
        job.weights = vec![beyond];
        assert_eq!(job.price(&[0, 0]), Err(refusal(2, 0)));
        assert_eq!(job.check(&[0]), Err(refusal(2, 0)));
        assert_eq!(job.run(), Err(refusal(2, 0)));
    }
}

#[test]
fn limits_of_the_rounds() {
    let mut job = two_by_one();
    (job.rounds.quick, job.rounds.allowance) = (4_096, 65_535);
    let mut tape = job.tape(&[]);
    assert!(job.run().is_ok());
    assert!(read_back(&tape, 2, 1).answer.is_ok());

    job.rounds.quick = 4_097;
    assert_eq!(job.run(), Err(refusal(10, 0)));
    tape[11..13].copy_from_slice(&4_097_u16.to_le_bytes());
    assert_eq!(read_back(&tape, 2, 1).answer, Err(refusal(10, 10)));
}

#[test]
fn limits_of_the_size() {
    let mut job = two_by_one();
    (job.terms.width, job.terms.height) = (4_096, 256);
    job.samples = (0..4_096 * 256).map(|pixel| pixel as u8).collect();
    let (pixels, pairs) = (1_048_576, 2_092_800);
    assert_eq!(job.grid().pixel_count(), pixels);
    assert_eq!(job.grid().pair_count(), pairs);

    let checked = job.check(&vec![0; pairs]).unwrap();
    let priced = job.price(&checked.image).unwrap();
    assert_eq!(priced.price, checked.figures.price);
    let tape = job.tape(&[]);
    let taken = read_back(&tape, pixels, pairs);
    assert!(taken.answer.is_ok());
    assert_eq!(taken.samples, job.samples);

    job.terms.height = 257;
    assert_eq!(
        price(&job.terms, &job.samples, &[], &checked.image),
        Err(refusal(1, 0))
    );
    let mut beyond = tape;
    beyond[3..5].copy_from_slice(&257_u16.to_le_bytes());
    assert_eq!(read_back(&beyond, pixels, pairs).answer, Err(refusal(1, 0)));
}

#[test]
fn empty_tape() {
    assert_eq!(read_back(&[], 2, 1).answer, Err(refusal(18, 0)));
}
