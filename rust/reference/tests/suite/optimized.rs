//! The optimized calls and rounds against the definitions.

use relief_inputs::{chessboard, chessboard_flow, jointed, two_by_one, Case, Random};
use relief_reference::problem::widened;
use relief_reference::rounds::{quick_rounds, steady_step, T_UNIT};
use relief_reference::terms::WEIGHT_LIMIT;
use relief_reference::{check, optimized, price, run, Outcome};

use crate::support::{sentinels, Calls};

/// Many sizes, one row and one column among them.
fn cases(seed: u64) -> impl Iterator<Item = (Random, Case)> {
    let mut random = Random::new(seed);
    let sizes = [(1, 1), (1, 9), (9, 1), (2, 2), (17, 13), (40, 31)];
    (0..240).map(move |turn| {
        let (width, height) = sizes[turn % sizes.len()];
        let case = Case::sized(&mut random, width, height);
        (Random::new(seed + turn as u64), case)
    })
}

/// Both checks of `flow`, what they leave in the image, and both prices of that.
fn assert_check(case: &Case, flow: &[i32]) {
    let Case {
        terms,
        samples,
        weights,
        ..
    } = case;
    let mut image = sentinels(samples.len());
    let mut expected_image = image.clone();
    let figures = optimized::check(terms, samples, weights, flow, &mut image);
    let expected = check(terms, samples, weights, flow, &mut expected_image);
    assert_eq!(figures, expected);
    assert_eq!(image, expected_image);
    let priced = optimized::price(terms, samples, weights, &image);
    assert_eq!(priced, price(terms, samples, weights, &image));
}

#[test]
fn check_equals_the_definition() {
    for (mut random, case) in cases(0xC4EC) {
        let mut flow = case.flow(&mut random);
        assert_check(&case, &flow);
        flow.push(0);
        assert_check(&case, &flow);
        flow.pop();
        for weights in [vec![1], vec![65_281; flow.len()], vec![-1; flow.len()]] {
            let refused = Case {
                weights,
                ..case.clone()
            };
            assert_check(&refused, &flow);
        }
    }
}

#[test]
fn check_equals_the_definition_at_the_largest_totals() {
    let (width, height) = (1_024, 1_024);
    let weight = WEIGHT_LIMIT as i32;
    let mut case = two_by_one();
    (case.terms.width, case.terms.height) = (width as u32, height as u32);
    case.terms.weight = WEIGHT_LIMIT;
    case.samples = chessboard(width, height);
    for listed in [false, true] {
        if listed {
            case.weights = case.pair_weights();
        }
        for value in [-weight, 0, weight] {
            assert_check(&case, &chessboard_flow(width, height, value));
        }
    }
}

/// Both runs, and what they leave in the buffers, which may be too short or too long by one.
fn assert_run(case: &Case, [more_flow, more_work]: [isize; 2]) -> Option<Outcome> {
    let Case {
        terms,
        rounds,
        samples,
        weights,
    } = case;
    let pairs = case.grid().pair_count();
    let mut flow = sentinels(pairs.saturating_add_signed(more_flow));
    let mut image = sentinels(samples.len());
    let mut work = sentinels((2 * pairs).saturating_add_signed(more_work));
    let [mut expected_flow, mut expected_image, mut expected_work] =
        [&flow, &image, &work].map(Clone::clone);
    let figures = optimized::run(
        terms, rounds, samples, weights, &mut flow, &mut image, &mut work,
    );
    let expected = run(
        terms,
        rounds,
        samples,
        weights,
        &mut expected_flow,
        &mut expected_image,
        &mut expected_work,
    );
    assert_eq!(figures, expected);
    assert_eq!(flow, expected_flow);
    assert_eq!(image, expected_image);
    assert_eq!(work, expected_work);
    figures.ok().map(|figures| figures.outcome)
}

#[test]
fn run_equals_the_definition() {
    let (mut settled, mut spent) = (0, 0);
    for (_, mut case) in cases(0x4D4) {
        case.rounds.allowance = case.rounds.allowance.min(300);
        match assert_run(&case, [0, 0]) {
            Some(Outcome::Settled) => settled += 1,
            Some(Outcome::Spent) => spent += 1,
            other => panic!("a run is never {other:?}"),
        }
        assert_eq!(assert_run(&case, [1, 0]), None);
        assert_eq!(assert_run(&case, [0, 1]), None);
    }
    assert!(settled > 20 && spent > 20);
}

/// With the last allowances before a job settles, and with all of them used.
#[test]
fn run_equals_the_definition_at_every_allowance() {
    for quick in [0, 1, 7] {
        for allowance in 0..30 {
            for mut case in [two_by_one(), jointed()] {
                (case.rounds.quick, case.rounds.allowance) = (quick, allowance);
                assert_run(&case, [0, 0]);
            }
        }
    }
}

#[test]
fn steady_round_equals_the_definition() {
    for (mut random, case) in cases(0x57EAD) {
        let problem = case.problem();
        let mut flow = case.flow(&mut random);
        let mut image = sentinels(case.samples.len());
        for _ in 0..3 {
            let before = widened(&flow);
            let Case {
                terms,
                samples,
                weights,
                ..
            } = &case;
            let changed = optimized::steady_round(terms, samples, weights, &mut flow, &mut image);
            let after = widened(&flow);
            assert_eq!(after, steady_step(&problem, &before));
            assert_eq!(changed, after != before);
            assert_eq!(widened(&image), problem.image_of(&before));
        }
    }
}

/// Makes `count` quick rounds and compares every flow on the way.
fn assert_quick_rounds(case: &Case, count: u32) {
    let pair_count = case.grid().pair_count();
    let mut flow = vec![0; pair_count];
    let mut extrapolated = vec![0; pair_count];
    let mut image = sentinels(case.samples.len());
    let mut t = T_UNIT;
    let Case {
        terms,
        samples,
        weights,
        ..
    } = case;
    for _ in 0..count {
        t = optimized::quick_round(
            terms,
            samples,
            weights,
            t,
            &mut flow,
            &mut extrapolated,
            &mut image,
        );
    }
    assert_eq!(widened(&flow), quick_rounds(&case.problem(), count));
}

#[test]
fn quick_rounds_equal_the_definition() {
    for (mut random, case) in cases(0x0041C4) {
        let count = random.between(0, 30) as u32;
        assert_quick_rounds(&case, count);
    }
}

#[test]
fn all_quick_rounds_at_the_largest_weight() {
    let mut random = Random::new(0xF10);
    for _ in 0..4 {
        let mut case = Case::sized(&mut random, 4, 3);
        case.terms.weight = 65_280;
        case.weights.clear();
        assert_quick_rounds(&case, 4_096);
        case.weights = vec![65_280; case.grid().pair_count()];
        case.weights[0] = 0;
        assert_quick_rounds(&case, 4_096);
    }
}
