//! What every answer promises, tried on thousands of random jobs: the distance
//! guarantee, and that of two flows of one job, on the grid and its whole divisions, and
//! the bounds of a run.

use relief_inputs::{compare_with_bound, jointed, three_by_one, two_by_one, Case, Random};
use relief_reference::problem::{squared_distance, widened, within_gaps};
use relief_reference::rounds::{quick_rounds, steady_step};
use relief_reference::{Outcome, Problem};

use crate::support::{multiplied, Answer, Calls};

const JOBS: usize = 10_000;

/// Rival images tried against each answer on each division.
const RIVALS: usize = 6;

/// `price + squared distance <= rival price + slack` and `floor <= rival price`; at
/// slack 0 an image of the same price is the same image.
fn assert_distance_guarantee(problem: &Problem, flow: &[i64], rival: &[i64]) {
    let image = problem.image_of(flow);
    let price = problem.objective(&image);
    let slack = problem.duality_gap(flow);
    let rival_price = problem.objective(rival);
    assert!(slack >= 0);
    assert!(problem.dual_objective(flow) <= rival_price);
    assert!(price + squared_distance(&image, rival) <= rival_price + slack);
    if slack == 0 {
        assert_eq!(rival_price == price, rival == image);
    }
}

/// An image with values from `lower` to `upper`: anything, near `near`, constant or of
/// both ends only.
fn rival(random: &mut Random, lower: i64, upper: i64, near: &[i64]) -> Vec<i64> {
    let style = random.below(4);
    let constant = random.between(lower, upper);
    near.iter()
        .map(|value| match style {
            0 => random.between(lower, upper),
            1 => (value + random.between(-3, 3)).clamp(lower, upper),
            2 => constant,
            _ => random.pick(&[lower, upper]),
        })
        .collect()
}

/// The guarantee for an answer of check or run, whose numbers are the defined ones.
fn assert_certified(random: &mut Random, case: &Case, answer: &Answer) {
    let problem = case.problem();
    let flow = widened(&answer.flow);
    let image = widened(&answer.image);
    let price = i128::from(answer.figures.price);
    let floor = i128::from(answer.figures.floor);
    let slack = i128::from(answer.figures.slack);
    assert_eq!(price - floor, slack);

    let (lower, upper) = case.ends();
    for k in 1..=5 {
        let problem = problem.divided(k);
        let flow = multiplied(k, &flow);
        let image = multiplied(k, &image);
        let area = i128::from(k * k);
        assert_eq!(problem.image_of(&flow), image);
        assert_eq!(problem.objective(&image), area * price);
        assert_eq!(problem.dual_objective(&flow), area * floor);
        assert_eq!(problem.duality_gap(&flow), area * slack);
        assert_distance_guarantee(&problem, &flow, &image);
        for _ in 0..RIVALS {
            let rival = rival(random, k * lower, k * upper, &image);
            assert_distance_guarantee(&problem, &flow, &rival);
        }
    }
}

#[test]
fn checks_are_certified() {
    let mut random = Random::new(0xC4EC);
    let mut gapless = 0;
    for _ in 0..JOBS {
        let case = Case::small(&mut random);
        let flow = case.flow(&mut random);
        let answer = case.check(&flow).unwrap();
        assert_eq!(answer.figures.outcome, Outcome::Checked);
        assert_eq!(answer.figures.moved, 0);
        assert_certified(&mut random, &case, &answer);
        gapless += usize::from(answer.figures.slack == 0);

        let priced = case.price(&answer.image).unwrap();
        assert_eq!(priced.price, answer.figures.price);
    }
    assert!(gapless > JOBS / 20);
}

/// Whether a fall of more than 4 is left where the flow has room for it within its weight.
fn would_move(case: &Case, answer: &Answer) -> bool {
    let falls = case.problem().differences(&widened(&answer.image));
    let mut pairs = falls.into_iter().zip(&answer.flow).zip(case.pair_weights());
    pairs.any(|((fall, &value), weight)| fall > 4 && value < weight || fall < -4 && value > -weight)
}

#[test]
fn runs_are_certified_and_bounded() {
    let mut random = Random::new(0x4D4);
    let (mut settled, mut spent, mut sure_to_settle, mut weighted) = (0, 0, 0, 0);
    for _ in 0..JOBS {
        let case = Case::small(&mut random);
        let answer = case.run().unwrap();
        assert_certified(&mut random, &case, &answer);
        assert!(answer.work.iter().all(|&value| value == 0));

        let problem = case.problem();
        let start = quick_rounds(&problem, case.rounds.quick);
        let starting_slack = problem.duality_gap(&start);
        let moved = answer.figures.moved;
        let allowance = u32::from(case.rounds.allowance);
        assert!(8 * i128::from(moved) <= starting_slack);
        if 8 * i128::from(allowance + 1) > starting_slack {
            assert_eq!(answer.figures.outcome, Outcome::Settled);
            sure_to_settle += 1;
        }

        let would_move = would_move(&case, &answer);
        match answer.figures.outcome {
            Outcome::Settled => {
                settled += 1;
                let sum: i64 = widened(&case.pair_weights()).iter().sum();
                let bound = 16 * sum as u64;
                weighted += usize::from(!case.weights.is_empty());
                assert!(!would_move);
                assert!(moved <= allowance);
                assert!(answer.figures.slack <= bound);
            }
            Outcome::Spent => {
                spent += 1;
                assert!(would_move);
                assert_eq!(moved, allowance);
            }
            Outcome::Checked => panic!("a run is never checked"),
        }
    }
    for count in [settled, spent, sure_to_settle, weighted] {
        assert!(count > JOBS / 10);
    }
}

/// Quick rounds carry the flow past the best one to -W, where a fall of 4 moves nothing. The sum of
/// the weights is the same where other pairs have weight 0.
#[test]
fn a_settled_slack_may_be_the_bound() {
    let mut case = two_by_one();
    case.terms.weight = 258;
    (case.rounds.quick, case.rounds.allowance) = (7, 0);
    let mut jointed = case.clone();
    jointed.terms.width = 3;
    jointed.samples.push(255);
    jointed.weights = vec![258, 0];
    for case in [case, jointed] {
        let answer = case.run().unwrap();
        assert_eq!(answer.flow[0], -258);
        assert_eq!(answer.image[..2], [386, 382]);
        assert_eq!(answer.figures.outcome, Outcome::Settled);
        assert_eq!(answer.figures.slack, 16 * 258);
    }
}

/// Two cases give the same check of this flow, the same price of its image and the same run.
fn assert_same_answers(one: &Case, other: &Case, flow: &[i32]) {
    let checked = one.check(flow).unwrap();
    assert_eq!(checked, other.check(flow).unwrap());
    assert_eq!(one.price(&checked.image), other.price(&checked.image));
    assert_eq!(one.run(), other.run());
}

/// A weight buffer that has the terms' weight at every pair is as none.
#[test]
fn equal_weights_are_the_weight() {
    let mut random = Random::new(0xE9A1);
    for _ in 0..JOBS / 10 {
        let mut case = Case::small(&mut random);
        case.weights.clear();
        let weighted = Case {
            weights: case.pair_weights(),
            ..case.clone()
        };
        let flow = random.flow(&weighted.weights);
        assert_same_answers(&weighted, &case, &flow);
    }
}

/// Where each pair has its own weight, that of the terms makes no difference.
#[test]
fn own_weights_are_taken_alone() {
    let mut random = Random::new(0x0A1);
    for _ in 0..JOBS / 10 {
        let mut case = Case::small(&mut random);
        case.weights = case.pair_weights();
        if case.weights.is_empty() {
            continue;
        }
        let mut other = case.clone();
        other.terms.weight = random.weight(65_280);
        let flow = random.flow(&case.weights);
        assert_same_answers(&case, &other, &flow);
    }
}

#[test]
fn a_division_multiplies_each_weight() {
    let problem = jointed().problem();
    assert_eq!(problem.weights(), [0, 512]);
    assert_eq!(problem.divided(3).weights(), [0, 1_536]);
    assert_eq!(two_by_one().problem().divided(3).weights(), [768]);
}

/// From any flow, and from one near that of a run, where the floor rises least: by 2 is proved, by
/// 8 is worked out by hand (docs/DECISIONS.md 31).
#[test]
fn a_steady_round_that_moves_raises_the_floor_by_eight() {
    let mut random = Random::new(0xF1004);
    let mut moving = [0, 0];
    for _ in 0..JOBS {
        let case = Case::small(&mut random);
        let problem = case.problem();
        let any = widened(&case.flow(&mut random));
        let near_the_end = widened(&case.run().unwrap().flow)
            .into_iter()
            .map(|value| value + random.between(-1, 1));
        let near_the_end = problem.project(near_the_end);
        for (flow, moving) in [any, near_the_end].into_iter().zip(&mut moving) {
            let stepped = steady_step(&problem, &flow);
            if stepped != flow {
                *moving += 1;
                let floor = problem.dual_objective(&flow);
                assert!(problem.dual_objective(&stepped) >= floor + 8);
            }
        }
    }
    assert!(moving.iter().all(|&count| count > JOBS / 3));
}

/// All images of a small box, against a flow with slack 0 and one with more.
#[test]
fn every_image_of_a_small_box() {
    let mut case = two_by_one();
    case.terms.high = 1;
    let problem = case.problem();
    let (lower, upper) = case.ends();
    for flow in [-256, 40] {
        for first in lower..=upper {
            for second in lower..=upper {
                assert_distance_guarantee(&problem, &[flow], &[first, second]);
            }
        }
    }
    assert_eq!(problem.duality_gap(&[-256]), 0);
    assert!(problem.duality_gap(&[40]) > 0);
}

/// Request F-5 for two flows of a problem. Gives the squared distance of their images and both gaps.
fn assert_within_gaps(problem: &Problem, flows: [&[i64]; 2]) -> (i128, [i128; 2]) {
    let [image, other] = flows.map(|flow| problem.image_of(flow));
    let gaps = flows.map(|flow| problem.duality_gap(flow));
    assert!(within_gaps([&image, &other], gaps));
    (squared_distance(&image, &other), gaps)
}

/// The same for two answers of one job, on the grid and on whole divisions of it, where both sides
/// are k² times as large.
fn assert_within_slacks(case: &Case, answers: [&Answer; 2]) {
    let [flow, other_flow] = answers.map(|answer| widened(&answer.flow));
    let [image, other_image] = answers.map(|answer| widened(&answer.image));
    let slacks = answers.map(|answer| i128::from(answer.figures.slack));
    let distance = squared_distance(&image, &other_image);
    for k in 1..=5 {
        let flows = [&multiplied(k, &flow)[..], &multiplied(k, &other_flow)];
        let found = assert_within_gaps(&case.problem().divided(k), flows);
        let area = i128::from(k * k);
        assert_eq!(found, (area * distance, slacks.map(|slack| area * slack)));
    }
}

/// An answer beside a flow of a division that need not be k times one of the grid.
fn assert_within_finer_slacks(random: &mut Random, case: &Case, answer: &Answer) {
    for k in 2..=5 {
        let weights: Vec<i32> = case
            .pair_weights()
            .iter()
            .map(|weight| k as i32 * weight)
            .collect();
        let finer = widened(&random.flow(&weights));
        let flow = multiplied(k, &widened(&answer.flow));
        assert_within_gaps(&case.problem().divided(k), [&flow, &finer]);
    }
}

/// Whether a sample is read outside the box.
fn reads_outside(case: &Case) -> bool {
    let levels = case.terms.low..=case.terms.high;
    case.samples.iter().any(|sample| !levels.contains(sample))
}

#[test]
fn two_flows_of_one_job_are_within_their_slacks() {
    let mut random = Random::new(0xF50);
    let (mut narrow, mut wide, mut outside, mut exact, mut gapless) = (0, 0, 0, 0, 0);
    for _ in 0..JOBS {
        let case = Case::small(&mut random);
        let run = case.run().unwrap();
        let any = case.flow(&mut random);
        let first = random.pick(&[&any, &run.flow]);
        let second = random.other_flow(first, &case.pair_weights());
        let [first, second] = [first, &second].map(|flow| case.check(flow).unwrap());
        for answers in [[&first, &second], [&first, &run], [&run, &second]] {
            assert_within_slacks(&case, answers);
        }
        assert_within_finer_slacks(&mut random, &case, &first);

        let sum = first.figures.slack + second.figures.slack;
        let distance = squared_distance(&widened(&first.image), &widened(&second.image));
        narrow += usize::from(case.terms.low == case.terms.high);
        wide += usize::from((case.terms.low, case.terms.high) == (0, 255));
        outside += usize::from(reads_outside(&case));
        exact += usize::from(distance > 0 && 2 * distance == i128::from(sum));
        gapless += usize::from(first.flow != second.flow && sum == 0);
    }
    for count in [narrow, wide, outside, gapless] {
        assert!(count > JOBS / 20);
    }
    assert!(exact > 0);
}

/// The bound met exactly: by the flow that the 2 by 1 job settles at and its best flow, and in
/// a 3 by 1 job by two flows neither of which is best.
#[test]
fn twice_the_squared_distance_may_be_the_sum() {
    let case = two_by_one();
    let (settled, best) = (case.run().unwrap(), case.check(&[-256]).unwrap());
    assert_eq!(
        (&settled.image[..], &best.image[..]),
        (&[382, 386][..], &[384, 384][..])
    );
    assert_eq!((settled.figures.slack, best.figures.slack), (2 * 8, 0));
    assert_within_slacks(&case, [&settled, &best]);

    let case = three_by_one();
    let flows = [[0, -256], [-256, 0]];
    let [one, other] = flows.map(|flow| case.check(&flow).unwrap());
    assert_eq!(one.image, [128, 896, 896]);
    assert_eq!(other.image, [384, 384, 1_152]);
    assert_eq!([one.figures.slack, other.figures.slack], [393_216; 2]);
    assert_eq!(
        squared_distance(&widened(&one.image), &widened(&other.image)),
        393_216
    );
    assert_within_slacks(&case, [&one, &other]);
}

/// It is said of one job: with another scan, weight, weight of a pair or box it fails, even where
/// both slacks are 0.
#[test]
fn two_jobs_may_be_further_apart() {
    let best = two_by_one().check(&[-256]).unwrap();
    let [mut scan, mut weight, mut pair, mut levels] = [(); 4].map(|()| two_by_one());
    scan.samples = vec![0, 4];
    weight.terms.weight = 0;
    pair.weights = vec![0];
    (levels.terms.low, levels.terms.high) = (3, 3);
    for (case, flow) in [(scan, -256), (weight, 0), (pair, 0), (levels, 0)] {
        let other = case.check(&[flow]).unwrap();
        let slacks = [best.figures.slack, other.figures.slack];
        assert_eq!(slacks, [0, 0]);
        assert!(compare_with_bound([&best.image, &other.image], slacks).is_err());
    }
}
