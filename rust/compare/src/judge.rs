//! Price and check.

use relief_inputs::{
    chessboard, chessboard_flow, compare_family, compare_with_bound, jointed, two_by_one, Answer,
    Difference, Random,
};
use relief_reference::terms::{reading, WEIGHT_LIMIT};
use relief_reference::{Figures, Outcome, Refusal, Terms};

use crate::convert::{figures, refusal, terms};
use crate::family::Call;
use crate::job::{limits, two_mutations, JobInput, LARGEST};

const PRICE: Call<JobInput, Figures> = Call {
    name: "price",
    library: |input| {
        relief::price(
            &terms(&input.terms),
            &input.samples,
            &input.weights,
            &input.image,
        )
        .map(figures)
        .map_err(refusal)
    },
    reference: |input| {
        relief_reference::price(&input.terms, &input.samples, &input.weights, &input.image)
    },
    label: |figures| figures.outcome.to_string(),
};

const CHECK: Call<JobInput, Figures> = Call {
    name: "check",
    library: |input| {
        relief::check(
            &terms(&input.terms),
            &input.samples,
            &input.weights,
            &input.flow,
            &mut input.image,
        )
        .map(figures)
        .map_err(refusal)
    },
    reference: |input| {
        relief_reference::check(
            &input.terms,
            &input.samples,
            &input.weights,
            &input.flow,
            &mut input.image,
        )
    },
    label: |figures| figures.outcome.to_string(),
};

/// Compares both calls on the same inputs.
pub fn compare(step: usize) -> Result<(), Difference> {
    PRICE.compare_values(
        "the documents' limits",
        &[1, 2, 19],
        limits().chain(ends_of_boxes()),
    )?;
    CHECK.compare_values("the documents' limits", &[1, 2, 19], limits())?;
    let title = "the documents' values";
    PRICE.compare_answers(title, &[2], joint_prices())?;
    CHECK.compare_answers(title, &[2, 8, 19], joint_checks())?;
    let price_numbers = [1, 2, 3, 4, 6, 9, 19];
    let check_numbers = [1, 2, 3, 4, 5, 6, 8, 19];
    let title = "two faults";
    PRICE.compare_family(title, &price_numbers, two_mutations(JobInput::accepted))?;
    CHECK.compare_family(title, &check_numbers, two_mutations(JobInput::accepted))?;
    let title = "1 to 300 pixels";
    PRICE.compare_family(title, &price_numbers, small(step))?;
    CHECK.compare_family(title, &check_numbers, small(step))?;
    let title = "1,048,576 pixels";
    PRICE.compare_family(title, &[], large(step))?;
    CHECK.compare_family(title, &[], large(step))?;
    compare_two_flows(step)
}

/// The documents' job with a joint, with these weights.
fn joint(weights: &[i32]) -> JobInput {
    let job = jointed();
    JobInput {
        samples: job.samples,
        weights: weights.to_vec(),
        ..JobInput::blank(job.terms)
    }
}

fn checked(price: u64, floor: i64, slack: u64) -> Answer<Figures> {
    Ok(Figures {
        outcome: Outcome::Checked,
        moved: 0,
        price,
        floor,
        slack,
    })
}

fn refused(number: u32, place: u64) -> Answer<Figures> {
    Err(Refusal { number, place })
}

/// Weights and images of the job with a joint, with the documents' answer.
fn joint_prices() -> impl Iterator<Item = (JobInput, Answer<Figures>)> {
    let values = [
        ([0, 512], [128, 640, 2_688], checked(2_097_152, 0, 0)),
        ([0, 65_281], [65_536, 640, 2_688], refused(2, 1)),
    ];
    values.into_iter().map(|(weights, image, answer)| {
        let input = JobInput {
            image: image.to_vec(),
            ..joint(&weights)
        };
        (input, answer)
    })
}

/// Weights and flows of the job with a joint, with the documents' answer.
fn joint_checks() -> impl Iterator<Item = (JobInput, Answer<Figures>)> {
    let values: [(&[i32], &[i32], _); 8] = [
        (&[0, 512], &[0, 0], checked(2_097_152, 0, 2_097_152)),
        (&[0, 512], &[0, -512], checked(1_572_864, 1_572_864, 0)),
        (&[0, 512], &[1, 0], refused(8, 0)),
        (&[0, 512], &[0, 513], refused(8, 1)),
        (&[0, 65_281], &[1, 0], refused(2, 1)),
        (&[0], &[0, 0], refused(19, 0)),
        (&[0], &[0], refused(5, 0)),
        (&[0, 65_281], &[0], refused(5, 0)),
    ];
    values.into_iter().map(|(weights, flow, answer)| {
        let input = JobInput {
            flow: flow.to_vec(),
            ..joint(weights)
        };
        (input, answer)
    })
}

/// Compares two checks of one job, and sees to it that the images that the library leaves are within
/// the slacks that it gives (request F-5).
fn compare_two_flows(step: usize) -> Result<(), Difference> {
    let words = [
        "equal with slack 0",
        "equal with slack above 0",
        "nearer than the bound",
    ];
    compare_family("check, two flows of one job", two_flows(step), |inputs| {
        let [one, other] = inputs;
        let (first, one) = CHECK.compare(one)?;
        let (second, other) = CHECK.compare(other)?;
        match (first, second) {
            (Ok(first), Ok(second)) => {
                compare_with_bound([&one.image, &other.image], [first.slack, second.slack])
                    .map(Ok)
                    .map_err(|apart| CHECK.difference(&apart, inputs))
            }
            (Err(refusal), _) | (_, Err(refusal)) => Ok(Err(refusal)),
        }
    })?
    .require(&words, &[])
}

/// A job with two flows: small ones and, one in a thousand, the most pixels.
fn two_flows(step: usize) -> impl Iterator<Item = [JobInput; 2]> {
    let mut random = Random::new(0xF5);
    (0..20_000).step_by(step).map(move |turn| {
        let size = match turn % 1_000 {
            0 => LARGEST[turn / 1_000 % LARGEST.len()],
            _ => random.size(300),
        };
        let input = JobInput::accepted(&mut random, size);
        let mut other = input.clone();
        other.flow = random.other_flow(&input.flow, &input.pair_weights());
        [input, other]
    })
}

/// Images of two values, one of them at the lower end of a box, the other at its ends, in its last
/// level and just beyond, with document 01's answer.
fn ends_of_boxes() -> impl Iterator<Item = (JobInput, Answer<()>)> {
    let boxes = [
        ((0, 255), 0, 65_535),
        ((8, 12), 2_048, 3_327),
        ((7, 7), 1_792, 2_047),
        ((0, 0), 0, 255),
        ((255, 255), 65_280, 65_535),
    ];
    boxes.into_iter().flat_map(|((low, high), lower, upper)| {
        let terms = Terms {
            low,
            high,
            ..two_by_one().terms
        };
        let outside = Err(Refusal {
            number: 9,
            place: 1,
        });
        [
            (lower - 1, outside),
            (lower, Ok(())),
            (upper - 255, Ok(())),
            (upper - 254, Ok(())),
            (upper, Ok(())),
            (upper + 1, outside),
        ]
        .map(|(value, answer)| {
            let mut input = JobInput::blank(terms);
            input.image = vec![lower, value];
            (input, answer)
        })
    })
}

fn small(step: usize) -> impl Iterator<Item = JobInput> {
    let mut random = Random::new(0x4A0D6E);
    (0..200_000).step_by(step).map(move |_| {
        let size = random.size(300);
        JobInput::accepted(&mut random, size).mutated(&mut random)
    })
}

fn large(step: usize) -> impl Iterator<Item = JobInput> {
    let mut random = Random::new(0x1A26E);
    // Six turns come to each size with weights and without.
    (0..30).step_by(step).map(move |turn| {
        let size = LARGEST[turn % LARGEST.len()];
        let input = JobInput::weighted(&mut random, size, turn % 2 == 1);
        match turn / 6 {
            0 => extreme(input, 1),
            1 => extreme(input, -1),
            2 => farthest(input, [255, 0][turn / 3 % 2]),
            // As drawn.
            3 => input,
            _ => input.mutated(&mut random),
        }
    })
}

/// The job on a chessboard, with the largest weight, the terms' or each pair's own, and a flow at
/// its ends. With sign 1 the slack of the flow and the price of the image are as large as can be.
/// With sign -1 the image is the readings.
fn extreme(mut input: JobInput, sign: i32) -> JobInput {
    let (width, height) = (input.terms.width as usize, input.terms.height as usize);
    // That of the terms is 0 where it does not count.
    input.terms.weight = match input.weights.is_empty() {
        true => WEIGHT_LIMIT,
        false => 0,
    };
    input.weights.fill(WEIGHT_LIMIT as i32);
    (input.terms.low, input.terms.high) = (0, 255);
    input.samples = chessboard(width, height);
    input.flow = chessboard_flow(width, height, sign * WEIGHT_LIMIT as i32);
    let value = |&sample: &u8| match sign {
        1 => far_end(&input.terms, sample),
        _ => reading(sample),
    };
    input.image = input.samples.iter().map(value).collect();
    input
}

/// The job with this sample everywhere, 0 or 255, and box and image as far from it as can be.
fn farthest(mut input: JobInput, sample: u8) -> JobInput {
    let level = 255 - sample;
    (input.terms.low, input.terms.high) = (level, level);
    input.samples.fill(sample);
    input.image.fill(far_end(&input.terms, sample));
    input
}

/// The end of the box that is farther from a sample of 0 or 255.
fn far_end(terms: &Terms, sample: u8) -> i32 {
    let (lower, upper) = terms.bounds().into_inner();
    if sample == 0 {
        upper
    } else {
        lower
    }
}
