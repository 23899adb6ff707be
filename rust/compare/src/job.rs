//! What calls on a job are lent: jobs that are accepted, and mutations of them.

use relief_inputs::{flat, tape_length, two_by_one, Answer, Case, Random};
use relief_reference::terms::{QUICK_LIMIT, WEIGHT_LIMIT};
use relief_reference::{Refusal, Rounds, Terms};

use crate::family::{first_difference, Input};

/// The sizes with the most pixels: with the longest rows, with the longest columns, square.
pub const LARGEST: [(u32, u32); 3] = [(4_096, 256), (256, 4_096), (1_024, 1_024)];

/// Everything that the calls on a job are lent. Buffers that a call does not take are empty.
#[derive(Clone, Debug)]
pub struct JobInput {
    pub terms: Terms,
    pub rounds: Rounds,
    pub samples: Vec<u8>,
    pub weights: Vec<i32>,
    pub flow: Vec<i32>,
    pub image: Vec<i32>,
    pub work: Vec<i32>,
    pub output: Vec<u8>,
}

impl Input for JobInput {
    fn difference(&self, other: &JobInput) -> Option<String> {
        first_difference("samples", &self.samples, &other.samples)
            .or_else(|| first_difference("weights", &self.weights, &other.weights))
            .or_else(|| first_difference("flow", &self.flow, &other.flow))
            .or_else(|| first_difference("image", &self.image, &other.image))
            .or_else(|| first_difference("work", &self.work, &other.work))
            .or_else(|| first_difference("output", &self.output, &other.output))
    }
}

impl JobInput {
    /// A job that price and check accept, without work and output.
    pub fn accepted(random: &mut Random, (width, height): (u32, u32)) -> JobInput {
        let case = Case::sized(random, width, height);
        JobInput::of(random, case)
    }

    /// The same with weights or without.
    pub fn weighted(random: &mut Random, (width, height): (u32, u32), weighted: bool) -> JobInput {
        let case = Case::sized(random, width, height).with_weights(random, weighted);
        JobInput::of(random, case)
    }

    fn of(random: &mut Random, case: Case) -> JobInput {
        let (lower, upper) = case.terms.bounds().into_inner();
        JobInput {
            terms: case.terms,
            rounds: case.rounds,
            flow: case.flow(random),
            image: random.image(case.samples.len(), lower, upper),
            samples: case.samples,
            weights: case.weights,
            work: Vec::new(),
            output: Vec::new(),
        }
    }

    /// A job without rounds and weights, with buffers of the lengths that these terms ask for, also
    /// beyond their limits: a flow of 0 and an image at the low end of a box from 0.
    pub fn blank(terms: Terms) -> JobInput {
        let (width, height) = (terms.width as usize, terms.height as usize);
        let pixels = width * height;
        let pairs = 2 * pixels - width - height;
        JobInput {
            terms,
            rounds: Rounds::default(),
            samples: (0..pixels).map(|pixel| pixel as u8).collect(),
            weights: Vec::new(),
            flow: vec![0; pairs],
            image: vec![0; pixels],
            work: vec![-1; 2 * pairs],
            output: vec![255; tape_length(pixels, pairs, pairs)],
        }
    }

    /// The weight of each pair, its own or the terms'.
    pub fn pair_weights(&self) -> Vec<i32> {
        self.terms.pair_weights(self.flow.len(), &self.weights)
    }

    /// The job with up to three faults, often with none.
    pub fn mutated(mut self, random: &mut Random) -> JobInput {
        for _ in 0..random.pick(&[0, 0, 0, 1, 1, 2, 3]) {
            random.pick(&MUTATIONS)(&mut self, random);
        }
        self
    }
}

/// Jobs at the documents' limits of weight and size, of a pair's weight and of the weight buffer's
/// length, and just beyond them, with the answer. All other buffers have the exact lengths.
pub fn limits() -> impl Iterator<Item = (JobInput, Answer<()>)> {
    terms_limits().chain(weights_limits())
}

fn terms_limits() -> impl Iterator<Item = (JobInput, Answer<()>)> {
    let terms = two_by_one().terms;
    let weight = |weight| Terms { weight, ..terms };
    let size = |width, height| Terms {
        width,
        height,
        ..terms
    };
    let refused = |number| Err(Refusal { number, place: 0 });
    [
        (weight(65_280), Ok(())),
        (weight(65_281), refused(2)),
        (size(4_096, 256), Ok(())),
        (size(4_096, 257), refused(1)),
        (size(4_097, 1), refused(1)),
    ]
    .into_iter()
    .map(|(terms, answer)| (JobInput::blank(terms), answer))
}

fn weights_limits() -> impl Iterator<Item = (JobInput, Answer<()>)> {
    let refused = |number, place| Err(Refusal { number, place });
    let lent = |side, weights: &[i32], answer| {
        let mut input = JobInput::blank(flat(side, side).terms);
        input.weights = weights.to_vec();
        (input, answer)
    };
    [
        lent(2, &[0; 4], Ok(())),
        lent(2, &[65_280; 4], Ok(())),
        lent(2, &[0, 65_280, 1, 300], Ok(())),
        lent(2, &[65_281, 0, 0, 0], refused(2, 0)),
        lent(2, &[0, -1, 65_281, 0], refused(2, 1)),
        lent(2, &[65_280, 0, 65_281, -1], refused(2, 2)),
        lent(2, &[0, 0, 0, i32::MIN], refused(2, 3)),
        lent(2, &[0, 0, i32::MAX, 0], refused(2, 2)),
        lent(2, &[-65_280; 4], refused(2, 0)),
        lent(2, &[0], refused(19, 0)),
        lent(2, &[65_281; 3], refused(19, 0)),
        lent(2, &[0; 5], refused(19, 0)),
        lent(2, &[0; 8], refused(19, 0)),
        lent(1, &[], Ok(())),
        lent(1, &[0], refused(19, 0)),
    ]
    .into_iter()
}

/// Jobs of a call's own kind with every two faults, the one made before the other.
pub fn two_mutations(
    job: fn(&mut Random, (u32, u32)) -> JobInput,
) -> impl Iterator<Item = JobInput> {
    let mut random = Random::new(0x2FA17);
    (0..4 * MUTATIONS.len() * MUTATIONS.len()).map(move |turn| {
        let mut input = job(&mut random, (3, 2));
        MUTATIONS[turn % MUTATIONS.len()](&mut input, &mut random);
        MUTATIONS[turn / MUTATIONS.len() % MUTATIONS.len()](&mut input, &mut random);
        input
    })
}

/// Something that makes a call turn back, if it takes what is changed.
type Mutation = fn(&mut JobInput, &mut Random);

const MUTATIONS: [Mutation; 13] = [
    size,
    weight,
    ends_of_the_box,
    quick_rounds,
    |input, random| resize(&mut input.samples, random, Random::byte),
    |input, random| resize(&mut input.flow, random, Random::number),
    weights_length,
    |input, random| resize(&mut input.image, random, Random::number),
    |input, random| resize(&mut input.work, random, Random::number),
    |input, random| resize(&mut input.output, random, Random::byte),
    weight_values,
    flow_values,
    image_values,
];

/// A size beyond the limits, in half of the cases with empty buffers: products of 2^32 and
/// more are small in 32 bits.
fn size(input: &mut JobInput, random: &mut Random) {
    let Terms { width, height, .. } = input.terms;
    (input.terms.width, input.terms.height) = random.pick(&[
        (0, height),
        (width, 0),
        (4_097, height),
        (width, 4_097),
        (4_096, 257),
        (257, 4_096),
        (65_536, 65_536),
        (1 << 31, 2),
        (u32::MAX, u32::MAX),
    ]);
    if random.below(2) == 0 {
        input.samples.clear();
        input.weights.clear();
        input.flow.clear();
        input.image.clear();
        input.work.clear();
    }
}

fn weight(input: &mut JobInput, random: &mut Random) {
    input.terms.weight = random.above(WEIGHT_LIMIT, u32::MAX);
}

fn ends_of_the_box(input: &mut JobInput, random: &mut Random) {
    (input.terms.low, input.terms.high) = random.crossed_levels();
}

fn quick_rounds(input: &mut JobInput, random: &mut Random) {
    input.rounds.quick = random.above(QUICK_LIMIT, u32::MAX);
}

/// Weights that are mostly neither none nor as many as the flow has numbers.
fn weights_length(input: &mut JobInput, random: &mut Random) {
    let pairs = input.flow.len();
    let any = random.below(2 * pairs + 2);
    let length = random.pick(&[1, pairs + 1, pairs.saturating_sub(1), any]);
    let weight = || random.weight(WEIGHT_LIMIT) as i32;
    input.weights.resize_with(length, weight);
}

/// Where there are no weights, those of the terms are changed.
fn weight_values(input: &mut JobInput, random: &mut Random) {
    input.weights = input.pair_weights();
    let beyond = i64::from(WEIGHT_LIMIT) + 1;
    mutate_values(&mut input.weights, random, |_| (-1, beyond));
}

/// Beyond the weights of the pairs.
fn flow_values(input: &mut JobInput, random: &mut Random) {
    let weights = input.pair_weights();
    mutate_values(&mut input.flow, random, |index| {
        let weight = weights.get(index).copied().unwrap_or_default();
        let beyond = i64::from(weight) + 1;
        (-beyond, beyond)
    });
}

fn image_values(input: &mut JobInput, random: &mut Random) {
    let (lower, upper) = input.terms.bounds().into_inner();
    let outside = (i64::from(lower) - 1, i64::from(upper) + 1);
    mutate_values(&mut input.image, random, |_| outside);
}

/// Gives a buffer another length: one more, one less, none or any up to twice as many.
fn resize<T>(buffer: &mut Vec<T>, random: &mut Random, value: fn(&mut Random) -> T) {
    let length = buffer.len();
    let any = random.below(2 * length + 1);
    let length = random.pick(&[length + 1, length.saturating_sub(1), 0, any]);
    buffer.resize_with(length, || value(random));
}

/// Sets up to three values to one just out of the range of its index, below it or above it, or far
/// out of it.
fn mutate_values(buffer: &mut [i32], random: &mut Random, outside: impl Fn(usize) -> (i64, i64)) {
    if buffer.is_empty() {
        return;
    }
    for _ in 0..random.pick(&[1, 1, 2, 3]) {
        let index = random.below(buffer.len());
        let (below, above) = outside(index);
        let outer = [below, above, i32::MIN.into(), i32::MAX.into()];
        buffer[index] = i32::try_from(random.pick(&outer)).unwrap_or(i32::MAX);
    }
}
