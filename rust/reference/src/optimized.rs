//! Price, check, run and the rounds again, optimized: loop nests over lent 32-bit buffers.
//!
//! Price, check and run test all of their input. The rounds expect accepted terms and weights, and
//! buffers of the exact lengths.
//!
//! 32 bits are enough: T never falls, so an extrapolated flow number stays within three
//! times its pair's weight, and readings up to 65,408 less four such numbers stay below 2^20.

use std::iter;
use std::ops::Range;

use crate::calls::{validate_check, validate_price, validate_run, Calls, Figures};
use crate::refusal::Refusal;
use crate::rounds::{next_t, Outcome, T_UNIT};
use crate::terms::{reading, Rounds, Terms};

/// The loop nests.
pub(crate) const OPTIMIZED: Calls = Calls { check, run };

/// Calls a method of the job, of which there are two: one where all pairs have the weight of the
/// terms, and one that reads the weights lent.
macro_rules! dispatch {
    ($terms:expr, $samples:expr, $weights:expr, $($call:tt)+) => {
        match $weights {
            [] => AcceptedJob {
                terms: $terms,
                samples: $samples,
                weights: Uniform($terms.weight as i32),
            }
            .$($call)+,
            weights => AcceptedJob {
                terms: $terms,
                samples: $samples,
                weights: PerPair(weights),
            }
            .$($call)+,
        }
    };
}

/// Judges a given image: what `price` answers.
pub fn price(
    terms: &Terms,
    samples: &[u8],
    weights: &[i32],
    image: &[i32],
) -> Result<Figures, Refusal> {
    validate_price(terms, samples, weights, image)?;
    let price = dispatch!(terms, samples, weights, price(image));
    Ok(Figures::of_price(price))
}

/// Judges a given flow and fills `image` with its image: what `check` answers.
pub fn check(
    terms: &Terms,
    samples: &[u8],
    weights: &[i32],
    flow: &[i32],
    image: &mut [i32],
) -> Result<Figures, Refusal> {
    validate_check(terms, samples, weights, flow, image)?;
    Ok(dispatch!(terms, samples, weights, check(flow, image)))
}

/// Does the rounds and fills `flow` and `image`: what `run` answers and leaves.
pub fn run(
    terms: &Terms,
    rounds: &Rounds,
    samples: &[u8],
    weights: &[i32],
    flow: &mut [i32],
    image: &mut [i32],
    work: &mut [i32],
) -> Result<Figures, Refusal> {
    validate_run(terms, rounds, samples, weights, flow, image, work)?;
    let figures = dispatch!(terms, samples, weights, run(rounds, flow, image, work));
    Ok(figures)
}

/// Replaces `flow` by its step, leaves in `image` the image of the flow before the
/// step, and says whether a value changed.
pub fn steady_round(
    terms: &Terms,
    samples: &[u8],
    weights: &[i32],
    flow: &mut [i32],
    image: &mut [i32],
) -> bool {
    dispatch!(terms, samples, weights, steady_round(flow, image))
}

/// One quick round at `t`: takes `flow` and `extrapolated` (document 01: P and R) to the
/// next ones, leaves in `image` the image of the earlier `extrapolated`, and gives the
/// next T.
pub fn quick_round(
    terms: &Terms,
    samples: &[u8],
    weights: &[i32],
    t: u64,
    flow: &mut [i32],
    extrapolated: &mut [i32],
    image: &mut [i32],
) -> u64 {
    dispatch!(
        terms,
        samples,
        weights,
        quick_round(t, flow, extrapolated, image)
    )
}

/// The weights of all pairs, as the loops take them.
trait Weights: Copy {
    /// Those of a run of pairs.
    fn range(self, pairs: Range<usize>) -> impl Iterator<Item = i32>;

    /// The size of a difference times its pair's weight, divided by [`Weights::factor`].
    fn weighted(size: u32, weight: i32) -> u64;

    /// What is multiplied once for a sum.
    fn factor(self) -> u64;
}

/// One weight for all pairs.
#[derive(Clone, Copy)]
struct Uniform(i32);

impl Weights for Uniform {
    fn range(self, _pairs: Range<usize>) -> impl Iterator<Item = i32> {
        iter::repeat(self.0)
    }

    fn weighted(size: u32, _weight: i32) -> u64 {
        size.into()
    }

    fn factor(self) -> u64 {
        self.0 as u64
    }
}

/// A weight for each pair.
#[derive(Clone, Copy)]
struct PerPair<'a>(&'a [i32]);

impl Weights for PerPair<'_> {
    fn range(self, pairs: Range<usize>) -> impl Iterator<Item = i32> {
        self.0[pairs].iter().copied()
    }

    fn weighted(size: u32, weight: i32) -> u64 {
        u64::from(size) * u64::from(weight as u32)
    }

    fn factor(self) -> u64 {
        1
    }
}

/// A job whose terms and buffers have been validated.
struct AcceptedJob<'a, W> {
    terms: &'a Terms,
    samples: &'a [u8],
    weights: W,
}

impl<W: Weights> AcceptedJob<'_, W> {
    fn price(&self, image: &[i32]) -> u64 {
        let mut variation = 0;
        self.for_each_run(image, |pairs, firsts, seconds| {
            let weights = self.weights.range(pairs);
            for ((first, second), weight) in firsts.iter().zip(seconds).zip(weights) {
                variation += W::weighted((first - second).unsigned_abs(), weight);
            }
        });
        self.fidelity(image) + 2 * self.weights.factor() * variation
    }

    fn check(&self, flow: &[i32], image: &mut [i32]) -> Figures {
        self.fill_image(flow, image);
        self.figures(flow, image, Outcome::Checked, 0)
    }

    fn run(
        &self,
        rounds: &Rounds,
        flow: &mut [i32],
        image: &mut [i32],
        work: &mut [i32],
    ) -> Figures {
        flow.fill(0);
        work.fill(0);
        let extrapolated = &mut work[..flow.len()];
        let mut t = T_UNIT;
        for _ in 0..rounds.quick {
            t = self.quick_round(t, flow, extrapolated, image);
        }
        extrapolated.fill(0);

        let allowance = rounds.allowance.into();
        let mut moved = 0;
        // A round that changes nothing is the test that finds no pair.
        while moved < allowance && self.steady_round(flow, image) {
            moved += 1;
        }
        let spent = moved == allowance && self.would_move(flow, image);
        let outcome = if spent {
            Outcome::Spent
        } else {
            Outcome::Settled
        };
        // The last round or test has left the image of this flow.
        self.figures(flow, image, outcome, moved)
    }

    /// The figures of a flow and its image.
    fn figures(&self, flow: &[i32], image: &[i32], outcome: Outcome, moved: u32) -> Figures {
        let (mut variation, mut coupling) = (0, 0);
        self.for_each_run(image, |pairs, firsts, seconds| {
            let weights = self.weights.range(pairs.clone());
            let numbers = flow[pairs].iter().zip(firsts).zip(seconds);
            for (((&value, first), second), weight) in numbers.zip(weights) {
                let difference = first - second;
                variation += W::weighted(difference.unsigned_abs(), weight);
                coupling += i64::from(value) * i64::from(difference);
            }
        });
        let fidelity = self.fidelity(image);
        let price = fidelity + 2 * self.weights.factor() * variation;
        let floor = fidelity as i64 + 2 * coupling;
        Figures {
            outcome,
            moved,
            price,
            floor,
            slack: (price as i64 - floor) as u64,
        }
    }

    fn fidelity(&self, image: &[i32]) -> u64 {
        let mut fidelity = 0;
        for (&value, &sample) in image.iter().zip(self.samples) {
            let distance = u64::from(value.abs_diff(reading(sample)));
            fidelity += distance * distance;
        }
        fidelity
    }

    fn steady_round(&self, flow: &mut [i32], image: &mut [i32]) -> bool {
        self.fill_image(flow, image);
        let mut changed = false;
        self.for_each_run(image, |pairs, firsts, seconds| {
            let weights = self.weights.range(pairs.clone());
            let numbers = flow[pairs].iter_mut().zip(firsts).zip(seconds);
            for (((value, first), second), weight) in numbers.zip(weights) {
                let stepped = project(*value + steady_share(first - second), weight);
                changed |= stepped != *value;
                *value = stepped;
            }
        });
        changed
    }

    /// Whether a steady round would change `flow`. Leaves its image in `image`.
    fn would_move(&self, flow: &[i32], image: &mut [i32]) -> bool {
        self.fill_image(flow, image);
        let mut moving = false;
        self.for_each_run(image, |pairs, firsts, seconds| {
            let weights = self.weights.range(pairs.clone());
            let numbers = flow[pairs].iter().zip(firsts).zip(seconds);
            moving = moving
                || numbers
                    .zip(weights)
                    .any(|(((&value, first), second), weight)| {
                        project(value + steady_share(first - second), weight) != value
                    });
        });
        moving
    }

    fn quick_round(
        &self,
        t: u64,
        flow: &mut [i32],
        extrapolated: &mut [i32],
        image: &mut [i32],
    ) -> u64 {
        self.fill_image(extrapolated, image);
        let following_t = next_t(t);
        let (gain, scale) = ((t - T_UNIT) as i64, following_t as i64);
        self.for_each_run(image, |pairs, firsts, seconds| {
            let weights = self.weights.range(pairs.clone());
            let flows = flow[pairs.clone()].iter_mut().zip(&mut extrapolated[pairs]);
            let numbers = flows.zip(firsts).zip(seconds);
            for ((((value, extrapolated), first), second), weight) in numbers.zip(weights) {
                let stepped = project(*extrapolated + quick_share(first - second), weight);
                let momentum = gain * i64::from(stepped - *value) / scale;
                *extrapolated = stepped + momentum as i32;
                *value = stepped;
            }
        });
        following_t
    }

    /// Fills `image` with the image of `flow`, which may pass the weights.
    fn fill_image(&self, flow: &[i32], image: &mut [i32]) {
        let (width, height) = self.size();
        let (lower, upper) = self.terms.bounds().into_inner();
        let (down, right) = flow.split_at(width * (height - 1));
        for y in 0..height {
            let row = y * width..(y + 1) * width;
            let right = &right[y * (width - 1)..(y + 1) * (width - 1)];
            let values = &mut image[row.clone()];
            for (value, &sample) in values.iter_mut().zip(&self.samples[row.clone()]) {
                *value = reading(sample);
            }
            if y > 0 {
                add(values, &down[row.start - width..row.start]);
            }
            if y + 1 < height {
                subtract(values, &down[row]);
            }
            add(&mut values[1..], right);
            subtract(&mut values[..width - 1], right);
            for value in values {
                *value = (*value).clamp(lower, upper);
            }
        }
    }

    /// Visits all pairs in runs of successive ones, each with the values of its first
    /// and of its second pixels: one run for the pairs downward, then one for each row.
    fn for_each_run(&self, image: &[i32], mut visit: impl FnMut(Range<usize>, &[i32], &[i32])) {
        let (width, height) = self.size();
        let down = width * (height - 1);
        visit(0..down, &image[..down], &image[width..]);
        let mut start = down;
        for row in image.chunks_exact(width) {
            let end = start + width - 1;
            visit(start..end, &row[..width - 1], &row[1..]);
            start = end;
        }
    }

    fn size(&self) -> (usize, usize) {
        (self.terms.width as usize, self.terms.height as usize)
    }
}

/// A flow number projected onto the range of its weight. `clamp` would test the weight's sign at
/// every pair.
fn project(value: i32, weight: i32) -> i32 {
    value.max(-weight).min(weight)
}

/// An eighth, rounded toward zero.
fn quick_share(difference: i32) -> i32 {
    difference / 8
}

/// An eighth, rounded to the nearest, an exact half toward zero.
fn steady_share(difference: i32) -> i32 {
    // With 4 added, rounding down takes an exact half up; with 3, down.
    let added = if difference < 0 { 4 } else { 3 };
    (difference + added).div_euclid(8)
}

fn add(values: &mut [i32], flow: &[i32]) {
    for (value, flow) in values.iter_mut().zip(flow) {
        *value += flow;
    }
}

fn subtract(values: &mut [i32], flow: &[i32]) {
    for (value, flow) in values.iter_mut().zip(flow) {
        *value -= flow;
    }
}
