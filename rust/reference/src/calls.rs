//! The calls on a job: price, check and run.

use std::fmt;

use crate::grid::Grid;
use crate::problem::{widened, Problem};
use crate::refusal::{Fault, Refusal};
use crate::rounds::{quick_rounds, steady_rounds, Outcome};
use crate::terms::{validate_pair_weights, Rounds, Terms};

/// What an accepted call answers.
#[derive(Clone, Copy, Debug, PartialEq, Eq)]
pub struct Figures {
    /// How the call ended.
    pub outcome: Outcome,
    /// The number of steady rounds that changed a value; 0 but for a run.
    pub moved: u32,
    /// The primal objective of the image.
    pub price: u64,
    /// The dual objective of the flow; 0 for `price`.
    pub floor: i64,
    /// The duality gap; 0 for `price`.
    pub slack: u64,
}

/// As the cleaning program prints them: `settled 17 131080 131064 16`.
impl fmt::Display for Figures {
    fn fmt(&self, out: &mut fmt::Formatter<'_>) -> fmt::Result {
        let Figures {
            outcome,
            moved,
            price,
            floor,
            slack,
        } = self;
        write!(out, "{outcome} {moved} {price} {floor} {slack}")
    }
}

/// The form of [`check`].
type Check = fn(&Terms, &[u8], &[i32], &[i32], &mut [i32]) -> Result<Figures, Refusal>;

/// The form of [`run`].
type Run = fn(
    &Terms,
    &Rounds,
    &[u8],
    &[i32],
    &mut [i32],
    &mut [i32],
    &mut [i32],
) -> Result<Figures, Refusal>;

/// Check and run, by one of their two implementations.
pub(crate) struct Calls {
    pub(crate) check: Check,
    pub(crate) run: Run,
}

/// The definitions.
pub(crate) const DEFINITIONS: Calls = Calls { check, run };

impl Figures {
    /// What `price` answers.
    pub(crate) fn of_price(price: u64) -> Figures {
        Figures {
            outcome: Outcome::Checked,
            moved: 0,
            price,
            floor: 0,
            slack: 0,
        }
    }
}

/// Judges a given image.
///
/// Here as in every call, `weights` has one value for each pair, or none: then each pair has the
/// weight of the terms.
pub fn price(
    terms: &Terms,
    samples: &[u8],
    weights: &[i32],
    image: &[i32],
) -> Result<Figures, Refusal> {
    let grid = validate_price(terms, samples, weights, image)?;
    let problem = Problem::new(grid, terms, samples, weights);
    Ok(Figures::of_price(figure(
        problem.objective(&widened(image)),
    )))
}

/// The grid of a price, if nothing makes it turn back.
pub(crate) fn validate_price(
    terms: &Terms,
    samples: &[u8],
    weights: &[i32],
    image: &[i32],
) -> Result<Grid, Refusal> {
    let grid = terms.validate()?;
    Fault::SamplesLength.unless(samples.len() == grid.pixel_count())?;
    Fault::WeightsLength.unless(grid.holds_none_or_all_pairs(weights.len()))?;
    Fault::ImageLength.unless(image.len() == grid.pixel_count())?;
    validate_pair_weights(weights)?;
    terms.validate_image(image)?;
    Ok(grid)
}

/// Judges a given flow and fills `image` with its image.
pub fn check(
    terms: &Terms,
    samples: &[u8],
    weights: &[i32],
    flow: &[i32],
    image: &mut [i32],
) -> Result<Figures, Refusal> {
    let grid = validate_check(terms, samples, weights, flow, image)?;
    let problem = Problem::new(grid, terms, samples, weights);
    Ok(certify(
        &problem,
        &widened(flow),
        Outcome::Checked,
        0,
        image,
    ))
}

/// The grid of a check, if nothing makes it turn back.
pub(crate) fn validate_check(
    terms: &Terms,
    samples: &[u8],
    weights: &[i32],
    flow: &[i32],
    image: &[i32],
) -> Result<Grid, Refusal> {
    let grid = terms.validate()?;
    Fault::SamplesLength.unless(samples.len() == grid.pixel_count())?;
    Fault::FlowLength.unless(flow.len() == grid.pair_count())?;
    Fault::WeightsLength.unless(grid.holds_none_or_all_pairs(weights.len()))?;
    Fault::ImageLength.unless(image.len() == grid.pixel_count())?;
    validate_pair_weights(weights)?;
    terms.validate_flow(weights, flow)?;
    Ok(grid)
}

/// Does the rounds, starting from flow 0, and fills `flow` and `image`.
///
/// `work` is only there to be lent: the rounds keep their own vectors. An accepted
/// run leaves zeros in it.
pub fn run(
    terms: &Terms,
    rounds: &Rounds,
    samples: &[u8],
    weights: &[i32],
    flow: &mut [i32],
    image: &mut [i32],
    work: &mut [i32],
) -> Result<Figures, Refusal> {
    let grid = validate_run(terms, rounds, samples, weights, flow, image, work)?;
    let problem = Problem::new(grid, terms, samples, weights);
    let quick = quick_rounds(&problem, rounds.quick);
    let steady = steady_rounds(&problem, quick, rounds.allowance);
    narrow(&steady.flow, flow);
    work.fill(0);
    Ok(certify(
        &problem,
        &steady.flow,
        steady.outcome,
        steady.moved,
        image,
    ))
}

/// The grid of a run, if nothing makes it turn back.
pub(crate) fn validate_run(
    terms: &Terms,
    rounds: &Rounds,
    samples: &[u8],
    weights: &[i32],
    flow: &[i32],
    image: &[i32],
    work: &[i32],
) -> Result<Grid, Refusal> {
    let grid = terms.validate()?;
    rounds.validate()?;
    Fault::SamplesLength.unless(samples.len() == grid.pixel_count())?;
    Fault::FlowLength.unless(flow.len() == grid.pair_count())?;
    Fault::WeightsLength.unless(grid.holds_none_or_all_pairs(weights.len()))?;
    Fault::ImageLength.unless(image.len() == grid.pixel_count())?;
    Fault::WorkLength.unless(work.len() == 2 * grid.pair_count())?;
    validate_pair_weights(weights)?;
    Ok(grid)
}

/// Fills `image` with the image of `flow` and gives the figures of both.
fn certify(
    problem: &Problem,
    flow: &[i64],
    outcome: Outcome,
    moved: u32,
    image: &mut [i32],
) -> Figures {
    let values = problem.image_of(flow);
    narrow(&values, image);
    Figures {
        outcome,
        moved,
        price: figure(problem.objective(&values)),
        floor: figure(problem.dual_objective(flow)),
        slack: figure(problem.duality_gap(flow)),
    }
}

/// Copies flow or image values into a lent buffer of the same length.
fn narrow(values: &[i64], buffer: &mut [i32]) {
    for (place, &value) in buffer.iter_mut().zip(values) {
        *place = i32::try_from(value).expect("flows stay within 65,280 and images within 65,535");
    }
}

/// A total in the 64 bits of an answer.
fn figure<T: TryFrom<i128>>(total: i128) -> T {
    T::try_from(total)
        .ok()
        .expect("totals stay below 2^56 within the limits")
}
