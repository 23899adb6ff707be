//! The call run.

use super::Answer;
use crate::{Figures, Outcome, Refusal, Rounds, Terms};

unsafe extern "C" {
    fn relief_call_run(
        width: u32,
        height: u32,
        weight: u32,
        low: u8,
        high: u8,
        quick: u32,
        allowance: u16,
        samples: *const u8,
        samples_len: usize,
        weights: *const i32,
        weights_len: usize,
        flow: *mut i32,
        flow_len: usize,
        image: *mut i32,
        image_len: usize,
        work: *mut i32,
        work_len: usize,
        place: *mut u64,
        outcome: *mut u32,
        moved: *mut u32,
        price: *mut u64,
        floor: *mut i64,
        slack: *mut u64,
    ) -> u32;
}

/// Does the rounds, starting from flow 0, and fills `flow` and `image`.
///
/// Three pixels with a joint between the second and the third:
///
/// ```
/// # let terms = relief::Terms { width: 3, height: 1, weight: 256, low: 0, high: 255 };
/// # let rounds = relief::Rounds { quick: 0, allowance: 100 };
/// let (samples, weights) = ([0, 2, 100], [256, 0]);
/// let (mut flow, mut image, mut work) = ([0; 2], [0; 3], [0; 4]);
/// relief::run(&terms, &rounds, &samples, &weights, &mut flow, &mut image, &mut work)?;
/// assert_eq!(image, [382, 386, 25_728]); // 25_728 is the reading of 100
/// relief::run(&terms, &rounds, &samples, &[], &mut flow, &mut image, &mut work)?;
/// assert_eq!(image, [384, 640, 25_472]); // weight 256 at the joint, too
/// # Ok::<(), relief::Refusal>(())
/// ```
///
/// # Lengths
///
/// - `samples`: [`Terms::pixel_count`].
/// - `weights`: [`Terms::pair_count`], or 0 for none.
/// - `flow`: [`Terms::pair_count`].
/// - `image`: [`Terms::pixel_count`].
/// - `work`: 2 × [`Terms::pair_count`]. It holds only zeros after an accepted run.
///
/// What flow, image and work hold before does not matter.
///
/// # Errors
///
/// Refused for size, weight, box, quick rounds; then the lengths of samples, flow, weights, image
/// and work; then one of the weights, in this order.
pub fn run(
    terms: &Terms,
    rounds: &Rounds,
    samples: &[u8],
    weights: &[i32],
    flow: &mut [i32],
    image: &mut [i32],
    work: &mut [i32],
) -> Result<Figures, Refusal> {
    let mut answer = Answer::UNSET;
    // SAFETY: each buffer comes with its own length, those that are filled overlap nothing,
    // since they are borrowed mutably, and the numbers are locals.
    let number = unsafe {
        relief_call_run(
            terms.width,
            terms.height,
            terms.weight,
            terms.low,
            terms.high,
            rounds.quick,
            rounds.allowance,
            samples.as_ptr(),
            samples.len(),
            weights.as_ptr(),
            weights.len(),
            flow.as_mut_ptr(),
            flow.len(),
            image.as_mut_ptr(),
            image.len(),
            work.as_mut_ptr(),
            work.len(),
            &mut answer.place,
            &mut answer.outcome,
            &mut answer.moved,
            &mut answer.price,
            &mut answer.floor,
            &mut answer.slack,
        )
    };
    answer.figures(number, |f| f.outcome != Outcome::Checked)
}
