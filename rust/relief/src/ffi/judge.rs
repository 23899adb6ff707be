//! The calls price and check.

use super::Answer;
use crate::{Figures, Outcome, Refusal, Terms};

unsafe extern "C" {
    fn relief_call_price(
        width: u32,
        height: u32,
        weight: u32,
        low: u8,
        high: u8,
        samples: *const u8,
        samples_len: usize,
        weights: *const i32,
        weights_len: usize,
        image: *const i32,
        image_len: usize,
        place: *mut u64,
        outcome: *mut u32,
        moved: *mut u32,
        price: *mut u64,
        floor: *mut i64,
        slack: *mut u64,
    ) -> u32;

    fn relief_call_check(
        width: u32,
        height: u32,
        weight: u32,
        low: u8,
        high: u8,
        samples: *const u8,
        samples_len: usize,
        weights: *const i32,
        weights_len: usize,
        flow: *const i32,
        flow_len: usize,
        image: *mut i32,
        image_len: usize,
        place: *mut u64,
        outcome: *mut u32,
        moved: *mut u32,
        price: *mut u64,
        floor: *mut i64,
        slack: *mut u64,
    ) -> u32;
}

/// Judges a given image.
///
/// # Lengths
///
/// - `samples`: [`Terms::pixel_count`].
/// - `weights`: [`Terms::pair_count`], or 0 for none.
/// - `image`: [`Terms::pixel_count`]. Values in sub-units of 1/256 level, each within the box.
///
/// # Errors
///
/// Refused for size, weight, box; then the lengths of samples, weights and image; then one of
/// the weights; then an image value, in this order.
pub fn price(
    terms: &Terms,
    samples: &[u8],
    weights: &[i32],
    image: &[i32],
) -> Result<Figures, Refusal> {
    let mut answer = Answer::UNSET;
    // SAFETY: each buffer comes with its own length, and the numbers are locals.
    let number = unsafe {
        relief_call_price(
            terms.width,
            terms.height,
            terms.weight,
            terms.low,
            terms.high,
            samples.as_ptr(),
            samples.len(),
            weights.as_ptr(),
            weights.len(),
            image.as_ptr(),
            image.len(),
            &mut answer.place,
            &mut answer.outcome,
            &mut answer.moved,
            &mut answer.price,
            &mut answer.floor,
            &mut answer.slack,
        )
    };
    answer.figures(number, |f| {
        (f.outcome, f.moved, f.floor, f.slack) == (Outcome::Checked, 0, 0, 0)
    })
}

/// Judges a given flow and fills `image` with its image.
///
/// Two flows that are accepted for the same terms, samples and weights have images whose squared
/// distance, times 2, is at most the sum of the two slacks; where both are 0 the images are equal.
///
/// ```
/// # let terms = relief::Terms { width: 2, height: 1, weight: 256, low: 0, high: 255 };
/// let samples = [0, 2];
/// let (mut image, mut other_image) = ([0; 2], [0; 2]);
/// let figures = relief::check(&terms, &samples, &[], &[-254], &mut image)?;
/// let other = relief::check(&terms, &samples, &[], &[-256], &mut other_image)?;
/// assert_eq!((image, figures.slack), ([382, 386], 16));
/// assert_eq!((other_image, other.slack), ([384, 384], 0));
/// let squares = image.iter().zip(&other_image).map(|(a, b)| u64::from(a.abs_diff(*b)).pow(2));
/// assert!(2 * squares.sum::<u64>() <= figures.slack + other.slack);
/// # Ok::<(), relief::Refusal>(())
/// ```
///
/// # Lengths
///
/// - `samples`: [`Terms::pixel_count`].
/// - `weights`: [`Terms::pair_count`], or 0 for none.
/// - `flow`: [`Terms::pair_count`]. Each number is from -w to w, where w is its pair's weight.
/// - `image`: [`Terms::pixel_count`]. What it holds before does not matter.
///
/// # Errors
///
/// Refused for size, weight, box; then the lengths of samples, flow, weights and image; then one
/// of the weights; then a flow number, in this order.
pub fn check(
    terms: &Terms,
    samples: &[u8],
    weights: &[i32],
    flow: &[i32],
    image: &mut [i32],
) -> Result<Figures, Refusal> {
    let mut answer = Answer::UNSET;
    // SAFETY: as in `price`; `image` overlaps nothing, since it is borrowed mutably.
    let number = unsafe {
        relief_call_check(
            terms.width,
            terms.height,
            terms.weight,
            terms.low,
            terms.high,
            samples.as_ptr(),
            samples.len(),
            weights.as_ptr(),
            weights.len(),
            flow.as_ptr(),
            flow.len(),
            image.as_mut_ptr(),
            image.len(),
            &mut answer.place,
            &mut answer.outcome,
            &mut answer.moved,
            &mut answer.price,
            &mut answer.floor,
            &mut answer.slack,
        )
    };
    answer.figures(number, |f| (f.outcome, f.moved) == (Outcome::Checked, 0))
}
