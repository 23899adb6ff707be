//! The calls read and write.

use super::verdict;
use crate::{Job, Refusal, Rounds, Terms};

unsafe extern "C" {
    fn relief_call_read(
        tape: *const u8,
        tape_len: usize,
        samples: *mut u8,
        samples_len: usize,
        weights: *mut i32,
        weights_len: usize,
        flow: *mut i32,
        flow_len: usize,
        place: *mut u64,
        width: *mut u32,
        height: *mut u32,
        weight: *mut u32,
        low: *mut u8,
        high: *mut u8,
        quick: *mut u32,
        allowance: *mut u16,
        weighted: *mut u32,
        flowed: *mut u32,
    ) -> u32;

    fn relief_call_write(
        width: u32,
        height: u32,
        weight: u32,
        low: u8,
        high: u8,
        quick: u32,
        allowance: u16,
        samples: *const u8,
        samples_len: usize,
        weights: *const i32,
        weights_len: usize,
        flow: *const i32,
        flow_len: usize,
        output: *mut u8,
        output_len: usize,
        place: *mut u64,
        count: *mut u64,
    ) -> u32;
}

/// Reads a tape of one job, its samples, weights and flow into the front of the buffers. The rest
/// of them is left as it was; without weight records all of `weights` is, and without flow
/// records all of `flow`.
///
/// A job is read, then run:
///
/// ```
/// # #[cfg(feature = "run")] {
/// # let tape = [
/// #     1, 3, 0, 1, 0, 2, 0, 1, 0, 255, 3, 0, 0, 100, 0, // terms and rounds
/// #     4, 0, 4, 2, 4, 100, 6, 0, 1, 6, 0, 0, 0, // samples 0, 2, 100; weights 256, 0
/// # ];
/// let mut samples = vec![0; relief::read_samples_len(tape.len())];
/// let mut weights = vec![0; relief::read_weights_len(tape.len())];
/// let mut flow = vec![0; relief::read_flow_len(tape.len())];
/// let job = relief::read(&tape, &mut samples, &mut weights, &mut flow)?;
///
/// let (pixels, pairs) = (job.terms.pixel_count(), job.terms.pair_count());
/// samples.truncate(pixels);
/// weights.truncate(if job.has_weights { pairs } else { 0 });
/// flow.truncate(pairs);
/// let (mut image, mut work) = (vec![0; pixels], vec![0; 2 * pairs]);
/// let (terms, rounds) = (job.terms, job.rounds);
/// relief::run(&terms, &rounds, &samples, &weights, &mut flow, &mut image, &mut work)?;
/// # assert_eq!(weights, [256, 0]);
/// # assert_eq!(image, [382, 386, 25_728]);
/// # }
/// # Ok::<(), relief::Refusal>(())
/// ```
///
/// # Lengths
///
/// - `samples`: at least the job's [`Terms::pixel_count`]. [`read_samples_len`] is enough.
/// - `weights`: at least the job's [`Terms::pair_count`], with or without weight records.
///   [`read_weights_len`] is enough.
/// - `flow`: at least the job's [`Terms::pair_count`], with or without flow records.
///   [`read_flow_len`] is enough.
///
/// # Errors
///
/// Refused at the first faulty record: where it is missing, for its kind, where it is cut, for its
/// terms or its weight, and at the first record for the buffers' lengths; then for a byte after the
/// end; then for a flow number.
///
/// [`read_samples_len`]: crate::read_samples_len
/// [`read_weights_len`]: crate::read_weights_len
/// [`read_flow_len`]: crate::read_flow_len
pub fn read(
    tape: &[u8],
    samples: &mut [u8],
    weights: &mut [i32],
    flow: &mut [i32],
) -> Result<Job, Refusal> {
    let mut terms = Terms {
        width: u32::MAX,
        height: u32::MAX,
        weight: u32::MAX,
        low: u8::MAX,
        high: u8::MAX,
    };
    let mut rounds = Rounds {
        quick: u32::MAX,
        allowance: u16::MAX,
    };
    let (mut place, mut weighted, mut flowed) = (u64::MAX, u32::MAX, u32::MAX);
    // SAFETY: each buffer comes with its own length, those that are filled overlap nothing,
    // since they are borrowed mutably, and the numbers are locals.
    let number = unsafe {
        relief_call_read(
            tape.as_ptr(),
            tape.len(),
            samples.as_mut_ptr(),
            samples.len(),
            weights.as_mut_ptr(),
            weights.len(),
            flow.as_mut_ptr(),
            flow.len(),
            &mut place,
            &mut terms.width,
            &mut terms.height,
            &mut terms.weight,
            &mut terms.low,
            &mut terms.high,
            &mut rounds.quick,
            &mut rounds.allowance,
            &mut weighted,
            &mut flowed,
        )
    };
    let zeros = (terms, rounds) == Default::default() && (weighted, flowed) == (0, 0);
    verdict(number, place, zeros)?;
    Ok(Job {
        terms,
        rounds,
        has_weights: flag("weights", weighted),
        has_flow: flag("a flow", flowed),
    })
}

/// What a tape was read with for whether something was there.
fn flag(what: &str, number: u32) -> bool {
    match number {
        0 => false,
        1 => true,
        _ => panic!("a tape was read with {number} for whether it has {what}"),
    }
}

/// Writes a job's tape into the front of `output` and gives its byte count. The rest of
/// `output` is left as it was.
///
/// # Lengths
///
/// - `samples`: [`Terms::pixel_count`].
/// - `weights`: [`Terms::pair_count`], or 0 for no weight records.
/// - `flow`: [`Terms::pair_count`], or 0 for no flow records.
/// - `output`: at least [`tape_bytes`] of the lengths of samples, weights and flow.
///
/// # Errors
///
/// Refused for size, weight, box, quick rounds; then the lengths of samples, flow, weights and
/// output; then one of the weights; then a flow number, in this order.
///
/// [`tape_bytes`]: crate::tape_bytes
pub fn write(
    terms: &Terms,
    rounds: &Rounds,
    samples: &[u8],
    weights: &[i32],
    flow: &[i32],
    output: &mut [u8],
) -> Result<usize, Refusal> {
    let (mut place, mut count) = (u64::MAX, u64::MAX);
    // SAFETY: as in `read`.
    let number = unsafe {
        relief_call_write(
            terms.width,
            terms.height,
            terms.weight,
            terms.low,
            terms.high,
            rounds.quick,
            rounds.allowance,
            samples.as_ptr(),
            samples.len(),
            weights.as_ptr(),
            weights.len(),
            flow.as_ptr(),
            flow.len(),
            output.as_mut_ptr(),
            output.len(),
            &mut place,
            &mut count,
        )
    };
    verdict(number, place, count == 0)?;
    Ok(usize::try_from(count).expect("a tape in memory is no longer than memory"))
}
