//! Inputs about as long as the program takes, much longer ones, and inputs in pieces.

use relief_inputs::{compare_family, two_by_one, Difference};
use relief_reference::program::INPUT_LIMIT;

use crate::child::{Input, Program};
use crate::compare::compare as compare_tape;
use crate::tapes::{full_tape, overfull_tape, weighted_tape};

/// Compares inputs of these lengths.
pub fn compare(program: &Program) -> Result<(), Difference> {
    compare_family("lengths and pieces", inputs(), |input| {
        compare_tape(program, input)
    })?
    .require(&["settled", "checked"], &[13, 14, 15, 17])
}

fn inputs() -> Vec<Input> {
    let (small, full) = (two_by_one().tape(&[]), full_tape());
    let mut inputs = Vec::new();
    for tape in [&[], &small[..], &full] {
        for length in [INPUT_LIMIT - 1, INPUT_LIMIT, INPUT_LIMIT + 1, 1_000_000] {
            inputs.push(padded(tape, length).into());
            inputs.push(Input::in_pieces(padded(tape, length), 997, 0));
        }
    }
    // All weights and all flow numbers, the first of them of as many bytes as can be, whole and up
    // to the limit.
    let longest = weighted_tape(100, 37).bytes;
    let overfull = overfull_tape().bytes;
    for tape in [&longest, &weighted_tape(14, 269).bytes, &overfull] {
        inputs.push(tape.clone().into());
    }
    inputs.extend([
        Input::in_pieces(longest, 4_099, 0),
        Input::in_pieces(overfull.clone(), 4_099, 0),
        overfull[..INPUT_LIMIT].to_vec().into(),
        overfull[..INPUT_LIMIT + 1].to_vec().into(),
    ]);
    let (longest, too_long) = (INPUT_LIMIT, INPUT_LIMIT + 1);
    inputs.extend([
        Input::in_pieces(small.clone(), 1, 1),
        Input::in_pieces(full.clone(), 1, 0),
        Input::in_pieces(full, 4_096, 1),
        Input::in_pieces(padded(&small, longest), 16_384, 1),
        // The byte too many comes late.
        Input::in_pieces(padded(&small, too_long), longest, 5),
        Input::in_pieces(padded(&small, too_long), 1, 0),
    ]);
    inputs
}

/// The tape with zeros behind its end, up to this length.
fn padded(tape: &[u8], length: usize) -> Vec<u8> {
    let mut bytes = tape.to_vec();
    bytes.resize(length, 0);
    bytes
}
