//! What read is lent, whole and with mutations.

use relief_reference::{read, Job};

use crate::mutations::{mutated, mutation, Mutation};
use crate::{weighted_square, Answer, SQUARE_FLOW};

/// Everything that read is lent.
#[derive(Clone, Debug, PartialEq, Eq)]
pub struct TapeInput {
    /// The tape.
    pub tape: Vec<u8>,
    /// The buffer of samples.
    pub samples: Vec<u8>,
    /// The buffer of weights.
    pub weights: Vec<i32>,
    /// The buffer of flow numbers.
    pub flow: Vec<i32>,
}

impl TapeInput {
    /// What the reference answers.
    pub fn read(&mut self) -> Answer<Job> {
        read(
            &self.tape,
            &mut self.samples,
            &mut self.weights,
            &mut self.flow,
        )
    }
}

/// A tape of 2 by 2 pixels with weights and a flow, with each mutation of its bytes and of the
/// buffers' lengths alone, and with each two of them, with the answer that is due.
pub fn mutated_reads() -> Vec<(TapeInput, Answer<()>)> {
    mutated(accepted(), MUTATIONS.iter())
}

/// The same tape with mutations of its bytes only, as a program reads it.
pub fn mutated_tapes() -> Vec<(Vec<u8>, Answer<()>)> {
    with_mutations(mutations_of_bytes())
}

/// The same as a job of a season: a byte behind its end begins another job, which is judged after
/// the flow. No bytes are no job, and left out.
pub fn mutated_jobs() -> Vec<(Vec<u8>, Answer<()>)> {
    let own = mutations_of_bytes().filter(|mutation| mutation.refusal.number != 15);
    let mut jobs = with_mutations(own.chain([&NEXT_JOB]));
    jobs.retain(|(tape, _)| !tape.is_empty());
    jobs
}

fn accepted() -> TapeInput {
    TapeInput {
        tape: weighted_square().tape(&SQUARE_FLOW),
        samples: vec![255; 4],
        weights: vec![-1; 4],
        flow: vec![-1; 4],
    }
}

/// The tape with each of these mutations alone, and with each two of them.
fn with_mutations<'a>(
    mutations: impl Iterator<Item = &'a Mutation<TapeInput>> + Clone,
) -> Vec<(Vec<u8>, Answer<()>)> {
    let inputs = mutated(accepted(), mutations).into_iter();
    let mut tapes: Vec<_> = inputs.map(|(input, answer)| (input.tape, answer)).collect();
    // Mutations behind a cut make no difference.
    tapes.dedup();
    tapes
}

/// Those that change the tape, and not a buffer.
fn mutations_of_bytes() -> impl Iterator<Item = &'static Mutation<TapeInput>> + Clone {
    let input = accepted();
    let changes =
        move |mutation: &&Mutation<TapeInput>| mutation.mutated(&input).tape != input.tape;
    MUTATIONS.iter().filter(changes)
}

/// The next job of a season begins with an end record.
const NEXT_JOB: Mutation<TapeInput> = mutation(14, 0, |input| input.tape.push(0));

/// In the order in which a read meets them. The tape's records stand at 0, 5, 10, 15 to 21, 23 to
/// 32, 35 to 50 and 55.
const MUTATIONS: [Mutation<TapeInput>; 47] = [
    // The size, and the buffers for it.
    mutation(18, 0, |input| input.tape.clear()),
    mutation(12, 0, |input| input.tape[0] = 7),
    mutation(14, 0, |input| input.tape[0] = 2),
    mutation(13, 0, |input| input.tape.truncate(4)),
    mutation(1, 0, |input| input.tape[1..3].fill(0)),
    // So many pixels that a program's tables are too short as well.
    mutation(16, 0, |input| input.tape[4] = 15),
    mutation(16, 0, |input| input.samples.truncate(3)),
    mutation(16, 0, |input| input.weights.truncate(3)),
    mutation(16, 0, |input| input.flow.truncate(3)),
    // Weight and box.
    mutation(18, 5, |input| input.tape.truncate(5)),
    mutation(14, 5, |input| input.tape[5] = 3),
    mutation(13, 5, |input| input.tape.truncate(6)),
    mutation(2, 5, |input| input.tape[6..8].fill(255)),
    mutation(3, 5, |input| input.tape[8] = 13),
    // Rounds.
    mutation(18, 10, |input| input.tape.truncate(10)),
    mutation(12, 10, |input| input.tape[10] = 255),
    mutation(13, 10, |input| input.tape.truncate(14)),
    mutation(10, 10, |input| input.tape[11..13].fill(17)),
    // Samples.
    mutation(14, 15, |input| input.tape[15] = 5),
    mutation(18, 17, |input| input.tape.truncate(17)),
    mutation(14, 17, |input| input.tape[17] = 6),
    mutation(12, 19, |input| input.tape[19] = 7),
    mutation(13, 21, |input| input.tape.truncate(22)),
    // Weights.
    mutation(18, 23, |input| input.tape.truncate(23)),
    mutation(14, 23, |input| input.tape[23] = 4),
    mutation(13, 23, |input| input.tape.truncate(25)),
    mutation(2, 23, |input| input.tape[24..26].fill(255)),
    mutation(14, 26, |input| input.tape[26] = 0),
    mutation(2, 26, |input| input.tape[28] = 255),
    mutation(18, 29, |input| input.tape.truncate(29)),
    mutation(14, 29, |input| input.tape[29] = 5),
    mutation(12, 32, |input| input.tape[32] = 7),
    mutation(13, 32, |input| input.tape.truncate(33)),
    mutation(2, 32, |input| input.tape[33] = 1),
    // The flow.
    mutation(18, 35, |input| input.tape.truncate(35)),
    mutation(14, 35, |input| input.tape[35] = 4),
    mutation(13, 35, |input| input.tape.truncate(39)),
    mutation(14, 40, |input| input.tape[40] = 0),
    mutation(12, 45, |input| input.tape[45] = 7),
    mutation(14, 50, |input| input.tape[50] = 6),
    mutation(13, 50, |input| input.tape.truncate(53)),
    // The end, and what is judged behind it.
    mutation(18, 55, |input| input.tape.truncate(55)),
    mutation(12, 55, |input| input.tape[55] = 7),
    mutation(14, 55, |input| input.tape[55] = 5),
    mutation(15, 56, |input| input.tape.push(0)),
    mutation(8, 1, |input| input.tape[41..45].fill(0x7F)),
    mutation(8, 2, |input| input.tape[46..50].fill(0x80)),
];
