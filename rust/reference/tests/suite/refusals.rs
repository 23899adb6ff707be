//! Where each call turns back: every number at its place, the earlier of two faults,
//! and no buffer touched.

use std::fmt::Debug;

use relief_inputs::{
    flat, mutated, mutated_reads, mutation, square, weighted_square, Case, Mutation, Tape,
    SQUARE_FLOW,
};
use relief_reference::tape::Capacity;
use relief_reference::{check, price, run, write, Refusal, Rounds, Terms};

use crate::support::{read_back, read_back_within, refusal, sentinels, Calls};

/// Everything that the calls are lent.
#[derive(Clone, Debug, PartialEq, Eq)]
struct JobInput {
    terms: Terms,
    rounds: Rounds,
    samples: Vec<u8>,
    weights: Vec<i32>,
    flow: Vec<i32>,
    image: Vec<i32>,
    work: Vec<i32>,
    tape: Vec<u8>,
}

impl JobInput {
    /// What every call accepts.
    fn accepted() -> JobInput {
        JobInput::of(weighted_square())
    }

    /// The same without weights.
    fn unweighted() -> JobInput {
        JobInput::of(square())
    }

    fn of(case: Case) -> JobInput {
        JobInput {
            image: vec![2_048; case.grid().pixel_count()],
            work: sentinels(2 * case.grid().pair_count()),
            flow: SQUARE_FLOW.to_vec(),
            tape: case.tape(&SQUARE_FLOW),
            terms: case.terms,
            rounds: case.rounds,
            samples: case.samples,
            weights: case.weights,
        }
    }

    fn price(&mut self) -> Result<(), Refusal> {
        price(&self.terms, &self.samples, &self.weights, &self.image).map(drop)
    }

    fn check(&mut self) -> Result<(), Refusal> {
        check(
            &self.terms,
            &self.samples,
            &self.weights,
            &self.flow,
            &mut self.image,
        )
        .map(drop)
    }

    fn run(&mut self) -> Result<(), Refusal> {
        run(
            &self.terms,
            &self.rounds,
            &self.samples,
            &self.weights,
            &mut self.flow,
            &mut self.image,
            &mut self.work,
        )
        .map(drop)
    }

    fn write(&mut self) -> Result<(), Refusal> {
        write(
            &self.terms,
            &self.rounds,
            &self.samples,
            &self.weights,
            &self.flow,
            &mut self.tape,
        )
        .map(drop)
    }
}

const SIZE: Mutation<JobInput> = mutation(1, 0, |input| input.terms.width = 0);
const WEIGHT: Mutation<JobInput> = mutation(2, 0, |input| input.terms.weight = 65_281);
const BOX: Mutation<JobInput> = mutation(3, 0, |input| input.terms.low = input.terms.high + 1);
const QUICK_ROUNDS: Mutation<JobInput> = mutation(10, 0, |input| input.rounds.quick = 4_097);
const SAMPLES_LONG: Mutation<JobInput> = mutation(4, 0, |input| input.samples.push(0));
const SAMPLES_SHORT: Mutation<JobInput> = mutation(4, 0, |input| input.samples.truncate(3));
const FLOW_LONG: Mutation<JobInput> = mutation(5, 0, |input| input.flow.push(0));
const FLOW_SHORT: Mutation<JobInput> = mutation(5, 0, |input| input.flow.truncate(3));
const WEIGHTS_LONG: Mutation<JobInput> = mutation(19, 0, |input| input.weights.push(0));
const WEIGHTS_SHORT: Mutation<JobInput> = mutation(19, 0, |input| input.weights.resize(3, 0));
const IMAGE_LONG: Mutation<JobInput> = mutation(6, 0, |input| input.image.push(2_048));
const IMAGE_SHORT: Mutation<JobInput> = mutation(6, 0, |input| input.image.truncate(3));
const WORK_LONG: Mutation<JobInput> = mutation(7, 0, |input| input.work.push(0));
const WORK_SHORT: Mutation<JobInput> = mutation(7, 0, |input| input.work.truncate(7));
const TAPE_SHORT: Mutation<JobInput> =
    mutation(16, 0, |input| input.tape.truncate(input.tape.len() - 1));
const PAIR_WEIGHT: Mutation<JobInput> = mutation(2, 2, |input| input.weights[2..].fill(65_281));
const FLOW_VALUE: Mutation<JobInput> = mutation(8, 1, |input| input.flow[1..3].fill(i32::MIN));
const IMAGE_VALUE: Mutation<JobInput> = mutation(9, 2, |input| input.image[2..].fill(3_328));

type Call = fn(&mut JobInput) -> Result<(), Refusal>;

/// Tries the mutations with weights and, but that of a pair's weight, without them.
fn assert_refuses(call: Call, mutations: &[Mutation<JobInput>]) {
    assert_answers(call, mutated(JobInput::accepted(), mutations.iter()));
    let others = mutations
        .iter()
        .filter(|mutation| mutation.refusal != PAIR_WEIGHT.refusal);
    assert_answers(call, mutated(JobInput::unweighted(), others));
}

/// The call gives the answers that are due, and where it turns back, nothing that was lent changes.
fn assert_answers<I: Clone + Debug + PartialEq>(
    call: fn(&mut I) -> Result<(), Refusal>,
    inputs: Vec<(I, Result<(), Refusal>)>,
) {
    for (before, due) in inputs {
        let mut input = before.clone();
        assert_eq!(call(&mut input), due);
        if due.is_err() {
            assert_eq!(input, before);
        }
    }
}

#[test]
fn price_refuses() {
    assert_refuses(
        JobInput::price,
        &[
            SIZE,
            WEIGHT,
            BOX,
            SAMPLES_LONG,
            WEIGHTS_LONG,
            IMAGE_LONG,
            PAIR_WEIGHT,
            IMAGE_VALUE,
        ],
    );
    let short = [SAMPLES_SHORT, WEIGHTS_SHORT, IMAGE_SHORT];
    assert_refuses(JobInput::price, &short);
    for outside in [2_047, 3_328, i32::MIN, i32::MAX] {
        let image = [2_048, 3_327, 2_048, outside];
        assert_eq!(square().price(&image), Err(refusal(9, 3)));
    }
}

#[test]
fn check_refuses() {
    assert_refuses(
        JobInput::check,
        &[
            SIZE,
            WEIGHT,
            BOX,
            SAMPLES_LONG,
            FLOW_LONG,
            WEIGHTS_LONG,
            IMAGE_LONG,
            PAIR_WEIGHT,
            FLOW_VALUE,
        ],
    );
    let short = [SAMPLES_SHORT, FLOW_SHORT, WEIGHTS_SHORT, IMAGE_SHORT];
    assert_refuses(JobInput::check, &short);
    for beyond in [-257, 257, i32::MIN, i32::MAX] {
        let flow = [256, -256, 0, beyond];
        assert_eq!(square().check(&flow), Err(refusal(8, 3)));
    }
}

#[test]
fn run_refuses() {
    assert_refuses(
        JobInput::run,
        &[
            SIZE,
            WEIGHT,
            BOX,
            QUICK_ROUNDS,
            SAMPLES_LONG,
            FLOW_LONG,
            WEIGHTS_LONG,
            IMAGE_LONG,
            WORK_LONG,
            PAIR_WEIGHT,
        ],
    );
    assert_refuses(
        JobInput::run,
        &[
            SAMPLES_SHORT,
            FLOW_SHORT,
            WEIGHTS_SHORT,
            IMAGE_SHORT,
            WORK_SHORT,
        ],
    );
}

#[test]
fn run_does_not_look_at_the_flow_it_is_lent() {
    let mut input = JobInput::accepted();
    (FLOW_VALUE.apply)(&mut input);
    assert_eq!(input.run(), Ok(()));
}

#[test]
fn write_refuses() {
    assert_refuses(
        JobInput::write,
        &[
            SIZE,
            WEIGHT,
            BOX,
            QUICK_ROUNDS,
            SAMPLES_LONG,
            FLOW_LONG,
            WEIGHTS_LONG,
            TAPE_SHORT,
            PAIR_WEIGHT,
            FLOW_VALUE,
        ],
    );
    assert_refuses(JobInput::write, &[SAMPLES_SHORT, FLOW_SHORT, WEIGHTS_SHORT]);
}

/// Weights in all calls that are lent them: 0 to 65,280 are taken, all others refused.
#[test]
fn limits_of_the_pair_weights() {
    for (value, taken) in [
        (0, true),
        (1, true),
        (65_280, true),
        (65_281, false),
        (65_536, false),
        (i32::MAX, false),
        (-1, false),
        (-65_280, false),
        (i32::MIN, false),
    ] {
        for call in [
            JobInput::price,
            JobInput::check,
            JobInput::run,
            JobInput::write,
        ] {
            for index in 0..4 {
                let mut input = JobInput::accepted();
                input.flow.fill(0);
                input.weights[index..].fill(value);
                let expected = match taken {
                    true => Ok(()),
                    false => Err(refusal(2, index as u64)),
                };
                let weights = input.weights.clone();
                assert_eq!(call(&mut input), expected);
                assert_eq!(input.weights, weights);
            }
        }
    }
}

/// A buffer of one weight too few, too many, or of any other number but 0.
#[test]
fn lengths_of_the_weight_buffer() {
    let refused = Err(refusal(19, 0));
    for call in [
        JobInput::price,
        JobInput::check,
        JobInput::run,
        JobInput::write,
    ] {
        for length in 0..10 {
            let mut input = JobInput::accepted();
            input.weights.resize(length, 256);
            input.flow = SQUARE_FLOW.to_vec();
            let expected = match length {
                0 | 4 => Ok(()),
                _ => refused,
            };
            assert_eq!(call(&mut input), expected);
        }
    }
    // Without pairs there are no weights.
    let Case {
        terms,
        rounds,
        samples,
        ..
    } = flat(1, 1);
    for weights in [&[][..], &[256]] {
        let expected = if weights.is_empty() { Ok(()) } else { refused };
        let price = price(&terms, &samples, weights, &[0]);
        assert_eq!(price.map(drop), expected);
        let check = check(&terms, &samples, weights, &[], &mut [0]);
        assert_eq!(check.map(drop), expected);
        let run = run(
            &terms,
            &rounds,
            &samples,
            weights,
            &mut [],
            &mut [0],
            &mut [],
        );
        assert_eq!(run.map(drop), expected);
        let write = write(&terms, &rounds, &samples, weights, &[], &mut [0; 21]);
        assert_eq!(write.map(drop), expected);
    }
}

/// Each flow number is held to its own weight, in a call and on a tape.
#[test]
fn flow_numbers_beyond_their_own_weights() {
    let case = weighted_square();
    let weights = [1, 2, 256, 65_280];
    for (index, weight) in weights.into_iter().enumerate() {
        for sign in [-1, 1] {
            let mut flow = [0; 4];
            flow[index] = sign * weight;
            assert!(case.check(&flow).is_ok());
            let mut tape = Tape::new(&case, &flow);
            assert!(read_back(&tape.bytes, 4, 4).answer.is_ok());

            let beyond = sign * (weight + 1);
            flow[index] = beyond;
            let expected = refusal(8, index as u64);
            assert_eq!(case.check(&flow), Err(expected));
            tape.set_flow(index, beyond);
            assert_eq!(read_back(&tape.bytes, 4, 4).answer, Err(expected));
        }
    }
}

#[test]
fn write_leaves_the_rest_of_its_output() {
    let mut input = JobInput::accepted();
    let tape = input.tape.clone();
    input.tape = vec![0xA5; tape.len() + 3];
    assert_eq!(input.write(), Ok(()));
    assert_eq!(input.tape[..tape.len()], tape);
    assert_eq!(input.tape[tape.len()..], [0xA5; 3]);
}

#[test]
fn sizes_beyond_the_limits() {
    let mut terms = square().terms;
    for (width, height) in [
        (0, 1),
        (1, 0),
        (4_097, 1),
        (1, 4_097),
        (4_096, 257),
        (257, 4_096),
        (65_536, 65_536),
        (u32::MAX, u32::MAX),
    ] {
        (terms.width, terms.height) = (width, height);
        assert_eq!(price(&terms, &[], &[], &[]), Err(refusal(1, 0)));
    }
}

#[test]
fn read_refuses() {
    assert_answers(|input| input.read().map(drop), mutated_reads());
}

/// What a read of the square's tape without flow records gives, after `apply`.
fn read_square(apply: impl Fn(&mut Vec<u8>)) -> Result<(), Refusal> {
    let mut tape = square().tape(&[]);
    apply(&mut tape);
    read_back(&tape, 4, 4).answer.map(drop)
}

#[test]
fn faults_of_one_record() {
    assert_eq!(read_square(|_| ()), Ok(()));
    // Kinds come before a cut record, and that before the terms.
    assert_eq!(read_square(|tape| *tape = vec![7]), Err(refusal(12, 0)));
    assert_eq!(read_square(|tape| *tape = vec![6]), Err(refusal(14, 0)));
    assert_eq!(read_square(|tape| *tape = vec![2]), Err(refusal(14, 0)));
    assert_eq!(
        read_square(|tape| *tape = vec![1, 0, 0, 0]),
        Err(refusal(13, 0))
    );
    // A weight is judged where its record is whole.
    let weighted = weighted_square().tape(&[]);
    for (length, expected) in [(25, refusal(13, 23)), (26, refusal(2, 23))] {
        let beyond = |tape: &mut Vec<u8>| {
            *tape = weighted[..length].to_vec();
            tape[24..].fill(255);
        };
        assert_eq!(read_square(beyond), Err(expected));
    }
    // A record cut short, and one that is due.
    assert_eq!(read_square(|tape| tape.truncate(7)), Err(refusal(13, 5)));
    assert_eq!(read_square(|tape| tape.truncate(5)), Err(refusal(18, 5)));
}

/// With and without weight and flow records; 19 is never read's.
#[test]
fn buffers_count_all_pairs() {
    for (case, flow) in [
        (square(), &[][..]),
        (square(), &SQUARE_FLOW),
        (weighted_square(), &[]),
        (weighted_square(), &SQUARE_FLOW),
    ] {
        let tape = case.tape(flow);
        for [samples, weights, flow] in [[3, 4, 4], [4, 3, 4], [4, 4, 3], [4, 0, 4], [9, 3, 9]] {
            let capacity = Capacity {
                samples,
                weights,
                flow,
            };
            for bytes in [&tape, &tape[..5]] {
                let answer = read_back_within(bytes, capacity).answer;
                assert_eq!(answer, Err(refusal(16, 0)));
            }
        }
        for [weights, flow] in [[4, 4], [5, 4], [4, 9]] {
            let capacity = Capacity {
                samples: 4,
                weights,
                flow,
            };
            assert!(read_back_within(&tape, capacity).answer.is_ok());
        }
    }
}

#[test]
fn records_of_pairs_come_all_or_not_at_all() {
    // None where there are no pairs, nor weights.
    let mut tape = flat(1, 1).tape(&[]);
    for kind in [5, 6] {
        tape[17] = kind;
        assert_eq!(read_back(&tape, 1, 0).answer, Err(refusal(14, 17)));
    }
    // No end at the first or last sample, the last weight or the last flow number.
    let tape = weighted_square().tape(&SQUARE_FLOW);
    for place in [15, 21, 32, 50] {
        let mut ended = tape.clone();
        ended[place] = 0;
        let expected = Err(refusal(14, place as u64));
        assert_eq!(read_back(&ended, 4, 4).answer, expected);
    }
}
