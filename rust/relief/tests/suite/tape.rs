//! Read and write.

use relief::{
    read, read_flow_len, read_samples_len, read_weights_len, tape_bytes, write, Job, Reason,
    Refusal, Rounds, Terms, MAX_PAIRS, MAX_PIXELS, MAX_QUICK,
};

use crate::support::{faulty_terms, refused, Fault, NONE, SAMPLES, TERMS};

const ROUNDS: Rounds = Rounds {
    quick: 0,
    allowance: 100,
};

/// The tape of the job, with flow -256.
const TAPE: [u8; 25] = [
    1, 2, 0, 1, 0, 2, 0, 1, 0, 255, 3, 0, 0, 100, 0, 4, 0, 4, 2, 5, 0, 255, 255, 255, 0,
];

/// The tape of the job, with weight 300 and flow -300 of its pair.
const WEIGHTED: [u8; 28] = [
    1, 2, 0, 1, 0, 2, 0, 1, 0, 255, 3, 0, 0, 100, 0, 4, 0, 4, 2, 6, 44, 1, 5, 212, 254, 255, 255, 0,
];

/// A job with its samples, weights and flow, as far as the tape has them.
type Read = (Job, Vec<u8>, Vec<i32>, Vec<i32>);

/// Read in buffers of the lengths that the tape's length gives. What is not due to be filled must
/// be as it was.
fn read_any(tape: &[u8]) -> Result<Read, Refusal> {
    let mut samples = vec![90; read_samples_len(tape.len())];
    let mut weights = vec![90; read_weights_len(tape.len())];
    let mut flow = vec![90; read_flow_len(tape.len())];
    let answer = read(tape, &mut samples, &mut weights, &mut flow);
    let (pixels, weighted, flowed) = match answer {
        Ok(job) => {
            let pairs = |there: bool| if there { job.terms.pair_count() } else { 0 };
            let pixels = job.terms.pixel_count();
            (pixels, pairs(job.has_weights), pairs(job.has_flow))
        }
        Err(_) => (0, 0, 0),
    };
    assert!(samples.drain(pixels..).all(|sample| sample == 90));
    assert!(weights.drain(weighted..).all(|weight| weight == 90));
    assert!(flow.drain(flowed..).all(|number| number == 90));
    Ok((answer?, samples, weights, flow))
}

#[test]
fn write_makes_the_tape() {
    let mut output = [90; 27];
    let count = write(&TERMS, &ROUNDS, &SAMPLES, &NONE, &[-256], &mut output);
    assert_eq!(count, Ok(tape_bytes(2, 0, 1)));
    assert_eq!(output[..25], TAPE);
    assert_eq!(output[25..], [90; 2]);
    let mut output = [90; 30];
    let count = write(&TERMS, &ROUNDS, &SAMPLES, &[300], &[-300], &mut output);
    assert_eq!(count, Ok(tape_bytes(2, 1, 1)));
    assert_eq!(output[..28], WEIGHTED);
    assert_eq!(output[28..], [90; 2]);
}

#[test]
fn read_gives_the_job_again() {
    let job = Job {
        terms: TERMS,
        rounds: ROUNDS,
        has_weights: false,
        has_flow: true,
    };
    let due = (job, vec![0, 2], vec![], vec![-256]);
    assert_eq!(read_any(&TAPE), Ok(due));
    let job = Job {
        has_weights: true,
        ..job
    };
    let due = (job, vec![0, 2], vec![300], vec![-300]);
    assert_eq!(read_any(&WEIGHTED), Ok(due));
}

#[test]
fn the_lengths_that_a_tape_gives_are_enough() {
    for (width, height) in (1..=6).flat_map(|width| (1..=6).map(move |height| (width, height))) {
        let terms = Terms {
            width,
            height,
            ..TERMS
        };
        let samples: Vec<u8> = (0..).take(terms.pixel_count()).collect();
        let weights: Vec<i32> = (60..).take(terms.pair_count()).collect();
        let flow: Vec<i32> = (-9..).take(terms.pair_count()).collect();
        let (weights, flow) = (&weights[..], &flow[..]);
        for (weights, flow) in [(weights, flow), (weights, &[]), (&[], flow), (&[], &[])] {
            let mut tape = vec![0; tape_bytes(samples.len(), weights.len(), flow.len())];
            let count = write(&terms, &ROUNDS, &samples, weights, flow, &mut tape);
            assert_eq!(count, Ok(tape.len()));
            let job = Job {
                terms,
                rounds: ROUNDS,
                has_weights: !weights.is_empty(),
                has_flow: !flow.is_empty(),
            };
            let due = (job, samples.clone(), weights.to_vec(), flow.to_vec());
            assert_eq!(read_any(&tape), Ok(due));
        }
    }
}

#[test]
fn a_tape_too_short_for_its_size() {
    let tape = [1, 232, 3, 232, 3];
    assert_eq!(read_any(&tape), refused(Reason::BufferTooShort, 0));
    let (mut samples, mut weights) = (vec![0; MAX_PIXELS], vec![0; MAX_PAIRS]);
    let mut flow = weights.clone();
    let answer = read(&tape, &mut samples, &mut weights, &mut flow);
    assert_eq!(answer, refused(Reason::TapeUnfinished, 5));
}

/// With or without weight records, a weight buffer for all pairs is due.
#[test]
fn a_weight_buffer_that_is_too_short() {
    for tape in [&TAPE[..], &WEIGHTED] {
        let (mut samples, mut flow) = ([90; 2], [90]);
        let answer = read(tape, &mut samples, &mut [], &mut flow);
        assert_eq!(answer, refused(Reason::BufferTooShort, 0));
        assert_eq!((samples, flow), ([90; 2], [90]));
    }
}

/// The tape with two bytes changed is refused.
fn refused_with(tape: &[u8], offset: usize, bytes: [u8; 2], reason: Reason, place: u64) {
    let mut tape = tape.to_vec();
    tape[offset..offset + 2].copy_from_slice(&bytes);
    assert_eq!(read_any(&tape), refused(reason, place));
}

#[test]
fn refusals_of_read() {
    let damages = [
        (1, [0, 0], Reason::Size, 0),
        (6, [1, 255], Reason::Weight, 5),
        (8, [1, 0], Reason::Box, 5),
        (11, [0, 17], Reason::QuickRounds, 10),
        (15, [7, 0], Reason::UnknownKind, 15),
        (15, [5, 0], Reason::KindNotAllowed, 15),
        (15, [6, 0], Reason::KindNotAllowed, 15),
        (20, [0, 254], Reason::FlowValue, 0),
    ];
    for (offset, bytes, reason, place) in damages {
        refused_with(&TAPE, offset, bytes, reason, place);
    }
    let damages = [
        (6, [1, 255], Reason::Weight, 5),
        (20, [1, 255], Reason::Weight, 19),
        (20, [255, 255], Reason::Weight, 19),
        (20, [43, 1], Reason::FlowValue, 0),
        (22, [6, 0], Reason::KindNotAllowed, 22),
        (26, [255, 6], Reason::KindNotAllowed, 27),
    ];
    for (offset, bytes, reason, place) in damages {
        refused_with(&WEIGHTED, offset, bytes, reason, place);
    }
    assert_eq!(read_any(&WEIGHTED[..21]), refused(Reason::TapeCut, 19));
    let unfinished = refused(Reason::TapeUnfinished, 22);
    assert_eq!(read_any(&WEIGHTED[..22]), unfinished);
    assert_eq!(read_any(&TAPE[..23]), refused(Reason::TapeCut, 19));
    assert_eq!(read_any(&TAPE[..24]), refused(Reason::TapeUnfinished, 24));
    assert_eq!(read_any(&[]), refused(Reason::TapeUnfinished, 0));
    let longer = [&TAPE[..], &[0]].concat();
    assert_eq!(read_any(&longer), refused(Reason::ByteAfterEnd, 25));
}

#[test]
fn refusals_of_write() {
    let mut output = [90; 28];
    for (terms, reason) in faulty_terms() {
        let answer = write(&terms, &ROUNDS, &[], &[-1], &[], &mut output);
        assert_eq!(answer, refused(reason, 0));
    }
    let too_quick = Rounds {
        quick: MAX_QUICK + 1,
        ..ROUNDS
    };
    let answer = write(&TERMS, &too_quick, &SAMPLES, &[-1], &[9], &mut output);
    assert_eq!(answer, refused(Reason::QuickRounds, 0));
    let faults: [Fault; 9] = [
        (&[0], &[-1; 2], &[9; 2], 27, Reason::SamplesLength),
        (&SAMPLES, &[-1; 2], &[9; 2], 27, Reason::FlowLength),
        (&SAMPLES, &[-1; 2], &[9], 27, Reason::WeightsLength),
        (&SAMPLES, &[-1], &[9], 27, Reason::BufferTooShort),
        (&SAMPLES, &NONE, &[9], 24, Reason::BufferTooShort),
        (&SAMPLES, &[-1], &[9], 28, Reason::Weight),
        (&SAMPLES, &[-1], &[], 28, Reason::Weight),
        (&SAMPLES, &[8], &[9], 28, Reason::FlowValue),
        (&SAMPLES, &NONE, &[-257], 28, Reason::FlowValue),
    ];
    for (samples, weights, flow, room, reason) in faults {
        let output = &mut output[..room];
        let answer = write(&TERMS, &ROUNDS, samples, weights, flow, output);
        assert_eq!(answer, refused(reason, 0));
    }
    assert_eq!(output, [90; 28]);
}
