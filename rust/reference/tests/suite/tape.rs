//! Tapes written and read back, cut short and changed.

use relief_inputs::{flat, jointed, record_orders, two_by_one, Case, Random, Tape};
use relief_reference::program::{clean, FLOW_TABLE, SAMPLE_TABLE};
use relief_reference::{Job, Refusal};

use crate::support::{read_back, refusal};

#[test]
fn bytes_of_the_two_by_one_tape() {
    let mut job = two_by_one();
    (job.rounds.quick, job.rounds.allowance) = (0x0123, 0x4567);
    #[rustfmt::skip]
    let tape = [
        1, 2, 0, 1, 0,
        2, 0, 1, 0, 255,
        3, 0x23, 0x01, 0x67, 0x45,
        4, 0,
        4, 2,
        5, 0xFE, 0xFF, 0xFF, 0xFF,
        0,
    ];
    assert_eq!(job.tape(&[-2]), tape);
}

#[test]
fn bytes_of_the_tape_with_a_joint() {
    #[rustfmt::skip]
    let tape = [
        1, 3, 0, 1, 0,
        2, 0, 1, 0, 255,
        3, 0, 0, 100, 0,
        4, 0,
        4, 2,
        4, 10,
        6, 0, 0,
        6, 0, 2,
        5, 0, 0, 0, 0,
        5, 0, 0xFE, 0xFF, 0xFF,
        0,
    ];
    assert_eq!(jointed().tape(&[0, -512]), tape);
}

/// Reads `tape`. An accepted one, written again, gives its own bytes; the program
/// prints a refusal for any other.
fn read_and_write_again(tape: &[u8]) -> Result<Job, Refusal> {
    let taken = read_back(tape, SAMPLE_TABLE, FLOW_TABLE);
    let text = clean(tape);
    match taken.answer {
        Ok(job) => {
            let case = Case {
                terms: job.terms,
                rounds: job.rounds,
                samples: taken.samples,
                weights: taken.weights,
            };
            assert_eq!(case.tape(&taken.flow), tape);
            assert!(text.starts_with("outcome "));
        }
        Err(refusal) => assert_eq!(text, format!("{refusal}\n")),
    }
    taken.answer
}

#[test]
fn a_written_tape_reads_back_as_the_job() {
    let mut random = Random::new(0x7A9E);
    for _ in 0..2_000 {
        let case = Case::small(&mut random);
        for flow in [Vec::new(), case.flow(&mut random)] {
            let taken = read_back(&case.tape(&flow), 30, 50);
            let job = Job {
                terms: case.terms,
                rounds: case.rounds,
                has_weights: !case.weights.is_empty(),
                has_flow: !flow.is_empty(),
            };
            assert_eq!(taken.answer, Ok(job));
            assert_eq!(taken.samples, case.samples);
            assert_eq!(taken.weights, case.weights);
            assert_eq!(taken.flow, flow);
        }
    }
}

/// Tapes with and without weights and a flow, and with no pairs.
fn small_tapes() -> [Tape; 6] {
    let row = two_by_one();
    let mut square = two_by_one();
    square.terms.height = 2;
    square.samples = vec![0, 9, 255, 4];
    [
        Tape::new(&row, &[]),
        Tape::new(&row, &[-256]),
        Tape::new(&square, &[1, -2, 256, 0]),
        Tape::new(&flat(1, 1), &[]),
        Tape::new(&jointed(), &[]),
        Tape::new(&jointed(), &[0, -512]),
    ]
}

/// A tape that was never finished, and a cut one.
#[test]
fn where_the_two_by_one_tape_ends() {
    let tape = two_by_one().tape(&[-256]);
    let starts = [0, 5, 10, 15, 17, 19, 24];
    for (record, &start) in starts.iter().enumerate() {
        let unfinished = read_and_write_again(&tape[..start]);
        assert_eq!(unfinished, Err(refusal(18, start as u64)));
        let next = starts.get(record + 1).copied().unwrap_or(tape.len());
        for length in start + 1..next {
            let cut = read_and_write_again(&tape[..length]);
            assert_eq!(cut, Err(refusal(13, start as u64)));
        }
    }
    assert!(read_and_write_again(&tape).is_ok());
}

#[test]
fn where_the_tape_with_a_joint_ends() {
    let tape = jointed().tape(&[0, -512]);
    for (length, number, place) in [
        (21, 18, 21),
        (22, 13, 21),
        (23, 13, 21),
        (24, 18, 24),
        (25, 13, 24),
        (26, 13, 24),
        (27, 18, 27),
        (28, 13, 27),
    ] {
        let ended = read_and_write_again(&tape[..length]);
        assert_eq!(ended, Err(refusal(number, place)));
    }
}

/// So many bytes of the tape, and others behind them.
#[test]
fn faults_behind_a_part_of_the_tape_with_a_joint() {
    let tape = jointed().tape(&[]);
    let behind_the_flow = [5, 0, 0, 0, 0, 5, 0, 0, 0, 0, 6];
    for (length, behind, number, place) in [
        (21, &[6, 1, 255][..], 2, 21),
        (24, &[0], 14, 24),
        (26, &[], 13, 24),
        (21, &behind_the_flow, 14, 31),
    ] {
        let faulty = [&tape[..length], behind].concat();
        let answer = read_and_write_again(&faulty);
        assert_eq!(answer, Err(refusal(number, place)));
    }
}

#[test]
fn weights_stand_between_the_samples_and_the_flow() {
    let mut taken = 0;
    for (tape, due) in record_orders(6) {
        assert_eq!(read_and_write_again(&tape).map(drop), due, "{tape:?}");
        taken += usize::from(due.is_ok());
    }
    assert_eq!(taken, 4 + 1);
}

#[test]
fn every_prefix_is_unfinished_or_cut() {
    for tape in small_tapes() {
        for (prefix, due) in tape.prefixes() {
            assert_eq!(read_and_write_again(&prefix).map(drop), due);
        }
    }
}

#[test]
fn every_single_byte_change_gets_an_answer() {
    for tape in small_tapes() {
        let length = tape.bytes.len() as u64;
        for changed in tape.changes() {
            if let Err(refusal) = read_and_write_again(&changed) {
                assert!(refusal.place <= length);
            }
        }
    }
}
