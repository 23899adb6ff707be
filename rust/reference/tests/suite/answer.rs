//! The binary that writes the whole answer to a tape of any size.

use relief_inputs::{jointed, two_by_one, Case, Random};

use crate::support::{written, Answer, Calls};

/// What the binary writes for a tape: the same by the optimized calls and by the definitions.
fn answered(tape: &[u8]) -> Vec<u8> {
    let binary = env!("CARGO_BIN_EXE_answer-reference");
    let bytes = written(binary, &[], tape);
    assert_eq!(bytes, written(binary, &["definitions"], tape));
    bytes
}

/// The bytes of an answer.
fn bytes_of(answer: &Answer) -> Vec<u8> {
    let mut bytes = format!("{}\n", answer.figures).into_bytes();
    for value in answer.image.iter().chain(&answer.flow) {
        bytes.extend(value.to_le_bytes());
    }
    bytes
}

#[test]
fn the_two_by_one_job() {
    let numbers = [382_i32, 386, -254].map(i32::to_le_bytes).concat();
    let bytes = [b"settled 17 131080 131064 16\n", &numbers[..]].concat();
    assert_eq!(answered(&two_by_one().tape(&[])), bytes);
}

#[test]
fn runs_and_checks() {
    let mut random = Random::new(0xA115);
    let random_cases: Vec<Case> = (0..20).map(|_| Case::small(&mut random)).collect();
    for case in [two_by_one(), jointed()].iter().chain(&random_cases) {
        assert_eq!(answered(&case.tape(&[])), bytes_of(&case.run().unwrap()));
        let flow = case.flow(&mut random);
        let answer = match flow[..] {
            [] => case.run(), // without pairs there are no flow records
            _ => case.check(&flow),
        };
        assert_eq!(answered(&case.tape(&flow)), bytes_of(&answer.unwrap()));
    }
}

#[test]
fn more_pixels_than_the_program_takes() {
    let mut random = Random::new(0xB16);
    let case = Case::sized(&mut random, 4_096, 2);
    assert_eq!(answered(&case.tape(&[])), bytes_of(&case.run().unwrap()));
}

#[test]
fn refusals() {
    assert_eq!(answered(&[]), b"refused 18 at 0\n");
    assert_eq!(answered(&[1, 255, 255, 1, 0]), b"refused 1 at 0\n");
    assert_eq!(answered(&[1, 0, 4, 0, 4]), b"refused 18 at 5\n");
    let mut tape = two_by_one().tape(&[256]);
    tape[20..24].copy_from_slice(&257_i32.to_le_bytes());
    assert_eq!(answered(&tape), b"refused 8 at 0\n");
}
