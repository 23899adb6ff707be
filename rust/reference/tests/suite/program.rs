//! The cleaning program's text, from the library and from the binary.

use relief_inputs::{jointed, two_by_one, Case, Random, JOINTED_TEXT, TWO_BY_ONE_TEXT};
use relief_reference::program::{clean, FLOW_TABLE, INPUT_LIMIT, SAMPLE_TABLE, WEIGHT_TABLE};

use crate::support::printed;

#[test]
fn run_of_the_two_by_one_job() {
    assert_eq!(clean(&two_by_one().tape(&[])), TWO_BY_ONE_TEXT);
}

#[test]
fn checks_of_the_two_by_one_job() {
    let text = "\
outcome moved price floor slack
checked 0 540672 -376832 917504
0 896
";
    assert_eq!(clean(&two_by_one().tape(&[256])), text);

    let mut tape = two_by_one().tape(&[256]);
    tape[20..24].copy_from_slice(&257_i32.to_le_bytes());
    assert_eq!(clean(&tape), "refused 8 at 0\n");
}

#[test]
fn run_of_the_job_with_a_joint() {
    assert_eq!(clean(&jointed().tape(&[])), JOINTED_TEXT);
}

#[test]
fn one_line_for_each_row() {
    let mut job = two_by_one();
    (job.terms.width, job.terms.height, job.terms.weight) = (3, 2, 0);
    job.samples = vec![1, 2, 3, 4, 5, 6];
    let text = "\
outcome moved price floor slack
settled 0 0 0 0
384 640 896
1152 1408 1664
";
    assert_eq!(clean(&job.tape(&[])), text);
}

#[test]
fn refusals_of_the_input() {
    assert_eq!(clean(&[]), "refused 18 at 0\n");
    assert_eq!(clean(&vec![0; INPUT_LIMIT]), "refused 14 at 0\n");
    assert_eq!(clean(&vec![0; INPUT_LIMIT + 1]), "refused 17 at 0\n");
    let mut tape = two_by_one().tape(&[]);
    tape.resize(INPUT_LIMIT, 0);
    assert_eq!(clean(&tape), "refused 15 at 20\n");
    tape.push(0);
    assert_eq!(clean(&tape), "refused 17 at 0\n");
}

#[test]
fn the_tables_hold_every_size_up_to_4096_pixels() {
    let mut random = Random::new(0x7AB1E);
    let mut full = Case::sized(&mut random, 64, 64);
    full.rounds.allowance = 1;
    assert_eq!(full.grid().pixel_count(), SAMPLE_TABLE);
    assert_eq!(full.grid().pair_count(), FLOW_TABLE);
    full.weights.clear();
    let flow = full.flow(&mut random);
    assert_eq!(clean(&full.tape(&[])).lines().count(), 2 + 64);
    assert!(clean(&full.tape(&flow)).contains("\nchecked 0 "));
    full.weights = full.pair_weights();
    assert_eq!(full.weights.len(), WEIGHT_TABLE);
    assert_eq!(clean(&full.tape(&[])).lines().count(), 2 + 64);
    // All weights and all flow numbers are more than the input may have.
    assert_eq!(clean(&full.tape(&flow)), "refused 17 at 0\n");

    for (width, height, taken) in [(4_096, 1, true), (1, 4_096, true), (17, 241, false)] {
        let mut job = Case::sized(&mut random, width, height);
        job.rounds.allowance = 1;
        let text = clean(&job.tape(&[]));
        assert_eq!(text.starts_with("outcome"), taken);
        assert_eq!(text == "refused 16 at 0\n", !taken);
    }
}

#[test]
fn the_binary_prints_the_text() {
    let printed = |input: &[u8]| printed(env!("CARGO_BIN_EXE_relief-reference"), input);
    assert_eq!(printed(&two_by_one().tape(&[])), TWO_BY_ONE_TEXT);
    assert_eq!(printed(&[]), "refused 18 at 0\n");
    assert_eq!(printed(&vec![0; INPUT_LIMIT + 1]), "refused 17 at 0\n");
}
