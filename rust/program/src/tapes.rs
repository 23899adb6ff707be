//! Tapes of accepted jobs, and faulty and damaged ones.

use relief_inputs::{
    chessboard, chessboard_flow, compare_family, compare_with_bound, flat, jointed, mutated_tapes,
    record_orders, small_tapes, tape_length, two_by_one, Answer, Case, Counts, Difference, Random,
    Tape,
};
use relief_reference::program::{clean, FLOW_TABLE, INPUT_LIMIT, SAMPLE_TABLE, WEIGHT_TABLE};
use relief_reference::terms::WEIGHT_LIMIT;
use relief_reference::Rounds;

use crate::child::{Input, Program};
use crate::compare::{compare as compare_tape, compare_expected, compare_text, report};

/// Sizes with the most pixels that the program takes.
const LARGEST: [(u32, u32); 3] = [(64, 64), (4_096, 1), (1, 4_096)];

/// Compares whole, cut, faulty, changed, damaged and random tapes.
pub fn compare(program: &Program, step: usize) -> Result<(), Difference> {
    family(program, "the most pixels", largest())?
        .require(&["checked with floor below 0", "settled", "spent"], &[])?;
    let words = ["checked", "checked with slack 0", "settled", "spent"];
    family(program, "1 to 4,096 pixels", jobs(step))?.require(&words, &[])?;
    compare_two_flows(program, step)?;
    family(program, "the most rounds", long_runs(step))?.require(&["settled"], &[])?;
    let with_program = |input: &Input| compare_tape(program, input);
    compare_expected("every prefix", prefixes(step), with_program)?
        .require(&["checked with slack 0"], &[13, 18])?;
    compare_expected("every order of records", orders(step), with_program)?
        .require(&["checked", "settled with slack 0"], &[14, 15, 18])?;
    let numbers = [1, 2, 3, 8, 10, 12, 13, 14, 15, 16, 18];
    compare_expected("two faults", mutated_tapes(), with_program)?
        .require(&["checked"], &numbers)?;
    family(program, "changed bytes", changes(step))?.require(&[], &[8, 10, 12, 14])?;
    family(program, "damaged tapes", damages(step))?.require(&[], &numbers)
}

fn family(
    program: &Program,
    title: &str,
    tapes: impl Iterator<Item = Vec<u8>>,
) -> Result<Counts, Difference> {
    compare_family(title, tapes.map(Into::into), |input| {
        compare_tape(program, input)
    })
}

/// Compares two tapes of one job, each with a flow, and sees to it that the images printed are within
/// the slacks printed (request F-5).
fn compare_two_flows(program: &Program, step: usize) -> Result<(), Difference> {
    compare_family("two flows of one job", two_flows(step), |tapes| {
        let texts = tapes.each_ref().map(|tape| clean(tape));
        for (tape, text) in tapes.iter().zip(&texts) {
            compare_text(program, &tape.clone().into(), text)?;
        }
        let [(slack, image), (other_slack, other)] = texts.each_ref().map(|text| printed(text));
        compare_with_bound([&image, &other], [slack, other_slack])
            .map(Ok)
            .map_err(|apart| report(&apart, &tapes.concat().into()))
    })?
    .require(&["nearer than the bound"], &[])
}

/// The slack and the image that a text of the cleaning program tells.
fn printed(text: &str) -> (u64, Vec<i32>) {
    let mut words = text.split_whitespace().skip(9);
    let slack = words.next().and_then(|word| word.parse().ok());
    let image = words
        .map(|word| word.parse().expect("an image value"))
        .collect();
    (slack.expect("a slack"), image)
}

/// Two tapes of a job, each with a flow.
fn two_flows(step: usize) -> impl Iterator<Item = [Vec<u8>; 2]> {
    let mut random = Random::new(0x2F5);
    (0..500).step_by(step).map(move |_| {
        // With more pixels, weights and a flow may be too many bytes.
        let (width, height) = random.size(3_640);
        let case = Case::sized(&mut random, width, height);
        let flow = case.flow(&mut random);
        let other = random.other_flow(&flow, &case.pair_weights());
        [case.tape(&flow), case.tape(&other)]
    })
}

/// Tapes of the most pixels: with the largest totals, with any flow, and without one. Then the
/// largest totals by weights that are listed.
pub fn largest() -> impl Iterator<Item = Vec<u8>> {
    let mut random = Random::new(0x1A26E4);
    let unlisted = LARGEST.into_iter().flat_map(move |(width, height)| {
        let [apart, together] = extreme_tapes(&extreme(width, height));

        let mut any = Case::sized(&mut random, width, height);
        any.weights.clear();
        let flow = any.flow(&mut random);
        any.rounds = few_rounds(&mut random, any.samples.len());
        // All samples as far outside the box as can be, below it and above it.
        let [below, above] = [0, 255].map(|sample| {
            let mut case = any.clone();
            (case.terms.low, case.terms.high) = (255 - sample, 255 - sample);
            case.samples.fill(sample);
            case
        });
        let mut long = any.clone();
        long.terms.weight = 20;
        long.rounds.allowance = 200;
        // With weights and a flow it would be too many bytes.
        let mut weighted = any.clone();
        weighted.weights = random.weights(flow.len(), WEIGHT_LIMIT);
        [
            apart,
            together,
            any.tape(&flow),
            any.tape(&[]),
            below.tape(&flow),
            below.tape(&[]),
            above.tape(&flow),
            long.tape(&[]),
            weighted.tape(&[]),
        ]
    });
    unlisted.chain(extreme_tapes(&listed(extreme(100, 37))))
}

/// The job with the samples, weight and box of the largest totals.
fn extreme(width: u32, height: u32) -> Case {
    let mut case = flat(width, height);
    case.terms.weight = WEIGHT_LIMIT;
    (case.terms.low, case.terms.high) = (0, 255);
    case.samples = chessboard(width as usize, height as usize);
    case
}

/// The job with its weight listed at each pair, and not in the terms.
fn listed(mut case: Case) -> Case {
    case.weights = case.pair_weights();
    case.terms.weight = 0;
    case
}

/// The tapes of such a job with the flow that pushes its differences apart and with that which
/// pulls them together, as far as can be.
fn extreme_tapes(case: &Case) -> [Vec<u8>; 2] {
    let (width, height) = (case.terms.width as usize, case.terms.height as usize);
    let end = WEIGHT_LIMIT as i32;
    [end, -end].map(|value| {
        let tape = case.tape(&chessboard_flow(width, height, value));
        assert!(tape.len() <= INPUT_LIMIT);
        tape
    })
}

/// The tape with the largest slack that the program takes: at every pair the fall and the flow
/// are as large as they can be.
pub fn largest_slack_tape() -> Vec<u8> {
    let [apart, _] = extreme_tapes(&extreme(64, 64));
    apart
}

/// The longest tape without weights that the program takes: all samples and all flow numbers.
pub fn full_tape() -> Vec<u8> {
    let mut random = Random::new(0xF011);
    let case = full_case(&mut random, 64, 64);
    let tape = case.tape(&case.flow(&mut random));
    assert_eq!(tape.len(), tape_length(SAMPLE_TABLE, 0, FLOW_TABLE));
    tape
}

/// The same of another size with weights, whose tape the program takes if it has at most 65,536
/// bytes.
pub fn weighted_tape(width: u32, height: u32) -> Tape {
    let mut random = Random::new(0xF7011);
    let mut case = full_case(&mut random, width, height);
    case.weights = random.weights(case.grid().pair_count(), WEIGHT_LIMIT);
    Tape::new(&case, &case.flow(&mut random))
}

/// The longest tape that the tables hold, which is too long for the program.
pub fn overfull_tape() -> Tape {
    let tape = weighted_tape(64, 64);
    let longest = tape_length(SAMPLE_TABLE, WEIGHT_TABLE, FLOW_TABLE);
    assert_eq!(tape.bytes.len(), longest);
    tape
}

fn full_case(random: &mut Random, width: u32, height: u32) -> Case {
    let mut case = Case::sized(random, width, height);
    case.terms.weight = 1_000;
    (case.terms.low, case.terms.high) = (10, 240);
    case.weights.clear();
    case
}

fn jobs(step: usize) -> impl Iterator<Item = Vec<u8>> {
    let mut random = Random::new(0x60D);
    (0..2_000).step_by(step).map(move |_| {
        let (width, height) = random.size(4_096);
        let mut case = Case::sized(&mut random, width, height);
        case.rounds = few_rounds(&mut random, case.samples.len());
        let flow = case.flow(&mut random);
        case.tape(random.pick(&[&flow, &[]]))
    })
}

/// Rounds, the fewer the more pixels there are.
fn few_rounds(random: &mut Random, pixels: usize) -> Rounds {
    let most = (100_000 / pixels) as i64;
    Rounds {
        quick: random.between(0, most.min(4_096)) as u32,
        allowance: random.between(0, most.min(65_535)) as u16,
    }
}

fn long_runs(step: usize) -> impl Iterator<Item = Vec<u8>> {
    let mut random = Random::new(0x10A62);
    (0..200).step_by(step).map(move |_| {
        let (width, height) = random.size(12);
        let mut case = Case::sized(&mut random, width, height);
        case.rounds.quick = random.pick(&[0, 4_096]);
        case.rounds.allowance = 65_535;
        case.tape(&[])
    })
}

/// Every prefix of the tapes of the 2 by 1 job and of the job with a joint, each with a flow, and
/// of small tapes, with the answer that is due.
fn prefixes(step: usize) -> impl Iterator<Item = (Vec<u8>, Answer<()>)> {
    let first = Tape::new(&two_by_one(), &[-256]);
    let weighted = Tape::new(&jointed(), &[0, -512]);
    let others = small_tapes(12).flat_map(|(_, tape)| tape.prefixes());
    first
        .prefixes()
        .chain(weighted.prefixes())
        .chain(others.step_by(step))
}

/// Tapes with up to five records behind the samples in every order, with the answer that is due.
/// With a step always those that are taken.
pub fn orders(step: usize) -> impl Iterator<Item = (Vec<u8>, Answer<()>)> {
    record_orders(5)
        .enumerate()
        .filter(move |(index, (_, due))| index % step == 0 || due.is_ok())
        .map(|(_, order)| order)
}

/// Small tapes with bytes changed.
fn changes(step: usize) -> impl Iterator<Item = Vec<u8>> {
    let all = small_tapes(8).flat_map(|(_, tape)| tape.changes());
    all.step_by(61 * step)
}

fn damages(step: usize) -> impl Iterator<Item = Vec<u8>> {
    let mut random = Random::new(0xDA3A6E7);
    (0..1_500)
        .step_by(step)
        .map(move |_| Tape::random(&mut random, 40).damaged(&mut random))
}
