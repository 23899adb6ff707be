//! The documents' values, each with its text.

use relief_inputs::{
    about_the_box, compare_family, flat, jointed, narrow_box, three_by_one, two_by_one, two_by_two,
    Case, Difference, Tape, JOINTED_TEXT, TWO_BY_ONE_TEXT,
};
use relief_reference::program::clean;

use crate::child::Program;
use crate::compare::{compare as compare_tape, report};

/// Compares the program's text with the reference's, and that with the documents'.
pub fn compare(program: &Program) -> Result<(), Difference> {
    compare_family("the documents' values", values(), |(tape, text)| {
        let input = tape.clone().into();
        let printed = clean(tape);
        if printed != *text {
            let differs = format!("the reference prints {printed:?}, not {text:?}");
            return Err(report(&differs, &input));
        }
        compare_tape(program, &input)
    })?
    .require(&[], &[1, 2, 8, 12, 13, 14, 16, 18])
}

/// Each tape with what the program is to print.
fn values() -> Vec<(Vec<u8>, String)> {
    let job = two_by_one();
    let heaviest = {
        let mut job = job.clone();
        job.terms.weight = 65_280;
        job
    };
    let run = |quick, allowance| run_of(&job, quick, allowance);
    let changed = |change: fn(&mut Tape)| Tape::new(&job, &[0]).changed(change);
    // The first bytes of the job's tape without a flow, and others behind them.
    let first = |length, behind: &[u8]| [&run(0, 100)[..length], behind].concat();
    let alone = |record: &[u8]| [&flat(1, 1).tape(&[])[..17], record].concat();
    let values = vec![
        (job.tape(&[]), TWO_BY_ONE_TEXT.to_string()),
        check(&job, 0, "checked 0 262144 0 262144", "128 640"),
        check(&job, -256, "checked 0 131072 131072 0", "384 384"),
        check(&job, 256, "checked 0 540672 -376832 917504", "0 896"),
        check(&job, -254, "checked 0 131080 131064 16", "382 386"),
        (changed(|tape| tape.set_flow(0, 257)), refused(8, 0)),
        (run(0, 16), text("spent 16 131090 131054 36", "381 387")),
        (run(0, 17), TWO_BY_ONE_TEXT.to_string()),
        (run(3, 0), text("spent 0 150674 111470 39204", "285 483")),
        check(
            &narrow_box(),
            0,
            "checked 0 10650881 7376641 3274240",
            "2048 3327",
        ),
        check(
            &narrow_box(),
            -1_280,
            "checked 0 10650881 10650881 0",
            "2048 3327",
        ),
        (
            about_the_box().tape(&[]),
            text(
                "settled 0 3857769986 3857769986 0",
                "2048 2048 2176 2688 3200 3327 3327",
            ),
        ),
        (
            three_by_one().tape(&[0, -256]),
            text("checked 0 524288 131072 393216", "128 896 896"),
        ),
        (
            three_by_one().tape(&[-256, 0]),
            text("checked 0 524288 131072 393216", "384 384 1152"),
        ),
        (
            two_by_two().tape(&[1, 2, 4, 8]),
            text(
                "checked 0 10501298 -143538 10644836",
                "123 2690\n5241 10378",
            ),
        ),
        unmoved(1, 1),
        check(&heaviest, 0, "checked 0 66846720 0 66846720", "128 640"),
        (changed(|tape| tape.set_weight(65_281)), refused(2, 5)),
        // The size is taken, but the program's tables are shorter.
        (changed(|tape| tape.set_size((4_096, 256))), refused(16, 0)),
        (changed(|tape| tape.set_size((4_096, 257))), refused(1, 0)),
        unmoved(4_096, 1),
        unmoved(1, 4_096),
        unmoved(64, 64),
        (flat(64, 65).tape(&[]), refused(16, 0)),
        (Vec::new(), refused(18, 0)),
        (first(4, &[]), refused(13, 0)),
        (first(5, &[]), refused(18, 5)),
        (first(6, &[]), refused(13, 5)),
        (first(18, &[]), refused(13, 17)),
        (first(19, &[]), refused(18, 19)),
        (first(5, &[7]), refused(12, 5)),
        (first(5, &[6]), refused(14, 5)),
        (first(5, &[1]), refused(14, 5)),
        // A job without pairs has neither weights nor a flow.
        (alone(&[6, 0, 0]), refused(14, 17)),
        (alone(&[5, 0, 0, 0, 0]), refused(14, 17)),
    ];
    values.into_iter().chain(weighted_values()).collect()
}

/// Those of the job with a joint, whose pairs have the weights 0 and 512, and of that job without
/// weights.
fn weighted_values() -> Vec<(Vec<u8>, String)> {
    let job = jointed();
    let unweighted = Case {
        weights: Vec::new(),
        ..jointed()
    };
    let changed = |change: fn(&mut Tape)| Tape::new(&job, &[0, 0]).changed(change);
    // The first bytes of the job's tape without a flow, and others behind them.
    let first = |length, behind: &[u8]| [&job.tape(&[])[..length], behind].concat();
    // Records behind the samples, with zeros.
    let (weight, flow) = ([6, 0, 0], [5, 0, 0, 0, 0]);
    let behind = |records: &[&[u8]]| first(21, &records.concat());
    let best = "1572864 1572864 0";
    let row = "128 1152 2176";
    vec![
        (job.tape(&[]), JOINTED_TEXT.to_string()),
        (
            job.tape(&[0, -512]),
            text(&format!("checked 0 {best}"), row),
        ),
        (
            job.tape(&[0, 0]),
            text("checked 0 2097152 0 2097152", "128 640 2688"),
        ),
        (
            run_of(&job, 0, 2),
            text("spent 2 1581056 1433600 147456", "128 1088 2240"),
        ),
        (run_of(&job, 3, 0), text(&format!("settled 0 {best}"), row)),
        (
            unweighted.tape(&[]),
            text("settled 5 1179648 1179648 0", "384 640 2432"),
        ),
        (changed(|tape| tape.set_flow(0, 1)), refused(8, 0)),
        (changed(|tape| tape.set_flow(1, 513)), refused(8, 1)),
        (changed(|tape| tape.set_flow(1, -513)), refused(8, 1)),
        (
            changed(|tape| tape.set_pair_weight(1, 65_280)),
            text("checked 0 267386880 0 267386880", "128 640 2688"),
        ),
        (
            changed(|tape| tape.set_pair_weight(0, 65_281)),
            refused(2, 21),
        ),
        (
            changed(|tape| tape.set_pair_weight(1, 65_535)),
            refused(2, 24),
        ),
        (behind(&[]), refused(18, 21)),
        (behind(&[&weight[..2]]), refused(13, 21)),
        (behind(&[&weight]), refused(18, 24)),
        (behind(&[&weight, &[0]]), refused(14, 24)),
        (behind(&[&weight, &flow]), refused(14, 24)),
        (behind(&[&weight, &weight]), refused(18, 27)),
        (behind(&[&weight, &weight, &weight]), refused(14, 27)),
        (behind(&[&flow, &weight]), refused(14, 26)),
        (behind(&[&flow, &flow, &weight]), refused(14, 31)),
        (behind(&[&flow, &flow, &[6]]), refused(14, 31)),
        (first(21, &[6, 1, 255]), refused(2, 21)),
        (first(26, &[]), refused(13, 24)),
    ]
}

fn refused(number: u32, place: usize) -> String {
    format!("refused {number} at {place}\n")
}

/// The tape of a job with these rounds, without a flow.
fn run_of(job: &Case, quick: u32, allowance: u16) -> Vec<u8> {
    let mut job = job.clone();
    (job.rounds.quick, job.rounds.allowance) = (quick, allowance);
    job.tape(&[])
}

/// A job of one pair with its flow.
fn check(job: &Case, flow: i32, figures: &str, row: &str) -> (Vec<u8>, String) {
    (job.tape(&[flow]), text(figures, row))
}

/// A flat job: no pair would move.
fn unmoved(width: u32, height: u32) -> (Vec<u8>, String) {
    let row = vec!["1920"; width as usize].join(" ");
    let rows = vec![row; height as usize].join("\n");
    let tape = flat(width, height).tape(&[]);
    (tape, text("settled 0 0 0 0", &rows))
}

fn text(figures: &str, rows: &str) -> String {
    format!("outcome moved price floor slack\n{figures}\n{rows}\n")
}
