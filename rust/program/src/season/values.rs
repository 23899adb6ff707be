//! The documents' values, each with its text.

use relief_inputs::{
    compare_family, flat, jointed, two_by_one, Difference, Tape, TWO_BY_ONE_SEASON,
};
use relief_reference::season::report as season_report;

use super::compare as compare_season;
use crate::child::Program;
use crate::compare::report;
use crate::tapes::overfull_tape;

/// Compares the program's text with the reference's, and that with the documents'.
pub fn compare(program: &Program) -> Result<(), Difference> {
    compare_family("the documents' values", values(), |(season, text)| {
        let input = season.clone().into();
        let printed = season_report(season);
        if printed != *text {
            let differs = format!("the reference prints {printed:?}, not {text:?}");
            return Err(report(&differs, &input));
        }
        compare_season(program, &input)
    })?
    .require(&["no jobs", "settled"], &[1, 2, 8, 12, 13, 14, 16, 17, 18])
}

/// Each season with what the program is to print.
fn values() -> Vec<(Vec<u8>, String)> {
    let job = two_by_one();
    let run = job.tape(&[]);
    let spent = {
        let mut job = job.clone();
        job.rounds.allowance = 16;
        job.tape(&[])
    };
    let [best, worst] = [-256, 256].map(|flow| job.tape(&[flow]));
    let one = flat(1, 1).tape(&[]);
    let changed = |change: fn(&mut Tape)| Tape::new(&job, &[0]).changed(change);
    let beyond = changed(|tape| tape.set_flow(0, 257));
    let (single, none) = (TWO_BY_ONE_SEASON, text([0; 6], [0, 0], [0, 0]));
    let refused = |season: &str, line: &str| format!("{season}{line}\n");
    let mixed: Vec<u8> = [&run, &best, &spent, &one, &worst, &worst]
        .map(Vec::as_slice)
        .concat();
    let mixed_text = text([6, 11, 2, 1, 3, 1_835_060], [917_504, 5], [166_823, 7]);
    let spent_twice = text([2, 4, 0, 2, 0, 72], [36, 1], [18, 0]);
    let after_one = |last: &[u8]| [&run, last].concat();
    let joint = jointed();
    let weighted = {
        let mut quick = joint.clone();
        (quick.rounds.quick, quick.rounds.allowance) = (3, 0);
        let checks = [[0, 0], [0, -512]].map(|flow| joint.tape(&flow));
        [joint.tape(&[]), quick.tape(&[]), checks.concat()].concat()
    };
    let weighted_text = text([4, 12, 2, 0, 2, 2_097_152], [2_097_152, 3], [174_762, 8]);
    let changed_joint = |change: fn(&mut Tape)| {
        let tape = Tape::new(&joint, &[0, 0]);
        [&weighted[..], &tape.changed(change)].concat()
    };
    vec![
        (run.clone(), single.to_string()),
        (Vec::new(), none.clone()),
        (after_one(&beyond), refused(single, "job 2 refused 8 at 0")),
        (beyond, refused(&none, "job 1 refused 8 at 0")),
        (
            changed(|tape| tape.set_weight(65_281)),
            refused(&none, "job 1 refused 2 at 5"),
        ),
        (
            after_one(&changed(|tape| tape.set_size((4_096, 257)))),
            refused(single, "job 2 refused 1 at 0"),
        ),
        // The size is taken, but the program's tables are shorter.
        (
            after_one(&flat(64, 65).tape(&[])),
            refused(single, "job 2 refused 16 at 0"),
        ),
        (after_one(&[1]), refused(single, "job 2 refused 13 at 0")),
        (
            after_one(&run[..19]),
            refused(single, "job 2 refused 18 at 19"),
        ),
        (after_one(&[7]), refused(single, "job 2 refused 12 at 0")),
        (after_one(&[6]), refused(single, "job 2 refused 14 at 0")),
        // An end record is no job.
        (after_one(&[0]), refused(single, "job 2 refused 14 at 0")),
        (vec![0], refused(&none, "job 1 refused 14 at 0")),
        (run.repeat(3), text([3, 6, 3, 0, 0, 48], [16, 1], [8, 0])),
        // The third and the fourth season of the proved table.
        (
            [&spent[..], &spent, &[1, 2]].concat(),
            refused(&spent_twice, "job 3 refused 13 at 0"),
        ),
        (
            [&spent[..], &spent, &[1, 2, 0, 1, 0]].concat(),
            refused(&spent_twice, "job 3 refused 18 at 5"),
        ),
        (
            [&one[..], &run].concat(),
            text([2, 3, 2, 0, 0, 16], [16, 2], [5, 1]),
        ),
        // A slack of 0 is the largest where all are 0.
        (best.repeat(2), text([2, 4, 0, 0, 2, 0], [0, 1], [0, 0])),
        // A job without pairs has neither weights nor a flow.
        (
            [&one[..17], &[6, 0, 0]].concat(),
            refused(&none, "job 1 refused 14 at 17"),
        ),
        (
            [&one[..17], &[5, 0, 0, 0, 0]].concat(),
            refused(&none, "job 1 refused 14 at 17"),
        ),
        (one, text([1, 1, 1, 0, 0, 0], [0, 1], [0, 0])),
        (
            [&mixed[..], &[9]].concat(),
            refused(&mixed_text, "job 7 refused 12 at 0"),
        ),
        (mixed, mixed_text),
        (weighted.clone(), weighted_text.clone()),
        (
            changed_joint(|tape| tape.set_flow(0, 1)),
            refused(&weighted_text, "job 5 refused 8 at 0"),
        ),
        (
            changed_joint(|tape| tape.set_pair_weight(1, 65_281)),
            refused(&weighted_text, "job 5 refused 2 at 24"),
        ),
        (
            after_one(&overfull_tape().bytes),
            refused(single, "job 2 refused 17 at 0"),
        ),
    ]
}

/// The lines of a season in which no job is refused.
fn text(totals: [u64; 6], largest: [u64; 2], mean: [u64; 2]) -> String {
    let [jobs, pixels, settled, spent, checked, total] = totals;
    let ([largest, first], [mean, remainder]) = (largest, mean);
    format!(
        "jobs {jobs}\npixels {pixels}\nsettled {settled}\nspent {spent}\nchecked {checked}\n\
         total {total}\nlargest {largest} {first}\nmean {mean} {remainder}\n"
    )
}
