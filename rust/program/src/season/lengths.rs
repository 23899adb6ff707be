//! Seasons of many bytes and of many jobs, and single jobs of too many bytes.

use relief_inputs::{compare_family, filler, flat, two_by_one, Difference, Random, Tape};
use relief_reference::program::{FLOW_TABLE, INPUT_LIMIT, SAMPLE_TABLE, WEIGHT_TABLE};
use relief_reference::season::{report, LIMITS};

use super::family;
use super::jobs::random_jobs;
use crate::child::{Input, Program};
use crate::compare::compare_text;
use crate::tapes::{full_tape, largest_slack_tape, overfull_tape, weighted_tape};

/// Where a program may have to make room for more of its input.
const BOUNDARIES: [usize; 5] = [65_536, 4_096, 8_192, 32_768, 131_072];

/// The most jobs of a season.
pub const MOST_JOBS: usize = LIMITS.jobs as usize;

/// Compares seasons of these lengths.
pub fn compare(program: &Program, step: usize) -> Result<(), Difference> {
    family(
        program,
        "a job at every place of a boundary",
        boundaries(step),
    )?
    .require(&["settled and checked"], &[8, 13, 18])?;
    family(program, "far longer seasons", long_seasons(step))?
        .require(&["settled and spent and checked"], &[12, 13])?;
    family(program, "jobs of too many records", long_jobs())?.require(&[], &[12, 14, 16])?;
    family(program, "jobs of too many bytes", too_long_jobs(step))?.require(
        &["checked", "settled and checked"],
        &[2, 12, 13, 14, 17, 18],
    )?;
    family(program, "65,535 jobs, and about as many", many_jobs())?
        .require(&["settled", "settled and checked"], &[12, 13, 18])?;
    if step == 1 {
        largest_total(program)?;
    }
    Ok(())
}

/// A job at every place about each boundary of the input. With a step all places about the first
/// boundary and some about the others.
fn boundaries(step: usize) -> impl Iterator<Item = Vec<u8>> {
    let places = two_by_one().tape(&[0]).len() + 1;
    BOUNDARIES
        .into_iter()
        .flat_map(move |boundary| (0..places).map(move |before| (boundary, before)))
        .enumerate()
        .filter(move |(index, _)| *index < places || index % step == 0)
        .flat_map(|(_, (boundary, before))| about(boundary, before))
}

/// Seasons with a job that has so many bytes before the boundary: whole, with a flow number beyond
/// the weight, and cut at the boundary.
fn about(boundary: usize, before: usize) -> [Vec<u8>; 3] {
    let [whole, beyond] = [256, 257].map(|value| {
        let tape = Tape::new(&two_by_one(), &[0]);
        let mut season = filler(boundary - before);
        season.extend(tape.changed(|tape| tape.set_flow(0, value)));
        season.extend(two_by_one().tape(&[]));
        season
    });
    let cut = whole[..boundary].to_vec();
    [whole, beyond, cut]
}

/// Small jobs in their thousands, then the longest tapes, from many offsets on: whole, followed by
/// a byte that is no job, or cut in the last tape.
fn long_seasons(step: usize) -> impl Iterator<Item = Vec<u8>> {
    let mut random = Random::new(0x10A65EA);
    (0..48).step_by(step).map(move |index| {
        let mut season = filler(18 + 2 * index);
        season.extend(random_jobs(&mut random, 4_000, 6));
        season.extend(full_tape().repeat(30));
        match index % 3 {
            0 => (),
            1 => season.push(9),
            _ => season.truncate(season.len() - 1 - random.below(40_000)),
        }
        season
    })
}

/// Jobs of more than 65,536 bytes, with a fault before.
fn long_jobs() -> Vec<Vec<u8>> {
    let records = |record: &[u8]| record.repeat(70_000 / record.len());
    let (run, full) = (two_by_one().tape(&[]), full_tape());
    let samples_end = 15 + 2 * SAMPLE_TABLE;
    let flow_end = samples_end + 5 * FLOW_TABLE;
    assert_eq!(flow_end, full.len() - 1);
    let mut jobs = Vec::new();
    // Behind all samples, and behind all flow numbers: more of them, weights, an unknown kind, and
    // a kind that is not allowed.
    for end in [samples_end, flow_end] {
        for more in [&[4, 7][..], &[5, 1, 0, 0, 0], &[6, 0, 0], &[7], &[3]] {
            jobs.push([&full[..end], &records(more)].concat());
        }
    }
    // More pixels than the tables hold, and nothing but ends.
    jobs.push(flat(4_096, 20).tape(&[]));
    jobs.push(records(&[0]));
    jobs.iter()
        .flat_map(|job| {
            let later = filler(65_536 - 30);
            [&[][..], &run, &later].map(|before| [before, job].concat())
        })
        .collect()
}

/// Jobs with all weights and flow numbers, the first of as many bytes as can be and the others of
/// more than 65,536: whole, cut about there, with faults before and behind, alone and among others.
fn too_long_jobs(step: usize) -> impl Iterator<Item = Vec<u8>> {
    let (run, full) = (two_by_one().tape(&[]), full_tape());
    let longest = weighted_tape(100, 37).bytes;
    assert_eq!(longest.len(), 65_520);
    let mut jobs = vec![longest.clone(), [&longest[..], &[7]].concat()];
    // Byte 65,536 is inside the last flow record, right before one, and further before the end.
    for tape in [
        weighted_tape(14, 269),
        weighted_tape(19, 197),
        overfull_tape(),
    ] {
        let tape = tape.bytes;
        let cuts = [
            INPUT_LIMIT - 1,
            INPUT_LIMIT,
            INPUT_LIMIT + 1,
            tape.len() - 1,
        ];
        jobs.extend(cuts.map(|length| tape[..length].to_vec()));
        jobs.push(tape);
    }
    jobs.extend(faulty_overfull_jobs());
    let starts = [
        Vec::new(),
        run.clone(),
        filler(INPUT_LIMIT - 31),
        full.repeat(3),
    ];
    let seasons = jobs.into_iter().flat_map(move |job| {
        let behind = [&job[..], &run].concat();
        let seasons = starts
            .each_ref()
            .map(|before| [&before[..], &behind].concat());
        [job].into_iter().chain(seasons)
    });
    // The first job in all ways and the others alone, always.
    seasons
        .enumerate()
        .filter(move |(index, _)| *index < 5 || index % 5 == 0 || index % step == 0)
        .map(|(_, season)| season)
}

/// The longest job with a byte changed: in its samples, weights and flow, in the last record that
/// begins before byte 65,536, and behind.
fn faulty_overfull_jobs() -> Vec<Vec<u8>> {
    let tape = overfull_tape();
    let weights = 15 + 2 * SAMPLE_TABLE;
    let flow = weights + 3 * WEIGHT_TABLE;
    let last = flow + (INPUT_LIMIT - flow) / 5 * 5;
    let end = tape.bytes.len() - 1;
    let changes = [
        (weights - 2, 5),
        (weights, 7),
        (weights + 300, 5),
        (flow, 6),
        // A flow number is judged at the end.
        (flow + 4, 0x7F),
        (last, 0),
        (last + 5, 7),
        (end, 7),
    ];
    let mut jobs = changes
        .map(|(place, byte)| tape.clone().changed(|tape| tape.bytes[place] = byte))
        .to_vec();
    jobs.extend([0, 100, WEIGHT_TABLE - 1].map(|index| {
        let beyond = |tape: &mut Tape| tape.set_pair_weight(index, 65_281);
        tape.clone().changed(beyond)
    }));
    jobs
}

fn many_jobs() -> Vec<Vec<u8>> {
    let (one, two) = (flat(1, 1).tape(&[]), two_by_one().tape(&[]));
    let [small, large] = [0, 256].map(|flow| two_by_one().tape(&[flow]));
    let most = |job: &[u8], fewer: usize, rest: &[u8]| {
        let mut season = job.repeat(MOST_JOBS - fewer);
        season.extend(rest);
        season
    };
    vec![
        most(&one, 1, &[]),
        most(&one, 0, &[]),
        // Not read any more: a job, what is none, and many jobs.
        most(&one, 0, &one),
        most(&one, 0, &[7; 99]),
        most(&one, 0, &[1]),
        most(&one, 0, &one.repeat(9_000)),
        // Still read.
        most(&one, 1, &[7; 99]),
        most(&one, 1, &one[..16]),
        most(&one, 1, &one[..17]),
        most(&one, 30_000, &[7; 99]),
        // The largest slack is the last job's, and one behind that does not count.
        most(&two, 1, &small),
        most(&two, 1, &[&small[..], &large].concat()),
        most(&large, 1, &[&large[..], &large].concat()),
    ]
}

/// The season of the largest total: as many jobs as there can be, of the largest slack. Its text
/// follows from that of a single one.
fn largest_total(program: &Program) -> Result<(), Difference> {
    let input = Input {
        times: MOST_JOBS,
        ..largest_slack_tape().into()
    };
    compare_family("the largest total", [input], |input| {
        let single = report(&input.bytes);
        let slack: u128 = single
            .lines()
            .find_map(|line| line.strip_prefix("total "))
            .and_then(|total| total.parse().ok())
            .expect("a report has a total");
        let jobs = MOST_JOBS as u128;
        let (pixels, total) = (jobs * SAMPLE_TABLE as u128, jobs * slack);
        let (mean, remainder) = (total / pixels, total % pixels);
        let expected = format!(
            "jobs {jobs}\npixels {pixels}\nsettled 0\nspent 0\nchecked {jobs}\n\
             total {total}\nlargest {slack} 1\nmean {mean} {remainder}\n"
        );
        compare_text(program, input, &expected)?;
        Ok(Ok(format!("total {total}")))
    })
    .map(drop)
}
