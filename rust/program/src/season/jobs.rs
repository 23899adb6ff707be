//! Seasons of random jobs: whole, cut, changed, and with a faulty or damaged job among them.

use relief_inputs::{
    changes_of, concatenated, flat, jointed, mutated_jobs, season_job, season_prefixes,
    small_tapes, two_by_one, weighted_square, Answer, Difference, Random, Tape, SQUARE_FLOW,
};
use relief_reference::Refusal;

use super::{compare as compare_season, family};
use crate::child::{Input, Program};
use crate::compare::compare_expected;
use crate::tapes::{full_tape, largest, largest_slack_tape, orders};

/// Compares seasons of all these kinds.
pub fn compare(program: &Program, step: usize) -> Result<(), Difference> {
    let every = ["settled and spent and checked"];
    family(program, "1 to 20 jobs", seasons(step))?.require(&every, &[])?;
    family(program, "jobs of the most pixels", of_the_most_pixels())?.require(&every, &[])?;
    let numbers = [1, 2, 3, 8, 10, 12, 13, 14, 16];
    family(program, "a damaged job among others", damages(step))?.require(&[], &numbers)?;
    let with_program = |input: &Input| compare_season(program, input);
    compare_expected("every prefix", prefixes(step), with_program)?
        .require(&["no jobs"], &[13, 18])?;
    let orders = alone_and_behind(ordered_jobs(step));
    compare_expected("every order of records", orders, with_program)?
        .require(&["checked", "settled", "settled and checked"], &[14, 18])?;
    let faults = alone_and_behind(mutated_jobs());
    compare_expected("two faults", faults, with_program)?
        .require(&["checked"], &[1, 2, 3, 8, 10, 12, 13, 14, 16, 18])?;
    family(program, "changed bytes", changes(step))?.require(&[], &[8, 10, 12, 14])
}

fn seasons(step: usize) -> impl Iterator<Item = Vec<u8>> {
    let mut random = Random::new(0x5EA50);
    (0..400).step_by(step).map(move |_| {
        let jobs = random.below(20) + 1;
        let pixels = random.pick(&[6, 100, 4_096]);
        random_jobs(&mut random, jobs, pixels)
    })
}

/// So many jobs of at most so many pixels.
pub fn random_jobs(random: &mut Random, jobs: usize, pixels: u32) -> Vec<u8> {
    concatenated(&random_tapes(random, jobs, pixels))
}

fn random_tapes(random: &mut Random, jobs: usize, pixels: u32) -> Vec<Tape> {
    (0..jobs).map(|_| season_job(random, pixels)).collect()
}

fn of_the_most_pixels() -> Vec<Vec<u8>> {
    let all: Vec<u8> = largest().flatten().collect();
    vec![
        full_tape(),
        full_tape().repeat(3),
        largest_slack_tape().repeat(40),
        all.repeat(2),
        all,
    ]
}

fn damages(step: usize) -> impl Iterator<Item = Vec<u8>> {
    let mut random = Random::new(0xDA3A6ED);
    (0..1_500).step_by(step).map(move |_| {
        let (before, behind) = (random.below(9), random.below(3));
        let mut season = random_jobs(&mut random, before, 12);
        season.extend(season_job(&mut random, 40).damaged(&mut random));
        season.extend(random_jobs(&mut random, behind, 12));
        season
    })
}

/// Two runs and three checks, one job of them with a single pixel, and one with weights.
fn small_jobs() -> [Tape; 5] {
    [
        Tape::new(&two_by_one(), &[]),
        Tape::new(&two_by_one(), &[256]),
        Tape::new(&flat(1, 1), &[]),
        Tape::new(&flat(2, 2), &[1, -2, 256, -256]),
        Tape::new(&jointed(), &[0, -512]),
    ]
}

/// The season of these five.
pub fn small_season() -> Vec<u8> {
    concatenated(&small_jobs())
}

/// Every prefix of a season of five jobs, and of others of three, with the answer that is due.
fn prefixes(step: usize) -> impl Iterator<Item = (Vec<u8>, Answer<()>)> {
    let others = small_tapes(12).flat_map(|(mut random, tape)| {
        let mut jobs = vec![tape];
        jobs.extend(random_tapes(&mut random, 2, 6));
        season_prefixes(&jobs)
    });
    season_prefixes(&small_jobs()).chain(others.step_by(step))
}

/// Jobs with records behind the samples in every order, with the answer that is due. What follows
/// the end is another job, which no such record begins.
fn ordered_jobs(step: usize) -> impl Iterator<Item = (Vec<u8>, Answer<()>)> {
    let no_job = Refusal {
        number: 14,
        place: 0,
    };
    orders(step).map(move |(job, due)| match due {
        Err(Refusal { number: 15, .. }) => (job, Err(no_job)),
        _ => (job, due),
    })
}

/// Seasons of one job, and of that behind a good one, where the same is due.
fn alone_and_behind(
    jobs: impl IntoIterator<Item = (Vec<u8>, Answer<()>)>,
) -> impl Iterator<Item = (Vec<u8>, Answer<()>)> {
    let good = weighted_square().tape(&SQUARE_FLOW);
    jobs.into_iter().flat_map(move |(job, due)| {
        let behind = [&good[..], &job].concat();
        [(job, due), (behind, due)]
    })
}

/// A season of five jobs with bytes changed, each of them at least once.
fn changes(step: usize) -> impl Iterator<Item = Vec<u8>> {
    changes_of(small_season()).step_by(13 * step)
}
