//! Seasons: tapes that follow one another.

use relief_reference::Rounds;

use crate::tape::prefixes_of;
use crate::{flat, two_by_one, Answer, Case, Random, Tape};

/// The season report of the 2 by 1 job alone.
pub const TWO_BY_ONE_SEASON: &str = "\
jobs 1
pixels 2
settled 1
spent 0
checked 0
total 16
largest 16 1
mean 8 0
";

/// Pixels of the longest tape that `filler` writes, which has no flow.
const FILLER_PIXELS: usize = 4_096;

/// The tape of a random job of at most so many pixels, often of one, with few rounds, with or
/// without weights and a flow.
pub fn season_job(random: &mut Random, pixels: u32) -> Tape {
    let any = random.size(pixels);
    let (width, height) = random.pick(&[(1, 1), any, any, any]);
    let mut case = Case::sized(random, width, height);
    case.rounds = Rounds {
        quick: random.pick(&[0, 0, 1, 3, 12]),
        allowance: random.pick(&[0, 1, 5, 40, 100]),
    };
    let flow = case.flow(random);
    Tape::new(&case, random.pick(&[&flow, &[]]))
}

/// Every prefix of a season, all of it among them, with the answer that is due: that of the job in
/// which it ends. Before any byte and right behind a job there is no refusal.
pub fn season_prefixes(jobs: &[Tape]) -> impl Iterator<Item = (Vec<u8>, Answer<()>)> {
    let answers = jobs
        .iter()
        .flat_map(|job| (1..=job.bytes.len()).map(|length| job.prefix_answer(length)));
    let answers: Vec<Answer<()>> = [Ok(())].into_iter().chain(answers).collect();
    prefixes_of(concatenated(jobs)).zip(answers)
}

/// The season of these jobs.
pub fn concatenated(jobs: &[Tape]) -> Vec<u8> {
    jobs.iter()
        .flat_map(|job| job.bytes.iter().copied())
        .collect()
}

/// Jobs whose tapes take exactly so many bytes together: 0, or an even number from 18 or an odd
/// one from 43 on.
pub fn filler(bytes: usize) -> Vec<u8> {
    let mut season = if bytes % 2 == 0 {
        Vec::new()
    } else {
        two_by_one().tape(&[-256])
    };
    while season.len() < bytes {
        season.extend(flat_tape(bytes - season.len()));
    }
    assert_eq!(season.len(), bytes);
    season
}

/// A tape of at most so many bytes that leaves none of them, or enough for another.
fn flat_tape(bytes: usize) -> Vec<u8> {
    let pixels = (bytes - 16) / 2;
    let pixels = match pixels.checked_sub(FILLER_PIXELS) {
        None | Some(0) => pixels,
        // Another tape has at least 18 bytes.
        Some(more) if more < 9 => FILLER_PIXELS - 9,
        Some(_) => FILLER_PIXELS,
    };
    flat(pixels as u32, 1).tape(&[])
}
