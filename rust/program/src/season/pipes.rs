//! Seasons in pieces, and pipes that stay open: the program must end once its answer is known.

use relief_inputs::{flat, jointed, two_by_one, Case, Difference, Random};
use relief_reference::program::INPUT_LIMIT;

use super::family;
use super::jobs::{random_jobs, small_season};
use super::lengths::MOST_JOBS;
use crate::child::{Input, Program};
use crate::tapes::{full_tape, overfull_tape, weighted_tape};

/// Compares seasons in pieces of many sizes, then with the pipe left open.
pub fn compare(program: &Program) -> Result<(), Difference> {
    family(program, "in pieces", in_pieces())?
        .require(&["settled and checked", "settled"], &[8, 12, 13, 17, 18])?;
    let numbers = [1, 2, 3, 8, 10, 12, 14, 16, 17];
    family(program, "by a pipe that stays open", left_open())?.require(&["settled"], &numbers)
}

fn in_pieces() -> Vec<Input> {
    let mut random = Random::new(0x9EEC);
    let small = small_season();
    let full = full_tape();
    let overfull = overfull_tape().bytes;
    let long = random_jobs(&mut random, 5_000, 6);
    let mut beyond = small.clone();
    // The flow number of the second job.
    beyond[40..44].copy_from_slice(&257_i32.to_le_bytes());
    // Without the last record, and inside the one before it.
    let [unfinished, cut] =
        [1, 2].map(|fewer| move |season: &[u8]| season[..season.len() - fewer].to_vec());
    let faulty = |season: &[u8]| [season, &[9]].concat();
    let mut inputs: Vec<Input> = (1..=25)
        .map(|piece| Input::in_pieces(small.clone(), piece, 1))
        .collect();
    inputs.extend([
        Input::in_pieces(cut(&small), 1, 1),
        Input::in_pieces(unfinished(&small), 1, 1),
        Input::in_pieces(faulty(&small), 1, 1),
        Input::in_pieces(faulty(&small), 7, 1),
        Input::in_pieces(beyond, 2, 1),
        Input::in_pieces(full.repeat(2), 1, 0),
        Input::in_pieces(full.repeat(3), 997, 1),
        Input::in_pieces(long.clone(), 1, 0),
        Input::in_pieces(long.clone(), 7, 0),
        Input::in_pieces(faulty(&long), 4_099, 1),
        Input::in_pieces(cut(&long), 65_535, 5),
        Input::in_pieces(unfinished(&long), 65_535, 5),
        Input::in_pieces(long, 65_536, 5),
        Input::in_pieces(flat(1, 1).tape(&[]).repeat(MOST_JOBS + 9), 65_537, 1),
        Input::in_pieces(weighted_tape(100, 37).bytes.repeat(2), 997, 0),
        // The byte too many comes late.
        Input::in_pieces(overfull[..=INPUT_LIMIT].to_vec(), INPUT_LIMIT, 5),
        Input::in_pieces(overfull[..INPUT_LIMIT].to_vec(), 4_099, 0),
        Input::in_pieces(overfull, 997, 0),
    ]);
    inputs
}

/// The first bytes of a job's tape with a flow of zeros, its faulty record last.
fn faulty(job: &Case, length: usize, place: usize, bytes: &[u8]) -> Vec<u8> {
    let mut tape = job.tape(&vec![0; job.grid().pair_count()]);
    tape.truncate(length);
    tape[place..place + bytes.len()].copy_from_slice(bytes);
    tape
}

/// Seasons of which no more comes, though more could: the most jobs, and faulty records, each to
/// its last byte.
fn left_open() -> impl Iterator<Item = Input> {
    let one = flat(1, 1).tape(&[]);
    let most = one.repeat(MOST_JOBS);
    let whole = [&[], &one[..], &one[..9], &[7]].map(|rest| [&most[..], rest].concat());

    let faulty = |length, place, bytes: &[u8]| faulty(&two_by_one(), length, place, bytes);
    let weighted = |length, place, bytes: &[u8]| self::faulty(&jointed(), length, place, bytes);
    let records = [
        faulty(5, 1, &[0]),
        faulty(5, 1, &[1, 16]),
        faulty(5, 1, &[0, 16, 2]),
        faulty(10, 6, &[255, 255]),
        faulty(10, 8, &[9, 8]),
        faulty(15, 11, &[255, 255]),
        faulty(25, 20, &[0, 1, 1]),
        faulty(1, 0, &[7]),
        faulty(20, 19, &[255]),
        faulty(25, 24, &[7]),
        faulty(1, 0, &[0]),
        faulty(10, 5, &[3]),
        faulty(25, 19, &[4, 0, 5]),
        faulty(17, 15, &[0]),
        weighted(24, 22, &[1, 255]),
        weighted(25, 24, &[5]),
        weighted(27, 25, &[255, 255]),
        weighted(28, 27, &[6]),
        weighted(33, 32, &[6]),
        weighted(38, 28, &[1]),
        overfull_tape().bytes[..=INPUT_LIMIT].to_vec(),
    ];
    let starts = [Vec::new(), small_season(), full_tape().repeat(3)];
    let refused = records.into_iter().flat_map(move |record| {
        let seasons = starts
            .each_ref()
            .map(|start| [&start[..], &record].concat());
        seasons.into_iter()
    });
    whole.into_iter().chain(refused).map(Input::left_open)
}
