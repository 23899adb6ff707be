//! Records behind the samples of a job, in every order.

use relief_reference::Refusal;

use crate::{flat, jointed, Answer, Case};

/// The kinds that are tried: all that may stand there, and two that may not.
const KINDS: [u8; 5] = [0, 3, 4, 5, 6];

/// Tapes with every order of up to `most` records, with zeros, behind the samples of a job that has
/// two pairs and of one that has none, each with the answer that is due.
pub fn record_orders(most: usize) -> impl Iterator<Item = (Vec<u8>, Answer<()>)> {
    let two_pairs: &[&[u8]] = &[&[0], &[6, 6, 0], &[5, 5, 0], &[6, 6, 5, 5, 0]];
    let none: &[&[u8]] = &[&[0]];
    [(jointed(), two_pairs), (flat(1, 1), none)]
        .into_iter()
        .flat_map(move |(job, whole)| {
            let start = up_to_the_samples(&job);
            orders(most).map(move |kinds| {
                let records = kinds.iter().flat_map(|&kind| record(kind));
                let tape = start.iter().copied().chain(records).collect();
                (tape, expected_answer(&kinds, start.len(), whole))
            })
        })
}

fn up_to_the_samples(job: &Case) -> Vec<u8> {
    let mut tape = job.tape(&[]);
    tape.truncate(15 + 2 * job.samples.len());
    tape
}

/// Up to so many kinds, in every order.
fn orders(most: usize) -> impl Iterator<Item = Vec<u8>> {
    let counts = (0..=most).map(|length| (length, KINDS.len().pow(length as u32)));
    counts.flat_map(|(length, count)| {
        (0..count).map(move |number| {
            let digits = (0..length).map(|place| number / KINDS.len().pow(place as u32));
            digits.map(|digit| KINDS[digit % KINDS.len()]).collect()
        })
    })
}

/// A record of this kind, with zeros.
fn record(kind: u8) -> Vec<u8> {
    let body = match kind {
        0 => 0,
        4 => 1,
        6 => 2,
        _ => 4,
    };
    [vec![kind], vec![0; body]].concat()
}

/// The answer to these kinds from `offset` on, where `whole` are those that may stand there: 14 at
/// the first that goes on with none of them, 15 behind one of them.
fn expected_answer(kinds: &[u8], mut offset: usize, whole: &[&[u8]]) -> Answer<()> {
    let refused = |number, offset| {
        Err(Refusal {
            number,
            place: offset as u64,
        })
    };
    for (index, &kind) in kinds.iter().enumerate() {
        if whole.contains(&&kinds[..index]) {
            return refused(15, offset);
        }
        if !whole
            .iter()
            .any(|whole| whole.starts_with(&kinds[..=index]))
        {
            return refused(14, offset);
        }
        offset += record(kind).len();
    }
    if whole.contains(&kinds) {
        Ok(())
    } else {
        refused(18, offset)
    }
}
