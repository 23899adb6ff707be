//! Rounds: a run of many against the same number of optimized rounds. What else a run does
//! (clearing its buffers, the figures at its end) is not taken off its time.

use std::hint::black_box;

use relief_reference::optimized;
use relief_reference::rounds::T_UNIT;

use crate::measure::{report, Workload};

/// Rounds of a run: so many that the rest of a run counts for little, and too few for the
/// job to settle.
const ROUNDS: u16 = 100;

pub fn steady(workload: &mut Workload) {
    let rounds = relief::Rounds {
        quick: 0,
        allowance: ROUNDS,
    };
    report(
        "steady rounds",
        workload,
        ROUNDS.into(),
        |workload| run(workload, &rounds),
        |workload| {
            let Workload {
                terms,
                samples,
                weights,
                flow,
                image,
                ..
            } = workload;
            flow.fill(0);
            for _ in 0..ROUNDS {
                black_box(optimized::steady_round(
                    terms, samples, weights, flow, image,
                ));
            }
        },
    );
}

pub fn quick(workload: &mut Workload) {
    let rounds = relief::Rounds {
        quick: ROUNDS.into(),
        allowance: 0,
    };
    report(
        "quick rounds",
        workload,
        ROUNDS.into(),
        |workload| run(workload, &rounds),
        |workload| {
            let Workload {
                terms,
                samples,
                weights,
                flow,
                image,
                work,
                ..
            } = workload;
            let extrapolated = &mut work[..flow.len()];
            flow.fill(0);
            extrapolated.fill(0);
            let mut t = T_UNIT;
            for _ in 0..ROUNDS {
                t = optimized::quick_round(terms, samples, weights, t, flow, extrapolated, image);
            }
            black_box(t);
        },
    );
}

fn run(workload: &mut Workload, rounds: &relief::Rounds) {
    let Workload {
        library_terms,
        samples,
        weights,
        flow,
        image,
        work,
        ..
    } = workload;
    let figures = relief::run(library_terms, rounds, samples, weights, flow, image, work);
    assert!(black_box(figures).is_ok(), "the run is refused");
}
