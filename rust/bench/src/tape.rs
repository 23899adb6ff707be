//! Write and read of the job's tape, which has its flow: one call each. The second implementation
//! has no optimized calls for this: it collects the bytes or the numbers in vectors first.

use std::hint::black_box;

use relief_reference as reference;

use crate::measure::{report, Workload};

const QUICK: u32 = 100;
const ALLOWANCE: u16 = 1_000;

pub fn write(workload: &mut Workload) {
    report(
        "write",
        workload,
        1,
        |workload| {
            let Workload {
                library_terms,
                samples,
                weights,
                flow,
                tape,
                ..
            } = workload;
            let rounds = relief::Rounds {
                quick: QUICK,
                allowance: ALLOWANCE,
            };
            let count = relief::write(library_terms, &rounds, samples, weights, flow, tape);
            assert_eq!(black_box(count), Ok(tape.len()));
        },
        |workload| {
            let Workload {
                terms,
                samples,
                weights,
                flow,
                tape,
                ..
            } = workload;
            let rounds = reference::Rounds {
                quick: QUICK,
                allowance: ALLOWANCE,
            };
            let count = reference::write(terms, &rounds, samples, weights, flow, tape);
            assert_eq!(black_box(count), Ok(tape.len()));
        },
    );
}

/// After [`write`], whose tape it reads.
pub fn read(workload: &mut Workload) {
    report(
        "read",
        workload,
        1,
        |workload| {
            let Workload { tape, read, .. } = workload;
            let job = relief::read(tape, &mut read.samples, &mut read.weights, &mut read.flow);
            assert!(black_box(job).is_ok(), "the tape is refused");
        },
        |workload| {
            let Workload { tape, read, .. } = workload;
            let job = reference::read(tape, &mut read.samples, &mut read.weights, &mut read.flow);
            assert!(black_box(job).is_ok(), "the tape is refused");
        },
    );
}
