//! Price, which judges the image and sums its price, and check, which judges the flow, fills the
//! image and sums price, floor and slack: one call each.

use std::hint::black_box;

use relief_reference::optimized;

use crate::measure::{report, Workload};

pub fn price(workload: &mut Workload) {
    report(
        "price",
        workload,
        1,
        |workload| {
            let Workload {
                library_terms,
                samples,
                weights,
                image,
                ..
            } = workload;
            let figures = relief::price(library_terms, samples, weights, image);
            assert!(black_box(figures).is_ok(), "the price is refused");
        },
        |workload| {
            let Workload {
                terms,
                samples,
                weights,
                image,
                ..
            } = workload;
            let figures = optimized::price(terms, samples, weights, image);
            assert!(black_box(figures).is_ok(), "the price is refused");
        },
    );
}

pub fn check(workload: &mut Workload) {
    report(
        "check",
        workload,
        1,
        |workload| {
            let Workload {
                library_terms,
                samples,
                weights,
                flow,
                image,
                ..
            } = workload;
            let figures = relief::check(library_terms, samples, weights, flow, image);
            assert!(black_box(figures).is_ok(), "the check is refused");
        },
        |workload| {
            let Workload {
                terms,
                samples,
                weights,
                flow,
                image,
                ..
            } = workload;
            let figures = optimized::check(terms, samples, weights, flow, image);
            assert!(black_box(figures).is_ok(), "the check is refused");
        },
    );
}
