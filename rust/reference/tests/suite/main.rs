//! Tests of the reference: the documents' values, guarantees, tape, refusals, seasons and
//! whole answers.

mod support;

mod answer;
mod guarantees;
mod optimized;
mod program;
mod refusals;
mod season;
mod tape;
mod values;
