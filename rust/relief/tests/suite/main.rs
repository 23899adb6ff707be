//! Tests of the wrapper, linked with the library: the documents' values through each call,
//! every refusal, the counts, and the header beside what is written here a second time.

mod counts;
mod header;
mod refusals;
#[cfg(any(feature = "judge", feature = "run", feature = "tape"))]
mod support;

#[cfg(feature = "judge")]
mod judge;
#[cfg(feature = "run")]
mod run;
#[cfg(feature = "tape")]
mod tape;
