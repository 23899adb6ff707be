//! Document 01's job of 2 by 1 pixels.

use relief::{Reason, Refusal, Terms};

pub const TERMS: Terms = Terms {
    width: 2,
    height: 1,
    weight: 256,
    low: 0,
    high: 255,
};

pub const SAMPLES: [u8; 2] = [0, 2];

/// No weights: each pair has the weight of the terms.
pub const NONE: [i32; 0] = [];

/// What makes a call turn back: samples, weights, flow or image, one number more that the call is
/// made or judged by, and the reason.
#[cfg(any(feature = "judge", feature = "tape"))]
pub type Fault = (&'static [u8], &'static [i32], &'static [i32], usize, Reason);

/// The answer of a call that is refused.
pub fn refused<T>(reason: Reason, place: u64) -> Result<T, Refusal> {
    Err(Refusal { reason, place })
}

/// The terms with a fault of each kind that they can have.
pub fn faulty_terms() -> [(Terms, Reason); 3] {
    [
        (Terms { width: 0, ..TERMS }, Reason::Size),
        (
            Terms {
                weight: relief::MAX_WEIGHT + 1,
                ..TERMS
            },
            Reason::Weight,
        ),
        (
            Terms {
                high: 0,
                low: 1,
                ..TERMS
            },
            Reason::Box,
        ),
    ]
}
