//! The proved relief cleaner for Rust: safe functions over its static library.
//!
//! The calls work in buffers that the caller lends. Each answers with its figures or
//! with a [`Refusal`], after which every buffer is as it was. `include/relief.h` says
//! what each number means and what the rounds are.
//!
//! A sample is a code. It covers a level of 256 sub-units and is read at its centre, 256 ×
//! sample + 128; image values are in sub-units too.
//!
//! A pair is two neighbouring pixels. First comes every (pixel, pixel below), row by row of the
//! upper pixel, then every (pixel, pixel to its right), row by row of the left one. Weights and flow
//! have one number for each pair, in this order.
//!
//! A weight, 0 to [`MAX_WEIGHT`] sub-units, says how strongly its pair is smoothed: with 0, as at a
//! joint, not at all. Weights of length 0 are none, and every pair has the weight of the [`Terms`].
//!
//! A call is there with its feature: `judge` (price, check), `run`, `tape` (read, write). It links
//! only with a library of this crate's major and minor version.
//!
//! Lengths of buffers are counted in values and must be exact, unless a call says
//! otherwise. [`Terms::pixel_count`], [`Terms::pair_count`], [`tape_bytes`],
//! [`read_samples_len`], [`read_weights_len`] and [`read_flow_len`] give them.
//!
//! The calls have no global state and allocate nothing, so any number of them may run at
//! the same time.
//!
//! ```
//! # #[cfg(feature = "run")] {
//! use relief::{Outcome, Rounds, Terms};
//!
//! let terms = Terms {
//!     width: 2,
//!     height: 1,
//!     weight: 256,
//!     low: 0,
//!     high: 255,
//! };
//! let rounds = Rounds {
//!     quick: 0,
//!     allowance: 100,
//! };
//! let samples = [0, 2];
//! let mut flow = vec![0; terms.pair_count()];
//! let mut image = vec![0; terms.pixel_count()];
//! let mut work = vec![0; 2 * terms.pair_count()];
//! let figures = relief::run(&terms, &rounds, &samples, &[], &mut flow, &mut image, &mut work)?;
//! assert_eq!(figures.outcome, Outcome::Settled);
//! assert_eq!((figures.price, figures.slack), (131_080, 16));
//! assert_eq!(image, [382, 386]);
//! # }
//! # Ok::<(), relief::Refusal>(())
//! ```

mod counts;
mod ffi;
mod refusal;

pub use counts::{
    pair_count, pixel_count, read_flow_len, read_samples_len, read_weights_len, tape_bytes,
    MAX_ALLOWANCE, MAX_PAIRS, MAX_PIXELS, MAX_QUICK, MAX_SIDE, MAX_TAPE_BYTES, MAX_WEIGHT,
};
pub use refusal::{Reason, Refusal};

#[cfg(feature = "judge")]
pub use ffi::judge::{check, price};
#[cfg(feature = "run")]
pub use ffi::run::run;
#[cfg(feature = "tape")]
pub use ffi::tape::{read, write};

/// Size, weight and box of a job.
#[derive(Clone, Copy, Debug, Default, PartialEq, Eq)]
pub struct Terms {
    /// Pixels in a row, 1 to [`MAX_SIDE`].
    pub width: u32,
    /// Rows, 1 to [`MAX_SIDE`]; at most [`MAX_PIXELS`] pixels in all.
    pub height: u32,
    /// The weight of every pair in sub-units of 1/256 level, at most [`MAX_WEIGHT`]. Where weights
    /// are lent, it must be allowed all the same, but nothing except a tape's record depends on it.
    pub weight: u32,
    /// The lowest level of the box: image values are at least 256 × `low` sub-units.
    pub low: u8,
    /// The highest level of the box, not below the lowest: image values are at most
    /// 256 × `high` + 255 sub-units.
    pub high: u8,
}

/// How many rounds a run may make.
#[derive(Clone, Copy, Debug, Default, PartialEq, Eq)]
pub struct Rounds {
    /// The number of quick rounds, at most [`MAX_QUICK`].
    pub quick: u32,
    /// The most steady rounds.
    pub allowance: u16,
}

/// How an accepted call ended.
#[derive(Clone, Copy, Debug, PartialEq, Eq)]
pub enum Outcome {
    /// A given image or flow was judged.
    Checked,
    /// No pair would move any more.
    Settled,
    /// The allowance is used up and some pair would still move.
    Spent,
}

/// What an accepted price, check or run answers.
#[derive(Clone, Copy, Debug, PartialEq, Eq)]
pub struct Figures {
    /// How the call ended.
    pub outcome: Outcome,
    /// The number of steady rounds that changed a value; 0 but for a run.
    pub moved: u32,
    /// The price of the image.
    pub price: u64,
    /// The floor of the flow; 0 for `price`.
    pub floor: i64,
    /// Price minus floor; 0 for `price`. Of check and run: for every image of the box, `price` plus
    /// the squared distance of the two is at most the other's price plus this. With the slack of
    /// another flow of the same job it bounds the distance of the two flows' images (`check`).
    pub slack: u64,
}

/// What a tape says beside its samples, weights and flow.
#[derive(Clone, Copy, Debug, PartialEq, Eq)]
pub struct Job {
    /// Size, weight and box.
    pub terms: Terms,
    /// Quick rounds and steady allowance.
    pub rounds: Rounds,
    /// Whether the tape has weight records: whether the other calls are to be lent one weight for
    /// each pair, or none.
    pub has_weights: bool,
    /// Whether the tape has flow records.
    pub has_flow: bool,
}
