//! What tests, comparisons and benchmark share: jobs, their tapes and seasons of them, random,
//! extreme, damaged and with mutations, the counts of what a family of them was answered, and two
//! images of one job beside the bound of their slacks.

mod case;
mod chessboard;
mod family;
mod mutations;
mod orders;
mod random;
mod read;
mod season;
mod tape;
mod two_flows;

pub use case::{
    about_the_box, flat, jointed, narrow_box, square, three_by_one, two_by_one, two_by_two,
    weighted_square, Case, JOINTED_TEXT, SQUARE_FLOW, TWO_BY_ONE_TEXT,
};
pub use chessboard::{chessboard, chessboard_flow};
pub use family::{compare_family, status, Answer, Counts, Difference};
pub use mutations::{mutated, mutation, Mutation};
pub use orders::record_orders;
pub use random::Random;
pub use read::{mutated_jobs, mutated_reads, mutated_tapes, TapeInput};
pub use season::{concatenated, filler, season_job, season_prefixes, TWO_BY_ONE_SEASON};
pub use tape::{changes_of, small_tapes, tape_length, Tape};
pub use two_flows::compare_with_bound;
