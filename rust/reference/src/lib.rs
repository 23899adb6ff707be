//! The relief cleaner of document 01, with requests F-1 to F-7 of document 02, written a second
//! time for comparison.
//!
//! The calls work in buffers that the caller lends, test all of their input
//! themselves, and leave every buffer as it was when they refuse. Inside, plain
//! definitions on vectors are preferred to speed; only the loop nests of [`optimized`], and
//! with them [`season::optimized`], are fast.
//!
//! Names follow the literature on total variation. Document 01's words are kept
//! in formats and answers, and given in a comment where a name differs:
//!
//! | here | document 01 |
//! |---|---|
//! | difference | fall |
//! | divergence | pull |
//! | objective | price |
//! | dual objective | floor |
//! | duality gap | slack |
//! | bounds | box |

pub mod calls;
pub mod grid;
pub mod optimized;
pub mod problem;
pub mod program;
pub mod refusal;
pub mod rounds;
pub mod season;
pub mod tape;
pub mod terms;

pub use calls::{check, price, run, Figures};
pub use grid::Grid;
pub use problem::Problem;
pub use refusal::{Fault, Refusal};
pub use rounds::Outcome;
pub use tape::{read, write, Job};
pub use terms::{Rounds, Terms};
