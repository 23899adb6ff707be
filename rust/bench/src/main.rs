//! Times the proved library beside the second implementation's optimized calls (for write and
//! read, its only ones): the same input in the same buffers, by turns in one process, both compiled
//! for release. Each call is lent no weights first, then one for each pair.

mod clock;
#[cfg(feature = "judge")]
mod judge;
mod measure;
#[cfg(feature = "run")]
mod rounds;
#[cfg(feature = "tape")]
mod tape;

use measure::{Workload, REPETITIONS};

fn main() {
    println!("ns per pixel, for one call or one round: median of {REPETITIONS}, warm buffers");
    println!("{:35}{:>9}{:>11}{:>8}", "", "library", "reference", "ratio");
    for (side, weighted) in [(64, false), (64, true), (1_024, false), (1_024, true)] {
        let mut workload = Workload::new(side, weighted);
        #[cfg(feature = "judge")]
        judge::price(&mut workload);
        #[cfg(feature = "judge")]
        judge::check(&mut workload);
        #[cfg(feature = "tape")]
        tape::write(&mut workload);
        #[cfg(feature = "tape")]
        tape::read(&mut workload);
        #[cfg(feature = "run")]
        rounds::steady(&mut workload);
        #[cfg(feature = "run")]
        rounds::quick(&mut workload);
    }
}
