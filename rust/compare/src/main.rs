//! Makes the same calls by the proved library and by the second implementation, and compares
//! every answer and every buffer afterwards.
//!
//! `compare full` makes all of them, `compare quick` about one in twenty. It prints a line
//! with counts for each family of inputs. At the first difference it prints that with the
//! whole input, and ends with status 1.

mod convert;
mod family;
mod job;
#[cfg(feature = "judge")]
mod judge;
#[cfg(feature = "run")]
mod run;
#[cfg(feature = "tape")]
mod tape;

use std::env;
use std::process::ExitCode;

use relief_inputs::{status, Difference};

/// Of a family's inputs a quick comparison takes the first and every 19th after it: an odd
/// step, so that the changed bytes of tapes take all 256 values.
const QUICK_STEP: usize = 19;

fn main() -> ExitCode {
    let step = match env::args().nth(1).as_deref() {
        Some("quick") => QUICK_STEP,
        Some("full") => 1,
        _ => {
            eprintln!("usage: compare quick | compare full");
            return ExitCode::from(2);
        }
    };
    status(compare_all(step))
}

/// Compares every `step`th input of each family whose calls the library has.
fn compare_all(step: usize) -> Result<(), Difference> {
    #[cfg(feature = "judge")]
    judge::compare(step)?;
    #[cfg(feature = "run")]
    run::compare(step)?;
    #[cfg(feature = "tape")]
    tape::compare(step)?;
    Ok(())
}
