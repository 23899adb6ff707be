//! Starts one of the two programs on many inputs and compares what it prints, byte for byte,
//! with the second implementation's text.
//!
//! `program relief PATH full` tries all tapes on the cleaning program, `program season PATH full`
//! all seasons on the season report; with `quick` in place of `full` it is about one in eight of
//! the tapes and one in seven of the seasons. It prints a line with counts for each family of
//! inputs. At the first difference it prints that with the whole input, and ends with status 1.

mod child;
mod compare;
mod length;
mod season;
mod streams;
mod tapes;
mod values;

use std::env;
use std::process::ExitCode;

use child::Program;
use relief_inputs::{status, Difference};

/// Of a large family's inputs a quick comparison takes the first and every 13th after it: an
/// odd step, so that changed bytes take all 256 values.
const QUICK_STEP: usize = 13;

/// Compares every input of a program that comes with such a step.
type Comparison = fn(&Program, usize) -> Result<(), Difference>;

fn main() -> ExitCode {
    let arguments: Vec<String> = env::args().skip(1).collect();
    let arguments: Vec<&str> = arguments.iter().map(String::as_str).collect();
    match parse_arguments(&arguments) {
        Some((compare_all, path, step)) => status(compare_all(&Program::new(path), step)),
        None => {
            eprintln!("usage: program relief|season PATH quick|full");
            ExitCode::from(2)
        }
    }
}

fn parse_arguments<'a>(arguments: &[&'a str]) -> Option<(Comparison, &'a str, usize)> {
    let [name, path, extent] = *arguments else {
        return None;
    };
    let compare_all = match name {
        "relief" => compare_relief,
        "season" => season::compare_all,
        _ => return None,
    };
    let step = match extent {
        "quick" => QUICK_STEP,
        "full" => 1,
        _ => return None,
    };
    Some((compare_all, path, step))
}

/// Compares every `step`th tape of the large families, and all of the others.
fn compare_relief(program: &Program, step: usize) -> Result<(), Difference> {
    values::compare(program)?;
    tapes::compare(program, step)?;
    length::compare(program)?;
    streams::compare(program, "relief")
}
