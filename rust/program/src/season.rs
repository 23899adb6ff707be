//! The season report, on seasons of every kind.

mod jobs;
mod lengths;
mod pipes;
mod values;

use relief_inputs::{compare_family, Answer, Counts, Difference};
use relief_reference::season::report;

use crate::child::{Input, Program};
use crate::compare::{compare_text, refusal};
use crate::streams;

/// Compares every `step`th season of the large families, and all of the others.
pub fn compare_all(program: &Program, step: usize) -> Result<(), Difference> {
    values::compare(program)?;
    jobs::compare(program, step)?;
    lengths::compare(program, step)?;
    pipes::compare(program)?;
    streams::compare(program, "season")
}

fn family(
    program: &Program,
    title: &str,
    inputs: impl IntoIterator<Item = impl Into<Input>>,
) -> Result<Counts, Difference> {
    compare_family(title, inputs.into_iter().map(Into::into), |input| {
        compare(program, input)
    })
}

/// Starts the program on the season and gives the answer, if it prints the reference's text and
/// nothing else.
fn compare(program: &Program, input: &Input) -> Result<Answer<String>, Difference> {
    let expected = report(&input.bytes);
    compare_text(program, input, &expected)?;
    Ok(answer(&expected))
}

/// The refusal that a text of the season report tells, or the outcomes of its jobs.
fn answer(text: &str) -> Answer<String> {
    let lines: Vec<Vec<&str>> = text.lines().map(|line| line.split(' ').collect()).collect();
    if let Some(["job", _, "refused", number, "at", place]) = lines.get(8).map(Vec::as_slice) {
        return Err(refusal(number, place));
    }
    let outcomes: Vec<&str> = lines[2..5]
        .iter()
        .filter(|line| line[1] != "0")
        .map(|line| line[0])
        .collect();
    Ok(match outcomes[..] {
        [] => "no jobs".to_string(),
        _ => outcomes.join(" and "),
    })
}
