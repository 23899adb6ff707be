//! One input: what the program prints for it, beside the reference's text.

use std::process::Output;

use relief_inputs::{compare_family, Answer, Counts, Difference};
use relief_reference::program::clean;
use relief_reference::Refusal;

use crate::child::{run, Input, Program};

/// The most bytes of an input that a report shows.
const MAX_SHOWN: usize = 100_000;

/// Starts the cleaning program on the tape and gives the answer, if it prints the reference's
/// text and nothing else.
pub fn compare(program: &Program, input: &Input) -> Result<Answer<String>, Difference> {
    let expected = clean(&input.bytes);
    compare_text(program, input, &expected)?;
    Ok(answer(&expected))
}

/// Starts the program on the input. It must print this text and nothing else.
pub fn compare_text(program: &Program, input: &Input, expected: &str) -> Result<(), Difference> {
    let differs = match run(&mut program.command(), input) {
        Err(failure) => Some(failure),
        Ok(output) => difference(&output, expected.as_bytes()),
    };
    match differs {
        Some(differs) => Err(report(&differs, input)),
        None => Ok(()),
    }
}

/// Compares inputs that come with the answer that is due, and sees to it that both give that.
pub fn compare_expected(
    title: &str,
    inputs: impl IntoIterator<Item = (Vec<u8>, Answer<()>)>,
    compare: impl Fn(&Input) -> Result<Answer<String>, Difference>,
) -> Result<Counts, Difference> {
    compare_family(title, inputs, |(bytes, due)| {
        let input = bytes.clone().into();
        let answer = compare(&input)?;
        if answer.as_ref().map(drop) == due.as_ref().copied() {
            return Ok(answer);
        }
        let differs = format!("both answer {answer:?}, and {due:?} is due");
        Err(report(&differs, &input))
    })
}

/// What differs, with the whole input, unless it is very long.
pub fn report(differs: &str, input: &Input) -> Difference {
    let length = input.bytes.len();
    let mut hex: String = input
        .bytes
        .iter()
        .take(MAX_SHOWN)
        .map(|byte| format!("{byte:02x}"))
        .collect();
    if length > MAX_SHOWN {
        hex.push_str("...");
    }
    let mut written = String::new();
    if input.times > 1 {
        written.push_str(&format!(", {} times", input.times));
    }
    if input.piece < length {
        let (piece, pause) = (input.piece, input.pause);
        written.push_str(&format!(", in pieces of {piece} with pauses of {pause:?}"));
    }
    if input.stays_open {
        written.push_str(", by a pipe that stays open");
    }
    Difference(format!(
        "program DIFFERS: {differs}\ninput of {length} bytes{written}: {hex}"
    ))
}

fn difference(output: &Output, expected: &[u8]) -> Option<String> {
    if output.stdout != expected {
        return Some(first_line(&output.stdout, expected));
    }
    if !output.stderr.is_empty() {
        let text = output.stderr.escape_ascii();
        return Some(format!("standard error has \"{text}\""));
    }
    if !output.status.success() {
        return Some(format!("it ended with {}", output.status));
    }
    None
}

/// The first line in which two different texts differ.
fn first_line(printed: &[u8], expected: &[u8]) -> String {
    let [mut printed, mut expected] =
        [printed, expected].map(|text| text.split_inclusive(|&byte| byte == b'\n'));
    let mut number = 1;
    loop {
        let (line, due) = (printed.next(), expected.next());
        if line != due {
            let [line, due] = [line, due].map(|line| line.unwrap_or_default().escape_ascii());
            return format!("line {number} is \"{line}\", not \"{due}\"");
        }
        number += 1;
    }
}

/// The refusal that a text of the cleaning program tells, or its outcome with what is special
/// in it.
fn answer(text: &str) -> Answer<String> {
    let words: Vec<&str> = text.split_whitespace().take(10).collect();
    match words[..] {
        ["refused", number, "at", place] => Err(refusal(number, place)),
        [_, _, _, _, _, outcome, _, _, floor, slack] => Ok(match (floor, slack) {
            (floor, _) if floor.starts_with('-') => format!("{outcome} with floor below 0"),
            (_, "0") => format!("{outcome} with slack 0"),
            _ => outcome.to_string(),
        }),
        _ => panic!("the reference prints {text:?}"),
    }
}

/// The refusal that two printed words tell.
pub fn refusal(number: &str, place: &str) -> Refusal {
    Refusal {
        number: number.parse().expect("a number"),
        place: place.parse().expect("a place"),
    }
}
