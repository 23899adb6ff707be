//! One tape of any size from standard input, its whole answer to standard output: the line of
//! figures, then the image and the flow as 32-bit numbers, lowest byte first; or the line of its
//! refusal.
//!
//! A job with a flow is checked, any other is run: by the optimized calls or, with the argument
//! `definitions`, by the definitions.

use std::env;
use std::io::{self, Read, Write};

use relief_reference::grid::PIXEL_LIMIT;
use relief_reference::{check, optimized, read, run, Figures, Refusal};

fn main() -> io::Result<()> {
    let words: Vec<String> = env::args().skip(1).collect();
    let by_definitions = match words.iter().map(String::as_str).collect::<Vec<_>>()[..] {
        [] => false,
        ["definitions"] => true,
        _ => return Err(io::Error::other("usage: answer-reference [definitions]")),
    };
    let mut tape = Vec::new();
    io::stdin().lock().read_to_end(&mut tape)?;
    let output = match answer(&tape, by_definitions) {
        Err(refusal) => format!("{refusal}\n").into_bytes(),
        Ok((figures, image, flow)) => {
            let mut output = format!("{figures}\n").into_bytes();
            for value in image.iter().chain(&flow) {
                output.extend(value.to_le_bytes());
            }
            output
        }
    };
    io::stdout().write_all(&output)
}

/// Figures, image and flow of a tape's job.
fn answer(tape: &[u8], by_definitions: bool) -> Result<(Figures, Vec<i32>, Vec<i32>), Refusal> {
    // Long enough for every size: a pixel is the first of two pairs at most.
    let pixels = PIXEL_LIMIT as usize;
    let mut samples = vec![0; pixels];
    let (mut weights, mut flow) = (vec![0; 2 * pixels], vec![0; 2 * pixels]);
    let job = read(tape, &mut samples, &mut weights, &mut flow)?;

    let grid = job.terms.validate()?;
    let pair_count = grid.pair_count();
    samples.truncate(grid.pixel_count());
    weights.truncate(if job.has_weights { pair_count } else { 0 });
    flow.truncate(pair_count);
    let mut image = vec![0; samples.len()];
    let figures = if job.has_flow {
        let check = if by_definitions {
            check
        } else {
            optimized::check
        };
        check(&job.terms, &samples, &weights, &flow, &mut image)?
    } else {
        let run = if by_definitions { run } else { optimized::run };
        let mut work = vec![0; 2 * pair_count];
        let (terms, rounds) = (&job.terms, &job.rounds);
        run(
            terms, rounds, &samples, &weights, &mut flow, &mut image, &mut work,
        )?
    };
    Ok((figures, image, flow))
}
