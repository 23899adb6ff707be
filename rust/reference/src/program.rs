//! The cleaning program: from the bytes of its input to the text it prints.

use crate::calls::{Calls, Figures, DEFINITIONS};
use crate::refusal::{Fault, Refusal};
use crate::tape::{AfterEnd, Capacity, Contents};

/// The longest input in bytes.
pub const INPUT_LIMIT: usize = 65_536;
/// Values in the program's sample table.
pub const SAMPLE_TABLE: usize = 4_096;
/// Values in the program's flow table.
pub const FLOW_TABLE: usize = 8_064;
/// Values in the program's weight table, which is as long.
pub const WEIGHT_TABLE: usize = FLOW_TABLE;

/// The program's tables.
pub const TABLES: Capacity = Capacity {
    samples: SAMPLE_TABLE,
    weights: WEIGHT_TABLE,
    flow: FLOW_TABLE,
};

/// The text that the program prints for `input`.
pub fn clean(input: &[u8]) -> String {
    answer(input).unwrap_or_else(|refusal| format!("{refusal}\n"))
}

fn answer(input: &[u8]) -> Result<String, Refusal> {
    Fault::InputTooLong.unless(input.len() <= INPUT_LIMIT)?;
    let mut workspace = Workspace::new();
    workspace.job.read(input, AfterEnd::Nothing, TABLES)?;
    let figures = workspace.check_or_run(&DEFINITIONS)?;
    let width = workspace.job.terms.width as usize;
    Ok(report(&figures, &workspace.image, width))
}

/// A job that has been read, and what it is checked or run in.
pub(crate) struct Workspace {
    pub(crate) job: Contents,
    image: Vec<i32>,
    work: Vec<i32>,
}

impl Workspace {
    pub(crate) fn new() -> Workspace {
        Workspace {
            job: Contents::new(),
            image: Vec::new(),
            work: Vec::new(),
        }
    }

    /// Checks the job, if it has flow records, or else runs it.
    pub(crate) fn check_or_run(&mut self, calls: &Calls) -> Result<Figures, Refusal> {
        let Contents {
            terms,
            rounds,
            samples,
            weights,
            flow,
            ..
        } = &mut self.job;
        let image = &mut self.image;
        image.resize(samples.len(), 0);
        if !flow.is_empty() {
            return (calls.check)(terms, samples, weights, flow, image);
        }
        let pair_count = terms.validate()?.pair_count();
        flow.resize(pair_count, 0);
        self.work.resize(2 * pair_count, 0);
        let work = &mut self.work;
        (calls.run)(terms, rounds, samples, weights, flow, image, work)
    }
}

/// The text for an accepted job: heading, figures, and a line for each row.
fn report(figures: &Figures, image: &[i32], width: usize) -> String {
    let mut text = format!("outcome moved price floor slack\n{figures}\n");
    for row in image.chunks(width) {
        let values: Vec<String> = row.iter().map(i32::to_string).collect();
        text.push_str(&values.join(" "));
        text.push('\n');
    }
    text
}
