//! The season report of document 02's request F-2: from tapes that follow one another to the
//! text that the second program prints.

use crate::calls::{Figures, DEFINITIONS};
use crate::program::{Workspace, INPUT_LIMIT, TABLES};
use crate::refusal::{Fault, Refusal};
use crate::rounds::Outcome;
use crate::tape::{AfterEnd, Capacity, Contents};

pub mod optimized;

/// What bounds a season.
#[derive(Clone, Copy, Debug, PartialEq, Eq)]
pub struct Limits {
    /// The most jobs. What follows them is not read.
    pub jobs: u64,
    /// The first bytes of a job, in which a fault or its end must lie if there are more.
    pub job_bytes: usize,
    /// The program's tables.
    pub tables: Capacity,
}

/// The limits of document 02.
pub const LIMITS: Limits = Limits {
    jobs: 65_535,
    job_bytes: INPUT_LIMIT,
    tables: TABLES,
};

/// The text that the program prints for `input`.
pub fn report(input: &[u8]) -> String {
    report_within(&LIMITS, input)
}

/// The text for `input` with other limits.
pub fn report_within(limits: &Limits, input: &[u8]) -> String {
    let mut totals = Totals::default();
    let ended = add_jobs(&mut totals, limits, input);
    totals.text(ended)
}

/// Adds up the jobs of `input`, to its end, to the most jobs or to the first that is refused.
fn add_jobs(totals: &mut Totals, limits: &Limits, input: &[u8]) -> Result<(), Refusal> {
    let mut workspace = Workspace::new();
    let mut rest = input;
    while !rest.is_empty() && totals.jobs < limits.jobs {
        workspace.job.clear();
        let length = read_job(limits, rest, &mut workspace.job)?;
        let figures = workspace.check_or_run(&DEFINITIONS)?;
        totals.add(workspace.job.samples.len(), &figures);
        rest = &rest[length..];
    }
    Ok(())
}

/// Reads the job at the front of `rest`, the bytes that are left of the input, and gives the
/// number of its own. Only its first bytes are read.
fn read_job(limits: &Limits, rest: &[u8], job: &mut Contents) -> Result<usize, Refusal> {
    let front = &rest[..rest.len().min(limits.job_bytes)];
    match job.read(front, AfterEnd::Anything, limits.tables) {
        // They hold neither a fault nor the end, and the input goes on behind them.
        Err(refusal) if refusal.is_unexpected_end() && front.len() < rest.len() => {
            Err(Fault::InputTooLong.into())
        }
        answer => answer,
    }
}

/// The totals of the jobs so far.
#[derive(Default)]
struct Totals {
    jobs: u64,
    pixels: u128,
    settled: u64,
    spent: u64,
    checked: u64,
    /// The sum of the duality gaps (document 01: slack).
    total: u128,
    largest: Option<Largest>,
}

/// The largest duality gap.
struct Largest {
    slack: u64,
    /// The first job that has it, counted from 1.
    job: u64,
}

impl Totals {
    /// Adds an accepted job.
    fn add(&mut self, pixels: usize, figures: &Figures) {
        self.jobs += 1;
        self.pixels += pixels as u128;
        *match figures.outcome {
            Outcome::Settled => &mut self.settled,
            Outcome::Spent => &mut self.spent,
            Outcome::Checked => &mut self.checked,
        } += 1;
        let slack = figures.slack;
        self.total += u128::from(slack);
        let so_far = self.largest.as_ref().map(|largest| largest.slack);
        if so_far.is_none_or(|so_far| slack > so_far) {
            let job = self.jobs;
            self.largest = Some(Largest { slack, job });
        }
    }

    /// The text: a line for each total, and one more for a job that was refused.
    fn text(&self, ended: Result<(), Refusal>) -> String {
        let Totals {
            jobs,
            pixels,
            settled,
            spent,
            checked,
            total,
            ..
        } = self;
        let (largest, first) = match self.largest {
            Some(Largest { slack, job }) => (slack, job),
            None => (0, 0),
        };
        let (mean, remainder) = match pixels {
            0 => (0, 0),
            _ => (total / pixels, total % pixels),
        };
        let mut text = format!(
            "jobs {jobs}\n\
             pixels {pixels}\n\
             settled {settled}\n\
             spent {spent}\n\
             checked {checked}\n\
             total {total}\n\
             largest {largest} {first}\n\
             mean {mean} {remainder}\n"
        );
        if let Err(refusal) = ended {
            let refused = jobs + 1;
            text.push_str(&format!("job {refused} {refusal}\n"));
        }
        text
    }
}
