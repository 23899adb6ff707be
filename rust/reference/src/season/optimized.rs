//! The season report again, optimized: from a stream, by the optimized calls, in buffers that are
//! used again for each job.

use std::io::{self, ErrorKind, Read};

use super::{read_job, Limits, Totals, LIMITS};
use crate::optimized::OPTIMIZED;
use crate::program::Workspace;
use crate::refusal::Refusal;
use crate::tape::Contents;

/// Bytes that there is room for at each read of the stream.
const CHUNK: usize = 65_536;

/// The text for all that `source` gives. It is read no further than the text needs, but for
/// what comes with the same chunk.
pub fn report(source: impl Read) -> io::Result<String> {
    report_within(&LIMITS, source)
}

/// The text with other limits.
pub fn report_within(limits: &Limits, source: impl Read) -> io::Result<String> {
    let mut totals = Totals::default();
    let ended = add_jobs(&mut totals, limits, &mut Input::new(limits, source))?;
    Ok(totals.text(ended))
}

/// Adds up the jobs of `input`, to its end, to the most jobs or to the first that is refused.
fn add_jobs(
    totals: &mut Totals,
    limits: &Limits,
    input: &mut Input<impl Read>,
) -> io::Result<Result<(), Refusal>> {
    let mut workspace = Workspace::new();
    while totals.jobs < limits.jobs && input.has_next_job()? {
        let read = input.read_job(limits, &mut workspace.job)?;
        let answer = read.and_then(|()| workspace.check_or_run(&OPTIMIZED));
        match answer {
            Ok(figures) => totals.add(workspace.job.samples.len(), &figures),
            Err(refusal) => return Ok(Err(refusal)),
        }
    }
    Ok(Ok(()))
}

/// A stream, and what has come from it for the next job.
struct Input<R> {
    source: R,
    /// The buffered bytes are those from `start` to `end`.
    buffer: Vec<u8>,
    start: usize,
    end: usize,
    /// Whether the stream has ended.
    ended: bool,
}

impl<R: Read> Input<R> {
    fn new(limits: &Limits, source: R) -> Input<R> {
        Input {
            source,
            buffer: vec![0; limits.job_bytes + CHUNK],
            start: 0,
            end: 0,
            ended: false,
        }
    }

    fn buffered(&self) -> &[u8] {
        &self.buffer[self.start..self.end]
    }

    /// Whether there is a byte of another job.
    fn has_next_job(&mut self) -> io::Result<bool> {
        if self.buffered().is_empty() && !self.ended {
            self.read_chunk()?;
        }
        Ok(!self.buffered().is_empty())
    }

    /// Takes the next job. Reading goes on where it ended whenever more has come.
    fn read_job(&mut self, limits: &Limits, job: &mut Contents) -> io::Result<Result<(), Refusal>> {
        job.clear();
        loop {
            match read_job(limits, self.buffered(), job) {
                Ok(length) => {
                    self.start += length;
                    return Ok(Ok(()));
                }
                Err(refusal) if refusal.is_unexpected_end() && !self.ended => self.read_chunk()?,
                Err(refusal) => return Ok(Err(refusal)),
            }
        }
    }

    /// Reads what has come, or waits for more. At most a job's first bytes are buffered then, so
    /// that there is room for a chunk.
    fn read_chunk(&mut self) -> io::Result<()> {
        if self.buffer.len() - self.end < CHUNK {
            self.buffer.copy_within(self.start..self.end, 0);
            self.end -= self.start;
            self.start = 0;
        }
        let count = loop {
            match self.source.read(&mut self.buffer[self.end..]) {
                Err(error) if error.kind() == ErrorKind::Interrupted => (),
                read => break read?,
            }
        };
        self.end += count;
        self.ended = count == 0;
        Ok(())
    }
}
