//! What the tests share: calls in lent buffers, and programs started on an input.

use std::io::Write;
use std::process::{Command, Stdio};

use relief_inputs::Case;
use relief_reference::tape::Capacity;
use relief_reference::{check, price, read, run, Figures, Job, Outcome, Problem, Refusal};

/// What an accepted check or run gives and leaves in its buffers.
#[derive(Debug, PartialEq, Eq)]
pub struct Answer {
    pub figures: Figures,
    pub flow: Vec<i32>,
    pub image: Vec<i32>,
    pub work: Vec<i32>,
}

/// The calls on a job, in buffers of sentinels, and the problem that it is.
pub trait Calls {
    fn problem(&self) -> Problem;
    /// The ends of the box in sub-units.
    fn ends(&self) -> (i64, i64);
    fn price(&self, image: &[i32]) -> Result<Figures, Refusal>;
    fn check(&self, flow: &[i32]) -> Result<Answer, Refusal>;
    fn run(&self) -> Result<Answer, Refusal>;
}

impl Calls for Case {
    fn problem(&self) -> Problem {
        Problem::new(self.grid(), &self.terms, &self.samples, &self.weights)
    }

    fn ends(&self) -> (i64, i64) {
        let bounds = self.terms.bounds();
        (i64::from(*bounds.start()), i64::from(*bounds.end()))
    }

    fn price(&self, image: &[i32]) -> Result<Figures, Refusal> {
        price(&self.terms, &self.samples, &self.weights, image)
    }

    fn check(&self, flow: &[i32]) -> Result<Answer, Refusal> {
        let mut image = sentinels(self.grid().pixel_count());
        let Case {
            terms,
            samples,
            weights,
            ..
        } = self;
        let figures = check(terms, samples, weights, flow, &mut image)?;
        Ok(Answer {
            figures,
            flow: flow.to_vec(),
            image,
            work: Vec::new(),
        })
    }

    fn run(&self) -> Result<Answer, Refusal> {
        let grid = self.grid();
        let mut flow = sentinels(grid.pair_count());
        let mut image = sentinels(grid.pixel_count());
        let mut work = sentinels(2 * grid.pair_count());
        let figures = run(
            &self.terms,
            &self.rounds,
            &self.samples,
            &self.weights,
            &mut flow,
            &mut image,
            &mut work,
        )?;
        Ok(Answer {
            figures,
            flow,
            image,
            work,
        })
    }
}

/// What a read of a tape gives, with buffers of the given lengths.
pub struct ReadBack {
    pub answer: Result<Job, Refusal>,
    pub samples: Vec<u8>,
    pub weights: Vec<i32>,
    pub flow: Vec<i32>,
}

/// The byte in every place of a sample buffer before a read.
pub const SAMPLE_SENTINEL: u8 = 0xA5;
/// The number in every place of the other buffers before a call.
pub const SENTINEL: i32 = i32::MIN;

/// A buffer of `length` sentinels.
pub fn sentinels(length: usize) -> Vec<i32> {
    vec![SENTINEL; length]
}

/// Reads `tape` into buffers for so many samples, and so many pairs in both others.
pub fn read_back(tape: &[u8], samples: usize, pairs: usize) -> ReadBack {
    let capacity = Capacity {
        samples,
        weights: pairs,
        flow: pairs,
    };
    read_back_within(tape, capacity)
}

/// Reads `tape` into buffers of sentinels, and sees to it that only the fronts are filled.
pub fn read_back_within(tape: &[u8], capacity: Capacity) -> ReadBack {
    let mut samples = vec![SAMPLE_SENTINEL; capacity.samples];
    let mut weights = sentinels(capacity.weights);
    let mut flow = sentinels(capacity.flow);
    let answer = read(tape, &mut samples, &mut weights, &mut flow);
    let (pixels, weighted, flowing) = match &answer {
        Ok(job) => {
            let grid = job.terms.validate().expect("read judges the terms");
            let all_if = |there| if there { grid.pair_count() } else { 0 };
            (
                grid.pixel_count(),
                all_if(job.has_weights),
                all_if(job.has_flow),
            )
        }
        Err(_) => (0, 0, 0),
    };
    ReadBack {
        answer,
        samples: front(samples, pixels, SAMPLE_SENTINEL),
        weights: front(weights, weighted, SENTINEL),
        flow: front(flow, flowing, SENTINEL),
    }
}

/// The first values of a buffer, behind which there are only sentinels.
fn front<T: PartialEq>(mut buffer: Vec<T>, length: usize, sentinel: T) -> Vec<T> {
    assert!(buffer[length..].iter().all(|value| *value == sentinel));
    buffer.truncate(length);
    buffer
}

pub fn refusal(number: u32, place: u64) -> Refusal {
    Refusal { number, place }
}

pub fn figures(outcome: Outcome, moved: u32, price: u64, floor: i64, slack: u64) -> Figures {
    Figures {
        outcome,
        moved,
        price,
        floor,
        slack,
    }
}

/// A flow or image on the whole division `k`.
pub fn multiplied(k: i64, values: &[i64]) -> Vec<i64> {
    values.iter().map(|value| k * value).collect()
}

/// The text that the program of this path prints for `input`.
pub fn printed(path: &str, input: &[u8]) -> String {
    String::from_utf8(written(path, &[], input)).unwrap()
}

/// What the program of this path, with these arguments, writes for `input`.
pub fn written(path: &str, arguments: &[&str], input: &[u8]) -> Vec<u8> {
    let mut program = Command::new(path)
        .args(arguments)
        .stdin(Stdio::piped())
        .stdout(Stdio::piped())
        .spawn()
        .unwrap();
    // Dropped after the write, so that the program sees the end of its input.
    let mut stdin = program.stdin.take().unwrap();
    stdin.write_all(input).unwrap();
    drop(stdin);
    let output = program.wait_with_output().unwrap();
    assert!(output.status.success());
    output.stdout
}
