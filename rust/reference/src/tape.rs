//! The job tape: its records, and the calls read and write.

use crate::refusal::{Fault, Refusal};
use crate::terms::{is_pair_weight, validate_pair_weights, Rounds, Terms};

const END: u8 = 0;
const SIZE: u8 = 1;
const WEIGHT_AND_BOX: u8 = 2;
const ROUNDS: u8 = 3;
const SAMPLE: u8 = 4;
const FLOW: u8 = 5;
const PAIR_WEIGHT: u8 = 6;

/// A record: its kind with its numbers.
#[derive(Clone, Copy, Debug, PartialEq, Eq)]
enum Record {
    End,
    Size { width: u16, height: u16 },
    WeightAndBox { weight: u16, low: u8, high: u8 },
    Rounds { quick: u16, allowance: u16 },
    Sample(u8),
    Flow(i32),
    PairWeight(u16),
}

impl Record {
    fn append_to(self, tape: &mut Vec<u8>) {
        match self {
            Record::End => tape.push(END),
            Record::Size { width, height } => {
                tape.push(SIZE);
                tape.extend(width.to_le_bytes());
                tape.extend(height.to_le_bytes());
            }
            Record::WeightAndBox { weight, low, high } => {
                tape.push(WEIGHT_AND_BOX);
                tape.extend(weight.to_le_bytes());
                tape.extend([low, high]);
            }
            Record::Rounds { quick, allowance } => {
                tape.push(ROUNDS);
                tape.extend(quick.to_le_bytes());
                tape.extend(allowance.to_le_bytes());
            }
            Record::Sample(sample) => tape.extend([SAMPLE, sample]),
            Record::Flow(value) => {
                tape.push(FLOW);
                tape.extend(value.to_le_bytes());
            }
            Record::PairWeight(weight) => {
                tape.push(PAIR_WEIGHT);
                tape.extend(weight.to_le_bytes());
            }
        }
    }
}

/// What may come next on a tape.
#[derive(Clone, Copy, Debug, PartialEq, Eq)]
enum Expected {
    Size,
    WeightAndBox,
    Rounds,
    Sample,
    PairWeightFlowOrEnd,
    PairWeight,
    FlowOrEnd,
    Flow,
    End,
}

/// What the kind byte fixes of a record.
struct Layout {
    /// Where the record may stand.
    allowed: &'static [Expected],
    body_length: usize,
}

fn layout(kind: u8) -> Option<Layout> {
    let (allowed, body_length): (&[Expected], usize) = match kind {
        END => (
            &[
                Expected::PairWeightFlowOrEnd,
                Expected::FlowOrEnd,
                Expected::End,
            ],
            0,
        ),
        SIZE => (&[Expected::Size], 4),
        WEIGHT_AND_BOX => (&[Expected::WeightAndBox], 4),
        ROUNDS => (&[Expected::Rounds], 4),
        SAMPLE => (&[Expected::Sample], 1),
        FLOW => (
            &[
                Expected::PairWeightFlowOrEnd,
                Expected::FlowOrEnd,
                Expected::Flow,
            ],
            4,
        ),
        PAIR_WEIGHT => (&[Expected::PairWeightFlowOrEnd, Expected::PairWeight], 2),
        _ => return None,
    };
    Some(Layout {
        allowed,
        body_length,
    })
}

/// The record of a kind and its body, if that has the length of the layout.
fn decode(kind: u8, body: &[u8]) -> Option<Record> {
    Some(match (kind, body) {
        (END, &[]) => Record::End,
        (SIZE, &[a, b, c, d]) => Record::Size {
            width: u16::from_le_bytes([a, b]),
            height: u16::from_le_bytes([c, d]),
        },
        (WEIGHT_AND_BOX, &[a, b, low, high]) => Record::WeightAndBox {
            weight: u16::from_le_bytes([a, b]),
            low,
            high,
        },
        (ROUNDS, &[a, b, c, d]) => Record::Rounds {
            quick: u16::from_le_bytes([a, b]),
            allowance: u16::from_le_bytes([c, d]),
        },
        (SAMPLE, &[sample]) => Record::Sample(sample),
        (FLOW, &[a, b, c, d]) => Record::Flow(i32::from_le_bytes([a, b, c, d])),
        (PAIR_WEIGHT, &[a, b]) => Record::PairWeight(u16::from_le_bytes([a, b])),
        _ => return None,
    })
}

/// The record at `offset` and the offset after it, or refusal 18, 12, 14 or 13.
fn record_at(tape: &[u8], offset: usize, expected: Expected) -> Result<(Record, usize), Refusal> {
    let kind = *tape
        .get(offset)
        .ok_or(Fault::TapeUnfinished.at(tape.len()))?;
    let layout = layout(kind).ok_or(Fault::UnknownKind.at(offset))?;
    if !layout.allowed.contains(&expected) {
        return Err(Fault::KindNotAllowed.at(offset));
    }
    let body_start = offset + 1;
    let next = body_start + layout.body_length;
    let body = tape
        .get(body_start..next)
        .ok_or(Fault::TapeCut.at(offset))?;
    let record = decode(kind, body).expect("the body has this length");
    Ok((record, next))
}

/// What may stand behind a job's end record.
#[derive(Clone, Copy, Debug, PartialEq, Eq)]
pub(crate) enum AfterEnd {
    /// Not a byte: the tape has one job.
    Nothing,
    /// Anything: another job may begin there.
    Anything,
}

/// The lengths of the buffers that a job is read for.
#[derive(Clone, Copy, Debug, PartialEq, Eq)]
pub struct Capacity {
    /// Values in the sample buffer.
    pub samples: usize,
    /// Values in the weight buffer.
    pub weights: usize,
    /// Values in the flow buffer.
    pub flow: usize,
}

/// What the records of one job say, as far as they have been read.
pub(crate) struct Contents {
    pub(crate) terms: Terms,
    pub(crate) rounds: Rounds,
    pub(crate) samples: Vec<u8>,
    pub(crate) weights: Vec<i32>,
    pub(crate) flow: Vec<i32>,
    pixel_count: usize,
    pair_count: usize,
    /// The offset of the next record.
    offset: usize,
    expected: Expected,
}

impl Contents {
    /// Nothing has been read.
    pub(crate) fn new() -> Contents {
        Contents {
            terms: Terms::default(),
            rounds: Rounds::default(),
            samples: Vec::new(),
            weights: Vec::new(),
            flow: Vec::new(),
            pixel_count: 0,
            pair_count: 0,
            offset: 0,
            expected: Expected::Size,
        }
    }

    /// Nothing has been read, in the buffers that are there.
    pub(crate) fn clear(&mut self) {
        self.samples.clear();
        self.weights.clear();
        self.flow.clear();
        (self.offset, self.expected) = (0, Expected::Size);
    }

    /// Reads the job at the front of `tape` and gives the number of its bytes.
    ///
    /// After refusal 13 or 18 it goes on with a tape that begins with this one, if it is called
    /// again.
    pub(crate) fn read(
        &mut self,
        tape: &[u8],
        after_end: AfterEnd,
        capacity: Capacity,
    ) -> Result<usize, Refusal> {
        let end = loop {
            let (record, next) = record_at(tape, self.offset, self.expected)?;
            match self.take(record, capacity)? {
                Some(expected) => (self.offset, self.expected) = (next, expected),
                None => break next,
            }
        };
        if after_end == AfterEnd::Nothing {
            Fault::ByteAfterEnd.if_found_at((end < tape.len()).then_some(end))?;
        }
        self.terms.validate_flow(&self.weights, &self.flow)?;
        Ok(end)
    }

    /// Takes the record that was due, and gives what is due then: nothing after the end. Flow
    /// numbers are not judged yet.
    fn take(&mut self, record: Record, capacity: Capacity) -> Result<Option<Expected>, Refusal> {
        let offset = self.offset;
        let at_record = |fault: Fault| fault.at(offset);
        Ok(Some(match record {
            Record::Size { width, height } => {
                (self.terms.width, self.terms.height) = (width.into(), height.into());
                let grid = self.terms.validate_size().map_err(at_record)?;
                (self.pixel_count, self.pair_count) = (grid.pixel_count(), grid.pair_count());
                let holds = capacity.samples >= self.pixel_count
                    && capacity.weights.min(capacity.flow) >= self.pair_count;
                Fault::BufferTooShort.unless(holds)?;
                Expected::WeightAndBox
            }
            Record::WeightAndBox { weight, low, high } => {
                let terms = &mut self.terms;
                (terms.weight, terms.low, terms.high) = (weight.into(), low, high);
                terms.validate_weight_and_box().map_err(at_record)?;
                Expected::Rounds
            }
            Record::Rounds { quick, allowance } => {
                (self.rounds.quick, self.rounds.allowance) = (quick.into(), allowance);
                self.rounds.validate().map_err(at_record)?;
                Expected::Sample
            }
            Record::Sample(sample) => {
                self.samples.push(sample);
                if self.samples.len() < self.pixel_count {
                    Expected::Sample
                } else if self.pair_count > 0 {
                    Expected::PairWeightFlowOrEnd
                } else {
                    Expected::End
                }
            }
            Record::PairWeight(weight) => {
                let weight = i32::from(weight);
                Fault::Weight
                    .unless(is_pair_weight(weight))
                    .map_err(at_record)?;
                self.weights.push(weight);
                if self.weights.len() < self.pair_count {
                    Expected::PairWeight
                } else {
                    Expected::FlowOrEnd
                }
            }
            Record::Flow(value) => {
                self.flow.push(value);
                if self.flow.len() < self.pair_count {
                    Expected::Flow
                } else {
                    Expected::End
                }
            }
            Record::End => return Ok(None),
        }))
    }
}

/// What a tape says beside its samples, weights and flow.
#[derive(Clone, Copy, Debug, PartialEq, Eq)]
pub struct Job {
    /// Size, weight and box.
    pub terms: Terms,
    /// Quick rounds and steady allowance.
    pub rounds: Rounds,
    /// Whether the tape has weight records.
    pub has_weights: bool,
    /// Whether the tape has flow records.
    pub has_flow: bool,
}

/// Reads a tape of one job, its samples, weights and flow into the front of the buffers.
///
/// Without weight records the weight buffer is untouched, without flow records the flow buffer.
pub fn read(
    tape: &[u8],
    samples: &mut [u8],
    weights: &mut [i32],
    flow: &mut [i32],
) -> Result<Job, Refusal> {
    let capacity = Capacity {
        samples: samples.len(),
        weights: weights.len(),
        flow: flow.len(),
    };
    let mut contents = Contents::new();
    contents.read(tape, AfterEnd::Nothing, capacity)?;

    fill_front(samples, &contents.samples);
    fill_front(weights, &contents.weights);
    fill_front(flow, &contents.flow);
    Ok(Job {
        terms: contents.terms,
        rounds: contents.rounds,
        has_weights: !contents.weights.is_empty(),
        has_flow: !contents.flow.is_empty(),
    })
}

/// Writes a job's tape into the front of `output` and gives its byte count.
///
/// Weights or a flow of length 0 are none.
pub fn write(
    terms: &Terms,
    rounds: &Rounds,
    samples: &[u8],
    weights: &[i32],
    flow: &[i32],
    output: &mut [u8],
) -> Result<usize, Refusal> {
    let grid = terms.validate()?;
    rounds.validate()?;
    Fault::SamplesLength.unless(samples.len() == grid.pixel_count())?;
    Fault::FlowLength.unless(grid.holds_none_or_all_pairs(flow.len()))?;
    Fault::WeightsLength.unless(grid.holds_none_or_all_pairs(weights.len()))?;
    let tape = tape_of(terms, rounds, samples, weights, flow);
    Fault::BufferTooShort.unless(tape.len() <= output.len())?;
    validate_pair_weights(weights)?;
    terms.validate_flow(weights, flow)?;

    fill_front(output, &tape);
    Ok(tape.len())
}

/// The tape of a job within the limits, which two bytes a number can hold. Pair weights need not
/// be judged yet: the tape has as many bytes with others.
fn tape_of(
    terms: &Terms,
    rounds: &Rounds,
    samples: &[u8],
    weights: &[i32],
    flow: &[i32],
) -> Vec<u8> {
    let header = [
        Record::Size {
            width: terms.width as u16,
            height: terms.height as u16,
        },
        Record::WeightAndBox {
            weight: terms.weight as u16,
            low: terms.low,
            high: terms.high,
        },
        Record::Rounds {
            quick: rounds.quick as u16,
            allowance: rounds.allowance,
        },
    ];
    let records = header
        .into_iter()
        .chain(samples.iter().copied().map(Record::Sample))
        .chain(
            weights
                .iter()
                .map(|&weight| Record::PairWeight(weight as u16)),
        )
        .chain(flow.iter().copied().map(Record::Flow))
        .chain([Record::End]);
    let mut tape = Vec::new();
    for record in records {
        record.append_to(&mut tape);
    }
    tape
}

fn fill_front<T: Copy>(buffer: &mut [T], values: &[T]) {
    buffer[..values.len()].copy_from_slice(values);
}
