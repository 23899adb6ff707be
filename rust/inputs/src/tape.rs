//! Tapes of accepted jobs, whole and damaged.

use relief_reference::terms::{QUICK_LIMIT, WEIGHT_LIMIT};
use relief_reference::Refusal;

use crate::{Answer, Case, Random};

/// Where the records before the samples start, and the first sample.
const SIZE: usize = 0;
const WEIGHT_AND_BOX: usize = 5;
const ROUNDS: usize = 10;
const SAMPLES: usize = 15;

/// The bytes of a tape with so many samples, weights and flow numbers.
pub fn tape_length(samples: usize, weights: usize, flow: usize) -> usize {
    16 + 2 * samples + 3 * weights + 5 * flow
}

/// The tape of an accepted job, and the number of its pixels, pairs and weights.
#[derive(Clone, Debug)]
pub struct Tape {
    /// The tape.
    pub bytes: Vec<u8>,
    /// One sample record for each.
    pub pixels: usize,
    /// One flow record for each, or none at all.
    pub pairs: usize,
    /// Weight records: one for each pair, or none at all.
    pub weights: usize,
}

/// Tapes of at most 6 pixels, each with the generator that made it, to go on with.
pub fn small_tapes(count: u64) -> impl Iterator<Item = (Random, Tape)> {
    (1..=count).map(|seed| {
        let mut random = Random::new(seed << 32 | 0x7A9E);
        let tape = Tape::random(&mut random, 6);
        (random, tape)
    })
}

/// Every prefix, all of the bytes among them.
pub(crate) fn prefixes_of(bytes: Vec<u8>) -> impl Iterator<Item = Vec<u8>> {
    (0..=bytes.len()).map(move |length| bytes[..length].to_vec())
}

/// The bytes with each of them set to each value.
pub fn changes_of(bytes: Vec<u8>) -> impl Iterator<Item = Vec<u8>> {
    (0..256 * bytes.len()).map(move |change| {
        let mut changed = bytes.clone();
        changed[change / 256] = (change % 256) as u8;
        changed
    })
}

impl Tape {
    /// The tape of a job, where an empty flow is none.
    pub fn new(case: &Case, flow: &[i32]) -> Tape {
        Tape {
            bytes: case.tape(flow),
            pixels: case.samples.len(),
            pairs: case.grid().pair_count(),
            weights: case.weights.len(),
        }
    }

    /// The tape of a random job of at most so many pixels, with any rounds, with or without
    /// weights and a flow.
    pub fn random(random: &mut Random, pixels: u32) -> Tape {
        let (width, height) = random.size(pixels);
        let mut case = Case::sized(random, width, height);
        case.rounds = random.rounds();
        let flow = match random.below(3) {
            0 => Vec::new(),
            _ => case.flow(random),
        };
        Tape::new(&case, &flow)
    }

    /// The bytes of the tape with a change.
    pub fn changed(mut self, change: impl FnOnce(&mut Tape)) -> Vec<u8> {
        change(&mut self);
        self.bytes
    }

    /// Every prefix, the whole tape among them, with the answer that is due.
    pub fn prefixes(self) -> impl Iterator<Item = (Vec<u8>, Answer<()>)> {
        prefixes_of(self.bytes.clone()).map(move |bytes| {
            let answer = self.prefix_answer(bytes.len());
            (bytes, answer)
        })
    }

    /// The answer that is due to the first `length` bytes (request F-6): 18 at their end where the
    /// next record would begin there, else 13 where the record begins that they cut.
    pub fn prefix_answer(&self, length: usize) -> Answer<()> {
        if length == self.bytes.len() {
            return Ok(());
        }
        let mut starts = self.records().into_iter();
        let last = starts.rfind(|&start| start <= length);
        let place = last.expect("a record starts at offset 0");
        let number = if place == length { 18 } else { 13 };
        Err(Refusal {
            number,
            place: place as u64,
        })
    }

    /// The tape with each byte set to each value.
    pub fn changes(self) -> impl Iterator<Item = Vec<u8>> {
        changes_of(self.bytes)
    }

    /// The tape with records out of order, terms, weights or flow numbers beyond their limits,
    /// bytes behind its end, cut, or some bytes changed; or as it is, or bytes that are no tape at
    /// all.
    pub fn damaged(mut self, random: &mut Random) -> Vec<u8> {
        match random.below(14) {
            0 => (),
            1 | 2 => self.change_records(random),
            3..=5 => self.change_terms(random),
            6 => self.change_flow(random),
            7 => self.change_weights(random),
            8 => {
                let rest = random.below(9) + 1;
                self.bytes.extend(random.bytes(rest));
            }
            9 => {
                let length = random.below(60);
                self.bytes = (0..length).map(|_| kind_or_byte(random)).collect();
            }
            10 => self.cut(random),
            _ => {
                for _ in 0..random.pick(&[1, 1, 2, 3]) {
                    self.change_bytes(random);
                }
            }
        }
        self.bytes
    }

    /// Where each record starts.
    fn records(&self) -> Vec<usize> {
        let samples = (SAMPLES..self.weights_start()).step_by(2);
        let weights = (self.weights_start()..self.flow_start()).step_by(3);
        let flow = (self.flow_start()..self.end()).step_by(5);
        [SIZE, WEIGHT_AND_BOX, ROUNDS]
            .into_iter()
            .chain(samples)
            .chain(weights)
            .chain(flow)
            .chain([self.end()])
            .collect()
    }

    /// Where the first weight record starts, or what follows if there is none.
    fn weights_start(&self) -> usize {
        SAMPLES + 2 * self.pixels
    }

    /// Where the first flow record starts, or the end record if there is none.
    fn flow_start(&self) -> usize {
        self.weights_start() + 3 * self.weights
    }

    /// Where the end record starts.
    fn end(&self) -> usize {
        self.bytes.len() - 1
    }

    /// Cuts the tape anywhere or, in half of the cases, where a record starts.
    fn cut(&mut self, random: &mut Random) {
        let anywhere = random.below(self.bytes.len());
        let before_a_record = random.pick(&self.records());
        self.bytes
            .truncate(random.pick(&[anywhere, before_a_record]));
    }

    /// Leaves a record out, doubles it, or moves it to the end.
    fn change_records(&mut self, random: &mut Random) {
        let records = self.records();
        let record = random.below(records.len());
        let start = records[record];
        let next = records.get(record + 1).copied().unwrap_or(self.bytes.len());
        match random.below(3) {
            0 => drop(self.bytes.drain(start..next)),
            1 => {
                let doubled = self.bytes[start..next].to_vec();
                self.bytes.splice(start..start, doubled);
            }
            _ => self.bytes[start..].rotate_left(next - start),
        }
    }

    /// Sets a term beyond its limit, or the size to one of more pixels than the program takes.
    fn change_terms(&mut self, random: &mut Random) {
        match random.below(5) {
            0 => {
                let sizes = [(0, 1), (1, 0), (4_097, 1), (1, 4_097), (4_096, 257)];
                self.set_size(random.pick(&sizes));
            }
            1 => self.set_size(random.pick(&[(64, 65), (4_096, 256), (2, 2_049)])),
            2 => self.set_weight(random.above(WEIGHT_LIMIT, 65_535) as u16),
            3 => {
                let (low, high) = random.crossed_levels();
                self.set(WEIGHT_AND_BOX + 3, &[low, high]);
            }
            _ => {
                let quick = random.above(QUICK_LIMIT, 65_535) as u16;
                self.set(ROUNDS + 1, &quick.to_le_bytes());
            }
        }
    }

    /// Sets the weight of a pair just beyond the limit or far beyond it, if there is one.
    fn change_weights(&mut self, random: &mut Random) {
        if self.weights > 0 {
            let index = random.below(self.weights);
            self.set_pair_weight(index, random.above(WEIGHT_LIMIT, 65_535) as u16);
        }
    }

    /// Sets a flow number just beyond its weight or far beyond it, if there is one.
    fn change_flow(&mut self, random: &mut Random) {
        let count = (self.end() - self.flow_start()) / 5;
        if count > 0 {
            let index = random.below(count);
            let beyond = i32::from(self.weight_of(index)) + 1;
            let value = random.pick(&[beyond, -beyond, i32::MIN, i32::MAX]);
            self.set_flow(index, value);
        }
    }

    /// The weight of the pair of this index, its own or the terms'.
    fn weight_of(&self, index: usize) -> u16 {
        let record = match self.weights {
            0 => WEIGHT_AND_BOX,
            _ => self.weights_start() + 3 * index,
        };
        u16::from_le_bytes([self.bytes[record + 1], self.bytes[record + 2]])
    }

    /// Sets the width and the height.
    pub fn set_size(&mut self, (width, height): (u16, u16)) {
        self.set(SIZE + 1, &width.to_le_bytes());
        self.set(SIZE + 3, &height.to_le_bytes());
    }

    /// Sets the weight.
    pub fn set_weight(&mut self, weight: u16) {
        self.set(WEIGHT_AND_BOX + 1, &weight.to_le_bytes());
    }

    /// Sets the weight of the pair of this index.
    pub fn set_pair_weight(&mut self, index: usize, weight: u16) {
        self.set(self.weights_start() + 3 * index + 1, &weight.to_le_bytes());
    }

    /// Sets the flow number of this index.
    pub fn set_flow(&mut self, index: usize, value: i32) {
        self.set(self.flow_start() + 5 * index + 1, &value.to_le_bytes());
    }

    fn set(&mut self, place: usize, bytes: &[u8]) {
        self.bytes[place..place + bytes.len()].copy_from_slice(bytes);
    }

    /// Cuts the tape, or changes, adds or removes a byte, often before the samples.
    fn change_bytes(&mut self, random: &mut Random) {
        let length = self.bytes.len();
        let anywhere = random.below(length + 1);
        let early = random.below(length.min(SAMPLES) + 1);
        let place = random.pick(&[anywhere, early]);
        let byte = kind_or_byte(random);
        match random.below(8) {
            0 => self.bytes.truncate(place),
            1 => self.bytes.insert(place, byte),
            2 if place < length => drop(self.bytes.remove(place)),
            3 => self.bytes.push(byte),
            _ if place < length => self.bytes[place] = byte,
            _ => (),
        }
    }
}

/// A byte that is often a kind, or nearly one.
fn kind_or_byte(random: &mut Random) -> u8 {
    let kind = random.below(8) as u8;
    let byte = random.byte();
    random.pick(&[kind, byte])
}
