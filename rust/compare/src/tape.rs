//! Read and write.

use relief_inputs::{
    jointed, mutated_reads, record_orders, small_tapes, tape_length, Answer, Difference, Random,
    Tape, TapeInput,
};
use relief_reference::{Job, Refusal, Terms};

use crate::convert::{job, refusal, rounds, terms};
use crate::family::{first_difference, Call, Input};
use crate::job::{limits, two_mutations, JobInput, LARGEST};

impl Input for TapeInput {
    fn difference(&self, other: &TapeInput) -> Option<String> {
        first_difference("tape", &self.tape, &other.tape)
            .or_else(|| first_difference("samples", &self.samples, &other.samples))
            .or_else(|| first_difference("weights", &self.weights, &other.weights))
            .or_else(|| first_difference("flow", &self.flow, &other.flow))
    }
}

const READ: Call<TapeInput, Job> = Call {
    name: "read",
    library: |input| {
        read(
            &input.tape,
            &mut input.samples,
            &mut input.weights,
            &mut input.flow,
        )
    },
    reference: TapeInput::read,
    label: label_of,
};

const WRITE: Call<JobInput, usize> = Call {
    name: "write",
    library: write,
    reference: write_by_reference,
    label: |_| "written".to_string(),
};

/// The library writes a tape and reads it again, which gives the job.
const WRITE_AND_READ: Call<JobInput, Job> = Call {
    name: "write and read",
    library: |input| {
        let length = write(input)?;
        let mut samples = vec![0; input.samples.len()];
        let mut weights = vec![0; pair_count(&input.terms)];
        let mut flow = weights.clone();
        let tape = &input.output[..length];
        let job = read(tape, &mut samples, &mut weights, &mut flow)?;
        input.samples = samples;
        if job.has_weights {
            input.weights = weights;
        }
        if job.has_flow {
            input.flow = flow;
        }
        Ok(job)
    },
    reference: |input| {
        write_by_reference(input)?;
        Ok(Job {
            terms: input.terms,
            rounds: input.rounds,
            has_weights: !input.weights.is_empty(),
            has_flow: !input.flow.is_empty(),
        })
    },
    label: label_of,
};

fn read(tape: &[u8], samples: &mut [u8], weights: &mut [i32], flow: &mut [i32]) -> Answer<Job> {
    relief::read(tape, samples, weights, flow)
        .map(job)
        .map_err(refusal)
}

fn write(input: &mut JobInput) -> Answer<usize> {
    relief::write(
        &terms(&input.terms),
        &rounds(&input.rounds),
        &input.samples,
        &input.weights,
        &input.flow,
        &mut input.output,
    )
    .map_err(refusal)
}

fn write_by_reference(input: &mut JobInput) -> Answer<usize> {
    relief_reference::write(
        &input.terms,
        &input.rounds,
        &input.samples,
        &input.weights,
        &input.flow,
        &mut input.output,
    )
}

fn label_of(job: &Job) -> String {
    match (job.has_weights, job.has_flow) {
        (false, false) => "samples alone",
        (false, true) => "with flow",
        (true, false) => "with weights",
        (true, true) => "with weights and flow",
    }
    .to_string()
}

fn pair_count(terms: &Terms) -> usize {
    terms.validate().expect("accepted terms").pair_count()
}

/// Compares reads of cut, faulty, changed, damaged and random tapes, then writes.
pub fn compare(step: usize) -> Result<(), Difference> {
    WRITE.compare_values("the documents' limits", &[1, 2, 19], limits())?;
    WRITE_AND_READ.compare_values("the documents' limits", &[1, 2, 19], limits())?;
    READ.compare_values("no bytes", &[18], [no_bytes()].into_iter())?;
    READ.compare_values("every prefix", &[13, 18], prefixes())?;
    READ.compare_values("every order of records", &[14, 15, 18], orders())?;
    let numbers = [1, 2, 3, 8, 10, 12, 13, 14, 15, 16, 18];
    READ.compare_values("two faults", &numbers, mutations())?;
    READ.compare_family("every changed byte", &[], changes(step))?;
    READ.compare_family("damaged and random tapes", &numbers, damages(step))?;
    let numbers = [1, 2, 3, 4, 5, 8, 10, 16, 19];
    WRITE.compare_family("two faults", &numbers, two_mutations(writable))?;
    WRITE.compare_family("1 to 40 pixels", &numbers, jobs(step))?;
    WRITE_AND_READ.compare_family("1 to 40 pixels", &numbers, jobs(step))?;
    WRITE_AND_READ.compare_family("1,048,576 pixels", &[], large_jobs(step))
}

/// The empty tape, with document 02's answer.
fn no_bytes() -> (TapeInput, Answer<()>) {
    let input = TapeInput {
        tape: Vec::new(),
        samples: vec![255; 2],
        weights: vec![-1],
        flow: vec![-1],
    };
    let refusal = Refusal {
        number: 18,
        place: 0,
    };
    (input, Err(refusal))
}

/// The tapes of the job with a joint, without a flow and with one, then so many small tapes.
fn tapes(count: u64) -> impl Iterator<Item = (Random, Tape)> {
    let weighted = [&[][..], &[0, -512]].map(|flow| {
        let random = Random::new(0x701A7);
        (random, Tape::new(&jointed(), flow))
    });
    weighted.into_iter().chain(small_tapes(count))
}

/// Every prefix of tapes, the whole ones among them, with the answer that is due.
fn prefixes() -> impl Iterator<Item = (TapeInput, Answer<()>)> {
    tapes(40).flat_map(|(mut random, tape)| {
        let prefixes = tape.clone().prefixes();
        prefixes.map(move |(bytes, answer)| (input_for(&mut random, &tape, bytes), answer))
    })
}

/// Tapes with records behind the samples in every order, with the answer that is due.
fn orders() -> impl Iterator<Item = (TapeInput, Answer<()>)> {
    let mut random = Random::new(0x02DE2);
    record_orders(5)
        .map(move |(tape, answer)| (with_random_buffers(&mut random, tape, [3, 2, 2]), answer))
}

/// A tape with each mutation alone and with each two of them, with the answer that is due.
fn mutations() -> impl Iterator<Item = (TapeInput, Answer<()>)> {
    let mut random = Random::new(0x2FA18);
    mutated_reads().into_iter().map(move |(input, answer)| {
        let lengths = [input.samples.len(), input.weights.len(), input.flow.len()];
        (
            with_random_buffers(&mut random, input.tape, lengths),
            answer,
        )
    })
}

/// Tapes with each byte changed to each other.
fn changes(step: usize) -> impl Iterator<Item = TapeInput> {
    let all = tapes(16).flat_map(|(mut random, tape)| {
        let changes = tape.clone().changes();
        changes.map(move |bytes| input_for(&mut random, &tape, bytes))
    });
    all.step_by(step)
}

/// `bytes` with buffers of any contents that hold the job of `tape`, or somewhat more.
fn input_for(random: &mut Random, tape: &Tape, bytes: Vec<u8>) -> TapeInput {
    let lengths = [tape.pixels, tape.pairs, tape.pairs].map(|needed| needed + random.below(3));
    with_random_buffers(random, bytes, lengths)
}

/// A tape with buffers of these lengths and any contents: samples, weights and flow.
fn with_random_buffers(random: &mut Random, tape: Vec<u8>, lengths: [usize; 3]) -> TapeInput {
    let [samples, weights, flow] = lengths;
    TapeInput {
        tape,
        samples: random.bytes(samples),
        weights: random.numbers(weights),
        flow: random.numbers(flow),
    }
}

fn damages(step: usize) -> impl Iterator<Item = TapeInput> {
    let mut random = Random::new(0xDA3A6E);
    (0..200_000).step_by(step).map(move |_| {
        let tape = Tape::random(&mut random, 40);
        let lengths =
            [tape.pixels, tape.pairs, tape.pairs].map(|needed| vary_length(&mut random, needed));
        let bytes = tape.damaged(&mut random);
        with_random_buffers(&mut random, bytes, lengths)
    })
}

fn jobs(step: usize) -> impl Iterator<Item = JobInput> {
    let mut random = Random::new(0x3417E);
    (0..50_000).step_by(step).map(move |_| {
        let size = random.size(40);
        writable(&mut random, size).mutated(&mut random)
    })
}

fn large_jobs(step: usize) -> impl Iterator<Item = JobInput> {
    let mut random = Random::new(0x1A26E3);
    (0..LARGEST.len()).step_by(step).map(move |turn| {
        let input = JobInput::weighted(&mut random, LARGEST[turn], turn % 2 == 0);
        to_write(&mut random, input)
    })
}

/// A job that write accepts, with or without weights and a flow, and any bytes in its output.
fn writable(random: &mut Random, size: (u32, u32)) -> JobInput {
    let input = JobInput::accepted(random, size);
    to_write(random, input)
}

fn to_write(random: &mut Random, mut input: JobInput) -> JobInput {
    input.rounds = random.rounds();
    if random.below(3) == 0 {
        input.flow.clear();
    }
    let (samples, weights) = (input.samples.len(), input.weights.len());
    let length = tape_length(samples, weights, input.flow.len());
    let rest = random.pick(&[0, 0, 1, 9]);
    input.output = random.bytes(length + rest);
    input
}

/// A length at, above or below that which is needed.
fn vary_length(random: &mut Random, needed: usize) -> usize {
    let more = needed + random.below(9);
    let less = random.below(needed + 1);
    random.pick(&[
        needed, needed, needed, needed, needed, needed, needed, more, more, less,
    ])
}
