//! Run.

use relief_inputs::{Difference, Random};
use relief_reference::{Figures, Rounds};

use crate::convert::{figures, refusal, rounds, terms};
use crate::family::Call;
use crate::job::{limits, two_mutations, JobInput, LARGEST};

const RUN: Call<JobInput, Figures> = Call {
    name: "run",
    library: |input| {
        relief::run(
            &terms(&input.terms),
            &rounds(&input.rounds),
            &input.samples,
            &input.weights,
            &mut input.flow,
            &mut input.image,
            &mut input.work,
        )
        .map(figures)
        .map_err(refusal)
    },
    reference: |input| {
        relief_reference::run(
            &input.terms,
            &input.rounds,
            &input.samples,
            &input.weights,
            &mut input.flow,
            &mut input.image,
            &mut input.work,
        )
    },
    label: |figures| figures.outcome.to_string(),
};

/// Compares runs of few rounds, of the most rounds, and of the most pixels.
pub fn compare(step: usize) -> Result<(), Difference> {
    RUN.compare_values("the documents' limits", &[1, 2, 19], limits())?;
    let numbers = [1, 2, 3, 4, 5, 6, 7, 10, 19];
    let few = |random: &mut Random, size| input(random, size, Rounds::default());
    RUN.compare_family("two faults", &numbers, two_mutations(few))?;
    RUN.compare_family("1 to 120 pixels", &numbers, small(step))?;
    RUN.compare_family("the most rounds", &[], long(step))?;
    RUN.compare_family("1,048,576 pixels", &[], large(step))
}

fn small(step: usize) -> impl Iterator<Item = JobInput> {
    let mut random = Random::new(0x5A11);
    (0..40_000).step_by(step).map(move |_| {
        let rounds = Rounds {
            quick: random.between(0, 60) as u32,
            allowance: random.between(0, 2_000) as u16,
        };
        let few = Rounds {
            quick: rounds.quick % 4,
            allowance: rounds.allowance % 8,
        };
        let rounds = random.pick(&[rounds, few]);
        let size = random.size(120);
        input(&mut random, size, rounds).mutated(&mut random)
    })
}

fn long(step: usize) -> impl Iterator<Item = JobInput> {
    let mut random = Random::new(0x10A6);
    (0..100).step_by(step).map(move |_| {
        let rounds = Rounds {
            quick: random.pick(&[0, 4_096]),
            allowance: 65_535,
        };
        let size = random.size(12);
        input(&mut random, size, rounds)
    })
}

fn large(step: usize) -> impl Iterator<Item = JobInput> {
    let mut random = Random::new(0x1A26E2);
    // With any step a job with weights and one without.
    (0..10).step_by(step.min(9)).map(move |turn| {
        let rounds = Rounds {
            quick: 3,
            allowance: 2,
        };
        let size = LARGEST[turn % LARGEST.len()];
        let job = JobInput::weighted(&mut random, size, turn % 2 == 0);
        let mut job = to_run(&mut random, job, rounds);
        // Each with weights and without, where alone it counts.
        job.terms.weight = [65_280, 200][turn / 2 % 2];
        (job.terms.low, job.terms.high) = random.pick(&[(0, 255), (20, 230)]);
        match turn / LARGEST.len() {
            // All codes: most pairs move.
            0 => job.samples = random.bytes(job.samples.len()),
            // One code everywhere: no pair would move.
            1 => job.samples.fill(random.byte()),
            // As drawn.
            _ => (),
        }
        job
    })
}

/// A job that a run accepts, with any contents in the buffers that it fills.
fn input(random: &mut Random, size: (u32, u32), rounds: Rounds) -> JobInput {
    let job = JobInput::accepted(random, size);
    to_run(random, job, rounds)
}

fn to_run(random: &mut Random, job: JobInput, rounds: Rounds) -> JobInput {
    let pairs = job.flow.len();
    JobInput {
        rounds,
        flow: random.numbers(pairs),
        image: random.numbers(job.samples.len()),
        work: random.numbers(2 * pairs),
        ..job
    }
}
