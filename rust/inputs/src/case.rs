//! Jobs that are accepted: document 01's and random ones.

use relief_reference::terms::WEIGHT_LIMIT;
use relief_reference::{write, Grid, Rounds, Terms};

use crate::{tape_length, Random};

/// An accepted job without a flow.
#[derive(Clone, Debug)]
pub struct Case {
    /// Size, weight and box.
    pub terms: Terms,
    /// Quick rounds and steady allowance.
    pub rounds: Rounds,
    /// One for each pixel.
    pub samples: Vec<u8>,
    /// One for each pair, or none: then every pair has the weight of the terms.
    pub weights: Vec<i32>,
}

/// Document 01's 2 by 1 job.
pub fn two_by_one() -> Case {
    Case {
        terms: Terms {
            width: 2,
            height: 1,
            weight: 256,
            low: 0,
            high: 255,
        },
        rounds: Rounds {
            quick: 0,
            allowance: 100,
        },
        samples: vec![0, 2],
        weights: Vec::new(),
    }
}

/// What the program prints for the 2 by 1 job.
pub const TWO_BY_ONE_TEXT: &str = "\
outcome moved price floor slack
settled 17 131080 131064 16
382 386
";

/// Document 01's job with a box that all samples lie outside of.
pub fn narrow_box() -> Case {
    let mut case = two_by_one();
    case.terms.weight = 1_280;
    (case.terms.low, case.terms.high) = (8, 12);
    case.samples = vec![0, 20];
    case
}

/// A job without weight whose samples lie below its box, in its first, a middle and its last
/// level, and above it.
pub fn about_the_box() -> Case {
    let mut case = narrow_box();
    (case.terms.width, case.terms.weight) = (7, 0);
    case.samples = vec![0, 7, 8, 10, 12, 13, 255];
    case
}

/// The terms of the 2 by 1 job on 3 by 1 pixels, which has two flows with slacks above 0 whose
/// images are as far apart as these allow.
pub fn three_by_one() -> Case {
    let mut case = two_by_one();
    case.terms.width = 3;
    case.samples = vec![0, 2, 4];
    case
}

/// The terms of the 2 by 1 job on 3 by 1 pixels with a joint: the first pair has weight 0, the
/// second 512.
pub fn jointed() -> Case {
    let mut case = two_by_one();
    case.terms.width = 3;
    case.samples = vec![0, 2, 10];
    case.weights = vec![0, 512];
    case
}

/// What the program prints for the job with a joint.
pub const JOINTED_TEXT: &str = "\
outcome moved price floor slack
settled 3 1572864 1572864 0
128 1152 2176
";

/// The terms of the 2 by 1 job on 2 by 2 pixels.
pub fn two_by_two() -> Case {
    let mut case = two_by_one();
    case.terms.height = 2;
    case.samples = vec![0, 10, 20, 40];
    case
}

/// The same terms with a narrow box, which only the second sample lies within.
pub fn square() -> Case {
    let mut case = two_by_two();
    (case.terms.low, case.terms.high) = (8, 12);
    case.samples = vec![0, 9, 255, 4];
    case
}

/// The same with a weight for each pair, which `SQUARE_FLOW` is just within at three of them.
pub fn weighted_square() -> Case {
    Case {
        weights: vec![1, 2, 256, 65_280],
        ..square()
    }
}

/// A flow of the square, with weights and without.
pub const SQUARE_FLOW: [i32; 4] = [1, -2, 256, -256];

/// The terms of the 2 by 1 job on another size, with document 01's sample 7 everywhere.
pub fn flat(width: u32, height: u32) -> Case {
    let mut case = two_by_one();
    (case.terms.width, case.terms.height) = (width, height);
    case.samples = vec![7; (width * height) as usize];
    case
}

impl Case {
    /// A random job of the given size, in half of the cases with weights for its pairs.
    pub fn sized(random: &mut Random, width: u32, height: u32) -> Case {
        let (low, high) = random.levels();
        let case = Case {
            terms: Terms {
                width,
                height,
                weight: random.weight(WEIGHT_LIMIT),
                low,
                high,
            },
            rounds: Rounds {
                quick: random.pick(&[0, 0, 1, 2, 3, 12]),
                allowance: random.pick(&[0, 1, 5, 40, 65_535]),
            },
            samples: random.samples((width * height) as usize),
            weights: Vec::new(),
        };
        let weighted = random.below(2) == 0;
        case.with_weights(random, weighted)
    }

    /// The job with weights for its pairs, or without.
    pub fn with_weights(mut self, random: &mut Random, weighted: bool) -> Case {
        self.weights = match weighted {
            true => random.weights(self.grid().pair_count(), WEIGHT_LIMIT),
            false => Vec::new(),
        };
        self
    }

    /// A random job of at most 5 by 5 pixels.
    pub fn small(random: &mut Random) -> Case {
        let sides = [1, 1, 2, 3, 4, 5];
        let (width, height) = (random.pick(&sides), random.pick(&sides));
        Case::sized(random, width, height)
    }

    /// A random flow that a check accepts for the job.
    pub fn flow(&self, random: &mut Random) -> Vec<i32> {
        random.flow(&self.pair_weights())
    }

    /// The weight of each pair, its own or the terms'.
    pub fn pair_weights(&self) -> Vec<i32> {
        self.terms
            .pair_weights(self.grid().pair_count(), &self.weights)
    }

    /// The grid of the job's size.
    pub fn grid(&self) -> Grid {
        self.terms.validate().expect("a case has accepted terms")
    }

    /// The job's tape with `flow`, where an empty one is none.
    pub fn tape(&self, flow: &[i32]) -> Vec<u8> {
        let Case {
            terms,
            rounds,
            samples,
            weights,
        } = self;
        let mut output = vec![0; tape_length(samples.len(), weights.len(), flow.len())];
        let length = write(terms, rounds, samples, weights, flow, &mut output);
        assert_eq!(length, Ok(output.len()));
        output
    }
}
