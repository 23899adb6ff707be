//! The job that both sides work on, and how they are timed.

#[cfg(feature = "tape")]
use relief_inputs::tape_length;
use relief_inputs::Random;
use relief_reference::{Grid, Terms};

use crate::clock::{by_turns, Side};

/// Measurements of each side, after one that warms up.
pub const REPETITIONS: usize = 7;

/// Pixels that one measurement of a side visits at least.
const PIXELS: usize = 1 << 23;

/// A square job and its buffers.
pub struct Workload {
    pub side: u32,
    pub terms: Terms,
    /// The same in the library's type.
    pub library_terms: relief::Terms,
    pub samples: Vec<u8>,
    /// One for each pair, or none.
    pub weights: Vec<i32>,
    pub flow: Vec<i32>,
    pub image: Vec<i32>,
    #[cfg(feature = "run")]
    pub work: Vec<i32>,
    /// As long as the job's tape.
    #[cfg(feature = "tape")]
    pub tape: Vec<u8>,
    /// What the tape is read into.
    #[cfg(feature = "tape")]
    pub read: Read,
}

/// Buffers as long as the job needs to be read from a tape.
#[cfg(feature = "tape")]
pub struct Read {
    pub samples: Vec<u8>,
    pub weights: Vec<i32>,
    pub flow: Vec<i32>,
}

impl Workload {
    /// A noisy job whose steady rounds go on for long, with a flow that a check accepts and an
    /// image that a price accepts. With weights, their mean is about the terms' weight.
    pub fn new(side: u32, weighted: bool) -> Workload {
        let mut random = Random::new(0xBE2C4);
        let (width, height) = (side, side);
        let (weight, low, high) = (16_384, 16, 240);
        let grid = Grid::new(side, side).expect("a size within the limits");
        let (pixels, pairs) = (grid.pixel_count(), grid.pair_count());
        let terms = Terms {
            width,
            height,
            weight,
            low,
            high,
        };
        let mut weights = Vec::new();
        if weighted {
            let most = 2 * i64::from(weight);
            weights.extend((0..pairs).map(|_| random.between(0, most) as i32));
        }
        let (lower, upper) = terms.bounds().into_inner();
        Workload {
            side,
            terms,
            library_terms: relief::Terms {
                width,
                height,
                weight,
                low,
                high,
            },
            samples: random.bytes(pixels),
            flow: random.flow(&terms.pair_weights(pairs, &weights)),
            image: random.image(pixels, lower, upper),
            #[cfg(feature = "run")]
            work: vec![0; 2 * pairs],
            #[cfg(feature = "tape")]
            tape: vec![0; tape_length(pixels, weights.len(), pairs)],
            #[cfg(feature = "tape")]
            read: Read {
                samples: vec![0; pixels],
                weights: vec![0; pairs],
                flow: vec![0; pairs],
            },
            weights,
        }
    }
}

/// Times both sides by turns and prints the medians for one pixel and turn, where each side
/// takes `turns` turns over all pixels.
pub fn report(
    name: &str,
    workload: &mut Workload,
    turns: usize,
    library: impl Fn(&mut Workload),
    reference: impl Fn(&mut Workload),
) {
    let pixels = workload.samples.len();
    let repeats = PIXELS.div_ceil(pixels * turns);
    let visits = (repeats * turns * pixels) as f64;
    let [ours, theirs] = by_turns(REPETITIONS, |side| match side {
        Side::Proved => (0..repeats).for_each(|_| library(workload)),
        Side::Reference => (0..repeats).for_each(|_| reference(workload)),
    })
    .map(|times| times.median() * 1e9 / visits);
    let ratio = ours / theirs;
    let side = workload.side;
    let name = match workload.weights[..] {
        [] => name.to_string(),
        _ => format!("weighted {name}"),
    };
    println!("{name:22}{side:5} x {side:<5}{ours:9.2}{theirs:11.2}{ratio:8.2}");
}
