//! A job's terms, and the validation of them and of values under them.

use std::ops::RangeInclusive;

use crate::grid::Grid;
use crate::refusal::{Fault, Refusal};

/// Sub-units in one level.
pub const SUB_UNITS_PER_LEVEL: i32 = 256;
/// The largest weight, in sub-units.
pub const WEIGHT_LIMIT: u32 = 65_280;
/// The largest number of quick rounds.
pub const QUICK_LIMIT: u32 = 4_096;

/// The value in sub-units that a sample stands for: the centre of its level (document 01: B).
pub fn reading(sample: u8) -> i32 {
    SUB_UNITS_PER_LEVEL * i32::from(sample) + SUB_UNITS_PER_LEVEL / 2
}

/// Size, weight and box of a job, as lent: nothing is validated yet.
#[derive(Clone, Copy, Debug, Default, PartialEq, Eq)]
pub struct Terms {
    /// Pixels in a row.
    pub width: u32,
    /// Rows.
    pub height: u32,
    /// The regularisation weight W in sub-units, at every pair that has none of its own.
    pub weight: u32,
    /// The lowest level of the box.
    pub low: u8,
    /// The highest level of the box.
    pub high: u8,
}

impl Terms {
    /// The grid of the terms, if all are within their limits (else number 1, 2 or 3).
    pub fn validate(&self) -> Result<Grid, Fault> {
        let grid = self.validate_size()?;
        self.validate_weight_and_box()?;
        Ok(grid)
    }

    /// Number 1.
    pub(crate) fn validate_size(&self) -> Result<Grid, Fault> {
        Grid::new(self.width, self.height)
    }

    /// Numbers 2 and 3.
    pub(crate) fn validate_weight_and_box(&self) -> Result<(), Fault> {
        Fault::Weight.unless(self.weight <= WEIGHT_LIMIT)?;
        Fault::Box.unless(self.low <= self.high)
    }

    /// The image values, in sub-units, that the box allows: all of its levels.
    pub fn bounds(&self) -> RangeInclusive<i32> {
        SUB_UNITS_PER_LEVEL * i32::from(self.low)
            ..=SUB_UNITS_PER_LEVEL * i32::from(self.high) + SUB_UNITS_PER_LEVEL - 1
    }

    /// The weight of each of so many pairs: as lent, or the terms' at all of them where none is.
    pub fn pair_weights(&self, pair_count: usize, lent: &[i32]) -> Vec<i32> {
        match lent {
            [] => vec![self.weight as i32; pair_count],
            _ => lent.to_vec(),
        }
    }

    /// Number 8, at the first flow number beyond its pair's weight.
    pub(crate) fn validate_flow(&self, weights: &[i32], flow: &[i32]) -> Result<(), Refusal> {
        let mut numbers = flow.iter().map(|value| value.unsigned_abs());
        Fault::FlowValue.if_found_at(match weights {
            [] => numbers.position(|size| size > self.weight),
            _ => numbers
                .zip(weights)
                .position(|(size, &weight)| size > weight as u32),
        })
    }

    /// Number 9, at the first image value outside the box.
    pub(crate) fn validate_image(&self, image: &[i32]) -> Result<(), Refusal> {
        let bounds = self.bounds();
        let outside = |value: &i32| !bounds.contains(value);
        Fault::ImageValue.if_found_at(image.iter().position(outside))
    }
}

/// Whether a pair may have this weight.
pub(crate) fn is_pair_weight(weight: i32) -> bool {
    (0..=WEIGHT_LIMIT as i32).contains(&weight)
}

/// Number 2, at the first weight that a pair may not have.
pub(crate) fn validate_pair_weights(weights: &[i32]) -> Result<(), Refusal> {
    let beyond = |&weight: &i32| !is_pair_weight(weight);
    Fault::Weight.if_found_at(weights.iter().position(beyond))
}

/// How many rounds a run may make, as lent.
#[derive(Clone, Copy, Debug, Default, PartialEq, Eq)]
pub struct Rounds {
    /// The number of quick rounds.
    pub quick: u32,
    /// The most steady rounds.
    pub allowance: u16,
}

impl Rounds {
    /// Number 10, when there are too many quick rounds.
    pub fn validate(&self) -> Result<(), Fault> {
        Fault::QuickRounds.unless(self.quick <= QUICK_LIMIT)
    }
}
