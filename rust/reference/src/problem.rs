//! Total variation denoising within a box, and its dual, in whole numbers.
//!
//! Primal: minimise `sum (X - B)^2 + 2 sum W |difference of X|` over the images X
//! of the box, where each pair has its W. Dual: maximise, over the flows within W, the least
//! value in the box of `sum (X - B)^2 + 2 sum flow * difference of X`.

use crate::grid::Grid;
use crate::terms::{reading, Terms};

/// A job's problem, on the grid or on a whole division of it.
///
/// Images have one value for each pixel and flows one for each pair.
#[derive(Clone, Debug)]
pub struct Problem {
    grid: Grid,
    readings: Vec<i64>,
    /// One for each pair.
    weights: Vec<i64>,
    lower: i64,
    upper: i64,
}

impl Problem {
    /// The problem of accepted `terms`, their `grid`, one sample for each pixel, and one weight
    /// for each pair or none, which means the terms' at every pair.
    pub fn new(grid: Grid, terms: &Terms, samples: &[u8], weights: &[i32]) -> Problem {
        let bounds = terms.bounds();
        Problem {
            grid,
            readings: samples.iter().map(|&s| i64::from(reading(s))).collect(),
            weights: widened(&terms.pair_weights(grid.pair_count(), weights)),
            lower: i64::from(*bounds.start()),
            upper: i64::from(*bounds.end()),
        }
    }

    /// The same problem on the whole division `k`, 1 or more, of its grid.
    pub fn divided(&self, k: i64) -> Problem {
        Problem {
            grid: self.grid,
            readings: self.readings.iter().map(|reading| k * reading).collect(),
            weights: self.weights.iter().map(|weight| k * weight).collect(),
            lower: k * self.lower,
            upper: k * self.upper,
        }
    }

    /// The number of values in a flow.
    pub fn pair_count(&self) -> usize {
        self.grid.pair_count()
    }

    /// The weight of each pair.
    pub fn weights(&self) -> &[i64] {
        &self.weights
    }

    /// At each pair the nearest value within `-weight..=weight`: the projection onto the dual's
    /// feasible set.
    pub fn project(&self, values: impl IntoIterator<Item = i64>) -> Vec<i64> {
        values
            .into_iter()
            .zip(&self.weights)
            .map(|(value, weight)| value.clamp(-weight, *weight))
            .collect()
    }

    /// First pixel minus second, for each pair (document 01: fall).
    pub fn differences(&self, image: &[i64]) -> Vec<i64> {
        self.grid
            .pairs()
            .map(|(first, second)| image[first] - image[second])
            .collect()
    }

    /// What flows out of each pixel minus what flows in (document 01: pull).
    pub fn divergence(&self, flow: &[i64]) -> Vec<i64> {
        let mut divergence = vec![0; self.grid.pixel_count()];
        for ((first, second), value) in self.grid.pairs().zip(flow) {
            divergence[first] += value;
            divergence[second] -= value;
        }
        divergence
    }

    /// The image of a flow: the readings less its divergence, projected onto the box.
    pub fn image_of(&self, flow: &[i64]) -> Vec<i64> {
        self.readings
            .iter()
            .zip(self.divergence(flow))
            .map(|(reading, divergence)| (reading - divergence).clamp(self.lower, self.upper))
            .collect()
    }

    /// The primal objective (document 01: price).
    pub fn objective(&self, image: &[i64]) -> i128 {
        let variation: i128 = self
            .differences(image)
            .into_iter()
            .zip(&self.weights)
            .map(|(difference, &weight)| i128::from(weight) * i128::from(difference).abs())
            .sum();
        self.fidelity(image) + 2 * variation
    }

    /// The dual objective (document 01: floor).
    pub fn dual_objective(&self, flow: &[i64]) -> i128 {
        let image = self.image_of(flow);
        let coupling: i128 = self
            .differences(&image)
            .into_iter()
            .zip(flow)
            .map(|(difference, &value)| i128::from(value) * i128::from(difference))
            .sum();
        self.fidelity(&image) + 2 * coupling
    }

    /// The duality gap between a flow and its image (document 01: slack).
    pub fn duality_gap(&self, flow: &[i64]) -> i128 {
        self.objective(&self.image_of(flow)) - self.dual_objective(flow)
    }

    fn fidelity(&self, image: &[i64]) -> i128 {
        squared_distance(image, &self.readings)
    }
}

/// The squared distance of two images.
pub fn squared_distance(one: &[i64], other: &[i64]) -> i128 {
    one.iter()
        .zip(other)
        .map(|(&a, &b)| (i128::from(a) - i128::from(b)).pow(2))
        .sum()
}

/// Request F-5, of the images of two flows of one problem and their duality gaps: twice the squared
/// distance is at most the sum of the gaps, and where both gaps are 0 the images are equal.
pub fn within_gaps(images: [&[i64]; 2], gaps: [i128; 2]) -> bool {
    let [one, other] = images;
    2 * squared_distance(one, other) <= gaps.iter().sum() && (gaps != [0, 0] || one == other)
}

/// A lent flow or image in the 64 bits of the definitions here.
pub fn widened(values: &[i32]) -> Vec<i64> {
    values.iter().copied().map(i64::from).collect()
}
