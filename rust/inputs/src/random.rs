//! Random parts of jobs, the same for the same seed everywhere.

use relief_reference::terms::{QUICK_LIMIT, SUB_UNITS_PER_LEVEL};
use relief_reference::Rounds;

/// Marsaglia's xorshift generator of random numbers.
#[derive(Clone, Debug)]
pub struct Random(u64);

impl Random {
    /// A generator from a seed that is not 0.
    pub fn new(seed: u64) -> Random {
        Random(seed)
    }

    fn bits(&mut self) -> u64 {
        self.0 ^= self.0 << 13;
        self.0 ^= self.0 >> 7;
        self.0 ^= self.0 << 17;
        self.0
    }

    /// A whole number from `low` to `high`, both included.
    pub fn between(&mut self, low: i64, high: i64) -> i64 {
        low + (self.bits() % (high - low + 1) as u64) as i64
    }

    /// An index below `count`, which is not 0.
    pub fn below(&mut self, count: usize) -> usize {
        (self.bits() % count as u64) as usize
    }

    /// One of the choices.
    pub fn pick<T: Copy>(&mut self, choices: &[T]) -> T {
        choices[self.below(choices.len())]
    }

    /// Any byte.
    pub fn byte(&mut self) -> u8 {
        self.bits() as u8
    }

    /// Any bytes.
    pub fn bytes(&mut self, count: usize) -> Vec<u8> {
        (0..count).map(|_| self.byte()).collect()
    }

    /// Any 32-bit number, often one of the ends.
    pub fn number(&mut self) -> i32 {
        let any = self.bits() as i32;
        self.pick(&[any, any, i32::MIN, i32::MAX])
    }

    /// Any 32-bit numbers.
    pub fn numbers(&mut self, count: usize) -> Vec<i32> {
        (0..count).map(|_| self.number()).collect()
    }

    /// Width and height of a raster of at most `pixels` pixels: long and square ones,
    /// one row and one column.
    pub fn size(&mut self, pixels: u32) -> (u32, u32) {
        let shorter = self.between(1, i64::from(pixels.isqrt()));
        let longer = self.between(1, i64::from(pixels) / shorter);
        let (shorter, longer) = (shorter as u32, longer as u32);
        self.pick(&[(shorter, longer), (longer, shorter)])
    }

    /// A box, by its lowest and highest level: all levels, one level, or any.
    pub fn levels(&mut self) -> (u8, u8) {
        let (a, b) = (self.byte(), self.byte());
        let any = (a.min(b), a.max(b));
        self.pick(&[(0, 255), (0, 255), any, any, (a, a)])
    }

    /// A box whose lowest level is above its highest.
    pub fn crossed_levels(&mut self) -> (u8, u8) {
        let low = self.between(1, 255) as u8;
        (low, self.below(low.into()) as u8)
    }

    /// A weight, in sub-units, up to `limit`: often 0, small or the limit.
    pub fn weight(&mut self, limit: u32) -> u32 {
        let limit = i64::from(limit);
        let small = self.between(1, 20);
        let middle = self.between(0, limit / 32);
        let any = self.between(0, limit);
        self.pick(&[0, limit, small, middle, middle, any]) as u32
    }

    /// Weights for so many pairs, in sub-units up to `limit`: everywhere, 0 and the limit only, or
    /// each as [`Random::weight`] has them.
    pub fn weights(&mut self, count: usize, limit: u32) -> Vec<i32> {
        if self.below(3) == 0 {
            return (0..count).map(|_| self.weight(limit) as i32).collect();
        }
        self.spread(count, 0, limit.into())
            .map(|weight| weight as i32)
            .collect()
    }

    /// Any rounds within the limits.
    pub fn rounds(&mut self) -> Rounds {
        Rounds {
            quick: self.between(0, QUICK_LIMIT.into()) as u32,
            allowance: self.between(0, u16::MAX.into()) as u16,
        }
    }

    /// A number above the limit: the next, the last or any.
    pub fn above(&mut self, limit: u32, last: u32) -> u32 {
        let any = self.between(i64::from(limit) + 1, last.into()) as u32;
        self.pick(&[limit + 1, last, any])
    }

    /// Samples: of all codes, of a few, or of the first and the last.
    pub fn samples(&mut self, count: usize) -> Vec<u8> {
        let darkest = self.pick(&[0, 100]);
        let brightest = self.pick(&[darkest + 2, 255]);
        self.spread(count, darkest, brightest)
            .map(|code| code as u8)
            .collect()
    }

    /// A flow within the weights of its pairs: everywhere, near 0, or at its ends.
    pub fn flow(&mut self, weights: &[i32]) -> Vec<i32> {
        let part = self.pick(&[1, 8]);
        let ends_only = self.ends_only();
        weights
            .iter()
            .map(|weight| {
                let largest = i64::from(weight / part);
                self.one_of(-largest, largest, ends_only) as i32
            })
            .collect()
    }

    /// Another flow within the weights: any, one near this, or the opposite of this.
    pub fn other_flow(&mut self, flow: &[i32], weights: &[i32]) -> Vec<i32> {
        match self.below(4) {
            0 => flow
                .iter()
                .zip(weights)
                .map(|(value, &weight)| {
                    let near = value + self.between(-2, 2) as i32;
                    near.clamp(-weight, weight)
                })
                .collect(),
            1 => flow.iter().map(|value| -value).collect(),
            _ => self.flow(weights),
        }
    }

    /// An image with values from `lower` to `upper`, the ends of a box: everywhere, in the first
    /// level or in the last one, or at the ends of these.
    pub fn image(&mut self, count: usize, lower: i32, upper: i32) -> Vec<i32> {
        let (lower, upper) = (i64::from(lower), i64::from(upper));
        let rest = i64::from(SUB_UNITS_PER_LEVEL) - 1;
        let (low, high) = self.pick(&[
            (lower, upper),
            (lower, upper),
            (lower, lower + rest),
            (upper - rest, upper),
        ]);
        self.spread(count, low, high)
            .map(|value| value as i32)
            .collect()
    }

    /// Numbers from `low` to `high`: all of them, or in one call of four the two only.
    fn spread(&mut self, count: usize, low: i64, high: i64) -> impl Iterator<Item = i64> + '_ {
        let ends_only = self.ends_only();
        (0..count).map(move |_| self.one_of(low, high, ends_only))
    }

    /// In one call of four.
    fn ends_only(&mut self) -> bool {
        self.below(4) == 0
    }

    /// A number from `low` to `high`, or one of the two only.
    fn one_of(&mut self, low: i64, high: i64, ends_only: bool) -> i64 {
        if ends_only {
            self.pick(&[low, high])
        } else {
            self.between(low, high)
        }
    }
}
