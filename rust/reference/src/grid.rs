//! The pixel grid and its pairs of neighbours.

use crate::refusal::Fault;

/// The longest side of a grid.
pub const SIDE_LIMIT: u32 = 4_096;
/// The largest number of pixels.
pub const PIXEL_LIMIT: u32 = 1_048_576;

/// A size within the limits. Pixels are numbered row by row.
#[derive(Clone, Copy, Debug, PartialEq, Eq)]
pub struct Grid {
    width: usize,
    height: usize,
}

impl Grid {
    /// The grid of this size, if it is within the limits (else number 1).
    pub fn new(width: u32, height: u32) -> Result<Grid, Fault> {
        let side = 1..=SIDE_LIMIT;
        let within =
            side.contains(&width) && side.contains(&height) && width * height <= PIXEL_LIMIT;
        Fault::Size.unless(within)?;
        Ok(Grid {
            width: width as usize,
            height: height as usize,
        })
    }

    /// Pixels in a row.
    pub fn width(self) -> usize {
        self.width
    }

    /// The number of pixels.
    pub fn pixel_count(self) -> usize {
        self.width * self.height
    }

    /// The number of pairs.
    pub fn pair_count(self) -> usize {
        2 * self.width * self.height - self.width - self.height
    }

    /// Whether a buffer of this length has no value, or one for each pair.
    pub(crate) fn holds_none_or_all_pairs(self, length: usize) -> bool {
        [0, self.pair_count()].contains(&length)
    }

    /// The pairs `(first, second)` in order: every pixel with the one below it,
    /// then every pixel with the one to its right.
    pub fn pairs(self) -> impl Iterator<Item = (usize, usize)> {
        let Grid { width, height } = self;
        let below = (0..width * (height - 1)).map(move |upper| (upper, upper + width));
        let right = (0..width * height)
            .filter(move |left| left % width + 1 < width)
            .map(|left| (left, left + 1));
        below.chain(right)
    }
}
