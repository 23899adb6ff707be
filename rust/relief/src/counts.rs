//! The limits of a job, and the lengths of its buffers.
//!
//! Beyond the limits a count is 0, and none overflows.

use crate::Terms;

/// The largest width and height; the smallest is 1.
pub const MAX_SIDE: u32 = 4_096;
/// The most pixels.
pub const MAX_PIXELS: usize = 1_048_576;
/// The most pairs: those of 1,024 by 1,024 pixels.
pub const MAX_PAIRS: usize = pair_count(1_024, 1_024);
/// The largest weight, that of the terms and a pair's own, in sub-units.
pub const MAX_WEIGHT: u32 = 65_280;
/// The most quick rounds.
pub const MAX_QUICK: u32 = 4_096;
/// The largest allowance of steady rounds, by its type.
pub const MAX_ALLOWANCE: u16 = u16::MAX;
/// The bytes of the longest tape.
pub const MAX_TAPE_BYTES: usize = tape_bytes(MAX_PIXELS, MAX_PAIRS, MAX_PAIRS);

/// The bytes of a tape beside its samples, weights and flow numbers.
const TAPE_FRAME: usize = 16;

impl Terms {
    /// The number of pixels: see [`pixel_count`].
    pub const fn pixel_count(&self) -> usize {
        pixel_count(self.width, self.height)
    }

    /// The number of pairs: see [`pair_count`].
    pub const fn pair_count(&self) -> usize {
        pair_count(self.width, self.height)
    }
}

/// The number of pixels: the length of samples and image. 0 for a size that is not allowed,
/// which the calls refuse.
pub const fn pixel_count(width: u32, height: u32) -> usize {
    if width > MAX_SIDE || height > MAX_SIDE {
        return 0;
    }
    let pixels = width as usize * height as usize;
    if pixels > MAX_PIXELS {
        0
    } else {
        pixels
    }
}

/// The number of pairs: the length of a flow and of weights (or 0 for these), and half that of a
/// work buffer. 0 where width and height are 1, and for a size that is not allowed, which the
/// calls refuse.
pub const fn pair_count(width: u32, height: u32) -> usize {
    match pixel_count(width, height) {
        0 => 0,
        pixels => 2 * pixels - width as usize - height as usize,
    }
}

/// The bytes of a tape with so many samples, weights and flow numbers (0: no such records). 0
/// for no samples, and for more than [`MAX_PIXELS`] of them or than [`MAX_PAIRS`] of the others.
pub const fn tape_bytes(samples_len: usize, weights_len: usize, flow_len: usize) -> usize {
    let samples_allowed = samples_len != 0 && samples_len <= MAX_PIXELS;
    if !samples_allowed || weights_len > MAX_PAIRS || flow_len > MAX_PAIRS {
        return 0;
    }
    TAPE_FRAME + 2 * samples_len + 3 * weights_len + 5 * flow_len
}

/// A length of samples that is enough to read any tape of so many bytes.
///
/// In samples of this length, weights of [`read_weights_len`] and a flow of [`read_flow_len`], a
/// tape is refused with [`Reason::BufferTooShort`](crate::Reason::BufferTooShort) only if it is
/// accepted in no buffers: it names a size with more samples than its bytes can hold, as a tape
/// does that ends among its samples. To be told [`Reason::TapeCut`](crate::Reason::TapeCut) or
/// [`Reason::TapeUnfinished`](crate::Reason::TapeUnfinished) of such a one, lend buffers for the
/// size in its bytes 1 to 4, or [`MAX_PIXELS`] samples and [`MAX_PAIRS`] of the others: in these
/// none is refused so.
pub const fn read_samples_len(tape_len: usize) -> usize {
    let samples = tape_len.saturating_sub(TAPE_FRAME) / 2;
    if samples > MAX_PIXELS {
        MAX_PIXELS
    } else {
        samples
    }
}

/// A length of weights that is enough to read any tape of so many bytes, with or without weight
/// records: see [`read_samples_len`].
pub const fn read_weights_len(tape_len: usize) -> usize {
    read_pairs(tape_len)
}

/// A length of flow that is enough to read any tape of so many bytes, with or without flow
/// records: see [`read_samples_len`].
pub const fn read_flow_len(tape_len: usize) -> usize {
    read_pairs(tape_len)
}

/// The most pairs of a tape of so many bytes.
const fn read_pairs(tape_len: usize) -> usize {
    let pairs = 2 * read_samples_len(tape_len).saturating_sub(1);
    if pairs > MAX_PAIRS {
        MAX_PAIRS
    } else {
        pairs
    }
}
