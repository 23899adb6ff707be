//! Why a call turns back, and where.

use std::error::Error;
use std::fmt;

/// Why a call turned back. The number of each is the library's.
#[derive(Clone, Copy, Debug, PartialEq, Eq, Hash)]
#[repr(u32)]
#[non_exhaustive]
pub enum Reason {
    /// A side is not 1 to [`MAX_SIDE`](crate::MAX_SIDE), or there are over
    /// [`MAX_PIXELS`](crate::MAX_PIXELS) pixels.
    Size = 1,
    /// The terms' weight is over [`MAX_WEIGHT`](crate::MAX_WEIGHT); or one of `weights` is not 0
    /// to that. The place of the second is the first one's index, in a tape its record's offset;
    /// so place 0 of a call is the terms' weight where that is over, else that of `weights[0]`.
    Weight = 2,
    /// The low end of the box is above the high one.
    Box = 3,
    /// There is not one sample for each pixel.
    SamplesLength = 4,
    /// There is not one flow number for each pair.
    FlowLength = 5,
    /// There is not one image value for each pixel.
    ImageLength = 6,
    /// The work buffer has not two values for each pair.
    WorkLength = 7,
    /// A flow number is beyond its pair's weight. The place is the first one's index.
    FlowValue = 8,
    /// An image value is outside the box. The place is the first one's index.
    ImageValue = 9,
    /// There are over [`MAX_QUICK`](crate::MAX_QUICK) quick rounds.
    QuickRounds = 10,
    /// No record has this kind. The place is the record's offset.
    UnknownKind = 12,
    /// The tape ends inside a record: it was cut. The place is that record's offset.
    TapeCut = 13,
    /// A record of this kind must not stand here. The place is the record's offset.
    KindNotAllowed = 14,
    /// A byte follows the end record. The place is its offset.
    ByteAfterEnd = 15,
    /// A buffer that the tape is read into or written to is too short.
    BufferTooShort = 16,
    /// The tape ends where a record is due: it was never finished, or was cut right behind a
    /// record. The place is the tape's length.
    TapeUnfinished = 18,
    /// There is neither one weight for each pair nor none.
    WeightsLength = 19,
}

impl Reason {
    /// Every reason, by number.
    pub const ALL: [Reason; 17] = [
        Reason::Size,
        Reason::Weight,
        Reason::Box,
        Reason::SamplesLength,
        Reason::FlowLength,
        Reason::ImageLength,
        Reason::WorkLength,
        Reason::FlowValue,
        Reason::ImageValue,
        Reason::QuickRounds,
        Reason::UnknownKind,
        Reason::TapeCut,
        Reason::KindNotAllowed,
        Reason::ByteAfterEnd,
        Reason::BufferTooShort,
        Reason::TapeUnfinished,
        Reason::WeightsLength,
    ];

    /// The library's number.
    pub const fn number(self) -> u32 {
        self as u32
    }

    /// The reason of a number, if it has one.
    pub fn from_number(number: u32) -> Option<Reason> {
        let mut all = Reason::ALL.into_iter();
        all.find(|reason| reason.number() == number)
    }

    /// The reason in words, as `relief_refusal_text` of the header has it.
    pub const fn text(self) -> &'static str {
        match self {
            Reason::Size => "width or height is not 1 to 4,096, or there are over 1,048,576 pixels",
            Reason::Weight => "a weight is not 0 to 65,280",
            Reason::Box => "low is above high",
            Reason::SamplesLength => "the length of samples is not the number of pixels",
            Reason::FlowLength => "the length of flow is not the number of pairs",
            Reason::ImageLength => "the length of image is not the number of pixels",
            Reason::WorkLength => "the length of work is not twice the number of pairs",
            Reason::FlowValue => "a flow number is beyond its pair's weight",
            Reason::ImageValue => "an image value is outside the box",
            Reason::QuickRounds => "there are over 4,096 quick rounds",
            Reason::UnknownKind => "the record's kind is unknown",
            Reason::TapeCut => "the tape ends inside a record",
            Reason::KindNotAllowed => "the record's kind is not allowed here",
            Reason::ByteAfterEnd => "a byte follows the end record",
            Reason::BufferTooShort => {
                "a buffer that the tape is read into or written to is too short"
            }
            Reason::TapeUnfinished => "the tape ends where a record is due",
            Reason::WeightsLength => "the length of weights is neither 0 nor the number of pairs",
        }
    }
}

/// The text.
impl fmt::Display for Reason {
    fn fmt(&self, out: &mut fmt::Formatter<'_>) -> fmt::Result {
        out.write_str(self.text())
    }
}

/// The answer of a call that turned back. It prints as
/// `refused 8 at 0: a flow number is beyond its pair's weight`.
#[derive(Clone, Copy, Debug, PartialEq, Eq, Hash)]
pub struct Refusal {
    /// Why.
    pub reason: Reason,
    /// Where: a tape offset, an index or 0, as the reason says; for a reason of the terms in a
    /// tape, their record's offset.
    pub place: u64,
}

impl Refusal {
    /// The reason's number.
    pub const fn number(self) -> u32 {
        self.reason.number()
    }
}

impl fmt::Display for Refusal {
    fn fmt(&self, out: &mut fmt::Formatter<'_>) -> fmt::Result {
        let Refusal { reason, place } = self;
        write!(out, "refused {} at {place}: {reason}", reason.number())
    }
}

impl Error for Refusal {}
