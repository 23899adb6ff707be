//! Where a call turns back: the documents' numbers and places.

use std::fmt;

/// A condition that makes a call turn back, with the documents' number for it.
#[derive(Clone, Copy, Debug, PartialEq, Eq)]
pub enum Fault {
    /// A side or the number of pixels is outside the limits.
    Size = 1,
    /// The weight, or that of a pair, is outside its limits.
    Weight = 2,
    /// The low end of the box is above the high end.
    Box = 3,
    /// The sample buffer does not hold one value for each pixel.
    SamplesLength = 4,
    /// The flow buffer does not hold one value for each pair.
    FlowLength = 5,
    /// The image buffer does not hold one value for each pixel.
    ImageLength = 6,
    /// The work buffer does not hold two values for each pair.
    WorkLength = 7,
    /// A flow number is beyond its pair's weight.
    FlowValue = 8,
    /// An image value is outside the box.
    ImageValue = 9,
    /// There are too many quick rounds.
    QuickRounds = 10,
    /// No record has this kind.
    UnknownKind = 12,
    /// The input ends inside a record.
    TapeCut = 13,
    /// A record of this kind must not stand here.
    KindNotAllowed = 14,
    /// A byte follows the end record.
    ByteAfterEnd = 15,
    /// A buffer that a tape is read into or written to is too short.
    BufferTooShort = 16,
    /// The program's input is too long.
    InputTooLong = 17,
    /// The input ends where a record is due.
    TapeUnfinished = 18,
    /// The weight buffer is neither empty nor holds one value for each pair.
    WeightsLength = 19,
}

impl Fault {
    /// The refusal that names `place`.
    pub fn at(self, place: usize) -> Refusal {
        Refusal {
            number: self as u32,
            place: place as u64,
        }
    }

    /// This fault, unless `condition` holds.
    pub(crate) fn unless(self, condition: bool) -> Result<(), Fault> {
        if condition {
            Ok(())
        } else {
            Err(self)
        }
    }

    /// The refusal that names `place`, if there is a place to name.
    pub(crate) fn if_found_at(self, place: Option<usize>) -> Result<(), Refusal> {
        match place {
            Some(place) => Err(self.at(place)),
            None => Ok(()),
        }
    }
}

/// The answer of a call that turned back. It prints as `refused 8 at 0`.
#[derive(Clone, Copy, Debug, PartialEq, Eq)]
pub struct Refusal {
    /// The documents' number of the condition.
    pub number: u32,
    /// A tape offset, an index or 0, as the documents say for each number.
    pub place: u64,
}

impl Refusal {
    /// Whether the input ends too early: with more bytes there might be another answer.
    pub(crate) fn is_unexpected_end(self) -> bool {
        [Fault::TapeCut, Fault::TapeUnfinished]
            .map(|fault| fault as u32)
            .contains(&self.number)
    }
}

/// The place is 0 unless named.
impl From<Fault> for Refusal {
    fn from(fault: Fault) -> Refusal {
        fault.at(0)
    }
}

impl fmt::Display for Refusal {
    fn fmt(&self, out: &mut fmt::Formatter<'_>) -> fmt::Result {
        write!(out, "refused {} at {}", self.number, self.place)
    }
}
