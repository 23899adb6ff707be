//! The boundary: the library's own functions (`include/relief.h`) over slices. All `unsafe` code is
//! here. A slice of length 0 has a pointer that is aligned and not null, as these functions need it.
//!
//! Nothing checks these declarations against the library's source. So every number that a
//! call is to set starts as the largest of its type, and a call panics where the header's
//! promise of zeros, of an outcome, of a yes or no or of a refusal's number is not kept.

#![allow(unsafe_code)]

#[cfg(feature = "judge")]
pub mod judge;
#[cfg(feature = "run")]
pub mod run;
#[cfg(feature = "tape")]
pub mod tape;

#[cfg(any(feature = "judge", feature = "run"))]
use crate::{Figures, Outcome};
use crate::{Reason, Refusal};

/// The numbers that price, check and run set.
#[cfg(any(feature = "judge", feature = "run"))]
struct Answer {
    place: u64,
    outcome: u32,
    moved: u32,
    price: u64,
    floor: i64,
    slack: u64,
}

#[cfg(any(feature = "judge", feature = "run"))]
impl Answer {
    /// No number is set yet.
    const UNSET: Answer = Answer {
        place: u64::MAX,
        outcome: u32::MAX,
        moved: u32::MAX,
        price: u64::MAX,
        floor: i64::MAX,
        slack: u64::MAX,
    };

    /// The figures of a call that returned `number`, or its refusal. `promised` tells whether
    /// the header lets an accepted call give them.
    fn figures(
        self,
        number: u32,
        promised: impl FnOnce(&Figures) -> bool,
    ) -> Result<Figures, Refusal> {
        let Answer {
            place,
            outcome,
            moved,
            price,
            floor,
            slack,
        } = self;
        let zeros = (outcome, moved, price, floor, slack) == (0, 0, 0, 0, 0);
        verdict(number, place, zeros)?;
        let figures = Figures {
            outcome: match outcome {
                1 => Outcome::Checked,
                2 => Outcome::Settled,
                3 => Outcome::Spent,
                _ => panic!("accepted with outcome {outcome}"),
            },
            moved,
            price,
            floor,
            slack,
        };
        assert!(promised(&figures), "accepted with {figures:?}");
        Ok(figures)
    }
}

unsafe extern "C" {
    /// The library's function that is named after its version; it gives the patch. Every call comes
    /// to it by [`verdict`], so that none links with a library of another version.
    #[link_name = concat!(
        "relief_version_",
        env!("CARGO_PKG_VERSION_MAJOR"),
        "_",
        env!("CARGO_PKG_VERSION_MINOR")
    )]
    safe fn library_patch() -> u32;
}

/// What a call returned, once it is seen that an accepted one gives place 0, and a refused
/// one `zeros` for all other numbers.
fn verdict(number: u32, place: u64, zeros: bool) -> Result<(), Refusal> {
    library_patch();
    if number == 0 {
        assert_eq!(place, 0, "accepted with a place");
        return Ok(());
    }
    assert!(zeros, "refused {number} at {place} with other numbers");
    let Some(reason) = Reason::from_number(number) else {
        panic!("refused {number} at {place}, which the header does not name");
    };
    Err(Refusal { reason, place })
}
