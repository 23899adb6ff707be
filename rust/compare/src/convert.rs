//! From the reference's types to the library's, and back.

#[cfg(feature = "tape")]
use relief_reference::Job;
#[cfg(any(feature = "run", feature = "tape"))]
use relief_reference::Rounds;
#[cfg(any(feature = "judge", feature = "run"))]
use relief_reference::{Figures, Outcome};
use relief_reference::{Refusal, Terms};

pub fn terms(terms: &Terms) -> relief::Terms {
    relief::Terms {
        width: terms.width,
        height: terms.height,
        weight: terms.weight,
        low: terms.low,
        high: terms.high,
    }
}

#[cfg(any(feature = "run", feature = "tape"))]
pub fn rounds(rounds: &Rounds) -> relief::Rounds {
    relief::Rounds {
        quick: rounds.quick,
        allowance: rounds.allowance,
    }
}

pub fn refusal(refusal: relief::Refusal) -> Refusal {
    Refusal {
        number: refusal.number(),
        place: refusal.place,
    }
}

#[cfg(any(feature = "judge", feature = "run"))]
pub fn figures(figures: relief::Figures) -> Figures {
    Figures {
        outcome: match figures.outcome {
            relief::Outcome::Checked => Outcome::Checked,
            relief::Outcome::Settled => Outcome::Settled,
            relief::Outcome::Spent => Outcome::Spent,
        },
        moved: figures.moved,
        price: figures.price,
        floor: figures.floor,
        slack: figures.slack,
    }
}

#[cfg(feature = "tape")]
pub fn job(job: relief::Job) -> Job {
    let relief::Job {
        terms,
        rounds,
        has_weights,
        has_flow,
    } = job;
    Job {
        terms: Terms {
            width: terms.width,
            height: terms.height,
            weight: terms.weight,
            low: terms.low,
            high: terms.high,
        },
        rounds: Rounds {
            quick: rounds.quick,
            allowance: rounds.allowance,
        },
        has_weights,
        has_flow,
    }
}
