//! Mutations of what a call is lent that make it refuse, alone and two at once.

use relief_reference::Refusal;

use crate::Answer;

/// A change that makes a call turn back, and the refusal it leads to.
pub struct Mutation<I> {
    /// The refusal.
    pub refusal: Refusal,
    /// What it changes.
    pub apply: fn(&mut I),
}

/// A mutation that leads to this refusal.
pub const fn mutation<I>(number: u32, place: usize, apply: fn(&mut I)) -> Mutation<I> {
    Mutation {
        refusal: Refusal {
            number,
            place: place as u64,
        },
        apply,
    }
}

impl<I: Clone> Mutation<I> {
    /// What is lent, with this mutation applied.
    pub(crate) fn mutated(&self, input: &I) -> I {
        let mut mutated = input.clone();
        (self.apply)(&mut mutated);
        mutated
    }
}

/// What a call accepts as it is, with each mutation alone, and with each two of them, with the
/// answer that is due. The mutations stand in the order in which the call judges them: the earlier wins.
pub fn mutated<'a, I: Clone + 'a>(
    accepted: I,
    mut mutations: impl Iterator<Item = &'a Mutation<I>> + Clone,
) -> Vec<(I, Answer<()>)> {
    let mut inputs = vec![(accepted.clone(), Ok(()))];
    while let Some(first) = mutations.next() {
        // The later mutation is made first: an earlier one may cut its bytes off.
        let others = mutations.clone().map(|later| later.mutated(&accepted));
        let mutated = [accepted.clone()].into_iter().chain(others);
        inputs.extend(mutated.map(|input| (first.mutated(&input), Err(first.refusal))));
    }
    inputs
}
