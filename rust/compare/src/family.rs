//! One call on a family of inputs, by the library and by the reference.

use std::fmt::Debug;
use std::panic::{catch_unwind, AssertUnwindSafe};

use relief_inputs::{compare_family, Answer, Difference};

/// Everything that a call is lent.
pub trait Input: Clone + Debug {
    /// The first place where a buffer differs from the other's, if any.
    fn difference(&self, other: &Self) -> Option<String>;
}

/// The first place where a buffer differs from another of its length.
pub fn first_difference<T: PartialEq + Debug>(
    name: &str,
    one: &[T],
    other: &[T],
) -> Option<String> {
    let index = one.iter().zip(other).position(|(a, b)| a != b)?;
    Some(format!(
        "{name}[{index}] is {:?}, not {:?}",
        one[index], other[index]
    ))
}

/// A call, as the library and as the reference make it.
pub struct Call<I, T> {
    pub name: &'static str,
    pub library: fn(&mut I) -> Answer<T>,
    pub reference: fn(&mut I) -> Answer<T>,
    /// The label under which an accepted answer is counted.
    pub label: fn(&T) -> String,
}

impl<I: Input, T: Debug + PartialEq> Call<I, T> {
    /// Makes both calls, each on a copy of `input`, and gives the answer and what the library leaves,
    /// if the two agree.
    pub fn compare(&self, input: &I) -> Result<(Answer<T>, I), Difference> {
        let (mut ours, mut theirs) = (input.clone(), input.clone());
        let expected = (self.reference)(&mut theirs);
        // A refused call leaves what it was lent.
        let left = if expected.is_ok() { &theirs } else { input };
        let differs = match catch_unwind(AssertUnwindSafe(|| (self.library)(&mut ours))) {
            Err(_) => Some("the call panicked".to_string()),
            Ok(answer) if answer != expected => {
                Some(format!("the answer is {answer:?}, not {expected:?}"))
            }
            Ok(_) => ours.difference(left),
        };
        match differs {
            Some(differs) => Err(self.difference(&differs, input)),
            None => Ok((expected, ours)),
        }
    }

    /// Compares the call on every input, prints the counts under `title`, and sees to it that
    /// each of the refusals in `numbers` was met.
    pub fn compare_family(
        &self,
        title: &str,
        numbers: &[u32],
        inputs: impl Iterator<Item = I>,
    ) -> Result<(), Difference> {
        let title = format!("{}, {title}", self.name);
        compare_family(&title, inputs, |input| {
            Ok(self.labelled(self.compare(input)?.0))
        })?
        .require(&[], numbers)
    }

    /// Compares the call on inputs that come with the documents' answer: taken or refused.
    pub fn compare_values(
        &self,
        title: &str,
        numbers: &[u32],
        values: impl Iterator<Item = (I, Answer<()>)>,
    ) -> Result<(), Difference> {
        self.compare_expected(title, numbers, values, |_| ())
    }

    /// Compares the call on inputs that come with the documents' whole answer.
    #[cfg(feature = "judge")]
    pub fn compare_answers(
        &self,
        title: &str,
        numbers: &[u32],
        values: impl Iterator<Item = (I, Answer<T>)>,
    ) -> Result<(), Difference>
    where
        T: Copy,
    {
        self.compare_expected(title, numbers, values, |accepted| *accepted)
    }

    /// Compares the call on inputs that come with what the documents `tell` of its answer.
    fn compare_expected<D: Debug + PartialEq>(
        &self,
        title: &str,
        numbers: &[u32],
        values: impl Iterator<Item = (I, Answer<D>)>,
        tell: fn(&T) -> D,
    ) -> Result<(), Difference> {
        let title = format!("{}, {title}", self.name);
        compare_family(&title, values, |(input, expected)| {
            let (answer, _) = self.compare(input)?;
            if answer.as_ref().map(tell).map_err(|refusal| *refusal) != *expected {
                let differs = format!("both answer {answer:?}, the documents {expected:?}");
                return Err(self.difference(&differs, input));
            }
            Ok(self.labelled(answer))
        })?
        .require(&[], numbers)
    }

    fn labelled(&self, answer: Answer<T>) -> Answer<String> {
        answer.map(|accepted| (self.label)(&accepted))
    }

    /// What differs, with the whole input.
    pub fn difference(&self, differs: &str, input: &impl Debug) -> Difference {
        Difference(format!("{} DIFFERS: {differs}\n{input:?}", self.name))
    }
}
