//! A family: many inputs, each answered twice.

use std::collections::BTreeMap;
use std::fmt::{self, Display};
use std::process::ExitCode;

use relief_reference::Refusal;

/// What an input is answered.
pub type Answer<T> = Result<T, Refusal>;

/// What differs, with the whole input.
pub struct Difference(pub String);

impl Display for Difference {
    fn fmt(&self, out: &mut fmt::Formatter<'_>) -> fmt::Result {
        out.write_str(&self.0)
    }
}

/// The status of a comparison that ended so. It prints the difference, if there is one.
pub fn status(ended: Result<(), Difference>) -> ExitCode {
    match ended {
        Ok(()) => ExitCode::SUCCESS,
        Err(difference) => {
            println!("{difference}");
            ExitCode::FAILURE
        }
    }
}

/// Compares every input and prints the counts under `title`. `compare` gives the answer, by a
/// label if it is accepted, where the two agree.
pub fn compare_family<I>(
    title: &str,
    inputs: impl IntoIterator<Item = I>,
    compare: impl Fn(&I) -> Result<Answer<String>, Difference>,
) -> Result<Counts, Difference> {
    let mut counts = Counts::default();
    for input in inputs {
        counts.add(compare(&input)?);
    }
    println!("{title}: {counts}");
    Ok(counts)
}

/// How many inputs were accepted, by label, and how many refused, by number.
#[derive(Default)]
pub struct Counts {
    accepted: BTreeMap<String, usize>,
    refused: BTreeMap<u32, usize>,
}

impl Counts {
    fn add(&mut self, answer: Answer<String>) {
        *match answer {
            Ok(label) => self.accepted.entry(label).or_default(),
            Err(refusal) => self.refused.entry(refusal.number).or_default(),
        } += 1;
    }

    /// Requires that each of these labels and refusals was met.
    pub fn require(&self, labels: &[&str], numbers: &[u32]) -> Result<(), Difference> {
        let labels = labels
            .iter()
            .filter(|&&label| !self.accepted.contains_key(label))
            .map(|label| label.to_string());
        let numbers = numbers
            .iter()
            .filter(|number| !self.refused.contains_key(number))
            .map(|number| format!("refused {number}"));
        match labels.chain(numbers).next() {
            Some(missing) => Err(Difference(format!("no input was {missing}"))),
            None => Ok(()),
        }
    }
}

impl Display for Counts {
    fn fmt(&self, out: &mut fmt::Formatter<'_>) -> fmt::Result {
        let total: usize = self.accepted.values().chain(self.refused.values()).sum();
        write!(out, "{total} compared")?;
        for (label, count) in &self.accepted {
            write!(out, "; {label}: {count}")?;
        }
        for (number, count) in &self.refused {
            write!(out, "; refused {number}: {count}")?;
        }
        Ok(())
    }
}
