//! What a run covered: how often each kind of answer came.

use std::collections::BTreeMap;
use std::fmt;

#[derive(Clone, Debug, Default)]
pub struct Tally {
    answers: BTreeMap<String, usize>,
}

impl Tally {
    pub fn add(&mut self, answer: &str) {
        *self.answers.entry(answer.to_string()).or_default() += 1;
    }

    pub fn add_all(&mut self, other: &Tally) {
        for (answer, count) in &other.answers {
            *self.answers.entry(answer.clone()).or_default() += count;
        }
    }

    pub fn total(&self) -> usize {
        self.answers.values().sum()
    }

    pub fn count(&self, answer: &str) -> usize {
        self.answers.get(answer).copied().unwrap_or(0)
    }
}

impl fmt::Display for Tally {
    fn fmt(&self, f: &mut fmt::Formatter) -> fmt::Result {
        for (answer, count) in &self.answers {
            writeln!(f, "{count:>9}  {answer}")?;
        }
        Ok(())
    }
}
