//! How often each call was answered by what.

use std::collections::BTreeMap;

#[derive(Clone, Default)]
pub struct Tally {
    /// By the call's name and the answer's word.
    pub answers: BTreeMap<(String, &'static str), usize>,
    /// By the matrix without an inverse, of the calls that were refused for one.
    pub matrices: BTreeMap<&'static str, usize>,
}

impl Tally {
    pub fn calls(&self) -> usize {
        self.answers.values().sum()
    }

    pub fn answered(&self, call: &str, word: &'static str) -> usize {
        self.answers.get(&(call.to_string(), word)).copied().unwrap_or(0)
    }

    pub fn add(&mut self, other: &Tally) {
        for (key, count) in &other.answers {
            *self.answers.entry(key.clone()).or_default() += count;
        }
        for (matrix, count) in &other.matrices {
            *self.matrices.entry(matrix).or_default() += count;
        }
    }
}
