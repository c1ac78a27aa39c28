//! How many runs of each program had which outcome.

use super::case::{Case, Program};
use std::collections::BTreeMap;

#[derive(Default)]
pub struct Tally(BTreeMap<Program, Count>);

/// For one program.
#[derive(Default)]
struct Count {
    runs: usize,
    /// One run may be of several sorts.
    sorts: BTreeMap<String, usize>,
}

impl Tally {
    pub fn add(&mut self, case: &Case) {
        let count = self.0.entry(case.program).or_default();
        count.runs += 1;
        for sort in case.sorts() {
            *count.sorts.entry(sort).or_default() += 1;
        }
    }

    /// How many were of this sort.
    #[cfg(test)]
    pub fn of(&self, program: Program, sort: &str) -> usize {
        *self.0[&program].sorts.get(sort).unwrap_or(&0)
    }

    /// One line for each program.
    pub fn in_words(&self) -> String {
        self.0
            .iter()
            .map(|(program, Count { runs, sorts })| {
                let sorts: Vec<String> = sorts
                    .iter()
                    .map(|(sort, count)| format!("{count} {sort}"))
                    .collect();
                format!("{} {runs} times: {}\n", program.name(), sorts.join(", "))
            })
            .collect()
    }
}
