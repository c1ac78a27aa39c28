//! Cuts of a run, moments or not.

use crate::record::{Record, State};

/// How many doings of each machine are behind.
pub type Cut = Vec<u16>;

/// With nothing behind.
pub fn nothing(records: &[Record]) -> Cut {
    vec![0; records.len()]
}

/// With everything behind.
pub fn end(records: &[Record]) -> Cut {
    records
        .iter()
        .map(|record| u16::try_from(record.doings.len()).expect("at most 500 doings"))
        .collect()
}

/// How many cuts there are, as far as a `u64` can tell.
pub fn count(records: &[Record]) -> u64 {
    records
        .iter()
        .map(|record| record.doings.len() as u64 + 1)
        .fold(1, u64::saturating_mul)
}

pub fn all_yes(cut: &Cut, records: &[Record]) -> bool {
    states(cut, records).all(|state| state.sign)
}

/// The lowest machine whose sign is no.
pub fn lowest_no(cut: &Cut, records: &[Record]) -> Option<u8> {
    let mut machines = (0..).zip(states(cut, records));
    machines.find_map(|(machine, state)| (!state.sign).then_some(machine))
}

/// All amounts together.
pub fn sum(cut: &Cut, records: &[Record]) -> u64 {
    states(cut, records)
        .map(|state| u64::from(state.amount))
        .sum()
}

/// Each number after a space.
pub fn in_words(cut: &Cut) -> String {
    cut.iter().map(|behind| format!(" {behind}")).collect()
}

fn states(cut: &Cut, records: &[Record]) -> impl Iterator<Item = State> {
    cut.iter()
        .zip(records)
        .map(|(&behind, record)| match behind {
            0 => record.first,
            _ => record.doings[usize::from(behind) - 1].after,
        })
}
