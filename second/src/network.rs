//! The records of all machines together.

use crate::form;
use crate::record::{Act, MOST_MACHINES, Place, Record, acts};
use crate::refusal::Refusal;
use crate::ring;
use std::collections::HashSet;

pub struct Network {
    pub records: Vec<Record>,
    /// How many letters were got, each of which was sent.
    pub letters: usize,
}

impl Network {
    /// Reads the records; a fault of a lower number in any of them comes before
    /// one of a higher number.
    pub fn read<B: AsRef<[u8]>>(files: &[B]) -> Result<Self, Refusal> {
        let records = read_records(files)?;
        let letters = match_letters(&records)?;
        match ring::lowest(&records) {
            Some(ring) => Err(Refusal::Ring(ring)),
            None => Ok(Self { records, letters }),
        }
    }

    pub fn doings(&self) -> usize {
        self.records.iter().map(|record| record.doings.len()).sum()
    }
}

/// Each file in turn, so that the first fault found is the lowest. A file beyond
/// the last machine there can be is itself the fault.
fn read_records<B: AsRef<[u8]>>(files: &[B]) -> Result<Vec<Record>, Refusal> {
    let fault = |machine, doing| Refusal::NotInForm(Place { machine, doing });
    if files.is_empty() {
        return Err(fault(0, 0));
    }
    (0..)
        .zip(files)
        .map(|(machine, bytes)| match machine {
            MOST_MACHINES.. => Err(fault(machine, 0)),
            _ => form::read(machine, bytes.as_ref()).map_err(|doing| fault(machine, doing)),
        })
        .collect()
}

/// Counts the letters got, once each is known to be sent once and got once.
fn match_letters(records: &[Record]) -> Result<usize, Refusal> {
    let (mut sent, mut got) = (HashSet::new(), HashSet::new());
    for (place, act) in acts(records) {
        let new = match act {
            Act::Neither => true,
            Act::Sends(letter) => sent.insert(letter),
            Act::Gets(letter) => got.insert(letter),
        };
        if !new {
            return Err(Refusal::Twice(place));
        }
    }
    let never_sent = |act| matches!(act, Act::Gets(letter) if !sent.contains(&letter));
    match acts(records).find(|&(_, act)| never_sent(act)) {
        Some((place, _)) => Err(Refusal::NeverSent(place)),
        None => Ok(got.len()),
    }
}
