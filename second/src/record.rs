//! What one machine recorded.

use std::collections::HashMap;

pub const MOST_MACHINES: u8 = 40;
pub const MOST_DOINGS: u16 = 500;
pub const LARGEST_AMOUNT: u32 = 1_000_000;

/// A machine's own state: its sign and its amount.
#[derive(Clone, Copy, Debug, PartialEq, Eq)]
pub struct State {
    pub sign: bool,
    pub amount: u32,
}

/// What a doing has to do with letters, which go by their numbers.
#[derive(Clone, Copy, Debug, PartialEq, Eq)]
pub enum Act {
    Neither,
    Sends(u32),
    Gets(u32),
}

/// One doing, and the state right after it.
#[derive(Clone, Copy, Debug, PartialEq, Eq)]
pub struct Doing {
    pub act: Act,
    pub after: State,
}

/// A machine's state at first and its doings, which are counted from 1.
#[derive(Clone, Debug, PartialEq, Eq)]
pub struct Record {
    pub machine: u8,
    pub first: State,
    pub doings: Vec<Doing>,
}

/// A doing of a machine; doing 0 is the head of its record.
#[derive(Clone, Copy, Debug, PartialEq, Eq, PartialOrd, Ord)]
pub struct Place {
    pub machine: u8,
    pub doing: u16,
}

/// All doings, by machine and then by doing.
pub fn acts(records: &[Record]) -> impl Iterator<Item = (Place, Act)> {
    records.iter().flat_map(|record| {
        let machine = record.machine;
        (1..)
            .zip(&record.doings)
            .map(move |(doing, done)| (Place { machine, doing }, done.act))
    })
}

/// Where each letter is sent.
pub fn sendings(records: &[Record]) -> HashMap<u32, Place> {
    acts(records)
        .filter_map(|(place, act)| match act {
            Act::Sends(letter) => Some((letter, place)),
            _ => None,
        })
        .collect()
}
