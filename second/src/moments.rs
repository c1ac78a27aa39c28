//! Going through the moments of a run.

use crate::cut::{self, Cut};
use crate::record::{Act, Doing, Place, Record, sendings};
use std::collections::{HashMap, HashSet};
use std::iter;

pub struct Moments<'a> {
    records: &'a [Record],
    /// Where each letter is sent.
    sendings: HashMap<u32, Place>,
}

impl<'a> Moments<'a> {
    pub fn new(records: &'a [Record]) -> Self {
        Self {
            records,
            sendings: sendings(records),
        }
    }

    /// The moments with nothing behind them, then those with one doing, two and so
    /// on: all that a way can come to through `open` ones. Every moment is on some
    /// way.
    pub fn levels(&self, open: impl Fn(&Cut) -> bool) -> impl Iterator<Item = HashSet<Cut>> {
        let nothing = cut::nothing(self.records);
        let first = HashSet::from_iter(Some(nothing).filter(&open));
        iter::successors(Some(first), move |level: &HashSet<Cut>| {
            let next: HashSet<Cut> = level
                .iter()
                .flat_map(|moment| self.nexts(moment))
                .filter(&open)
                .collect();
            (!next.is_empty()).then_some(next)
        })
    }

    /// Those with one doing more behind them.
    fn nexts(&self, moment: &Cut) -> impl Iterator<Item = Cut> {
        (0..moment.len())
            .filter(|&machine| self.goes_on(machine, moment))
            .map(|machine| {
                let mut next = moment.clone();
                next[machine] += 1;
                next
            })
    }

    /// Whether the machine has another doing, and what that gets was sent.
    fn goes_on(&self, machine: usize, moment: &Cut) -> bool {
        let behind = usize::from(moment[machine]);
        match self.records[machine].doings.get(behind) {
            None => false,
            Some(Doing {
                act: Act::Gets(letter),
                ..
            }) => {
                let sending = self.sendings[letter];
                sending.doing <= moment[usize::from(sending.machine)]
            }
            Some(_) => true,
        }
    }
}
