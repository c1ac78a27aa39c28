//! What comes before what.

use crate::cut::Cut;
use crate::record::{Act, Place, Record, sendings};
use std::collections::HashMap;

pub struct Before<'a> {
    records: &'a [Record],
    /// Where each letter is sent.
    sendings: HashMap<u32, Place>,
}

impl<'a> Before<'a> {
    pub fn new(records: &'a [Record]) -> Self {
        Self {
            records,
            sendings: sendings(records),
        }
    }

    /// Puts a doing behind a moment, and with it all that comes before it. Behind a
    /// moment nothing is missing, so that only new doings are looked at.
    pub fn join(&self, moment: &mut Cut, doing: Place) {
        let mut wanted = vec![doing];
        while let Some(Place { machine, doing }) = wanted.pop() {
            let machine = usize::from(machine);
            let behind = moment[machine];
            let up_to = self.records[machine].doings.iter().take(doing.into());
            let gettings = up_to.skip(behind.into()).filter_map(|done| match done.act {
                Act::Gets(letter) => Some(letter),
                _ => None,
            });
            wanted.extend(gettings.map(|letter| self.sendings[&letter]));
            moment[machine] = behind.max(doing);
        }
    }
}
