//! The question `may`: the search for the first moment at which all signs are yes.

use crate::answer::{self, Answer};
use crate::before::Before;
use crate::cut::{self, Cut};
use crate::record::{Place, Record};

#[derive(Clone, Debug, PartialEq, Eq)]
pub struct May {
    /// The first such moment, if there is one.
    pub first: Option<Cut>,
    /// How many pairs of numbers were compared.
    pub pairs: u64,
}

impl May {
    pub fn of(records: &[Record]) -> Self {
        Self::from_moment(cut::nothing(records), records)
    }

    /// The search from a moment on: as long as some machine says no, the lowest such
    /// machine goes on by one doing, and all others by what comes before that.
    pub fn from_moment(mut moment: Cut, records: &[Record]) -> Self {
        let before = Before::new(records);
        let end = cut::end(records);
        let mut pairs = 0;
        while let Some(machine) = cut::lowest_no(&moment, records) {
            let behind = moment[usize::from(machine)];
            if behind == end[usize::from(machine)] {
                return Self { first: None, pairs };
            }
            let doing = behind + 1;
            before.join(&mut moment, Place { machine, doing });
            // What is behind the moment with what is behind the doing, for each machine.
            pairs += records.len() as u64;
        }
        Self {
            first: Some(moment),
            pairs,
        }
    }

    pub fn answer(&self) -> Answer {
        Answer {
            line: line(self.first.as_ref()),
            bytes: answer::write_may(self.first.as_ref(), self.pairs),
        }
    }
}

/// In words, with the end of the line.
pub fn line(first: Option<&Cut>) -> String {
    match first {
        Some(first) => format!("may yes{}\n", cut::in_words(first)),
        None => "may no\n".to_string(),
    }
}
