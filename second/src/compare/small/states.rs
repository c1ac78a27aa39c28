//! Signs and amounts in a small run.

use crate::chance::Chance;
use crate::record::{Act, Doing, LARGEST_AMOUNT, Record, State};

/// How signs and amounts go in one run.
pub struct Mood {
    signs: Signs,
    /// So many of two machines, on the average, have the sign no at first and at
    /// last, so that ways neither begin nor end with all yes.
    shut: usize,
    amounts: Amounts,
}

#[derive(Clone, Copy)]
enum Signs {
    /// One in so many times a yes, and a no, does not stay.
    Stay { yes: usize, no: usize },
    /// Mostly yes from a sending on, and no from a getting on: so it comes that
    /// letters keep ways from going past.
    Turn,
}

#[derive(Clone, Copy)]
enum Amounts {
    /// Anything up to a largest; a small one makes many moments alike.
    UpTo(u32),
    /// Each up to so much away from the one before.
    Steps(u32),
}

impl Mood {
    pub fn random(chance: &mut Chance) -> Self {
        let stay = Signs::Stay {
            yes: *chance.pick(&[1, 2, 4, 8]),
            no: *chance.pick(&[1, 1, 2, 4]),
        };
        Self {
            signs: *chance.pick(&[stay, stay, Signs::Turn]),
            shut: chance.below(3),
            amounts: *chance.pick(&[
                Amounts::UpTo(1),
                Amounts::UpTo(3),
                Amounts::UpTo(100),
                Amounts::UpTo(LARGEST_AMOUNT),
                Amounts::Steps(1),
                Amounts::Steps(LARGEST_AMOUNT / 4),
            ]),
        }
    }

    /// The record of a machine that does this.
    pub fn random_record(&self, machine: u8, acts: Vec<Act>, chance: &mut Chance) -> Record {
        let mut state = self.random_first(chance);
        let mut record = Record {
            machine,
            first: state,
            doings: Vec::new(),
        };
        for act in acts {
            state.sign = self.signs.random(state.sign, act, chance);
            state.amount = self.amounts.random(state.amount, chance);
            record.doings.push(Doing { act, after: state });
        }
        // A machine without a state between those two would never be yes.
        if record.doings.len() >= 2 && chance.below(2) < self.shut {
            shut(&mut record);
        }
        record
    }

    fn random_first(&self, chance: &mut Chance) -> State {
        let sign = match self.signs {
            Signs::Stay { yes, no } => chance.below(yes + no) < yes,
            Signs::Turn => chance.one_in(2),
        };
        let amount = self.amounts.random(LARGEST_AMOUNT / 2, chance);
        State { sign, amount }
    }
}

fn shut(record: &mut Record) {
    record.first.sign = false;
    if let Some(last) = record.doings.last_mut() {
        last.after.sign = false;
    }
}

impl Signs {
    fn random(self, before: bool, act: Act, chance: &mut Chance) -> bool {
        match (self, act) {
            (Self::Stay { yes, no }, _) => before ^ chance.one_in(if before { yes } else { no }),
            (Self::Turn, Act::Neither) => before,
            (Self::Turn, act) => matches!(act, Act::Sends(_)) ^ chance.one_in(4),
        }
    }
}

impl Amounts {
    fn random(self, before: u32, chance: &mut Chance) -> u32 {
        match self {
            Self::UpTo(largest) => chance.within(0..=largest),
            Self::Steps(width) => {
                let low = before.saturating_sub(width);
                chance.within(low..=LARGEST_AMOUNT.min(before + width))
            }
        }
    }
}
