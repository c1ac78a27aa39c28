//! Damage to the list of records.

use super::{Records, Way};
use crate::chance::Chance;
use crate::compare::simulation::random_state;
use crate::form;
use crate::record::{MOST_MACHINES, Record};

pub const WAYS: &[Way<Records>] = &[
    ("no records", |records, _| records.clear()),
    ("two records exchanged", |records, chance| {
        chance.exchange(records);
    }),
    ("more than 40 records", too_many_records),
];

/// Good records of further machines, up to three more than there can be.
fn too_many_records(records: &mut Records, chance: &mut Chance) {
    let count = MOST_MACHINES + chance.byte(1..=3);
    for machine in (0..count).skip(records.len()) {
        records.push(form::write(&Record {
            machine,
            first: random_state(chance),
            doings: Vec::new(),
        }));
    }
}
