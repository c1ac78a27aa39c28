//! Damage to good records, in every way that a refusal names.

mod letters;
mod list;
mod record;

use super::fields::COUNT;
use crate::chance::Chance;
use crate::form::{DOING, HEAD};
use std::slice::ChunksExactMut;

/// The bytes of the record files, in order.
type Records = Vec<Vec<u8>>;

/// A way to do damage to `T`, and what it is called. One that finds nothing to
/// work on leaves all as it is.
type Way<T> = (&'static str, fn(&mut T, &mut Chance));

/// Damages the records in a random way, and tells which.
pub fn random_damage(records: &mut Records, chance: &mut Chance) -> &'static str {
    match chance.below(10) {
        0 => damage(list::WAYS, records, chance),
        1..6 => damage(letters::WAYS, records, chance),
        _ => match some_record(records, chance) {
            Some(record) => damage(record::WAYS, record, chance),
            None => "nothing left to damage",
        },
    }
}

fn damage<T>(ways: &[Way<T>], target: &mut T, chance: &mut Chance) -> &'static str {
    let (name, way) = chance.pick(ways);
    way(target, chance);
    name
}

fn some_record<'a>(records: &'a mut Records, chance: &mut Chance) -> Option<&'a mut Vec<u8>> {
    match records.len() {
        0 => None,
        count => records.get_mut(chance.below(count)),
    }
}

/// The bytes of a record's doings, as far as they are there.
fn doings(record: &mut [u8]) -> ChunksExactMut<'_, u8> {
    let bytes = record.get_mut(HEAD..).unwrap_or_default();
    bytes.chunks_exact_mut(DOING)
}

/// Changes the count in a record's head.
fn recount(record: &mut [u8], by: i16) {
    if let Some([high, low]) = record.get_mut(COUNT..HEAD) {
        let count = u16::from_be_bytes([*high, *low]).wrapping_add_signed(by);
        [*high, *low] = count.to_be_bytes();
    }
}
