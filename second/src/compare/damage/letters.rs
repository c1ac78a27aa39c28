//! Damage to the letters of records that stay in form.

use super::{Records, Way, doings, recount, some_record};
use crate::chance::Chance;
use crate::compare::fields::{KIND, at};
use crate::compare::simulation::random_state;
use crate::form::{DOING, GETS, HEAD, SENDS, write_doing};
use crate::record::{Act, Doing, MOST_DOINGS};
use std::collections::HashSet;

pub const WAYS: &[Way<Records>] = &[
    ("a letter sent twice", |records, chance| {
        twice(records, SENDS, Act::Sends, chance);
    }),
    ("a letter got twice", |records, chance| {
        twice(records, GETS, Act::Gets, chance);
    }),
    ("a letter got and never sent", |records, chance| {
        let letter = new_letter(records, chance);
        add(records, Act::Gets(letter), chance);
    }),
    ("a sending left out", leave_out_sending),
];

/// The letters in all doings of a kind.
fn letters(records: &mut Records, kind: u8) -> Vec<u32> {
    records
        .iter_mut()
        .flat_map(|record| doings(record))
        .filter(|doing| doing[KIND] == kind)
        .map(|doing| u32::from_be_bytes([doing[1], doing[2], doing[3], doing[4]]))
        .collect()
}

/// A letter that is neither sent nor got; often next to one that is.
fn new_letter(records: &mut Records, chance: &mut Chance) -> u32 {
    let used = [letters(records, SENDS), letters(records, GETS)].concat();
    let mut letter = if used.is_empty() || chance.one_in(2) {
        chance.within(1..=u32::MAX)
    } else {
        *chance.pick(&used)
    };
    let used: HashSet<u32> = used.into_iter().collect();
    while letter == 0 || used.contains(&letter) {
        letter = letter.wrapping_add(1);
    }
    letter
}

/// Does again what a doing of this kind does, or does something new two times.
fn twice(records: &mut Records, kind: u8, act: fn(u32) -> Act, chance: &mut Chance) {
    let known = letters(records, kind);
    let letter = if known.is_empty() {
        let letter = new_letter(records, chance);
        add(records, act(letter), chance);
        letter
    } else {
        *chance.pick(&known)
    };
    add(records, act(letter), chance);
}

/// Puts one more doing into some record, or one in place of another.
fn add(records: &mut Records, act: Act, chance: &mut Chance) {
    let after = random_state(chance);
    let bytes = write_doing(&Doing { act, after });
    let record = some_record(records, chance).filter(|record| record.len() >= HEAD);
    let Some(record) = record else { return };
    let count = (record.len() - HEAD) / DOING;
    if count >= MOST_DOINGS.into() || (count > 0 && chance.one_in(3)) {
        let place = at(1 + chance.below(count), KIND);
        record[place..place + DOING].copy_from_slice(&bytes);
    } else {
        let place = at(1 + chance.below(count + 1), KIND);
        record.splice(place..place, bytes);
        recount(record, 1);
    }
}

/// Turns the sending of a letter that is got into no sending.
fn leave_out_sending(records: &mut Records, chance: &mut Chance) {
    let got = letters(records, GETS);
    if got.is_empty() {
        return;
    }
    let letter = *chance.pick(&got);
    let sending = [&[SENDS], &letter.to_be_bytes()[..]].concat();
    for doing in records.iter_mut().flat_map(|record| doings(record)) {
        if doing.starts_with(&sending) {
            doing[..sending.len()].fill(0);
        }
    }
}
