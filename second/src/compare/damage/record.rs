//! Damage to the form of one record.

use super::{Way, doings, recount};
use crate::chance::Chance;
use crate::compare::fields::{
    AMOUNT, COUNT, FIRST_AMOUNT, FIRST_SIGN, KIND, LETTER, MACHINE, SIGN,
};
use crate::form::{DOING, FIRST_BYTE, HEAD, NEITHER};
use crate::record::{LARGEST_AMOUNT, MOST_DOINGS};

pub const WAYS: &[Way<Vec<u8>>] = &[
    ("a wrong first byte", |record, chance| {
        overwrite(record, 0, &[FIRST_BYTE ^ chance.byte(1..=255)]);
    }),
    ("another machine's number", |record, chance| {
        overwrite(record, MACHINE, &[chance.byte(0..=255)]);
    }),
    ("a sign out of range at first", |record, chance| {
        overwrite(record, FIRST_SIGN, &[large_byte(2, chance)]);
    }),
    ("an amount too large at first", |record, chance| {
        overwrite(record, FIRST_AMOUNT, &large_amount(chance));
    }),
    ("a count of 65535", |record, _| {
        overwrite(record, COUNT, &[255, 255]);
    }),
    ("a count one more", |record, _| recount(record, 1)),
    ("a count one less", |record, _| recount(record, -1)),
    ("a kind out of range", |record, chance| {
        in_doing(record, |_| true, KIND, &[large_byte(3, chance)], chance);
    }),
    ("letter 0 sent or got", |record, chance| {
        in_doing(record, |kind| kind != NEITHER, LETTER, &[0; 4], chance);
    }),
    ("a letter where none is", |record, chance| {
        let letter = chance.within(1..=u32::MAX).to_be_bytes();
        in_doing(record, |kind| kind == NEITHER, LETTER, &letter, chance);
    }),
    ("a sign out of range in a doing", |record, chance| {
        in_doing(record, |_| true, SIGN, &[large_byte(2, chance)], chance);
    }),
    ("an amount too large in a doing", |record, chance| {
        in_doing(record, |_| true, AMOUNT, &large_amount(chance), chance);
    }),
    ("501 doings", too_many_doings),
    ("a record cut short", |record, chance| {
        let length = chance.below(record.len().max(1));
        record.truncate(length);
    }),
    ("a record without bytes", |record, _| record.clear()),
    ("a byte at the end", |record, chance| {
        record.push(chance.byte(0..=255));
    }),
    ("many bytes at the end", |record, chance| {
        let length = 6_000 + chance.below(194_001);
        record.extend(chance.bytes(length));
    }),
    ("a byte changed", |record, chance| {
        let place = chance.below(record.len().max(1));
        overwrite(record, place, &[chance.byte(0..=255)]);
    }),
    ("garbage for a record", garbage),
];

/// A byte from `least` on, often the first or the last.
fn large_byte(least: u8, chance: &mut Chance) -> u8 {
    let anywhere = chance.byte(least..=255);
    *chance.pick(&[least, 255, anywhere])
}

fn large_amount(chance: &mut Chance) -> [u8; 4] {
    let anywhere = chance.within(LARGEST_AMOUNT + 1..=u32::MAX);
    chance
        .pick(&[LARGEST_AMOUNT + 1, 1 << 24, u32::MAX, anywhere])
        .to_be_bytes()
}

fn overwrite(record: &mut [u8], at: usize, bytes: &[u8]) {
    if let Some(place) = record.get_mut(at..at + bytes.len()) {
        place.copy_from_slice(bytes);
    }
}

/// Overwrites a part of some doing whose kind is `wanted`.
fn in_doing(
    record: &mut [u8],
    wanted: fn(u8) -> bool,
    at: usize,
    bytes: &[u8],
    chance: &mut Chance,
) {
    let mut fitting: Vec<&mut [u8]> = doings(record).filter(|doing| wanted(doing[KIND])).collect();
    if !fitting.is_empty() {
        let doing = fitting.swap_remove(chance.below(fitting.len()));
        overwrite(doing, at, bytes);
    }
}

/// Fills up with doings until there is one too many, and counts them all.
fn too_many_doings(record: &mut Vec<u8>, _: &mut Chance) {
    let count = MOST_DOINGS + 1;
    record.resize(HEAD + DOING * usize::from(count), 0);
    overwrite(record, COUNT, &count.to_be_bytes());
}

/// Random bytes, with or without a beginning like a record's.
fn garbage(record: &mut Vec<u8>, chance: &mut Chance) {
    let kept = chance.below(HEAD + 1);
    record.truncate(kept);
    let length = chance.below(60);
    record.extend(chance.bytes(length));
}
