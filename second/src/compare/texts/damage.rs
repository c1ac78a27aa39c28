//! Damage to texts, and steps to their edges.

use super::{Text, VERBS, grow};
use crate::chance::Chance;
use crate::record::MOST_DOINGS;

/// A way to do damage (or to go to an edge), and what it is called.
type Way = (&'static str, fn(&mut Text, &mut Chance));

const BAD_NUMBERS: &[&str] = &[
    "+5", "-1", "-0", "5x", "x", "0x10", "1e3", "1_000", "1,000", "5.0", "'5'",
];
const LARGE_NUMBERS: &[&str] = &[
    "4294967296",
    "0004294967296",
    "4294967301",
    "18446744073709551615",
    "18446744073709551616",
    "18446744073709551621",
    "340282366920938463463374607431768211461",
];

/// Words for machines, good and bad.
const MACHINES: &[&str] = &[
    "39",
    "039",
    "40",
    "x",
    "",
    "+1",
    "-1",
    "1x",
    " 1",
    "256",
    "295",
    "4294967296",
    "18446744073709551616",
    "0000000000000000000000000039",
];
const BAD_VERBS: &[&str] = &["send", "Sends", "got", "get", "7", "yes"];

const WAYS: &[Way] = &[
    ("a bad sign", |text, chance| {
        let bad = ["Yes", "NO", "y", "1", "yess", "ye", "noo", "sends", "maybe"];
        replace(text, 0, &bad, chance);
    }),
    ("a bad amount", |text, chance| {
        replace(text, 1, BAD_NUMBERS, chance)
    }),
    ("an amount too large", |text, chance| {
        replace(text, 1, &["1000001", "0001000001", "9999999"], chance);
    }),
    ("a far too large amount", |text, chance| {
        replace(text, 1, LARGE_NUMBERS, chance);
    }),
    ("a bad verb", |text, chance| {
        add_letter(text, BAD_VERBS, &["7"], chance);
    }),
    ("a bad letter", |text, chance| {
        add_letter(text, VERBS, BAD_NUMBERS, chance)
    }),
    ("letter 0", |text, chance| {
        add_letter(text, VERBS, &["0", "000"], chance)
    }),
    ("a letter too large", |text, chance| {
        add_letter(text, VERBS, LARGE_NUMBERS, chance);
    }),
    ("the largest letter", |text, chance| {
        add_letter(text, VERBS, &["4294967295", "0000004294967295"], chance);
    }),
    ("a line cut short", |text, chance| {
        let line = some_line(text, chance);
        line.truncate(chance.below(line.len()));
    }),
    ("a word too many", |text, chance| {
        let word = chance.pick(&["7", "sends", "yes", "x", "0"]).to_string();
        some_line(text, chance).push(word);
    }),
    ("two words in one", |text, chance| {
        let line = some_line(text, chance);
        let second = line.remove(1);
        line[0] += &second;
    }),
    ("no first line", |text, _| drop(text.lines.remove(0))),
    ("no lines", |text, _| text.lines.clear()),
    ("500 doings", |text, chance| {
        grow(text, MOST_DOINGS.into(), chance)
    }),
    ("501 doings", |text, chance| {
        grow(text, usize::from(MOST_DOINGS) + 1, chance)
    }),
    ("another machine", |text, chance| {
        text.machine = chance.pick(MACHINES).to_string();
    }),
];

/// Damages a text that still has lines of two words or more.
pub fn random_damage(text: &mut Text, chance: &mut Chance) -> Option<&'static str> {
    if text.lines.is_empty() || text.lines.iter().any(|line| line.len() < 2) {
        return None;
    }
    let (name, damage) = chance.pick(WAYS);
    damage(text, chance);
    Some(name)
}

/// Puts some other character, such as may matter, in place of one.
pub fn change_character(written: &str, chance: &mut Chance) -> String {
    let changed = chance.below(written.len().max(1));
    let other = *chance.pick(&['#', ' ', '\t', '\n', '0', '9', 'y', 's', '+', '-', '.', '~']);
    written
        .char_indices()
        .map(|(at, old)| if at == changed { other } else { old })
        .collect()
}

fn some_line<'a>(text: &'a mut Text, chance: &mut Chance) -> &'a mut Vec<String> {
    let count = text.lines.len();
    &mut text.lines[chance.below(count)]
}

/// Puts one of `words` in place of a word of some line.
fn replace(text: &mut Text, at: usize, words: &[&str], chance: &mut Chance) {
    some_line(text, chance)[at] = chance.pick(words).to_string();
}

/// Gives some line a verb and a letter in place of its own; the first line of
/// the text must not have any.
fn add_letter(text: &mut Text, verbs: &[&str], letters: &[&str], chance: &mut Chance) {
    let line = some_line(text, chance);
    line.truncate(2);
    line.push(chance.pick(verbs).to_string());
    line.push(chance.pick(letters).to_string());
}
