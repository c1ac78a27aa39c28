//! Answers that do not come from the records they are checked with.

use crate::answer::FIRST_BYTE;
use crate::chance::Chance;
use crate::compare::small;
use crate::may::May;
use crate::question::Question;
use crate::record::{MOST_MACHINES, Place};
use crate::refusal::Refusal;

/// Any bytes, and what they are called. `ask` has left some.
pub fn random_answer(left: &[u8], machines: usize, chance: &mut Chance) -> (&'static str, Vec<u8>) {
    match chance.below(7) {
        0 => ("what ask left", left.to_vec()),
        1 => ("a refusal", random_refusal(chance)),
        2 => ("an empty answer", Vec::new()),
        3 => ("random bytes", random_bytes(chance)),
        4 => ("an answer to another question", to_another_question(chance)),
        _ => ("another run's answer", of_another_run(machines, chance)),
    }
}

/// The answer to `may` of some run with so many machines, as far as there can be.
pub fn of_another_run(machines: usize, chance: &mut Chance) -> Vec<u8> {
    let machines = machines.clamp(1, MOST_MACHINES.into());
    let run = small::random_run_of(machines, chance);
    May::of(&run.records).answer().bytes
}

pub fn random_refusal(chance: &mut Chance) -> Vec<u8> {
    let place = |chance: &mut Chance| Place {
        machine: chance.byte(0..=39),
        doing: chance.within(0..=500) as u16,
    };
    let refusal = match chance.below(4) {
        0 => Refusal::NotInForm(place(chance)),
        1 => Refusal::Twice(place(chance)),
        2 => Refusal::NeverSent(place(chance)),
        _ => Refusal::Ring((0..2 + chance.below(6)).map(|_| place(chance)).collect()),
    };
    refusal.bytes()
}

/// With or without a beginning like an answer's.
pub fn random_bytes(chance: &mut Chance) -> Vec<u8> {
    let begun = chance.below(4);
    let mut bytes = vec![FIRST_BYTE, Question::May.number(), chance.byte(0..=1)];
    bytes.truncate(begun);
    let length = chance.below(60);
    bytes.extend(chance.bytes(length));
    bytes
}

fn to_another_question(chance: &mut Chance) -> Vec<u8> {
    let questions = [Question::Must, Question::Least, Question::Most];
    let mut bytes = vec![FIRST_BYTE, chance.pick(&questions).number()];
    let length = chance.below(60);
    bytes.extend(chance.bytes(length));
    bytes
}
