//! `check` on the records that `ask` was run on.

mod arbitrary;
mod damage;

use super::case::{ANSWER, Case, Files};
use super::expected::Expected;
use super::with_damage;
use crate::chance::Chance;
use crate::judgement::Judgement;
use crate::may::May;
use crate::network::Network;
use crate::question::Question;
use crate::verdict::Verdict;

/// How many times an answer is damaged.
const DAMAGED: usize = 5;

/// The cases of `check` after one of `ask`, which left these files: with any bytes, and
/// where the records are fine with the answer to `may`, as it is and damaged.
pub fn cases(ask: &Case, left: &Files, chance: &mut Chance) -> Vec<Case> {
    let Expected::Verdict(verdict) = &ask.expected else {
        return Vec::new();
    };
    let left = left.get(ANSWER).map(Vec::as_slice).unwrap_or_default();
    let mut cases = vec![arbitrary(ask, left, chance)];
    if matches!(verdict, Verdict::Undecided { .. }) {
        let network = Network::read(&record_files(ask)).expect("records are fine");
        let answer = May::of(&network.records).answer().bytes;
        cases.extend(shown(ask, &answer));
        cases.extend(damaged(ask, &answer, &network, chance));
    }
    cases
}

/// With and without the question named.
fn shown(ask: &Case, answer: &[u8]) -> [Case; 2] {
    [None, Some(Question::May)].map(|question| {
        let records = record_files(ask).into_iter().cloned().collect();
        Case::check(&ask.what, question, answer, records, Judgement::Shown)
    })
}

fn damaged(ask: &Case, answer: &[u8], network: &Network, chance: &mut Chance) -> Vec<Case> {
    (0..DAMAGED)
        .map(|_| {
            let mut answer = answer.to_vec();
            let way = damage::random_damage(&mut answer, &network.records, chance);
            judged(ask, &with_damage("its answer", &[way]), &answer, chance)
        })
        .collect()
}

/// What `ask` left, or bytes that have nothing to do with the records.
fn arbitrary(ask: &Case, left: &[u8], chance: &mut Chance) -> Case {
    let machines = record_files(ask).len();
    let (what, answer) = arbitrary::random_answer(left, machines, chance);
    judged(ask, what, &answer, chance)
}

fn judged(ask: &Case, what: &str, answer: &[u8], chance: &mut Chance) -> Case {
    let question = random_question(chance);
    let files = record_files(ask);
    let judgement = Judgement::of(question, answer, &files);
    let records = files.into_iter().cloned().collect();
    let what = format!("{} and {what}", ask.what);
    Case::check(&what, question, answer, records, judgement)
}

/// Mostly none or `may`, as answers to others are not judged.
fn random_question(chance: &mut Chance) -> Option<Question> {
    match chance.below(8) {
        0..4 => None,
        4..7 => Some(Question::May),
        _ => Some(*chance.pick(&Question::ALL)),
    }
}

/// They are named after question and answer.
fn record_files(ask: &Case) -> Vec<&Vec<u8>> {
    let names = ask.words[2..].iter();
    names.map(|name| &ask.files[name]).collect()
}
