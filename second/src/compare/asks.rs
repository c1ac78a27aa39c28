//! Random cases for `ask`.

use super::case::Case;
use super::simulation::{self, Run};
use super::{damage, disorder, small, with_damage};
use crate::chance::Chance;
use crate::form;
use crate::question::Question;
use crate::verdict::Verdict;

/// The records of a run, often out of order, and often damaged in one or two ways.
pub fn random_case(chance: &mut Chance) -> Case {
    let question = *chance.pick(&Question::ALL);
    let run = simulation::random_run(chance);
    let disorder = chance.one_in(2);
    case_of(
        "records",
        question,
        run,
        disorder,
        &[0, 0, 0, 1, 1, 2],
        chance,
    )
}

/// The records of a small run, mostly as they should be.
pub fn random_small_case(chance: &mut Chance) -> Case {
    let question = *chance.pick(&Question::ALL);
    let run = small::random_run(chance);
    let disorder = chance.one_in(10);
    let damages = &[0, 0, 0, 0, 0, 0, 0, 0, 0, 1];
    case_of(
        "records of a small run",
        question,
        run,
        disorder,
        damages,
        chance,
    )
}

/// One of `damages` is how often damage is done.
fn case_of(
    thing: &str,
    question: Question,
    mut run: Run,
    disorder: bool,
    damages: &[usize],
    chance: &mut Chance,
) -> Case {
    let mut ways = Vec::new();
    if disorder {
        ways.push(disorder::random_disorder(&mut run, chance));
    }
    let mut records: Vec<Vec<u8>> = run.records.iter().map(form::write).collect();
    for _ in 0..*chance.pick(damages) {
        ways.push(damage::random_damage(&mut records, chance));
    }
    let what = with_damage(thing, &ways);
    let verdict = Verdict::of(question, &records);
    Case::ask(&what, question.word(), records, verdict)
}
