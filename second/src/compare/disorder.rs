//! Records out of order, so that doings may come before themselves. No letter is
//! sent twice, got twice or got and never sent.

use super::simulation::{Run, random_state};
use crate::chance::Chance;
use crate::record::{Act, Doing, MOST_DOINGS, Record};

/// A way to bring disorder, and what it is called.
type Way = (&'static str, fn(&mut Run, &mut Chance));

/// The most doings that a ring put in adds to a machine.
const ADDED: usize = 4;

const WAYS: &[Way] = &[
    ("two doings exchanged", |run, chance| {
        let doings = some_doings(run, chance);
        chance.exchange(doings);
    }),
    ("two doings of every machine exchanged", |run, chance| {
        for Record { doings, .. } in &mut run.records {
            chance.exchange(doings);
        }
    }),
    ("a machine turned round", |run, chance| {
        some_doings(run, chance).reverse();
    }),
    ("many doings exchanged", |run, chance| {
        for Record { doings, .. } in &mut run.records {
            for _ in 0..doings.len() {
                chance.exchange(doings);
            }
        }
    }),
    ("a ring put in", put_in_ring),
    ("rings put in", |run, chance| {
        for _ in 0..2 + chance.below(2) {
            put_in_ring(run, chance);
        }
    }),
];

/// Brings disorder in a random way, and tells which.
pub fn random_disorder(run: &mut Run, chance: &mut Chance) -> &'static str {
    let (name, way) = chance.pick(WAYS);
    way(run, chance);
    name
}

fn some_doings<'a>(run: &'a mut Run, chance: &mut Chance) -> &'a mut Vec<Doing> {
    let machines = run.records.len();
    &mut run.records[chance.below(machines)].doings
}

/// Lets some machines that have room each get a letter, and then send one to the
/// next of them. With two letters side by side in place of one there are two ways
/// of the same length.
fn put_in_ring(run: &mut Run, chance: &mut Chance) {
    let room = |record: &&mut Record| record.doings.len() + ADDED <= MOST_DOINGS.into();
    let mut machines: Vec<&mut Record> = run.records.iter_mut().filter(room).collect();
    for _ in 0..machines.len() {
        chance.exchange(&mut machines);
    }
    machines.truncate(1 + chance.below(machines.len().max(1)));
    let letters: Vec<Vec<u32>> = machines
        .iter()
        .map(|_| (0..=chance.below(2)).map(|_| run.numbers.draw()).collect())
        .collect();
    let sent = letters.iter().cycle().skip(1);
    for ((machine, got), sent) in machines.into_iter().zip(&letters).zip(sent) {
        let doings = &mut machine.doings;
        let early = chance.below(doings.len() + 1);
        let late = doings.len().min(early + chance.below(4));
        insert(doings, late, sent, Act::Sends, chance);
        insert(doings, early, got, Act::Gets, chance);
    }
}

/// Puts one doing for each letter before the doing at a place.
fn insert(
    doings: &mut Vec<Doing>,
    at: usize,
    letters: &[u32],
    act: fn(u32) -> Act,
    chance: &mut Chance,
) {
    let doing = |&letter| Doing {
        act: act(letter),
        after: random_state(chance),
    };
    doings.splice(at..at, letters.iter().map(doing));
}

#[cfg(test)]
mod tests {
    use super::super::simulation::random_run;
    use super::*;
    use crate::form;
    use crate::network::Network;
    use crate::refusal::Refusal;
    use std::collections::{BTreeMap, HashSet};

    #[test]
    fn rings_are_of_many_kinds() {
        let (mut lengths, mut widths) = (BTreeMap::new(), BTreeMap::new());
        for case in 1..=1000 {
            let mut chance = Chance::new(6, case);
            let mut run = random_run(&mut chance);
            random_disorder(&mut run, &mut chance);
            let files: Vec<Vec<u8>> = run.records.iter().map(form::write).collect();
            match Network::read(&files).map(|network| network.records) {
                Ok(records) => assert_eq!(records, run.records),
                Err(Refusal::Ring(ring)) => {
                    let machines: HashSet<u8> = ring.iter().map(|place| place.machine).collect();
                    *lengths.entry(ring.len().min(10)).or_insert(0) += 1;
                    *widths.entry(machines.len().min(3)).or_insert(0) += 1;
                }
                Err(refusal) => panic!("{refusal:?}"),
            }
        }
        let kinds = (2..=10).map(|length| &lengths[&length]);
        for &count in kinds.chain((1..=3).map(|width| &widths[&width])) {
            assert!(count >= 10, "{lengths:?} {widths:?}");
        }
    }
}
