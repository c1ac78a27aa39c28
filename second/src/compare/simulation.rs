//! Random networks whose records are fine.

use super::numbers::Numbers;
use crate::chance::Chance;
use crate::record::{Act, Doing, LARGEST_AMOUNT, MOST_DOINGS, MOST_MACHINES, Record, State};

/// What the machines recorded, and the numbers of letters not yet sent.
pub struct Run {
    pub records: Vec<Record>,
    pub numbers: Numbers,
}

/// Lets the machines do one thing after another, in random turns.
pub fn random_run(chance: &mut Chance) -> Run {
    let mut left = random_sizes(chance);
    let mut records: Vec<Record> = (0..)
        .zip(&left)
        .map(|(machine, _)| Record {
            machine,
            first: random_state(chance),
            doings: Vec::new(),
        })
        .collect();
    let mut numbers = Numbers::random(chance);
    let mut on_the_way = Vec::new();
    for _ in 0..left.iter().sum() {
        let open: Vec<usize> = (0..left.len()).filter(|&turn| left[turn] > 0).collect();
        let turn = *chance.pick(&open);
        left[turn] -= 1;
        records[turn].doings.push(Doing {
            act: random_act(&mut numbers, &mut on_the_way, chance),
            after: random_state(chance),
        });
    }
    Run { records, numbers }
}

/// How many doings each machine has: mostly few of few, now and then the most.
fn random_sizes(chance: &mut Chance) -> Vec<usize> {
    let most = usize::from(MOST_DOINGS);
    if chance.one_in(300) {
        // Sometimes with room for more.
        let size = *chance.pick(&[most, most - 10]);
        return vec![size; MOST_MACHINES.into()];
    }
    let machines = if chance.one_in(40) {
        MOST_MACHINES.into()
    } else {
        1 + chance.below(5)
    };
    let mut sizes: Vec<usize> = (0..machines).map(|_| chance.below(9)).collect();
    if chance.one_in(60) {
        sizes[chance.below(machines)] = most;
    }
    sizes
}

/// A letter that is got may be the machine's own; some are never got.
fn random_act(numbers: &mut Numbers, on_the_way: &mut Vec<u32>, chance: &mut Chance) -> Act {
    match chance.below(3) {
        0 => Act::Neither,
        1 if !on_the_way.is_empty() => {
            Act::Gets(on_the_way.swap_remove(chance.below(on_the_way.len())))
        }
        _ => {
            let letter = numbers.draw();
            on_the_way.push(letter);
            Act::Sends(letter)
        }
    }
}

pub fn random_state(chance: &mut Chance) -> State {
    let anywhere = chance.within(0..=LARGEST_AMOUNT);
    State {
        sign: chance.one_in(2),
        amount: *chance.pick(&[0, 1, LARGEST_AMOUNT - 1, LARGEST_AMOUNT, anywhere, anywhere]),
    }
}

#[cfg(test)]
mod tests {
    use super::*;
    use crate::form;
    use crate::network::Network;

    #[test]
    fn records_of_runs_are_fine() {
        for case in 1..=300 {
            let Run { records, .. } = random_run(&mut Chance::new(5, case));
            let files: Vec<Vec<u8>> = records.iter().map(form::write).collect();
            let network = Network::read(&files).map_err(|refusal| (case, refusal));
            assert_eq!(network.map(|network| network.records), Ok(records));
        }
    }
}
