//! Rings: lists of doings of which each comes right before the next, and the last
//! right before the first.

use crate::record::{Act, Place, Record, acts};
use std::collections::HashMap;

/// From a doing to one right after it. Doings go by their number in order of
/// places.
type Step = (usize, usize);

/// Of the rings of the fewest doings the lowest, from its lowest doing on.
pub fn lowest(records: &[Record]) -> Option<Vec<Place>> {
    let places: Vec<Place> = acts(records).map(|(place, _)| place).collect();
    let count = places.len();
    let peeled_in_front = peeled(all_steps(records), count);
    let steps = turned(peeled(turned(peeled_in_front), count));
    let ring = lowest_ring(&steps, count)?;
    Some(ring.into_iter().map(|doing| places[doing]).collect())
}

/// From each doing to its machine's next, and from each sending to the getting.
fn all_steps(records: &[Record]) -> Vec<Step> {
    let doings: Vec<(Place, Act)> = acts(records).collect();
    let sendings: HashMap<u32, usize> = (0..)
        .zip(&doings)
        .filter_map(|(doing, &(_, act))| match act {
            Act::Sends(letter) => Some((letter, doing)),
            _ => None,
        })
        .collect();
    let mut steps = Vec::new();
    for (doing, &(place, act)) in doings.iter().enumerate() {
        if place.doing > 1 {
            steps.push((doing - 1, doing));
        }
        if let Act::Gets(letter) = act {
            steps.push((sendings[&letter], doing));
        }
    }
    steps
}

/// Takes away the steps from doings that no step leads to, again and again; no
/// ring has such a doing.
fn peeled(mut steps: Vec<Step>, count: usize) -> Vec<Step> {
    let after = links(&steps, count);
    let mut leading_to = vec![0; count];
    for &(_, to) in &steps {
        leading_to[to] += 1;
    }
    let mut loose: Vec<usize> = (0..count).filter(|&doing| leading_to[doing] == 0).collect();
    while let Some(doing) = loose.pop() {
        for &next in &after[doing] {
            leading_to[next] -= 1;
            if leading_to[next] == 0 {
                loose.push(next);
            }
        }
    }
    steps.retain(|&(from, _)| leading_to[from] > 0);
    steps
}

fn turned(steps: Vec<Step>) -> Vec<Step> {
    steps.into_iter().map(|(from, to)| (to, from)).collect()
}

/// Where the steps from each doing lead.
fn links(steps: &[Step], count: usize) -> Vec<Vec<usize>> {
    let mut links = vec![Vec::new(); count];
    for &(from, to) in steps {
        links[from].push(to);
    }
    links
}

/// Looks for the shortest way back to each doing in turn, through higher doings
/// only, so that every ring is met at its lowest doing.
fn lowest_ring(steps: &[Step], count: usize) -> Option<Vec<usize>> {
    let after = links(steps, count);
    let before = links(&turned(steps.to_vec()), count);
    let mut fewest = None;
    for first in (0..count).filter(|&doing| !after[doing].is_empty()) {
        // A ring that is longer, or as long and met later, is of no use.
        let most = fewest.map_or(count, |(way, _)| way - 1);
        let ways = ways_to(first, &before, most);
        if let Some(way) = after[first].iter().filter_map(|&next| ways[next]).min() {
            fewest = Some((way, first));
        }
    }
    let (way, first) = fewest?;
    Some(walk(first, way, &after, &ways_to(first, &before, way)))
}

/// How many steps it takes from each doing to `goal` through doings higher than
/// `goal`, where it can be done in `most` steps.
fn ways_to(goal: usize, before: &[Vec<usize>], most: usize) -> Vec<Option<usize>> {
    let mut ways = vec![None; before.len()];
    ways[goal] = Some(0);
    let mut rim = vec![goal];
    for way in 1..=most {
        let mut farther = Vec::new();
        for &doing in rim.iter().flat_map(|&doing| &before[doing]) {
            if doing > goal && ways[doing].is_none() {
                ways[doing] = Some(way);
                farther.push(doing);
            }
        }
        if farther.is_empty() {
            break;
        }
        rim = farther;
    }
    ways
}

/// The ring from `first` on in which `way` steps lead from the second doing back
/// to the first: always the lowest doing from which there are no more steps than
/// are left.
fn walk(first: usize, way: usize, after: &[Vec<usize>], ways: &[Option<usize>]) -> Vec<usize> {
    let mut ring = vec![first];
    let mut last = first;
    for left in (1..=way).rev() {
        last = *after[last]
            .iter()
            .filter(|&&next| ways[next] == Some(left))
            .min()
            .expect("a way of so many steps was found");
        ring.push(last);
    }
    ring
}

#[cfg(test)]
mod tests {
    use super::*;
    use crate::chance::Chance;
    use crate::record::{Doing, State};

    /// Up to five machines with up to five letters, and more doings without any,
    /// dealt out at random. The last letter may never be got.
    fn random_records(chance: &mut Chance) -> Vec<Record> {
        let after = State {
            sign: true,
            amount: 0,
        };
        let mut records: Vec<Record> = (0..chance.byte(1..=5))
            .map(|machine| Record {
                machine,
                first: after,
                doings: Vec::new(),
            })
            .collect();
        let mut dealt: Vec<Act> = (1..=chance.within(0..=5))
            .flat_map(|letter| [Act::Sends(letter), Act::Gets(letter)])
            .collect();
        if chance.one_in(4) {
            dealt.pop();
        }
        dealt.resize(dealt.len() + chance.below(4), Act::Neither);
        for act in dealt {
            let machines = records.len();
            let doings = &mut records[chance.below(machines)].doings;
            doings.insert(chance.below(doings.len() + 1), Doing { act, after });
        }
        records
    }

    /// Whether one doing comes right before another.
    fn comes_before(one: (Place, Act), other: (Place, Act)) -> bool {
        let next = Place {
            doing: one.0.doing + 1,
            ..one.0
        };
        other.0 == next || matches!((one.1, other.1), (Act::Sends(a), Act::Gets(b)) if a == b)
    }

    /// Adds the rings among all walks that go on from this one and meet no doing
    /// twice.
    fn add_rings(
        walk: &mut Vec<(Place, Act)>,
        doings: &[(Place, Act)],
        rings: &mut Vec<Vec<Place>>,
    ) {
        let last = walk[walk.len() - 1];
        if comes_before(last, walk[0]) {
            let mut ring: Vec<Place> = walk.iter().map(|&(place, _)| place).collect();
            let lowest = (0..ring.len()).min_by_key(|&at| ring[at]).unwrap();
            ring.rotate_left(lowest);
            rings.push(ring);
        }
        for &next in doings {
            if comes_before(last, next) && !walk.contains(&next) {
                walk.push(next);
                add_rings(walk, doings, rings);
                walk.pop();
            }
        }
    }

    /// The lowest ring, from a list of all.
    fn lowest_of_all(records: &[Record]) -> Option<Vec<Place>> {
        let doings: Vec<(Place, Act)> = acts(records).collect();
        let mut rings = Vec::new();
        for &doing in &doings {
            add_rings(&mut vec![doing], &doings, &mut rings);
        }
        rings
            .into_iter()
            .min_by(|one, other| (one.len(), one).cmp(&(other.len(), other)))
    }

    #[test]
    fn no_ring_is_lower() {
        let mut lengths = HashMap::new();
        for case in 1..=20_000 {
            let records = random_records(&mut Chance::new(7, case));
            let ring = lowest(&records);
            assert_eq!(ring, lowest_of_all(&records), "{records:?}");
            *lengths
                .entry(ring.map_or(0, |ring| ring.len()))
                .or_insert(0) += 1;
        }
        for length in [0, 2, 3, 4, 5, 6, 7, 8, 9] {
            assert!(lengths[&length] >= 5, "{length}: {lengths:?}");
        }
    }
}
