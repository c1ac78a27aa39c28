//! The answers word by word as the rules have them, for runs of very few doings.

use super::{Answers, Extreme};
use crate::cut::{self, Cut};
use crate::may::May;
use crate::record::{Act, Place, Record, acts};
use std::iter;

pub fn answers(records: &[Record]) -> Answers {
    let moments = moments(records);
    let yes = |moment: &Cut| cut::all_yes(moment, records);
    let sums = || moments.iter().map(|moment| cut::sum(moment, records));
    let extreme = |sum: Option<u64>| Extreme {
        sum: sum.unwrap(),
        at: first(&moments, |moment| Some(cut::sum(moment, records)) == sum).unwrap(),
    };
    Answers {
        moments: moments.len(),
        may: first(&moments, yes),
        must: every_way_has(&vec![0; records.len()], &moments, &yes),
        least: extreme(sums().min()),
        most: extreme(sums().max()),
    }
}

/// The search with all that comes before a doing taken from the definition.
pub fn may(records: &[Record]) -> May {
    let before = comes_before(records);
    let mut cut = cut::nothing(records);
    let mut pairs = 0;
    loop {
        let Some(machine) = cut::lowest_no(&cut, records) else {
            let first = Some(cut);
            return May { first, pairs };
        };
        let doing = cut[usize::from(machine)] + 1;
        if doing > cut::end(records)[usize::from(machine)] {
            return May { first: None, pairs };
        }
        let next = Place { machine, doing };
        let earlier = before.iter().filter(|&&(_, to)| to == next);
        for place in earlier.map(|&(from, _)| from).chain([next]) {
            let behind = &mut cut[usize::from(place.machine)];
            *behind = place.doing.max(*behind);
        }
        pairs += records.len() as u64;
    }
}

/// Every cut is looked at; they come in order.
pub fn moments(records: &[Record]) -> Vec<Cut> {
    let before = comes_before(records);
    let mut cuts = all_cuts(records);
    cuts.retain(|cut| is_moment(cut, &before));
    cuts
}

/// Of those wanted the one with the fewest doings behind it.
fn first(moments: &[Cut], wanted: impl Fn(&Cut) -> bool) -> Option<Cut> {
    let wanted = moments.iter().filter(|moment| wanted(moment));
    wanted.min_by_key(|moment| behind(moment)).cloned()
}

/// How many doings in all.
fn behind(cut: &Cut) -> u16 {
    cut.iter().sum()
}

/// The pairs of doings of which one comes before the other.
fn comes_before(records: &[Record]) -> Vec<(Place, Place)> {
    let doings: Vec<(Place, Act)> = acts(records).collect();
    let mut before = Vec::new();
    for &one in &doings {
        before.extend(
            doings
                .iter()
                .filter(|&&other| in_one_step(one, other))
                .map(|&(other, _)| (one.0, other)),
        );
    }
    for &(between, _) in &doings {
        let ends = before.iter().filter(|&&(_, to)| to == between);
        let begins = || before.iter().filter(|&&(from, _)| from == between);
        let joined: Vec<(Place, Place)> = ends
            .flat_map(|&(from, _)| begins().map(move |&(_, to)| (from, to)))
            .collect();
        before.extend(joined);
    }
    before
}

fn in_one_step((one, act): (Place, Act), (other, later): (Place, Act)) -> bool {
    (one.machine == other.machine && one.doing < other.doing)
        || matches!((act, later), (Act::Sends(a), Act::Gets(b)) if a == b)
}

pub fn all_cuts(records: &[Record]) -> Vec<Cut> {
    let mut cuts = vec![Cut::new()];
    for most in cut::end(records) {
        cuts = cuts
            .iter()
            .flat_map(|cut| (0..=most).map(|behind| [&cut[..], &[behind]].concat()))
            .collect();
    }
    cuts
}

fn is_moment(cut: &Cut, before: &[(Place, Place)]) -> bool {
    let is_behind = |place: Place| place.doing <= cut[usize::from(place.machine)];
    before
        .iter()
        .all(|&(one, other)| is_behind(one) || !is_behind(other))
}

/// Whether every way from a moment to the end has a moment of all yes.
fn every_way_has(moment: &Cut, moments: &[Cut], yes: &impl Fn(&Cut) -> bool) -> bool {
    let mut nexts = moments
        .iter()
        .filter(|next| behind(next) == behind(moment) + 1)
        .filter(|next| iter::zip(moment, *next).all(|(few, more)| few <= more))
        .peekable();
    yes(moment) || (nexts.peek().is_some() && nexts.all(|next| every_way_has(next, moments, yes)))
}
