//! Cuts that an answer could have.

use crate::before::Before;
use crate::chance::Chance;
use crate::cut::{self, Cut};
use crate::may::May;
use crate::record::{Place, Record, acts};

/// Every number up to how many doings there are.
pub fn random_cut(records: &[Record], chance: &mut Chance) -> Cut {
    let below = |&most: &u16| chance.below(usize::from(most) + 1) as u16;
    cut::end(records).iter().map(below).collect()
}

/// All signs are yes, but it need not be a moment.
pub fn random_yes(records: &[Record], chance: &mut Chance) -> Option<Cut> {
    let machine = |record: &Record| {
        let after = record.doings.iter().map(|doing| doing.after);
        let states = [record.first].into_iter().chain(after);
        let yes: Vec<u16> = (0..)
            .zip(states)
            .filter_map(|(behind, state)| state.sign.then_some(behind))
            .collect();
        (!yes.is_empty()).then(|| *chance.pick(&yes))
    };
    records.iter().map(machine).collect()
}

/// A few doings are put behind.
pub fn random_moment(records: &[Record], chance: &mut Chance) -> Cut {
    let mut moment = cut::nothing(records);
    for _ in 0..chance.below(4) {
        put_one_more(&mut moment, records, chance);
    }
    moment
}

/// The next of all yes with some doing more behind it than at the first.
pub fn later_yes(records: &[Record], chance: &mut Chance) -> Option<Cut> {
    let mut moment = May::of(records).first?;
    put_one_more(&mut moment, records, chance);
    May::from_moment(moment, records).first
}

/// Some doing that is not behind, if there is one.
fn put_one_more(moment: &mut Cut, records: &[Record], chance: &mut Chance) {
    let ahead: Vec<Place> = acts(records)
        .map(|(place, _)| place)
        .filter(|place| place.doing > moment[usize::from(place.machine)])
        .collect();
    if !ahead.is_empty() {
        Before::new(records).join(moment, *chance.pick(&ahead));
    }
}
