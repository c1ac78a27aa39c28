//! What the moments of a run say to the four questions.

#[cfg(test)]
pub mod definition;

use crate::cut::{self, Cut};
use crate::may;
use crate::moments::Moments;
use crate::record::Record;
use std::iter;

#[derive(Clone, Debug, PartialEq, Eq)]
pub struct Answers {
    /// How many there are.
    pub moments: usize,
    /// The first at which all signs are yes.
    pub may: Option<Cut>,
    pub must: bool,
    pub least: Extreme,
    pub most: Extreme,
}

/// A sum, and the lowest moment that has it.
#[derive(Clone, Debug, PartialEq, Eq)]
pub struct Extreme {
    pub sum: u64,
    pub at: Cut,
}

impl Answers {
    pub fn of(records: &[Record]) -> Self {
        let moments: Vec<Cut> = Moments::new(records).levels(|_| true).flatten().collect();
        let sums = || moments.iter().map(|moment| cut::sum(moment, records));
        let extreme = |sum: Option<u64>| {
            let sum = sum.expect("there is a moment with nothing behind");
            let at = lowest(&moments, |moment| cut::sum(moment, records) == sum);
            let at = at.expect("the sum is some moment's");
            Extreme { sum, at }
        };
        Self {
            moments: moments.len(),
            may: lowest(&moments, |moment| cut::all_yes(moment, records)),
            must: must(records),
            least: extreme(sums().min()),
            most: extreme(sums().max()),
        }
    }

    /// The lines of standard output.
    pub fn lines(&self) -> String {
        let may = may::line(self.may.as_ref());
        let must = if self.must { "yes" } else { "no" };
        let Self { least, most, .. } = self;
        format!(
            "moments {}\n{may}must {must}\nleast {} at{}\nmost {} at{}\n",
            self.moments,
            least.sum,
            cut::in_words(&least.at),
            most.sum,
            cut::in_words(&most.at),
        )
    }
}

/// Of those wanted the one at which no machine has more doings behind it than at
/// any other.
fn lowest(moments: &[Cut], wanted: impl Fn(&Cut) -> bool) -> Option<Cut> {
    let mut fewest = moments.iter().find(|moment| wanted(moment))?.clone();
    for moment in moments.iter().filter(|moment| wanted(moment)) {
        for (few, &behind) in iter::zip(&mut fewest, moment) {
            *few = behind.min(*few);
        }
    }
    // With moments of all yes, or of the least sum, it is one of them.
    assert!(moments.contains(&fewest) && wanted(&fewest));
    Some(fewest)
}

/// Whether no way leads to the end past all moments of all yes.
fn must(records: &[Record]) -> bool {
    let end = cut::end(records);
    !Moments::new(records)
        .levels(|moment| !cut::all_yes(moment, records))
        .any(|level| level.contains(&end))
}

#[cfg(test)]
mod tests {
    use super::*;

    #[test]
    fn lines_are_to_the_letter() {
        let extreme = |sum, at: &[u16]| Extreme {
            sum,
            at: at.to_vec(),
        };
        let mut answers = Answers {
            moments: 12,
            may: Some(vec![1, 0, 500]),
            must: true,
            least: extreme(0, &[0, 3, 7]),
            most: extreme(40_000_000, &[1, 0, 20]),
        };
        assert_eq!(
            answers.lines(),
            "moments 12\nmay yes 1 0 500\nmust yes\nleast 0 at 0 3 7\nmost 40000000 at 1 0 20\n"
        );
        (answers.may, answers.must) = (None, false);
        assert_eq!(
            answers.lines(),
            "moments 12\nmay no\nmust no\nleast 0 at 0 3 7\nmost 40000000 at 1 0 20\n"
        );
    }
}
