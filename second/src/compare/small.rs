//! Random runs with few cuts, so that all of them can be gone through.

mod letters;
mod sizes;
mod states;

use super::numbers::Numbers;
use super::simulation::Run;
use crate::chance::Chance;
use states::Mood;

pub fn random_run(chance: &mut Chance) -> Run {
    let sizes = sizes::random_sizes(chance);
    run_of_sizes(&sizes, chance)
}

/// A run of so many machines.
pub fn random_run_of(machines: usize, chance: &mut Chance) -> Run {
    let sizes = sizes::random_sizes_of(machines, chance);
    run_of_sizes(&sizes, chance)
}

fn run_of_sizes(sizes: &[usize], chance: &mut Chance) -> Run {
    let mut numbers = Numbers::random(chance);
    let acts = letters::random_acts(sizes, &mut numbers, chance);
    let mood = Mood::random(chance);
    let records = (0..)
        .zip(acts)
        .map(|(machine, acts)| mood.random_record(machine, acts, chance))
        .collect();
    Run { records, numbers }
}

#[cfg(test)]
mod tests {
    use super::*;
    use crate::answer;
    use crate::answers::{Answers, definition};
    use crate::cut::{self, Cut};
    use crate::form;
    use crate::judgement::{Judgement, NOT_SHOWN};
    use crate::may::May;
    use crate::moments::Moments;
    use crate::network::Network;
    use crate::record::{Act, Record};
    use std::iter;

    fn random_records(case: u64) -> Vec<Record> {
        random_run(&mut Chance::new(8, case)).records
    }

    #[test]
    fn records_of_small_runs_are_fine() {
        for case in 1..=1000 {
            let records = random_records(case);
            let files: Vec<Vec<u8>> = records.iter().map(form::write).collect();
            assert!(Network::read(&files).is_ok_and(|network| network.records == records));
            assert!(cut::count(&records) <= sizes::MOST_CUTS as u64);
        }
    }

    /// Runs for which going through all ways does not take long.
    fn tiny_runs() -> impl Iterator<Item = Vec<Record>> {
        let tiny = |records: &Vec<Record>| cut::end(records).iter().sum::<u16>() <= 9;
        (1..=10_000).map(random_records).filter(tiny)
    }

    #[test]
    fn moments_are_those_of_the_definition() {
        for records in tiny_runs() {
            let moments = Moments::new(&records);
            let mut moments: Vec<Cut> = moments.levels(|_| true).flatten().collect();
            moments.sort();
            assert_eq!(moments, definition::moments(&records), "{records:?}");
        }
    }

    #[test]
    fn answers_are_those_of_the_definition() {
        for records in tiny_runs() {
            let answers = definition::answers(&records);
            assert_eq!(Answers::of(&records), answers, "{records:?}");
        }
        assert!(tiny_runs().count() >= 4000);
    }

    #[test]
    fn may_is_that_of_the_definition() {
        for records in tiny_runs() {
            let may = May::of(&records);
            assert_eq!(may, definition::may(&records), "{records:?}");
            assert_eq!(may.first, Answers::of(&records).may, "{records:?}");
        }
    }

    #[test]
    fn the_right_answer_alone_is_shown() {
        for records in tiny_runs().take(500) {
            let files: Vec<Vec<u8>> = records.iter().map(form::write).collect();
            let right = definition::answers(&records).may;
            let cuts = definition::all_cuts(&records).into_iter().map(Some);
            for first in cuts.chain([None]) {
                let answer = answer::write_may(first.as_ref(), 0);
                let judgement = Judgement::of(None, &answer, &files);
                let is_right = judgement == Judgement::Shown;
                assert_eq!(is_right, first == right, "{first:?} {records:?}");
                assert!(is_right || judgement == NOT_SHOWN);
            }
        }
    }

    fn without_letters(mut records: Vec<Record>) -> Vec<Record> {
        for doing in records.iter_mut().flat_map(|record| &mut record.doings) {
            doing.act = Act::Neither;
        }
        records
    }

    #[test]
    fn every_answer_depends_on_letters_often() {
        let mut often = [0; 5];
        for records in (1..=1000).map(random_records) {
            let with = Answers::of(&records);
            let without = Answers::of(&without_letters(records));
            let depends = [
                with.moments != without.moments,
                with.may != without.may,
                with.must != without.must,
                with.least != without.least,
                with.most != without.most,
            ];
            for (count, depends) in iter::zip(&mut often, depends) {
                *count += usize::from(depends);
            }
        }
        assert!(often.iter().all(|&count| count >= 50), "{often:?}");
    }
}
