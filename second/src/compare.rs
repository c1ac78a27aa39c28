//! The command `compare`: the programs under test against what is expected.

mod alike;
mod asks;
mod case;
mod checks;
mod damage;
mod disorder;
mod expected;
mod fields;
mod fixed;
mod numbers;
mod options;
mod scratch;
mod simulation;
mod small;
mod tally;
mod texts;
mod trial;

use crate::chance::Chance;
use crate::reply::{Reply, Trouble};
use case::{Case, Program};
use options::Options;
use scratch::Scratch;
use std::ffi::OsString;
use std::path::Path;
use tally::Tally;
use trial::{Left, Outcome};

pub fn run(words: &[OsString]) -> Result<Reply, Trouble> {
    let options = Options::read(words)?;
    let mut rig = Rig::new(&options.programs)?;
    let fixed = fixed_cases(&options);
    for (number, case) in (1..).zip(&fixed) {
        // Far from the numbers of random cases.
        let mut chance = Chance::new(options.seed, u64::MAX - number);
        if let Some(difference) = rig.difference(case, &mut chance)? {
            let title = format!("fixed case {number}");
            return Ok(rig.differs(&title, &difference));
        }
    }
    for number in options.random_cases() {
        let mut chance = Chance::new(options.seed, number);
        for case in random_cases(&mut chance) {
            if let Some(difference) = rig.difference(&case, &mut chance)? {
                let title = format!("random case {number} of seed {}", options.seed);
                return Ok(rig.differs(&title, &difference));
            }
        }
    }
    Ok(agrees(&options, fixed.len(), &rig.tally))
}

/// What the cases are run with.
struct Rig<'a> {
    programs: &'a Path,
    scratch: Scratch,
    tally: Tally,
}

impl<'a> Rig<'a> {
    fn new(programs: &'a Path) -> Result<Self, Trouble> {
        look_for_programs(programs)?;
        Ok(Self {
            programs,
            scratch: Scratch::new()?,
            tally: Tally::default(),
        })
    }

    /// Runs a case, and then those that belong to it.
    fn difference(&mut self, case: &Case, chance: &mut Chance) -> Result<Option<String>, Trouble> {
        let left = match trial::run(case, self.programs, self.scratch.folder())? {
            Outcome::Agrees(left) => left,
            Outcome::Differs(how) => return Ok(Some(how)),
        };
        self.tally.add(case);
        for next in nexts(case, &left, chance) {
            let found = self.difference(&next, chance)?;
            if found.is_some() {
                return Ok(found);
            }
        }
        Ok(None)
    }

    /// The end at the first difference, whose files stay.
    fn differs(&mut self, title: &str, difference: &str) -> Reply {
        self.scratch.keep();
        Reply {
            output: format!("compare: {title} differs\n{difference}"),
            status: 1,
        }
    }
}

/// All have to be there, whichever the cases run.
fn look_for_programs(folder: &Path) -> Result<(), Trouble> {
    let paths = Program::EVERY.map(|program| folder.join(program.name()));
    match paths.iter().find(|path| !path.is_file()) {
        Some(path) => Err(Trouble(format!("no program {}", path.display()))),
        None => Ok(()),
    }
}

/// `all` and `check` on what `ask` was given and what it left.
fn nexts(case: &Case, left: &Left, chance: &mut Chance) -> Vec<Case> {
    if case.program != Program::Ask {
        return Vec::new();
    }
    let mut nexts = vec![alike::case(case, &left.output)];
    nexts.extend(checks::cases(case, &left.files, chance));
    nexts
}

/// None when one random case alone is asked for.
fn fixed_cases(options: &Options) -> Vec<Case> {
    match options.only {
        Some(_) => Vec::new(),
        None => fixed::cases(),
    }
}

/// A text or the records of a run, and then the records of a small run.
fn random_cases(chance: &mut Chance) -> [Case; 2] {
    let case = random_case(chance);
    let small = asks::random_small_case(chance);
    [case, with_earlier(small, chance)]
}

/// A text or the records of a run.
fn random_case(chance: &mut Chance) -> Case {
    let case = if chance.one_in(4) {
        texts::random_case(chance)
    } else {
        asks::random_case(chance)
    };
    with_earlier(case, chance)
}

/// A file may already be there where the program writes.
fn with_earlier(case: Case, chance: &mut Chance) -> Case {
    if chance.one_in(3) {
        let length = chance.below(100);
        case.with_earlier(&chance.bytes(length))
    } else {
        case
    }
}

/// What is special about a random case.
fn with_damage(thing: &str, ways: &[&str]) -> String {
    match ways {
        [] => format!("{thing} without damage"),
        _ => format!("{thing} with {}", ways.join(" and ")),
    }
}

/// How many cases there were, and how many of which outcome.
fn agrees(options: &Options, fixed: usize, tally: &Tally) -> Reply {
    Reply {
        output: format!(
            "compare: {} random cases with a small run each (seed {}) and {fixed} fixed ones agree\n{}",
            options.random_cases().count(),
            options.seed,
            tally.in_words()
        ),
        status: 0,
    }
}

#[cfg(test)]
mod tests {
    use super::*;

    /// The cases of a random one, with those that belong to them.
    fn with_nexts(seed: u64, number: u64) -> Vec<Case> {
        let mut chance = Chance::new(seed, number);
        let mut cases = Vec::new();
        for case in random_cases(&mut chance) {
            let left = Left {
                output: Vec::new(),
                files: case.files_after(),
            };
            let nexts = nexts(&case, &left, &mut chance);
            cases.push(case);
            cases.extend(nexts);
        }
        cases
    }

    fn assert_frequent(tally: &Tally, frequent: &[(Program, usize, &[&str])]) {
        for (program, least, sorts) in frequent {
            for sort in *sorts {
                assert!(tally.of(*program, sort) >= *least, "{}", tally.in_words());
            }
        }
    }

    #[test]
    fn every_outcome_is_frequent_among_random_cases() {
        let mut tally = Tally::default();
        for number in 1..=1000 {
            tally.add(&random_case(&mut Chance::new(1, number)));
        }
        let fine_or_refused = [
            "undecided",
            "refused 1",
            "refused 2",
            "refused 3",
            "refused 4",
        ];
        let texts = ["texts encoded", "texts not encoded"];
        assert_frequent(
            &tally,
            &[
                (Program::Ask, 50, &fine_or_refused),
                (Program::Encode, 50, &texts),
            ],
        );
    }

    #[test]
    fn every_outcome_is_frequent_with_small_runs() {
        let mut tally = Tally::default();
        for case in (1..=1000).flat_map(|number| with_nexts(1, number)) {
            tally.add(&case);
        }
        let answers = ["may yes", "may no", "must yes", "must no"];
        let refused = ["refused 1", "refused 2", "refused 3", "refused 4"];
        let frequent = [
            (Program::Ask, 200, &["undecided"][..]),
            (Program::Ask, 50, &refused),
            (Program::Check, 1000, &["shown", "refused 5", "refused 6"]),
            (Program::Check, 300, &["undecided"]),
            (Program::Check, 50, &refused),
            (Program::All, 200, &answers),
            (Program::All, 50, &refused),
            (Program::All, 5, &["too many cuts"]),
            (Program::Encode, 50, &["texts encoded", "texts not encoded"]),
        ];
        assert_frequent(&tally, &frequent);
    }

    #[test]
    fn a_case_can_be_made_again() {
        for number in 1..=50 {
            let words_and_files = || {
                let cases = with_nexts(3, number).into_iter();
                cases
                    .map(|case| (case.words, case.files))
                    .collect::<Vec<_>>()
            };
            assert_eq!(words_and_files(), words_and_files());
        }
    }
}
