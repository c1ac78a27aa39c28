//! Edge cases with their outcomes written out by hand.

mod alls;
mod asks;
mod checks;
mod encodes;
mod limits;
mod mays;
mod rings;

use super::case::Case;

/// What is in the file to be written before the program runs.
const EARLIER: &[u8] = &[0xee; 64];

/// Every case of a program that writes two times: without an earlier file where it
/// may write, and with one.
pub fn cases() -> Vec<Case> {
    let mut cases = asks::cases();
    cases.extend(mays::cases());
    cases.extend(rings::cases());
    cases.extend(encodes::cases());
    let with_earlier: Vec<Case> = cases
        .iter()
        .filter(|case| case.program.writes().is_some())
        .map(|case| case.clone().with_earlier(EARLIER))
        .collect();
    cases.extend(with_earlier);
    cases.extend(checks::cases());
    cases.extend(alls::cases());
    cases.extend(limits::cases());
    cases
}

#[cfg(test)]
mod tests {
    use super::super::expected::Expected;
    use super::*;
    use crate::check;
    use crate::judgement::Judgement;
    use crate::question::Question;
    use crate::survey::Survey;
    use crate::verdict::Verdict;

    fn files<'a>(case: &'a Case, names: &[String]) -> Vec<&'a Vec<u8>> {
        names.iter().map(|name| &case.files[name]).collect()
    }

    #[test]
    fn verdicts_by_hand_are_those_of_the_reader() {
        for case in cases() {
            if let Expected::Verdict(expected) = &case.expected {
                let question = Question::from_word(&case.words[0]).unwrap();
                let verdict = Verdict::of(question, &files(&case, &case.words[2..]));
                assert_eq!(verdict, *expected, "{}", case.what);
            }
        }
    }

    #[test]
    fn judgements_by_hand_are_those_of_check() {
        for case in cases() {
            if let Expected::Judgement(expected) = case.expected {
                let (question, answer, records) = check::parted(&case.words).unwrap();
                let answer = &case.files[answer];
                let judgement = Judgement::of(question, answer, &files(&case, records));
                assert_eq!(judgement, expected, "{}", case.what);
            }
        }
    }

    #[test]
    fn surveys_by_hand_are_those_of_going_through() {
        for case in cases() {
            if let Expected::Survey(expected) = &case.expected {
                let survey = Survey::of(&files(&case, &case.words));
                assert_eq!(survey, *expected, "{}", case.what);
            }
        }
    }
}
