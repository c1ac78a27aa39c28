//! `all` on the records that `ask` was run on.

use super::case::{Case, Program};
use super::expected::Expected;
use crate::survey::Survey;
use crate::verdict::Verdict;

/// The case of `all` after one of `ask`, which printed `said`.
pub fn case(ask: &Case, said: &[u8]) -> Case {
    // Question and answer come first.
    let records = ask.words.get(2..).unwrap_or_default();
    Case {
        what: ask.what.clone(),
        program: Program::All,
        words: records.to_vec(),
        files: ask.files.clone(),
        expected: expected(ask, records, said),
    }
}

fn expected(ask: &Case, records: &[String], said: &[u8]) -> Expected {
    let files: Option<Vec<&Vec<u8>>> = records.iter().map(|name| ask.files.get(name)).collect();
    let Some(files) = files.filter(|files| !files.is_empty()) else {
        return Expected::Trouble;
    };
    match &ask.expected {
        Expected::Verdict(Verdict::Refused(refusal)) => {
            Expected::AsAsk(refusal.clone(), said.to_vec())
        }
        _ => Expected::Survey(Survey::of(&files)),
    }
}
