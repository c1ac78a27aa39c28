//! The program `all`: goes through all moments of a small run.

use crate::disk;
use crate::reply::{Reply, Trouble};
use crate::survey::Survey;
use std::ffi::OsString;

const USAGE: &str = "\
usage: all RECORD..
RECORD.. are the records, in order of machines, of a run with at most 1000000
cuts.
";

pub fn run(words: &[OsString]) -> Result<Reply, Trouble> {
    if *words == ["--help"] {
        return Ok(Reply::help(USAGE));
    }
    if words.is_empty() {
        return Err(Trouble::new(USAGE));
    }
    let files: Vec<Vec<u8>> = words.iter().map(disk::read).collect::<Result<_, _>>()?;
    let survey = Survey::of(&files);
    let mut output = survey.fixed_lines();
    if let Some(explanation) = survey.explanation() {
        output += explanation;
        output += "\n";
    }
    Ok(Reply {
        output,
        status: survey.status(),
    })
}
