//! The program `ask`: reads the machines' records and says what it makes of them.

use crate::disk;
use crate::question::Question;
use crate::reply::{Reply, Trouble};
use crate::verdict::Verdict;
use std::ffi::OsString;

const USAGE: &str = "\
usage: ask QUESTION ANSWER RECORD..
QUESTION is may, must, least or most; ANSWER is the file to write;
RECORD.. are the records, in order of machines.
";

pub fn run(words: &[OsString]) -> Result<Reply, Trouble> {
    if *words == ["--help"] {
        return Ok(Reply::help(USAGE));
    }
    let [question, answer, records @ ..] = words else {
        return Err(Trouble::new(USAGE));
    };
    let question = question
        .to_str()
        .and_then(Question::from_word)
        .ok_or_else(|| Trouble(format!("no such question: {question:?}\n{USAGE}")))?;
    let files: Vec<Vec<u8>> = records.iter().map(disk::read).collect::<Result<_, _>>()?;
    let verdict = Verdict::of(question, &files);
    if let Some(bytes) = verdict.answer() {
        disk::write(answer, &bytes)?;
    }
    Ok(Reply {
        output: format!("{}{}\n", verdict.fixed_lines(), verdict.explanation()),
        status: 1,
    })
}
