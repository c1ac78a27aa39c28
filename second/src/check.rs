//! The program `check`: reads an answer and the machines' records and says whether
//! the answer is shown.

use crate::disk;
use crate::judgement::Judgement;
use crate::question::Question;
use crate::reply::{Reply, Trouble};
use std::ffi::{OsStr, OsString};

const USAGE: &str = "\
usage: check [QUESTION] ANSWER RECORD..
QUESTION is may, must, least or most, and else what the answer says it is;
ANSWER is the file with the answer; RECORD.. are the records, in order of machines.
";

pub fn run(words: &[OsString]) -> Result<Reply, Trouble> {
    if *words == ["--help"] {
        return Ok(Reply::help(USAGE));
    }
    let Some((question, answer, records)) = parted(words) else {
        return Err(Trouble::new(USAGE));
    };
    let answer = disk::read(answer)?;
    let files: Vec<Vec<u8>> = records.iter().map(disk::read).collect::<Result<_, _>>()?;
    let judgement = Judgement::of(question, &answer, &files);
    Ok(Reply {
        output: format!("{}{}\n", judgement.line(), judgement.explanation()),
        status: judgement.status(),
    })
}

/// The question, the answer and the records. A first word that can be a question is
/// one.
pub fn parted<W: AsRef<OsStr>>(words: &[W]) -> Option<(Option<Question>, &W, &[W])> {
    let question = words
        .first()
        .and_then(|word| word.as_ref().to_str())
        .and_then(Question::from_word);
    let rest = &words[usize::from(question.is_some())..];
    let (answer, records) = rest.split_first()?;
    Some((question, answer, records))
}
