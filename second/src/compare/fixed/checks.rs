//! Edge cases for `check`.

use super::alls::records;
use super::mays::{AT_FIRST, AT_LAST, IN_TURNS, NEVER, ON_THE_WAY, Row, SEVERAL};
use crate::compare::case::{ANSWER, Case, Program};
use crate::compare::expected::Expected;
use crate::judgement::Judgement::{self, Refused, Shown, Undecided};
use crate::question::Question::{self, Least, May, Most, Must};

/// What is special, the run, the bytes before the counts, and the judgement.
type Claim = (&'static str, Row, &'static [u8], Judgement);

#[rustfmt::skip]
const CLAIMS: &[Claim] = &[
    ("the first moment", AT_LAST, &[77, 1, 1, 0, 1, 0, 1], Shown),
    ("nothing behind", AT_LAST, &[77, 1, 1, 0, 0, 0, 0], Refused(6)),
    ("one doing too few", AT_LAST, &[77, 1, 1, 0, 1, 0, 0], Refused(6)),
    ("the other doing too few", AT_LAST, &[77, 1, 1, 0, 0, 0, 1], Refused(6)),
    ("no for yes", AT_LAST, &[77, 1, 0], Refused(6)),
    ("one doing beyond the end", AT_LAST, &[77, 1, 1, 0, 2, 0, 1], Refused(5)),
    ("one doing beyond the other's end", AT_LAST, &[77, 1, 1, 0, 1, 0, 2], Refused(5)),
    ("256 doings beyond the end", AT_LAST, &[77, 1, 1, 1, 1, 0, 1], Refused(5)),
    ("256 doings beyond the other's end", AT_LAST, &[77, 1, 1, 0, 1, 1, 1], Refused(5)),
    ("as far as two bytes go", AT_LAST, &[77, 1, 1, 255, 255, 255, 255], Refused(5)),
    ("low bytes first", AT_LAST, &[77, 1, 1, 1, 0, 1, 0], Refused(5)),
    ("yes without a cut", AT_LAST, &[77, 1, 1], Refused(5)),
    ("no with a cut", AT_LAST, &[77, 1, 0, 0, 1, 0, 1], Refused(5)),
    ("yes for no without a cut", NEVER, &[77, 1, 1], Refused(5)),
    ("a cut of one machine", AT_LAST, &[77, 1, 1, 0, 1], Refused(5)),
    ("a cut of three machines", AT_LAST, &[77, 1, 1, 0, 1, 0, 1, 0, 0], Refused(5)),
    ("a byte for each machine", AT_LAST, &[77, 1, 1, 1, 1], Refused(5)),
    ("a byte too few", AT_LAST, &[77, 1, 1, 0, 1, 0], Refused(5)),
    ("a byte too many", AT_LAST, &[77, 1, 1, 0, 1, 0, 1, 0], Refused(5)),
    ("nothing but counts", AT_LAST, &[], Refused(5)),
    ("the first byte of a refusal", AT_LAST, &[78, 1, 1, 0, 1, 0, 1], Refused(5)),
    ("the first byte of a record", AT_LAST, &[82, 1, 1, 0, 1, 0, 1], Refused(5)),
    ("nothing has to be behind", AT_FIRST, &[77, 1, 1, 0, 0, 0, 0], Shown),
    ("one doing too many", AT_FIRST, &[77, 1, 1, 0, 1, 0, 0], Refused(6)),
    ("the end", AT_FIRST, &[77, 1, 1, 0, 1, 0, 1], Refused(6)),
    ("no for yes at first", AT_FIRST, &[77, 1, 0], Refused(6)),
    ("one of two moments", IN_TURNS, &[77, 1, 1, 0, 0, 0, 1], Shown),
    ("the other of two moments", IN_TURNS, &[77, 1, 1, 0, 2, 0, 1], Refused(6)),
    ("a sign no between them", IN_TURNS, &[77, 1, 1, 0, 1, 0, 1], Refused(6)),
    ("a doing beyond the end that the other has", IN_TURNS, &[77, 1, 1, 0, 3, 0, 1], Refused(5)),
    ("the letter on its way", ON_THE_WAY, &[77, 1, 1, 0, 1, 0, 0], Shown),
    ("the letter got", ON_THE_WAY, &[77, 1, 1, 0, 1, 0, 1], Refused(6)),
    ("no letter yet", ON_THE_WAY, &[77, 1, 1, 0, 0, 0, 0], Refused(6)),
    ("the letter got and not sent", ON_THE_WAY, &[77, 1, 1, 0, 0, 0, 1], Refused(6)),
    ("no such moment", NEVER, &[77, 1, 0], Shown),
    ("all yes at a cut that is no moment", NEVER, &[77, 1, 1, 0, 0, 0, 1], Refused(6)),
    ("yes for no", NEVER, &[77, 1, 1, 0, 1, 0, 1], Refused(6)),
    ("yes for no and beyond the end", NEVER, &[77, 1, 1, 0, 1, 0, 2], Refused(5)),
    ("the first of several", SEVERAL, &[77, 1, 1, 0, 1, 0, 1], Shown),
    ("the last of several", SEVERAL, &[77, 1, 1, 0, 2, 0, 2], Refused(6)),
    ("a later one of several", SEVERAL, &[77, 1, 1, 0, 1, 0, 2], Refused(6)),
];

/// What is special, the question, the whole answer, and the judgement; the run is that
/// of yes at last.
#[rustfmt::skip]
const QUESTIONS: &[(&str, Option<Question>, &[u8], Judgement)] = &[
    ("must and a good answer to may", Some(Must), AT_LAST.bytes, Undecided),
    ("least and a good answer to may", Some(Least), AT_LAST.bytes, Undecided),
    ("most and a good answer to may", Some(Most), AT_LAST.bytes, Undecided),
    ("must and nothing", Some(Must), &[], Undecided),
    ("least and a refusal", Some(Least), &[78, 3, 1, 0, 1], Undecided),
    ("most and an answer to must", Some(Most), &[77, 2, 0, 0, 1], Undecided),
    ("must and an answer to it", Some(Must), &[77, 2, 0, 0, 1], Undecided),
    ("an answer to must", None, &[77, 2, 0, 0, 1], Undecided),
    ("an answer to least", None, &[77, 3, 1], Undecided),
    ("the beginning of an answer to most", None, &[77, 4], Undecided),
    ("may and an answer to must", Some(May), &[77, 2, 0, 0, 1], Refused(5)),
    ("may and the beginning of an answer to most", Some(May), &[77, 4], Refused(5)),
    ("the beginning of an answer to may", None, &[77, 1], Refused(5)),
    ("the beginning of an answer to kind 0", None, &[77, 0], Refused(5)),
    ("the beginning of an answer to kind 5", None, &[77, 5], Refused(5)),
    ("a first byte alone", None, &[77], Refused(5)),
    ("nothing", None, &[], Refused(5)),
    ("may and nothing", Some(May), &[], Refused(5)),
    ("a refusal", None, &[78, 3, 1, 0, 1], Refused(5)),
    ("a refusal by 2", None, &[78, 2, 1, 0, 1], Refused(5)),
    ("may and a refusal", Some(May), &[78, 3, 1, 0, 1], Refused(5)),
];

/// The records, and by what they are refused.
const FAULTY: &[(&[&str], u8)] = &[
    (&["no 0\nyes 0 sends 7\nno 0 sends 7"], 2),
    (&["no 0\nyes 0", "no 0\nyes 0 gets 7"], 3),
    (&["no 0\nyes 0 gets 7\nno 0 sends 7"], 4),
];

/// The words, and what comes of them. `fine` and `faulty` are records, `answer`, `may`
/// and `May` are answers to `may` of the run of `fine` alone.
#[rustfmt::skip]
const USAGE: &[(&str, &[&str], Expected)] = &[
    ("help", &["--help"], Expected::Help),
    ("no words", &[], Expected::Trouble),
    ("may alone", &["may"], Expected::Trouble),
    ("must alone", &["must"], Expected::Trouble),
    ("least alone", &["least"], Expected::Trouble),
    ("most alone", &["most"], Expected::Trouble),
    ("an empty word", &[""], Expected::Trouble),
    ("an empty word for the answer", &["", "fine"], Expected::Trouble),
    ("an answer that is not there", &["missing", "fine"], Expected::Trouble),
    ("an answer that is not there, alone", &["missing"], Expected::Trouble),
    ("may and an answer that is not there", &["may", "missing", "fine"], Expected::Trouble),
    ("must and an answer that is not there", &["must", "missing", "fine"], Expected::Trouble),
    ("faulty records and an answer that is not there", &["missing", "faulty"], Expected::Trouble),
    ("a record file that is not there", &["answer", "missing"], Expected::Trouble),
    ("must and a record file that is not there", &["must", "answer", "missing"], Expected::Trouble),
    ("a second record file that is not there", &["may", "answer", "fine", "missing"], Expected::Trouble),
    ("a faulty record file and one that is not there", &["answer", "faulty", "missing"], Expected::Trouble),
    ("a folder for the answer", &[".", "fine"], Expected::Trouble),
    ("a folder for a record file", &["answer", "."], Expected::Trouble),
    ("two questions", &["may", "must", "fine"], Expected::Trouble),
    ("an answer and its record", &["answer", "fine"], judged(Shown)),
    ("may, an answer and its record", &["may", "answer", "fine"], judged(Shown)),
    ("most, an answer and its record", &["most", "answer", "fine"], judged(Undecided)),
    ("an answer with the name of its question", &["may", "may", "fine"], judged(Shown)),
    ("an answer with another case of a question", &["May", "fine"], judged(Shown)),
    ("a question, though there is such a file", &["may", "fine"], judged(Refused(1))),
    ("a question after the answer", &["answer", "may", "fine"], judged(Refused(1))),
    ("no record file", &["answer"], judged(Refused(1))),
    ("may and no record file", &["may", "answer"], judged(Refused(1))),
    ("must and no record file", &["must", "answer"], judged(Refused(1))),
    ("a faulty record", &["answer", "faulty"], judged(Refused(1))),
    ("must and a faulty record", &["must", "answer", "faulty"], judged(Refused(1))),
    ("answer and record exchanged", &["fine", "answer"], judged(Refused(1))),
    ("a record for the answer", &["fine", "fine"], judged(Refused(5))),
    ("a faulty record for the answer", &["faulty", "fine"], judged(Refused(5))),
    ("one record too many", &["answer", "fine", "fine"], judged(Refused(1))),
];

const fn judged(judgement: Judgement) -> Expected {
    Expected::Judgement(judgement)
}

pub fn cases() -> Vec<Case> {
    let mut cases = Vec::new();
    for &(what, run, said, judgement) in CLAIMS {
        for counts in [[0; 16], [255; 16]] {
            cases.extend(twice(what, run, &[said, &counts].concat(), judgement));
        }
    }
    for &(what, question, answer, judgement) in QUESTIONS {
        let files = records(AT_LAST.texts);
        cases.push(Case::check(what, question, answer, files, judgement));
    }
    cases.extend(bytes());
    cases.extend(lengths());
    cases.extend(faulty());
    cases.extend(usage());
    cases
}

/// With and without the question named.
fn twice(what: &str, run: Row, answer: &[u8], judgement: Judgement) -> [Case; 2] {
    [None, Some(May)]
        .map(|question| Case::check(what, question, answer, records(run.texts), judgement))
}

/// Every byte for the first, the kind and the flag.
fn bytes() -> Vec<Case> {
    let mut cases = Vec::new();
    for run in [AT_LAST, NEVER] {
        for (at, name) in ["first byte", "kind", "flag"].iter().enumerate() {
            for byte in 0..=255 {
                let mut answer = run.bytes.to_vec();
                answer[at] = byte;
                let judgement = match (at, byte) {
                    (1, 2..=4) => Undecided,
                    _ if byte == run.bytes[at] => Shown,
                    _ => Refused(5),
                };
                let what = format!("{name} {byte}");
                let files = records(run.texts);
                cases.push(Case::check(&what, None, &answer, files, judgement));
            }
        }
    }
    cases
}

/// Answers cut short, and longer ones, up to such as are alike in the last bytes of
/// their lengths.
fn lengths() -> Vec<Case> {
    let mut cases = Vec::new();
    for run in [AT_LAST, NEVER] {
        let right = run.bytes.len();
        let more = [1, 2, 4, 8, 16, 256, 4096, 5009, 65_536, 1_000_000];
        for length in (0..right).chain(more.map(|more| right + more)) {
            let mut answer = run.bytes.to_vec();
            answer.resize(length, 0);
            let what = format!("an answer of {length} bytes for {right}");
            cases.extend(twice(&what, run, &answer, Refused(5)));
        }
    }
    cases
}

/// Whatever the answer and the question.
fn faulty() -> Vec<Case> {
    let mut cases = Vec::new();
    for &(texts, number) in FAULTY {
        let refusal = &[78, number, 0, 0, 1];
        for answer in [AT_LAST.bytes, NEVER.bytes, refusal, &[77, 2], &[]] {
            for question in [None, Some(May), Some(Must)] {
                let what = format!("records refused by {number}");
                let files = records(texts);
                cases.push(Case::check(&what, question, answer, files, Refused(number)));
            }
        }
    }
    cases
}

fn usage() -> impl Iterator<Item = Case> {
    let answer = [&[77, 1, 1, 0, 0][..], &[0; 16]].concat();
    USAGE.iter().map(move |(what, words, expected)| {
        Case::new(Program::Check, what, words, expected.clone())
            .with_file("fine", &records(&["yes 5"])[0])
            .with_file("faulty", b"no record")
            .with_file(ANSWER, &answer)
            .with_file("may", &answer)
            .with_file("May", &answer)
    })
}
