//! Edge cases for `all`.

use crate::answers::{Answers, Extreme};
use crate::compare::case::{Case, Program};
use crate::compare::expected::Expected;
use crate::form;
use crate::record::{MOST_DOINGS, MOST_MACHINES, Place};
use crate::refusal::Refusal;
use crate::survey::Survey;
use crate::text;

/// A sum, and the lowest moment that has it.
type Sum<'a> = (u64, &'a [u16]);

/// How many moments there are, the first of all yes, whether every way has one, the
/// least and the most.
type Told<'a> = (usize, Option<&'a [u16]>, bool, Sum<'a>, Sum<'a>);

/// What is special, each machine's record as people write it, and the answers.
type Row = (&'static str, &'static [&'static str], Told<'static>);

#[rustfmt::skip]
const ALONE: &[Row] = &[
    ("no doings and yes", &["yes 7"], (1, Some(&[0]), true, (7, &[0]), (7, &[0]))),
    ("no doings and no", &["no 0"], (1, None, false, (0, &[0]), (0, &[0]))),
    ("a letter to oneself", &["no 3\nno 2 sends 7\nyes 1 gets 7"], (3, Some(&[2]), true, (1, &[2]), (3, &[0]))),
    ("yes between", &["no 4\nyes 9\nno 4\nyes 0"], (4, Some(&[1]), true, (0, &[3]), (9, &[1]))),
    ("never yes", &["no 1\nno 2\nno 1"], (3, None, false, (1, &[0]), (2, &[1]))),
    ("one of two without doings, and no", &["no 1", "yes 2\nyes 3"], (2, None, false, (3, &[0, 0]), (4, &[0, 1]))),
    ("one of two without doings, and yes", &["no 2\nyes 3\nno 2", "yes 1"],
        (3, Some(&[1, 0]), true, (3, &[0, 0]), (4, &[1, 0]))),
];

#[rustfmt::skip]
const SIGNS: &[Row] = &[
    ("yes at last", &["no 0\nyes 0", "no 0\nyes 0"], (4, Some(&[1, 1]), true, (0, &[0, 0]), (0, &[0, 0]))),
    ("yes at first", &["yes 0\nno 0", "yes 0\nno 0"], (4, Some(&[0, 0]), true, (0, &[0, 0]), (0, &[0, 0]))),
    ("yes in turns", &["yes 0\nno 0\nyes 0", "no 0\nyes 0\nno 0"],
        (9, Some(&[0, 1]), false, (0, &[0, 0]), (0, &[0, 0]))),
    ("yes from the sending to the getting", &["no 0\nyes 0 sends 7", "yes 0\nno 0 gets 7"],
        (3, Some(&[1, 0]), true, (0, &[0, 0]), (0, &[0, 0]))),
    ("yes from the sending to the getting, upside down", &["yes 0\nno 0 gets 7", "no 0\nyes 0 sends 7"],
        (3, Some(&[0, 1]), true, (0, &[0, 0]), (0, &[0, 0]))),
    ("the same without the letter", &["no 0\nyes 0", "yes 0\nno 0"],
        (4, Some(&[1, 0]), false, (0, &[0, 0]), (0, &[0, 0]))),
    ("the same with a letter never got", &["no 0\nyes 0 sends 7", "yes 0\nno 0"],
        (4, Some(&[1, 0]), false, (0, &[0, 0]), (0, &[0, 0]))),
    ("yes before the sending and after the getting", &["yes 0\nno 0 sends 7", "no 0\nyes 0 gets 7"],
        (3, None, false, (0, &[0, 0]), (0, &[0, 0]))),
    ("a letter and the reply hold a way", &["no 0\nyes 0 sends 1\nno 0 gets 2", "no 0\nyes 0 gets 1\nyes 0 sends 2\nno 0"],
        (7, Some(&[1, 1]), true, (0, &[0, 0]), (0, &[0, 0]))),
    ("the reply alone does not", &["no 0\nyes 0\nno 0 gets 2", "no 0\nyes 0\nyes 0 sends 2\nno 0"],
        (10, Some(&[1, 1]), false, (0, &[0, 0]), (0, &[0, 0]))),
    ("without letters nothing does", &["no 0\nyes 0\nno 0", "no 0\nyes 0\nyes 0\nno 0"],
        (12, Some(&[1, 1]), false, (0, &[0, 0]), (0, &[0, 0]))),
    ("two letters that cross hold a way", &["no 0\nyes 0 sends 1\nno 0 gets 2", "no 0\nyes 0 sends 2\nno 0 gets 1"],
        (7, Some(&[1, 1]), true, (0, &[0, 0]), (0, &[0, 0]))),
    ("one of them does not", &["no 0\nyes 0 sends 1\nno 0", "no 0\nyes 0 sends 2\nno 0 gets 1"],
        (8, Some(&[1, 1]), false, (0, &[0, 0]), (0, &[0, 0]))),
    ("every way has one, but not the first", &["no 0\nyes 0\nyes 0", "no 0\nyes 0\nyes 0"],
        (9, Some(&[1, 1]), true, (0, &[0, 0]), (0, &[0, 0]))),
    ("a way may go past the first, but not past the end", &["no 0\nyes 0\nno 0\nyes 0", "no 0\nyes 0\nno 0\nyes 0"],
        (16, Some(&[1, 1]), true, (0, &[0, 0]), (0, &[0, 0]))),
    ("a way through three machines", &["no 10\nyes 4 sends 1", "yes 0\nyes 6 gets 1\nyes 1 sends 2", "yes 0\nno 5 gets 2"],
        (5, Some(&[1, 0, 0]), true, (4, &[1, 0, 0]), (10, &[0, 0, 0]))),
    ("a machine in the way", &["no 10\nyes 4 sends 1", "no 0\nyes 6 gets 1\nno 1 sends 2", "yes 0\nno 5 gets 2"],
        (5, Some(&[1, 1, 0]), true, (4, &[1, 0, 0]), (10, &[0, 0, 0]))),
];

#[rustfmt::skip]
const SUMS: &[Row] = &[
    ("amounts with a letter", &["no 5\nyes 0 sends 7", "yes 0\nno 5 gets 7"],
        (3, Some(&[1, 0]), true, (0, &[1, 0]), (5, &[0, 0]))),
    ("several of the least and of the most", &["yes 1\nyes 0\nyes 0\nyes 1", "yes 2\nyes 2\nyes 1\nyes 1"],
        (16, Some(&[0, 0]), true, (1, &[1, 2]), (3, &[0, 0]))),
    ("several of the most, later", &["no 0\nno 5\nno 5", "no 3\nno 4\nno 4"], (9, None, false, (3, &[0, 0]), (9, &[1, 1]))),
    ("a letter that costs less than it brings", &["no 5\nno 6 sends 7", "no 5\nno 0 gets 7"],
        (3, None, false, (6, &[1, 1]), (11, &[1, 0]))),
    ("a letter that costs what it brings", &["no 5\nno 7 sends 7", "no 5\nno 3 gets 7"],
        (3, None, false, (10, &[0, 0]), (12, &[1, 0]))),
    ("a letter that brings first and costs later", &["no 7\nno 5 sends 7", "no 3\nno 5 gets 7"],
        (3, None, false, (8, &[1, 0]), (10, &[0, 0]))),
    ("the least of each not at one moment", &["no 0\nno 9 sends 7", "no 9\nno 0 gets 7"],
        (3, None, false, (9, &[0, 0]), (18, &[1, 0]))),
    ("the most of each not at one moment", &["no 9\nno 0 sends 7", "no 0\nno 9 gets 7"],
        (3, None, false, (0, &[1, 0]), (9, &[0, 0]))),
    ("the largest amounts", &["no 1000000\nno 0", "no 0\nno 1000000"],
        (4, None, false, (0, &[1, 0]), (2_000_000, &[0, 1]))),
    ("a letter never got", &["no 0\nyes 1 sends 7", "no 0\nyes 1"], (4, Some(&[1, 1]), true, (0, &[0, 0]), (2, &[1, 1]))),
    ("a later letter got earlier", &["no 0\nno 1 sends 1\nno 0 sends 2", "no 0\nno 1 gets 2\nno 0 gets 1"],
        (5, None, false, (0, &[0, 0]), (1, &[1, 0]))),
    ("letters alike but for one byte", &["no 0\nno 0 sends 1\nno 0 sends 257", "no 0\nno 1 gets 257"],
        (4, None, false, (0, &[0, 0]), (1, &[2, 1]))),
];

/// The words, and what comes of them. The files `fine` and `faulty` are there.
#[rustfmt::skip]
const USAGE: &[(&str, &[&str], Expected)] = &[
    ("help", &["--help"], Expected::Help),
    ("no words", &[], Expected::Trouble),
    ("a record file that is not there", &["missing"], Expected::Trouble),
    ("a second record file that is not there", &["fine", "missing"], Expected::Trouble),
    ("a faulty record file and one that is not there", &["faulty", "missing"], Expected::Trouble),
    ("a folder for a record file", &["."], Expected::Trouble),
    ("an empty word", &[""], Expected::Trouble),
    ("a question", &["may", "answer", "fine"], Expected::Trouble),
    ("a faulty record", &["faulty"], Expected::Survey(Survey::Refused(Refusal::NotInForm(Place { machine: 0, doing: 0 })))),
];

pub fn cases() -> Vec<Case> {
    let rows = [ALONE, SIGNS, SUMS].concat();
    let mut cases: Vec<Case> = rows
        .into_iter()
        .map(|(what, texts, told)| Case::all(what, records(texts), done(told)))
        .collect();
    cases.push(never_sent());
    cases.push(many_doings());
    cases.push(many_machines());
    cases.extend(usage());
    cases
}

pub fn done((moments, may, must, least, most): Told) -> Survey {
    let extreme = |(sum, at): Sum| Extreme {
        sum,
        at: at.to_vec(),
    };
    Survey::Done(Answers {
        moments,
        may: may.map(<[u16]>::to_vec),
        must,
        least: extreme(least),
        most: extreme(most),
    })
}

/// From texts as people write them.
pub fn records<T: AsRef<str>>(texts: &[T]) -> Vec<Vec<u8>> {
    (0..)
        .zip(texts)
        .map(|(machine, text)| {
            let record = text::read(machine, text.as_ref().as_bytes());
            form::write(&record.expect("the text is one of a record"))
        })
        .collect()
}

fn never_sent() -> Case {
    let files = records(&["no 0\nyes 0", "no 0\nyes 0 gets 7"]);
    let place = Place {
        machine: 1,
        doing: 1,
    };
    let survey = Survey::Refused(Refusal::NeverSent(place));
    Case::all("a letter got and never sent", files, survey)
}

/// As many as a machine can have.
fn many_doings() -> Case {
    let doings: String = (1..=MOST_DOINGS)
        .map(|doing| format!("\nno {doing}"))
        .collect();
    let files = records(&[format!("no 0{doings}")]);
    let told = (501, None, false, (0, &[0][..]), (500, &[500][..]));
    Case::all("500 doings", files, done(told))
}

/// As many as there can be, with the largest amounts.
fn many_machines() -> Case {
    let files = records(&["yes 1000000"; MOST_MACHINES as usize]);
    let nothing = &[0; 40][..];
    let sum = (40_000_000, nothing);
    Case::all(
        "40 machines",
        files,
        done((1, Some(nothing), true, sum, sum)),
    )
}

fn usage() -> impl Iterator<Item = Case> {
    USAGE.iter().map(|(what, words, expected)| {
        Case::new(Program::All, what, words, expected.clone())
            .with_file("fine", &records(&["yes 5"])[0])
            .with_file("faulty", b"no record")
    })
}
