//! Edge cases for `ask`.

use crate::compare::case::{Case, Program};
use crate::compare::expected::Expected;
use crate::compare::fields::{
    AMOUNT, COUNT, FIRST_AMOUNT, FIRST_SIGN, KIND, LETTER, MACHINE, SIGN, at,
};
use crate::form::{self, DOING};
use crate::question::Question;
use crate::record::Act::{self, Gets as G, Neither as N, Sends as S};
use crate::record::{Doing, Place, Record, State};
use crate::refusal::Refusal;
use crate::verdict::Verdict;

/// Bytes put over those of a file, from a place in it on.
type Change = (usize, usize, &'static [u8]);

/// What is special, what each machine does, the changes, and the verdict.
type Row = (
    &'static str,
    &'static [&'static [Act]],
    &'static [Change],
    Verdict,
);

const MILLION: &[u8] = &[0x00, 0x0f, 0x42, 0x40];
const MILLION_AND_ONE: &[u8] = &[0x00, 0x0f, 0x42, 0x41];

/// A machine that sends itself a letter.
const PAIR: &[&[Act]] = &[&[S(7), G(7)]];
const TWO: &[&[Act]] = &[&[S(7), N], &[G(7), N]];

const fn refused(number: u8, machine: u8, doing: u16) -> Verdict {
    let place = Place { machine, doing };
    Verdict::Refused(match number {
        1 => Refusal::NotInForm(place),
        2 => Refusal::Twice(place),
        3 => Refusal::NeverSent(place),
        _ => panic!("no such refusal"),
    })
}

const fn fine(machines: usize, doings: usize, letters: usize) -> Verdict {
    Verdict::Undecided {
        question: Question::May,
        machines,
        doings,
        letters,
    }
}

#[rustfmt::skip]
const HEADS: &[Row] = &[
    ("first byte 83", PAIR, &[(0, 0, &[83])], refused(1, 0, 0)),
    ("first byte 81", PAIR, &[(0, 0, &[81])], refused(1, 0, 0)),
    ("first byte 78", PAIR, &[(0, 0, &[78])], refused(1, 0, 0)),
    ("first byte 0 in file 1", TWO, &[(1, 0, &[0])], refused(1, 1, 0)),
    ("machine 1 in file 0", PAIR, &[(0, MACHINE, &[1])], refused(1, 0, 0)),
    ("machine 2 in file 1", TWO, &[(1, MACHINE, &[2])], refused(1, 1, 0)),
    ("machine 0 in file 1", TWO, &[(1, MACHINE, &[0])], refused(1, 1, 0)),
    ("machine 255 in file 1", TWO, &[(1, MACHINE, &[255])], refused(1, 1, 0)),
    ("two files exchanged", TWO, &[(0, MACHINE, &[1]), (1, MACHINE, &[0])], refused(1, 0, 0)),
    ("no at first", PAIR, &[(0, FIRST_SIGN, &[0])], fine(1, 2, 1)),
    ("sign 2 at first", PAIR, &[(0, FIRST_SIGN, &[2])], refused(1, 0, 0)),
    ("sign 255 at first", PAIR, &[(0, FIRST_SIGN, &[255])], refused(1, 0, 0)),
    ("amount 0 at first", PAIR, &[(0, FIRST_AMOUNT, &[0; 4])], fine(1, 2, 1)),
    ("amount 1,000,000 at first", PAIR, &[(0, FIRST_AMOUNT, MILLION)], fine(1, 2, 1)),
    ("amount 1,000,001 at first", PAIR, &[(0, FIRST_AMOUNT, MILLION_AND_ONE)], refused(1, 0, 0)),
    ("amount 2^24 at first", PAIR, &[(0, FIRST_AMOUNT, &[1, 0, 0, 0])], refused(1, 0, 0)),
    ("the largest bytes for an amount at first", PAIR, &[(0, FIRST_AMOUNT, &[255; 4])], refused(1, 0, 0)),
    ("a count of 0 for two doings", PAIR, &[(0, COUNT, &[0, 0])], refused(1, 0, 0)),
    ("a count of 1 for two doings", PAIR, &[(0, COUNT, &[0, 1])], refused(1, 0, 1)),
    ("a count of 3 for two doings", PAIR, &[(0, COUNT, &[0, 3])], refused(1, 0, 3)),
    ("a count of 500 for two doings", PAIR, &[(0, COUNT, &[1, 244])], refused(1, 0, 3)),
    ("a count of 501 for two doings", PAIR, &[(0, COUNT, &[1, 245])], refused(1, 0, 0)),
    ("a count of 512 for two doings", PAIR, &[(0, COUNT, &[2, 0])], refused(1, 0, 0)),
    ("a count of 65535 for two doings", PAIR, &[(0, COUNT, &[255, 255])], refused(1, 0, 0)),
];

#[rustfmt::skip]
const DOINGS: &[Row] = &[
    ("no doings", &[&[]], &[], fine(1, 0, 0)),
    ("one doing", &[&[N]], &[], fine(1, 1, 0)),
    ("kind 3 in doing 1", PAIR, &[(0, at(1, KIND), &[3])], refused(1, 0, 1)),
    ("kind 255 in doing 2", PAIR, &[(0, at(2, KIND), &[255])], refused(1, 0, 2)),
    ("kind 3 where there is no letter", &[&[N]], &[(0, at(1, KIND), &[3])], refused(1, 0, 1)),
    ("letter 0 sent", PAIR, &[(0, at(1, LETTER), &[0; 4])], refused(1, 0, 1)),
    ("letter 0 got", PAIR, &[(0, at(2, LETTER), &[0; 4])], refused(1, 0, 2)),
    ("letter 1 where none is", &[&[N]], &[(0, at(1, LETTER), &[0, 0, 0, 1])], refused(1, 0, 1)),
    ("letter 2^24 where none is", &[&[N, N]], &[(0, at(2, LETTER), &[1, 0, 0, 0])], refused(1, 0, 2)),
    ("sign 2 in doing 1", PAIR, &[(0, at(1, SIGN), &[2])], refused(1, 0, 1)),
    ("sign 255 in doing 2", PAIR, &[(0, at(2, SIGN), &[255])], refused(1, 0, 2)),
    ("no in both doings", PAIR, &[(0, at(1, SIGN), &[0]), (0, at(2, SIGN), &[0])], fine(1, 2, 1)),
    ("amount 1,000,000 in doing 1", PAIR, &[(0, at(1, AMOUNT), MILLION)], fine(1, 2, 1)),
    ("amount 1,000,000 in doing 2", PAIR, &[(0, at(2, AMOUNT), MILLION)], fine(1, 2, 1)),
    ("amount 1,000,001 in doing 1", PAIR, &[(0, at(1, AMOUNT), MILLION_AND_ONE)], refused(1, 0, 1)),
    ("amount 1,000,001 in doing 2", PAIR, &[(0, at(2, AMOUNT), MILLION_AND_ONE)], refused(1, 0, 2)),
    ("the largest bytes for an amount in doing 2", PAIR, &[(0, at(2, AMOUNT), &[255; 4])], refused(1, 0, 2)),
    ("faults in doing 2 and doing 1", PAIR, &[(0, at(2, KIND), &[3]), (0, at(1, AMOUNT), &[1])], refused(1, 0, 1)),
    ("faults in the head and doing 1", PAIR, &[(0, at(1, KIND), &[3]), (0, FIRST_SIGN, &[2])], refused(1, 0, 0)),
    ("faults in machine 1's head and machine 0's doing 2", TWO, &[(1, 0, &[0]), (0, at(2, SIGN), &[2])], refused(1, 0, 2)),
    ("faults in machine 1's doing 1 and machine 0's doing 2", TWO, &[(1, at(1, KIND), &[3]), (0, at(2, KIND), &[3])], refused(1, 0, 2)),
    ("a fault in doing 2 and a count of 3", PAIR, &[(0, COUNT, &[0, 3]), (0, at(2, KIND), &[3])], refused(1, 0, 2)),
    ("a fault in doing 1 and a count of 1", PAIR, &[(0, COUNT, &[0, 1]), (0, at(1, KIND), &[3])], refused(1, 0, 1)),
];

#[rustfmt::skip]
const LETTERS: &[Row] = &[
    ("a machine's own letter", PAIR, &[], fine(1, 2, 1)),
    ("a letter got by a later machine", &[&[S(7)], &[G(7)]], &[], fine(2, 2, 1)),
    ("a letter got by an earlier machine", &[&[G(7)], &[S(7)]], &[], fine(2, 2, 1)),
    ("a machine's own letter, got three doings later", &[&[S(7), N, N, G(7)]], &[], fine(1, 4, 1)),
    ("two letters that cross", &[&[S(1), G(2)], &[S(2), G(1)]], &[], fine(2, 4, 2)),
    ("a letter and the reply", &[&[S(1), G(2)], &[G(1), S(2)]], &[], fine(2, 4, 2)),
    ("a later letter got earlier", &[&[S(1), S(2)], &[G(2), G(1)]], &[], fine(2, 4, 2)),
    ("two ways from one doing to another", &[&[S(1), S(2)], &[G(1), G(2)]], &[], fine(2, 4, 2)),
    ("a letter never got", &[&[S(7)]], &[], fine(1, 1, 0)),
    ("two letters, one of them never got", &[&[S(7), S(8)], &[N, G(8), N]], &[], fine(2, 5, 1)),
    ("the largest letter", &[&[S(u32::MAX)], &[G(u32::MAX)]], &[], fine(2, 2, 1)),
    ("letters alike but for one byte", &[&[S(1), S(0x101), S(0x1_0001), S(0x100_0001), G(1)]], &[], fine(1, 5, 1)),
    ("a letter sent twice by one machine", &[&[S(7), S(7)]], &[], refused(2, 0, 2)),
    ("a letter sent twice by two machines", &[&[S(7)], &[N, S(7)]], &[], refused(2, 1, 2)),
    ("a letter sent three times", &[&[S(7)], &[S(7), S(7)]], &[], refused(2, 1, 1)),
    ("a letter got twice by one machine", &[&[S(7), G(7), G(7)]], &[], refused(2, 0, 3)),
    ("a letter got twice by two machines", &[&[S(7)], &[G(7)], &[G(7)]], &[], refused(2, 2, 1)),
    ("a letter got twice and sent later", &[&[G(7)], &[G(7)], &[S(7)]], &[], refused(2, 1, 1)),
    ("a letter got twice and never sent", &[&[G(7), G(7)]], &[], refused(2, 0, 2)),
    ("got twice, then sent twice", &[&[G(7), G(7)], &[S(7), S(7)]], &[], refused(2, 0, 2)),
    ("sent twice, then got twice", &[&[S(7), N, S(7)], &[G(7), G(7)]], &[], refused(2, 0, 3)),
    ("a letter sent twice between another's sendings", &[&[S(7), S(8)], &[S(8), S(7)]], &[], refused(2, 1, 1)),
    ("a letter got and never sent", &[&[G(7)]], &[], refused(3, 0, 1)),
    ("a letter got and never sent beside another sent", &[&[S(7)], &[G(7), G(8)]], &[], refused(3, 1, 2)),
    ("two letters got and never sent", &[&[N, G(9)], &[G(8)]], &[], refused(3, 0, 2)),
    ("a letter off by its high byte", &[&[S(7)], &[G(0x100_0007)]], &[], refused(3, 1, 1)),
    ("a 3 before a 2", &[&[G(9)], &[S(7), S(7)]], &[], refused(2, 1, 2)),
    ("a 3 and then a 2 in one machine", &[&[G(9), S(7), S(7)]], &[], refused(2, 0, 3)),
    ("a 2 before a 1", &[&[S(7), S(7)], &[N]], &[(1, at(1, KIND), &[3])], refused(1, 1, 1)),
    ("a 2 before a 1 in one machine", &[&[S(7), S(7), N]], &[(0, COUNT, &[0, 2])], refused(1, 0, 2)),
    ("a 3 before a 1", &[&[G(7)], &[]], &[(1, COUNT, &[0, 1])], refused(1, 1, 1)),
    ("a ring before a 3", &[&[G(7), S(7), G(9)]], &[], refused(3, 0, 3)),
    ("a ring around a 3", &[&[G(7), G(9), S(7)]], &[], refused(3, 0, 2)),
    ("a ring before a 2", &[&[G(7), S(7)], &[S(8), S(8)]], &[], refused(2, 1, 2)),
    ("a ring whose letter is sent twice", &[&[G(7), S(7), S(7)]], &[], refused(2, 0, 3)),
    ("a ring whose letter is got twice", &[&[G(7), S(7)], &[G(7)]], &[], refused(2, 1, 1)),
    ("a ring before a 1", &[&[G(7), S(7)], &[N]], &[(1, at(1, KIND), &[3])], refused(1, 1, 1)),
    ("a ring cut by a count of 1", &[&[G(7), S(7)]], &[(0, COUNT, &[0, 1])], refused(1, 0, 1)),
    ("a ring, a 3 and a 2", &[&[G(7), S(7)], &[G(9)], &[S(8), S(8)]], &[], refused(2, 2, 2)),
    ("a ring, a 3, a 2 and a 1", &[&[G(7), S(7), G(9), S(8), S(8)], &[]], &[(1, 0, &[0])], refused(1, 1, 0)),
    ("a 3, a 2 and a 1", &[&[G(9)], &[S(7), S(7)], &[]], &[(2, 0, &[0])], refused(1, 2, 0)),
];

/// How many bytes of a record of two doings are left, and the first doing missed.
const CUTS: [(std::ops::RangeInclusive<usize>, u16); 3] = [(0..=8, 0), (9..=18, 1), (19..=28, 2)];

/// The words, and what comes of them. The files `fine` and `faulty` are there.
#[rustfmt::skip]
const USAGE: &[(&str, &[&str], Expected)] = &[
    ("help", &["--help"], Expected::Help),
    ("no words", &[], Expected::Trouble),
    ("one word", &["may"], Expected::Trouble),
    ("an unknown question alone", &["might"], Expected::Trouble),
    ("an unknown question", &["might", "answer", "fine"], Expected::Trouble),
    ("an unknown question of faulty records", &["might", "answer", "faulty"], Expected::Trouble),
    ("a question in capitals", &["May", "answer", "fine"], Expected::Trouble),
    ("a question with a letter too many", &["mostly", "answer", "fine"], Expected::Trouble),
    ("a question cut short", &["mus", "answer", "fine"], Expected::Trouble),
    ("an empty question", &["", "answer", "fine"], Expected::Trouble),
    ("a record file that is not there", &["may", "answer", "missing"], Expected::Trouble),
    ("a second record file that is not there", &["may", "answer", "fine", "missing"], Expected::Trouble),
    ("a folder for a record file", &["may", "answer", "."], Expected::Trouble),
    ("a folder for a second record file", &["may", "answer", "fine", "."], Expected::Trouble),
    ("an answer in a folder that is not there", &["may", "nowhere/answer", "faulty"], Expected::Trouble),
    ("a folder for the answer", &["may", ".", "faulty"], Expected::Trouble),
    ("a refusal", &["most", "answer", "faulty"], Expected::Verdict(refused(1, 0, 0))),
    ("no record file", &["least", "answer"], Expected::Verdict(refused(1, 0, 0))),
];

pub fn cases() -> Vec<Case> {
    let rows = [HEADS, DOINGS, LETTERS].concat();
    let mut cases: Vec<Case> = rows
        .into_iter()
        .map(|(what, machines, changes, verdict)| {
            may(what, changed(records(machines), changes), verdict)
        })
        .collect();
    cases.extend(cuts());
    cases.extend(tails());
    cases.extend(many_doings());
    cases.extend(many_machines());
    cases.extend(full());
    cases.extend(questions());
    cases.extend(usage());
    cases
}

pub fn may(what: &str, records: Vec<Vec<u8>>, verdict: Verdict) -> Case {
    Case::ask(what, "may", records, verdict)
}

/// The records of machines that do this, with the same state throughout.
pub fn records<A: AsRef<[Act]>>(machines: &[A]) -> Vec<Vec<u8>> {
    let state = State {
        sign: true,
        amount: 5,
    };
    (0..)
        .zip(machines)
        .map(|(machine, acts)| {
            let acts = acts.as_ref().iter();
            form::write(&Record {
                machine,
                first: state,
                doings: acts.map(|&act| Doing { act, after: state }).collect(),
            })
        })
        .collect()
}

fn changed(mut records: Vec<Vec<u8>>, changes: &[Change]) -> Vec<Vec<u8>> {
    for &(file, at, bytes) in changes {
        records[file][at..at + bytes.len()].copy_from_slice(bytes);
    }
    records
}

fn cuts() -> impl Iterator<Item = Case> {
    CUTS.into_iter().flat_map(|(lengths, doing)| {
        lengths.map(move |length| {
            let mut files = records(PAIR);
            files[0].truncate(length);
            let what = format!("a record of two doings cut to {length} bytes");
            may(&what, files, refused(1, 0, doing))
        })
    })
}

/// Bytes after the last doing.
fn tails() -> impl Iterator<Item = Case> {
    let rows = [
        (0, 1, refused(1, 1, 0)),
        (2, 1, refused(1, 1, 2)),
        (2, DOING, refused(1, 1, 2)),
        (500, 1, refused(1, 1, 500)),
        (500, 200_000, refused(1, 1, 500)),
    ];
    rows.into_iter().map(|(doings, tail, verdict)| {
        let mut files = records(&[vec![], vec![N; doings]]);
        files[1].extend(vec![0; tail]);
        let what = format!("{tail} bytes too many after {doings} doings");
        may(&what, files, verdict)
    })
}

fn many_doings() -> Vec<Case> {
    let doings = |count, last: &[Act]| records(&[[&vec![N; count][..], last].concat()]);
    let faulty = |doing| changed(doings(500, &[]), &[(0, at(doing, KIND), &[3])]);
    vec![
        may("500 doings", doings(500, &[]), fine(1, 500, 0)),
        may("501 doings", doings(501, &[]), refused(1, 0, 0)),
        may("a fault in doing 256", faulty(256), refused(1, 0, 256)),
        may("a fault in doing 500", faulty(500), refused(1, 0, 500)),
        may(
            "a 2 in doing 500",
            doings(498, &[S(7), S(7)]),
            refused(2, 0, 500),
        ),
        may("a 3 in doing 257", doings(256, &[G(7)]), refused(3, 0, 257)),
    ]
}

#[rustfmt::skip]
fn many_machines() -> Vec<Case> {
    let machines = |count| records(&vec![[N]; count]);
    let faulty = |file| changed(machines(41), &[(file, at(1, KIND), &[3])]);
    let mut empty_last = machines(41);
    empty_last[40].clear();
    let sent_twice = records(&vec![[S(7)]; 41]);
    vec![
        may("no machines", vec![], refused(1, 0, 0)),
        may("40 machines", machines(40), fine(40, 40, 0)),
        may("41 machines", machines(41), refused(1, 40, 0)),
        may("43 machines", machines(43), refused(1, 40, 0)),
        may("41 machines, the last without bytes", empty_last, refused(1, 40, 0)),
        may("41 machines and a fault in the last", faulty(40), refused(1, 40, 0)),
        may("41 machines and a fault before", faulty(39), refused(1, 39, 1)),
        may("41 machines and a 2 before", sent_twice, refused(1, 40, 0)),
    ]
}

/// As many machines as there can be, each with as many doings.
fn full() -> [Case; 2] {
    let mut acts = vec![vec![N; 500]; 40];
    acts[39][499] = G(7);
    let unsent = records(&acts);
    acts[0][0] = S(7);
    let sent = records(&acts);
    [
        may("a letter from first to last", sent, fine(40, 20_000, 1)),
        may("a 3 in the last doing", unsent, refused(3, 39, 500)),
    ]
}

fn questions() -> impl Iterator<Item = Case> {
    Question::ALL.into_iter().map(|question| {
        let verdict = Verdict::Undecided {
            question,
            machines: 2,
            doings: 4,
            letters: 1,
        };
        Case::ask("a question", question.word(), records(TWO), verdict)
    })
}

fn usage() -> impl Iterator<Item = Case> {
    USAGE.iter().map(|(what, words, expected)| {
        Case::new(Program::Ask, what, words, expected.clone())
            .with_file("fine", &records(PAIR)[0])
            .with_file("faulty", b"no record")
    })
}
