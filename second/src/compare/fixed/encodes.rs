//! Edge cases for `encode`.

use crate::compare::case::{Case, Program};
use crate::compare::expected::Expected;

/// What is special, the machine, the text, and the record.
#[rustfmt::skip]
const GOOD: &[(&str, &str, &str, &[u8])] = &[
    ("a state alone", "0", "yes 5\n", &[82, 0, 1, 0, 0, 0, 5, 0, 0]),
    ("no newline at the end", "1", "no 0", &[82, 1, 0, 0, 0, 0, 0, 0, 0]),
    ("machine 39", "39", "no 0\n", &[82, 39, 0, 0, 0, 0, 0, 0, 0]),
    ("leading zeros for a machine", "007", "no 0\n", &[82, 7, 0, 0, 0, 0, 0, 0, 0]),
    ("amount 1,000,000", "0", "yes 1000000\n", &[82, 0, 1, 0x00, 0x0f, 0x42, 0x40, 0, 0]),
    ("many leading zeros", "0", "no 000000000000000000000000000000258\n", &[82, 0, 0, 0, 0, 1, 2, 0, 0]),
    ("a comment right after a word", "0", "yes 5#6\n", &[82, 0, 1, 0, 0, 0, 5, 0, 0]),
    ("comments, blank lines, tabs and spaces", "2", "# a machine\n\n \t\n\tyes\t 5 \t # at first\n#no 6\n",
        &[82, 2, 1, 0, 0, 0, 5, 0, 0]),
    ("every kind of doing", "3", "yes 5\nno 6\nyes 7 sends 8\nno 9 gets 10\n",
        &[82, 3, 1, 0, 0, 0, 5, 0, 3,
          0, 0, 0, 0, 0, 0, 0, 0, 0, 6,
          1, 0, 0, 0, 8, 1, 0, 0, 0, 7,
          2, 0, 0, 0, 10, 0, 0, 0, 0, 9]),
    ("the largest letter", "0", "no 0\nyes 1000000 sends 4294967295",
        &[82, 0, 0, 0, 0, 0, 0, 0, 1, 1, 255, 255, 255, 255, 1, 0x00, 0x0f, 0x42, 0x40]),
    ("a letter sent twice is not looked at", "0", "no 0\nno 0 sends 1\nno 0 sends 01\n",
        &[82, 0, 0, 0, 0, 0, 0, 0, 2, 1, 0, 0, 0, 1, 0, 0, 0, 0, 0, 1, 0, 0, 0, 1, 0, 0, 0, 0, 0]),
];

/// What is special, and the text that is no record.
const BAD: &[(&str, &str)] = &[
    ("an empty text", ""),
    ("blank lines only", "\n \n\t\n"),
    ("comments only", "# yes 5\n#\n"),
    ("a first line with a letter", "yes 5 sends 7\n"),
    ("a first line without an amount", "yes\n"),
    ("a first line without a sign", "5\n"),
    ("a first line with a word too many", "yes 5 6\n"),
    ("an amount lost in a comment", "yes #5\n"),
    ("a sign in capitals", "YES 5\n"),
    ("a sign with a capital", "Yes 5\n"),
    ("a sign in digits", "1 5\n"),
    ("amount 1,000,001 at first", "yes 1000001\n"),
    ("amount 1,000,001 in a doing", "yes 5\nno 1000001\n"),
    ("amount 2^32", "yes 4294967296\n"),
    ("amount 2^64", "yes 18446744073709551616\n"),
    ("an amount with a plus", "yes +5\n"),
    ("an amount with a minus", "yes -1\n"),
    ("an amount with a point", "yes 5.0\n"),
    ("letter 0 sent", "yes 5\nno 6 sends 0\n"),
    ("letter 0 got", "yes 5\nno 6 gets 000\n"),
    ("letter 2^32", "yes 5\nno 6 sends 4294967296\n"),
    ("letter 2^64 + 5", "yes 5\nno 6 gets 18446744073709551621\n"),
    ("a letter with a plus", "yes 5\nno 6 gets +7\n"),
    ("no letter", "yes 5\nno 6 sends\n"),
    ("a letter lost in a comment", "yes 5\nno 6 sends#7\n"),
    ("a word after the letter", "yes 5\nno 6 sends 7 8\n"),
    ("an unknown verb", "yes 5\nno 6 sent 7\n"),
    ("a verb in capitals", "yes 5\nno 6 Gets 7\n"),
    ("a letter without a verb", "yes 5\nno 6 7\n"),
    ("a verb without a state", "yes 5\nsends 7\n"),
    ("a fault in the last line", "yes 5\nno 6\nno"),
];

const BAD_MACHINES: &[&str] = &["40", "256", "x", "", "-1", "+1", " 1", "1x", "4294967296"];

/// The words, and what comes of them. The file `text` has a good text.
const USAGE: &[(&str, &[&str], Expected)] = &[
    ("help", &["--help"], Expected::Help),
    ("no words", &[], Expected::Trouble),
    ("one word", &["0"], Expected::Trouble),
    ("two words", &["0", "text"], Expected::Trouble),
    (
        "four words",
        &["0", "text", "record", "more"],
        Expected::Trouble,
    ),
    (
        "a text that is not there",
        &["0", "missing", "record"],
        Expected::Trouble,
    ),
    (
        "a folder for a text",
        &["0", ".", "record"],
        Expected::Trouble,
    ),
    (
        "a folder for the record",
        &["0", "text", "."],
        Expected::Trouble,
    ),
    (
        "a record in a folder that is not there",
        &["0", "text", "nowhere/record"],
        Expected::Trouble,
    ),
];

pub fn cases() -> Vec<Case> {
    let good = GOOD.iter().map(|&(what, machine, text, record)| {
        Case::encode(what, machine, text, Expected::Record(record.to_vec()))
    });
    let bad = BAD
        .iter()
        .map(|(what, text)| Case::encode(what, "0", text, Expected::Trouble));
    let bad_machines = BAD_MACHINES
        .iter()
        .map(|machine| Case::encode("a bad machine", machine, "yes 5\n", Expected::Trouble));
    let usage = USAGE.iter().map(|(what, words, expected)| {
        Case::new(Program::Encode, what, words, expected.clone()).with_file("text", b"yes 5\n")
    });
    good.chain(bad)
        .chain(bad_machines)
        .chain(usage)
        .chain(many_doings())
        .collect()
}

fn many_doings() -> [Case; 2] {
    let text = |doings| format!("yes 5\n{}", "no 6 gets 7\n".repeat(doings));
    let head = [82, 0, 1, 0, 0, 0, 5, 1, 244];
    let doing = [2, 0, 0, 0, 7, 0, 0, 0, 0, 6];
    let record = [&head[..], &doing.repeat(500)].concat();
    [
        Case::encode("500 doings", "0", &text(500), Expected::Record(record)),
        Case::encode("501 doings", "0", &text(501), Expected::Trouble),
    ]
}
