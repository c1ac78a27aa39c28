//! Edge cases of the answers to `may`.

use super::alls;
use crate::compare::case::Case;
use crate::form;
use crate::judgement::Judgement;
use crate::large::large;
use crate::question::Question;
use crate::record::{Act, Doing, MOST_DOINGS, MOST_MACHINES, Place, Record, State};
use crate::refusal::Refusal;
use crate::verdict::Verdict;

#[derive(Clone, Copy)]
pub struct Row {
    what: &'static str,
    /// Each machine's record as people write it.
    pub texts: &'static [&'static str],
    line: &'static str,
    /// The answer's.
    pub bytes: &'static [u8],
}

const fn row(
    what: &'static str,
    texts: &'static [&'static str],
    line: &'static str,
    bytes: &'static [u8],
) -> Row {
    Row {
        what,
        texts,
        line,
        bytes,
    }
}

#[rustfmt::skip]
pub const AT_LAST: Row = row("yes at last", &["no 0\nyes 0", "no 0\nyes 0"],
    "may yes 1 1\n", &[77, 1, 1, 0, 1, 0, 1, 0, 0, 0, 0, 0, 0, 0, 4, 0, 0, 0, 0, 0, 0, 0, 0]);
#[rustfmt::skip]
pub const AT_FIRST: Row = row("yes at first", &["yes 0\nno 0", "yes 0\nno 0"],
    "may yes 0 0\n", &[77, 1, 1, 0, 0, 0, 0, 0, 0, 0, 0, 0, 0, 0, 0, 0, 0, 0, 0, 0, 0, 0, 0]);
#[rustfmt::skip]
pub const IN_TURNS: Row = row("yes in turns", &["yes 0\nno 0\nyes 0", "no 0\nyes 0\nno 0"],
    "may yes 0 1\n", &[77, 1, 1, 0, 0, 0, 1, 0, 0, 0, 0, 0, 0, 0, 2, 0, 0, 0, 0, 0, 0, 0, 0]);
#[rustfmt::skip]
pub const ON_THE_WAY: Row = row("yes from the sending to the getting", &["no 5\nyes 0 sends 7", "yes 0\nno 5 gets 7"],
    "may yes 1 0\n", &[77, 1, 1, 0, 1, 0, 0, 0, 0, 0, 0, 0, 0, 0, 2, 0, 0, 0, 0, 0, 0, 0, 0]);
#[rustfmt::skip]
pub const NEVER: Row = row("yes before the sending and after the getting", &["yes 0\nno 0 sends 7", "no 0\nyes 0 gets 7"],
    "may no\n", &[77, 1, 0, 0, 0, 0, 0, 0, 0, 0, 2, 0, 0, 0, 0, 0, 0, 0, 0]);
#[rustfmt::skip]
pub const SEVERAL: Row = row("several moments of all yes", &["no 0\nyes 0\nyes 0", "no 0\nyes 0\nyes 0"],
    "may yes 1 1\n", &[77, 1, 1, 0, 1, 0, 1, 0, 0, 0, 0, 0, 0, 0, 4, 0, 0, 0, 0, 0, 0, 0, 0]);

const TOGETHER: &[Row] = &[AT_LAST, AT_FIRST, IN_TURNS, ON_THE_WAY, NEVER, SEVERAL];

#[rustfmt::skip]
const ALONE: &[Row] = &[
    row("no doings and yes", &["yes 7"],
        "may yes 0\n", &[77, 1, 1, 0, 0, 0, 0, 0, 0, 0, 0, 0, 0, 0, 0, 0, 0, 0, 0, 0, 0]),
    row("no doings and no", &["no 7"],
        "may no\n", &[77, 1, 0, 0, 0, 0, 0, 0, 0, 0, 0, 0, 0, 0, 0, 0, 0, 0, 0]),
    row("no at first alone", &["no 5\nyes 5 sends 7\nyes 5 gets 7"],
        "may yes 1\n", &[77, 1, 1, 0, 1, 0, 0, 0, 0, 0, 0, 0, 1, 0, 0, 0, 0, 0, 0, 0, 0]),
    row("a letter to oneself", &["no 3\nno 2 sends 7\nyes 1 gets 7"],
        "may yes 2\n", &[77, 1, 1, 0, 2, 0, 0, 0, 0, 0, 0, 0, 2, 0, 0, 0, 0, 0, 0, 0, 0]),
    row("never yes", &["no 1\nno 2\nno 1"],
        "may no\n", &[77, 1, 0, 0, 0, 0, 0, 0, 0, 0, 2, 0, 0, 0, 0, 0, 0, 0, 0]),
    row("the lower of two without doings, and no", &["no 0", "no 0\nyes 0"],
        "may no\n", &[77, 1, 0, 0, 0, 0, 0, 0, 0, 0, 0, 0, 0, 0, 0, 0, 0, 0, 0]),
    row("the higher of two without doings, and no", &["no 0\nyes 0", "no 0"],
        "may no\n", &[77, 1, 0, 0, 0, 0, 0, 0, 0, 0, 2, 0, 0, 0, 0, 0, 0, 0, 0]),
];

/// What goes on with the machine that goes on, and which one that is.
#[rustfmt::skip]
const ALONG: &[Row] = &[
    row("the getting is the lower machine's", &["yes 0\nno 0 gets 7", "no 0\nyes 0 sends 7"],
        "may yes 0 1\n", &[77, 1, 1, 0, 0, 0, 1, 0, 0, 0, 0, 0, 0, 0, 2, 0, 0, 0, 0, 0, 0, 0, 0]),
    row("the sender loses its yes", &["no 0\nyes 0 gets 1", "yes 0\nno 0 sends 1"],
        "may no\n", &[77, 1, 0, 0, 0, 0, 0, 0, 0, 0, 2, 0, 0, 0, 0, 0, 0, 0, 0]),
    row("the sender loses its yes for a while", &["no 0\nyes 0 gets 1", "yes 0\nno 0 sends 1\nyes 0"],
        "may yes 1 2\n", &[77, 1, 1, 0, 1, 0, 2, 0, 0, 0, 0, 0, 0, 0, 4, 0, 0, 0, 0, 0, 0, 0, 0]),
    row("the lower machine takes the other along", &["no 0\nyes 0 gets 2", "no 0\nno 0\nyes 0 sends 2"],
        "may yes 1 2\n", &[77, 1, 1, 0, 1, 0, 2, 0, 0, 0, 0, 0, 0, 0, 2, 0, 0, 0, 0, 0, 0, 0, 0]),
    row("the lower machine goes doing by doing", &["no 0\nno 0\nyes 0 sends 2", "no 0\nyes 0 gets 2"],
        "may yes 2 1\n", &[77, 1, 1, 0, 2, 0, 1, 0, 0, 0, 0, 0, 0, 0, 6, 0, 0, 0, 0, 0, 0, 0, 0]),
    row("a letter never got takes nobody along", &["no 0\nyes 0 sends 7", "yes 0\nno 0"],
        "may yes 1 0\n", &[77, 1, 1, 0, 1, 0, 0, 0, 0, 0, 0, 0, 0, 0, 2, 0, 0, 0, 0, 0, 0, 0, 0]),
    row("back to the lowest machine", &["yes 0\nno 0 sends 1\nyes 0 sends 2", "no 0\nyes 0 gets 1", "no 0\nyes 0 gets 2"],
        "may yes 2 1 1\n", &[77, 1, 1, 0, 2, 0, 1, 0, 1, 0, 0, 0, 0, 0, 0, 0, 9, 0, 0, 0, 0, 0, 0, 0, 0]),
    row("along through a machine between",
        &["no 0\nyes 0 gets 2", "yes 0\nyes 0 gets 1\nyes 0 sends 2", "yes 0\nno 0 sends 1\nyes 0"],
        "may yes 1 2 2\n", &[77, 1, 1, 0, 1, 0, 2, 0, 2, 0, 0, 0, 0, 0, 0, 0, 6, 0, 0, 0, 0, 0, 0, 0, 0]),
    row("too late for the other", &["no 0\nyes 0\nno 0 sends 1\nno 0", "no 0\nno 0 gets 1\nyes 0"],
        "may no\n", &[77, 1, 0, 0, 0, 0, 0, 0, 0, 0, 6, 0, 0, 0, 0, 0, 0, 0, 0]),
    row("in time for the other", &["no 0\nyes 0 sends 1\nno 0 gets 2", "no 0\nno 0 gets 1\nyes 0\nno 0 sends 2"],
        "may yes 1 2\n", &[77, 1, 1, 0, 1, 0, 2, 0, 0, 0, 0, 0, 0, 0, 6, 0, 0, 0, 0, 0, 0, 0, 0]),
];

pub fn cases() -> Vec<Case> {
    let rows = [TOGETHER, ALONE, ALONG].concat();
    let mut cases: Vec<Case> = rows
        .into_iter()
        .map(|row| case(row.what, alls::records(row.texts), row.line, row.bytes))
        .collect();
    cases.push(never_sent());
    cases.push(two_bytes());
    cases.extend(late());
    cases
}

fn case(what: &str, records: Vec<Vec<u8>>, line: &str, bytes: &[u8]) -> Case {
    let what = format!("{what}, {}", line.trim_end());
    Case::check(&what, Some(Question::May), bytes, records, Judgement::Shown)
}

fn never_sent() -> Case {
    let records = alls::records(&["no 0\nyes 0", "no 0\nyes 0 gets 7"]);
    let place = Place {
        machine: 1,
        doing: 1,
    };
    let verdict = Verdict::Refused(Refusal::NeverSent(place));
    Case::ask("a letter got that nobody sent", "may", records, verdict)
}

/// 256 behind, and as many pairs.
fn two_bytes() -> Case {
    let text = format!("no 0{}\nyes 0\nno 0", "\nno 0".repeat(255));
    case(
        "yes at doing 256",
        alls::records(&[text]),
        "may yes 256\n",
        &[
            77, 1, 1, 1, 0, 0, 0, 0, 0, 0, 0, 1, 0, 0, 0, 0, 0, 0, 0, 0, 0,
        ],
    )
}

/// As many machines as there can be, each with as many doings, and yes at the last of
/// them at most: all machines go doing by doing, or half of them take the others along.
#[rustfmt::skip]
fn late() -> [Case; 4] {
    let line = format!("may yes{}\n", " 500".repeat(40));
    let yes = [&[77, 1, 1][..], &[1, 244].repeat(40)].concat();
    let no = [77, 1, 0];
    let all_pairs = [0, 0, 0, 0, 0, 12, 53, 0]; // 40 * 40 * 500
    let half_of_them = [0, 0, 0, 0, 0, 6, 26, 128];
    let bytes = |said: &[u8], pairs: [u8; 8]| [said, &pairs, &[0; 8]].concat();
    let getters_first = |machine, doing| large(39 - machine, doing);
    [
        case("yes after all doings", full(large, true), &line, &bytes(&yes, all_pairs)),
        case("yes after half of them", full(getters_first, true), &line, &bytes(&yes, half_of_them)),
        case("no after all doings", full(large, false), "may no\n", &bytes(&no, all_pairs)),
        case("no after half of them", full(getters_first, false), "may no\n", &bytes(&no, half_of_them)),
    ]
}

/// The last machine may be no at last, too.
fn full(act: impl Fn(u32, u32) -> Act, last: bool) -> Vec<Vec<u8>> {
    let state = |sign| State { sign, amount: 1 };
    let record = |machine| {
        let doings = (0..u32::from(MOST_DOINGS)).map(|doing| Doing {
            act: act(u32::from(machine), doing),
            after: state(false),
        });
        let mut record = Record {
            machine,
            first: state(false),
            doings: doings.collect(),
        };
        record.doings[499].after = state(machine != 39 || last);
        form::write(&record)
    };
    (0..MOST_MACHINES).map(record).collect()
}
