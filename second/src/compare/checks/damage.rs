//! Damage to answers to `may`.

mod moments;

use super::arbitrary;
use crate::answer::{COUNTS, read_may, write_may};
use crate::chance::Chance;
use crate::cut::{self, Cut};
use crate::record::Record;

/// A way to damage the answer of a run, and what it is called. One that finds nothing
/// to work on leaves all as it is.
type Way = (&'static str, fn(&mut Vec<u8>, &[Record], &mut Chance));

/// Where the number of the question and yes or no are.
const KIND: usize = 1;
const FLAG: usize = 2;

const WAYS: &[Way] = &[
    ("a byte changed", |answer, _, chance| {
        let place = chance.below(answer.len());
        answer[place] ^= chance.byte(1..=255);
    }),
    ("a byte changed a little", |answer, _, chance| {
        let place = chance.below(answer.len());
        answer[place] = answer[place].wrapping_add(*chance.pick(&[1, 255]));
    }),
    ("another first byte", |answer, _, chance| {
        answer[0] = *chance.pick(&[0, 76, 78, 82, 255]);
    }),
    ("another kind", |answer, _, chance| {
        answer[KIND] = *chance.pick(&[0, 2, 3, 4, 5, 255]);
    }),
    ("another flag", |answer, _, chance| {
        answer[FLAG] = *chance.pick(&[0, 1, 2, 255]);
    }),
    ("its end cut off", |answer, _, chance| {
        answer.truncate(chance.below(answer.len()));
    }),
    ("nothing left", |answer, _, _| answer.clear()),
    ("bytes at the end", |answer, _, chance| {
        let many = chance.below(20_000);
        let length = *chance.pick(&[1, 1, 2, 2, 4, 8, 16, 256, 65_536, many]);
        answer.extend(chance.bytes(length));
    }),
    ("bytes between", |answer, _, chance| {
        let place = chance.below(answer.len());
        let length = *chance.pick(&[1, 2, 2, 4]);
        answer.splice(place..place, vec![0; length]);
    }),
    ("other counts", |answer, _, chance| {
        let counts = answer.len() - COUNTS;
        answer.truncate(counts);
        answer.extend(chance.bytes(COUNTS));
    }),
    ("yes for no, or no for yes", turn),
    ("another moment", |answer, records, chance| {
        say(answer, Some(&moments::random_moment(records, chance)));
    }),
    ("a later moment of all yes", |answer, records, chance| {
        if let Some(later) = moments::later_yes(records, chance) {
            say(answer, Some(&later));
        }
    }),
    ("any cut of all yes", |answer, records, chance| {
        if let Some(cut) = moments::random_yes(records, chance) {
            say(answer, Some(&cut));
        }
    }),
    ("any cut", |answer, records, chance| {
        say(answer, Some(&moments::random_cut(records, chance)));
    }),
    (
        "one machine's count off by one",
        |answer, records, chance| {
            let mut cut = said(answer, records).unwrap_or_else(|| cut::nothing(records));
            let behind = chance.below(cut.len());
            cut[behind] = cut[behind].wrapping_add(*chance.pick(&[1, u16::MAX]));
            say(answer, Some(&cut));
        },
    ),
    ("a cut beyond the end", |answer, records, chance| {
        let mut cut = said(answer, records).unwrap_or_else(|| cut::end(records));
        let behind = chance.below(cut.len());
        let end = cut::end(records)[behind];
        cut[behind] = *chance.pick(&[end + 1, end + 256, 501, 32_768, u16::MAX]);
        say(answer, Some(&cut));
    }),
    ("that of another run", |answer, records, chance| {
        *answer = arbitrary::of_another_run(records.len(), chance);
    }),
    (
        "that of a run of other machines",
        |answer, records, chance| {
            let machines = records.len();
            let any = 1 + chance.below(40);
            let other = *chance.pick(&[machines - 1, machines + 1, any]);
            *answer = arbitrary::of_another_run(other, chance);
        },
    ),
    ("a refusal in its place", |answer, _, chance| {
        *answer = arbitrary::random_refusal(chance);
    }),
    ("random bytes in its place", |answer, _, chance| {
        *answer = arbitrary::random_bytes(chance);
    }),
];

/// Damages the answer of a run in a random way, and tells which.
pub fn random_damage(
    answer: &mut Vec<u8>,
    records: &[Record],
    chance: &mut Chance,
) -> &'static str {
    let (name, way) = chance.pick(WAYS);
    way(answer, records, chance);
    name
}

/// The moment that the answer has, if it says yes.
fn said(answer: &[u8], records: &[Record]) -> Option<Cut> {
    read_may(answer, records).expect("the answer is in form")
}

/// Lets the answer say something else.
fn say(answer: &mut Vec<u8>, first: Option<&Cut>) {
    *answer = write_may(first, 0);
}

fn turn(answer: &mut Vec<u8>, records: &[Record], chance: &mut Chance) {
    match said(answer, records) {
        Some(_) => say(answer, None),
        None => say(answer, Some(&moments::random_moment(records, chance))),
    }
}
