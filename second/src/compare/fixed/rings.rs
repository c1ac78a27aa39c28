//! Edge cases of rings for `ask`.

use super::asks::{may, records};
use crate::compare::case::Case;
use crate::record::Act::{self, Gets as G, Neither as N, Sends as S};
use crate::record::{MOST_DOINGS, MOST_MACHINES, Place};
use crate::refusal::Refusal;
use crate::verdict::Verdict;

/// Machine and doing.
type Pair = (u8, u16);

/// What is special, what each machine does, and the ring.
type Row = (&'static str, &'static [&'static [Act]], &'static [Pair]);

#[rustfmt::skip]
const ALONE: &[Row] = &[
    ("got right before it is sent", &[&[G(7), S(7)]], &[(0, 1), (0, 2)]),
    ("got two doings before it is sent", &[&[G(7), N, S(7)]], &[(0, 1), (0, 2), (0, 3)]),
    ("a ring between other doings", &[&[N, G(7), S(7), N]], &[(0, 2), (0, 3)]),
    ("a ring in the last machine", &[&[N], &[], &[N, N, G(7), S(7)]], &[(2, 3), (2, 4)]),
    ("letters into a ring and out of it", &[&[S(5)], &[G(5), G(7), S(7), S(6)], &[G(6)]], &[(1, 2), (1, 3)]),
    ("letters out of a ring and into it", &[&[G(6)], &[G(5), G(7), S(7), S(6)], &[S(5)]], &[(1, 2), (1, 3)]),
    ("two get before they send", &[&[G(2), S(1)], &[G(1), S(2)]], &[(0, 1), (0, 2), (1, 1), (1, 2)]),
    ("two get long before they send", &[&[N, G(2), N, S(1)], &[G(1), N, S(2), N]],
        &[(0, 2), (0, 3), (0, 4), (1, 1), (1, 2), (1, 3)]),
    ("three get before they send, upwards", &[&[G(3), S(1)], &[G(1), S(2)], &[G(2), S(3)]],
        &[(0, 1), (0, 2), (1, 1), (1, 2), (2, 1), (2, 2)]),
    ("three get before they send, downwards", &[&[G(1), S(3)], &[G(2), S(1)], &[G(3), S(2)]],
        &[(0, 1), (0, 2), (2, 1), (2, 2), (1, 1), (1, 2)]),
    ("the largest letters", &[&[G(u32::MAX), S(u32::MAX - 1)], &[G(u32::MAX - 1), S(u32::MAX)]],
        &[(0, 1), (0, 2), (1, 1), (1, 2)]),
    ("a step that is a letter too", &[&[G(9), S(1), G(1), S(9)]], &[(0, 1), (0, 2), (0, 3), (0, 4)]),
    ("shorter by a machine's own letter", &[&[G(9), S(1), N, N, G(1), S(9)]], &[(0, 1), (0, 2), (0, 5), (0, 6)]),
    ("shorter by another machine", &[&[G(3), S(1), N, N, N, G(2), S(3)], &[G(1), S(2)]],
        &[(0, 1), (0, 2), (1, 1), (1, 2), (0, 6), (0, 7)]),
];

#[rustfmt::skip]
const SEVERAL: &[Row] = &[
    ("rings of two in two machines", &[&[N], &[G(8), S(8)], &[G(7), S(7)]], &[(1, 1), (1, 2)]),
    ("rings of two in one machine", &[&[G(8), S(8), G(7), S(7)]], &[(0, 1), (0, 2)]),
    ("rings of four, one around the other", &[&[G(4), S(1)], &[G(3), S(2)], &[G(2), S(3)], &[G(1), S(4)]],
        &[(0, 1), (0, 2), (3, 1), (3, 2)]),
    ("rings of four in turns", &[&[G(3), S(1)], &[G(4), S(2)], &[G(1), S(3)], &[G(2), S(4)]],
        &[(0, 1), (0, 2), (2, 1), (2, 2)]),
    ("the ring from a later doing goes to an earlier machine",
        &[&[G(8), S(7), G(6), S(5)], &[G(5), S(6)], &[G(7), S(8)]], &[(0, 1), (0, 2), (2, 1), (2, 2)]),
    ("rings of three that overlap", &[&[G(7), G(8), S(7), S(8)]], &[(0, 1), (0, 2), (0, 3)]),
    ("a ring of two within one of four", &[&[G(7), G(8), S(8), S(7)]], &[(0, 2), (0, 3)]),
    ("a ring of four that overlaps one of five", &[&[G(7), N, G(8), N, S(7), S(8)]],
        &[(0, 3), (0, 4), (0, 5), (0, 6)]),
    ("a ring of two after one of three", &[&[G(7), N, S(7)], &[G(8), S(8)]], &[(1, 1), (1, 2)]),
    ("a ring of three after one of four", &[&[G(2), S(1)], &[G(1), S(2)], &[N, G(8), N, S(8)]],
        &[(2, 2), (2, 3), (2, 4)]),
    ("a ring of two after one of ten", &[&[G(7), N, N, N, N, N, N, N, N, S(7)], &[N, G(8), S(8)]], &[(1, 2), (1, 3)]),
    ("rings that share machines, the later one shorter", &[&[G(2), N, S(1), G(4), S(3)], &[G(1), S(2), G(3), S(4)]],
        &[(0, 4), (0, 5), (1, 3), (1, 4)]),
    ("one ring through fewer machines, both of six",
        &[&[G(3), S(1)], &[G(1), S(2)], &[G(2), S(3)], &[G(8), N, S(7)], &[G(7), N, S(8)]],
        &[(0, 1), (0, 2), (1, 1), (1, 2), (2, 1), (2, 2)]),
];

/// Rings of one length from the same doing on.
#[rustfmt::skip]
const FORKS: &[Row] = &[
    ("the next doing before a letter", &[&[G(3), S(1), N, N, G(2), S(3)], &[G(1), S(2)]],
        &[(0, 1), (0, 2), (0, 3), (0, 4), (0, 5), (0, 6)]),
    ("a letter to a lower machine before the next doing", &[&[G(9), S(1)], &[G(2), G(3), S(9)], &[G(1), S(2), S(3)]],
        &[(0, 1), (0, 2), (2, 1), (2, 2), (1, 1), (1, 2), (1, 3)]),
    ("a letter back to the first machine before the next doing",
        &[&[G(9), S(1), N, N, N, N, G(2), G(3), S(9)], &[G(1), S(2), S(3)]],
        &[(0, 1), (0, 2), (1, 1), (1, 2), (0, 7), (0, 8), (0, 9)]),
    ("the next doing, with a letter of a higher number", &[&[G(9), S(1), S(2)], &[G(1), G(2), S(9)]],
        &[(0, 1), (0, 2), (0, 3), (1, 2), (1, 3)]),
    ("the next doing, with a letter of a lower number", &[&[G(9), S(2), S(1)], &[G(2), G(1), S(9)]],
        &[(0, 1), (0, 2), (0, 3), (1, 2), (1, 3)]),
    ("two letters back to the first doing's machine", &[&[G(8), G(9), S(1)], &[G(1), S(8), S(9)]],
        &[(0, 1), (0, 2), (0, 3), (1, 1), (1, 2)]),
    ("a fork at the last machine but one", &[&[G(9), S(1)], &[G(1), S(2), S(3)], &[G(2), G(3), S(9)]],
        &[(0, 1), (0, 2), (1, 1), (1, 2), (1, 3), (2, 2), (2, 3)]),
    ("forks in a row", &[&[G(9), S(1), S(2), N], &[G(1), G(2), S(3), S(4)], &[G(3), G(4), S(9)]],
        &[(0, 1), (0, 2), (0, 3), (1, 2), (1, 3), (1, 4), (2, 2), (2, 3)]),
    ("a fork of which one way leads nowhere", &[&[G(9), S(1), S(2), N, N], &[G(1), S(9)], &[G(2), N]],
        &[(0, 1), (0, 2), (1, 1), (1, 2)]),
    ("a fork of which the lower way is longer", &[&[G(9), S(1), S(2), N, N], &[G(2), N, N, S(8)], &[G(1), G(8), S(9)]],
        &[(0, 1), (0, 2), (2, 1), (2, 2), (2, 3)]),
];

pub fn cases() -> Vec<Case> {
    let rows = [ALONE, SEVERAL, FORKS].concat();
    let mut cases: Vec<Case> = rows
        .into_iter()
        .map(|(what, machines, ring)| ring_case(what, machines, ring.iter().copied()))
        .collect();
    cases.extend(late());
    cases.push(whole_machine());
    cases.extend(forty_machines());
    cases
}

fn ring_case<A: AsRef<[Act]>>(
    what: &str,
    machines: &[A],
    ring: impl IntoIterator<Item = Pair>,
) -> Case {
    let places = ring
        .into_iter()
        .map(|(machine, doing)| Place { machine, doing })
        .collect();
    let verdict = Verdict::Refused(Refusal::Ring(places));
    may(what, records(machines), verdict)
}

/// Doings whose numbers have two bytes.
fn late() -> [Case; 2] {
    let after = |count| [&vec![N; count][..], &[G(7), S(7)]].concat();
    let mut last = vec![vec![]; 40];
    last[39] = after(498);
    [
        ring_case("doings 255 and 256", &[after(254)], [(0, 255), (0, 256)]),
        ring_case(
            "the last doings there can be",
            &last,
            [(39, 499), (39, 500)],
        ),
    ]
}

fn whole_machine() -> Case {
    let mut acts = vec![N; MOST_DOINGS.into()];
    acts[0] = G(7);
    acts[499] = S(7);
    let ring = (1..=MOST_DOINGS).map(|doing| (0, doing));
    ring_case("a ring of all doings of a machine", &[acts], ring)
}

/// Each machine gets from its neighbour on one side and then sends to the other.
fn forty_machines() -> [Case; 2] {
    let next = |letter| letter % u32::from(MOST_MACHINES) + 1;
    let upwards: Vec<[Act; 2]> = (1..=40).map(|own| [G(own), S(next(own))]).collect();
    let downwards: Vec<[Act; 2]> = (1..=40).map(|own| [G(next(own)), S(own)]).collect();
    let both = |machine| [(machine, 1), (machine, 2)];
    let up = (0..40).flat_map(both);
    let down = [0].into_iter().chain((1..40).rev()).flat_map(both);
    [
        ring_case("a ring through forty machines, upwards", &upwards, up),
        ring_case("a ring through forty machines, downwards", &downwards, down),
    ]
}
