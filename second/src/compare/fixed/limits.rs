//! Runs with as many cuts as `all` goes through, and with more.

use super::alls::done;
use crate::compare::case::Case;
use crate::form;
use crate::record::{Act, Doing, Place, Record, State};
use crate::refusal::Refusal;
use crate::survey::Survey;

pub fn cases() -> Vec<Case> {
    let mut cases = vec![
        six_machines(),
        forty_machines(),
        three_machines(),
        two_machines(),
        many_and_never_sent(),
    ];
    cases.extend(too_many());
    cases
}

/// The amount is always how many doings are behind; the sign is yes at last.
fn counting(machine: u8, doings: u16) -> Record {
    let state = |behind: u16| State {
        sign: behind == doings,
        amount: behind.into(),
    };
    let doing = |number| Doing {
        act: Act::Neither,
        after: state(number),
    };
    Record {
        machine,
        first: state(0),
        doings: (1..=doings).map(doing).collect(),
    }
}

fn all_counting(sizes: &[u16]) -> Vec<Record> {
    (0..)
        .zip(sizes)
        .map(|(machine, &doings)| counting(machine, doings))
        .collect()
}

fn case(what: &str, records: &[Record], survey: Survey) -> Case {
    Case::all(what, records.iter().map(form::write).collect(), survey)
}

fn six_machines() -> Case {
    let (nothing, end) = (&[0; 6][..], &[9; 6][..]);
    let told = (1_000_000, Some(end), true, (0, nothing), (54, end));
    case("1,000,000 cuts", &all_counting(end), done(told))
}

/// Six machines of four doings and six of one. They keep step in pairs: 15 of 25 cuts
/// of a pair are moments, and 3 of 4, which makes 3375 * 27 in all. All machines are
/// yes at first.
fn forty_machines() -> Case {
    let mut end = [0; 40];
    end[6..12].fill(4);
    end[30..36].fill(1);
    let mut records = all_counting(&end);
    for pair in records.chunks_mut(2) {
        keep_step(pair);
    }
    for record in &mut records {
        record.first.sign = true;
    }
    let nothing = &[0; 40][..];
    let told = (91_125, Some(nothing), true, (0, nothing), (30, &end[..]));
    case("1,000,000 cuts of 40 machines", &records, done(told))
}

/// 500 * 501 / 2 moments of the first two, and four times as many with the third,
/// which is never yes.
fn three_machines() -> Case {
    let (nothing, end) = (&[0; 3][..], &[499, 499, 3][..]);
    let mut records = all_counting(end);
    keep_step(&mut records[..2]);
    records[2].doings[2].after.sign = false;
    let told = (501_000, None, false, (0, nothing), (1001, end));
    case("1,000,000 cuts, half of them moments", &records, done(told))
}

/// The second machine gets what the first sends, doing for doing, so that it never
/// has more behind it.
fn keep_step(machines: &mut [Record]) {
    let [sender, getter] = machines else {
        panic!("only two machines keep step");
    };
    let letters = u32::from(sender.machine) * 1000 + 1..;
    for ((letter, sending), getting) in letters.zip(&mut sender.doings).zip(&mut getter.doings) {
        sending.act = Act::Sends(letter);
        getting.act = Act::Gets(letter);
    }
}

/// The amounts of one go up to 500, those of the other down from it.
fn two_machines() -> Case {
    let mut records = all_counting(&[500, 500]);
    let second = &mut records[1];
    second.first.amount = 500;
    for doing in &mut second.doings {
        doing.after.amount = 500 - doing.after.amount;
    }
    let (end, least, most) = (&[500, 500][..], &[0, 500][..], &[500, 0][..]);
    let told = (251_001, Some(end), true, (0, least), (1000, most));
    case("two machines of 500 doings", &records, done(told))
}

/// A refusal comes before the number of cuts.
fn many_and_never_sent() -> Case {
    let mut records = all_counting(&[500; 40]);
    records[39].doings[0].act = Act::Gets(7);
    let place = Place {
        machine: 39,
        doing: 1,
    };
    let survey = Survey::Refused(Refusal::NeverSent(place));
    case("too many cuts and a letter never sent", &records, survey)
}

/// The last ones are such that numbers of 32 bits, of 64 bits and of more come round
/// to 0.
fn too_many() -> impl Iterator<Item = Case> {
    let rows = [
        ("1,000,004 cuts", vec![3, 52, 52, 88]),
        ("1,001,000 cuts", vec![499, 1, 76, 12]),
        ("10,000,000 cuts", vec![9; 7]),
        ("2^20 cuts", vec![1; 20]),
        ("501^3 cuts", vec![500; 3]),
        ("501^40 cuts", vec![500; 40]),
        ("2^32 cuts", vec![3; 16]),
        ("2^40 cuts", vec![1; 40]),
        ("2^64 cuts", vec![3; 32]),
        ("2^320 cuts", vec![255; 40]),
    ];
    rows.into_iter()
        .map(|(what, sizes)| case(what, &all_counting(&sizes), Survey::TooManyCuts))
}
