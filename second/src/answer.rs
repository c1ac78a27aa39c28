//! Answers as bytes; numbers have their high byte first.

use crate::cut::{self, Cut};
use crate::question::Question;
use crate::record::Record;
use std::iter;

/// Every answer begins with this byte.
pub const FIRST_BYTE: u8 = 77;
/// The bytes at the end: pairs compared, ways of flow.
pub const COUNTS: usize = 16;

const MAY: u8 = Question::May.number();
const NO: u8 = 0;
const YES: u8 = 1;

/// An answer in a line, and the bytes that say it.
#[derive(Clone, Debug, PartialEq, Eq)]
pub struct Answer {
    /// With its end.
    pub line: String,
    pub bytes: Vec<u8>,
}

/// The bytes are no answer of this run to this question.
#[derive(Clone, Copy, Debug, PartialEq, Eq)]
pub struct NotInForm;

pub fn write_may(first: Option<&Cut>, pairs: u64) -> Vec<u8> {
    let mut bytes = vec![FIRST_BYTE, MAY];
    bytes.push(if first.is_some() { YES } else { NO });
    let cut = first.into_iter().flatten();
    bytes.extend(cut.flat_map(|behind| behind.to_be_bytes()));
    bytes.extend(pairs.to_be_bytes());
    // No flow was sent.
    bytes.extend(0u64.to_be_bytes());
    bytes
}

/// The first moment of all yes as the bytes have it, or that there is none. The
/// counts may be any.
pub fn read_may(bytes: &[u8], records: &[Record]) -> Result<Option<Cut>, NotInForm> {
    let (said, _) = bytes.split_last_chunk::<COUNTS>().ok_or(NotInForm)?;
    match said {
        [FIRST_BYTE, MAY, NO] => Ok(None),
        [FIRST_BYTE, MAY, YES, cut @ ..] => read_cut(cut, records).map(Some),
        _ => Err(NotInForm),
    }
}

fn read_cut(bytes: &[u8], records: &[Record]) -> Result<Cut, NotInForm> {
    let (pairs, []) = bytes.as_chunks() else {
        return Err(NotInForm);
    };
    let cut: Cut = pairs.iter().copied().map(u16::from_be_bytes).collect();
    let end = cut::end(records);
    let within = cut.len() == end.len() && iter::zip(&cut, &end).all(|(few, most)| few <= most);
    within.then_some(cut).ok_or(NotInForm)
}

#[cfg(test)]
mod tests {
    use super::*;
    use crate::record::{Act, Doing, State};

    /// Records of machines with so many doings.
    fn records(sizes: [usize; 2]) -> Vec<Record> {
        let state = State {
            sign: true,
            amount: 0,
        };
        let doing = Doing {
            act: Act::Neither,
            after: state,
        };
        (0..)
            .zip(sizes)
            .map(|(machine, size)| Record {
                machine,
                first: state,
                doings: vec![doing; size],
            })
            .collect()
    }

    #[rustfmt::skip]
    const YES_BYTES: [u8; 23] = [
        77, 1, 1, 0, 7, 1, 244,
        0, 0, 0, 0, 0, 12, 53, 0, // 800,000 pairs
        0, 0, 0, 0, 0, 0, 0, 0,
    ];
    const NO_BYTES: [u8; 19] = [77, 1, 0, 0, 0, 0, 0, 0, 0, 0, 2, 0, 0, 0, 0, 0, 0, 0, 0];

    #[test]
    fn bytes_and_answer_match() {
        let (records, first) = (records([7, 500]), vec![7, 500]);
        assert_eq!(write_may(Some(&first), 800_000), YES_BYTES);
        assert_eq!(read_may(&YES_BYTES, &records), Ok(Some(first)));
        assert_eq!(write_may(None, 2), NO_BYTES);
        assert_eq!(read_may(&NO_BYTES, &records), Ok(None));
    }

    #[test]
    fn no_answer_of_another_run_is_in_form() {
        assert_eq!(read_may(&YES_BYTES, &records([6, 500])), Err(NotInForm));
        assert_eq!(read_may(&YES_BYTES, &records([7, 499])), Err(NotInForm));
        let alone = &records([7, 500])[..1];
        assert_eq!(read_may(&YES_BYTES, alone), Err(NotInForm));
    }

    #[test]
    fn no_other_length_is_in_form() {
        let records = records([7, 500]);
        for bytes in [&YES_BYTES[..], &NO_BYTES] {
            for length in 0..bytes.len() {
                assert_eq!(read_may(&bytes[..length], &records), Err(NotInForm));
            }
            let longer = [bytes, &[0]].concat();
            assert_eq!(read_may(&longer, &records), Err(NotInForm));
        }
    }
}
