//! A record as bytes: a head, then the doings; numbers have their high byte first.

use crate::record::{Act, Doing, LARGEST_AMOUNT, MOST_DOINGS, Record, State};

/// Every record begins with this byte.
pub const FIRST_BYTE: u8 = 82;
/// Bytes before the first doing: first byte, machine, sign, amount, count.
pub const HEAD: usize = 9;
/// Bytes of one doing: kind, letter, sign, amount.
pub const DOING: usize = 10;

pub const NEITHER: u8 = 0;
pub const SENDS: u8 = 1;
pub const GETS: u8 = 2;

/// Reads the record of `machine`. The error is the number of the first doing
/// whose bytes are wrong or missing, 0 for the head; bytes after the last doing
/// count as that doing's.
pub fn read(machine: u8, bytes: &[u8]) -> Result<Record, u16> {
    let (head, mut rest) = bytes.split_first_chunk().ok_or(0u16)?;
    let (first, count) = read_head(machine, head).ok_or(0u16)?;
    let mut doings = Vec::with_capacity(count.into());
    for number in 1..=count {
        let (doing, after) = rest.split_first_chunk().ok_or(number)?;
        doings.push(read_doing(doing).ok_or(number)?);
        rest = after;
    }
    if !rest.is_empty() {
        return Err(count);
    }
    Ok(Record {
        machine,
        first,
        doings,
    })
}

/// The state at first and how many doings follow.
fn read_head(machine: u8, head: &[u8; HEAD]) -> Option<(State, u16)> {
    let [FIRST_BYTE, named, sign, a, b, c, d, high, low] = *head else {
        return None;
    };
    let state = read_state(sign, [a, b, c, d])?;
    let count = u16::from_be_bytes([high, low]);
    (named == machine && count <= MOST_DOINGS).then_some((state, count))
}

fn read_doing(doing: &[u8; DOING]) -> Option<Doing> {
    let [kind, l1, l2, l3, l4, sign, a, b, c, d] = *doing;
    let act = match (kind, u32::from_be_bytes([l1, l2, l3, l4])) {
        (NEITHER, 0) => Act::Neither,
        (SENDS, letter @ 1..) => Act::Sends(letter),
        (GETS, letter @ 1..) => Act::Gets(letter),
        _ => return None,
    };
    let after = read_state(sign, [a, b, c, d])?;
    Some(Doing { act, after })
}

fn read_state(sign: u8, amount: [u8; 4]) -> Option<State> {
    let amount = u32::from_be_bytes(amount);
    (sign <= 1 && amount <= LARGEST_AMOUNT).then_some(State {
        sign: sign == 1,
        amount,
    })
}

pub fn write(record: &Record) -> Vec<u8> {
    let count = u16::try_from(record.doings.len()).expect("a record has at most 500 doings");
    let mut bytes = vec![FIRST_BYTE, record.machine];
    bytes.extend(write_state(record.first));
    bytes.extend(count.to_be_bytes());
    bytes.extend(record.doings.iter().flat_map(write_doing));
    bytes
}

pub fn write_doing(doing: &Doing) -> [u8; DOING] {
    let (kind, letter) = match doing.act {
        Act::Neither => (NEITHER, 0),
        Act::Sends(letter) => (SENDS, letter),
        Act::Gets(letter) => (GETS, letter),
    };
    let [l1, l2, l3, l4] = letter.to_be_bytes();
    let [sign, a, b, c, d] = write_state(doing.after);
    [kind, l1, l2, l3, l4, sign, a, b, c, d]
}

fn write_state(state: State) -> [u8; 5] {
    let [a, b, c, d] = state.amount.to_be_bytes();
    [u8::from(state.sign), a, b, c, d]
}

#[cfg(test)]
mod tests {
    use super::*;

    const BYTES: [u8; 29] = [
        82, 3, 1, 0, 0, 1, 2, 0, 2, // machine 3, yes, 258, two doings
        1, 0xff, 0xff, 0xff, 0xff, 0, 0, 0x0f, 0x42, 0x40, // sends, no, 1,000,000
        0, 0, 0, 0, 0, 1, 0, 0, 0, 0, // neither, yes, 0
    ];

    fn record() -> Record {
        let state = |sign, amount| State { sign, amount };
        let doing = |act, after| Doing { act, after };
        Record {
            machine: 3,
            first: state(true, 258),
            doings: vec![
                doing(Act::Sends(u32::MAX), state(false, 1_000_000)),
                doing(Act::Neither, state(true, 0)),
            ],
        }
    }

    #[test]
    fn bytes_and_record_match() {
        assert_eq!(read(3, &BYTES), Ok(record()));
        assert_eq!(write(&record()), BYTES);
    }

    #[test]
    fn the_first_wrong_doing_is_told() {
        assert_eq!(read(2, &BYTES), Err(0));
        assert_eq!(read(3, &BYTES[..8]), Err(0));
        assert_eq!(read(3, &BYTES[..9]), Err(1));
        assert_eq!(read(3, &BYTES[..28]), Err(2));
        assert_eq!(read(3, &[&BYTES[..], &[0]].concat()), Err(2));
    }
}
