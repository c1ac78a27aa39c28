//! A record as people write it: a line for the state at first, then one for each
//! doing. `#` and what follows it on a line is passed over, and blank lines too.

use crate::decimal::decimal;
use crate::record::{Act, Doing, LARGEST_AMOUNT, MOST_DOINGS, Record, State};
use crate::reply::Trouble;

pub fn read(machine: u8, text: &[u8]) -> Result<Record, Trouble> {
    let mut lines = (1..)
        .zip(text.split(|&byte| byte == b'\n'))
        .map(|(number, line)| (number, words(line)))
        .filter(|(_, words)| !words.is_empty());
    let (number, line) = lines
        .next()
        .ok_or_else(|| Trouble::new("no line for the state at first"))?;
    let first = told(number, read_first(&line))?;
    let doings = lines
        .map(|(number, line)| told(number, read_doing(&line)))
        .collect::<Result<Vec<_>, _>>()?;
    if doings.len() > MOST_DOINGS.into() {
        return Err(Trouble(format!("more than {MOST_DOINGS} doings")));
    }
    Ok(Record {
        machine,
        first,
        doings,
    })
}

/// The message of a fault, with the line it is in.
fn told<T>(line: usize, result: Result<T, &str>) -> Result<T, Trouble> {
    result.map_err(|message| Trouble(format!("line {line}: {message}")))
}

fn words(line: &[u8]) -> Vec<&[u8]> {
    let said = line.split(|&byte| byte == b'#').next().unwrap_or_default();
    said.split(|byte| b" \t".contains(byte))
        .filter(|word| !word.is_empty())
        .collect()
}

fn read_first(words: &[&[u8]]) -> Result<State, &'static str> {
    match words {
        [sign, amount] => read_state(sign, amount),
        _ => Err("the state at first is SIGN AMOUNT"),
    }
}

fn read_doing(words: &[&[u8]]) -> Result<Doing, &'static str> {
    let (sign, amount, act) = match words {
        [sign, amount] => (sign, amount, Act::Neither),
        [sign, amount, b"sends", letter] => (sign, amount, Act::Sends(read_letter(letter)?)),
        [sign, amount, b"gets", letter] => (sign, amount, Act::Gets(read_letter(letter)?)),
        _ => return Err("a doing is SIGN AMOUNT, and sends LETTER or gets LETTER if it does"),
    };
    let after = read_state(sign, amount)?;
    Ok(Doing { act, after })
}

fn read_state(sign: &[u8], amount: &[u8]) -> Result<State, &'static str> {
    let sign = match sign {
        b"yes" => true,
        b"no" => false,
        _ => return Err("a sign is yes or no"),
    };
    let amount = number(amount)
        .filter(|&amount| amount <= LARGEST_AMOUNT)
        .ok_or("an amount is 0 to 1000000")?;
    Ok(State { sign, amount })
}

fn read_letter(word: &[u8]) -> Result<u32, &'static str> {
    number(word)
        .filter(|&letter| letter > 0)
        .ok_or("a letter is 1 to 4294967295")
}

fn number(word: &[u8]) -> Option<u32> {
    decimal(word)?.try_into().ok()
}
