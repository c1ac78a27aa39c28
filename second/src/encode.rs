//! The program `encode`: turns a record written by people into its bytes.

use crate::decimal::decimal;
use crate::disk;
use crate::form;
use crate::record::MOST_MACHINES;
use crate::reply::{Reply, Trouble};
use crate::text;
use std::ffi::OsString;

const USAGE: &str = "\
usage: encode MACHINE TEXT RECORD
Reads the text file TEXT and writes the record of machine MACHINE to RECORD.
";

pub fn run(words: &[OsString]) -> Result<Reply, Trouble> {
    if *words == ["--help"] {
        return Ok(Reply::help(USAGE));
    }
    let [machine, text, record] = words else {
        return Err(Trouble::new(USAGE));
    };
    let bytes = encode(machine.as_encoded_bytes(), &disk::read(text)?)?;
    disk::write(record, &bytes)?;
    Ok(Reply {
        output: String::new(),
        status: 0,
    })
}

/// The bytes of the record that `text` tells, for the machine a word names.
pub fn encode(machine: &[u8], text: &[u8]) -> Result<Vec<u8>, Trouble> {
    let machine = decimal(machine)
        .and_then(|number| u8::try_from(number).ok())
        .filter(|&number| number < MOST_MACHINES)
        .ok_or_else(|| Trouble::new("a machine is 0 to 39"))?;
    Ok(form::write(&text::read(machine, text)?))
}
