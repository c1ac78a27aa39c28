//! A second implementation of `ask`, `check`, `all` and `encode`, written from the
//! rules alone, and a comparison of the programs under test with it.
//!
//! ```text
//! second compare FOLDER [--seed N] [--cases N] [--only CASE]
//! second ask QUESTION ANSWER RECORD..
//! second check [QUESTION] ANSWER RECORD..
//! second all RECORD..
//! second encode MACHINE TEXT RECORD
//! second large|tangle|circle FOLDER
//! ```
//!
//! `compare` runs FOLDER/ask, FOLDER/check, FOLDER/all and FOLDER/encode on a fixed
//! table of edge cases, whose outcomes are written out by hand, and on random cases,
//! whose outcomes come from the implementation here. Wherever `ask` is run, `all` is
//! run on the same records; then `check` is run on them with the answer to `may`, as
//! it is and damaged. It stops at the first difference.
//! `ask`, `check`, `all` and `encode` are that implementation as programs of their own.
//! `large`, `tangle` and `circle` write the records of runs as large as can be:
//! without a ring, with very many, and with one of all doings.

mod all;
mod answer;
mod answers;
mod ask;
mod before;
mod chance;
mod check;
mod compare;
mod cut;
mod decimal;
mod disk;
mod encode;
mod form;
mod judgement;
mod large;
mod may;
mod moments;
mod network;
mod question;
mod record;
mod refusal;
mod reply;
mod ring;
mod survey;
mod text;
mod verdict;

use reply::{Reply, Trouble};
use std::env;
use std::ffi::OsString;
use std::process::ExitCode;

const USAGE: &str = "\
usage: second compare FOLDER [--seed N] [--cases N] [--only CASE]
       second ask QUESTION ANSWER RECORD..
       second check [QUESTION] ANSWER RECORD..
       second all RECORD..
       second encode MACHINE TEXT RECORD
       second large|tangle|circle FOLDER
";

fn main() -> ExitCode {
    let words: Vec<OsString> = env::args_os().skip(1).collect();
    match run(&words) {
        Ok(reply) => {
            print!("{}", reply.output);
            ExitCode::from(reply.status)
        }
        Err(Trouble(message)) => {
            eprintln!("second: {}", message.trim_end());
            ExitCode::FAILURE
        }
    }
}

fn run(words: &[OsString]) -> Result<Reply, Trouble> {
    let Some((command, rest)) = words.split_first() else {
        return Err(Trouble::new(USAGE));
    };
    match command.to_str() {
        Some("ask") => ask::run(rest),
        Some("check") => check::run(rest),
        Some("all") => all::run(rest),
        Some("encode") => encode::run(rest),
        Some("compare") => compare::run(rest),
        Some("large") => large::run(large::large, rest),
        Some("tangle") => large::run(large::tangle, rest),
        Some("circle") => large::run(large::circle, rest),
        Some("--help") => Ok(Reply::help(USAGE)),
        _ => Err(Trouble::new(USAGE)),
    }
}
