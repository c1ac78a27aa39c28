//! The words after `compare`.

use crate::decimal::decimal;
use crate::disk;
use crate::reply::Trouble;
use std::ffi::{OsStr, OsString};
use std::ops::RangeInclusive;
use std::path::{Path, PathBuf};

const USAGE: &str = "usage: second compare FOLDER [--seed N] [--cases N] [--only CASE]";

pub struct Options {
    /// The folder that holds the programs under test.
    pub programs: PathBuf,
    pub seed: u64,
    cases: u64,
    /// The one random case to run, and no other.
    pub only: Option<u64>,
}

impl Options {
    pub fn read(words: &[OsString]) -> Result<Self, Trouble> {
        let Some((folder, rest)) = words.split_first() else {
            return Err(Trouble::new(USAGE));
        };
        let mut options = Self {
            programs: absolute(folder)?,
            seed: 1,
            cases: 3000,
            only: None,
        };
        for pair in rest.chunks(2) {
            let [name, value] = pair else {
                return Err(Trouble::new(USAGE));
            };
            let number = decimal(value.as_encoded_bytes()).ok_or_else(|| Trouble::new(USAGE))?;
            options.set(name, number)?;
        }
        Ok(options)
    }

    fn set(&mut self, name: &OsStr, number: u64) -> Result<(), Trouble> {
        match name.to_str() {
            Some("--seed") => self.seed = number,
            Some("--cases") => self.cases = number,
            Some("--only") => self.only = Some(number),
            _ => return Err(Trouble::new(USAGE)),
        }
        Ok(())
    }

    /// The numbers of the random cases to run.
    pub fn random_cases(&self) -> RangeInclusive<u64> {
        match self.only {
            Some(case) => case..=case,
            None => 1..=self.cases,
        }
    }
}

/// The programs are run from another folder, so their own must not depend on it.
fn absolute(folder: &OsStr) -> Result<PathBuf, Trouble> {
    let folder = Path::new(folder);
    folder
        .canonicalize()
        .map_err(|error| disk::trouble("find", folder, &error))
}
