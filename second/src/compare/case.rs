//! One run of a program under test: what it is given and what is expected of it.

use super::expected::Expected;
use crate::judgement::Judgement;
use crate::question::Question;
use crate::survey::Survey;
use crate::verdict::Verdict;
use std::collections::BTreeMap;

/// The files in a case's folder, by name.
pub type Files = BTreeMap<String, Vec<u8>>;

#[derive(Clone, Copy, Debug, PartialEq, Eq, PartialOrd, Ord)]
pub enum Program {
    Ask,
    Check,
    All,
    Encode,
}

pub const ANSWER: &str = "answer";
const RECORD: &str = "record";

impl Program {
    pub const EVERY: [Self; 4] = [Self::Ask, Self::Check, Self::All, Self::Encode];

    pub fn name(self) -> &'static str {
        match self {
            Self::Ask => "ask",
            Self::Check => "check",
            Self::All => "all",
            Self::Encode => "encode",
        }
    }

    /// The file that the program is told to write.
    pub fn writes(self) -> Option<&'static str> {
        match self {
            Self::Ask => Some(ANSWER),
            Self::Check | Self::All => None,
            Self::Encode => Some(RECORD),
        }
    }

    /// What its help begins with, as far as that is fixed.
    pub fn usage(self) -> &'static str {
        match self {
            Self::Check => "usage: check [QUESTION] ANSWER RECORD..",
            Self::All => "usage: all RECORD..",
            Self::Ask | Self::Encode => "",
        }
    }
}

#[derive(Clone, Debug)]
pub struct Case {
    /// What is special about it, such as its damage.
    pub what: String,
    pub program: Program,
    /// The words after the program's name; paths start from the case's folder.
    pub words: Vec<String>,
    pub files: Files,
    pub expected: Expected,
}

impl Case {
    pub fn new(program: Program, what: &str, words: &[&str], expected: Expected) -> Self {
        Self {
            what: what.to_string(),
            program,
            words: words.iter().map(ToString::to_string).collect(),
            files: Files::new(),
            expected,
        }
    }

    pub fn ask(what: &str, question: &str, records: Vec<Vec<u8>>, verdict: Verdict) -> Self {
        let words = [question, ANSWER];
        Self::new(Program::Ask, what, &words, Expected::Verdict(verdict)).with_records(records)
    }

    pub fn check(
        what: &str,
        question: Option<Question>,
        answer: &[u8],
        records: Vec<Vec<u8>>,
        judgement: Judgement,
    ) -> Self {
        let words: Vec<&str> = question.map(Question::word).into_iter().collect();
        let words = [&words[..], &[ANSWER]].concat();
        Self::new(Program::Check, what, &words, Expected::Judgement(judgement))
            .with_file(ANSWER, answer)
            .with_records(records)
    }

    pub fn all(what: &str, records: Vec<Vec<u8>>, survey: Survey) -> Self {
        Self::new(Program::All, what, &[], Expected::Survey(survey)).with_records(records)
    }

    pub fn encode(what: &str, machine: &str, text: &str, expected: Expected) -> Self {
        let words = [machine, "text", RECORD];
        Self::new(Program::Encode, what, &words, expected).with_file("text", text.as_bytes())
    }

    /// The case with files for the records, whose names are its last words.
    fn with_records(mut self, records: Vec<Vec<u8>>) -> Self {
        for (machine, bytes) in records.into_iter().enumerate() {
            let name = format!("{machine:02}");
            self.words.push(name.clone());
            self.files.insert(name, bytes);
        }
        self
    }

    pub fn with_file(mut self, name: &str, bytes: &[u8]) -> Self {
        self.files.insert(name.to_string(), bytes.to_vec());
        self
    }

    /// The case with a file already there where the program may write.
    pub fn with_earlier(self, bytes: &[u8]) -> Self {
        match self.program.writes() {
            Some(name) => self.with_file(name, bytes),
            None => self,
        }
    }

    /// The files as they should be when the program has ended.
    pub fn files_after(&self) -> Files {
        let mut files = self.files.clone();
        if let (Some(name), Some(bytes)) = (self.program.writes(), self.expected.written()) {
            files.insert(name.to_string(), bytes);
        }
        files
    }

    /// The names under which its outcome is counted.
    pub fn sorts(&self) -> Vec<String> {
        self.expected.sorts(self.program)
    }
}
