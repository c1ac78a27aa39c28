//! What a program under test should do, as far as it is fixed.

use super::case::Program;
use crate::answers::Answers;
use crate::judgement::Judgement;
use crate::refusal::Refusal;
use crate::survey::Survey;
use crate::verdict::Verdict;
use std::borrow::Cow;

#[derive(Clone, Debug)]
pub enum Expected {
    /// `ask` says this of the records.
    Verdict(Verdict),
    /// `all` says this of the records.
    Survey(Survey),
    /// `all` prints what `ask` printed when it refused the same records.
    AsAsk(Refusal, Vec<u8>),
    /// `check` says this of an answer and records.
    Judgement(Judgement),
    /// `encode` writes this record.
    Record(Vec<u8>),
    /// A message on standard error, and nothing done.
    Trouble,
    /// The usage on standard output.
    Help,
}

impl Expected {
    pub fn status(&self) -> i32 {
        match self {
            Self::Record(_) | Self::Help => 0,
            Self::Survey(survey) => survey.status().into(),
            Self::Judgement(judgement) => judgement.status().into(),
            Self::Verdict(_) | Self::AsAsk(..) | Self::Trouble => 1,
        }
    }

    /// Whether something is said on standard error.
    pub fn complains(&self) -> bool {
        matches!(self, Self::Trouble)
    }

    /// The bytes of the file that is written, if one is.
    pub fn written(&self) -> Option<Vec<u8>> {
        match self {
            Self::Verdict(verdict) => verdict.answer(),
            Self::Record(bytes) => Some(bytes.clone()),
            _ => None,
        }
    }

    /// Whether standard output is as it should be. What `encode` says there is
    /// left to it.
    pub fn allows(&self, program: Program, output: &[u8]) -> bool {
        match self {
            Self::Verdict(verdict) => output.starts_with(verdict.fixed_lines().as_bytes()),
            Self::Survey(Survey::Done(answers)) => output == answers.lines().as_bytes(),
            Self::Survey(survey) => output.starts_with(survey.fixed_lines().as_bytes()),
            Self::AsAsk(_, said) => output == said,
            Self::Judgement(judgement) => output.starts_with(judgement.line().as_bytes()),
            Self::Record(_) => true,
            Self::Trouble => program == Program::Encode || output.is_empty(),
            Self::Help => !output.is_empty() && output.starts_with(program.usage().as_bytes()),
        }
    }

    /// What standard output should be, for people.
    pub fn output(&self, program: Program) -> String {
        match (self, program) {
            (Self::Verdict(verdict), _) => format!("{:?} and more", verdict.fixed_lines()),
            (Self::Survey(Survey::Done(answers)), _) => format!("{:?}", answers.lines()),
            (Self::Survey(survey), _) => format!("{:?} and more", survey.fixed_lines()),
            (Self::AsAsk(_, said), _) => format!("as of ask, {:?}", lossy(said)),
            (Self::Judgement(judgement), _) => format!("{:?} and more", judgement.line()),
            (Self::Help, _) => format!("{:?} and more", program.usage()),
            (Self::Record(_), _) | (Self::Trouble, Program::Encode) => "anything".to_string(),
            (Self::Trouble, _) => "nothing".to_string(),
        }
    }

    /// The names under which such outcomes are counted.
    pub fn sorts(&self, program: Program) -> Vec<String> {
        let name = match self {
            Self::Survey(Survey::Done(answers)) => return answers_sorts(answers),
            Self::Verdict(Verdict::Refused(refusal))
            | Self::Survey(Survey::Refused(refusal))
            | Self::AsAsk(refusal, _) => return vec![format!("refused {}", refusal.number())],
            Self::Judgement(Judgement::Refused(number)) => {
                return vec![format!("refused {number}")];
            }
            Self::Judgement(Judgement::Shown) => "shown",
            Self::Verdict(Verdict::Undecided { .. }) | Self::Judgement(Judgement::Undecided) => {
                "undecided"
            }
            Self::Survey(Survey::TooManyCuts) => "too many cuts",
            Self::Record(_) => "texts encoded",
            Self::Trouble if program == Program::Encode => "texts not encoded",
            Self::Trouble => "in trouble",
            Self::Help => "helped",
        };
        vec![name.to_string()]
    }
}

fn lossy(said: &[u8]) -> Cow<'_, str> {
    String::from_utf8_lossy(said)
}

fn answers_sorts(answers: &Answers) -> Vec<String> {
    let word = |yes| if yes { "yes" } else { "no" };
    vec![
        format!("may {}", word(answers.may.is_some())),
        format!("must {}", word(answers.must)),
    ]
}
