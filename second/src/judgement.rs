//! What `check` has to say about an answer and records.

use crate::answer::{FIRST_BYTE, NotInForm, read_may};
use crate::may::May;
use crate::network::Network;
use crate::question::Question;

#[derive(Clone, Copy, Debug, PartialEq, Eq)]
pub enum Judgement {
    Shown,
    /// By this number: 1 to 4 are the records' own.
    Refused(u8),
    /// Answers to this question are not judged.
    Undecided,
}

/// The bytes are no answer of this run to the question.
pub const NOT_IN_FORM: Judgement = Judgement::Refused(5);
/// The answer does not show what it says.
pub const NOT_SHOWN: Judgement = Judgement::Refused(6);

impl Judgement {
    /// Without a question the answer itself says which it is.
    pub fn of<B: AsRef<[u8]>>(question: Option<Question>, answer: &[u8], files: &[B]) -> Self {
        let records = match Network::read(files) {
            Err(refusal) => return Self::Refused(refusal.number()),
            Ok(network) => network.records,
        };
        let asked = question.or_else(|| question_of(answer));
        if asked.is_some_and(|question| question != Question::May) {
            return Self::Undecided;
        }
        match read_may(answer, &records) {
            Err(NotInForm) => NOT_IN_FORM,
            Ok(first) if first == May::of(&records).first => Self::Shown,
            Ok(_) => NOT_SHOWN,
        }
    }

    pub fn status(self) -> u8 {
        match self {
            Self::Shown => 0,
            Self::Refused(_) | Self::Undecided => 1,
        }
    }

    /// The first line of standard output.
    pub fn line(self) -> String {
        match self {
            Self::Shown => "shown\n".to_string(),
            Self::Refused(number) => format!("{number}\n"),
            Self::Undecided => "undecided\n".to_string(),
        }
    }

    /// For people.
    pub fn explanation(self) -> &'static str {
        match self {
            Self::Shown => "the answer is right",
            NOT_IN_FORM => "the bytes are no answer of this run to the question",
            NOT_SHOWN => "the answer does not show what it says",
            Self::Refused(_) => "the records are refused",
            Self::Undecided => "answers to this question are not judged yet",
        }
    }
}

fn question_of(answer: &[u8]) -> Option<Question> {
    match *answer {
        [FIRST_BYTE, number, ..] => Question::from_number(number),
        _ => None,
    }
}

#[cfg(test)]
mod tests {
    use super::*;

    #[test]
    fn lines_are_to_the_letter() {
        assert_eq!(Judgement::Shown.line(), "shown\n");
        assert_eq!(Judgement::Refused(4).line(), "4\n");
        assert_eq!(NOT_IN_FORM.line(), "5\n");
        assert_eq!(NOT_SHOWN.line(), "6\n");
        assert_eq!(Judgement::Undecided.line(), "undecided\n");
    }

    #[test]
    fn the_answer_names_the_question() {
        assert_eq!(question_of(&[77, 1]), Some(Question::May));
        assert_eq!(question_of(&[77, 4, 0]), Some(Question::Most));
        for bytes in [&[][..], &[77], &[77, 0], &[77, 5], &[78, 2]] {
            assert_eq!(question_of(bytes), None, "{bytes:?}");
        }
    }
}
