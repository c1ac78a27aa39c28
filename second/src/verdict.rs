//! What `ask` has to say about records.

use crate::network::Network;
use crate::question::Question;
use crate::refusal::Refusal;

#[derive(Clone, Debug, PartialEq, Eq)]
pub enum Verdict {
    Refused(Refusal),
    /// The records are fine, and the question stays open.
    Undecided {
        question: Question,
        machines: usize,
        doings: usize,
        letters: usize,
    },
}

impl Verdict {
    pub fn of<B: AsRef<[u8]>>(question: Question, files: &[B]) -> Self {
        match Network::read(files) {
            Err(refusal) => Self::Refused(refusal),
            Ok(network) => Self::Undecided {
                question,
                machines: network.records.len(),
                doings: network.doings(),
                letters: network.letters,
            },
        }
    }

    /// The first lines of standard output, which are fixed to the letter.
    pub fn fixed_lines(&self) -> String {
        match self {
            Self::Refused(refusal) => refusal.line(),
            Self::Undecided {
                question,
                machines,
                doings,
                letters,
            } => format!(
                "{} undecided\nmachines {machines} doings {doings} letters {letters}\n",
                question.word()
            ),
        }
    }

    /// What goes into the answer file, if one is to be written.
    pub fn answer(&self) -> Option<Vec<u8>> {
        match self {
            Self::Refused(refusal) => Some(refusal.bytes()),
            Self::Undecided { .. } => None,
        }
    }

    /// For people, after the fixed lines.
    pub fn explanation(&self) -> &'static str {
        match self {
            Self::Refused(refusal) => refusal.reason(),
            Self::Undecided { .. } => "the records are fine; the question is not decided yet",
        }
    }
}

#[cfg(test)]
mod tests {
    use super::*;
    use crate::record::Place;

    #[test]
    fn fixed_lines_are_to_the_letter() {
        let place = |machine, doing| Place { machine, doing };
        let refused = Verdict::Refused(Refusal::Twice(place(1, 20)));
        assert_eq!(refused.fixed_lines(), "refused 2 at 1 20\n");
        let ring = Verdict::Refused(Refusal::Ring(vec![place(0, 3), place(12, 500)]));
        assert_eq!(ring.fixed_lines(), "refused 4 at 0 3 12 500\n");
        let undecided = Verdict::Undecided {
            question: Question::Least,
            machines: 3,
            doings: 14,
            letters: 5,
        };
        assert_eq!(
            undecided.fixed_lines(),
            "least undecided\nmachines 3 doings 14 letters 5\n"
        );
        assert_eq!(undecided.answer(), None);
    }
}
