//! What `all` has to say about records.

use crate::answers::Answers;
use crate::cut;
use crate::network::Network;
use crate::refusal::Refusal;

/// The most cuts of a run that `all` goes through.
const MOST_CUTS: u64 = 1_000_000;

#[derive(Clone, Debug, PartialEq, Eq)]
pub enum Survey {
    Refused(Refusal),
    TooManyCuts,
    Done(Answers),
}

impl Survey {
    pub fn of<B: AsRef<[u8]>>(files: &[B]) -> Self {
        match Network::read(files) {
            Err(refusal) => Self::Refused(refusal),
            Ok(network) if cut::count(&network.records) > MOST_CUTS => Self::TooManyCuts,
            Ok(network) => Self::Done(Answers::of(&network.records)),
        }
    }

    pub fn status(&self) -> u8 {
        match self {
            Self::Done(_) => 0,
            Self::Refused(_) | Self::TooManyCuts => 1,
        }
    }

    /// The first lines of standard output, which are fixed to the letter.
    pub fn fixed_lines(&self) -> String {
        match self {
            Self::Refused(refusal) => refusal.line(),
            Self::TooManyCuts => "too many cuts\n".to_string(),
            Self::Done(answers) => answers.lines(),
        }
    }

    /// For people, after the fixed lines; after answers there is nothing.
    pub fn explanation(&self) -> Option<&'static str> {
        match self {
            Self::Refused(refusal) => Some(refusal.reason()),
            Self::TooManyCuts => Some("a run of at most 1000000 cuts can be gone through"),
            Self::Done(_) => None,
        }
    }
}
