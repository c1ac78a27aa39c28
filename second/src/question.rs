//! The questions that can be asked.

#[derive(Clone, Copy, Debug, PartialEq, Eq)]
pub enum Question {
    May,
    Must,
    Least,
    Most,
}

impl Question {
    pub const ALL: [Self; 4] = [Self::May, Self::Must, Self::Least, Self::Most];

    pub fn word(self) -> &'static str {
        match self {
            Self::May => "may",
            Self::Must => "must",
            Self::Least => "least",
            Self::Most => "most",
        }
    }

    /// In answers.
    pub const fn number(self) -> u8 {
        match self {
            Self::May => 1,
            Self::Must => 2,
            Self::Least => 3,
            Self::Most => 4,
        }
    }

    pub fn from_word(word: &str) -> Option<Self> {
        Self::ALL
            .into_iter()
            .find(|question| question.word() == word)
    }

    pub fn from_number(number: u8) -> Option<Self> {
        Self::ALL
            .into_iter()
            .find(|question| question.number() == number)
    }
}
