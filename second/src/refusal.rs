//! Why records are refused, and where.

use crate::record::Place;
use std::slice;

/// The first byte of every refusal.
const FIRST_BYTE: u8 = 78;

#[derive(Clone, Debug, PartialEq, Eq)]
pub enum Refusal {
    /// The bytes are no record, or the records no list of machines.
    NotInForm(Place),
    /// A letter is sent twice, or got twice.
    Twice(Place),
    /// A letter is got that nobody sends.
    NeverSent(Place),
    /// Doings come before themselves: each of these comes right before the next,
    /// and the last before the first.
    Ring(Vec<Place>),
}

impl Refusal {
    pub fn number(&self) -> u8 {
        match self {
            Self::NotInForm(_) => 1,
            Self::Twice(_) => 2,
            Self::NeverSent(_) => 3,
            Self::Ring(_) => 4,
        }
    }

    /// One place, or those of the ring.
    pub fn places(&self) -> &[Place] {
        match self {
            Self::NotInForm(place) | Self::Twice(place) | Self::NeverSent(place) => {
                slice::from_ref(place)
            }
            Self::Ring(places) => places,
        }
    }

    pub fn bytes(&self) -> Vec<u8> {
        let mut bytes = vec![FIRST_BYTE, self.number()];
        for place in self.places() {
            bytes.push(place.machine);
            bytes.extend(place.doing.to_be_bytes());
        }
        bytes
    }

    /// The first line of standard output.
    pub fn line(&self) -> String {
        let places: String = self.places().iter().map(in_words).collect();
        format!("refused {} at{places}\n", self.number())
    }

    /// For people.
    pub fn reason(&self) -> &'static str {
        match self {
            Self::NotInForm(_) => "the records are not in form",
            Self::Twice(_) => "a letter is sent twice or got twice",
            Self::NeverSent(_) => "a letter is got and never sent",
            Self::Ring(_) => {
                "each of these doings comes before the next, and the last before the first"
            }
        }
    }
}

/// A place after a space.
fn in_words(Place { machine, doing }: &Place) -> String {
    format!(" {machine} {doing}")
}

#[cfg(test)]
mod tests {
    use super::*;

    #[test]
    fn bytes_have_the_number_and_the_places() {
        let place = Place {
            machine: 39,
            doing: 500,
        };
        let other = Place {
            machine: 7,
            doing: 8,
        };
        assert_eq!(Refusal::NotInForm(place).bytes(), [78, 1, 39, 1, 244]);
        assert_eq!(Refusal::Twice(place).bytes(), [78, 2, 39, 1, 244]);
        assert_eq!(Refusal::NeverSent(place).bytes(), [78, 3, 39, 1, 244]);
        assert_eq!(
            Refusal::Ring(vec![other, place]).bytes(),
            [78, 4, 7, 0, 8, 39, 1, 244]
        );
    }
}
