//! Refusals: "A refusal is a number and a place (0 unless said)" (document 01, "The questions").

use std::fmt;

/// The number of the question that was answered with no, and the place.
#[derive(Clone, Copy, Debug, PartialEq, Eq, Hash)]
pub struct Refusal {
    /// The number of the question.
    pub number: u8,
    /// A letter's number from 1, a byte of the text from 0, or 0.
    pub place: usize,
}

impl Refusal {
    /// The refusal with this number at this place.
    pub fn at(number: u8, place: usize) -> Refusal {
        Refusal { number, place }
    }

    /// The refusal with this number at place 0.
    pub fn plain(number: u8) -> Refusal {
        Refusal { number, place: 0 }
    }
}

impl fmt::Display for Refusal {
    fn fmt(&self, out: &mut fmt::Formatter<'_>) -> fmt::Result {
        write!(out, "refused {} at {}", self.number, self.place)
    }
}
