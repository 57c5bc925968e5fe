//! Refusals, and where in the text they were met: request 2 of document 02.

/// A refusal number and a byte's place, counted from 0: in the message, or in the text of a row that is read by itself.
#[derive(Clone, Copy, Debug, PartialEq, Eq)]
pub struct Refused {
    pub number: u8,
    pub place: usize,
}

impl Refused {
    pub fn at(number: u8, place: usize) -> Refused {
        Refused { number, place }
    }

    /// The same, counted from the start of the message instead of from the start of one of its lines.
    pub fn in_line_at(self, start: usize) -> Refused {
        Refused { place: start + self.place, ..self }
    }
}
