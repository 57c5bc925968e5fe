//! Typings of a record in the four freedoms.
use super::Rng;
use crate::reader::{Record, LONGEST_MESSAGE};

/// How freely spaces are typed: how often more than one stands, and how many then at most.
#[derive(Clone, Copy)]
pub struct Pace {
    pub percent: usize,
    pub most: usize,
}

/// The lines of a message under way, without their ends.
pub struct Draft {
    pub lines: Vec<Vec<u8>>,
    pub rows: usize,
    items: bool,
    plain: bool,
}

impl Draft {
    pub fn typed(rng: &mut Rng, record: &Record) -> Draft {
        let pace = rng.pick(&[
            Pace { percent: 0, most: 2 },
            Pace { percent: 20, most: 3 },
            Pace { percent: 60, most: 4 },
            Pace { percent: 5, most: 60 },
        ]);
        let mut lines = record.lines();
        let first_row = 5;
        for (line, row) in lines[first_row..].iter_mut().zip(&record.rows) {
            // Freedom (d). The last row of a notice without items keeps its `)`.
            if rng.chance(50) {
                let closed = line.ends_with(b")");
                *line = row.full_text().into_bytes();
                line.extend(closed.then_some(b')'));
            }
        }
        let plain = !record.plain.is_empty();
        let loose = lines.len() - usize::from(plain);
        for line in &mut lines[..loose] {
            *line = loosened(rng, pace, line);
        }
        let items = !record.items.is_empty();
        Draft { lines, rows: record.rows.len(), items, plain }
    }

    pub fn awareness(&self) -> Option<usize> {
        self.items.then_some(5 + self.rows + 1)
    }

    /// The lines in which freedom (b) holds.
    pub fn loose(&self) -> usize {
        self.lines.len() - usize::from(self.plain)
    }

    /// With ends: LF, CR LF or both mixed, and the last one missing at times.
    pub fn ended(&self, rng: &mut Rng) -> Vec<u8> {
        let crs = rng.pick(&[0, 0, 50, 100]);
        let mut message = Vec::new();
        for line in &self.lines {
            message.extend(line);
            message.extend_from_slice(if rng.chance(crs) { b"\r\n" } else { b"\n" });
        }
        if rng.chance(20) {
            message.pop();
            if message.ends_with(b"\r") {
                message.pop();
            }
        }
        message
    }

    /// With exactly `length` bytes, by spaces beside spaces; as it is if it is longer already.
    pub fn stretched(&self, rng: &mut Rng, length: usize) -> Vec<u8> {
        let mut message = self.ended(rng);
        // Spaces of plain language tell something, so its line is left alone.
        let plain = if self.plain { self.lines.last().map_or(0, Vec::len) + 2 } else { 0 };
        let loose = message.len().saturating_sub(plain);
        let mut missing = length.saturating_sub(message.len());
        while missing > 0 {
            let gaps: Vec<usize> = (0..loose).filter(|&place| message[place] == b' ').collect();
            if gaps.is_empty() {
                break;
            }
            let place = rng.pick(&gaps);
            let count = if rng.chance(40) { missing } else { rng.between(1, missing) };
            message.splice(place..place, std::iter::repeat(b' ').take(count));
            missing -= count;
        }
        message
    }
}

/// Freedom (b) in every gap of a line, and (c) where a gap follows a full stop.
pub fn loosened(rng: &mut Rng, pace: Pace, line: &[u8]) -> Vec<u8> {
    let mut text = Vec::new();
    for &byte in line {
        if byte != b' ' {
            text.push(byte);
        } else {
            let after_item = text.ends_with(b".");
            let count = if !rng.chance(pace.percent) {
                1
            } else if after_item {
                rng.pick(&[0, 0, 2, pace.most])
            } else {
                rng.between(2, pace.most)
            };
            text.extend(std::iter::repeat(b' ').take(count));
        }
    }
    text
}

/// Some typing of a record, at most 4,096 bytes long.
pub fn typing(rng: &mut Rng, record: &Record) -> Vec<u8> {
    loop {
        let message = Draft::typed(rng, record).ended(rng);
        if message.len() <= LONGEST_MESSAGE {
            return message;
        }
    }
}

/// A typing of a record of `length` bytes, or of more if it takes more.
pub fn stretched(rng: &mut Rng, record: &Record, length: usize) -> Vec<u8> {
    Draft::typed(rng, record).stretched(rng, length)
}
