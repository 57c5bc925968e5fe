//! Observations, rows as numbers and as text, and two rows.
use super::{filled, Run, Shown, UNTOUCHED};
use crate::assess;
use crate::desk;
use crate::due::{due, Change};
use crate::edges::{self, Example, Pair};
use crate::generate;
use crate::library::{self, Agreement, Assessment, RowRead};
use crate::row::{Row, Third};

impl Run {
    pub fn observation(&mut self) {
        let generate::Observation { kind, cover, depth, temperature, slippery } = generate::observation(&mut self.rng);
        let (refusal, [code, coverage, reported, description]) =
            assess::assess(kind, cover, depth, temperature, slippery);
        self.report.count(refusal);
        let third = (&Third { code, coverage, depth: reported, description }).into();
        let seen = library::Observation { kind, cover, depth, temperature, slippery };
        self.agree("assessing", seen, Assessment { refusal, third }, library::assess(seen));
    }

    /// A row as numbers: its disagreeing thirds, and its text in a room that may be too short.
    pub fn row(&mut self) {
        let row = generate::numbers(&mut self.rng);
        let (refusal, count) = assess::agreement(&row);
        self.report.count(refusal);
        let told = library::Row::from(&row);
        self.agree("agreement", told, Agreement { refusal, count }, library::disagreeing(&told));

        let text = row.text().into_bytes();
        let mut buffer = self.room(text.len());
        let expected = if row.is_valid() && text.len() <= buffer.len() {
            (text.len(), Shown(filled(&text, buffer.len())))
        } else {
            (0, Shown(vec![UNTOUCHED; buffer.len()]))
        };
        let length = library::write_row(&told, &mut buffer);
        self.agree("writing a row", told, expected, (length, Shown(buffer)));
    }

    /// A line that holds a row, or something that was one. How long it is matters to the desk alone.
    pub fn row_line(&mut self) {
        let line = generate::any_row_line(&mut self.rng);
        self.read_row(&line);
    }

    /// A row by hand is answered as it stands there, whatever the second reader tells of it.
    pub fn row_by_hand(&mut self, example: &Example) {
        let RowRead { refusal, place, .. } = library::read_row(&example.text);
        let expected = (example.number, example.place);
        self.agree("a row by hand", Shown(&example.text), expected, (refusal, place));
        self.read_row(&example.text);
        let input = edges::at_desk(example);
        self.prints("desk", &input, &desk::desk(&input), |out| library::desk(&input, out));
    }

    /// The row shown and a new one. Whether a notice is due.
    pub fn row_pair(&mut self) -> bool {
        let (old, new) = generate::row_pair(&mut self.rng);
        let expected = due(&old, &new);
        self.told_of_two("two rows", &old, &new, expected);
        expected.due
    }

    /// Two rows by hand are answered as it stands there, whatever the second reader tells of them.
    pub fn row_pair_by_hand(&mut self, pair: &Pair) {
        self.told_of_two("two rows by hand", &pair.old, &pair.new, pair.change);
    }

    /// The answer is the same with the rows exchanged.
    fn told_of_two(&mut self, what: &str, old: &Row, new: &Row, expected: Change) {
        self.report.count(expected.refusal);
        let expected = library::Change::from(expected);
        let (old, new) = (library::Row::from(old), library::Row::from(new));
        self.agree(what, (old, new), expected, library::due(&old, &new));
        self.agree(&format!("{what}, exchanged,"), (new, old), expected, library::due(&new, &old));
    }

    fn read_row(&mut self, line: &[u8]) {
        let expected = match Row::read(line) {
            Ok(row) => RowRead { refusal: 0, place: 0, row: (&row).into() },
            Err(refused) => RowRead { refusal: refused.number, place: refused.place, ..Default::default() },
        };
        self.report.count(expected.refusal);
        self.agree("reading a row", Shown(line), expected, library::read_row(line));
    }
}
