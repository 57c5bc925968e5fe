//! Messages and records.
use super::{Run, Shown};
use crate::edges::Example;
use crate::generate;
use crate::judge;
use crate::library::{self, Reading};
use crate::reader;

impl Run {
    pub fn message(&mut self) {
        let message = generate::message(&mut self.rng).message;
        self.told(&message);
    }

    /// A message by hand is answered as it stands there, whatever the second reader tells of it.
    pub fn message_by_hand(&mut self, example: &Example) {
        let Reading { refusal, place, .. } = library::read(&example.text);
        let expected = (example.number, example.place);
        self.agree("a message by hand", Shown(&example.text), expected, (refusal, place));
        self.told(&example.text);
    }

    /// A message read, written anew and listed, and its record written.
    fn told(&mut self, message: &[u8]) {
        let input = Shown(message);
        let read = reader::read(message);
        let expected = match &read {
            Ok(record) => Reading { refusal: 0, place: 0, record: record.into() },
            Err(refused) => Reading { refusal: refused.number, place: refused.place, ..Default::default() },
        };
        self.report.count(expected.refusal);
        self.agree("reading", &input, &expected, &library::read(message));

        let text = read.map(|record| reader::write(&record));
        let text = text.as_deref().map_err(|refused| refused.number);
        self.writes("rewriting", &input, text, |out| library::rewrite(message, out));
        if text.is_ok() {
            self.writes("writing", &input, text, |out| library::write(&expected.record, out));
        }

        let listing = reader::listing(message);
        self.prints("listing", message, &listing, |out| library::list(message, out));
    }

    /// Whether two messages tell the same.
    pub fn pair(&mut self) -> bool {
        let (one, other) = generate::pair(&mut self.rng);
        let expected = reader::same(&one, &other);
        self.agree("sameness", (Shown(&one), Shown(&other)), expected, library::same(&one, &other));
        expected
    }

    /// A record that one thing was done to: it is written if it is valid still, else 13.
    pub fn damaged_record(&mut self) {
        let mut record = (&generate::record(&mut self.rng)).into();
        generate::damage_record(&mut self.rng, &mut record);
        let text = judge::text(&record);
        let expected = text.as_deref().ok_or(13);
        self.report.count(expected.err().unwrap_or(0));
        self.writes("a damaged record", record, expected, |out| library::write(&record, out));
    }
}
