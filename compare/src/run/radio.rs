//! Lists of rows for the radio, and radio records.
use super::{Run, Shown, UNTOUCHED};
use crate::edges::{Listed, Received};
use crate::generate;
use crate::library::{self, Radio, Rows, Written, LONGEST_RADIO};
use crate::radio;
use crate::row::Row;
use crate::structs;

impl Run {
    /// A list written into room that always suffices, and into some other room.
    pub fn radio_list(&mut self) {
        let rows = generate::radio_list(&mut self.rng);
        let told = radio::write(&rows);
        let other = self.radio_room(told.as_ref().map_or(0, Vec::len));
        self.radio_written("a list for the radio", &rows, &told, &[LONGEST_RADIO, other]);
    }

    /// A list by hand is answered as it stands there, whatever the second reader tells of it, in room of every size.
    pub fn radio_list_by_hand(&mut self, listed: &Listed) {
        let rooms: Vec<usize> = (0..=LONGEST_RADIO + 1).collect();
        self.radio_written("a list for the radio by hand", &listed.rows, &listed.told, &rooms);
    }

    /// Room about a record's length, or beyond what any record needs.
    fn radio_room(&mut self, length: usize) -> usize {
        let less = self.rng.below(length + 1);
        self.rng.pick(&[0, less, length.saturating_sub(1), length, length, length + 1, LONGEST_RADIO + 16])
    }

    /// The list in each room; where it is written, it is read again.
    fn radio_written(&mut self, what: &str, rows: &[Row], told: &Result<Vec<u8>, u8>, rooms: &[usize]) {
        let whole = structs::rows(rows);
        let handed_over = self.with_more_rows(whole);
        for &room in rooms {
            let expected = told.as_deref().map_err(|&refusal| refusal);
            let writer = |out: &mut [u8]| library::radio_write(&handed_over, out);
            let refusal = self.writes_into(&mut vec![UNTOUCHED; room], what, handed_over, expected, writer);
            self.report.count(refusal);
        }
        if let Ok(record) = told {
            let expected = Radio { refusal: 0, rows: whole };
            self.agree(&format!("{what}, read again,"), Shown(record), expected, library::radio_read(record));
        }
    }

    /// The same rows, at times with others past the count, which are not looked at.
    fn with_more_rows(&mut self, mut rows: Rows) -> Rows {
        if self.rng.chance(50) {
            for place in rows.rows.iter_mut().skip(rows.count.into()) {
                *place = (&generate::numbers(&mut self.rng)).into();
            }
        }
        rows
    }

    pub fn radio_record(&mut self) {
        let record = generate::radio_record(&mut self.rng);
        self.radio_read("a radio record", &record, &radio::read(&record));
    }

    /// A record cut at every byte, and whole with a byte left over.
    pub fn cut_radio_record(&mut self) {
        let mut record = generate::radio_record(&mut self.rng);
        record.push(self.rng.below(256) as u8);
        for end in 0..=record.len() {
            self.radio_read("a cut radio record", &record[..end], &radio::read(&record[..end]));
        }
    }

    /// A record by hand is answered as it stands there, whatever the second reader tells of it.
    pub fn radio_record_by_hand(&mut self, received: &Received) {
        self.radio_read("a radio record by hand", &received.record, &received.told);
    }

    /// What is read is written again.
    fn radio_read(&mut self, what: &str, record: &[u8], told: &Result<Vec<Row>, u8>) {
        let expected = match told {
            Ok(rows) => Radio { refusal: 0, rows: structs::rows(rows) },
            Err(refusal) => Radio { refusal: *refusal, ..Default::default() },
        };
        self.report.count(expected.refusal);
        let read = library::radio_read(record);
        self.agree(what, Shown(record), expected, read);
        if read.refusal == 0 {
            let mut out = [UNTOUCHED; LONGEST_RADIO];
            let Written { refusal, length } = library::radio_write(&read.rows, &mut out);
            let written = (refusal, Shown(&out[..length.min(LONGEST_RADIO)]));
            self.agree(&format!("{what}, written again,"), Shown(record), (0, Shown(record)), written);
        }
    }
}
