//! Boards restored from their notices, as where a desk computer is replaced.
use super::board::{printed, runway_list, Live};
use super::{Run, Shown, UNTOUCHED};
use crate::desk::{self, Shift};
use crate::edges::{Replaced, EXAMPLE};
use crate::generate;
use crate::library::{self, Board, Reading, Record, LONGEST_TEXT};
use crate::reader;
use crate::row::Row;

/// The least room that is lent: a notice that needs more gets exactly that.
const ROOMS: [usize; 3] = [0, LONGEST_TEXT, LONGEST_TEXT + 16];

/// A row as the library read it from its notice, and as the second reader did from its own.
type Both = (library::Row, Row);

impl Run {
    /// A board with a report is restored from its notice, whose rows come in any order; without one it has no notice.
    pub fn restored_board(&mut self) {
        let shift = generate::reported_shift(&mut self.rng);
        let model = generate::record(&mut self.rng);
        let room = self.rng.pick(&ROOMS);
        self.noticed(&shift.fed(&[]), &model, room);
        if let Some((board, mut rows)) = self.noticed(&shift, &model, room) {
            self.rng.shuffle(&mut rows);
            self.restores(&shift, &board, &rows);
        }
    }

    /// A board by hand is written and restored as it stands there, whatever the second reader tells of it: by texts, and by
    /// way of the structs.
    pub fn replaced_by_hand(&mut self, replaced: &Replaced) {
        let (input, notice) = (replaced.input(), replaced.notice());
        let expected = notice.as_deref().map_err(|&refusal| refusal);
        self.writes("a board's notice by hand", Shown(&input), expected, |out| {
            library::board_notice(&input, EXAMPLE.as_bytes(), out)
        });
        let orders = replaced.orders();
        for order in &orders {
            let fed = replaced.fed(order);
            self.prints("a board restored by hand", &fed, &replaced.printed(), |out| library::desk(&fed, out));
        }
        if let (Some(shift), Ok(model)) = (Shift::read(&input), reader::read(EXAMPLE.as_bytes())) {
            for room in ROOMS {
                let noticed = self.noticed(&shift, &model, room);
                let stored = noticed.as_ref().map_or(0, |(board, _)| board.latest);
                self.agree("the time stored by hand", Shown(&input), replaced.latest, stored);
                if let Some((board, rows)) = noticed {
                    for order in &orders {
                        let rows: Vec<Both> = order.iter().map(|&place| rows[place].clone()).collect();
                        self.restores(&shift, &board, &rows);
                    }
                }
            }
        }
    }

    /// Keeps the board of a shift and writes it as a notice, with the rest of the model: the board, and the rows that are read
    /// from the notice. None where the board has no report, which is 21.
    fn noticed(&mut self, shift: &Shift, model: &reader::Record, room: usize) -> Option<(Board, Vec<Both>)> {
        let live = self.live(shift);
        self.agree("a good opening", shift, true, live.is_some());
        let Live { board, .. } = live?;
        let told = shift.notice(model.clone());
        let text = told.as_ref().map(reader::write);
        let expected = text.as_deref().map_err(|&&refusal| refusal);
        let length = expected.map_or(0, <[u8]>::len);
        let mut buffer = vec![UNTOUCHED; length.max(room)];

        let handed_over = Record::from(model);
        let Record { items, language, .. } = handed_over;
        let details = handed_over.details();
        let writer = |out: &mut [u8]| library::write_board(&board, &details, &items, &language, out);
        let refusal = self.writes_into(&mut buffer, "a kept board's notice", (board, model), expected, writer);
        self.report.count(refusal);
        Some((board, self.rows_read(&buffer[..length], &told.ok()?)))
    }

    /// Reads the notice that the library wrote, and the one that the second reader writes of the same record.
    fn rows_read(&mut self, notice: &[u8], record: &reader::Record) -> Vec<Both> {
        let reading = library::read(notice);
        let expected = Reading { refusal: 0, place: 0, record: record.into() };
        self.agree("a kept board's notice, read again,", Shown(notice), &expected, &reading);
        let own = reader::write(record);
        self.agree("the second reader's notice, read again,", Shown(&own), Ok(record), reader::read(&own).as_ref());
        reading.record.rows.rows.into_iter().zip(record.rows.iter().cloned()).collect()
    }

    /// A fresh board with the same aerodrome, runways and owners takes every row from its own desk, and is then the one that
    /// was kept, in all its fields. The second reader restores the same.
    fn restores(&mut self, shift: &Shift, kept: &Board, rows: &[Both]) {
        let mut board = library::open(&shift.aerodrome, &runway_list(shift)).board;
        let mut answers = Vec::new();
        for (row, _) in rows {
            let answer = self.report_row(&board, shift.owner(Row::from(row).runway), row);
            answers.push(answer.refusal);
            board = answer.board;
        }
        self.agree("the answers of a restored board", (shift, rows), &vec![0; rows.len()], &answers);
        self.agree("a restored board", (shift, rows), kept, &board);

        let own: Vec<Row> = rows.iter().map(|(_, row)| row.clone()).collect();
        let fed = shift.fed(&own);
        let live = Live { board, answers };
        self.agree("a restored board, printed,", &fed, Shown(desk::live(&fed)), Shown(printed(Some(&live))));
        let stored = desk::stored_times(&fed).and_then(|mut times| times.pop());
        self.agree("the time that a restored board stores", &fed, stored, Some(kept.latest));
    }
}
