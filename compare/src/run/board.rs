//! The desk's text, and boards that are kept as structs.
use super::{Run, Shown};
use crate::desk::{self, Report, Shift};
use crate::edges::Night;
use crate::generate;
use crate::judge;
use crate::library::{self, Answer, Board, Record, Row, RunwayList};
use crate::reader::{heading_time, LONGEST_MESSAGE};

/// Senders: the desks, and numbers that are none, among them what would be a desk if it were cut down to fewer bits.
const SENDERS: [u32; 14] = [1, 1, 1, 1, 2, 2, 2, 2, 0, 3, 257, 258, 65_537, u32::MAX];

/// A board in the library, and what it answered to each line.
pub struct Live {
    pub board: Board,
    pub answers: Vec<u8>,
}

impl Run {
    pub fn desk_input(&mut self) {
        let input = generate::desk_input(&mut self.rng);
        self.prints("desk", &input, &desk::desk(&input), |out| library::desk(&input, out));
    }

    /// Reports by hand are answered, and the time is stored, as it stands there, whatever the second reader tells of them.
    pub fn night_by_hand(&mut self, night: &Night) {
        let (input, answers) = (night.input(), night.answers());
        answers.iter().for_each(|&answer| self.report.count(answer));
        self.prints("a desk's reports by hand", &input, &night.printed(), |out| library::desk(&input, out));
        let live = Shift::read(&input).and_then(|shift| self.live(&shift));
        let told = live.map(|live| (live.answers, live.board.latest));
        let expected = night.stored().last().map(|&latest| (answers, latest));
        self.agree("a live board's reports by hand", Shown(&input), expected, told);
    }

    /// The notice of a desk's board, from texts at once and by way of the structs.
    pub fn board_notice(&mut self) {
        let (input, model) = generate::board_notice(&mut self.rng);
        let both = (Shown(&input), Shown(&model));
        let notice = desk::notice(&input, &model);
        let expected = notice.as_deref().map_err(|&refusal| refusal);
        self.report.count(expected.err().unwrap_or(0));
        self.writes("a board's notice", &both, expected, |out| library::board_notice(&input, &model, out));

        let live = Shift::read(&input).and_then(|shift| self.live(&shift));
        if let Some(Live { board, .. }) = live {
            let record = library::read(&model).record;
            let Record { items, language, .. } = record;
            let details = record.details();
            self.writes("a live board's notice", &both, expected, |out| {
                library::write_board(&board, &details, &items, &language, out)
            });
            if let Ok(text) = expected {
                self.agree("the heading time of a notice", &both, heading_time(text), Some(board.latest));
            }
        }
    }

    /// A board opened with numbers prints what the desk would, and is judged once more with something done to it.
    pub fn live_board(&mut self) {
        let shift = generate::shift(&mut self.rng);
        let live = self.live(&shift);
        self.agree("a live board", &shift, Shown(desk::live(&shift)), Shown(printed(live.as_ref())));
        if let Some(Live { board, .. }) = live {
            self.damaged_board(board);
        }
    }

    /// Opens a board, and reports each line that is a row. Every board that comes of it keeps the rules and stores the time
    /// of the row observed last.
    pub fn live(&mut self, shift: &Shift) -> Option<Live> {
        let Answer { refusal, mut board } = library::open(&shift.aerodrome, &runway_list(shift));
        if refusal != 0 {
            let expected = Answer { refusal: 17, board: Board::default() };
            self.agree("a refused opening", shift, expected, Answer { refusal, board });
            return None;
        }
        self.agree("an opened board", shift, true, library::valid_board(&board));
        let (mut answers, mut stored) = (Vec::new(), vec![board.latest]);
        for report in &shift.reports {
            answers.push(self.report_line(&mut board, report));
            stored.push(board.latest);
        }
        self.agree("the stored times", shift, desk::stored_times(shift), Some(stored));
        Some(Live { board, answers })
    }

    /// As the desk takes a line: one that is too long, with the two bytes before its row, is not looked at.
    fn report_line(&mut self, board: &mut Board, report: &Report) -> u8 {
        if report.line.len() + 2 > LONGEST_MESSAGE {
            return 5;
        }
        let read = library::read_row(&report.line);
        if read.refusal != 0 {
            return read.refusal;
        }
        let answer = self.report_row(board, report.desk, &read.row);
        self.agree("a board after a report", answer, true, library::valid_board(&answer.board));
        *board = answer.board;
        answer.refusal
    }

    pub fn report_row(&mut self, board: &Board, desk: u32, row: &Row) -> Answer {
        let answer = library::report(board, desk, row);
        self.agree("a report", (board, desk, row), judge::report(board, desk, row), answer);
        answer
    }

    fn damaged_board(&mut self, mut board: Board) {
        let (desk, row) = self.row_for(&board);
        // At times the board is left as it is, so that what comes behind 17 is met.
        if self.rng.chance(70) {
            generate::damage_board(&mut self.rng, &mut board);
        }
        self.agree("a damaged board", board, judge::is_board(&board), library::valid_board(&board));
        let answer = self.report_row(&board, desk, &row);
        self.report.count(answer.refusal);

        let mut record = Record::from(&generate::record(&mut self.rng));
        if self.rng.chance(30) {
            generate::damage_record(&mut self.rng, &mut record);
        }
        let Record { items, language, .. } = record;
        let details = record.details();
        let notice = judge::notice(&board, &details, &items, &language);
        let expected = notice.as_deref().map_err(|&refusal| refusal);
        self.report.count(expected.err().unwrap_or(0));
        self.writes("a damaged board's notice", (board, record), expected, |out| {
            library::write_board(&board, &details, &items, &language, out)
        });
    }

    /// A row that may be invalid, mostly of one of the board's runways and observed about when the row shown or the one
    /// observed last was, and who sends it: its owner, or anyone.
    fn row_for(&mut self, board: &Board) -> (u32, Row) {
        let mut row = Row::from(&generate::numbers(&mut self.rng));
        let place = self.rng.below(board.count.into());
        if self.rng.chance(70) {
            (row.number, row.side) = (board.runways[place].number, board.runways[place].side);
        }
        if self.rng.chance(50) {
            let time = self.rng.pick(&[board.rows[place].time, board.latest]);
            row.time = generate::near(&mut self.rng, time);
        }
        let desk = if self.rng.chance(50) { board.owners[place].into() } else { self.rng.pick(&SENDERS) };
        (desk, row)
    }
}

/// What the board of a shift is opened with.
pub fn runway_list(shift: &Shift) -> RunwayList {
    RunwayList {
        count: shift.count,
        runways: shift.list.map(|owned| owned.runway.into()),
        owners: shift.list.map(|owned| owned.owner),
    }
}

/// What the desk prints, put together from what the library answered.
pub fn printed(live: Option<&Live>) -> Vec<u8> {
    let Live { board, answers } = match live {
        Some(live) => live,
        None => return b"REFUSED 17\n".to_vec(),
    };
    let mut text = b"OPEN\n".to_vec();
    text.extend(answers.iter().flat_map(|answer| format!("{answer}\n").into_bytes()));
    for row in board.rows.iter().filter(|row| !judge::is_blank(row)) {
        text.extend(row.text().unwrap_or_default());
        text.push(b'\n');
    }
    text
}
