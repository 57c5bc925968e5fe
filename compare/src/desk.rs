//! The desk program: a board of runways that two desks share, the answers to a whole input, and the board written as a
//! notice.
use crate::reader::{self, Record, LONGEST_MESSAGE};
use crate::row::{Row, Runway, REPORTED};
use crate::season;
use crate::text::{letters, lines};

pub const MOST_RUNWAYS: usize = 8;

/// What a line has before its row: the desk's digit and a space.
const START: usize = 2;

/// What a line is refused by that has no such start, or that is not looked at.
const NO_ROW: u8 = 5;

/// A runway of a board and the desk that reports it.
#[derive(Clone, Copy, Debug, Default, PartialEq, Eq)]
pub struct Owned {
    pub runway: Runway,
    pub owner: u8,
}

/// A line that a desk sends, without what the desk program has before the row and without its end, so that a CR at the
/// end of it is text. The desk is as wide as the library takes it: no number is cut down to one that is a desk.
#[derive(Clone, Debug)]
pub struct Report {
    pub desk: u32,
    pub line: Vec<u8>,
}

/// A board opened with numbers instead of a line, and what is reported to it. Numbers can be wrong in ways no text is: the
/// count need not be that of the runways, a side need not be one of the four, and an owner may stand alone.
#[derive(Clone, Debug)]
pub struct Shift {
    pub aerodrome: [u8; 4],
    pub list: [Owned; MOST_RUNWAYS],
    pub count: u8,
    pub reports: Vec<Report>,
}

/// A runway of the board, its owner and the row it shows.
struct Place {
    owned: Owned,
    shown: Option<Row>,
}

struct Board {
    aerodrome: [u8; 4],
    places: Vec<Place>,
}

/// A row and the desk that sends it, which need not be one.
struct Sent {
    desk: u32,
    row: Row,
}

/// A board after its reports, and the answer to each: 0 or the refusal number.
struct Run {
    board: Board,
    answers: Vec<u8>,
    /// The time that the board stored after its opening, and then after each report.
    stored: Vec<u32>,
}

/// Everything the desk program prints for its standard input.
pub fn desk(input: &[u8]) -> Vec<u8> {
    printed(run(input))
}

/// What the desk program would print, were the board of a shift opened by a line.
pub fn live(shift: &Shift) -> Vec<u8> {
    printed(shift.run())
}

/// The time that the board of a shift stores after its opening and after each report; none where it does not open.
pub fn stored_times(shift: &Shift) -> Option<Vec<u32>> {
    shift.run().map(|run| run.stored)
}

/// The board after a whole desk input as a notice: all but its aerodrome, rows and heading time is the model's. Whether
/// there is room for it (14) is left to whoever lends the buffer.
pub fn notice(desk: &[u8], model: &[u8]) -> Result<Vec<u8>, u8> {
    let Run { board, .. } = run(desk).ok_or(17)?;
    let model = reader::read(model).map_err(|_| 13);
    board.notice(model).map(|record| reader::write(&record))
}

/// The run over a whole desk input; none where no board opens.
fn run(input: &[u8]) -> Option<Run> {
    let lines = lines(input);
    let (first, reports) = lines.split_first()?;
    let reports = reports.iter().map(|line| Report::cut(line).ok_or(NO_ROW).and_then(|report| report.read()));
    Some(Board::read(first)?.after(reports))
}

fn printed(run: Option<Run>) -> Vec<u8> {
    let Run { board, answers, .. } = match run {
        Some(run) => run,
        None => return b"REFUSED 17\n".to_vec(),
    };
    let mut told = vec!["OPEN".to_string()];
    told.extend(answers.iter().map(u8::to_string));
    told.extend(board.shown().map(Row::text));
    (told.join("\n") + "\n").into_bytes()
}

impl Owned {
    /// As the opening line has it: the owner's digit behind a slash, joined to the runway.
    fn read(group: &[u8]) -> Option<Owned> {
        match group {
            [runway @ .., b'/', digit @ b'0'..=b'9'] => {
                Some(Owned { runway: Runway::read(runway, REPORTED)?, owner: digit - b'0' })
            }
            _ => None,
        }
    }

    pub fn text(&self) -> String {
        format!("{}/{}", self.runway.text(), self.owner)
    }

    fn is_listed(&self) -> bool {
        self.runway.is_reported() && is_desk(self.owner.into())
    }
}

fn is_desk(number: u32) -> bool {
    number == 1 || number == 2
}

impl Report {
    /// Cuts a line of the desk's input behind its start; none where it has no such start.
    fn cut(line: &[u8]) -> Option<Report> {
        match line {
            [digit @ b'0'..=b'9', b' ', row @ ..] => Some(Report { desk: u32::from(digit - b'0'), line: row.to_vec() }),
            _ => None,
        }
    }

    /// What is no row is refused by the number of its fault, whoever sends it. A line that would be too long with its start
    /// is not looked at.
    fn read(&self) -> Result<Sent, u8> {
        if START + self.line.len() > LONGEST_MESSAGE {
            return Err(NO_ROW);
        }
        let row = Row::read(&self.line).map_err(|refused| refused.number)?;
        Ok(Sent { desk: self.desk, row })
    }
}

impl Shift {
    /// The board that a desk input opens, and what is reported to it; none where it opens none. A line without a desk's
    /// start is no report and changes nothing, so it is left out.
    pub fn read(input: &[u8]) -> Option<Shift> {
        let lines = lines(input);
        let (first, reports) = lines.split_first()?;
        let Board { aerodrome, places } = Board::read(first)?;
        let mut list = [Owned::default(); MOST_RUNWAYS];
        for (owned, place) in list.iter_mut().zip(&places) {
            *owned = place.owned;
        }
        let reports = reports.iter().filter_map(|line| Report::cut(line)).collect();
        Some(Shift { aerodrome, list, count: places.len() as u8, reports })
    }

    /// A fresh board with the same aerodrome, runways and owners, and rows that are reported to it in their order, each by its
    /// own desk: what a new desk computer is fed. Request 11 of document 02.
    pub fn fed(&self, rows: &[Row]) -> Shift {
        let reports = rows.iter().map(|row| Report { desk: self.owner(row.runway), line: row.text().into_bytes() });
        Shift { reports: reports.collect(), ..self.clone() }
    }

    /// The desk that owns a runway; 0, which is none, where the board has no such runway.
    pub fn owner(&self, runway: Runway) -> u32 {
        self.list.iter().find(|owned| owned.runway == runway).map_or(0, |owned| owned.owner.into())
    }

    /// What the notice of the board after its reports tells, or the refusal number; whether there is room for it is left to
    /// whoever lends the buffer.
    pub fn notice(&self, model: Record) -> Result<Record, u8> {
        self.run().ok_or(17)?.board.notice(Ok(model))
    }

    /// The list is wrong too if something stands past its count, be it a side or an owner alone.
    fn board(&self) -> Option<Board> {
        let count = usize::from(self.count);
        let used = self.list.get(..count)?;
        let zeros = self.list[count..].iter().all(|&owned| owned == Owned::default());
        Board::open(&self.aerodrome, used).filter(|_| zeros)
    }

    fn run(&self) -> Option<Run> {
        Some(self.board()?.after(self.reports.iter().map(Report::read)))
    }
}

impl Board {
    /// Judges what came from a line and what came as numbers alike. The owners have no part in the rising.
    fn open(aerodrome: &[u8], list: &[Owned]) -> Option<Board> {
        let rising = list.windows(2).all(|pair| pair[0].runway < pair[1].runway);
        let listed = (1..=MOST_RUNWAYS).contains(&list.len()) && list.iter().all(Owned::is_listed) && rising;
        let places = list.iter().map(|&owned| Place { owned, shown: None }).collect();
        Some(Board { aerodrome: letters(aerodrome)?, places }).filter(|_| listed)
    }

    /// The opening line has none of freedom (b): its groups are parted by exactly one space.
    fn read(line: &[u8]) -> Option<Board> {
        let mut groups = line.split(|&byte| byte == b' ');
        let aerodrome = groups.next()?;
        let list = groups.map(Owned::read).collect::<Option<Vec<_>>>()?;
        Board::open(aerodrome, &list)
    }

    /// What is no report, or no row, is answered before the board is asked.
    fn after(mut self, reports: impl Iterator<Item = Result<Sent, u8>>) -> Run {
        let (mut answers, mut stored) = (Vec::new(), vec![self.latest()]);
        for sent in reports {
            answers.push(sent.and_then(|sent| self.take(sent)).err().unwrap_or(0));
            stored.push(self.latest());
        }
        Run { board: self, answers, stored }
    }

    /// Takes a row of the sender's own runway that is later than the one shown, or answers the refusal number.
    fn take(&mut self, Sent { desk, row }: Sent) -> Result<(), u8> {
        if !is_desk(desk) {
            return Err(23);
        }
        let place = self.places.iter_mut().find(|place| place.owned.runway == row.runway).ok_or(18)?;
        if u32::from(place.owned.owner) != desk {
            return Err(22);
        }
        if place.shown.as_ref().map_or(false, |shown| !season::is_later(row.time, shown.time)) {
            return Err(20);
        }
        place.shown = Some(row);
        Ok(())
    }

    /// The rows shown, in board order.
    fn shown(&self) -> impl Iterator<Item = &Row> {
        self.places.iter().filter_map(|place| place.shown.as_ref())
    }

    /// All but the aerodrome and the rows is the model's, whose refusal comes behind 21.
    fn notice(&self, model: Result<Record, u8>) -> Result<Record, u8> {
        let rows: Vec<Row> = self.shown().cloned().collect();
        if rows.is_empty() {
            return Err(21);
        }
        Ok(Record { aerodrome: self.aerodrome, rows, ..model? })
    }

    /// The stored time: the latest of the rows shown, 0 for none. It is worked out anew from all of them each time.
    fn latest(&self) -> u32 {
        season::latest(self.shown().map(|row| row.time)).unwrap_or(0)
    }
}

#[cfg(test)]
mod tests {
    use super::*;

    fn told(input: &str) -> String {
        String::from_utf8_lossy(&desk(input.as_bytes())).into_owned()
    }

    #[test]
    fn opening() {
        for good in [
            "XQAA 07/1",
            "XQAA 07/2\r\n",
            "XQAA 07/1 07L/2 07C/1 07R/2 08/1 09/2 10/2 18R/1\n",
            "ABCD 01L/2 18/1\n",
            // One desk may own all runways.
            "XQAA 07/1 07L/1 08/1\n",
            "XQAA 07/2 07L/2 08/2\n",
        ] {
            assert_eq!(told(good), "OPEN\n", "{good}");
        }
        for wrong in [
            "",
            "\n",
            "XQAA",
            "XQAA\n",
            "XQAA  07/1\n",
            " XQAA 07/1\n",
            "XQAA 07/1 \n",
            "XQAA 07/1)\n",
            "XQAA 07/1\r",
            "XQA 07/1\n",
            "XQAA 19/1\n",
            "XQAA 08/1 07/1\n",
            "XQAA 01/1 02/1 03/1 04/1 05/1 06/1 07/1 08/1 09/1\n",
            "XQA1 07/1\n",
            "XQAA/1 07/1\n",
        ] {
            assert_eq!(told(wrong), "REFUSED 17\n", "{wrong}");
        }
        assert_eq!(told(&format!("XQAA 07/1{}\n", " ".repeat(5000))), "REFUSED 17\n");
    }

    #[test]
    fn an_owner_is_joined_to_each_runway() {
        let ends =
            ["", " /1", "/ 1", "/", "/0", "/3", "/9", "/12", "/01", "/1/1", "/1/", "//1", "1", " 1", "/A", "/1L", "-1"];
        for end in ends {
            assert_eq!(told(&format!("XQAA 07{end}\n")), "REFUSED 17\n", "{end}");
            assert_eq!(told(&format!("XQAA 07{end} 08/1\n")), "REFUSED 17\n", "{end}");
            assert_eq!(told(&format!("XQAA 06/2 07{end}\n")), "REFUSED 17\n", "{end}");
        }
    }

    #[test]
    fn rising_is_judged_by_the_runway_alone() {
        for wrong in ["07/1 07/2", "07/2 07/1", "07/1 07/1", "07L/1 07/2", "08/1 07/2"] {
            assert_eq!(told(&format!("XQAA {wrong}\n")), "REFUSED 17\n", "{wrong}");
        }
        assert_eq!(told("XQAA 07/2 07L/1 08/2 09/1\n"), "OPEN\n");
    }

    /// A row as the desk prints it, of the runway that desk 2 owns below.
    const ROW: &str = "01120640 07R 6/6/6 DRY/DRY/DRY";

    /// What a board of 07L, desk 1, and 07R, desk 2, answers to the last of some lines.
    fn last(lines: &[&str]) -> String {
        let told = told(&format!("XQAA 07L/1 07R/2\n{}\n", lines.join("\n")));
        told.lines().nth(lines.len()).unwrap_or_default().to_string()
    }

    #[test]
    fn reports() {
        // The same report twice: the second is 20; an earlier one too; a later one is shown.
        assert_eq!(told(&format!("XQAA 07R/1\n1 {ROW}\n1 {ROW}\n")), format!("OPEN\n0\n20\n{ROW}\n"));
        let earlier = ROW.replace("0640", "0639");
        let later = ROW.replace("0640", "0641");
        let input = format!("XQAA 07R/2\n2 {ROW}\n2 {earlier}\n2 {later}");
        assert_eq!(told(&input), format!("OPEN\n0\n20\n0\n{later}\n"));
        let input = format!("XQAA 07L/1\n1 {ROW}\n1 \n1 {ROW})\n1 )\n)\n\n");
        assert_eq!(told(&input), "OPEN\n18\n5\n26\n5\n5\n5\n");
    }

    #[test]
    fn a_line_starts_with_a_digit_and_a_space() {
        for start in [
            "12 ", "22 ", "02 ", "A ", "a ", " 2 ", "2", "", " ", "2  ", "2   ", "2\t", "\t2 ", "2\t ", "2/ ", "/ ",
            ": ", "\u{2} ",
        ] {
            assert_eq!(last(&[&format!("{start}{ROW}")]), "5", "{start:?}");
        }
        for alone in ["1", "2", "3", "1 ", "2 ", "3 ", "2  ", "", " ", "\t", "12", "2 2"] {
            assert_eq!(last(&[alone]), "5", "{alone:?}");
        }
        assert_eq!(last(&[&format!("2 {ROW}")]), "0");
        assert_eq!(last(&[&format!("2 {ROW}\r")]), "0");
        assert_eq!(last(&[&format!("2 2 {ROW}")]), "5");
        // At the end of the input a CR without LF is text, behind a row as behind a start.
        assert_eq!(told(&format!("XQAA 07R/2\n2 {ROW}\r")), "OPEN\n26\n");
        for line in ["2 \r", "2\r"] {
            assert_eq!(told(&format!("XQAA 07R/2\n{line}")), "OPEN\n5\n", "{line:?}");
        }
    }

    #[test]
    fn no_row_comes_before_no_desk() {
        for line in ["3 RUBBISH", "0 RUBBISH", "3 ", "0  ", "1 RUBBISH"] {
            assert_eq!(last(&[line]), "5", "{line}");
        }
        assert_eq!(last(&["9 01120640 19 6/6/6 DRY/DRY/DRY"]), "24");
        assert_eq!(last(&[&format!("3  {ROW}")]), "5");
    }

    /// The leftmost group at fault is told, whoever sends the row and wherever its runway belongs.
    #[test]
    fn each_group_of_a_row_has_its_number() {
        for (row, number) in [
            ("01320640 07R 6/6/6 DRY/DRY/DRY", "5"),
            ("01120640 19 6/6/6 DRY/DRY/DRY", "24"),
            ("01120640 07R 6/6/7 DRY/DRY/DRY", "25"),
            ("01120640 07R 5/5/5 NR/NR/NR", "26"),
            ("01120640 07R 5/5/5 25/25/25 NR/NR/NR ICE/ICE/ICED/ICE", "28"),
            ("01120640 07R 5/5/5 25/25/25 NR/NR/NR ICED/ICE/ICE", "27"),
            ("01120640 07R 5/5/5 25/25/25 NR/NR/NR ICE/ICE/ICE 00", "28"),
        ] {
            for desk in ["0", "1", "2", "3"] {
                assert_eq!(last(&[&format!("{desk} {row}")]), number, "{desk} {row}");
                assert_eq!(last(&[&format!("{desk} {row}\r")]), number, "{desk} {row}");
                assert_eq!(last(&[&format!("{desk}{row}")]), "5", "{desk}{row}");
            }
        }
    }

    #[test]
    fn no_desk_comes_before_all_that_the_board_judges() {
        let elsewhere = ROW.replace("07R", "18");
        for digit in [0, 3, 4, 5, 6, 7, 8, 9] {
            // Taken from the owner; not on the board; not later.
            assert_eq!(last(&[&format!("{digit} {ROW}")]), "23");
            assert_eq!(last(&[&format!("{digit} {elsewhere}")]), "23");
            assert_eq!(last(&[&format!("2 {ROW}"), &format!("{digit} {ROW}")]), "23");
        }
    }

    #[test]
    fn the_board_judges_by_18_then_22_then_20() {
        let elsewhere = ROW.replace("07R", "18");
        assert_eq!(last(&[&format!("1 {elsewhere}")]), "18");
        assert_eq!(last(&[&format!("2 {elsewhere}")]), "18");
        assert_eq!(last(&[&format!("1 {ROW}")]), "22");
        // A report that was taken, sent again by the other desk and by the same; then a later one of both.
        let (taken, other) = (format!("2 {ROW}"), format!("1 {ROW}"));
        assert_eq!(last(&[&taken, &other]), "22");
        assert_eq!(last(&[&taken, &taken]), "20");
        assert_eq!(last(&[&taken, &other.replace("0640", "0641")]), "22");
        assert_eq!(last(&[&taken, &other.replace("0640", "0641"), &taken.replace("0640", "0641")]), "0");
    }

    #[test]
    fn a_refused_desk_changes_nothing() {
        let later = ROW.replace("0640", "0641");
        let input = format!("XQAA 07L/1 07R/2\n1 {later}\n3 {later}\n2{later}\n2 {ROW}\n1 {later}\n");
        assert_eq!(told(&input), format!("OPEN\n22\n23\n5\n0\n22\n{ROW}\n"));
    }

    #[test]
    fn long_lines() {
        // The digit and the space are counted; CR LF is not. A longer line is 5 whatever stands in it.
        let stretched = |length: usize| {
            let line = format!("1 {ROW}");
            line.replace(" 07R", &format!("{}07R", " ".repeat(1 + length - line.len())))
        };
        assert_eq!(told(&format!("XQAA 07R/1\n{}\r\n", stretched(4096))), format!("OPEN\n0\n{ROW}\n"));
        assert_eq!(told(&format!("XQAA 07R/1\n{}\n1 {ROW}\n", stretched(4097))), format!("OPEN\n5\n0\n{ROW}\n"));
        let no_runway = |length| stretched(length).replace("07R", "19R");
        assert_eq!(told(&format!("XQAA 07R/1\n{}\n{}\n", no_runway(4096), no_runway(4097))), "OPEN\n24\n5\n");
    }

    #[test]
    fn rows_are_shown_in_board_order_bare_and_canonical() {
        let input =
            "XQAA 07L/2 07R/1\n1 01120640 07R  6/6/6 NR/NR/NR NR/NR/NR DRY/DRY/DRY\n2 01120610 07L 6/6/6 NR/NR/NR\n";
        assert_eq!(told(input), "OPEN\n0\n0\n01120610 07L 6/6/6 NR/NR/NR\n01120640 07R 6/6/6 DRY/DRY/DRY\n");
    }

    const BOARD: &str = "XQAA 07L/1 07R/2 18C/1\n";
    const LEFT: &str = "1 01120610 07L 3/5/5 75/25/NR 12/NR/NR DRY SNOW/FROST/DRY\n";
    const RIGHT: &str = "2 01120640 07R  6/6/6 NR/NR/NR NR/NR/NR DRY/DRY/DRY\n";
    const MODEL: &str = "DD  QQQQAAAA ZZZZBBBB\r\n\
                         311200 RRRRCCCC\n\
                         SWZZ0123 WXYZ 12312359\n\
                         (SNOWTAM 0123\n\
                         WXYZ\n\
                         12312359 07L 5/5/5 100/100/100 NR/NR/NR WET/WET/WET 30\n\
                         \n\
                         DRIFTING  SNOW.ALL TWY POOR.\n\
                         CALL  123.)";
    /// Without items and plain language.
    const BARE_MODEL: &str = "GG QQQQAAAA\n\
                              010000 RRRRCCCC\n\
                              SWZZ9999 WXYZ 01010000\n\
                              (SNOWTAM 9999\n\
                              WXYZ\n\
                              01010000 01 6/6/6 NR/NR/NR)\n";

    fn noticed(desk: &str, model: &str) -> Result<String, u8> {
        notice(desk.as_bytes(), model.as_bytes()).map(|text| String::from_utf8_lossy(&text).into_owned())
    }

    #[test]
    fn a_notice_has_the_rows_of_the_board_and_the_rest_of_the_model() {
        // Reported in the other order; between them reports that are refused, by 5, 18, 20, 22 and 23.
        let wrong =
            "XQAA\n1 01130000 18 6/6/6 NR/NR/NR\n1 01130000 07R 6/6/6 NR/NR/NR\n3 01130000 18C 6/6/6 NR/NR/NR\n";
        let desk = format!("{BOARD}{RIGHT}{wrong}{RIGHT}{LEFT}");
        let text = "DD QQQQAAAA ZZZZBBBB\n\
                    311200 RRRRCCCC\n\
                    SWZZ0123 XQAA 01120640\n\
                    (SNOWTAM 0123\n\
                    XQAA\n\
                    01120610 07L 3/5/5 75/25/NR 12/NR/NR DRY SNOW/FROST/DRY\n\
                    01120640 07R 6/6/6 DRY/DRY/DRY\n\
                    \n\
                    DRIFTING SNOW. ALL TWY POOR.\n\
                    CALL  123.)\n";
        assert_eq!(noticed(&desk, MODEL).as_deref(), Ok(text));
    }

    #[test]
    fn a_notice_closes_behind_its_last_line() {
        let text = "GG QQQQAAAA\n\
                    010000 RRRRCCCC\n\
                    SWZZ9999 XQAA 01120640\n\
                    (SNOWTAM 9999\n\
                    XQAA\n\
                    01120640 07R 6/6/6 DRY/DRY/DRY)\n";
        assert_eq!(noticed(&format!("{BOARD}{RIGHT}"), BARE_MODEL).as_deref(), Ok(text));
        // Items alone; plain language alone, before which the awareness line is empty.
        for end in ["RWY 36 REDUCED TO 900.)\n", "\nA  B.)\n"] {
            let ended = |text: &str| text.replace(")\n", &format!("\n\n{end}"));
            assert_eq!(noticed(&format!("{BOARD}{RIGHT}"), &ended(BARE_MODEL)), Ok(ended(text)));
        }
    }

    #[test]
    fn the_heading_time_of_a_notice_is_the_latest_of_its_rows() {
        let third = |desk: &str| noticed(desk, MODEL).map(|text| text.lines().nth(2).unwrap_or_default().to_string());
        let heading = |time: &str| Ok(format!("SWZZ0123 XQAA {time}"));
        let late_left = "1 01310000 07L 6/6/6 NR/NR/NR\n";
        let early_right = "2 12010000 07R 6/6/6 NR/NR/NR\n";
        // Neither the last row's nor the last reported one's nor the greatest number, and never a refused report's.
        assert_eq!(third(&format!("{BOARD}{late_left}{early_right}")), heading("01310000"));
        assert_eq!(third(&format!("{BOARD}{late_left}{LEFT}{early_right}")), heading("01310000"));
        for refused in
            ["1 01310000 18 6/6/6 NR/NR/NR\n", "2 01310000 07L 6/6/6 NR/NR/NR\n", "01310000 07R 6/6/6 NR/NR/NR\n"]
        {
            assert_eq!(third(&format!("{BOARD}{early_right}{refused}")), heading("12010000"));
        }
    }

    #[test]
    fn a_notice_is_refused_by_17_then_21_then_13() {
        let good = format!("{BOARD}{RIGHT}");
        let refused = MODEL.replace("WXYZ\n12312359", "WXYZ\n12312358");
        let too_long = MODEL.replacen(' ', &" ".repeat(5000), 1);
        for model in [&refused, &too_long, "", "XQAA"] {
            assert_eq!(noticed("XQAA 07R/1 07L/1\n", model), Err(17));
            assert_eq!(noticed(&format!("XQAA 07R\n{RIGHT}"), model), Err(17));
            assert_eq!(noticed(BOARD, model), Err(21));
            assert_eq!(noticed(&format!("{BOARD}1 01120640 07 6/6/6 DRY/DRY/DRY\n)\n"), model), Err(21));
            assert_eq!(noticed(&format!("{BOARD}{}", LEFT.replacen('1', "2", 1)), model), Err(21));
            assert_eq!(noticed(&format!("{BOARD}{}", LEFT.replacen('1', "0", 1)), model), Err(21));
            assert_eq!(noticed(&good, model), Err(13));
        }
        assert_eq!(noticed("", MODEL), Err(17));
        assert_eq!(noticed(&format!("XQAA 07R/2 07L/1\n{RIGHT}"), MODEL), Err(17));
        assert_eq!(noticed(BOARD, MODEL), Err(21));
    }

    #[test]
    fn a_message_may_be_the_model_of_its_own_notice() {
        let example = crate::edges::EXAMPLE;
        let text = "GG XQAAYNYX XQBBYOYX\n\
                    120645 XQAAYNYX\n\
                    SWXQ0007 XQAA 01120640\n\
                    (SNOWTAM 0007\n\
                    XQAA\n\
                    01120610 07L 3/5/5 75/25/NR 12/NR/NR DRY SNOW/FROST/DRY\n\
                    01120640 07R 6/6/6 DRY/DRY/DRY\n\
                    \n\
                    DRIFTING SNOW. TWY A W SNOWBANK.\n\
                    RWY 07R SWEPT 40M.)\n";
        assert_eq!(noticed(&format!("{BOARD}{LEFT}{RIGHT}"), example).as_deref(), Ok(text));
        assert!(reader::same(example.as_bytes(), text.as_bytes()));
    }

    fn owned(number: u8, side: u8, owner: u8) -> Owned {
        Owned { runway: Runway { number, side }, owner }
    }

    fn shift() -> Shift {
        let mut list = [Owned::default(); MOST_RUNWAYS];
        list[..3].copy_from_slice(&[owned(7, 1, 1), owned(8, 1, 2), owned(18, 1, 1)]);
        Shift { aerodrome: *b"XQAA", list, count: 3, reports: Vec::new() }
    }

    fn with(change: impl Fn(&mut Shift)) -> String {
        let mut shift = shift();
        change(&mut shift);
        String::from_utf8_lossy(&live(&shift)).into_owned()
    }

    fn all_places(shift: &mut Shift) {
        shift.list = [11, 12, 13, 14, 15, 16, 17, 18].map(|number| owned(number, 0, 1 + number % 2));
        shift.count = 8;
    }

    #[test]
    fn opening_with_numbers() {
        assert_eq!(with(|_| ()), "OPEN\n");
        assert_eq!(with(|shift| shift.list[1] = owned(7, 2, 1)), "OPEN\n");
        assert_eq!(with(|shift| shift.list[0] = owned(1, 0, 2)), "OPEN\n");
        assert_eq!(with(|shift| shift.list[2].runway.side = 3), "OPEN\n");
        assert_eq!(with(|shift| shift.list[1].owner = 1), "OPEN\n");
        assert_eq!(with(all_places), "OPEN\n");
        let wrong: [&dyn Fn(&mut Shift); 19] = [
            &|shift| shift.aerodrome[0] = b'@',
            &|shift| shift.aerodrome[1] = b'[',
            &|shift| shift.aerodrome[2] = b'a',
            &|shift| shift.aerodrome[3] = 0,
            &|shift| shift.list.swap(0, 1),
            &|shift| shift.list[1] = Owned { owner: 2, ..shift.list[0] },
            &|shift| shift.list[1].runway = Runway { number: 7, side: 0 },
            &|shift| shift.list[0].runway.number = 0,
            &|shift| shift.list[2].runway.number = 19,
            &|shift| shift.list[2].runway.side = 4,
            &|shift| shift.list[0].runway.side = 255,
            // The count says less or more than there is.
            &|shift| shift.count = 0,
            &|shift| shift.count = 2,
            &|shift| shift.count = 4,
            &|shift| *shift = Shift { list: Default::default(), count: 0, ..shift.clone() },
            &|shift| shift.list[3] = owned(18, 2, 2),
            &|shift| shift.list[7].runway.number = 1,
            &|shift| shift.list[7].runway.side = 1,
            &|shift| {
                all_places(shift);
                shift.count = 9;
            },
        ];
        for (place, change) in wrong.iter().enumerate() {
            assert_eq!(with(change), "REFUSED 17\n", "{place}");
        }
        // Refused before any row is looked at.
        let reported = |shift: &mut Shift| {
            shift.reports.push(report(1, "01120640 07L 6/6/6 DRY/DRY/DRY"));
            shift.count = 255;
        };
        assert_eq!(with(reported), "REFUSED 17\n");
    }

    #[test]
    fn owners_as_numbers() {
        for owner in [0, 3, 4, b'1', b'2', 129, 255] {
            for place in 0..3 {
                assert_eq!(with(|shift| shift.list[place].owner = owner), "REFUSED 17\n", "{owner} at {place}");
            }
        }
        // Past the count an owner alone is something that stands there, be it a desk.
        for owner in [1, 2, 3, 255] {
            for place in 3..8 {
                assert_eq!(with(|shift| shift.list[place].owner = owner), "REFUSED 17\n", "{owner} at {place}");
            }
        }
    }

    fn report(desk: u32, line: &str) -> Report {
        Report { desk, line: line.as_bytes().to_vec() }
    }

    #[test]
    fn live_reports() {
        let reports = [
            report(1, "01120640 18L  6/6/6 NR/NR/NR NR/NR/NR DRY/DRY/DRY"),
            report(1, "01120640 18L 6/6/6 DRY/DRY/DRY"),
            report(2, "01120640 18L 6/6/6 DRY/DRY/DRY"),
            report(1, "01120610 07L 6/6/6 NR/NR/NR"),
            report(1, "01120610 07 6/6/6 NR/NR/NR"),
            report(1, "01120641 18L 6/6/6 DRY/DRY/DRY\r"),
            report(1, ""),
            report(1, "1 01120641 18L 6/6/6 DRY/DRY/DRY"),
            report(0, "01120641 18L 6/6/6 DRY/DRY/DRY"),
        ];
        let told = with(|shift| shift.reports = reports.to_vec());
        let shown = "01120610 07L 6/6/6 NR/NR/NR\n01120640 18L 6/6/6 DRY/DRY/DRY\n";
        assert_eq!(told, format!("OPEN\n0\n20\n22\n0\n18\n26\n5\n5\n23\n{shown}"));
    }

    /// What the board of `shift` stores at its opening and after each report.
    fn stored(reports: &[Report]) -> Vec<u32> {
        stored_times(&Shift { reports: reports.to_vec(), ..shift() }).expect("a board")
    }

    #[test]
    fn the_stored_time_is_the_latest_of_the_rows_shown() {
        assert_eq!(stored(&[]), [0]);
        let reports = [
            // Refused while none is shown, by 5, 18, 22 and 23.
            report(1, "01120700"),
            report(1, "01120700 07 6/6/6 NR/NR/NR"),
            report(2, "01120700 07L 6/6/6 NR/NR/NR"),
            report(3, "01120700 07L 6/6/6 NR/NR/NR"),
            report(2, "01120640 08L 6/6/6 NR/NR/NR"),
            // Of other runways: earlier, equal, later; then the first one's again, up to the latest and over it.
            report(1, "01120639 07L 6/6/6 NR/NR/NR"),
            report(1, "01120640 18L 6/6/6 NR/NR/NR"),
            report(1, "06300000 18L 6/6/6 NR/NR/NR"),
            report(1, "01120640 07L 6/6/6 NR/NR/NR"),
            report(2, "06302359 08L 6/6/6 NR/NR/NR"),
            // Refused by 20, 22, 18 and 24.
            report(2, "06302359 08L 6/6/6 NR/NR/NR"),
            report(1, "06302359 08L 6/6/6 NR/NR/NR"),
            report(1, "06302359 09 6/6/6 NR/NR/NR"),
            report(1, "06302359 19 6/6/6 NR/NR/NR"),
        ];
        let (early, late, last) = (1_120_640, 6_300_000, 6_302_359);
        let times = [0, 0, 0, 0, 0, early, early, early, late, late, last, last, last, last, last];
        assert_eq!(stored(&reports), times);
        assert!(stored_times(&Shift { count: 9, ..shift() }).is_none());
    }

    #[test]
    fn the_stored_time_is_the_same_in_whatever_order_it_is_reported() {
        let reports = [
            report(1, "12312350 07L 6/6/6 NR/NR/NR"),
            report(1, "01010010 07L 6/6/6 NR/NR/NR"),
            report(2, "12312359 08L 6/6/6 NR/NR/NR"),
            report(1, "01010011 08L 6/6/6 NR/NR/NR"),
        ];
        for first in 0..4 {
            let mut turned = reports.to_vec();
            turned.rotate_left(first);
            assert_eq!(stored(&turned).last(), Some(&1_010_010));
            turned.reverse();
            assert_eq!(stored(&turned).last(), Some(&1_010_010));
        }
    }

    #[test]
    fn the_nights_by_hand() {
        for night in crate::edges::nights_by_hand() {
            let input = night.input();
            let shown = input.escape_ascii().to_string();
            assert_eq!(desk(&input), night.printed(), "{shown}");
            let stored = Shift::read(&input).and_then(|shift| stored_times(&shift));
            assert_eq!(stored, Some(night.stored()), "{shown}");
            let text = notice(&input, MODEL.as_bytes()).expect("a notice");
            assert_eq!(reader::heading_time(&text).as_ref(), night.stored().last(), "{shown}");
        }
    }

    #[test]
    fn a_fresh_board_is_fed_each_row_by_its_own_desk() {
        let reports = [report(1, "01120640 18L 6/6/6 NR/NR/NR"), report(2, "01120641 08L 6/6/6 DRY/DRY/DRY 30")];
        let kept = Shift { reports: reports.to_vec(), ..shift() };
        let model = reader::read(MODEL.as_bytes()).expect("a model");
        let rows = kept.notice(model.clone()).expect("a notice").rows;
        let fed = kept.fed(&rows);
        // The notice has them in board order.
        let sent = |report: &Report| (report.desk, report.line.clone());
        assert_eq!(fed.reports.iter().map(sent).collect::<Vec<_>>(), [&reports[1], &reports[0]].map(sent));
        assert_eq!((fed.aerodrome, fed.list, fed.count), (kept.aerodrome, kept.list, kept.count));
        assert_eq!(kept.fed(&[]).notice(model.clone()), Err(21));
        assert_eq!(Shift { count: 9, ..kept.clone() }.notice(model), Err(17));
        // No desk owns what is not on the board.
        assert_eq!(kept.owner(Runway { number: 8, side: 0 }), 0);
    }

    #[test]
    fn the_boards_restored_by_hand() {
        for replaced in crate::edges::replaced_by_hand() {
            let input = replaced.input();
            let shown = input.escape_ascii().to_string();
            assert_eq!(notice(&input, crate::edges::EXAMPLE.as_bytes()), replaced.notice(), "{shown}");
            let stored = |input: &[u8]| Shift::read(input).and_then(|shift| stored_times(&shift)?.pop());
            assert_eq!(stored(&input), Some(replaced.latest), "{shown}");
            for order in replaced.orders() {
                let fed = replaced.fed(&order);
                assert_eq!(desk(&fed), replaced.printed(), "{shown}");
                assert_eq!(stored(&fed), Some(replaced.latest), "{shown}");
            }
        }
    }

    /// What the model in Python wrote and answered is answered the same here, and has the station's own case.
    #[test]
    fn the_stored_input() {
        let input = include_bytes!("../../crates/desk/stdin");
        let output = include_bytes!("../../crates/desk/stdout");
        assert_eq!(desk(input), output);
        let answers: Vec<(&[u8], &[u8])> = lines(input).into_iter().zip(lines(output)).collect();
        let answered = |line: &str, answer: &str| answers.contains(&(line.as_bytes(), answer.as_bytes()));
        assert!(answered("1 12312350 18R 6/6/6 DRY/DRY/DRY", "0") && answered("1 01010010 18R 6/6/6 DRY/DRY/DRY", "0"));
        assert!(answered("1 12312359 18R 6/6/6 DRY/DRY/DRY", "20"));
    }

    #[test]
    fn a_sender_is_not_cut_down_to_a_desk() {
        for desk in [0, 3, 9, 10, 255, 256, 257, 258, 513, 514, 65_537, 65_538, 0x0100_0001, 0x8000_0002, u32::MAX] {
            for line in
                ["01120640 07L 6/6/6 DRY/DRY/DRY", "01120640 08L 6/6/6 DRY/DRY/DRY", "01120640 01 6/6/6 DRY/DRY/DRY"]
            {
                assert_eq!(with(|shift| shift.reports.push(report(desk, line))), "OPEN\n23\n", "{desk}");
            }
            assert_eq!(with(|shift| shift.reports.push(report(desk, "RUBBISH"))), "OPEN\n5\n", "{desk}");
        }
    }

    #[test]
    fn a_live_line_is_as_long_as_the_desk_has_room_for_behind_its_start() {
        let row = "01120640 07L 6/6/6 DRY/DRY/DRY";
        let of_length = |length: usize| row.replacen(' ', &" ".repeat(1 + length - row.len()), 1);
        let told = |length| with(|shift| shift.reports.push(report(1, &of_length(length))));
        assert_eq!(told(4094), format!("OPEN\n0\n{row}\n"));
        assert_eq!(told(4095), "OPEN\n5\n");
    }

    #[test]
    fn a_shift_is_read_from_a_desk_input() {
        let shift = Shift::read(format!("{BOARD}{RIGHT}XQAA\n3 X\r\n1 ").as_bytes()).expect("a board");
        assert_eq!(shift.list[..3], [owned(7, 1, 1), owned(7, 3, 2), owned(18, 2, 1)]);
        assert_eq!((shift.aerodrome, shift.count, shift.list[3]), (*b"XQAA", 3, Owned::default()));
        let reports: Vec<_> = shift.reports.iter().map(|report| (report.desk, report.line.len())).collect();
        assert_eq!(reports, [(2, RIGHT.len() - 3), (3, 1), (1, 0)]);
        assert!(Shift::read(b"XQAA 07L/1 07R\n").is_none());
    }
}
