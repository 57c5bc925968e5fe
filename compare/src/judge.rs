//! Structs handed over as they are, judged by the documents: no text need be able to tell what they hold.
use crate::library::{self, Answer, Board, Details, Items, Language};
use crate::reader;
use crate::row::{Row, Runway};
use crate::season;
use crate::structs;

/// The canonical text of a record; none where it is not valid. It is valid if the second reader reads it from its text, and
/// nothing else stands in the struct.
pub fn text(told: &library::Record) -> Option<Vec<u8>> {
    let record = structs::record(told)?;
    let text = reader::write(&record);
    let whole = library::Record::from(&record) == *told;
    Some(text).filter(|text| whole && reader::read(text).as_ref() == Ok(&record))
}

/// Whether a board keeps its rules.
pub fn is_board(board: &Board) -> bool {
    let count = usize::from(board.count);
    let (used, unused) = match board.runways.get(..count) {
        Some(used) => (used, &board.runways[count..]),
        None => return false,
    };
    let runways: Vec<Runway> = used.iter().map(|&runway| runway.into()).collect();
    board.aerodrome.iter().all(u8::is_ascii_uppercase)
        && count > 0
        && runways.iter().all(Runway::is_reported)
        && runways.windows(2).all(|pair| pair[0] < pair[1])
        && unused.iter().all(|&runway| runway == library::Runway::default())
        && board.owners[..count].iter().all(|owner| [1, 2].contains(owner))
        && board.owners[count..].iter().all(|&owner| owner == 0)
        && board.rows[..count].iter().zip(&runways).all(|(row, runway)| is_blank(row) || is_row_of(row, runway))
        && board.rows[count..].iter().all(is_blank)
        && board.latest == latest(board)
}

/// The time that a board has to store. A blank row has none.
pub fn latest(board: &Board) -> u32 {
    season::latest(board.rows.iter().filter(|row| !is_blank(row)).map(|row| row.time)).unwrap_or(0)
}

pub fn is_blank(row: &library::Row) -> bool {
    *row == library::Row::default()
}

fn is_row_of(row: &library::Row, runway: &Runway) -> bool {
    let row = Row::from(row);
    row.is_valid() && row.runway == *runway
}

/// What a report has to answer.
pub fn report(board: &Board, desk: u32, row: &library::Row) -> Answer {
    let mut answer = Answer { refusal: 0, board: *board };
    match place(board, desk, row) {
        Ok(place) => {
            answer.board.rows[place] = *row;
            answer.board.latest = latest(&answer.board);
        }
        Err(refusal) => answer.refusal = refusal,
    }
    answer
}

/// The place that a desk's row is taken to.
fn place(board: &Board, desk: u32, row: &library::Row) -> Result<usize, u8> {
    if !is_board(board) {
        return Err(17);
    }
    if ![1, 2].contains(&desk) {
        return Err(23);
    }
    if !Row::from(row).is_valid() {
        return Err(19);
    }
    let runway = library::Runway { number: row.number, side: row.side };
    let place = board.runways.iter().position(|&listed| listed == runway).ok_or(18)?;
    if u32::from(board.owners[place]) != desk {
        return Err(22);
    }
    let shown = &board.rows[place];
    if !is_blank(shown) && !season::is_later(row.time, shown.time) {
        return Err(20);
    }
    Ok(place)
}

/// The text of a board's notice, or the refusal number; whether there is room for it is not judged.
pub fn notice(board: &Board, details: &Details, items: &Items, language: &Language) -> Result<Vec<u8>, u8> {
    if !is_board(board) {
        return Err(17);
    }
    let mut rows = library::Rows::default();
    for row in board.rows.iter().filter(|row| !is_blank(row)) {
        rows.rows[usize::from(rows.count)] = *row;
        rows.count += 1;
    }
    if rows.count == 0 {
        return Err(21);
    }
    let title = library::Title { region: details.region, serial: details.serial, aerodrome: board.aerodrome };
    let (addresses, filing) = (details.addresses, details.filing);
    text(&library::Record { addresses, filing, title, rows, items: *items, language: *language }).ok_or(13)
}

#[cfg(test)]
mod tests {
    use super::*;

    fn row(text: &[u8]) -> library::Row {
        (&Row::read(text).expect("a good row")).into()
    }

    fn board() -> Board {
        let mut board = Board { aerodrome: *b"XQAA", count: 2, ..Default::default() };
        board.runways[0] = library::Runway { number: 7, side: 1 };
        board.runways[1] = library::Runway { number: 7, side: 3 };
        board.owners[..2].copy_from_slice(&[1, 2]);
        board.rows[1] = row(b"01120640 07R 6/6/6 DRY/DRY/DRY");
        board.latest = 1_120_640;
        board
    }

    /// Each alone breaks a rule of a board that keeps them all.
    const BREACHES: [fn(&mut Board); 24] = [
        |board| board.aerodrome[3] = b'a',
        |board| board.count = 0,
        |board| board.count = 1,
        |board| board.count = 3,
        |board| board.count = 9,
        |board| board.runways.swap(0, 1),
        |board| board.runways[0].number = 0,
        |board| board.runways[7].side = 1,
        |board| board.owners[0] = 0,
        |board| board.owners[1] = 3,
        |board| board.owners[1] = 255,
        |board| board.owners[2] = 1,
        |board| board.rows.swap(0, 1),
        |board| board.rows[0].width = 1,
        // The stored time: off by one, none, that of a row not shown any more, that of the earlier row, later than all, or
        // the latest by its digits alone.
        |board| board.latest -= 1,
        |board| board.latest += 1,
        |board| board.latest = 0,
        |board| board.rows[1] = library::Row::default(),
        |board| {
            board.rows[0] = row(b"01120639 07L 6/6/6 DRY/DRY/DRY");
            board.latest = 1_120_639;
        },
        |board| board.rows[0] = row(b"01120641 07L 6/6/6 DRY/DRY/DRY"),
        |board| board.latest = u32::MAX,
        |board| {
            board.rows[0] = row(b"12312350 07L 6/6/6 DRY/DRY/DRY");
            board.latest = 12_312_350;
        },
        |board| {
            board.rows[0] = row(b"07010000 07L 6/6/6 DRY/DRY/DRY");
            board.latest = 7_010_000;
        },
        |board| board.rows[0] = row(b"06302359 07L 6/6/6 DRY/DRY/DRY"),
    ];

    /// Neither reported to nor written; what else is wrong with the call comes behind.
    #[test]
    fn the_rules_of_a_board() {
        assert!(is_board(&board()));
        let later = row(b"01120642 07R 6/6/6 DRY/DRY/DRY");
        for (place, breach) in BREACHES.iter().enumerate() {
            let mut board = board();
            breach(&mut board);
            assert!(!is_board(&board), "breach {place}");
            assert_eq!(report(&board, 2, &later), Answer { refusal: 17, board }, "breach {place}");
            let written = notice(&board, &Details::default(), &Items::default(), &Language::default());
            assert_eq!(written, Err(17), "breach {place}");
        }
    }

    #[test]
    fn the_stored_time_is_the_latest_of_the_rows_shown() {
        let none = Board { rows: Default::default(), latest: 0, ..board() };
        assert!(is_board(&none));
        let told = |board: &Board, desk, text: &[u8]| report(board, desk, &row(text)).board.latest;
        assert_eq!(told(&none, 1, b"01010000 07L 6/6/6 DRY/DRY/DRY"), 1_010_000);
        assert_eq!(told(&none, 2, b"01010000 07L 6/6/6 DRY/DRY/DRY"), 0);
        assert_eq!(told(&board(), 1, b"01120639 07L 6/6/6 DRY/DRY/DRY"), 1_120_640);
        assert_eq!(told(&board(), 1, b"01120640 07L 6/6/6 DRY/DRY/DRY"), 1_120_640);
        assert_eq!(told(&board(), 1, b"01120641 07L 6/6/6 DRY/DRY/DRY"), 1_120_641);
        assert_eq!(told(&board(), 2, b"06302359 07R 6/6/6 DRY/DRY/DRY"), 6_302_359);
        // Of the other runway, earlier and later in the season, whatever the digits say; while none is shown, any.
        assert_eq!(told(&board(), 1, b"12312359 07L 6/6/6 DRY/DRY/DRY"), 1_120_640);
        assert_eq!(told(&board(), 1, b"07010000 07L 6/6/6 DRY/DRY/DRY"), 1_120_640);
        assert_eq!(told(&board(), 1, b"06302359 07L 6/6/6 DRY/DRY/DRY"), 6_302_359);
        assert_eq!(told(&none, 1, b"07010000 07L 6/6/6 DRY/DRY/DRY"), 7_010_000);
        assert_eq!(told(&none, 1, b"06302359 07L 6/6/6 DRY/DRY/DRY"), 6_302_359);
        // Refused, by 20, 22, 18 and 23.
        for (desk, text) in [
            (2, &b"01120640 07R 6/6/6 DRY/DRY/DRY"[..]),
            (2, b"12312359 07R 6/6/6 DRY/DRY/DRY"),
            (1, b"01120641 07R 6/6/6 DRY/DRY/DRY"),
            (1, b"01120641 07 6/6/6 DRY/DRY/DRY"),
            (3, b"01120641 07R 6/6/6 DRY/DRY/DRY"),
        ] {
            assert_eq!(told(&board(), desk, text), 1_120_640, "{desk}");
        }
    }

    #[test]
    fn reports() {
        let told = |desk, text: &[u8]| report(&board(), desk, &row(text)).refusal;
        assert_eq!(told(2, b"01120640 07R 5/5/5 NR/NR/NR NR/NR/NR WET/WET/WET"), 20);
        assert_eq!(told(2, b"01120641 07R 6/6/6 DRY/DRY/DRY"), 0);
        assert_eq!(told(2, b"12312359 07R 6/6/6 DRY/DRY/DRY"), 20);
        assert_eq!(told(2, b"07010000 07R 6/6/6 DRY/DRY/DRY"), 20);
        assert_eq!(told(2, b"02290000 07R 6/6/6 DRY/DRY/DRY"), 0);
        assert_eq!(told(2, b"06302359 07R 6/6/6 DRY/DRY/DRY"), 0);
        assert_eq!(told(1, b"01120639 07L 6/6/6 DRY/DRY/DRY"), 0);
        assert_eq!(told(1, b"01120641 07 6/6/6 DRY/DRY/DRY"), 18);
    }

    /// 17, 23, 19, 18, 22, 20: each before the one behind it, both being there.
    #[test]
    fn the_order_of_a_report() {
        let good = row(b"01120640 07R 6/6/6 DRY/DRY/DRY");
        let invalid = library::Row { width: 100, ..good };
        let elsewhere = library::Row { side: 0, ..good };
        let invalid_elsewhere = library::Row { width: 100, ..elsewhere };
        let wrong = Board { owners: [1, 2, 1, 0, 0, 0, 0, 0], ..board() };
        for (refusal, board, desk, row) in [
            (17, wrong, 3, good),
            (17, wrong, 2, invalid),
            (17, Board::default(), 0, library::Row::default()),
            (23, board(), 3, invalid),
            (23, board(), 0, elsewhere),
            (23, board(), 257, good),
            (23, board(), 258, good),
            (23, board(), u32::MAX, good),
            (19, board(), 1, invalid),
            (19, board(), 2, invalid_elsewhere),
            (19, board(), 2, invalid),
            (18, board(), 1, elsewhere),
            (18, board(), 2, elsewhere),
            (22, board(), 1, good),
            (20, board(), 2, good),
        ] {
            assert_eq!(report(&board, desk, &row), Answer { refusal, board }, "desk {desk}, {row:?}");
        }
    }
}
