//! A small terminal: keeps the board of an aerodrome while two desks pass on what the inspection cars call in, and writes it as a notice.
//!
//!     terminal MODEL AERODROME RUNWAY/DESK... <REPORTS >NOTICE
//!
//! It is used and answers as examples/terminal.c. The runways stand in rising order, each with the desk that owns it, 1 or 2, as 07L/1 07R/2.
//! Reports are runway rows on standard input, one a line, each behind the digit of the desk that sends it and one space; lines end with LF or
//! CR LF, and the last may lack its end. Each is answered on standard error: taken, with the row as the board shows it now, or refused; the
//! time of the newest observation shown follows. At the end the notice goes to standard output, with the heading details, items and plain
//! language of the message in the file MODEL.
//!
//! The exit status is 0 where the notice is written, 1 where the board, the model or the notice is refused, and 2 for wrong use or where
//! reading or writing fails. A refused report changes neither the board nor the status.

use std::env;
use std::fs::File;
use std::io::{self, BufRead, Read, Write};
use std::process::ExitCode;

#[path = "../../../include/phengaryl.rs"]
mod phengaryl;

use phengaryl::{refusal, Board, Record, Row, Runway, LONGEST_TEXT};

/// Why the terminal stops without a notice.
enum Stop {
    Refused(&'static str, u8),
    Failed(io::Error),
}

impl From<io::Error> for Stop {
    fn from(error: io::Error) -> Stop {
        Stop::Failed(error)
    }
}

/// A refusal in plain words.
fn words(refusal: u8) -> &'static str {
    match refusal {
        refusal::TOO_LONG => "the message is longer than 4,096 bytes",
        refusal::LINE_1_OR_2 => "line 1 or 2 (addresses, filing time and originator) is missing or wrong",
        refusal::LINE_3 => "line 3 (the heading) is missing or wrong",
        refusal::OUTLINE => "the outline of the message is wrong",
        refusal::NO_ROW => "the row's time is wrong or missing, or this is a report without a desk's digit",
        refusal::NINTH_ROW => "there are more than eight rows",
        refusal::RUNWAY_TWICE => "the same runway is reported twice",
        refusal::WRONG_ITEMS => "the awareness line is wrong",
        refusal::WRONG_LANGUAGE => "the plain language is wrong",
        refusal::SERIALS_DIFFER => "the two serials differ",
        refusal::AERODROMES_DIFFER => "the two aerodromes differ",
        refusal::NOT_LATEST_TIME => "the heading's time is not that of the latest row",
        refusal::INVALID_RECORD => "the record is not valid",
        refusal::BUFFER_TOO_SHORT => "the buffer is shorter than the text",
        refusal::WRONG_BOARD => "the aerodrome, the list of runways or an owner is wrong",
        refusal::NOT_ON_BOARD => "the runway is not on the board",
        refusal::NOT_LATER => "the report is not later than the row shown",
        refusal::NO_REPORT => "the board holds no report",
        refusal::OTHERS_RUNWAY => "the runway belongs to the other desk",
        refusal::NO_DESK => "there is no such desk",
        refusal::WRONG_RUNWAY => "the row's runway is wrong or missing",
        refusal::WRONG_CODES => "the row's codes are wrong or missing",
        refusal::WRONG_COVERAGE_OR_DEPTH => "the row's coverage or depth is wrong or missing",
        refusal::WRONG_DESCRIPTIONS => "the row's descriptions are wrong or missing",
        refusal::WRONG_WIDTH => "the row's width or what follows it is wrong",
        _ => "no refusal that a terminal meets",
    }
}

/// The message in a file: one byte more than a message may have is read, so that a longer one is refused for its length.
fn read_model(path: &str) -> Result<Record, Stop> {
    let mut message = Vec::new();
    File::open(path)?.take(LONGEST_TEXT as u64 + 1).read_to_end(&mut message)?;
    Record::read(&message).map_err(|refused| Stop::Refused("model", refused.refusal))
}

/// A runway and the desk that owns it, such as 07/1 or 07L/2. What is none becomes zeros, which the library refuses.
fn runway_of(text: &str) -> (Runway, u8) {
    let (digits, side, owner) = match text.as_bytes() {
        [digits @ .., b'L', b'/', owner] => (digits, 1, owner),
        [digits @ .., b'C', b'/', owner] => (digits, 2, owner),
        [digits @ .., b'R', b'/', owner] => (digits, 3, owner),
        [digits @ .., b'/', owner] => (digits, 0, owner),
        _ => return Default::default(),
    };
    match (digits, owner) {
        ([tens @ b'0'..=b'9', ones @ b'0'..=b'9'], b'0'..=b'9') => {
            (Runway { number: 10 * (tens - b'0') + (ones - b'0'), side }, owner - b'0')
        }
        _ => Default::default(),
    }
}

fn open_board(name: &str, runways: &[String]) -> Result<Board, Stop> {
    let owned: Vec<(Runway, u8)> = runways.iter().map(|text| runway_of(text)).collect();
    // A name of another length becomes zeros, which the library refuses.
    let aerodrome = name.as_bytes().try_into().unwrap_or([0; 4]);
    Board::open(&aerodrome, &owned).map_err(|n| Stop::Refused("board", n))
}

/// The next line without its end. Of an over-long one so much is kept that it is still over-long without a CR.
fn next_line(input: &mut impl BufRead) -> io::Result<Option<Vec<u8>>> {
    let mut line = Vec::new();
    for byte in input.bytes() {
        match byte? {
            b'\n' => {
                if line.last() == Some(&b'\r') {
                    line.pop();
                }
                return Ok(Some(line));
            }
            byte if line.len() < LONGEST_TEXT + 2 => line.push(byte),
            _ => {}
        }
    }
    Ok(Some(line).filter(|last| !last.is_empty()))
}

/// Reports a line to the board and answers the row that is shown now.
fn report_line(board: &mut Board, line: &[u8]) -> Result<Row, u8> {
    if line.len() > LONGEST_TEXT {
        return Err(refusal::NO_ROW);
    }
    let (digit, row) = match line {
        [digit @ b'0'..=b'9', b' ', row @ ..] => (digit, row),
        _ => return Err(refusal::NO_ROW),
    };
    let row = Row::read(row).map_err(|refused| refused.refusal)?;
    board.report(u32::from(digit - b'0'), &row)?;
    Ok(row)
}

fn take_reports(board: &mut Board) -> io::Result<()> {
    let mut input = io::stdin().lock();
    let mut answers = io::stderr();
    let mut number = 0;
    while let Some(line) = next_line(&mut input)? {
        number += 1;
        match report_line(board, &line) {
            Ok(row) => {
                let text = row.text().unwrap_or_default();
                writeln!(answers, "line {number}: taken, {}", String::from_utf8_lossy(&text))?;
            }
            Err(n) => writeln!(answers, "line {number}: refused {n}, {}", words(n))?,
        }
    }
    if board.latest != 0 {
        writeln!(answers, "newest {:08}", board.latest)?;
    }
    Ok(())
}

fn run(model: &str, aerodrome: &str, runways: &[String]) -> Result<(), Stop> {
    let model = read_model(model)?;
    let mut board = open_board(aerodrome, runways)?;
    take_reports(&mut board)?;
    let notice =
        board.notice(&model.details(), &model.items, &model.language).map_err(|n| Stop::Refused("notice", n))?;
    let mut out = io::stdout();
    out.write_all(&notice)?;
    out.flush()?;
    Ok(())
}

fn main() -> ExitCode {
    let arguments: Vec<String> = env::args_os().skip(1).map(|word| word.to_string_lossy().into_owned()).collect();
    let done = match &arguments[..] {
        [model, aerodrome, runways @ ..] if !runways.is_empty() => run(model, aerodrome, runways),
        _ => {
            let usage = "usage: terminal MODEL AERODROME RUNWAY/DESK... <REPORTS >NOTICE";
            Err(io::Error::new(io::ErrorKind::InvalidInput, usage).into())
        }
    };
    let (status, why) = match done {
        Ok(()) => return ExitCode::SUCCESS,
        Err(Stop::Refused(what, n)) => (1, format!("{what}: refused {n}, {}", words(n))),
        Err(Stop::Failed(error)) => (2, format!("terminal: {error}")),
    };
    // Where even this cannot be written, the status still tells it.
    let _ = writeln!(io::stderr(), "{why}");
    ExitCode::from(status)
}
