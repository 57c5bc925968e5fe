//! The places of refusals: those by hand, and what holds for all of them.
use crate::desk::desk;
use crate::edges::{self, Example};
use crate::places::fault;
use crate::reader::{read, row_times, LONGEST_MESSAGE};
use crate::refused::Refused;
use crate::report::Report;
use crate::row::{read_time, Row};
use crate::selfcheck::season::observed_last;
use crate::text::{digits, letters, lines};

/// Every message and row at the edges is answered as it stands there.
pub fn by_hand(report: &mut Report) {
    for example in edges::by_hand() {
        hold("a message by hand", &example, read(&example.text).err(), report);
    }
    for example in edges::rows_by_hand() {
        hold("a row by hand", &example, Row::read(&example.text).err(), report);
        row(&example.text, report);
        // The desk prints the number alone.
        let printed = desk(&edges::at_desk(&example));
        let number = format!("OPEN\n{}\n", example.number);
        if example.number > 0 && printed != number.as_bytes() {
            report.differ("a row by hand at the desk", &example.text, &number, &printed.escape_ascii().to_string());
        }
    }
}

fn hold(what: &str, example: &Example, told: Option<Refused>, report: &mut Report) {
    let told = told.unwrap_or(Refused::at(0, 0));
    let expected = Refused::at(example.number, example.place);
    report.count(expected.number);
    if told != expected {
        report.differ(what, &example.text, &format!("{expected:?}"), &format!("{told:?}"));
    }
}

/// The line in which a place stands, from the line's first byte on.
fn line_at(message: &[u8], place: usize) -> (usize, &[u8]) {
    let start = message[..place].iter().rposition(|&byte| byte == b'\n').map_or(0, |end| end + 1);
    let rest = &message[start..];
    let end = rest.iter().position(|&byte| byte == b'\n').unwrap_or(rest.len());
    (start, &rest[..end])
}

/// What has to stand at the place of a refused message.
pub fn message(message: &[u8], refused: Refused, report: &mut Report) {
    if !fits(message, refused) {
        report.differ("a place", message, "one that goes with the number", &format!("{refused:?}"));
    }
}

fn fits(message: &[u8], refused: Refused) -> bool {
    let Refused { number, place } = refused;
    if number == 1 {
        return message.len() > LONGEST_MESSAGE && place == LONGEST_MESSAGE;
    }
    let behind = match message.get(place..) {
        Some(behind) => behind,
        None => return false,
    };
    let (start, line) = line_at(message, place);
    let first = place == start;
    match number {
        // A line or a `)` is missing.
        2..=4 if behind.is_empty() => true,
        2 | 3 | 6 | 8 | 9 => first && decides(message, refused),
        4 => first,
        5 | 24..=28 => {
            row_at(message, start).map(|row| row.in_line_at(start)) == Some(refused) && decides(message, refused)
        }
        7 => message[..place].ends_with(b" ") && decides(message, refused),
        10 => line.starts_with(b"(SNOWTAM ") && behind.get(..4).and_then(|group| digits(group, 4)).is_some(),
        11 => first && behind.get(..4).and_then(letters::<4>).is_some(),
        12 => {
            let time = behind.get(..8).and_then(read_time);
            line.starts_with(b"SW") && time.is_some() && time != observed_last(&row_times(message))
        }
        _ => false,
    }
}

/// The refusal of the row in a line of the message, as if it were read by itself.
fn row_at(message: &[u8], start: usize) -> Option<Refused> {
    let line = lines(&message[start..]).first().copied()?;
    Row::read(line.strip_suffix(b")").unwrap_or(line)).err()
}

/// The first line that does not fit decides: whatever stands in the lines behind it, the answer is the same.
fn decides(message: &[u8], refused: Refused) -> bool {
    let (start, line) = line_at(message, refused.place);
    let through = &message[..start + line.len()];
    [&b"\n"[..], b"\n)\n", b"\n\n\nA.)\n"].iter().all(|&other| {
        let other = [through, other].concat();
        // A CR that an LF comes to stand behind is text no more.
        other.len() > LONGEST_MESSAGE || line.ends_with(b"\r") || read(&other) == Err(refused)
    })
}

/// Which texts are rows is one thing, whichever way it is found out; and the place of a fault is one of the text or its end.
pub fn row(text: &[u8], report: &mut Report) {
    let (row, fault) = (Row::cut(text), fault(text));
    let fits = match fault {
        None => row.is_some(),
        Some(Refused { number, place }) => {
            let group = place == text.len() || text[place] != b' ' || place == 0;
            row.is_none() && [5, 24, 25, 26, 27, 28].contains(&number) && place <= text.len() && group
        }
    };
    if !fits {
        report.differ("a row's fault", text, &format!("{row:?}"), &format!("{fault:?}"));
    }
}
