//! The input of the program `test_run`, and what it has to print.
//!
//! The input is a sequence of parts: messages, and then the texts of rows. A part stands behind a line with its letter and
//! its length in five digits, and an LF stands behind it.
use std::io;

use crate::assess::agreement;
use crate::reader::{listing, read, same, LONGEST_MESSAGE};
use crate::row::Row;
use crate::text::{lines, split};
use crate::{edges, models, observations};

const MESSAGE: u8 = b'M';
const ROW: u8 = b'R';

/// The messages at the edges, and the rows that rows.py writes.
pub fn input() -> io::Result<Vec<u8>> {
    let rows = models::lines()?;
    let messages = edges::messages();
    let messages = messages.iter().map(|message| framed(MESSAGE, message));
    let rows = lines(&rows).into_iter().map(|row| framed(ROW, row));
    Ok(messages.chain(rows).flatten().collect())
}

fn framed(letter: u8, part: &[u8]) -> Vec<u8> {
    let head = format!("{}{:05}\n", char::from(letter), part.len());
    [head.as_bytes(), part, b"\n"].concat()
}

/// The parts of an input with their letters; none where it is framed otherwise.
fn parts(mut file: &[u8]) -> Option<Vec<(u8, &[u8])>> {
    let mut parts = Vec::new();
    while let Some((&letter, rest)) = file.split_first() {
        let (head, rest) = split(rest, 6)?;
        let length = std::str::from_utf8(head.strip_suffix(b"\n")?).ok()?.parse().ok()?;
        let (part, rest) = split(rest, length)?;
        parts.push((letter, part));
        file = rest.strip_prefix(b"\n")?;
    }
    Some(parts)
}

/// All that is to be printed: the assessor's observations, and then the answers to each part.
pub fn answers(file: &[u8]) -> Option<Vec<u8>> {
    let parts = parts(file)?;
    let mut told = observations::output();
    for (place, &(letter, part)) in parts.iter().enumerate() {
        let (_, before) = parts[place.saturating_sub(1)];
        told.extend(match letter {
            MESSAGE => message(place + 1, part, before),
            ROW => row(part),
            _ => return None,
        });
    }
    Some(told)
}

/// A message's number among the parts, its listing, whether it tells the same as the part before it (the first: as itself),
/// and, if it was accepted, what writing it into a buffer one byte short answers.
fn message(number: usize, message: &[u8], before: &[u8]) -> Vec<u8> {
    let mut told = format!("#{number:04}\n").into_bytes();
    told.extend(listing(message));
    told.extend_from_slice(if same(before, message) { b"SAME\n" } else { b"DIFFERENT\n" });
    match read(message) {
        Ok(_) => told.extend_from_slice(b"14\n"),
        Err(refused) => told.extend(format!("AT {:04}\n", refused.place).into_bytes()),
    }
    told
}

/// The refusal number and its place; or 0, the count of disagreeing thirds and the canonical row. A text that the desk would not look at
/// is refused by 5.
pub fn row(text: &[u8]) -> Vec<u8> {
    let told = match Row::read(text) {
        _ if text.len() > LONGEST_MESSAGE => "05\n".to_string(),
        Ok(row) => format!("00 {} {}\n", agreement(&row).1, row.text()),
        Err(refused) => format!("{:02} {:04}\n", refused.number, refused.place),
    };
    told.into_bytes()
}

#[cfg(test)]
mod tests {
    use super::*;
    use crate::edges::EXAMPLE;

    const INPUT: &[u8] = include_bytes!("../../crates/test_run/stdin");
    const OUTPUT: &[u8] = include_bytes!("../../crates/test_run/stdout");

    #[test]
    fn framing() {
        let file = [framed(MESSAGE, b"A\nB"), framed(ROW, b"")].concat();
        assert_eq!(parts(&file), Some(vec![(MESSAGE, &b"A\nB"[..]), (ROW, b"")]));
        assert_eq!(parts(b"M00002\nA\n"), None);
        assert_eq!(answers(b"X00001\nA\n"), None);
    }

    /// The rows of the stored input are held against rows.py by `compare self`.
    #[test]
    fn stored() {
        let parts = parts(INPUT).expect("a framed file");
        let messages: Vec<&[u8]> = parts.iter().filter(|part| part.0 == MESSAGE).map(|part| part.1).collect();
        assert_eq!(messages, edges::messages());
        assert_eq!(answers(INPUT).as_deref(), Some(OUTPUT));
    }

    #[test]
    fn answering() {
        let listed = listing(EXAMPLE.as_bytes());
        let file = [framed(MESSAGE, EXAMPLE.as_bytes()), framed(MESSAGE, b""), framed(MESSAGE, EXAMPLE.as_bytes())];
        let expected = [
            b"#0001\n",
            &listed[..],
            b"SAME\n14\n#0002\nREFUSED 2\nDIFFERENT\nAT 0000\n#0003\n",
            &listed,
            b"DIFFERENT\n14\n",
        ]
        .concat();
        assert_eq!(answers(&file.concat()), Some([observations::output(), expected].concat()));
        assert_eq!(row(b"01120640  07 6/6/6 DRY/DRY/DRY"), b"00 0 01120640 07 6/6/6 DRY/DRY/DRY\n");
        assert_eq!(row(b"01120640 07"), b"25 0011\n");
    }
}
