//! The notice as a whole: reading, writing, listing and sameness.
use crate::assess::agreement;
use crate::items::{self, Item};
use crate::places::runway_place;
use crate::refused::Refused;
use crate::row::{read_time, Row};
use crate::season;
use crate::text::{digits, exactly, groups, letters, lines, placed_lines, split, Line};

pub const LONGEST_MESSAGE: usize = 4096;
pub const MOST_ADDRESSES: usize = 8;
pub const MOST_ROWS: usize = 8;

/// What a notice tells. The heading's time is not held: it is the latest row time.
#[derive(Clone, Debug, PartialEq, Eq)]
pub struct Record {
    /// GG or DD.
    pub priority: [u8; 2],
    pub addresses: Vec<[u8; 8]>,
    /// ddhhmm as a number.
    pub filed: u32,
    pub originator: [u8; 8],
    /// The two letters after SW.
    pub region: [u8; 2],
    pub serial: u32,
    pub aerodrome: [u8; 4],
    pub rows: Vec<Row>,
    pub items: Vec<Item>,
    /// Empty where there is no plain language.
    pub plain: Vec<u8>,
}

struct Body {
    rows: Vec<Row>,
    items: Vec<Item>,
    plain: Vec<u8>,
}

impl Record {
    /// The heading's time; 0 where there is no row.
    pub fn latest(&self) -> u32 {
        season::latest(self.rows.iter().map(|row| row.time)).unwrap_or(0)
    }

    /// The lines of the canonical text, without their LF.
    pub fn lines(&self) -> Vec<Vec<u8>> {
        let aerodrome = word(&self.aerodrome);
        let mut addressing = vec![word(&self.priority)];
        addressing.extend(self.addresses.iter().map(|address| word(address)));
        let mut lines = vec![
            addressing.join(" ").into_bytes(),
            format!("{:06} {}", self.filed, word(&self.originator)).into_bytes(),
            format!("SW{}{:04} {aerodrome} {:08}", word(&self.region), self.serial, self.latest()).into_bytes(),
            format!("(SNOWTAM {:04}", self.serial).into_bytes(),
            aerodrome.into_bytes(),
        ];
        lines.extend(self.rows.iter().map(|row| row.text().into_bytes()));
        if !self.items.is_empty() || !self.plain.is_empty() {
            lines.push(Vec::new());
            lines.push(items::text(&self.items).into_bytes());
        }
        if !self.plain.is_empty() {
            lines.push(self.plain.clone());
        }
        if let Some(last) = lines.last_mut() {
            last.push(b')');
        }
        lines
    }
}

/// The lines of a message that are still to be read.
struct Lines<'m> {
    rest: std::vec::IntoIter<Line<'m>>,
    /// The message's length: the place of a missing line, and of a missing `)`.
    length: usize,
}

impl<'m> Lines<'m> {
    fn new(message: &'m [u8]) -> Lines<'m> {
        Lines { rest: placed_lines(message).into_iter(), length: message.len() }
    }

    /// The next line, or the number of a missing one.
    fn next(&mut self, number: u8) -> Result<Line<'m>, Refused> {
        self.rest.next().ok_or(self.missing(number))
    }

    fn missing(&self, number: u8) -> Refused {
        Refused::at(number, self.length)
    }
}

impl Line<'_> {
    /// What the line says, or the number at its first byte, whatever in it is at fault.
    fn says<T>(&self, number: u8, read: impl Fn(&[u8]) -> Option<T>) -> Result<T, Refused> {
        read(self.text).ok_or_else(|| self.refused(number))
    }

    fn refused(&self, number: u8) -> Refused {
        Refused::at(number, self.place)
    }

    /// Where the line's last bytes begin, `count` of them.
    fn last(&self, count: usize) -> usize {
        self.place + self.text.len() - count
    }
}

/// The record of a message, or the refusal number and its place.
pub fn read(message: &[u8]) -> Result<Record, Refused> {
    if message.len() > LONGEST_MESSAGE {
        return Err(Refused::at(1, LONGEST_MESSAGE));
    }
    let mut lines = Lines::new(message);
    let (priority, addresses) = lines.next(2)?.says(2, addressing)?;
    let (filed, originator) = lines.next(2)?.says(2, filing)?;
    let third = lines.next(3)?;
    let (region, heading_serial, heading_aerodrome, time) = third.says(3, heading)?;
    let fourth = lines.next(4)?;
    let serial = fourth.says(4, opening)?;
    let fifth = lines.next(4)?;
    let aerodrome = fifth.says(4, letters)?;
    let Body { rows, items, plain } = body(&mut lines)?;
    // The first byte after the end begins a line, be it an empty one.
    if let Some(line) = lines.rest.next() {
        return Err(line.refused(4));
    }
    let record = Record { priority, addresses, filed, originator, region, serial, aerodrome, rows, items, plain };
    // Lines that were read end with their last group: the eight digits of the time, the four of the serial.
    if heading_serial != serial {
        Err(Refused::at(10, fourth.last(4)))
    } else if heading_aerodrome != aerodrome {
        Err(Refused::at(11, fifth.place))
    } else if time != record.latest() {
        Err(Refused::at(12, third.last(8)))
    } else {
        Ok(record)
    }
}

/// The canonical text of a record.
pub fn write(record: &Record) -> Vec<u8> {
    let mut text = record.lines().join(&b'\n');
    text.push(b'\n');
    text
}

/// What the lister prints for a message.
pub fn listing(message: &[u8]) -> Vec<u8> {
    match read(message) {
        Err(Refused { number, .. }) => format!("REFUSED {number}\n").into_bytes(),
        Ok(record) => {
            let disagreeing: u32 = record.rows.iter().map(|row| u32::from(agreement(row).1)).sum();
            let head = format!("ACCEPTED {} {} {disagreeing}\n", record.rows.len(), record.items.len());
            [head.into_bytes(), write(&record)].concat()
        }
    }
}

/// Whether both are accepted and tell the same.
pub fn same(one: &[u8], other: &[u8]) -> bool {
    matches!((read(one), read(other)), (Ok(record), Ok(another)) if record == another)
}

fn word(letters: &[u8]) -> String {
    String::from_utf8_lossy(letters).into_owned()
}

/// Line 1: the priority and the addresses.
fn addressing(line: &[u8]) -> Option<([u8; 2], Vec<[u8; 8]>)> {
    let groups = groups(line)?;
    let (priority, addresses) = groups.split_first()?;
    let priority = letters(priority).filter(|word| matches!(word, b"GG" | b"DD"))?;
    let addresses = addresses.iter().map(|group| letters(group)).collect::<Option<Vec<_>>>()?;
    (1..=MOST_ADDRESSES).contains(&addresses.len()).then_some((priority, addresses))
}

/// Line 2: the filing time and the originator.
fn filing(line: &[u8]) -> Option<(u32, [u8; 8])> {
    let [time, originator] = exactly(line)?;
    let time = digits(time, 6)?;
    let real = (1..=31).contains(&(time / 10_000)) && time / 100 % 100 < 24 && time % 100 < 60;
    Some((time, letters(originator)?)).filter(|_| real)
}

/// Line 3: the letters after SW, the serial, the aerodrome and the time.
fn heading(line: &[u8]) -> Option<([u8; 2], u32, [u8; 4], u32)> {
    let [number, aerodrome, time] = exactly(line)?;
    let (region, serial) = split(number.strip_prefix(b"SW")?, 2)?;
    Some((letters(region)?, read_serial(serial)?, letters(aerodrome)?, read_time(time)?))
}

/// The time that a message's heading bears, whatever its rows say; none where line 3 is missing or wrong.
pub fn heading_time(message: &[u8]) -> Option<u32> {
    lines(message).get(2).and_then(|line| heading(line)).map(|(.., time)| time)
}

/// The times of a message's rows, up to the first line that is none.
pub fn row_times(message: &[u8]) -> Vec<u32> {
    let rows = lines(message).into_iter().skip(5).map(|line| Row::cut(closing(line).0));
    rows.map_while(|row| row.map(|row| row.time)).collect()
}

/// Line 4: the serial again.
fn opening(line: &[u8]) -> Option<u32> {
    let [word, serial] = exactly(line)?;
    read_serial(serial).filter(|_| word == b"(SNOWTAM")
}

fn read_serial(group: &[u8]) -> Option<u32> {
    digits(group, 4).filter(|&serial| serial > 0)
}

/// Everything after line 5, up to the line that closes the notice.
fn body(lines: &mut Lines) -> Result<Body, Refused> {
    let mut body = Body { rows: Vec::new(), items: Vec::new(), plain: Vec::new() };
    loop {
        let line = lines.next(4)?;
        if line.text.is_empty() {
            // It stands where a row has to, while there is none.
            if body.rows.is_empty() {
                return Err(line.refused(4));
            }
            break;
        }
        if body.rows.len() == MOST_ROWS {
            return Err(line.refused(6));
        }
        let (text, closing) = closing(line.text);
        let row = Row::read(text).map_err(|refused| refused.in_line_at(line.place))?;
        if body.rows.iter().any(|other| other.runway == row.runway) {
            return Err(Refused::at(7, runway_place(text)).in_line_at(line.place));
        }
        body.rows.push(row);
        if closing {
            return Ok(body);
        }
    }
    let awareness = lines.next(4)?;
    if !awareness.text.is_empty() {
        let (text, closing) = closing(awareness.text);
        body.items = items::read(text).ok_or(awareness.refused(8))?;
        if closing {
            return Ok(body);
        }
    }
    // Plain language that lacks its `)` is 4 whatever its bytes, unlike a row or an awareness line; the `)` is what is
    // missing, even where lines follow.
    let line = lines.next(4)?;
    let text = line.text.strip_suffix(b")").ok_or(lines.missing(4))?;
    if !items::is_plain_language(text) {
        return Err(line.refused(9));
    }
    body.plain = text.to_vec();
    Ok(body)
}

/// A line's own text, and whether it closes the notice.
fn closing(line: &[u8]) -> (&[u8], bool) {
    match line.strip_suffix(b")") {
        Some(text) => (text, true),
        None => (line, false),
    }
}

#[cfg(test)]
mod tests {
    use super::*;
    use crate::edges::{self, Example, EXAMPLE};

    #[test]
    fn the_example_of_document_01() {
        let told = "ACCEPTED 2 2 1\n\
                    GG XQAAYNYX XQBBYOYX\n\
                    120645 XQAAYNYX\n\
                    SWXQ0007 XQAA 01120640\n\
                    (SNOWTAM 0007\n\
                    XQAA\n\
                    01120610 07L 3/5/5 75/25/NR 12/NR/NR DRY SNOW/FROST/DRY\n\
                    01120640 07R 6/6/6 DRY/DRY/DRY\n\
                    \n\
                    DRIFTING SNOW. TWY A W SNOWBANK.\n\
                    RWY 07R SWEPT 40M.)\n";
        assert_eq!(String::from_utf8_lossy(&listing(EXAMPLE.as_bytes())), told);
    }

    #[test]
    fn the_lister_prints_no_place() {
        let refused = EXAMPLE.replace("07L 3/5/5", "07L 3/5/9");
        assert_eq!(read(refused.as_bytes()), Err(Refused::at(25, 92)));
        assert_eq!(listing(refused.as_bytes()), b"REFUSED 25\n");
    }

    #[test]
    fn the_edges_and_the_decisions() {
        for Example { text, number, place } in edges::by_hand() {
            let told = read(&text).err().unwrap_or(Refused::at(0, 0));
            assert_eq!(told, Refused::at(number, place), "{}", text.escape_ascii());
        }
    }

    #[test]
    fn a_written_record_reads_back() {
        for Example { text, .. } in edges::by_hand() {
            if let Ok(record) = read(&text) {
                assert_eq!(read(&write(&record)), Ok(record));
            }
        }
    }

    #[test]
    fn sameness() {
        let message = EXAMPLE.as_bytes();
        let text = listing(message).split_off("ACCEPTED 2 2 1\n".len());
        assert!(same(message, &text) && same(message, message));
        let refused = [message, b" "].concat();
        assert!(!same(&refused, &refused) && !same(message, &refused) && !same(&refused, message));
        // Row order counts, and so do runs of spaces in plain language.
        let heading = EXAMPLE.lines().take(5).collect::<Vec<_>>().join("\n");
        let with_rows = |rows: &str| format!("{heading}\n{rows}").into_bytes();
        let left = "01120640 07L 6/6/6 DRY/DRY/DRY";
        let right = "01120640 07R 6/6/6 DRY/DRY/DRY";
        let one = with_rows(&format!("{left}\n{right})"));
        let other = with_rows(&format!("{right}\n{left})"));
        assert!(read(&one).is_ok() && read(&other).is_ok() && !same(&one, &other));
        let spaced = EXAMPLE.replace("SWEPT 40M", "SWEPT  40M").into_bytes();
        assert!(read(&spaced).is_ok() && !same(message, &spaced));
    }
}
