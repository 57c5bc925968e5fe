//! The tuned reader against the second reader, on seeded messages, pairs of them and records.
use compare::generate::{self, Rng};
use compare::items::{Banks, Item as OtherItem, Name};
use compare::reader::{self, Record as OtherRecord};
use compare::refused::Refused;
use compare::report::Report;
use compare::row::{Row as OtherRow, Runway, Third as OtherThird};

use crate::fast::{self, Item, Record, Row, Third};

/// What a lent byte is before a call, so that a touched one shows.
const UNTOUCHED: u8 = 0xa5;

/// What the tuned reader tells of a refused message: no place, and 5 for a row whichever of its groups is at fault.
fn coarse(refused: Refused) -> u8 {
    match refused.number {
        24..=28 => 5,
        number => number,
    }
}

/// The second reader's record in the places of the tuned one.
fn held(other: &OtherRecord) -> Record {
    let mut record = Record::BLANK;
    record.addresses.priority = if other.priority == *b"GG" { 1 } else { 2 };
    record.addresses.count = other.addresses.len() as u8;
    for (place, address) in record.addresses.letters.chunks_exact_mut(8).zip(&other.addresses) {
        place.copy_from_slice(address);
    }
    record.filing.time = other.filed;
    record.filing.originator = other.originator;
    record.title.region = other.region;
    record.title.serial = other.serial as u16;
    record.title.aerodrome = other.aerodrome;
    record.rows.count = other.rows.len() as u8;
    for (place, row) in record.rows.rows.iter_mut().zip(&other.rows) {
        *place = held_row(row);
    }
    record.items.count = other.items.len() as u8;
    for (place, item) in record.items.items.iter_mut().zip(&other.items) {
        *place = held_item(item);
    }
    record.language.length = other.plain.len() as u16;
    record.language.bytes[..other.plain.len()].copy_from_slice(&other.plain);
    record
}

fn held_row(other: &OtherRow) -> Row {
    let thirds = other.thirds.map(|third| Third {
        code: third.code as u8,
        coverage: third.coverage as u8,
        depth: third.depth,
        description: third.description as u8,
    });
    Row { time: other.time, number: other.runway.number, side: other.runway.side, thirds, width: other.width }
}

fn held_item(other: &OtherItem) -> Item {
    let mut item = Item { letter: other.letter(), ..Item::BLANK };
    match other {
        OtherItem::Reduced { runway, length } => {
            (item.number, item.side, item.amount) = (runway.number, runway.side, *length);
        }
        OtherItem::LooseSand { runway } | OtherItem::Treated { runway } | OtherItem::AdjacentSnowbank { runway } => {
            (item.number, item.side) = (runway.number, runway.side);
        }
        OtherItem::Snowbank { runway, banks, distance } => {
            (item.number, item.side, item.amount) = (runway.number, runway.side, u16::from(*distance));
            item.edge = match banks {
                Banks::Left => 1,
                Banks::Right => 2,
                Banks::Both => 3,
            };
        }
        OtherItem::TaxiwaySnowbanks { taxiways } | OtherItem::PoorTaxiways { taxiways: Some(taxiways) } => {
            item.count = taxiways.len() as u8;
            for (place, name) in item.taxiways.chunks_exact_mut(3).zip(taxiways) {
                place[..name.len()].copy_from_slice(name);
            }
        }
        OtherItem::PoorApron { name: Some(name) } => item.name[..name.len()].copy_from_slice(name),
        OtherItem::DriftingSnow | OtherItem::PoorTaxiways { taxiways: None } | OtherItem::PoorApron { name: None } => {}
    }
    item
}

/// The record that a tuned one stands for, as far as it can be told.
fn told(record: &Record) -> Option<OtherRecord> {
    let addresses = record.addresses.letters.get(..8 * usize::from(record.addresses.count))?;
    let rows = record.rows.rows.get(..record.rows.count.into())?;
    let items = record.items.items.get(..record.items.count.into())?;
    Some(OtherRecord {
        priority: match record.addresses.priority {
            1 => *b"GG",
            2 => *b"DD",
            _ => return None,
        },
        addresses: addresses.chunks_exact(8).map(|address| address.try_into().ok()).collect::<Option<_>>()?,
        filed: record.filing.time,
        originator: record.filing.originator,
        region: record.title.region,
        serial: record.title.serial.into(),
        aerodrome: record.title.aerodrome,
        rows: rows.iter().map(told_row).collect(),
        items: items.iter().map(told_item).collect::<Option<_>>()?,
        plain: record.language.bytes.get(..record.language.length.into())?.to_vec(),
    })
}

fn told_row(row: &Row) -> OtherRow {
    let thirds = row.thirds.map(|third| OtherThird {
        code: third.code.into(),
        coverage: third.coverage.into(),
        depth: third.depth,
        description: third.description.into(),
    });
    OtherRow { time: row.time, runway: Runway { number: row.number, side: row.side }, thirds, width: row.width }
}

fn told_item(item: &Item) -> Option<OtherItem> {
    let runway = Runway { number: item.number, side: item.side };
    let name = |place: &[u8]| -> Name { place.iter().copied().take_while(|&byte| byte > 0).collect() };
    let taxiways = || Some(item.taxiways.get(..3 * usize::from(item.count))?.chunks_exact(3).map(name).collect());
    Some(match item.letter {
        b'I' => OtherItem::Reduced { runway, length: item.amount },
        b'J' => OtherItem::DriftingSnow,
        b'K' => OtherItem::LooseSand { runway },
        b'L' => OtherItem::Treated { runway },
        b'M' => OtherItem::Snowbank {
            runway,
            banks: match item.edge {
                1 => Banks::Left,
                2 => Banks::Right,
                3 => Banks::Both,
                _ => return None,
            },
            distance: item.amount.try_into().ok()?,
        },
        b'N' => OtherItem::TaxiwaySnowbanks { taxiways: taxiways()? },
        b'O' => OtherItem::AdjacentSnowbank { runway },
        b'P' if item.count == 0 => OtherItem::PoorTaxiways { taxiways: None },
        b'P' => OtherItem::PoorTaxiways { taxiways: Some(taxiways()?) },
        b'R' if item.name[0] == 0 => OtherItem::PoorApron { name: None },
        b'R' => OtherItem::PoorApron { name: Some(name(&item.name)) },
        _ => return None,
    })
}

/// The text of a record, if it is valid: exactly then its text reads back as the record itself, with all its zeros.
fn text_of(record: &Record) -> Option<Vec<u8>> {
    let text = reader::write(&told(record)?);
    let again = reader::read(&text).ok()?;
    (held(&again) == *record).then_some(text)
}

/// A record with one field changed, in use or not; it may be valid still.
fn altered(rng: &mut Rng, record: &Record) -> Record {
    let mut other = *record;
    let any = rng.below(256) as u8;
    let byte = rng.pick(&[0, 0, b'A', b'Z', b'0', b'9', b' ', b'.', b')', any]);
    let small = rng.pick(&[0, 1, 2, 3, 4, 6, 7, 8, 9, 15, 16, 18, 19, 25, 32, 33, 36, 37, 99, 100, any]);
    let amount = rng.pick(&[0, 1, 3, 4, 99, 100, 999, 1000, 9999, 10_000, u16::MAX]);
    let unreal = rng.pick(&[0, 10_000, 2_300_000, 101_010_000, u32::MAX]);
    let time = rng.pick(&[unreal, unreal, 1_010_000, 2_290_000, 6_302_359, 7_010_000, 12_312_359]);
    let row = &mut other.rows.rows[rng.below(8)];
    let third = &mut row.thirds[rng.below(3)];
    let item = &mut other.items.items[rng.below(32).min(rng.below(32))];
    match rng.below(28) {
        0 => other.addresses.priority = small,
        1 => other.addresses.count = small,
        2 => other.addresses.letters[rng.below(64)] = byte,
        3 => other.filing.time = rng.pick(&[0, 9_999, 10_000, 312_359, 320_000, 12_400, 10_060, 1_010_000]),
        4 => other.filing.originator[rng.below(8)] = byte,
        5 => other.title.region[rng.below(2)] = byte,
        6 => other.title.serial = amount,
        7 => other.title.aerodrome[rng.below(4)] = byte,
        8 => other.rows.count = small,
        9 => row.time = time,
        10 => row.number = small,
        11 => row.side = small,
        12 => row.width = small,
        13 => third.code = small,
        14 => third.coverage = rng.pick(&[0, 10, 25, 50, 75, 100, 101, 255]),
        15 => third.depth = amount,
        16 => third.description = small,
        17 => other.items.count = small,
        18 => item.letter = rng.pick(b"HIJKLMNOPQRS"),
        19 => item.number = small,
        20 => item.side = small,
        21 => item.amount = amount,
        22 => item.edge = small,
        23 => item.count = small,
        24 => item.taxiways[rng.below(24)] = byte,
        25 => item.name[rng.below(16)] = byte,
        26 => other.language.length = rng.pick(&[0, 1, 2, 3, 399, 400, 401, amount]),
        _ => other.language.bytes[rng.below(400)] = byte,
    }
    other
}

/// Room for a text: mostly more than enough, at times exactly enough, one byte less, or any less.
fn room(rng: &mut Rng, length: usize) -> usize {
    match rng.below(8) {
        0 => length,
        1 => length.saturating_sub(1),
        2 => rng.below(length + 1),
        3 => length + 16,
        _ => fast::LONGEST_MESSAGE + rng.below(2),
    }
}

/// What a writer has to answer and leave in a buffer, given the refusal or the text.
fn expected(text: Result<&[u8], u8>, room: usize) -> ((u8, usize), Vec<u8>) {
    let mut buffer = vec![UNTOUCHED; room];
    let answer = match text {
        Err(refusal) => (refusal, 0),
        Ok(text) if text.len() > room => (14, 0),
        Ok(text) => {
            buffer[..text.len()].copy_from_slice(text);
            (0, text.len())
        }
    };
    (answer, buffer)
}

/// An answer, and the buffer as far as it was touched.
fn shown((answer, buffer): &((u8, usize), Vec<u8>)) -> String {
    let touched = buffer.iter().rposition(|&byte| byte != UNTOUCHED).map_or(0, |last| last + 1);
    format!("{answer:?} \"{}\"", buffer[..touched].escape_ascii())
}

/// The parts in which two records differ.
fn differing(one: &Record, other: &Record) -> String {
    [
        (one.addresses != other.addresses, "addresses"),
        (one.filing != other.filing, "filing"),
        (one.title != other.title, "title"),
        (one.rows != other.rows, "rows"),
        (one.items != other.items, "items"),
        (one.language != other.language, "language"),
    ]
    .iter()
    .filter(|(differs, _)| *differs)
    .map(|(_, name)| *name)
    .collect::<Vec<_>>()
    .join(" ")
}

/// A record's own text, in a buffer of any room.
fn written(rng: &mut Rng, report: &mut Report, record: &Record) -> bool {
    let text = text_of(record);
    let room = room(rng, text.as_ref().map_or(0, Vec::len));
    let expected = expected(text.as_deref().ok_or(13), room);
    let mut buffer = vec![UNTOUCHED; room];
    let told = (fast::write(record, &mut buffer), buffer);
    if told != expected {
        report.differ("writing", format!("{record:?}").as_bytes(), &shown(&expected), &shown(&told));
    }
    text.is_some()
}

/// Reads into a record that still holds the message before; gives whether an altered record was valid.
fn message(rng: &mut Rng, report: &mut Report, record: &mut Record) -> Option<bool> {
    let message = generate::message(rng).message;
    let other = reader::read(&message).map_err(coarse);
    let (number, expected_record) = match &other {
        Ok(other) => (0, held(other)),
        Err(number) => (*number, Record::BLANK),
    };
    report.count(number);
    let told = fast::read(&message, record);
    if (told, &*record) != (number, &expected_record) {
        let parts = differing(&expected_record, record);
        report.differ("reading", &message, &number.to_string(), &format!("{told}, another record in: {parts}"));
    }
    let text = other.as_ref().map(reader::write).map_err(|&number| number);
    let room = room(rng, text.as_ref().map_or(0, Vec::len));
    let expected = expected(text.as_deref().map_err(|&number| number), room);
    let mut buffer = vec![UNTOUCHED; room];
    let told = (fast::canonical(&message, &mut buffer), buffer);
    if told != expected {
        report.differ("canonical text", &message, &shown(&expected), &shown(&told));
    }
    if fast::same(&message, &message) != other.is_ok() {
        report.differ("sameness with itself", &message, "as it is accepted", "not so");
    }
    other.ok()?;
    if !written(rng, report, record) {
        report.differ("a record that was read", &message, "valid", "not valid");
    }
    let altered = altered(rng, record);
    Some(written(rng, report, &altered))
}

fn pair(rng: &mut Rng, report: &mut Report) -> bool {
    let (one, other) = generate::pair(rng);
    let expected = reader::same(&one, &other);
    let told = fast::same(&one, &other);
    if told != expected {
        let both = [&one[..], b"\n--- and\n", &other].concat();
        report.differ("sameness", &both, &expected.to_string(), &told.to_string());
    }
    expected
}

/// What a reader that looks ahead may take for more of the line: the ends of a row, and what the next line starts with.
const ROW_ENDS: [&str; 9] = [
    "6/6/6 NR/NR/NR",
    "6/6/6 NR/NR/NR 30",
    "6/6/6 NR/NR/DRY",
    "6/6/6 NR/NR/WET",
    "6/6/6 NR/NR/NR)",
    "5/5/5 25/25/25 NR/NR/NR WET/WET/WET SNOW",
    "5/5/5 25/25/25 NR/NR/NR WET/WET/DRY SNOW 45",
    "5/5/5 25/25/25 NR/NR/NR",
    "5/5/5 25/25/25",
];
const LINE_STARTS: [&str; 14] =
    ["", "/", "//", "0/", "/NR", "NR/NR/NR", "30", " 30", "SNOW", "ICE", "ON TOP OF ICE", ")", "\r", "."];

/// Every end of a first and of an eighth row before every start of a line.
fn line_ends(report: &mut Report) -> usize {
    let mut count = 0;
    for earlier in [0, 7] {
        let rows: String = (1..=earlier).map(|n| format!("01120640 {n:02} 6/6/6 DRY/DRY/DRY\n")).collect();
        let front = "GG XQAAYNYX\n120645 XQAAYNYX\nSWXQ0007 XQAA 01120640\n(SNOWTAM 0007\nXQAA\n";
        for (end, start) in ROW_ENDS.iter().flat_map(|end| LINE_STARTS.map(|start| (end, start))) {
            for line_end in ["", "\n", "\r\n", "\n\n"] {
                let message = format!("{front}{rows}01120640 18 {end}{line_end}{start}\n");
                let expected = reader::read(message.as_bytes()).err().map_or(0, coarse);
                let told = fast::read(message.as_bytes(), &mut Record::BLANK.clone());
                if told != expected {
                    report.differ("a line's end", message.as_bytes(), &expected.to_string(), &told.to_string());
                }
                count += 1;
            }
        }
    }
    count
}

/// Whether nothing differed.
pub fn run(count: usize, seed: u64) -> bool {
    let mut rng = Rng::new(seed);
    let mut report = Report::new();
    let mut record = Record::BLANK;
    let mut altered = 0;
    let mut valid = 0;
    for _ in 0..count {
        if let Some(fits) = message(&mut rng, &mut report, &mut record) {
            altered += 1;
            valid += usize::from(fits);
        }
    }
    report.print_counts("messages");
    println!("records altered in one field: {altered}, {valid} of them valid still");
    let pairs = count / 4;
    let equal = (0..pairs).filter(|_| pair(&mut rng, &mut report)).count();
    println!("pairs: {pairs}, {equal} of them tell the same");
    println!("ends of rows before starts of lines: {}", line_ends(&mut report));
    println!("{count} messages, {} differences", report.differences());
    report.differences() == 0
}

#[cfg(test)]
mod tests {
    use compare::edges::Example;
    use compare::refused::Refused;

    #[test]
    fn the_second_reader_agrees() {
        assert!(super::run(4000, 1));
    }

    #[test]
    fn the_stored_messages_by_hand() {
        for Example { text, number, place } in compare::edges::by_hand() {
            let told = crate::fast::read(&text, &mut crate::fast::Record::BLANK.clone());
            assert_eq!(told, super::coarse(Refused::at(number, place)), "{}", text.escape_ascii());
        }
    }
}
