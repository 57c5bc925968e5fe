//! Messages that something was done to.
use super::records::{item, item_count, items, plain, record, record_of, row_count, time, word};
use super::rows::{damaged_row, DamagedRow};
use super::typing::Draft;
use super::{Rng, Sample};
use crate::items::{Item, MOST_ITEMS, MOST_PLAIN};
use crate::reader::{Record, LONGEST_MESSAGE, MOST_ADDRESSES};
use crate::row::{Row, Runway, DRY, DRY_SNOW, DRY_SNOW_ON_ICE, FROST, ICE, NR, SLUSH, STANDING_WATER, WET, WET_SNOW};

/// What is done to a message, named by the place it is done at.
#[derive(Clone, Copy, PartialEq, Eq)]
enum Damage {
    AnyBytes,
    HeadBound,
    RowBound,
    ItemBound,
    AddressingByte,
    HeadingByte,
    OpeningByte,
    HeadGroup,
    RowGroup,
    RowGroups,
    LeftOut,
    ItemGroup,
    Lines,
    NinthRow,
    RunwayTwice,
    Serial,
    Aerodrome,
    Time,
    Close,
    Spacing,
    AfterTheEnd,
    Items,
    ItemSpacing,
    Plain,
    TooLong,
    SeveralAtOnce,
    LinesAndClose,
    Cut,
}

const DAMAGES: [Damage; 35] = [
    Damage::AnyBytes,
    Damage::HeadBound,
    Damage::RowBound,
    Damage::RowBound,
    Damage::ItemBound,
    Damage::ItemBound,
    Damage::AddressingByte,
    Damage::HeadingByte,
    Damage::OpeningByte,
    Damage::HeadGroup,
    Damage::RowGroup,
    Damage::RowGroups,
    Damage::RowGroups,
    Damage::RowGroups,
    Damage::RowGroups,
    Damage::LeftOut,
    Damage::ItemGroup,
    Damage::Lines,
    Damage::NinthRow,
    Damage::RunwayTwice,
    Damage::Serial,
    Damage::Aerodrome,
    Damage::Time,
    Damage::Time,
    Damage::Time,
    Damage::Close,
    Damage::Spacing,
    Damage::AfterTheEnd,
    Damage::Items,
    Damage::ItemSpacing,
    Damage::Plain,
    Damage::TooLong,
    Damage::SeveralAtOnce,
    Damage::LinesAndClose,
    Damage::Cut,
];

/// A message that something was done to; it may still be a good one.
pub fn damaged(rng: &mut Rng) -> Sample {
    let damage = rng.pick(&DAMAGES);
    let record = damaged_record(rng, damage);
    let mut draft = Draft::typed(rng, &record);
    let of_row = damage_lines(rng, damage, &record, &mut draft);
    let mut message = if damage == Damage::TooLong {
        let length = rng.pick(&[4097, 4097, 4098, 5000, 9000]);
        draft.stretched(rng, length)
    } else {
        draft.ended(rng)
    };
    match damage {
        Damage::AnyBytes => {
            for _ in 0..rng.between(1, 3) {
                with_byte_damage(rng, &mut message);
            }
        }
        Damage::Cut => message.truncate(rng.below(message.len() + 1)),
        _ => {}
    }
    let number = match damage {
        _ if message.len() > LONGEST_MESSAGE => Some(1),
        Damage::NinthRow => Some(6),
        Damage::RunwayTwice => Some(7),
        Damage::Items if record.items.len() > MOST_ITEMS => Some(8),
        Damage::Serial => Some(10),
        Damage::Aerodrome => Some(11),
        _ => of_row,
    };
    Sample { message, record: None, number }
}

/// A record in which the damage finds what it needs, or which is damaged itself.
fn damaged_record(rng: &mut Rng, damage: Damage) -> Record {
    let mut record = record(rng);
    match damage {
        Damage::ItemGroup | Damage::ItemSpacing | Damage::ItemBound | Damage::Items if record.items.is_empty() => {
            let count = item_count(rng);
            record.items = items(rng, count);
        }
        Damage::HeadBound => with_head_bound(rng, &mut record),
        Damage::RowBound => {
            let place = rng.below(record.rows.len());
            with_row_bound(rng, &mut record.rows[place]);
        }
        Damage::NinthRow => record = record_of(rng, 9, 0, false),
        Damage::RunwayTwice => {
            let (rows, with_plain) = (row_count(rng).max(2), rng.chance(50));
            record = record_of(rng, rows, 0, with_plain);
            let (place, last) = (rng.below(rows - 1), rows - 1);
            record.rows[last].runway = record.rows[place].runway;
        }
        // Of one row the time is the latest in any order.
        Damage::Time if rng.chance(70) => {
            let (rows, with_plain) = (row_count(rng).max(2), rng.chance(50));
            record = record_of(rng, rows, 0, with_plain);
        }
        Damage::Plain => record.plain = bad_plain(rng),
        _ => {}
    }
    match damage {
        Damage::Items => with_item_damage(rng, &mut record),
        Damage::ItemBound => {
            let place = rng.below(record.items.len());
            with_item_bound(rng, &mut record.items[place]);
        }
        _ => {}
    }
    record
}

/// A field of lines 1 to 5 at its bound or right behind it.
fn with_head_bound(rng: &mut Rng, record: &mut Record) {
    match rng.below(3) {
        0 => record.filed = rng.pick(&[0, 10_000, 312_359, 320_000, 12_400, 10_060, 990_000]),
        1 => {
            let count = rng.pick(&[0, 1, MOST_ADDRESSES, MOST_ADDRESSES + 1, MOST_ADDRESSES + 2]);
            record.addresses = (0..count).map(|_| word(rng)).collect();
        }
        _ => record.serial = rng.pick(&[0, 1, 999, 9999, 10_000]),
    }
}

/// A field of a row at its bound or right behind it, the rest being as it was.
pub fn with_row_bound(rng: &mut Rng, row: &mut Row) {
    let third = &mut row.thirds[rng.below(3)];
    match rng.below(9) {
        0 => row.time = rng.pick(&BOUND_TIMES),
        1 => row.runway.number = rng.pick(&[0, 1, 18, 19, 36, 99]),
        2 => row.width = rng.pick(&[0, 1, 99, 100, 101]),
        3 => third.code = rng.pick(&[0, 6, 7, 10]),
        4 => third.coverage = rng.pick(&[1, 10, 20, 25, 26, 30, 75, 100, 101]),
        5 => {
            // A coverage or a depth under a kind that takes none, or not this one.
            third.description = rng.pick(&[NR, DRY, WET, FROST, ICE]);
            if rng.chance(50) {
                third.coverage = rng.pick(&[25, 50, 75, 100]);
            } else {
                third.depth = rng.pick(&[3, 4, 100]);
            }
        }
        _ => {
            third.description = rng.pick(&[STANDING_WATER, SLUSH, WET_SNOW, DRY_SNOW, STANDING_WATER, DRY_SNOW_ON_ICE]);
            third.depth = rng.pick(&[1, 2, 3, 4, 5, 99, 100, 999, 1000]);
        }
    }
}

/// A row without its coverages, its depths or both, whether it is a short one or not.
fn with_group_left_out(rng: &mut Rng, row: &Row) -> Vec<u8> {
    let text = row.full_text();
    // Of the groups, the coverages are the fourth and the depths the fifth.
    let (first, end) = rng.pick(&[(3, 4), (4, 5), (3, 5), (3, 5)]);
    let groups = text.split(' ').enumerate().filter(|(place, _)| !(first..end).contains(place));
    groups.map(|(_, group)| group).collect::<Vec<_>>().join(" ").into_bytes()
}

/// A field of an item at its bound or right behind it.
fn with_item_bound(rng: &mut Rng, item: &mut Item) {
    let bound = Runway { number: rng.pick(&[0, 1, 18, 19, 36, 37]), side: rng.below(4) as u8 };
    let on_runway = rng.chance(50);
    match item {
        Item::Reduced { length, .. } if !on_runway => *length = rng.pick(&[0, 9, 99, 100, 101, 9999, 10_000]),
        Item::Snowbank { distance, .. } if !on_runway => *distance = rng.pick(&[0, 1, 99, 100]),
        Item::Reduced { runway, .. }
        | Item::LooseSand { runway }
        | Item::Treated { runway }
        | Item::Snowbank { runway, .. }
        | Item::AdjacentSnowbank { runway } => *runway = bound,
        Item::TaxiwaySnowbanks { taxiways } | Item::PoorTaxiways { taxiways: Some(taxiways) } => {
            let other = rng.pick(&[&b"1"[..], b"1A", b"ABCD", b"Z999", b"ALL", b"POOR", b"A-", b"a", b""]);
            match rng.below(3) {
                0 => taxiways.push(other.to_vec()),
                1 => taxiways.push(taxiways[0].clone()),
                _ => *taxiways = (0..rng.pick(&[0, 1, 8, 9, 10])).map(|name: u8| vec![b'A' + name]).collect(),
            }
        }
        Item::PoorApron { name } => {
            let length = rng.pick(&[0, 1, 15, 16, 17, 18]);
            *name = Some(vec![b'A'; length]);
        }
        Item::DriftingSnow | Item::PoorTaxiways { taxiways: None } => {
            *item = Item::Reduced { runway: bound, length: rng.pick(&[99, 100, 9999, 10_000]) };
        }
    }
}

/// Damages the lines of a message; the number of a damaged row, if that leaves no doubt.
fn damage_lines(rng: &mut Rng, damage: Damage, record: &Record, draft: &mut Draft) -> Option<u8> {
    let row_line = 5 + rng.below(draft.rows);
    let awareness = draft.awareness();
    let loose = draft.loose();
    let lines = &mut draft.lines;
    let other_serial = format!("{:04}", record.serial % 9999 + 1);
    match damage {
        Damage::AddressingByte => {
            let line = rng.below(2);
            with_byte_damage(rng, &mut lines[line]);
        }
        Damage::HeadingByte => with_byte_damage(rng, &mut lines[2]),
        Damage::OpeningByte => {
            let line = 3 + rng.below(2);
            with_byte_damage(rng, &mut lines[line]);
        }
        Damage::HeadGroup => {
            let line = &mut lines[rng.below(5)];
            *line = with_neighbour(rng, line);
        }
        Damage::RowGroup => lines[row_line] = with_neighbour(rng, &lines[row_line]),
        Damage::RowGroups => {
            let closed = lines[row_line].ends_with(b")");
            let DamagedRow { text, number } = damaged_row(rng, &record.rows[row_line - 5]);
            lines[row_line] = text;
            lines[row_line].extend(closed.then_some(b')'));
            return number;
        }
        Damage::LeftOut => {
            let closed = lines[row_line].ends_with(b")");
            lines[row_line] = with_group_left_out(rng, &record.rows[row_line - 5]);
            lines[row_line].extend(closed.then_some(b')'));
        }
        Damage::ItemGroup => {
            if let Some(line) = awareness {
                lines[line] = with_neighbour(rng, &lines[line]);
            }
        }
        Damage::Lines => with_line_damage(rng, lines),
        Damage::Serial => with_other_end(&mut lines[3], &other_serial),
        Damage::Aerodrome => {
            let byte = &mut lines[4][rng.below(4)];
            *byte = if *byte == b'Z' { b'Y' } else { b'Z' };
        }
        Damage::Time => {
            // Mostly the one that would be the latest, were times compared by their digits.
            let by_digits = record.rows.iter().map(|row| row.time).max().unwrap_or(0);
            let other = match rng.below(7) {
                0 => time(rng),
                1 => record.rows[0].time,
                2 => record.latest() ^ 1,
                _ => by_digits,
            };
            with_other_end(&mut lines[2], &format!("{other:08}"));
        }
        Damage::Close => with_odd_close(rng, lines),
        Damage::Spacing => {
            let line = rng.below(loose);
            with_spacing_damage(rng, &mut lines[line]);
        }
        Damage::AfterTheEnd => lines.push(rng.pick(&[&b""[..], b" ", b")", b"\r", b"A", b"NNNN"]).to_vec()),
        Damage::ItemSpacing => {
            if let Some(line) = awareness {
                with_spacing_damage(rng, &mut lines[line]);
            }
        }
        Damage::Plain if record.plain.is_empty() => {
            // An empty plain-language line, closed or not.
            lines.push(if rng.chance(50) { b")".to_vec() } else { Vec::new() });
        }
        Damage::SeveralAtOnce => {
            // So that the order of the numbers shows.
            with_other_end(&mut lines[3], &other_serial);
            lines[4] = b"QQQQ".to_vec();
            if rng.chance(50) {
                lines.push(Vec::new());
            }
            if rng.chance(50) {
                lines[row_line] = with_neighbour(rng, &lines[row_line]);
            }
        }
        Damage::LinesAndClose => {
            with_line_damage(rng, lines);
            with_odd_close(rng, lines);
        }
        _ => {}
    }
    None
}

/// As many bytes at a line's end for others; the spaces before them stay.
fn with_other_end(line: &mut Vec<u8>, end: &str) {
    line.truncate(line.len() - end.len());
    line.extend_from_slice(end.as_bytes());
}

const BOUND_TIMES: [u32; 16] = [
    2_290_000, 2_300_000, 4_300_000, 4_310_000, 6_302_359, 6_310_000, 7_010_000, 9_310_000, 11_310_000, 12_312_359,
    12_312_400, 1_010_060, 10_000, 1_000_000, 13_010_000, 1_320_000,
];
/// Groups right at and right behind the bounds of document 01.
const TIMES: [&str; 19] = [
    "02290000", "02300000", "04300000", "04310000", "06302359", "07010000", "12312359", "12312400", "01010000",
    "01010060", "00010000", "01000000", "13010000", "01320000", "1120640", "001120640", "0112064A", "010000", "320000",
];
const NUMBERS: [&str; 18] = [
    "00", "01", "02", "03", "04", "18", "19", "36", "37", "99", "099", "100", "999", "1000", "9999", "10000", "0100",
    "5",
];
const RUNWAYS: [&str; 14] = ["00", "01", "18", "19", "36", "37", "07L", "18C", "01R", "7", "7L", "07l", "07LR", "L07"];
const PARTS: [&str; 26] = [
    "NR", "0", "5", "6", "7", "10", "25", "30", "50", "75", "100", "02", "03", "04", "99", "099", "999", "1000", "00",
    "", "DRY", "WET", "SLUSH", "FROST", "ICES", "NR ",
];
const WORDS: [&str; 20] = [
    "POOR", "SNOWBANK", "SNOWBANKS", "TWY", "RWY", "ALL", "APRON", "SNOW", "SONW", "DRIFTING", "ADJ", "L00", "LR99",
    "R100", "RL10", "A1B", "ABCD", "1A", "GG", "XQAAYNYX",
];

/// A group like the one given, often right at a bound.
fn neighbour(rng: &mut Rng, group: &[u8]) -> Vec<u8> {
    let digits = group.iter().all(u8::is_ascii_digit);
    if rng.chance(15) {
        return with_zero(rng, group);
    }
    let choices: &[&str] = if group.contains(&b'/') {
        let mut parts: Vec<Vec<u8>> = group.split(|&byte| byte == b'/').map(<[u8]>::to_vec).collect();
        let place = rng.below(parts.len());
        parts[place] = rng.pick(&PARTS).as_bytes().to_vec();
        if rng.chance(10) {
            parts.push(b"NR".to_vec());
        }
        return parts.join(&b'/');
    } else if digits && group.len() >= 6 {
        &TIMES
    } else if group.starts_with(b"SW") && group.len() == 8 {
        &["SWXQ0000", "SWXQ0001", "SWXQ9999", "SWXQ007", "SWXQ00007", "SW0007", "SX000007", "SWX70007"]
    } else if digits && group.len() == 4 {
        &["0000", "0001", "9999", "00001", "007", "099", "100", "0999", "10000", "000A"]
    } else if digits && group.len() == 3 {
        &["99", "099", "100", "999", "1000", "0999"]
    } else if digits {
        &NUMBERS
    } else if group.len() == 3 && group[..2].iter().all(u8::is_ascii_digit) {
        &RUNWAYS
    } else {
        &WORDS
    };
    rng.pick(choices).as_bytes().to_vec()
}

/// A zero put before one of the numbers in a group, or taken away.
fn with_zero(rng: &mut Rng, group: &[u8]) -> Vec<u8> {
    let mut text = group.to_vec();
    let starts: Vec<usize> = (0..text.len())
        .filter(|&place| text[place].is_ascii_digit() && (place == 0 || !text[place - 1].is_ascii_digit()))
        .collect();
    if !starts.is_empty() {
        let place = rng.pick(&starts);
        if text[place] == b'0' && rng.chance(50) {
            text.remove(place);
        } else {
            text.insert(place, b'0');
        }
    }
    text
}

/// One group of a line for a neighbour; the `)` of a closing line stays.
pub fn with_neighbour(rng: &mut Rng, line: &[u8]) -> Vec<u8> {
    let (text, close) = match line.strip_suffix(b")") {
        Some(text) => (text, &b")"[..]),
        None => (line, &b""[..]),
    };
    let mut groups: Vec<Vec<u8>> = text.split(|&byte| byte == b' ').map(<[u8]>::to_vec).collect();
    let place = rng.below(groups.len());
    let stop = groups[place].ends_with(b".");
    groups[place] = neighbour(rng, groups[place].strip_suffix(b".").unwrap_or(&groups[place]));
    if stop {
        groups[place].push(b'.');
    }
    [&groups.join(&b' ')[..], close].concat()
}

/// One byte changed, inserted, doubled, deleted, or two swapped.
pub fn with_byte_damage(rng: &mut Rng, text: &mut Vec<u8>) {
    let byte = if rng.chance(85) { rng.pick(b" /0123456789ANRLCDYWSTE.)(\t\r\n") } else { rng.below(256) as u8 };
    if text.is_empty() {
        text.push(byte);
        return;
    }
    let place = rng.below(text.len());
    match rng.below(5) {
        0 => text[place] = byte,
        1 => text.insert(place, byte),
        2 => text.insert(place, text[place]),
        3 => {
            text.remove(place);
        }
        _ => {
            let other = (place + 1).min(text.len() - 1);
            text.swap(place, other);
        }
    }
}

/// Lines swapped, dropped, doubled, or an empty or blank one put in.
fn with_line_damage(rng: &mut Rng, lines: &mut Vec<Vec<u8>>) {
    let place = rng.below(lines.len());
    match rng.below(6) {
        0 => {
            let other = rng.below(lines.len());
            lines.swap(place, other);
        }
        1 => {
            lines.remove(place);
        }
        2 => lines.insert(place, lines[place].clone()),
        3 => lines.insert(place, Vec::new()),
        4 => lines.insert(place, rng.pick(&[&b" "[..], b"\r", b")", b"))", b"  ", b"\t"]).to_vec()),
        _ => lines.truncate(place + 1),
    }
}

/// A `)` where it does not close, or none where it should.
fn with_odd_close(rng: &mut Rng, lines: &mut [Vec<u8>]) {
    let place = rng.below(lines.len());
    let last = lines.len() - 1;
    match rng.below(6) {
        0 => {
            lines[last].pop();
        }
        1 => lines[place].push(b')'),
        2 => {
            let at = rng.below(lines[place].len() + 1);
            lines[place].insert(at, b')');
        }
        3 => {
            let at = lines[last].len().saturating_sub(1);
            lines[last].insert(at, b' ');
        }
        4 => lines[last].push(b' '),
        _ => lines[last] = b")".to_vec(),
    }
}

/// An awareness line that breaks a rule of the whole line or of its full stops.
fn with_item_damage(rng: &mut Rng, record: &mut Record) {
    let place = rng.below(record.items.len());
    match rng.below(5) {
        0 => record.items.push(record.items[place].clone()),
        1 => record.items.reverse(),
        2 => {
            record.items.insert(0, Item::PoorApron { name: None });
        }
        3 => {
            let letter = rng.pick(b"IJKLMNOPR");
            let other = item(rng, letter);
            record.items.insert(place, other);
        }
        _ => {
            let count = rng.pick(&[33, 33, 34, 40]);
            record.items = items(rng, count);
        }
    }
}

fn with_spacing_damage(rng: &mut Rng, line: &mut Vec<u8>) {
    let stops: Vec<usize> = (0..line.len()).filter(|&place| b"./".contains(&line[place])).collect();
    if stops.is_empty() || rng.chance(20) {
        let place = rng.pick(&[0, line.len()]);
        line.insert(place, rng.pick(b" \t\r"));
    } else {
        let place = rng.pick(&stops) + rng.below(2);
        line.insert(place, rng.pick(b"  \t./"));
    }
}

/// Plain language that is not, closed or not.
fn bad_plain(rng: &mut Rng) -> Vec<u8> {
    let mut text = plain(rng);
    match rng.below(8) {
        0 => text = [vec![b'A'; MOST_PLAIN], vec![b'.']].concat(),
        1 => text.insert(0, b' '),
        2 => {
            text.pop();
        }
        3 => text = vec![rng.pick(b".A ")],
        4 => {
            let place = rng.below(text.len());
            text[place] = rng.pick(b")(;'!*@[\r\tazZ_=?\x00\xff");
        }
        5 => text.push(b' '),
        6 => text = Vec::new(),
        _ => {
            let place = rng.below(text.len());
            text.insert(place, rng.pick(b")\rb"));
        }
    }
    text
}
