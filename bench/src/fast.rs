//! Notices read, written and compared with speed in mind: one pass over the bytes, no allocation, nothing unsafe.
//!
//! The record is the proved library's, field by field, so that both do the same work.
mod read;
mod valid;
mod write;

pub const LONGEST_MESSAGE: usize = 4096;

/// Every valid record's text is at most this long.
const LONGEST_TEXT: usize = 4096;

const INVALID: u8 = 13;
const TOO_SHORT: u8 = 14;

/// A third of a runway; 0 is NR but for the code.
#[derive(Clone, Copy, Debug, PartialEq, Eq)]
pub struct Third {
    pub code: u8,
    pub coverage: u8,
    pub depth: u16,
    /// 1 to 15 in the order of document 01's list.
    pub description: u8,
}

#[derive(Clone, Copy, Debug, PartialEq, Eq)]
pub struct Row {
    /// MMDDhhmm as a number.
    pub time: u32,
    pub number: u8,
    /// 0 none, 1 L, 2 C, 3 R.
    pub side: u8,
    pub thirds: [Third; 3],
    /// 0 is a missing one.
    pub width: u8,
}

#[derive(Clone, Copy, Debug, PartialEq, Eq)]
pub struct Item {
    /// I to P, and R.
    pub letter: u8,
    /// The runway of I, K, L, M and O.
    pub number: u8,
    pub side: u8,
    /// I: the length; M: the distance.
    pub amount: u16,
    /// M: 1 L, 2 R, 3 LR.
    pub edge: u8,
    /// N and P: how many taxiways; P with none is ALL TWY.
    pub count: u8,
    /// Three bytes for each.
    pub taxiways: [u8; 24],
    /// R: the apron's name; none is ALL APRON.
    pub name: [u8; 16],
}

#[derive(Clone, Copy, Debug, PartialEq, Eq)]
pub struct Addresses {
    /// 1 GG, 2 DD.
    pub priority: u8,
    pub count: u8,
    /// Eight for each.
    pub letters: [u8; 64],
}

#[derive(Clone, Copy, Debug, PartialEq, Eq)]
pub struct Filing {
    /// ddhhmm as a number.
    pub time: u32,
    pub originator: [u8; 8],
}

/// Line 3 without its time, which is the latest row's.
#[derive(Clone, Copy, Debug, PartialEq, Eq)]
pub struct Title {
    pub region: [u8; 2],
    pub serial: u16,
    pub aerodrome: [u8; 4],
}

#[derive(Clone, Copy, Debug, PartialEq, Eq)]
pub struct Rows {
    pub count: u8,
    pub rows: [Row; 8],
}

#[derive(Clone, Copy, Debug, PartialEq, Eq)]
pub struct Items {
    pub count: u8,
    pub items: [Item; 32],
}

#[derive(Clone, Copy, Debug, PartialEq, Eq)]
pub struct Language {
    pub length: u16,
    pub bytes: [u8; 400],
}

/// What a notice tells, with zeros past each count and in every field that is not used.
#[derive(Clone, Copy, Debug, PartialEq, Eq)]
pub struct Record {
    pub addresses: Addresses,
    pub filing: Filing,
    pub title: Title,
    pub rows: Rows,
    pub items: Items,
    pub language: Language,
}

impl Third {
    pub const BLANK: Third = Third { code: 0, coverage: 0, depth: 0, description: 0 };
}

impl Row {
    pub const BLANK: Row = Row { time: 0, number: 0, side: 0, thirds: [Third::BLANK; 3], width: 0 };

    /// Whether coverages and depths are left out.
    fn is_short(&self) -> bool {
        self.thirds.iter().all(|third| third.coverage == 0 && third.depth == 0)
            && (self.thirds.iter().all(|third| third.code == 6)
                || self.thirds.iter().all(|third| third.description == DRY))
    }
}

impl Item {
    pub const BLANK: Item =
        Item { letter: 0, number: 0, side: 0, amount: 0, edge: 0, count: 0, taxiways: [0; 24], name: [0; 16] };
}

impl Record {
    pub const BLANK: Record = Record {
        addresses: Addresses { priority: 0, count: 0, letters: [0; 64] },
        filing: Filing { time: 0, originator: [0; 8] },
        title: Title { region: [0; 2], serial: 0, aerodrome: [0; 4] },
        rows: Rows { count: 0, rows: [Row::BLANK; 8] },
        items: Items { count: 0, items: [Item::BLANK; 32] },
        language: Language { length: 0, bytes: [0; 400] },
    };

    /// What the counts say is used.
    fn rows(&self) -> &[Row] {
        &self.rows.rows[..usize::from(self.rows.count)]
    }

    fn items(&self) -> &[Item] {
        &self.items.items[..usize::from(self.items.count)]
    }

    fn language(&self) -> &[u8] {
        &self.language.bytes[..usize::from(self.language.length)]
    }

    fn addresses(&self) -> &[u8] {
        &self.addresses.letters[..8 * usize::from(self.addresses.count)]
    }

    /// Zeros past the counts, where an earlier record may have left something.
    fn clear_unused(&mut self) {
        self.addresses.letters[8 * usize::from(self.addresses.count)..].fill(0);
        self.rows.rows[usize::from(self.rows.count)..].fill(Row::BLANK);
        self.items.items[usize::from(self.items.count)..].fill(Item::BLANK);
        self.language.bytes[usize::from(self.language.length)..].fill(0);
    }

    /// Equality of valid records, which needs no look past the counts.
    fn tells_the_same(&self, other: &Record) -> bool {
        self.title == other.title
            && self.filing == other.filing
            && self.addresses.priority == other.addresses.priority
            && self.addresses() == other.addresses()
            && self.rows() == other.rows()
            && self.items() == other.items()
            && self.language() == other.language()
    }
}

/// The descriptions by number.
const NR: u8 = 0;
const COMPACTED_SNOW: u8 = 1;
const DRY_SNOW: u8 = 2;
const DRY_SNOW_ON_COMPACTED_SNOW: u8 = 3;
const DRY_SNOW_ON_ICE: u8 = 4;
const FROST: u8 = 5;
const ICE: u8 = 6;
const SLUSH: u8 = 7;
const STANDING_WATER: u8 = 8;
const WATER_ON_COMPACTED_SNOW: u8 = 9;
const WET: u8 = 10;
const WET_ICE: u8 = 11;
const WET_SNOW: u8 = 12;
const WET_SNOW_ON_COMPACTED_SNOW: u8 = 13;
const WET_SNOW_ON_ICE: u8 = 14;
const DRY: u8 = 15;

/// Reads a message: 0 and its record, or the refusal (1 to 12) and the blank record.
#[inline(never)]
pub fn read(message: &[u8], record: &mut Record) -> u8 {
    match read::notice(message, record) {
        Ok(()) => {
            record.clear_unused();
            0
        }
        Err(refusal) => {
            *record = Record::BLANK;
            refusal
        }
    }
}

/// Writes a record's text: 0 and its length, or 13, or 14. A refusal touches no byte.
#[inline(never)]
pub fn write(record: &Record, out: &mut [u8]) -> (u8, usize) {
    if record.is_valid() {
        written(record, out)
    } else {
        (INVALID, 0)
    }
}

/// The canonical text of a message, or its refusal. What was just read is valid, and not judged again.
#[inline(never)]
pub fn canonical(message: &[u8], out: &mut [u8]) -> (u8, usize) {
    let mut record = Record::BLANK;
    match read::notice(message, &mut record) {
        Ok(()) => written(&record, out),
        Err(refusal) => (refusal, 0),
    }
}

/// Whether both messages are accepted and tell the same.
#[inline(never)]
pub fn same(one: &[u8], other: &[u8]) -> bool {
    let mut first = Record::BLANK;
    if read::notice(one, &mut first).is_err() {
        return false;
    }
    let mut second = Record::BLANK;
    read::notice(other, &mut second).is_ok() && first.tells_the_same(&second)
}

/// Writes a valid record. A buffer that takes the longest text takes this one; any other is tried beside it.
fn written(record: &Record, out: &mut [u8]) -> (u8, usize) {
    if let Some(out) = out.get_mut(..LONGEST_TEXT).and_then(|out| out.try_into().ok()) {
        return (0, write::notice(record, out));
    }
    let mut text = [0; LONGEST_TEXT];
    let length = write::notice(record, &mut text);
    match out.get_mut(..length) {
        Some(place) => {
            place.copy_from_slice(&text[..length]);
            (0, length)
        }
        None => (TOO_SHORT, 0),
    }
}
