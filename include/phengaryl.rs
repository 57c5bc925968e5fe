//! The proved library from Rust: what include/phengaryl.h declares, and the same without pointers.
//!
//! A program takes this file in as a module and links the library:
//!
//!     #[path = "../include/phengaryl.rs"]
//!     mod phengaryl;
//!
//!     rustc --edition 2021 -L native=target/staticlib -l static=phengaryl main.rs
//!
//! The structs and their fields are explained in the header. 0 stands for none or not reported everywhere, and `default()` is all zeros.
//! The functions answer as in C. The methods answer `Ok`, or `Err` with the number of the refusal, and make their buffers themselves. Those that
//! read a text answer `Err` with the place too.
//! include/check.sh tells whether this file and the library's sources declare the same.
#![allow(dead_code)]

/// A longer message is refused (1), and the canonical text of an accepted one is never longer.
pub const LONGEST_TEXT: usize = 4096;

/// No listing is longer.
pub const LONGEST_LISTING: usize = 4113;

/// No row's text is longer.
pub const LONGEST_ROW: usize = 147;

/// No radio record is longer.
pub const LONGEST_RADIO: usize = 161;

/// What the desk prints for an input of so many bytes is never longer.
pub const fn longest_desk(input_length: usize) -> usize {
    3 * input_length + 1186
}

/// Refusal numbers; 0 means accepted, taken or written.
pub mod refusal {
    pub const TAKEN: u8 = 0;
    pub const TOO_LONG: u8 = 1;
    pub const LINE_1_OR_2: u8 = 2;
    pub const LINE_3: u8 = 3;
    pub const OUTLINE: u8 = 4;
    pub const NO_ROW: u8 = 5;
    pub const NINTH_ROW: u8 = 6;
    pub const RUNWAY_TWICE: u8 = 7;
    pub const WRONG_ITEMS: u8 = 8;
    pub const WRONG_LANGUAGE: u8 = 9;
    pub const SERIALS_DIFFER: u8 = 10;
    pub const AERODROMES_DIFFER: u8 = 11;
    pub const NOT_LATEST_TIME: u8 = 12;
    pub const INVALID_RECORD: u8 = 13;
    pub const BUFFER_TOO_SHORT: u8 = 14;
    pub const OUT_OF_RANGE: u8 = 15;
    pub const CONTRADICTION: u8 = 16;
    pub const WRONG_BOARD: u8 = 17;
    pub const NOT_ON_BOARD: u8 = 18;
    pub const INVALID_ROW: u8 = 19;
    pub const NOT_LATER: u8 = 20;
    pub const NO_REPORT: u8 = 21;
    pub const OTHERS_RUNWAY: u8 = 22;
    pub const NO_DESK: u8 = 23;
    pub const WRONG_RUNWAY: u8 = 24;
    pub const WRONG_CODES: u8 = 25;
    pub const WRONG_COVERAGE_OR_DEPTH: u8 = 26;
    pub const WRONG_DESCRIPTIONS: u8 = 27;
    pub const WRONG_WIDTH: u8 = 28;
    pub const RUNWAYS_DIFFER: u8 = 29;
    pub const RECORD_CUT_SHORT: u8 = 30;
    pub const NUMBER_FORM: u8 = 31;
    pub const RADIO_VALUE: u8 = 32;
}

/// The fifteen descriptions of a surface; 0 stands for NR.
pub mod description {
    pub const NR: u8 = 0;
    pub const COMPACTED_SNOW: u8 = 1;
    pub const DRY_SNOW: u8 = 2;
    pub const DRY_SNOW_ON_TOP_OF_COMPACTED_SNOW: u8 = 3;
    pub const DRY_SNOW_ON_TOP_OF_ICE: u8 = 4;
    pub const FROST: u8 = 5;
    pub const ICE: u8 = 6;
    pub const SLUSH: u8 = 7;
    pub const STANDING_WATER: u8 = 8;
    pub const WATER_ON_TOP_OF_COMPACTED_SNOW: u8 = 9;
    pub const WET: u8 = 10;
    pub const WET_ICE: u8 = 11;
    pub const WET_SNOW: u8 = 12;
    pub const WET_SNOW_ON_TOP_OF_COMPACTED_SNOW: u8 = 13;
    pub const WET_SNOW_ON_TOP_OF_ICE: u8 = 14;
    pub const DRY: u8 = 15;
}

// ---- Surfaces and rows

#[repr(C)]
#[derive(Clone, Copy, Debug, Default, PartialEq, Eq)]
pub struct Third {
    pub code: u8,
    pub coverage: u8,
    pub depth: u16,
    pub description: u8,
}

#[repr(C)]
#[derive(Clone, Copy, Debug, Default, PartialEq, Eq)]
pub struct Observation {
    pub kind: u32,
    pub cover: u32,
    pub depth: u32,
    pub temperature: i32,
    pub slippery: bool,
}

#[repr(C)]
#[derive(Clone, Copy, Debug, Default, PartialEq, Eq)]
pub struct Assessment {
    pub refusal: u8,
    pub third: Third,
}

#[repr(C)]
#[derive(Clone, Copy, Debug, Default, PartialEq, Eq)]
pub struct Row {
    pub time: u32,
    pub number: u8,
    pub side: u8,
    pub thirds: [Third; 3],
    pub width: u8,
}

#[repr(C)]
#[derive(Clone, Copy, Debug, Default, PartialEq, Eq)]
pub struct RowRead {
    pub refusal: u8,
    pub place: usize,
    pub row: Row,
}

#[repr(C)]
#[derive(Clone, Copy, Debug, Default, PartialEq, Eq)]
pub struct Agreement {
    pub refusal: u8,
    pub count: u8,
}

#[repr(C)]
#[derive(Clone, Copy, Debug, Default, PartialEq, Eq)]
pub struct Change {
    pub refusal: u8,
    pub counts: [bool; 3],
    pub due: bool,
}

// ---- The notice

#[repr(C)]
#[derive(Clone, Copy, Debug, PartialEq, Eq)]
pub struct Addresses {
    pub priority: u8,
    pub count: u8,
    pub letters: [u8; 64],
}

// The standard library has zeros for short arrays only.
impl Default for Addresses {
    fn default() -> Self {
        Addresses { priority: 0, count: 0, letters: [0; 64] }
    }
}

#[repr(C)]
#[derive(Clone, Copy, Debug, Default, PartialEq, Eq)]
pub struct Filing {
    pub time: u32,
    pub originator: [u8; 8],
}

#[repr(C)]
#[derive(Clone, Copy, Debug, Default, PartialEq, Eq)]
pub struct Title {
    pub region: [u8; 2],
    pub serial: u16,
    pub aerodrome: [u8; 4],
}

#[repr(C)]
#[derive(Clone, Copy, Debug, Default, PartialEq, Eq)]
pub struct Rows {
    pub count: u8,
    pub rows: [Row; 8],
}

#[repr(C)]
#[derive(Clone, Copy, Debug, Default, PartialEq, Eq)]
pub struct Item {
    pub amount: u16,
    pub letter: u8,
    pub number: u8,
    pub side: u8,
    pub edge: u8,
    pub count: u8,
    pub taxiways: [u8; 24],
    pub name: [u8; 16],
}

#[repr(C)]
#[derive(Clone, Copy, Debug, Default, PartialEq, Eq)]
pub struct Items {
    pub count: u8,
    pub items: [Item; 32],
}

#[repr(C)]
#[derive(Clone, Copy, Debug, PartialEq, Eq)]
pub struct Language {
    pub length: u16,
    pub bytes: [u8; 400],
}

impl Default for Language {
    fn default() -> Self {
        Language { length: 0, bytes: [0; 400] }
    }
}

#[repr(C)]
#[derive(Clone, Copy, Debug, Default, PartialEq, Eq)]
pub struct Record {
    pub addresses: Addresses,
    pub filing: Filing,
    pub title: Title,
    pub rows: Rows,
    pub items: Items,
    pub language: Language,
}

#[repr(C)]
#[derive(Clone, Copy, Debug, Default, PartialEq, Eq)]
pub struct Reading {
    pub refusal: u8,
    pub place: usize,
    pub record: Record,
}

#[repr(C)]
#[derive(Clone, Copy, Debug, Default, PartialEq, Eq)]
pub struct Written {
    pub refusal: u8,
    pub length: usize,
}

// ---- The radio record

#[repr(C)]
#[derive(Clone, Copy, Debug, Default, PartialEq, Eq)]
pub struct Radio {
    pub refusal: u8,
    pub rows: Rows,
}

// ---- The board

#[repr(C)]
#[derive(Clone, Copy, Debug, Default, PartialEq, Eq)]
pub struct Runway {
    pub number: u8,
    pub side: u8,
}

#[repr(C)]
#[derive(Clone, Copy, Debug, Default, PartialEq, Eq)]
pub struct RunwayList {
    pub count: u8,
    pub runways: [Runway; 8],
    pub owners: [u8; 8],
}

#[repr(C)]
#[derive(Clone, Copy, Debug, Default, PartialEq, Eq)]
pub struct Board {
    pub aerodrome: [u8; 4],
    pub count: u8,
    pub runways: [Runway; 8],
    pub owners: [u8; 8],
    pub latest: u32,
    pub rows: [Row; 8],
}

#[repr(C)]
#[derive(Clone, Copy, Debug, Default, PartialEq, Eq)]
pub struct Answer {
    pub refusal: u8,
    pub board: Board,
}

#[repr(C)]
#[derive(Clone, Copy, Debug, Default, PartialEq, Eq)]
pub struct Details {
    pub addresses: Addresses,
    pub filing: Filing,
    pub region: [u8; 2],
    pub serial: u16,
}

// ---- The functions, as in C

mod library {
    use super::*;

    extern "C" {
        pub fn phengaryl_read(message: *const u8, length: usize) -> Reading;
        pub fn phengaryl_write(record: Record, out: *mut u8, size: usize) -> Written;
        pub fn phengaryl_rewrite(message: *const u8, length: usize, out: *mut u8, size: usize) -> Written;
        pub fn phengaryl_same(one: *const u8, one_length: usize, other: *const u8, other_length: usize) -> bool;
        pub fn phengaryl_list(message: *const u8, length: usize, out: *mut u8, size: usize) -> usize;
        pub fn phengaryl_assess(observation: Observation) -> Assessment;
        pub fn phengaryl_disagreeing(row: Row) -> Agreement;
        pub fn phengaryl_due(old_row: Row, new_row: Row) -> Change;
        pub fn phengaryl_read_row(text: *const u8, length: usize) -> RowRead;
        pub fn phengaryl_write_row(row: Row, out: *mut u8, size: usize) -> usize;
        pub fn phengaryl_radio_write(rows: Rows, out: *mut u8, size: usize) -> Written;
        pub fn phengaryl_radio_read(record: *const u8, length: usize) -> Radio;
        pub fn phengaryl_open(aerodrome: *const u8, list: RunwayList) -> Answer;
        pub fn phengaryl_report(board: Board, desk: u32, row: Row) -> Answer;
        pub fn phengaryl_valid_board(board: Board) -> bool;
        pub fn phengaryl_write_board(
            board: Board,
            details: Details,
            items: Items,
            language: Language,
            out: *mut u8,
            size: usize,
        ) -> Written;
        pub fn phengaryl_desk(input: *const u8, length: usize, out: *mut u8, size: usize) -> usize;
        pub fn phengaryl_board_notice(
            desk: *const u8,
            desk_length: usize,
            model: *const u8,
            model_length: usize,
            out: *mut u8,
            size: usize,
            filled: *mut usize,
        ) -> u8;
    }
}

/// Reads a message.
pub fn read(message: &[u8]) -> Reading {
    // A slice points to as many bytes as it is long, and is never null.
    unsafe { library::phengaryl_read(message.as_ptr(), message.len()) }
}

/// Writes a record as a message in canonical form.
pub fn write(record: &Record, out: &mut [u8]) -> Written {
    // The slice is borrowed for writing, so nothing else overlaps it.
    unsafe { library::phengaryl_write(*record, out.as_mut_ptr(), out.len()) }
}

/// Writes an accepted message anew in canonical form.
pub fn rewrite(message: &[u8], out: &mut [u8]) -> Written {
    // One slice is read and the other is borrowed for writing, so they do not overlap.
    unsafe { library::phengaryl_rewrite(message.as_ptr(), message.len(), out.as_mut_ptr(), out.len()) }
}

/// Whether two messages are accepted and tell the same.
pub fn same(one: &[u8], other: &[u8]) -> bool {
    // Both slices are only read, so they may even be one.
    unsafe { library::phengaryl_same(one.as_ptr(), one.len(), other.as_ptr(), other.len()) }
}

/// Puts what the lister prints of a message as far as there is room, and answers how many bytes it has.
pub fn list(message: &[u8], out: &mut [u8]) -> usize {
    // One slice is read and the other is borrowed for writing, so they do not overlap.
    unsafe { library::phengaryl_list(message.as_ptr(), message.len(), out.as_mut_ptr(), out.len()) }
}

/// Assesses an observation.
pub fn assess(observation: Observation) -> Assessment {
    // Only values are handed over.
    unsafe { library::phengaryl_assess(observation) }
}

/// Counts the thirds of a row whose code is not one that Table 1 allows.
pub fn disagreeing(row: &Row) -> Agreement {
    // Only values are handed over.
    unsafe { library::phengaryl_disagreeing(*row) }
}

/// Tells which thirds of a new row count, and whether a new notice is due.
pub fn due(old_row: &Row, new_row: &Row) -> Change {
    // Only values are handed over.
    unsafe { library::phengaryl_due(*old_row, *new_row) }
}

/// Reads the text of a row, without its line end.
pub fn read_row(text: &[u8]) -> RowRead {
    // A slice points to as many bytes as it is long, and is never null.
    unsafe { library::phengaryl_read_row(text.as_ptr(), text.len()) }
}

/// Writes a row in canonical form and answers how many bytes were filled; 0 where the row is not valid or there is no room.
pub fn write_row(row: &Row, out: &mut [u8]) -> usize {
    // The slice is borrowed for writing, so nothing else overlaps it.
    unsafe { library::phengaryl_write_row(*row, out.as_mut_ptr(), out.len()) }
}

/// Writes rows as a radio record.
pub fn radio_write(rows: &Rows, out: &mut [u8]) -> Written {
    // The slice is borrowed for writing, so nothing else overlaps it.
    unsafe { library::phengaryl_radio_write(*rows, out.as_mut_ptr(), out.len()) }
}

/// Reads a radio record.
pub fn radio_read(record: &[u8]) -> Radio {
    // A slice points to as many bytes as it is long, and is never null.
    unsafe { library::phengaryl_radio_read(record.as_ptr(), record.len()) }
}

/// Opens a board for the runways of an aerodrome, each with its owner.
pub fn open(aerodrome: &[u8; 4], list: &RunwayList) -> Answer {
    // The aerodrome has the four bytes that are read.
    unsafe { library::phengaryl_open(aerodrome.as_ptr(), *list) }
}

/// Reports a row to a board, sent by a desk.
pub fn report(board: &Board, desk: u32, row: &Row) -> Answer {
    // Only values are handed over.
    unsafe { library::phengaryl_report(*board, desk, *row) }
}

/// Whether a board keeps its rules.
pub fn valid_board(board: &Board) -> bool {
    // Only values are handed over.
    unsafe { library::phengaryl_valid_board(*board) }
}

/// Writes a board as a notice.
pub fn write_board(board: &Board, details: &Details, items: &Items, language: &Language, out: &mut [u8]) -> Written {
    // The slice is borrowed for writing, so nothing else overlaps it.
    unsafe { library::phengaryl_write_board(*board, *details, *items, *language, out.as_mut_ptr(), out.len()) }
}

/// Puts what the desk prints for a whole input as far as there is room, and answers how many bytes it has.
pub fn desk(input: &[u8], out: &mut [u8]) -> usize {
    // One slice is read and the other is borrowed for writing, so they do not overlap.
    unsafe { library::phengaryl_desk(input.as_ptr(), input.len(), out.as_mut_ptr(), out.len()) }
}

/// Writes the board that the desk keeps after a whole input as a notice, with the details, items and plain language of a model message.
pub fn board_notice(desk: &[u8], model: &[u8], out: &mut [u8]) -> Written {
    // The library stores 0 where it refuses: what stands here shows where it does not.
    let mut length = usize::MAX;
    // Two slices are read, and the other and the length are borrowed for writing, so nothing overlaps.
    let refusal = unsafe {
        library::phengaryl_board_notice(
            desk.as_ptr(),
            desk.len(),
            model.as_ptr(),
            model.len(),
            out.as_mut_ptr(),
            out.len(),
            &mut length,
        )
    };
    Written { refusal, length }
}

// ---- The same with results

/// Why a text was refused, and the place of the byte in it that the refusal is about.
#[derive(Clone, Copy, Debug, PartialEq, Eq)]
pub struct Refused {
    pub refusal: u8,
    pub place: usize,
}

impl Record {
    pub fn read(message: &[u8]) -> Result<Record, Refused> {
        let Reading { refusal, place, record } = read(message);
        taken(refusal, record).map_err(|refusal| Refused { refusal, place })
    }

    /// The canonical text.
    pub fn text(&self) -> Result<Vec<u8>, u8> {
        written(|out| write(self, out))
    }

    /// What the heading says besides the aerodrome and the time.
    pub fn details(&self) -> Details {
        Details { addresses: self.addresses, filing: self.filing, region: self.title.region, serial: self.title.serial }
    }
}

impl Row {
    pub fn read(text: &[u8]) -> Result<Row, Refused> {
        let RowRead { refusal, place, row } = read_row(text);
        taken(refusal, row).map_err(|refusal| Refused { refusal, place })
    }

    /// The canonical text, without a line end; none where the row is not valid.
    pub fn text(&self) -> Option<Vec<u8>> {
        let mut out = vec![0; LONGEST_ROW];
        let length = write_row(self, &mut out);
        out.truncate(length);
        Some(out).filter(|text| !text.is_empty())
    }
}

impl Rows {
    pub fn from_radio(record: &[u8]) -> Result<Rows, u8> {
        let Radio { refusal, rows } = radio_read(record);
        taken(refusal, rows)
    }

    /// The radio record.
    pub fn radio(&self) -> Result<Vec<u8>, u8> {
        written(|out| radio_write(self, out))
    }
}

impl Board {
    /// A board with no report yet, of runways and the desk that owns each. More of them than a board has places for are refused as any other
    /// wrong list.
    pub fn open(aerodrome: &[u8; 4], owned: &[(Runway, u8)]) -> Result<Board, u8> {
        let mut list = RunwayList::default();
        if owned.len() > list.runways.len() {
            return Err(refusal::WRONG_BOARD);
        }
        list.count = owned.len() as u8;
        for (place, &(runway, owner)) in owned.iter().enumerate() {
            list.runways[place] = runway;
            list.owners[place] = owner;
        }
        let Answer { refusal, board } = open(aerodrome, &list);
        taken(refusal, board)
    }

    /// Shows a row of the desk's own runway that is later than the one shown; a refused one leaves the board as it was.
    pub fn report(&mut self, desk: u32, row: &Row) -> Result<(), u8> {
        let Answer { refusal, board } = report(self, desk, row);
        *self = board;
        taken(refusal, ())
    }

    /// The text of the board's notice.
    pub fn notice(&self, details: &Details, items: &Items, language: &Language) -> Result<Vec<u8>, u8> {
        written(|out| write_board(self, details, items, language, out))
    }
}

fn taken<T>(refusal: u8, value: T) -> Result<T, u8> {
    if refusal == refusal::TAKEN {
        Ok(value)
    } else {
        Err(refusal)
    }
}

/// The text that a writer puts into a buffer that suffices for each.
fn written(writer: impl FnOnce(&mut [u8]) -> Written) -> Result<Vec<u8>, u8> {
    let mut out = vec![0; LONGEST_TEXT];
    let Written { refusal, length } = writer(&mut out);
    out.truncate(length);
    taken(refusal, out)
}
