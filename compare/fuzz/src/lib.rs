//! One input of the fuzzer, put to the proved library and to the second reader; a difference aborts.
//!
//! The first byte says what the rest is: `D` a desk input, `B` a desk input and the model of its board's notice, `R` a row,
//! `C` a radio record of the cars, `S` two messages, any other a message. A zero byte parts two texts.
use compare::refused::Refused;
use compare::row::Row;
use compare::{desk, radio, reader};
use phengaryl::{Radio, Reading, RowRead};

#[path = "../../../include/phengaryl.rs"]
mod phengaryl;

/// What a lent byte is before a call, so that a touched one shows.
const UNTOUCHED: u8 = 0xa5;

/// The library prints exactly what is expected, and touches nothing behind it.
fn prints(printer: fn(&[u8], &mut [u8]) -> usize, input: &[u8], expected: &[u8]) {
    let mut out = vec![UNTOUCHED; expected.len() + 8];
    assert_eq!(printer(input, &mut out), expected.len());
    holds_alone(&out, expected);
}

fn holds_alone(out: &[u8], text: &[u8]) {
    assert_eq!(&out[..text.len()], text);
    assert!(out[text.len()..].iter().all(|&byte| byte == UNTOUCHED));
}

fn message(input: &[u8]) {
    let reading = phengaryl::read(input);
    match reader::read(input) {
        Ok(record) => {
            assert_eq!((reading.refusal, reading.place), (0, 0));
            assert_eq!(reading.record.text(), Ok(reader::write(&record)));
        }
        Err(Refused { number: refusal, place }) => {
            assert_eq!(reading, Reading { refusal, place, ..Default::default() });
        }
    }
    prints(phengaryl::list, input, &reader::listing(input));
}

fn row(input: &[u8]) {
    let read = phengaryl::read_row(input);
    match Row::read(input) {
        Ok(row) => {
            assert_eq!((read.refusal, read.place), (0, 0));
            assert_eq!(read.row.text(), Some(row.text().into_bytes()));
        }
        Err(Refused { number: refusal, place }) => assert_eq!(read, RowRead { refusal, place, ..Default::default() }),
    }
}

fn radio_record(input: &[u8]) {
    let read = phengaryl::radio_read(input);
    match radio::read(input) {
        Ok(rows) => {
            let texts = |told: &[phengaryl::Row]| told.iter().map(phengaryl::Row::text).collect::<Vec<_>>();
            let (told, past) = read.rows.rows.split_at(rows.len());
            assert_eq!((read.refusal, usize::from(read.rows.count)), (0, rows.len()));
            assert_eq!(texts(told), rows.iter().map(|row| Some(row.text().into_bytes())).collect::<Vec<_>>());
            assert!(past.iter().all(|row| *row == phengaryl::Row::default()));
            assert_eq!(read.rows.radio(), Ok(input.to_vec()));
        }
        Err(refusal) => assert_eq!(read, Radio { refusal, ..Default::default() }),
    }
}

fn pair(input: &[u8]) {
    let (one, other) = parted(input);
    assert_eq!(phengaryl::same(one, other), reader::same(one, other));
}

fn board_notice(input: &[u8]) {
    let (desk, model) = parted(input);
    let mut out = vec![UNTOUCHED; phengaryl::LONGEST_TEXT];
    let written = phengaryl::board_notice(desk, model, &mut out);
    let (refusal, text) = match desk::notice(desk, model) {
        Ok(text) => (0, text),
        Err(refusal) => (refusal, Vec::new()),
    };
    assert_eq!((written.refusal, written.length), (refusal, text.len()));
    holds_alone(&out, &text);
}

/// What stands before the first zero byte, and what behind it.
fn parted(input: &[u8]) -> (&[u8], &[u8]) {
    let cut = input.iter().position(|&byte| byte == 0).unwrap_or(input.len());
    (&input[..cut], input.get(cut + 1..).unwrap_or_default())
}

/// # Safety
/// The fuzzer lends `size` bytes at `data`.
#[no_mangle]
pub unsafe extern "C" fn LLVMFuzzerTestOneInput(data: *const u8, size: usize) -> i32 {
    let input = if size == 0 { &[][..] } else { std::slice::from_raw_parts(data, size) };
    match input.split_first() {
        Some((b'D', rest)) => prints(phengaryl::desk, rest, &desk::desk(rest)),
        Some((b'B', rest)) => board_notice(rest),
        Some((b'R', rest)) => row(rest),
        Some((b'C', rest)) => radio_record(rest),
        Some((b'S', rest)) => pair(rest),
        Some((_, rest)) => message(rest),
        None => (),
    }
    0
}
