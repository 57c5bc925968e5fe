//! The radio record of the inspection cars, both ways: request 7 of document 02.
//!
//! A record is cut into its numbers first, and they are judged then. A row is fifteen numbers, and one table has their order.
use std::iter::once;

use crate::reader::MOST_ROWS;
use crate::row::{Row, Runway, Third, MONTH_DAYS};

const INVALID_ROW: u8 = 19;
const CUT_SHORT: u8 = 30;
const NUMBER_FORM: u8 = 31;
const VALUE: u8 = 32;

/// What a number of a record tells.
#[derive(Clone, Copy, Debug, PartialEq, Eq)]
pub enum Field {
    Count,
    Minutes,
    Runway,
    Code,
    Coverage,
    Depth,
    Description,
    Width,
}

/// The numbers of a row, in their order.
pub const ROW: [Field; 15] = [
    Field::Minutes,
    Field::Runway,
    Field::Code,
    Field::Code,
    Field::Code,
    Field::Coverage,
    Field::Coverage,
    Field::Coverage,
    Field::Depth,
    Field::Depth,
    Field::Depth,
    Field::Description,
    Field::Description,
    Field::Description,
    Field::Width,
];

const DAYS: usize = 366;
const DAY: u32 = 24 * 60;

/// The four digits of each day of a leap year, which rise.
const CALENDAR: [u32; DAYS] = calendar();

const fn calendar() -> [u32; DAYS] {
    let mut days = [0; DAYS];
    let (mut place, mut month, mut day) = (0, 1, 1);
    while place < DAYS {
        days[place] = month * 100 + day;
        place += 1;
        day += 1;
        if day > MONTH_DAYS[month as usize - 1] {
            month += 1;
            day = 1;
        }
    }
    days
}

/// Minutes since 1 January 00:00 of a real time.
fn minutes(time: u32) -> u32 {
    let day = CALENDAR.binary_search(&(time / 10_000)).expect("a real day");
    day as u32 * DAY + time / 100 % 100 * 60 + time % 100
}

fn time(minutes: u32) -> u32 {
    let day = CALENDAR[(minutes / DAY) as usize];
    day * 10_000 + minutes % DAY / 60 * 100 + minutes % 60
}

impl Field {
    /// Whether a number may be told by itself; what only other numbers of its row forbid is judged with the row.
    fn takes(self, number: u32) -> bool {
        match self {
            Field::Count => (1..=MOST_ROWS as u32).contains(&number),
            Field::Minutes => number < DAYS as u32 * DAY,
            Field::Runway => (4..=75).contains(&number),
            Field::Code => number <= 6,
            Field::Coverage => number <= 4,
            Field::Depth => number == 0 || (3..=999).contains(&number),
            Field::Description => number <= 15,
            Field::Width => number <= 99,
        }
    }
}

/// The groups of a number below 2 to the 21st, low group first.
pub fn groups(number: u32) -> Vec<u8> {
    let [low, middle, high] = [0, 7, 14].map(|bits| (number >> bits & 0x7f) as u8);
    match number {
        0..=0x7f => vec![low],
        0x80..=0x3fff => vec![0x80 | low, middle],
        _ => vec![0x80 | low, 0x80 | middle, high],
    }
}

/// The first number of what is left of a record and how many bytes it has, or why none stands there.
fn first(rest: &[u8]) -> Result<(u32, usize), u8> {
    match *rest {
        [low @ 0..=0x7f, ..] => Ok((low.into(), 1)),
        // A group follows, and one of zero is not the last of several.
        [_, 0, ..] => Err(NUMBER_FORM),
        [low, middle @ 1..=0x7f, ..] => Ok((joined(low, middle, 0), 2)),
        [_, _, 0 | 0x80..=0xff, ..] => Err(NUMBER_FORM),
        [low, middle, high, ..] => Ok((joined(low, middle, high), 3)),
        _ => Err(CUT_SHORT),
    }
}

fn joined(low: u8, middle: u8, high: u8) -> u32 {
    [high, middle, low].iter().fold(0, |number, group| number << 7 | u32::from(group & 0x7f))
}

/// The numbers of a record. A fault is the last of them, since nothing tells where a number behind it would begin.
fn cut(mut rest: &[u8]) -> Vec<Result<u32, u8>> {
    let mut numbers = Vec::new();
    while !rest.is_empty() {
        let number = first(rest);
        numbers.push(number.map(|(number, _)| number));
        rest = number.map_or(&[], |(_, length)| &rest[length..]);
    }
    numbers
}

/// The rows of a record, or the number of the first thing from the left that is wrong.
pub fn read(record: &[u8]) -> Result<Vec<Row>, u8> {
    let mut numbers = cut(record).into_iter();
    let mut next = |field: Field| {
        let number = numbers.next().unwrap_or(Err(CUT_SHORT))?;
        Some(number).filter(|&number| field.takes(number)).ok_or(VALUE)
    };
    let mut rows = Vec::new();
    for _ in 0..next(Field::Count)? {
        let mut told = [0; ROW.len()];
        for (place, field) in told.iter_mut().zip(ROW) {
            *place = next(field)?;
        }
        let row = row(told);
        let is_valid = row.is_valid();
        rows.push(row);
        if !is_valid || has_runway_twice(&rows) {
            return Err(VALUE);
        }
    }
    // What is left over is not looked at, be it a number or none.
    if numbers.next().is_some() {
        return Err(VALUE);
    }
    Ok(rows)
}

/// The record of a list of rows, or the refusal number; whether there is room for it is not judged.
pub fn write(rows: &[Row]) -> Result<Vec<u8>, u8> {
    if !(1..=MOST_ROWS).contains(&rows.len()) {
        return Err(VALUE);
    }
    if !rows.iter().all(Row::is_valid) {
        return Err(INVALID_ROW);
    }
    if has_runway_twice(rows) {
        return Err(VALUE);
    }
    Ok(unjudged(rows))
}

/// What stands for some valid rows, be they no list that has a record.
pub fn unjudged(rows: &[Row]) -> Vec<u8> {
    once(rows.len() as u32).chain(rows.iter().flat_map(numbers)).flat_map(groups).collect()
}

fn has_runway_twice(rows: &[Row]) -> bool {
    rows.iter().enumerate().any(|(place, row)| rows[..place].iter().any(|other| other.runway == row.runway))
}

fn numbers(row: &Row) -> Vec<u32> {
    let runway = u32::from(row.runway.number) * 4 + u32::from(row.runway.side);
    let mut numbers = vec![minutes(row.time), runway];
    let parts: [fn(&Third) -> u16; 4] =
        [|third| third.code, |third| third.coverage / 25, |third| third.depth, |third| third.description];
    for part in parts {
        numbers.extend(row.thirds.iter().map(|third| u32::from(part(third))));
    }
    numbers.push(row.width.into());
    numbers
}

/// The row of numbers that may each be told.
fn row([minutes, runway, thirds @ .., width]: [u32; ROW.len()]) -> Row {
    Row {
        time: time(minutes),
        runway: Runway { number: (runway / 4) as u8, side: (runway % 4) as u8 },
        thirds: [0, 1, 2].map(|n| {
            let [code, coverage, depth, description] = [0, 3, 6, 9].map(|group| thirds[group + n] as u16);
            Third { code, coverage: 25 * coverage, depth, description }
        }),
        width: width as u8,
    }
}

#[cfg(test)]
mod tests {
    use super::*;
    use crate::edges::{self, Listed, Received};
    use crate::row::is_real_time;

    #[test]
    fn the_lists_and_records_by_hand() {
        for Listed { rows, told } in edges::radio_lists_by_hand() {
            assert_eq!(write(&rows), told, "{rows:?}");
        }
        for Received { record, told } in edges::radio_records_by_hand() {
            assert_eq!(read(&record), told, "{record:02x?}");
        }
    }

    #[test]
    fn every_minute_of_a_leap_year() {
        let days = (1..=12).flat_map(|month| (1..=31).map(move |day| month * 100 + day));
        let times = days.flat_map(|day| (0..2400).map(move |minute| day * 10_000 + minute));
        let real: Vec<u32> = times.filter(|&time| is_real_time(time)).collect();
        assert_eq!(real.len(), 527_040);
        for (place, &told) in real.iter().enumerate() {
            assert_eq!((minutes(told), time(place as u32)), (place as u32, told));
        }
    }

    /// Each number has one form: its own groups are read as it, and no other two or three bytes are.
    #[test]
    fn every_number() {
        for number in 0..1 << 21 {
            let groups = groups(number);
            assert_eq!(first(&groups), Ok((number, groups.len())));
        }
        for bytes in 0..=u16::MAX {
            let bytes = bytes.to_be_bytes();
            if let Ok((number, length)) = first(&bytes) {
                assert_eq!(groups(number), bytes[..length]);
            }
        }
        let edges = [0, 1, 2, 0x3f, 0x40, 0x7e, 0x7f, 0x80, 0x81, 0xc0, 0xfe, 0xff];
        for low in edges {
            for middle in edges {
                for high in edges {
                    if let Ok((number, length)) = first(&[low, middle, high]) {
                        assert_eq!(groups(number), [low, middle, high][..length]);
                    }
                }
            }
        }
    }
}
