//! What the second reader holds as the structs of the C interface, and back.
//!
//! The way there leaves zeros past each count and in every field that is not used. On the way back such bytes are not looked
//! at: whether any of them is not zero shows by going there again.
use crate::due::Change;
use crate::items::{Banks, Item, Name};
use crate::library;
use crate::reader::Record;
use crate::row::{Row, Runway, Third};

impl From<&Third> for library::Third {
    fn from(third: &Third) -> Self {
        library::Third {
            code: byte(third.code),
            coverage: byte(third.coverage),
            depth: third.depth,
            description: byte(third.description),
        }
    }
}

impl From<&library::Third> for Third {
    fn from(third: &library::Third) -> Self {
        Third {
            code: third.code.into(),
            coverage: third.coverage.into(),
            depth: third.depth,
            description: third.description.into(),
        }
    }
}

impl From<Runway> for library::Runway {
    fn from(runway: Runway) -> Self {
        library::Runway { number: runway.number, side: runway.side }
    }
}

impl From<library::Runway> for Runway {
    fn from(runway: library::Runway) -> Self {
        Runway { number: runway.number, side: runway.side }
    }
}

impl From<&Row> for library::Row {
    fn from(row: &Row) -> Self {
        let Runway { number, side } = row.runway;
        library::Row {
            time: row.time,
            number,
            side,
            thirds: [0, 1, 2].map(|n| (&row.thirds[n]).into()),
            width: row.width,
        }
    }
}

impl From<&library::Row> for Row {
    fn from(row: &library::Row) -> Self {
        let runway = Runway { number: row.number, side: row.side };
        Row { time: row.time, runway, thirds: [0, 1, 2].map(|n| (&row.thirds[n]).into()), width: row.width }
    }
}

impl From<Change> for library::Change {
    fn from(change: Change) -> Self {
        let Change { refusal, counts, due } = change;
        library::Change { refusal, counts, due }
    }
}

impl From<&Item> for library::Item {
    fn from(item: &Item) -> Self {
        let mut told = library::Item { letter: item.letter(), ..Default::default() };
        if let Some(runway) = item.runway() {
            (told.number, told.side) = (runway.number, runway.side);
        }
        match item {
            Item::Reduced { length, .. } => told.amount = *length,
            Item::Snowbank { banks, distance, .. } => {
                told.amount = (*distance).into();
                told.edge = match banks {
                    Banks::Left => 1,
                    Banks::Right => 2,
                    Banks::Both => 3,
                };
            }
            Item::TaxiwaySnowbanks { taxiways } | Item::PoorTaxiways { taxiways: Some(taxiways) } => {
                told.count = taxiways.len() as u8;
                told.taxiways.chunks_exact_mut(3).zip(taxiways).for_each(|(place, name)| put(place, name));
            }
            Item::PoorApron { name: Some(name) } => put(&mut told.name, name),
            _ => {}
        }
        told
    }
}

impl From<&Record> for library::Record {
    fn from(record: &Record) -> Self {
        let mut told = library::Record::default();
        told.addresses.priority = if record.priority == *b"GG" { 1 } else { 2 };
        told.addresses.count = record.addresses.len() as u8;
        put(&mut told.addresses.letters, &record.addresses.concat());
        told.filing = library::Filing { time: record.filed, originator: record.originator };
        let serial = u16::try_from(record.serial).unwrap_or(u16::MAX);
        told.title = library::Title { region: record.region, serial, aerodrome: record.aerodrome };
        told.rows = rows(&record.rows);
        told.items.count = record.items.len() as u8;
        told.items.items.iter_mut().zip(&record.items).for_each(|(place, item)| *place = item.into());
        told.language.length = record.plain.len() as u16;
        put(&mut told.language.bytes, &record.plain);
        told
    }
}

/// A list as it is handed over: of more rows than a struct has places for it has the first, with the count of all.
pub fn rows(rows: &[Row]) -> library::Rows {
    let mut told = library::Rows { count: rows.len() as u8, ..Default::default() };
    told.rows.iter_mut().zip(rows).for_each(|(place, row)| *place = row.into());
    told
}

/// The record that a struct tells; none where a field has no meaning.
pub fn record(told: &library::Record) -> Option<Record> {
    let library::Record { addresses, filing, title, rows, items, language } = told;
    let letters = addresses.letters.chunks_exact(8).take(addresses.count.into());
    Some(Record {
        priority: priority(addresses.priority)?,
        addresses: letters.map(|word| word.try_into().ok()).collect::<Option<_>>()?,
        filed: filing.time,
        originator: filing.originator,
        region: title.region,
        serial: title.serial.into(),
        aerodrome: title.aerodrome,
        rows: rows.rows.iter().take(rows.count.into()).map(Row::from).collect(),
        items: items.items.iter().take(items.count.into()).map(item).collect::<Option<_>>()?,
        plain: language.bytes.get(..language.length.into())?.to_vec(),
    })
}

fn priority(number: u8) -> Option<[u8; 2]> {
    match number {
        1 => Some(*b"GG"),
        2 => Some(*b"DD"),
        _ => None,
    }
}

fn item(told: &library::Item) -> Option<Item> {
    let runway = Runway { number: told.number, side: told.side };
    let taxiways: Vec<Name> = told.taxiways.chunks_exact(3).take(told.count.into()).map(without_zeros).collect();
    let item = match told.letter {
        b'I' => Item::Reduced { runway, length: told.amount },
        b'J' => Item::DriftingSnow,
        b'K' => Item::LooseSand { runway },
        b'L' => Item::Treated { runway },
        b'M' => Item::Snowbank { runway, banks: banks(told.edge)?, distance: told.amount.try_into().ok()? },
        b'N' => Item::TaxiwaySnowbanks { taxiways },
        b'O' => Item::AdjacentSnowbank { runway },
        b'P' => Item::PoorTaxiways { taxiways: Some(taxiways).filter(|names| !names.is_empty()) },
        b'R' => Item::PoorApron { name: Some(without_zeros(&told.name)).filter(|name| !name.is_empty()) },
        _ => return None,
    };
    Some(item)
}

fn banks(edge: u8) -> Option<Banks> {
    match edge {
        1 => Some(Banks::Left),
        2 => Some(Banks::Right),
        3 => Some(Banks::Both),
        _ => None,
    }
}

/// Only zeros behind a name are none of it: one within it is a byte that no name has.
fn without_zeros(place: &[u8]) -> Name {
    let end = place.iter().rposition(|&byte| byte != 0).map_or(0, |last| last + 1);
    place[..end].to_vec()
}

/// A number that is too large for a byte stays too large.
fn byte(number: u16) -> u8 {
    u8::try_from(number).unwrap_or(u8::MAX)
}

fn put(place: &mut [u8], text: &[u8]) {
    place.iter_mut().zip(text).for_each(|(place, &byte)| *place = byte);
}
