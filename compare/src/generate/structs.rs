//! Records and boards as structs that one thing was done to. What comes of it may be valid still.
use super::rounds::near;
use super::Rng;
use crate::judge;
use crate::library::{Addresses, Board, Filing, Item, Items, Language, Record, Row, Rows, Title};

const BYTES: &[u8] =
    b"\x00\x01\x02\x03\x04\x06\x07\x08\x09\x10\x12\x13\x20\x21\x24\x25\x63\x64\xff09AZJNPR.,/+ )@[`az\n\r";
const NUMBERS: [u32; 22] = [
    0,
    1,
    2,
    3,
    4,
    99,
    100,
    255,
    256,
    399,
    400,
    401,
    999,
    1000,
    9999,
    10_000,
    65_535,
    65_536,
    2_290_000,
    2_300_000,
    12_312_359,
    u32::MAX,
];

/// One field or byte changed, or rows or items put elsewhere.
pub fn damage_record(rng: &mut Rng, record: &mut Record) {
    match rng.below(16) {
        0..=1 => damage_addresses(rng, &mut record.addresses),
        2 => damage_filing(rng, &mut record.filing),
        3 => damage_title(rng, &mut record.title),
        4..=7 => damage_rows(rng, &mut record.rows),
        8..=13 => damage_items(rng, &mut record.items),
        _ => damage_language(rng, &mut record.language),
    }
}

/// One field or byte changed, or runways, owners or rows put elsewhere. Half of the time the stored time is then that of the
/// rows again, so that what else is wrong shows alone.
pub fn damage_board(rng: &mut Rng, board: &mut Board) {
    if rng.chance(25) {
        return damage_latest(rng, board);
    }
    let used = usize::from(board.count);
    let (one, other) = (place(rng, used, 8), place(rng, used, 8));
    match rng.below(15) {
        0 => one_byte(rng, &mut board.aerodrome, 4),
        1 => byte(rng, &mut board.count),
        2 => byte(rng, &mut board.runways[one].number),
        3 => byte(rng, &mut board.runways[one].side),
        4 => board.runways.swap(one, other),
        5 => board.rows.swap(one, other),
        6 => board.rows[one] = board.rows[other],
        7 => board.rows[one] = Row::default(),
        8 => byte(rng, &mut board.owners[one]),
        // Still a board, unless a place that is not used gets an owner.
        9 => board.owners.swap(one, other),
        10 => board.owners[one] = rng.pick(&[0, 1, 2, 3, 255]),
        _ => damage_row(rng, &mut board.rows[one]),
    }
    if rng.chance(50) {
        board.latest = judge::latest(board);
    }
}

/// A time next to the stored one or otherwise near it, none, that of a row, the latest by its digits, or one at an end of the
/// season or of the numbers.
fn damage_latest(rng: &mut Rng, board: &mut Board) {
    board.latest = match rng.below(6) {
        0 => board.latest.wrapping_add(rng.pick(&[1, u32::MAX])),
        1 => number(rng, board.latest),
        2 => 0,
        3 => board.rows[place(rng, board.count.into(), 8)].time,
        4 => board.rows.iter().map(|row| row.time).max().unwrap_or(0),
        _ => rng.pick(&[6_302_359, 7_010_000, 12_312_359, 99_999_999, u32::MAX]),
    };
}

/// Mostly one of the places in use.
fn place(rng: &mut Rng, used: usize, all: usize) -> usize {
    if used > 0 && rng.chance(85) {
        rng.below(used)
    } else {
        rng.below(all)
    }
}

fn byte(rng: &mut Rng, byte: &mut u8) {
    *byte = match rng.below(4) {
        0 => byte.wrapping_add(1),
        1 => byte.wrapping_sub(1),
        2 => rng.pick(BYTES),
        _ => rng.below(256) as u8,
    };
}

/// One of several bytes, of which the first `used` tell something.
fn one_byte(rng: &mut Rng, bytes: &mut [u8], used: usize) {
    let place = place(rng, used, bytes.len());
    byte(rng, &mut bytes[place]);
}

fn number(rng: &mut Rng, number: u32) -> u32 {
    match rng.below(4) {
        0 => number.wrapping_add(1),
        1 => number.wrapping_sub(1),
        2 => rng.pick(&NUMBERS),
        _ => number ^ (1 << rng.below(32)),
    }
}

fn short(rng: &mut Rng, short: &mut u16) {
    *short = number(rng, u32::from(*short)) as u16;
}

fn damage_addresses(rng: &mut Rng, addresses: &mut Addresses) {
    let used = 8 * usize::from(addresses.count);
    match rng.below(4) {
        0 => byte(rng, &mut addresses.priority),
        1 => byte(rng, &mut addresses.count),
        _ => one_byte(rng, &mut addresses.letters, used),
    }
}

fn damage_filing(rng: &mut Rng, filing: &mut Filing) {
    match rng.below(2) {
        0 => filing.time = number(rng, filing.time),
        _ => one_byte(rng, &mut filing.originator, 8),
    }
}

fn damage_title(rng: &mut Rng, title: &mut Title) {
    match rng.below(3) {
        0 => one_byte(rng, &mut title.region, 2),
        1 => short(rng, &mut title.serial),
        _ => one_byte(rng, &mut title.aerodrome, 4),
    }
}

fn damage_rows(rng: &mut Rng, rows: &mut Rows) {
    let used = usize::from(rows.count);
    let (one, other) = (place(rng, used, 8), place(rng, used, 8));
    match rng.below(8) {
        0 => byte(rng, &mut rows.count),
        1 => rows.rows.swap(one, other),
        2 => rows.rows[one] = rows.rows[other],
        3 => rows.rows[one] = Row::default(),
        _ => damage_row(rng, &mut rows.rows[one]),
    }
}

fn damage_row(rng: &mut Rng, row: &mut Row) {
    let third = &mut row.thirds[rng.below(3)];
    match rng.below(8) {
        0 => row.time = if rng.chance(50) { number(rng, row.time) } else { near(rng, row.time) },
        1 => byte(rng, &mut row.number),
        2 => byte(rng, &mut row.side),
        3 => byte(rng, &mut row.width),
        4 => byte(rng, &mut third.code),
        5 => byte(rng, &mut third.coverage),
        6 => short(rng, &mut third.depth),
        _ => byte(rng, &mut third.description),
    }
}

fn damage_items(rng: &mut Rng, items: &mut Items) {
    let used = usize::from(items.count);
    let (one, other) = (place(rng, used, 32), place(rng, used, 32));
    match rng.below(10) {
        0 => byte(rng, &mut items.count),
        1 => items.items.swap(one, other),
        2 => items.items[one] = items.items[other],
        3 => items.items[one] = Item::default(),
        _ => damage_item(rng, &mut items.items[one]),
    }
}

fn damage_item(rng: &mut Rng, item: &mut Item) {
    match rng.below(8) {
        0 => short(rng, &mut item.amount),
        1 => byte(rng, &mut item.letter),
        2 => byte(rng, &mut item.number),
        3 => byte(rng, &mut item.side),
        4 => byte(rng, &mut item.edge),
        5 => byte(rng, &mut item.count),
        6 => one_byte(rng, &mut item.taxiways, 3 * usize::from(item.count.min(8))),
        _ => one_byte(rng, &mut item.name, 16),
    }
}

fn damage_language(rng: &mut Rng, language: &mut Language) {
    match rng.below(3) {
        0 => short(rng, &mut language.length),
        _ => one_byte(rng, &mut language.bytes, language.length.into()),
    }
}

#[cfg(test)]
mod tests {
    use super::*;
    use crate::generate::record;
    use crate::library::Runway;
    use crate::{reader, structs};

    const ALL: usize = 2000;

    #[test]
    fn a_record_comes_back_whole() {
        let mut rng = Rng::new(1);
        for _ in 0..ALL {
            let record = record(&mut rng);
            let told = Record::from(&record);
            assert_eq!(judge::text(&told), Some(reader::write(&record)));
            assert_eq!(structs::record(&told), Some(record));
        }
    }

    #[test]
    fn damage_leaves_some_records_valid() {
        let mut rng = Rng::new(1);
        let mut valid = 0;
        for _ in 0..ALL {
            let mut told = Record::from(&record(&mut rng));
            damage_record(&mut rng, &mut told);
            valid += usize::from(judge::text(&told).is_some());
        }
        assert!((ALL / 10..ALL / 2).contains(&valid), "{valid}");
    }

    /// A board of a record's runways, with some of its rows or none.
    fn board(rng: &mut Rng) -> Board {
        let Record { title, rows, .. } = Record::from(&record(rng));
        let count = usize::from(rows.count);
        let mut listed = rows.rows;
        listed[..count].sort_by_key(|row| (row.number, row.side));
        let mut board = Board { aerodrome: title.aerodrome, count: rows.count, ..Default::default() };
        let shown = rng.pick(&[0, 50, 100]);
        for (place, row) in listed[..count].iter().enumerate() {
            board.runways[place] = Runway { number: row.number, side: row.side };
            board.owners[place] = rng.pick(&[1, 2]);
            if rng.chance(shown) {
                board.rows[place] = *row;
            }
        }
        board.latest = judge::latest(&board);
        board
    }

    #[test]
    fn damage_leaves_some_boards_valid() {
        let mut rng = Rng::new(1);
        let mut valid = 0;
        for _ in 0..ALL {
            let mut board = board(&mut rng);
            assert!(judge::is_board(&board), "{board:?}");
            damage_board(&mut rng, &mut board);
            valid += usize::from(judge::is_board(&board));
        }
        assert!((ALL / 10..ALL / 2).contains(&valid), "{valid}");
    }

    /// Each way a stored time can be wrong is met where nothing else is.
    #[test]
    fn each_wrong_stored_time_is_met_alone() {
        let mut rng = Rng::new(1);
        let mut met = [0; 7];
        for _ in 0..ALL {
            let good = board(&mut rng);
            let mut bad = good;
            damage_board(&mut rng, &mut bad);
            let Board { latest, .. } = bad;
            if latest == good.latest || bad != (Board { latest, ..good }) {
                continue;
            }
            assert!(!judge::is_board(&bad), "{bad:?}");
            let shown = good.latest != 0;
            let ways = [
                shown && latest == good.latest + 1,
                shown && latest == good.latest - 1,
                shown && latest == 0,
                !shown && crate::row::is_real_time(latest),
                latest != 0 && good.rows.iter().any(|row| row.time == latest),
                latest > 12_312_359,
                shown && good.rows.iter().map(|row| row.time).max() == Some(latest),
            ];
            met.iter_mut().zip(ways).for_each(|(count, way)| *count += usize::from(way));
        }
        assert!(met.iter().all(|&count| count >= ALL / 200), "{met:?}");
    }
}
