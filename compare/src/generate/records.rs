//! Valid records in every shape.
use super::rounds::{round, seam};
use super::Rng;
use crate::items::{Banks, Item, Name, MOST_ITEMS, MOST_PLAIN, MOST_TAXIWAYS, REDUCED};
use crate::reader::{Record, MOST_ADDRESSES, MOST_ROWS};
use crate::row::{least_depth, Row, Runway, Third, DRY, NR, REPORTED};

const KEYWORDS: [&str; 12] = ["TWY", "ALL", "POOR", "APRON", "RWY", "SNOWBANK", "FM", "CL", "TO", "NR", "DRY", "SNOW"];
const TAXIWAY_WORDS: [&str; 7] = ["TWY", "ALL", "RWY", "ADJ", "FM", "TO", "NR"];
const REAL_TIMES: [u32; 10] =
    [1_010_000, 1_312_359, 2_290_000, 2_292_359, 4_300_000, 6_302_359, 12_312_359, 12_010_000, 1_120_610, 1_120_640];
pub const COVERAGES: [u16; 5] = [NR, 25, 50, 75, 100];

pub fn letter(rng: &mut Rng) -> u8 {
    b'A' + rng.below(26) as u8
}

pub fn word<const N: usize>(rng: &mut Rng) -> [u8; N] {
    std::array::from_fn(|_| letter(rng))
}

fn capitals_and_digits(rng: &mut Rng, length: usize) -> Name {
    (0..length).map(|_| rng.pick(b"ABCDEFGHIJKLMNOPQRSTUVWXYZ0123456789")).collect()
}

pub fn runway(rng: &mut Rng, greatest: u8) -> Runway {
    let number =
        if rng.chance(20) { rng.pick(&[1, 2, greatest - 1, greatest]) } else { 1 + rng.below(greatest.into()) as u8 };
    Runway { number, side: rng.below(4) as u8 }
}

pub fn time(rng: &mut Rng) -> u32 {
    match rng.below(100) {
        0..=14 => return rng.pick(&REAL_TIMES),
        15..=29 => return seam(rng),
        _ => {}
    }
    let month = rng.between(1, 12);
    let days = if month == 2 { 29 } else { 30 + [1, 3, 5, 7, 8, 10, 12].contains(&month) as usize };
    (((month * 100 + rng.between(1, days)) * 100 + rng.below(24)) * 100 + rng.below(60)) as u32
}

pub fn third(rng: &mut Rng, description: u16) -> Third {
    let contaminant = description != NR && description != DRY;
    let depth = match least_depth(description) {
        Some(least) if rng.chance(75) => {
            let any = rng.between(least.into(), 999) as u16;
            rng.pick(&[least, least, 4, 5, 9, 10, 99, 100, 999, any])
        }
        _ => NR,
    };
    let coverage = if contaminant { rng.pick(&COVERAGES) } else { NR };
    Third { code: rng.below(7) as u16, coverage, depth, description }
}

/// A valid row: a third of them may be written short.
pub fn row(rng: &mut Rng, runway: Runway) -> Row {
    let shape = rng.below(100);
    let thirds = std::array::from_fn(|_| {
        let description = if shape < 15 { DRY } else { rng.below(16) as u16 };
        if (15..35).contains(&shape) {
            Third { code: 6, coverage: NR, depth: NR, description }
        } else {
            third(rng, description)
        }
    });
    let width = if rng.chance(60) { 0 } else { rng.pick(&[1, 9, 10, 30, 60, 98, 99]) };
    Row { time: time(rng), runway, thirds, width }
}

fn taxiways(rng: &mut Rng) -> Vec<Name> {
    let count = rng.between(1, MOST_TAXIWAYS);
    let mut names: Vec<Name> = Vec::new();
    while names.len() < count {
        let name = if rng.chance(15) {
            rng.pick(&TAXIWAY_WORDS).as_bytes().to_vec()
        } else {
            let length = rng.below(3);
            [vec![letter(rng)], capitals_and_digits(rng, length)].concat()
        };
        if !names.contains(&name) {
            names.push(name);
        }
    }
    names
}

fn apron(rng: &mut Rng) -> Name {
    match rng.below(10) {
        0..=2 => rng.pick(&KEYWORDS).as_bytes().to_vec(),
        3 => rng.pick(&["1", "01", "001", "0"]).as_bytes().to_vec(),
        4 => capitals_and_digits(rng, 16),
        _ => {
            let length = rng.between(1, 16);
            capitals_and_digits(rng, length)
        }
    }
}

pub fn item(rng: &mut Rng, letter: u8) -> Item {
    let reported = runway(rng, REPORTED);
    match letter {
        b'I' => {
            let any = rng.between(100, 9999) as u16;
            Item::Reduced { runway: runway(rng, REDUCED), length: rng.pick(&[100, 999, 1000, 9999, any, any]) }
        }
        b'J' => Item::DriftingSnow,
        b'K' => Item::LooseSand { runway: reported },
        b'L' => Item::Treated { runway: reported },
        b'M' => Item::Snowbank {
            runway: reported,
            banks: rng.pick(&[Banks::Left, Banks::Right, Banks::Both]),
            distance: rng.pick(&[1, 9, 10, 20, 99]),
        },
        b'N' => Item::TaxiwaySnowbanks { taxiways: taxiways(rng) },
        b'O' => Item::AdjacentSnowbank { runway: reported },
        b'P' => Item::PoorTaxiways { taxiways: if rng.chance(25) { None } else { Some(taxiways(rng)) } },
        _ => Item::PoorApron { name: if rng.chance(15) { None } else { Some(apron(rng)) } },
    }
}

/// Items that may stand together, in letter order; within a letter they stand as they came.
pub fn items(rng: &mut Rng, count: usize) -> Vec<Item> {
    let mut items: Vec<Item> = Vec::new();
    while items.len() < count {
        let letter = rng.pick(b"IJKLMNOPR");
        let item = item(rng, letter);
        if !items.iter().any(|other| item.excludes(other)) {
            items.push(item);
        }
    }
    items.sort_by_key(Item::letter);
    items
}

pub fn plain(rng: &mut Rng) -> Vec<u8> {
    if rng.chance(10) {
        return rng.pick(&["DRIFTING SNOW.", "TWY A POOR.", "..", "A .", "RWY 07R SWEPT 40M."]).as_bytes().to_vec();
    }
    let any = rng.between(2, MOST_PLAIN);
    let length = rng.pick(&[2, 3, 20, 60, any, any, MOST_PLAIN - 1, MOST_PLAIN]);
    let mut text: Vec<u8> =
        (0..length).map(|_| rng.pick(b"ABCDEFGHIJKLMNOPQRSTUVWXYZ0123456789      ..,/-+:")).collect();
    if text[0] == b' ' {
        text[0] = letter(rng);
    }
    text[length - 1] = b'.';
    text
}

pub fn record_of(rng: &mut Rng, rows: usize, item_count: usize, with_plain: bool) -> Record {
    let mut runways: Vec<Runway> = Vec::new();
    while runways.len() < rows {
        let number = runway(rng, REPORTED);
        if !runways.contains(&number) {
            runways.push(number);
        }
    }
    let mut rows: Vec<Row> = runways.into_iter().map(|runway| row(rng, runway)).collect();
    // Rows of one round of cars: mostly close to each other, some at the same minute.
    if rng.chance(70) {
        let times = round(rng);
        for row in &mut rows {
            row.time = rng.pick(&times);
        }
    }
    Record {
        priority: rng.pick(&[*b"GG", *b"DD"]),
        addresses: (0..rng.pick(&[1, 1, 2, 3, 7, MOST_ADDRESSES])).map(|_| word(rng)).collect(),
        filed: ((rng.pick(&[1, 9, 10, 28, 30, 31]) * 100 + rng.pick(&[0, 9, 12, 23])) * 100 + rng.pick(&[0, 30, 59]))
            as u32,
        originator: word(rng),
        region: word(rng),
        serial: rng.pick(&[1, 7, 10, 99, 123, 1000, 9999]),
        aerodrome: word(rng),
        rows,
        items: items(rng, item_count),
        plain: if with_plain { plain(rng) } else { Vec::new() },
    }
}

pub fn row_count(rng: &mut Rng) -> usize {
    rng.pick(&[1, 1, 1, 2, 2, 3, 4, 5, 6, 7, MOST_ROWS, MOST_ROWS])
}

pub fn item_count(rng: &mut Rng) -> usize {
    match rng.below(12) {
        0..=8 => rng.between(1, 5),
        9 => rng.between(6, 31),
        10 => 31,
        _ => MOST_ITEMS,
    }
}

/// A valid record.
pub fn record(rng: &mut Rng) -> Record {
    let rows = row_count(rng);
    let items = if rng.chance(40) { 0 } else { item_count(rng) };
    let with_plain = rng.chance(45);
    record_of(rng, rows, items, with_plain)
}
