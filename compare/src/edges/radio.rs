//! Lists of rows for the radio and radio records by hand, and what the documents tell of them: request 7 of document 02.
//!
//! The bytes were worked out apart from the second reader. Each number of a record is a word in hexadecimal digits.
use super::changes::{row, BREACHES, GOOD};
use crate::row::Row;

/// A list of rows by hand and its record, or the refusal number.
pub struct Listed {
    pub rows: Vec<Row>,
    pub told: Result<Vec<u8>, u8>,
}

/// A record by hand and its rows, or the refusal number.
pub struct Received {
    pub record: Vec<u8>,
    pub told: Result<Vec<Row>, u8>,
}

/// Rows and what stands for them, the count apart.
const RECORDS: &[(&[&str], &str)] = &[
    // The shortest record of all.
    (&["01010000 01 0/0/0 NR/NR/NR NR/NR/NR NR/NR/NR"], "00 04 00 00 00 00 00 00 00 00 00 00 00 00 00"),
    // The rows of document 01's example, either way round.
    (
        &["01120610 07L 3/5/5 75/25/NR 12/NR/NR DRY SNOW/FROST/DRY", "<R>"],
        "D27E 1D 03 05 05 03 01 00 0C 00 00 02 05 0F 00 F07E 1F 06 06 06 00 00 00 00 00 00 0F 0F 0F 00",
    ),
    (
        &["<R>", "01120610 07L 3/5/5 75/25/NR 12/NR/NR DRY SNOW/FROST/DRY"],
        "F07E 1F 06 06 06 00 00 00 00 00 00 0F 0F 0F 00 D27E 1D 03 05 05 03 01 00 0C 00 00 02 05 0F 00",
    ),
    // 300 minutes and 300 mm are AC 02.
    (
        &["01010500 07 2/2/2 NR/NR/NR 300/300/300 SLUSH/SLUSH/SLUSH"],
        "AC02 1C 02 02 02 00 00 00 AC02 AC02 AC02 07 07 07 00",
    ),
    // Each group of thirds keeps the order of the thirds.
    (&["<D>0/1/2 25/50/75 NR/NR/NR ICE/WET/FROST"], "F07E 1C 00 01 02 01 02 03 00 00 00 06 0A 05 00"),
    (&["<D>3/4/5 100/NR/25 NR/NR/NR WET ICE/DRY/ICE"], "F07E 1C 03 04 05 04 00 01 00 00 00 0B 0F 06 00"),
    (&["<D>6/0/6 NR/NR/NR 04/NR/999 STANDING WATER/NR/SLUSH"], "F07E 1C 06 00 06 00 00 00 04 00 E707 08 00 07 00"),
    // A depth where it takes a group more, the least and the most.
    (&["<D>2/2/2 NR/NR/NR 127/128/129 SLUSH/SLUSH/SLUSH"], "F07E 1C 02 02 02 00 00 00 7F 8001 8101 07 07 07 00"),
    (&["<D>5/3/3 NR/NR/NR 03/99/100 DRY SNOW/DRY SNOW/DRY SNOW"], "F07E 1C 05 03 03 00 00 00 03 63 64 02 02 02 00"),
    (&["<D>5/2/2 NR/NR/NR 03/255/256 SLUSH/SLUSH/SLUSH"], "F07E 1C 05 02 02 00 00 00 03 FF01 8002 07 07 07 00"),
    (&["<D>5/3/3 NR/NR/NR 03/04/999 WET SNOW/WET SNOW/WET SNOW"], "F07E 1C 05 03 03 00 00 00 03 04 E707 0C 0C 0C 00"),
    // The descriptions, NR first and then in document 01's order.
    (
        &["<D>6/6/6 NR/COMPACTED SNOW/DRY SNOW", "<T> 08 6/6/6 DRY SNOW ON TOP OF COMPACTED SNOW/NR/FROST"],
        "F07E 1C 06 06 06 00 00 00 00 00 00 00 01 02 00 F07E 20 06 06 06 00 00 00 00 00 00 03 00 05 00",
    ),
    (
        &[
            "<D>6/6/6 DRY SNOW ON TOP OF ICE/ICE/SLUSH",
            "<T> 08 6/6/6 STANDING WATER/WATER ON TOP OF COMPACTED SNOW/WET",
        ],
        "F07E 1C 06 06 06 00 00 00 00 00 00 04 06 07 00 F07E 20 06 06 06 00 00 00 00 00 00 08 09 0A 00",
    ),
    (
        &["<D>6/6/6 WET ICE/WET SNOW/DRY", "<T> 08 6/6/6 WET SNOW ON TOP OF COMPACTED SNOW/WET SNOW ON TOP OF ICE/NR"],
        "F07E 1C 06 06 06 00 00 00 00 00 00 0B 0C 0F 00 F07E 20 06 06 06 00 00 00 00 00 00 0D 0E 00 00",
    ),
    // The width, and missing.
    (
        &["<D><S> 01", "<T> 07L <S> 99"],
        "F07E 1C 06 06 06 00 00 00 00 00 00 0F 0F 0F 01 F07E 1D 06 06 06 00 00 00 00 00 00 0F 0F 0F 63",
    ),
];

/// Times and their minutes: where these take a group more, about the ends of months and of the season, and the last.
const TIMES: &[(&str, &str)] = &[
    ("01010000", "00"),
    ("01010001", "01"),
    ("01010207", "7F"),
    ("01010208", "8001"),
    ("01010500", "AC02"),
    ("01012359", "9F0B"),
    ("01020000", "A00B"),
    ("01120903", "FF7F"),
    ("01120904", "808001"),
    ("01312359", "DFDC02"),
    ("02010000", "E0DC02"),
    ("02282359", "DF9705"),
    ("02290000", "E09705"),
    ("02292359", "FFA205"),
    ("03010000", "80A305"),
    ("06302359", "BFFF0F"),
    ("07010000", "C0FF0F"),
    ("11302359", "DFB81D"),
    ("12010000", "E0B81D"),
    ("12310000", "A08A20"),
    ("12312359", "BF9520"),
];

const RUNWAYS: &[(&str, &str)] = &[
    ("01", "04"),
    ("01L", "05"),
    ("01C", "06"),
    ("01R", "07"),
    ("02", "08"),
    ("07", "1C"),
    ("07L", "1D"),
    ("07C", "1E"),
    ("07R", "1F"),
    ("17R", "47"),
    ("18", "48"),
    ("18L", "49"),
    ("18C", "4A"),
    ("18R", "4B"),
];

/// Eight rows of 20 bytes each: no record is longer than 161 bytes.
const LONGEST: [(&str, &str); 8] = [
    ("17", "44"),
    ("17L", "45"),
    ("17C", "46"),
    ("17R", "47"),
    ("18", "48"),
    ("18L", "49"),
    ("18C", "4A"),
    ("18R", "4B"),
];

/// The record of one good row, number by number: the count, the minutes, the runway, three codes, three coverages, three
/// depths, three descriptions and the width.
const NUMBERS: [&str; 16] =
    ["01", "F07E", "1C", "02", "05", "06", "02", "01", "00", "0A", "00", "00", "08", "05", "0F", "1E"];
const WIDTH: usize = NUMBERS.len() - 1;

/// Numbers that may not be told at some places, whatever else is told. The last of each would be taken if it were cut down to
/// the bits that suffice there.
const NO_VALUES: &[(&[usize], &[&str])] = &[
    (&[0], &["00", "09", "0A", "7F", "8001", "FFFF7F", "8102", "818004"]),
    (&[1], &["C09520", "C19520", "FFFF7F", "808040"]),
    (&[2], &["00", "01", "02", "03", "4C", "4D", "7F", "8001", "848001", "9C02"]),
    (&[3, 4, 5], &["07", "08", "7F", "8001", "808001", "8502"]),
    (&[6, 7, 8], &["05", "06", "19", "32", "64", "8001", "8002", "808004"]),
    (&[9, 10, 11], &["01", "02", "E807", "E907", "8008", "FF7F", "808004", "8A8004"]),
    (&[12, 13, 14], &["10", "11", "7F", "8001", "808001", "8802"]),
    (&[15], &["64", "65", "7F", "8001", "FF01", "808001", "9E02"]),
];

/// What is no number, and what may become one or not.
const NO_FORMS: [&str; 9] =
    ["8000", "FF00", "808000", "FFFF00", "808080", "FFFFFF", "80808000", "81808000", "80808001"];
const BEGUN: [&str; 9] = ["", "80", "81", "9E", "FF", "8080", "9E80", "80FF", "FFFF"];

/// Numbers that may each be told at their places, but not beside the others of the row: a coverage under DRY or NR, 3 mm of
/// STANDING WATER, a depth under a kind that has none.
const CONTRARY: [(usize, &str); 12] = [
    (8, "01"),
    (8, "04"),
    (13, "00"),
    (13, "0F"),
    (9, "03"),
    (10, "03"),
    (10, "04"),
    (11, "0A"),
    (11, "E707"),
    (12, "05"),
    (12, "00"),
    (12, "0F"),
];

/// Whole records that are refused.
const REFUSED: &[(&str, u8)] = &[
    ("", 30),
    ("01", 30),
    ("08", 30),
    ("00", 32),
    ("09", 32),
    ("80", 30),
    ("8080", 30),
    ("808080", 31),
    ("8000", 31),
    ("808000", 31),
    ("8900", 31),
    ("8001", 32),
    ("808001", 32),
    // No row, be there one, and bytes that are no number.
    ("00 F07E 1C 06 06 06 00 00 00 00 00 00 0F 0F 0F 00", 32),
    ("00 808080", 32),
    ("09 808080", 32),
    // The first met from the left: a value, a form or the end, whatever comes behind it.
    ("01 F07E 03 8000", 32),
    ("01 F07E 8000 07", 31),
    ("01 C09520 808080", 32),
    ("01 F07E 1C 07 80", 32),
    ("01 F07E 1C 06 8700 07", 31),
    ("01 F07E 1C 06 06 06 05", 32),
    ("01 F07E 1C 06 06 06 00 00 00 01", 32),
    ("01 F07E 1C 06 06 06 00 00 00 00 00 00 10", 32),
    // A coverage under DRY waits for the width, and what stands before that is met first.
    ("01 F07E 1C 06 06 06 01 00 00 00 00 00 0F 0F 0F", 30),
    ("01 F07E 1C 06 06 06 01 00 00 00 00 00 0F 0F 0F 80", 30),
    ("01 F07E 1C 06 06 06 01 00 00 00 00 00 0F 0F 0F 8000", 31),
    ("01 F07E 1C 06 06 06 01 00 00 00 00 00 0F 0F 10 8000", 32),
    ("01 F07E 1C 06 06 06 01 00 00 00 00 00 0F 0F 0F 64", 32),
    ("01 F07E 1C 06 06 06 01 00 00 00 00 00 0F 0F 0F 00", 32),
    // Of two rows the first is judged before the second begins.
    ("02 F07E 1C 06 06 06 01 00 00 00 00 00 0F 0F 0F 00", 32),
    ("02 F07E 1C 06 06 06 01 00 00 00 00 00 0F 0F 0F 00 808080", 32),
    ("02 F07E 1C 06 06 06 00 00 00 00 00 00 0F 0F 0F 00", 30),
    ("02 F07E 1C 06 06 06 00 00 00 00 00 00 0F 0F 0F 00 808080", 31),
    ("02 F07E 1C 06 06 06 00 00 00 00 00 00 0F 0F 0F 00 C09520", 32),
    // A runway twice, whatever else the rows tell, waits for the width of the second.
    ("02 F07E 1C 06 06 06 00 00 00 00 00 00 0F 0F 0F 00 F07E 1C", 30),
    ("02 F07E 1C 06 06 06 00 00 00 00 00 00 0F 0F 0F 00 F07E 1C 06 06 06 00 00 00 00 00 00 0F 0F 0F", 30),
    ("02 F07E 1C 06 06 06 00 00 00 00 00 00 0F 0F 0F 00 F07E 1C 06 06 06 00 00 00 00 00 00 0F 0F 0F 8000", 31),
    ("02 F07E 1C 06 06 06 00 00 00 00 00 00 0F 0F 0F 00 F07E 1C 06 06 06 00 00 00 00 00 00 0F 0F 0F 00", 32),
    ("02 00 1C 00 00 00 00 00 00 00 00 00 00 00 00 00 F07E 1C 06 06 06 00 00 00 00 00 00 0F 0F 0F 63", 32),
    // The count is of fewer rows than stand there, or of more.
    ("01 F07E 1C 06 06 06 00 00 00 00 00 00 0F 0F 0F 00 F07E 1D 06 06 06 00 00 00 00 00 00 0F 0F 0F 00", 32),
    ("03 F07E 1C 06 06 06 00 00 00 00 00 00 0F 0F 0F 00 F07E 1D 06 06 06 00 00 00 00 00 00 0F 0F 0F 00", 30),
];

/// What may be left over.
const LEFT_OVER: [&str; 7] = ["00", "01", "7F", "80", "FF", "8000", "808080"];

/// The lists by hand.
pub fn radio_lists_by_hand() -> Vec<Listed> {
    let rows: Vec<Row> = (1..=9).map(|number| row(&format!("<T> {number:02} <S>"))).collect();
    let nine: Vec<&Row> = rows.iter().collect();
    let good = row(GOOD);
    let again = Row { time: 12_312_359, width: 0, ..good.clone() };
    let mut lists: Vec<Listed> = taken().into_iter().map(|(rows, record)| Listed { rows, told: Ok(record) }).collect();
    lists.extend([
        unlisted(&[], 32),
        unlisted(&nine, 32),
        unlisted(&[nine[0]; 9], 32),
        unlisted(&[nine[0]; 255], 32),
        // A runway twice, by rows that are equal and that are not, next to each other and far apart.
        unlisted(&[&good, &good], 32),
        unlisted(&[&good, &again], 32),
        unlisted(&[&good, nine[0], &again], 32),
        unlisted(&[&nine[..7], &[nine[0]]].concat(), 32),
    ]);
    for breach in BREACHES {
        let mut bad = good.clone();
        breach(&mut bad);
        lists.extend([
            // Alone, first and last, behind and before a runway twice, and itself of such a one.
            unlisted(&[&bad], 19),
            unlisted(&[&bad, nine[0]], 19),
            unlisted(&[&nine[..7], &[&bad]].concat(), 19),
            unlisted(&[nine[0], nine[0], &bad], 19),
            unlisted(&[&bad, nine[0], nine[0]], 19),
            unlisted(&[&good, &bad], 19),
            unlisted(&[&bad, &bad], 19),
            // Over eight comes first.
            unlisted(&[&bad; 9], 32),
            unlisted(&[&nine[..8], &[&bad]].concat(), 32),
        ]);
    }
    lists
}

fn unlisted(rows: &[&Row], refusal: u8) -> Listed {
    Listed { rows: rows.iter().map(|&row| row.clone()).collect(), told: Err(refusal) }
}

/// The records by hand.
pub fn radio_records_by_hand() -> Vec<Received> {
    let mut records: Vec<Received> = REFUSED.iter().map(|&(words, refusal)| refused(&[words], refusal)).collect();
    records.extend(wrong_numbers());
    records.extend(contrary_rows());
    // A runway twice, with another between.
    records.push(refused(&[&["03"], &NUMBERS[1..], &["00 04"], &NUMBERS[3..], &NUMBERS[1..]].concat(), 32));
    let taken = taken();
    records.extend(taken.iter().flat_map(|(_, record)| shorter_and_longer(record)));
    records.extend(taken.into_iter().map(|(rows, record)| Received { record, told: Ok(rows) }));
    records
}

fn refused(words: &[&str], refusal: u8) -> Received {
    Received { record: bytes(words), told: Err(refusal) }
}

/// The good row's record with each number wrong in turn.
fn wrong_numbers() -> Vec<Received> {
    let mut records = Vec::new();
    for &(places, numbers) in NO_VALUES {
        for &place in places {
            records.extend(numbers.iter().flat_map(|number| decided(place, number, 32)));
        }
    }
    for (place, number) in NUMBERS.iter().enumerate() {
        // The good number too, with a group of zero behind it.
        let mut groups = bytes(&[number]);
        let last = groups.pop().unwrap_or(0);
        let longer: String = groups.iter().chain(&[0x80 | last, 0]).map(|group| format!("{group:02X}")).collect();
        let forms = NO_FORMS.into_iter().chain([longer.as_str()]);
        records.extend(forms.flat_map(|form| decided(place, form, 31)));
        records.extend(BEGUN.iter().map(|begun| refused(&[&NUMBERS[..place], &[begun]].concat(), 30)));
    }
    records
}

/// What is wrong with a number decides at once: behind it the record goes on, ends, or is no record.
fn decided(place: usize, number: &str, refusal: u8) -> Vec<Received> {
    let behind = [&NUMBERS[place + 1..], &[], &["FFFFFF"]];
    behind.iter().map(|behind| refused(&[&NUMBERS[..place], &[number], behind].concat(), refusal)).collect()
}

/// What is wrong with several numbers decides behind the width.
fn contrary_rows() -> Vec<Received> {
    let mut records = Vec::new();
    for (place, number) in CONTRARY {
        let mut numbers = NUMBERS;
        numbers[place] = number;
        let before = &numbers[..WIDTH];
        records.extend((0..=WIDTH).map(|end| refused(&before[..end], 30)));
        records.extend([
            refused(&[before, &["80"]].concat(), 30),
            refused(&[before, &["8000"]].concat(), 31),
            refused(&[before, &["64"]].concat(), 32),
            refused(&numbers, 32),
            refused(&[&numbers[..], &["FFFFFF"]].concat(), 32),
            // As the first of two rows, and as the second.
            refused(&[&["02"], &numbers[1..]].concat(), 32),
            refused(&[&["02 00 04"], &NUMBERS[3..], &numbers[1..]].concat(), 32),
        ]);
    }
    records
}

/// A record cut at every byte, and with bytes left over.
fn shorter_and_longer(record: &[u8]) -> Vec<Received> {
    let shorter = (0..record.len()).map(|end| (record[..end].to_vec(), 30));
    let left_over = LEFT_OVER.iter().map(|words| bytes(&[words])).chain([record.to_vec()]);
    let longer = left_over.map(|rest| ([record, &rest].concat(), 32));
    shorter.chain(longer).map(|(record, refusal)| Received { record, told: Err(refusal) }).collect()
}

/// The lists that have a record, with it.
fn taken() -> Vec<(Vec<Row>, Vec<u8>)> {
    let mut taken: Vec<(Vec<Row>, Vec<u8>)> = Vec::new();
    let mut take = |rows: &[String], words: &str| {
        let count = format!("{:02X}", rows.len());
        taken.push((rows.iter().map(|text| row(text)).collect(), bytes(&[&count, words])));
    };
    for &(rows, words) in RECORDS {
        take(&rows.iter().map(|text| text.to_string()).collect::<Vec<_>>(), words);
    }
    take(&[GOOD.to_string()], &NUMBERS[1..].join(" "));
    for (time, minutes) in TIMES {
        take(&[format!("{time} 07 <S>")], &format!("{minutes} 1C 06 06 06 00 00 00 00 00 00 0F 0F 0F 00"));
    }
    for (runway, number) in RUNWAYS {
        take(&[format!("<T> {runway} <S>")], &format!("F07E {number} 06 06 06 00 00 00 00 00 00 0F 0F 0F 00"));
    }
    let (rows, words): (Vec<String>, Vec<String>) = LONGEST
        .iter()
        .map(|(runway, number)| {
            let row = "6/6/6 100/100/100 999/999/999 DRY SNOW/WET SNOW/SLUSH 99";
            let words = "06 06 06 04 04 04 E707 E707 E707 02 0C 07 63";
            (format!("12312359 {runway} {row}"), format!("BF9520 {number} {words}"))
        })
        .unzip();
    take(&rows, &words.join(" "));
    take(&rows[..7], &words[..7].join(" "));
    taken
}

fn bytes(words: &[&str]) -> Vec<u8> {
    let digits: String = words.concat().split(' ').collect();
    let byte = |place| u8::from_str_radix(&digits[place..place + 2], 16).expect("two hexadecimal digits");
    (0..digits.len()).step_by(2).map(byte).collect()
}

#[cfg(test)]
mod tests {
    use super::*;
    use crate::row::Runway;

    #[test]
    fn the_longest_and_the_shortest_record() {
        let lengths = || taken().into_iter().map(|(_, record)| record.len());
        assert_eq!((lengths().min(), lengths().max()), (Some(16), Some(161)));
    }

    /// Every runway has a number of its own.
    #[test]
    fn runways_by_hand() {
        for (text, number) in RUNWAYS.iter().chain(&LONGEST) {
            let Runway { number: told, side } = row(&format!("<T> {text} <S>")).runway;
            assert_eq!(bytes(&[number]), [4 * told + side], "{text}");
        }
    }
}
