//! Lists of rows for the radio and radio records: those by hand, what holds for all of them, and the model in Python.
use std::io;

use crate::edges::{self, Listed, Received};
use crate::generate::{self, Rng};
use crate::models;
use crate::radio::{read, write};
use crate::report::Report;
use crate::row::Row;
use crate::text::lines;

type Told = Result<Vec<Row>, u8>;

/// Every list and record by hand is answered as it stands there.
pub fn by_hand(report: &mut Report) {
    for Listed { rows, told } in edges::radio_lists_by_hand() {
        hold_written("a list for the radio by hand", &rows, told, report);
    }
    for Received { record, told } in edges::radio_records_by_hand() {
        report.count(told.as_ref().err().copied().unwrap_or(0));
        hold("a radio record by hand", &record, told, report);
    }
}

/// What holds for any list: a record is read as the list, and which refusal it is does not depend on the order of the rows.
pub fn list(rng: &mut Rng, report: &mut Report) {
    let rows = generate::radio_list(rng);
    let told = write(&rows);
    report.count(told.as_ref().err().copied().unwrap_or(0));
    match told {
        Ok(record) => hold("a list for the radio, read again,", &record, Ok(rows), report),
        Err(refusal) => {
            let turned: Vec<Row> = rows.into_iter().rev().collect();
            hold_written("a list for the radio turned round", &turned, Err(refusal), report);
        }
    }
}

/// What holds for any record. Behind what was met first nothing matters, and before it there is nothing to be met.
pub fn record(rng: &mut Rng, report: &mut Report) {
    let record = generate::radio_record(rng);
    let told = read(&record);
    report.count(told.as_ref().err().copied().unwrap_or(0));
    let shorter = &record[..rng.below(record.len().max(1))];
    let longer = [&record[..], &[rng.below(256) as u8]].concat();
    match told {
        Ok(rows) => {
            hold_written("a radio record, written again,", &rows, Ok(record.clone()), report);
            hold("a radio record cut", shorter, Err(30), report);
            hold("a radio record with a byte left over", &longer, Err(32), report);
        }
        Err(30) => hold("a radio record cut again", shorter, Err(30), report),
        Err(refusal) => hold("a refused radio record with a byte more", &longer, Err(refusal), report),
    }
}

/// The records by hand and generated ones are answered as by radio.py.
pub fn model(rng: &mut Rng, count: usize, report: &mut Report) -> io::Result<()> {
    let mut records: Vec<Vec<u8>> =
        edges::radio_records_by_hand().into_iter().map(|received| received.record).collect();
    records.extend((0..count).map(|_| generate::radio_record(rng)));
    let digits = |record: &Vec<u8>| record.iter().map(|byte| format!("{byte:02x}")).collect::<String>() + "\n";
    let answers = models::answers("radio.py", records.iter().map(digits).collect::<String>().into_bytes())?;
    let answers = lines(&answers);
    // They are compared in pairs, so that a record without an answer would pass.
    if answers.len() != records.len() {
        report.differ("answers of radio.py", b"all", &records.len().to_string(), &answers.len().to_string());
    }
    for (record, &expected) in records.iter().zip(&answers) {
        let read = read(record);
        report.count(read.as_ref().err().copied().unwrap_or(0));
        let told = match read {
            Ok(rows) => format!("0 {}", rows.iter().map(Row::text).collect::<Vec<_>>().join(";")),
            Err(refusal) => refusal.to_string(),
        };
        if told.as_bytes() != expected {
            report.differ("a radio record", record, &expected.escape_ascii().to_string(), &told);
        }
    }
    report.print_counts(&format!("radio.py: {} records", records.len()));
    Ok(())
}

fn hold(what: &str, record: &[u8], expected: Told, report: &mut Report) {
    let told = read(record);
    if told != expected {
        report.differ(what, record, &format!("{expected:?}"), &format!("{told:?}"));
    }
}

fn hold_written(what: &str, rows: &[Row], expected: Result<Vec<u8>, u8>, report: &mut Report) {
    let told = write(rows);
    if told != expected {
        report.differ_on(what, &format!("{rows:?}"), &format!("{expected:02x?}"), &format!("{told:02x?}"));
    }
}

#[cfg(test)]
mod tests {
    use super::*;

    #[test]
    fn what_holds_for_any_list_and_any_record() {
        let mut rng = Rng::new(1);
        let mut report = Report::new();
        for _ in 0..10_000 {
            list(&mut rng, &mut report);
            record(&mut rng, &mut report);
        }
        assert_eq!(report.differences(), 0);
    }
}
