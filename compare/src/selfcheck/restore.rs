//! Boards restored from their notices: those by hand, and what holds for all of them.
use std::io;

use crate::desk::{self, desk, live, stored_times, Shift};
use crate::edges::{self, EXAMPLE};
use crate::generate::{self, Rng};
use crate::models;
use crate::reader::{read, write};
use crate::report::Report;
use crate::text::lines;

/// The boards by hand are written, and restored by their rows in each order, as it stands there. The desk of the models in
/// Python is fed the same.
pub fn by_hand(report: &mut Report) -> io::Result<()> {
    for replaced in edges::replaced_by_hand() {
        let (input, expected) = (replaced.input(), replaced.notice());
        report.count(expected.as_ref().err().copied().unwrap_or(0));
        let told = desk::notice(&input, EXAMPLE.as_bytes());
        if told != expected {
            report.differ("a board's notice by hand", &input, &shown(&expected), &shown(&told));
        }
        stores("a board by hand", &input, replaced.latest, report);
        let printed = replaced.printed();
        for order in replaced.orders() {
            let fed = replaced.fed(&order);
            stores("a board restored by hand", &fed, replaced.latest, report);
            for (whose, told) in [("", desk(&fed)), (", by desk.py", models::answers("desk.py", fed.clone())?)] {
                if told != printed {
                    let (expected, told) = (printed.escape_ascii().to_string(), told.escape_ascii().to_string());
                    report.differ(&format!("a board restored by hand{whose}"), &fed, &expected, &told);
                }
            }
        }
    }
    Ok(())
}

fn shown(notice: &Result<Vec<u8>, u8>) -> String {
    notice.as_ref().map_or_else(u8::to_string, |text| text.escape_ascii().to_string())
}

fn stores(what: &str, input: &[u8], latest: u32, report: &mut Report) {
    let told = Shift::read(input).and_then(|shift| last_stored(&shift));
    if told != Some(latest) {
        report.differ(&format!("the time stored by {what}"), input, &latest.to_string(), &format!("{told:?}"));
    }
}

/// The time that a board stores after its last report; none where it does not open.
fn last_stored(shift: &Shift) -> Option<u32> {
    stored_times(shift)?.pop()
}

/// A board's notice, read back, restores it: a fresh one takes all rows in any order, shows them and stores their time. While
/// it has none of them there is nothing to write.
pub fn check(rng: &mut Rng, report: &mut Report) {
    let shift = generate::reported_shift(rng);
    let model = generate::record(rng);
    let told = shift.fed(&[]).notice(model.clone()).err();
    if told != Some(21) {
        report.differ_on("the notice of a fresh board", &format!("{shift:?}"), "21", &format!("{told:?}"));
    }
    let notice = shift.notice(model).map(|record| write(&record));
    let mut rows = match notice.as_deref().map(read) {
        Ok(Ok(record)) => record.rows,
        other => return report.differ_on("a notice", &format!("{shift:?}"), "one that reads", &format!("{other:?}")),
    };
    rng.shuffle(&mut rows);
    let fed = shift.fed(&rows);
    let expected = ("OPEN\n".to_string() + &"0\n".repeat(rows.len()) + &rows_printed(&shift), last_stored(&shift));
    let told = (String::from_utf8_lossy(&live(&fed)).into_owned(), last_stored(&fed));
    if told != expected {
        report.differ_on(
            "a restored board",
            &format!("{:?}", (shift, rows)),
            &format!("{expected:?}"),
            &format!("{told:?}"),
        );
    }
}

/// The rows that a board prints behind its answers.
fn rows_printed(shift: &Shift) -> String {
    let printed = live(shift);
    let rows = lines(&printed).into_iter().skip(1 + shift.reports.len());
    rows.map(|row| String::from_utf8_lossy(row).into_owned() + "\n").collect()
}

#[cfg(test)]
mod tests {
    use super::*;

    #[test]
    fn any_board_is_restored() {
        let mut rng = Rng::new(1);
        let mut report = Report::new();
        (0..2000).for_each(|_| check(&mut rng, &mut report));
        assert_eq!(report.differences(), 0);
    }
}
