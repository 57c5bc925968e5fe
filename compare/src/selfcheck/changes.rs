//! The row shown and a new one: those by hand, and what holds for all of them.
use crate::due::{due, Change};
use crate::edges::{self, Pair};
use crate::generate::{self, Rng};
use crate::report::Report;
use crate::row::Row;

/// Every pair of rows by hand is answered as it stands there, in either order.
pub fn by_hand(report: &mut Report) {
    for Pair { old, new, change } in edges::row_pairs_by_hand() {
        report.count(change.refusal);
        hold("a pair of rows by hand", &old, &new, change, report);
        hold("a pair of rows by hand, exchanged,", &new, &old, change, report);
    }
}

/// What holds for any two rows. Whether a notice is due.
pub fn check(rng: &mut Rng, report: &mut Report) -> bool {
    let (old, new) = generate::row_pair(rng);
    let told = due(&old, &new);
    report.count(told.refusal);
    if told.refusal > 0 {
        let nothing = Change { refusal: told.refusal, ..Change::default() };
        hold("a refused pair of rows", &old, &new, nothing, report);
    }
    hold("a pair of rows exchanged", &new, &old, told, report);
    // A row changes nothing against itself.
    for row in [&old, &new] {
        let refusal = if row.is_valid() { 0 } else { 19 };
        hold("a row against itself", row, row, Change { refusal, ..Change::default() }, report);
    }
    // The times don't matter: each row may as well have the other's.
    let [earlier, later] = [(&old, new.time), (&new, old.time)].map(|(row, time)| Row { time, ..row.clone() });
    hold("a pair of rows at other times", &earlier, &later, told, report);
    // Each third is judged by itself: put elsewhere in both rows, it counts there.
    let [one, other] = [&old, &new].map(|row| Row { thirds: turned(row.thirds), ..row.clone() });
    hold("a pair of rows with thirds turned", &one, &other, Change { counts: turned(told.counts), ..told }, report);
    told.due
}

fn turned<T>([one, two, three]: [T; 3]) -> [T; 3] {
    [two, three, one]
}

fn hold(what: &str, old: &Row, new: &Row, expected: Change, report: &mut Report) {
    let told = due(old, new);
    if told != expected {
        report.differ_on(what, &format!("{:?}", (old, new)), &format!("{expected:?}"), &format!("{told:?}"));
    }
}

#[cfg(test)]
mod tests {
    use super::*;

    #[test]
    fn what_holds_for_any_two_rows() {
        let mut rng = Rng::new(1);
        let mut report = Report::new();
        (0..10_000).for_each(|_| {
            check(&mut rng, &mut report);
        });
        assert_eq!(report.differences(), 0);
    }
}
