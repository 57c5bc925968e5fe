//! The order of the season: the reports by hand, and the latest time found in another way.
use std::io;

use crate::desk::{desk, stored_times, Shift};
use crate::edges;
use crate::models;
use crate::report::Report;

/// From the season's last month back to its first.
const BACK: [u32; 12] = [6, 5, 4, 3, 2, 1, 12, 11, 10, 9, 8, 7];

/// The time observed last: that of the last month that has any. No two times of different months are compared.
pub fn observed_last(times: &[u32]) -> Option<u32> {
    BACK.iter().find_map(|&month| times.iter().copied().filter(|time| time / 1_000_000 == month).max())
}

/// The reports by hand are answered, and the time is stored, as it stands there. The desk of the models in Python is asked
/// for the same.
pub fn by_hand(report: &mut Report) -> io::Result<()> {
    for night in edges::nights_by_hand() {
        let (input, printed) = (night.input(), night.printed());
        night.answers().into_iter().for_each(|answer| report.count(answer));
        for (whose, told) in [("", desk(&input)), (", by desk.py", models::answers("desk.py", input.clone())?)] {
            if told != printed {
                let (expected, told) = (printed.escape_ascii().to_string(), told.escape_ascii().to_string());
                report.differ(&format!("reports by hand{whose}"), &input, &expected, &told);
            }
        }
        let stored = Shift::read(&input).and_then(|shift| stored_times(&shift));
        if stored != Some(night.stored()) {
            report.differ("times stored by hand", &input, &format!("{:?}", night.stored()), &format!("{stored:?}"));
        }
    }
    Ok(())
}

#[cfg(test)]
mod tests {
    use super::*;
    use crate::generate::{record, Rng};

    #[test]
    fn the_latest_time_in_two_ways() {
        let mut rng = Rng::new(1);
        for _ in 0..1000 {
            let record = record(&mut rng);
            let times: Vec<u32> = record.rows.iter().map(|row| row.time).collect();
            assert_eq!(Some(record.latest()), observed_last(&times), "{times:?}");
        }
        assert_eq!(observed_last(&[]), None);
    }
}
