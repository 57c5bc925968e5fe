//! Observation times of one round of cars, often about New Year, 1 July or the end of February: there the order of the
//! season and that of the eight digits part, or a month has its odd day.
use super::records::time;
use super::Rng;

const NEW_YEAR: [u32; 6] = [12_312_350, 12_312_358, 12_312_359, 1_010_000, 1_010_001, 1_010_010];
const JULY: [u32; 6] = [6_302_350, 6_302_358, 6_302_359, 7_010_000, 7_010_001, 7_010_010];
const FEBRUARY: [u32; 6] = [2_282_358, 2_282_359, 2_290_000, 2_292_359, 3_010_000, 3_010_001];

/// A time next to one of the three.
pub fn seam(rng: &mut Rng) -> u32 {
    let about = rng.pick(&[NEW_YEAR, NEW_YEAR, JULY, FEBRUARY]);
    rng.pick(&about)
}

/// The times that a board or a notice has: few, so that equal and earlier ones are common. Some are of one morning, and
/// some of any days of the season.
pub fn round(rng: &mut Rng) -> Vec<u32> {
    match rng.below(100) {
        0..=34 => {
            let morning = time(rng) / 10_000 * 10_000 + 600;
            (0..8).map(|minute| morning + minute).collect()
        }
        35..=64 => NEW_YEAR.to_vec(),
        65..=75 => JULY.to_vec(),
        76..=84 => FEBRUARY.to_vec(),
        _ => (0..8).map(|_| time(rng)).collect(),
    }
}

/// The same time, the numbers next to it, the same day and hour half a year off, or a time next to a seam: as a number, it
/// need not be a time.
#[cfg(feature = "library")]
pub fn near(rng: &mut Rng, time: u32) -> u32 {
    let half_a_year_off = if time < 7_000_000 { time + 6_000_000 } else { time - 6_000_000 };
    let seam = seam(rng);
    rng.pick(&[time, time.wrapping_add(1), time.wrapping_sub(1), half_a_year_off, seam, seam])
}

#[cfg(test)]
mod tests {
    use super::*;
    use crate::generate::{board_notice, desk_input, message, record, shift};
    use crate::reader::{heading_time, read, row_times, Record};
    use crate::refused::Refused;
    use crate::row::{is_real_time, Row};
    use crate::text::lines;
    use crate::{desk, season};

    const ALL: usize = 4000;

    /// How many of a hundred, rounded down.
    fn share(count: usize, all: usize) -> usize {
        100 * count / all
    }

    fn days(record: &Record) -> Vec<u32> {
        record.rows.iter().map(|row| row.time / 10_000).collect()
    }

    fn times(record: &Record) -> Vec<u32> {
        record.rows.iter().map(|row| row.time).collect()
    }

    /// What would be the latest time, were times compared by their digits.
    fn by_digits(times: &[u32]) -> u32 {
        times.iter().copied().max().unwrap_or(0)
    }

    #[test]
    fn all_of_them_are_times() {
        let mut rng = Rng::new(1);
        for _ in 0..ALL {
            assert!(is_real_time(seam(&mut rng)) && round(&mut rng).into_iter().all(is_real_time));
        }
    }

    /// Of the records with two rows or more: so many in a hundred have rows right on both sides of a seam.
    #[test]
    fn the_rows_of_records_stand_on_both_sides_of_each_seam() {
        let mut rng = Rng::new(1);
        let records: Vec<Record> = (0..ALL).map(|_| record(&mut rng)).filter(|record| record.rows.len() > 1).collect();
        let both = |one: u32, other: u32| {
            let met = records.iter().map(days).filter(|days| days.contains(&one) && days.contains(&other)).count();
            share(met, records.len())
        };
        assert!(both(1231, 101) >= 10, "{}", both(1231, 101));
        assert!(both(630, 701) >= 4, "{}", both(630, 701));
        assert!(both(228, 229) >= 2 && both(229, 301) >= 2, "{} {}", both(228, 229), both(229, 301));
        let parted = records.iter().filter(|record| record.latest() != by_digits(&times(record))).count();
        assert!(share(parted, records.len()) >= 30, "{parted} of {}", records.len());
        // The same minute twice is met as well, and what is no seam.
        let morning = records.iter().map(days).filter(|days| days.iter().all(|day| *day == days[0])).count();
        assert!(share(morning, records.len()) >= 20, "{morning} of {}", records.len());
    }

    /// A heading that is right in the season alone is accepted, and one that is right by its digits alone is 12.
    #[test]
    fn headings_are_right_in_the_season_alone_and_by_their_digits_alone() {
        let mut rng = Rng::new(1);
        let (mut accepted, mut in_season, mut refused, mut in_digits) = (0, 0, 0, 0);
        for _ in 0..ALL {
            let message = message(&mut rng).message;
            match read(&message) {
                Ok(record) => {
                    accepted += 1;
                    in_season += usize::from(record.latest() != by_digits(&times(&record)));
                }
                Err(Refused { number: 12, .. }) => {
                    refused += 1;
                    in_digits += usize::from(heading_time(&message) == Some(by_digits(&row_times(&message))));
                }
                Err(_) => {}
            }
        }
        assert!(share(in_season, accepted) >= 25, "{in_season} of {accepted}");
        assert!(share(in_digits, refused) >= 25 && share(refused, ALL) >= 2, "{in_digits} of {refused}");
    }

    /// The reports of a runway that shows a row already, and what the order makes of them.
    #[derive(Debug, Default)]
    struct Judged {
        taken: usize,
        /// Taken though they are not later by their digits.
        taken_back: usize,
        refused: usize,
        /// 20 though they are.
        refused_ahead: usize,
    }

    impl Judged {
        fn add(&mut self, input: &[u8]) {
            let printed = desk::desk(input);
            let mut shown: Vec<Row> = Vec::new();
            for (line, &answer) in lines(input).iter().zip(&lines(&printed)).skip(1) {
                let row = match line.get(2..).map(Row::read) {
                    Some(Ok(row)) if [&b"0"[..], b"20"].contains(&answer) => row,
                    _ => continue,
                };
                let place = shown.iter().position(|other| other.runway == row.runway);
                let ahead = place.map_or(true, |place| row.time > shown[place].time);
                if answer == b"20" {
                    self.refused += 1;
                    self.refused_ahead += usize::from(ahead);
                } else if let Some(place) = place {
                    self.taken += 1;
                    self.taken_back += usize::from(!ahead);
                    shown[place] = row;
                } else {
                    shown.push(row);
                }
            }
        }
    }

    #[test]
    fn reports_are_judged_otherwise_than_by_their_digits() {
        let mut rng = Rng::new(1);
        let mut judged = Judged::default();
        (0..1000).for_each(|_| judged.add(&desk_input(&mut rng)));
        assert!(share(judged.taken_back, judged.taken) >= 20, "{judged:?}");
        assert!(share(judged.refused_ahead, judged.refused) >= 20, "{judged:?}");
    }

    #[test]
    fn stored_times_are_other_than_by_their_digits() {
        let mut rng = Rng::new(1);
        let (mut all, mut falling, mut staying) = (0, 0, 0);
        for _ in 0..1000 {
            let stored = desk::stored_times(&shift(&mut rng)).unwrap_or_default();
            for pair in stored.windows(2) {
                let (before, after) = (pair[0], pair[1]);
                all += 1;
                falling += usize::from(after < before);
                staying += usize::from(before != 0 && after == before);
            }
        }
        // A stored time that falls by its digits has risen in the season.
        assert!(1000 * falling / all >= 10, "{falling} of {all}");
        assert!(share(staying, all) >= 30, "{staying} of {all}");
    }

    #[test]
    fn the_heading_of_a_boards_notice_is_other_than_by_its_digits() {
        let mut rng = Rng::new(1);
        let (mut all, mut other) = (0, 0);
        for _ in 0..1000 {
            let (input, model) = board_notice(&mut rng);
            let text = match desk::notice(&input, &model) {
                Ok(text) => text,
                Err(_) => continue,
            };
            let times = row_times(&text);
            assert_eq!(heading_time(&text), season::latest(times.iter().copied()));
            all += 1;
            other += usize::from(heading_time(&text) != Some(by_digits(&times)));
        }
        assert!(share(other, all) >= 15, "{other} of {all}");
    }
}
