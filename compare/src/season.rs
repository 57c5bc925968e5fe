//! The order of observation times. A board and a notice belong to one season, 1 July to 30 June: July comes first and June
//! last. Request 6 of document 02.

const JULY: u32 = 7;

/// Where a time stands in its season: the months from July on come before those from January on, and within either half
/// the eight digits rise. Only times have such a place: what marks that there is none is not asked for it.
#[derive(Clone, Copy, PartialEq, Eq, PartialOrd, Ord)]
struct Place {
    after_new_year: bool,
    time: u32,
}

fn place(time: u32) -> Place {
    Place { after_new_year: time / 1_000_000 < JULY, time }
}

/// Whether a time is later than another. An equal one is not.
pub fn is_later(time: u32, other: u32) -> bool {
    place(time) > place(other)
}

/// The latest of some times.
pub fn latest(times: impl Iterator<Item = u32>) -> Option<u32> {
    times.max_by_key(|&time| place(time))
}

#[cfg(test)]
mod tests {
    use super::*;
    use crate::row::is_real_time;

    const MONTHS: [u32; 12] = [7, 8, 9, 10, 11, 12, 1, 2, 3, 4, 5, 6];

    #[test]
    fn every_minute_is_later_than_the_one_before() {
        let days = MONTHS.iter().flat_map(|month| (1..=31).map(move |day| month * 100 + day));
        let minutes = days.flat_map(|day| (0..2400).map(move |minute| day * 10_000 + minute));
        let season: Vec<u32> = minutes.filter(|&time| is_real_time(time)).collect();
        assert_eq!(season.len(), 366 * 24 * 60);
        assert_eq!((season[0], season[season.len() - 1]), (7_010_000, 6_302_359));
        for pair in season.windows(2) {
            assert!(is_later(pair[1], pair[0]) && !is_later(pair[0], pair[1]), "{pair:?}");
        }
    }

    const RISING: [u32; 15] = [
        7_010_000, 7_010_001, 12_010_000, 12_312_350, 12_312_359, 1_010_000, 1_010_010, 1_310_000, 2_282_359,
        2_290_000, 2_292_359, 3_010_000, 6_010_000, 6_302_358, 6_302_359,
    ];

    #[test]
    fn any_two_times() {
        for (place, &time) in RISING.iter().enumerate() {
            for (other_place, &other) in RISING.iter().enumerate() {
                assert_eq!(is_later(time, other), place > other_place, "{time:08} {other:08}");
                assert_eq!(latest([time, other].into_iter()), Some(RISING[place.max(other_place)]));
            }
        }
    }

    #[test]
    fn the_latest_of_any_number() {
        assert_eq!(latest(std::iter::empty()), None);
        assert_eq!(latest(std::iter::once(7_010_000)), Some(7_010_000));
        assert_eq!(latest(RISING.into_iter()), Some(6_302_359));
        assert_eq!(latest(RISING[..5].iter().rev().copied()), Some(12_312_359));
    }
}
