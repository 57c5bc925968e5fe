//! Which thirds of a new row count, and whether a new notice is due: request 5 of document 02.
//!
//! It is told what does not count, and all else does: a third is steady where nothing but its depth differs, and the new depth
//! is one of those that lie near the old one.
use std::ops::RangeInclusive;

use crate::row::{self, least_depth, Row, Third, NR};

/// What a new row changes; where it is refused no third counts and no notice is due.
#[derive(Clone, Copy, Debug, Default, PartialEq, Eq)]
pub struct Change {
    /// 0, 19 or 29.
    pub refusal: u8,
    pub counts: [bool; 3],
    pub due: bool,
}

/// What a new row changes against the row shown.
pub fn due(old: &Row, new: &Row) -> Change {
    let refusal = refusal(old, new);
    if refusal > 0 {
        return Change { refusal, ..Change::default() };
    }
    let counts = [0, 1, 2].map(|n| !is_steady(&old.thirds[n], &new.thirds[n]));
    // The width belongs to no third.
    Change { refusal, counts, due: counts.contains(&true) || old.width != new.width }
}

fn refusal(old: &Row, new: &Row) -> u8 {
    if !old.is_valid() || !new.is_valid() {
        19
    } else if old.runway != new.runway {
        29
    } else {
        0
    }
}

fn is_steady(old: &Third, new: &Third) -> bool {
    *new == Third { depth: new.depth, ..*old } && steady_depths(old).contains(&new.depth)
}

/// The depths that do not count against that of a valid third under the same description. Those about a number begin at the
/// least that is reported, so that NR is none of them; about NR there is NR alone.
fn steady_depths(third: &Third) -> RangeInclusive<u16> {
    let Third { depth, description, .. } = *third;
    match (least_depth(description), threshold(description)) {
        (Some(least), Some(threshold)) if depth != NR => {
            let near = threshold - 1;
            least.max(depth.saturating_sub(near))..=depth + near
        }
        _ => NR..=NR,
    }
}

/// Table 3: the difference in mm from which on a depth counts; none where a depth is never reported.
pub fn threshold(description: u16) -> Option<u16> {
    match description {
        row::STANDING_WATER | row::SLUSH => Some(3),
        row::WET_SNOW => Some(5),
        row::DRY_SNOW => Some(20),
        _ => None,
    }
}

#[cfg(test)]
mod tests {
    use super::*;
    use crate::edges::{self, Pair};
    use crate::row::{DRY, DRY_SNOW, SLUSH, STANDING_WATER, WET, WET_SNOW};

    #[test]
    fn the_pairs_of_rows_by_hand() {
        for Pair { old, new, change } in edges::row_pairs_by_hand() {
            assert_eq!(due(&old, &new), change, "{} after {}", new.text(), old.text());
            assert_eq!(due(&new, &old), change, "{} after {}", old.text(), new.text());
        }
    }

    /// The range of steady depths against the difference, as document 02 says it.
    #[test]
    fn every_two_depths() {
        for (description, least, figure) in [(STANDING_WATER, 4, 3), (SLUSH, 3, 3), (WET_SNOW, 3, 5), (DRY_SNOW, 3, 20)]
        {
            let thirds: Vec<Third> = std::iter::once(NR)
                .chain(least..=999)
                .map(|depth| Third { code: 2, coverage: 50, depth, description })
                .collect();
            for old in &thirds {
                for new in &thirds {
                    let counts = match (old.depth, new.depth) {
                        (NR, NR) => false,
                        (NR, _) | (_, NR) => true,
                        (old, new) => old.abs_diff(new) >= figure,
                    };
                    assert_eq!(!is_steady(old, new), counts, "{old:?} {new:?}");
                }
            }
        }
    }

    fn row(third: Third, width: u8) -> Row {
        let other = Third { code: 6, description: DRY, ..Third::default() };
        Row { time: 1_120_640, runway: row::Runway { number: 7, side: 0 }, thirds: [other, third, other], width }
    }

    /// Of the middle third alone.
    fn told(old: Third, new: Third) -> bool {
        let Change { refusal, counts, due } = due(&row(old, 0), &row(new, 0));
        assert_eq!((refusal, counts), (0, [false, due, false]), "{old:?} {new:?}");
        due
    }

    #[test]
    fn every_two_codes_coverages_and_deep_kinds() {
        let wet = Third { code: 5, coverage: 25, depth: NR, description: WET };
        for (old, new) in every_two(0..=6) {
            assert_eq!(told(Third { code: old, ..wet }, Third { code: new, ..wet }), old != new);
        }
        for (old, new) in every_two([NR, 25, 50, 75, 100]) {
            assert_eq!(told(Third { coverage: old, ..wet }, Third { coverage: new, ..wet }), old != new);
        }
        // However near the depths are: the other descriptions are by hand.
        for (old, new) in every_two([STANDING_WATER, SLUSH, WET_SNOW, DRY_SNOW]) {
            let [old, new] = [old, new].map(|description| Third { code: 2, coverage: 50, depth: 10, description });
            assert_eq!(told(old, new), old != new);
        }
    }

    #[test]
    fn every_two_widths() {
        for (old, new) in every_two(0..=99) {
            let change = due(&row(Third::default(), old), &row(Third::default(), new));
            assert_eq!(change, Change { refusal: 0, counts: [false; 3], due: old != new });
        }
    }

    fn every_two<T: Copy>(values: impl IntoIterator<Item = T>) -> Vec<(T, T)> {
        let values: Vec<T> = values.into_iter().collect();
        values.iter().flat_map(|&old| values.iter().map(move |&new| (old, new))).collect()
    }
}
