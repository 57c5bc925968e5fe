//! Assessing a third, and the agreement of a row with Table 1.
use crate::row::{self, least_depth, Row, Third, NR};

/// Above this depth in mm a deep kind gets the lower of its codes.
const SHALLOW: u16 = 3;
/// Tenths of a degree: compacted snow this cold has the better code.
const COLD: i32 = -150;

/// The refusal (0, 15 or 16), and code, coverage, depth and description; a refused assessment is all zero.
pub fn assess(kind: u32, cover: u32, depth: u32, temperature: i32, slippery: bool) -> (u8, [u16; 4]) {
    if !(1..=u32::from(row::DRY)).contains(&kind) || cover > 100 || depth > 999 || !(-600..=600).contains(&temperature)
    {
        return (15, [0; 4]);
    }
    // Only numbers in range are cut down.
    let (kind, depth) = (kind as u16, depth as u16);
    let contradictory = match kind {
        row::DRY => cover > 0 || depth > 0 || slippery,
        row::WET => depth > SHALLOW,
        _ => slippery || (depth > 0 && least_depth(kind).is_none()),
    };
    if contradictory {
        return (16, [0; 4]);
    }
    if cover < 10 {
        return (0, [6, NR, NR, if kind == row::DRY { row::DRY } else { NR }]);
    }
    let coverage = match cover {
        0..=25 => 25,
        26..=50 => 50,
        51..=75 => 75,
        _ => 100,
    };
    let shallow = depth <= SHALLOW;
    if kind == row::STANDING_WATER && shallow {
        return (0, [5, coverage, NR, row::WET]);
    }
    let code = match kind {
        row::WET if slippery => 3,
        row::COMPACTED_SNOW if temperature <= COLD => 4,
        // The best of the codes that Table 1 has at this depth; what remains of a choice is made above.
        row::COMPACTED_SNOW => 3,
        _ => table(kind, depth).iter().copied().max().unwrap_or(0),
    };
    let reported = match least_depth(kind) {
        Some(least) if depth >= least => depth,
        _ => NR,
    };
    (0, [code, coverage, reported, kind])
}

/// The codes that Table 1 allows under a description; an NR depth counts as shallow.
fn table(description: u16, depth: u16) -> &'static [u16] {
    let shallow = depth <= SHALLOW;
    match description {
        NR => &[0, 1, 2, 3, 4, 5, 6],
        row::DRY => &[6],
        row::FROST => &[5],
        row::WET => &[5, 3],
        row::SLUSH | row::DRY_SNOW | row::WET_SNOW if shallow => &[5],
        row::SLUSH => &[2],
        row::DRY_SNOW | row::WET_SNOW => &[3],
        row::STANDING_WATER if shallow => &[],
        row::STANDING_WATER => &[2],
        row::COMPACTED_SNOW => &[4, 3],
        row::DRY_SNOW_ON_COMPACTED_SNOW | row::WET_SNOW_ON_COMPACTED_SNOW => &[3],
        row::ICE => &[1],
        row::WET_ICE | row::WATER_ON_COMPACTED_SNOW | row::DRY_SNOW_ON_ICE | row::WET_SNOW_ON_ICE => &[0],
        _ => &[],
    }
}

pub fn agrees(third: &Third) -> bool {
    table(third.description, third.depth).contains(&third.code)
}

/// The refusal (0 or 19) and the count of thirds whose code is none that Table 1 allows.
pub fn agreement(row: &Row) -> (u8, u8) {
    if !row.is_valid() {
        return (19, 0);
    }
    (0, row.thirds.iter().filter(|third| !agrees(third)).count() as u8)
}

#[cfg(test)]
mod tests {
    use super::*;

    #[test]
    fn the_edges_of_document_01() {
        for (cover, coverage) in [(10, 25), (25, 25), (26, 50), (50, 50), (51, 75), (75, 75), (76, 100), (100, 100)] {
            assert_eq!(assess(5, cover, 0, 0, false), (0, [5, coverage, 0, 5]));
        }
        assert_eq!(assess(5, 9, 0, 0, false), (0, [6, 0, 0, 0]));
        assert_eq!(assess(15, 0, 0, 0, false), (0, [6, 0, 0, 15]));
        assert_eq!(assess(7, 100, 3, 0, false), (0, [5, 100, 3, 7]));
        assert_eq!(assess(7, 100, 4, 0, false), (0, [2, 100, 4, 7]));
        assert_eq!(assess(7, 100, 2, 0, false), (0, [5, 100, 0, 7]));
        assert_eq!(assess(1, 100, 0, -150, false), (0, [4, 100, 0, 1]));
        assert_eq!(assess(1, 100, 0, -149, false), (0, [3, 100, 0, 1]));
        assert_eq!(assess(8, 100, 3, 0, false), (0, [5, 100, 0, 10]));
        assert_eq!(assess(8, 100, 4, 0, false), (0, [2, 100, 4, 8]));
    }

    #[test]
    fn every_kind_by_table_1() {
        let codes = [3, 5, 3, 0, 5, 1, 5, 5, 0, 5, 0, 5, 3, 0];
        for (kind, code) in (1..).zip(codes) {
            assert_eq!(assess(kind, 100, 0, 0, false).1[0], code, "kind {kind}");
        }
        for (kind, code) in [(2, 3), (7, 2), (8, 2), (12, 3)] {
            assert_eq!(assess(kind, 100, 999, 0, false), (0, [code, 100, 999, kind as u16]));
        }
        assert_eq!(assess(10, 100, 3, 0, true), (0, [3, 100, 0, 10]));
    }

    #[test]
    fn refused_observations() {
        for (kind, cover, depth, temperature) in
            [(0, 0, 0, 0), (16, 0, 0, 0), (5, 101, 0, 0), (7, 0, 1000, 0), (5, 0, 0, -601), (5, 0, 0, 601)]
        {
            assert_eq!(assess(kind, cover, depth, temperature, false), (15, [0; 4]));
        }
        // Numbers that would be in range, were they cut down to 8 or 16 bits.
        for (kind, cover, depth, temperature) in [
            (256 + 5, 50, 0, 0),
            (5, 300, 0, 0),
            (5, 256 + 50, 0, 0),
            (7, 50, 65536 + 3, 0),
            (7, 50, u32::MAX, 0),
            (5, 50, 0, 65536),
            (5, 50, 0, i32::MIN),
        ] {
            assert_eq!(assess(kind, cover, depth, temperature, false), (15, [0; 4]));
        }
        for (kind, cover, depth, slippery) in [
            (15, 1, 0, false),
            (10, 50, 4, false),
            (5, 50, 1, false),
            (15, 0, 1, false),
            (8, 50, 3, true),
            (5, 5, 0, true),
        ] {
            assert_eq!(assess(kind, cover, depth, 0, slippery), (16, [0; 4]));
        }
        // Out of range comes before a contradiction, whatever the field.
        assert_eq!(assess(15, 1, 0, 601, true), (15, [0; 4]));
    }

    #[test]
    fn disagreeing_thirds() {
        let count = |groups: &str| {
            let row = Row::read(format!("01120640 07 {groups}").as_bytes()).expect("a good row");
            agreement(&row)
        };
        assert_eq!(count("3/5/5 75/25/NR 12/NR/NR DRY SNOW/FROST/DRY"), (0, 1));
        assert_eq!(count("5/2/2 NR/NR/NR NR/NR/NR STANDING WATER/STANDING WATER/NR"), (0, 2));
        assert_eq!(count("6/6/6 FROST/ICE/WET"), (0, 3));
        assert_eq!(count("5/2/3 NR/NR/NR 03/04/NR SLUSH/SLUSH/WET"), (0, 0));
        let mut row = Row::read(b"01120640 07 6/6/6 DRY/DRY/DRY").expect("a good row");
        row.width = 100;
        assert_eq!(agreement(&row), (19, 0));
    }
}
