//! Boards by hand that are restored from their notices: request 11 of document 02.
use super::expanded;

/// A board, what was reported to it, and what has to restore it.
pub struct Replaced {
    opening: &'static str,
    reports: &'static [&'static str],
    /// The rows that it shows, in board order and each behind the digit of its own desk.
    shown: &'static [&'static str],
    /// The time that it stores.
    pub latest: u32,
}

const EIGHT: &str = "XQAA 01/1 02/2 03/1 04/2 05/1 06/2 07/1 08/2";

const REPLACED: &[Replaced] = &[
    // New Year's night, the later row on either runway.
    Replaced {
        opening: "XQAA 07L/1 07R/2",
        reports: &["1 12312350 07L <S>", "2 01010010 07R <S>"],
        shown: &["1 12312350 07L <S>", "2 01010010 07R <S>"],
        latest: 1_010_010,
    },
    Replaced {
        opening: "XQAA 07L/1 07R/2",
        reports: &["2 12312350 07R <S>", "1 01010010 07L <S>"],
        shown: &["1 01010010 07L <S>", "2 12312350 07R <S>"],
        latest: 1_010_010,
    },
    // The first time of the season and the last.
    Replaced {
        opening: "XQAA 07L/2 07R/1",
        reports: &["1 07010000 07R <S>", "2 06302359 07L <S>", "1 07010001 07R <S>"],
        shown: &["2 06302359 07L <S>", "1 07010001 07R <S>"],
        latest: 6_302_359,
    },
    // The mark for none is no time: alone the season's first is stored.
    Replaced {
        opening: "XQAA 07L/1 07R/2",
        reports: &["2 07010000 07R <S>"],
        shown: &["2 07010000 07R <S>"],
        latest: 7_010_000,
    },
    // One report of eight runways, in the first place, in the last and between.
    Replaced { opening: EIGHT, reports: &["1 <T> 01 <S>"], shown: &["1 <T> 01 <S>"], latest: 1_120_640 },
    Replaced { opening: EIGHT, reports: &["2 <T> 08 <S>"], shown: &["2 <T> 08 <S>"], latest: 1_120_640 },
    Replaced { opening: EIGHT, reports: &["2 <T> 04 <S>"], shown: &["2 <T> 04 <S>"], latest: 1_120_640 },
    // All eight, over New Year.
    Replaced {
        opening: EIGHT,
        reports: &[
            "2 12312354 08 <S>", "1 12312353 07 <S>", "2 01010001 06 <S>", "1 12312351 05 <S>", "2 01010010 04 <S>",
            "1 12312350 03 <S>", "2 01010009 02 <S>", "1 12312359 01 <S>",
        ],
        shown: &[
            "1 12312359 01 <S>", "2 01010009 02 <S>", "1 12312350 03 <S>", "2 01010010 04 <S>", "1 12312351 05 <S>",
            "2 01010001 06 <S>", "1 12312353 07 <S>", "2 12312354 08 <S>",
        ],
        latest: 1_010_010,
    },
    // One desk for all, and one time.
    Replaced {
        opening: "XQAA 07/2 07L/2 07C/2 07R/2",
        reports: &["2 <T> 07R <S>", "2 <T> 07 <S>", "2 <T> 07C <S>", "2 <T> 07L <S>"],
        shown: &["2 <T> 07 <S>", "2 <T> 07L <S>", "2 <T> 07C <S>", "2 <T> 07R <S>"],
        latest: 1_120_640,
    },
    // What was shown before leaves nothing, and no more do reports that are refused, by 20, 22, 23, 18, 5 and 25.
    Replaced {
        opening: "XQAA 07L/1 07R/2 18/1",
        reports: &[
            "1 <T> 07L 5/5/5 100/100/100 NR/NR/NR WET/WET/WET 30",
            "1 01120641 07L <S>",
            "1 <T> 07L <S>",
            "2 01120700 07L <S>",
            "3 01120700 07L <S>",
            "1 01120700 08 <S>",
            "01120700 07L <S>",
            "1 01120700 07L 7/6/6 DRY/DRY/DRY",
        ],
        shown: &["1 01120641 07L <S>"],
        latest: 1_120_641,
    },
    // Rows in every shape, typed in freedoms (b) and (d); the notice has them canonical.
    Replaced {
        opening: "XQAA 01/1 02/1 03/2 04/2 05/1",
        reports: &[
            "1 <T>  01 6/6/6 NR/NR/NR NR/NR/NR NR/NR/NR",
            "1 <T> 02 0/1/2 NR/NR/NR NR/NR/NR DRY/DRY/DRY 99",
            "2 <T> 03 5/5/5 NR/NR/NR NR/NR/NR NR/WET/NR",
            "2 <T> 04 2/3/5 25/50/75 04/999/03 STANDING  WATER/DRY SNOW/SLUSH 01",
            "1 <T> 05 0/0/0 100/NR/NR NR/NR/NR DRY SNOW ON TOP  OF ICE/WET ICE/NR  30",
        ],
        shown: &[
            "1 <T> 01 6/6/6 NR/NR/NR",
            "1 <T> 02 0/1/2 DRY/DRY/DRY 99",
            "2 <T> 03 5/5/5 NR/NR/NR NR/NR/NR NR/WET/NR",
            "2 <T> 04 2/3/5 25/50/75 04/999/03 STANDING WATER/DRY SNOW/SLUSH 01",
            "1 <T> 05 0/0/0 100/NR/NR NR/NR/NR DRY SNOW ON TOP OF ICE/WET ICE/NR 30",
        ],
        latest: 1_120_640,
    },
    // No report, and none that was taken.
    Replaced { opening: EIGHT, reports: &[], shown: &[], latest: 0 },
    Replaced { opening: "XQAA 07L/1 07R/2", reports: &["2 <T> 07L <S>", "1 <T> 07R <S>"], shown: &[], latest: 0 },
];

/// The boards by hand.
pub fn replaced_by_hand() -> &'static [Replaced] {
    REPLACED
}

fn lines<'l>(lines: impl Iterator<Item = &'l str>) -> String {
    lines.map(|line| expanded(line) + "\n").collect()
}

impl Replaced {
    /// The input of the old computer's desk.
    pub fn input(&self) -> Vec<u8> {
        lines(std::iter::once(self.opening).chain(self.reports.iter().copied())).into_bytes()
    }

    /// The board's notice, with the rest of the example; 21 where it shows no row.
    pub fn notice(&self) -> Result<Vec<u8>, u8> {
        if self.shown.is_empty() {
            return Err(21);
        }
        let heading = format!("<L1>\n<L2>\nSWXQ0007 XQAA {:08}\n<L4>\n<L5>\n", self.latest);
        let remarks = "\nDRIFTING SNOW. TWY A W SNOWBANK.\nRWY 07R SWEPT 40M.)\n";
        Ok((expanded(&heading) + &self.rows() + remarks).into_bytes())
    }

    /// Orders of the rows, by their places in the notice: each of them comes first, with the others behind it in their order
    /// and against it.
    pub fn orders(&self) -> Vec<Vec<usize>> {
        let mut orders = Vec::new();
        for first in 0..self.shown.len() {
            let mut order: Vec<usize> = (0..self.shown.len()).collect();
            order.rotate_left(first);
            orders.push(order.clone());
            order[1..].reverse();
            orders.push(order);
        }
        orders
    }

    /// The input of the new computer's desk: the same opening, and the rows of the notice in an order.
    pub fn fed(&self, order: &[usize]) -> Vec<u8> {
        lines(std::iter::once(self.opening).chain(order.iter().map(|&place| self.shown[place]))).into_bytes()
    }

    /// What the new computer's desk has to print, in whatever order it is fed: every row is taken, and shown in board order.
    pub fn printed(&self) -> Vec<u8> {
        format!("OPEN\n{}{}", "0\n".repeat(self.shown.len()), self.rows()).into_bytes()
    }

    fn rows(&self) -> String {
        lines(self.shown.iter().map(|line| &line[2..]))
    }
}
