//! Messages and reports about New Year, 1 July and the end of February by hand: request 6 of document 02.
use super::expanded;

/// Whole messages with their numbers; a `^` marks the place of a refusal.
pub const MESSAGES: &[(&str, u8)] = &[
    // New Year's night: the heading names the row of 1 January, in whatever order the rows stand.
    ("<L1>\n<L2>\nSWXQ0007 XQAA 01010010\n<L4>\n<L5>\n12312350 01 <S>\n01010010 02 <S>)\n", 0),
    ("<L1>\n<L2>\nSWXQ0007 XQAA 01010010\n<L4>\n<L5>\n01010010 02 <S>\n12312350 01 <S>)\n", 0),
    ("<L1>\n<L2>\nSWXQ0007 XQAA ^12312350\n<L4>\n<L5>\n12312350 01 <S>\n01010010 02 <S>)\n", 12),
    ("<L1>\n<L2>\nSWXQ0007 XQAA ^12312350\n<L4>\n<L5>\n01010010 02 <S>\n12312350 01 <S>)\n", 12),
    ("<L1>\n<L2>\nSWXQ0007 XQAA 01010000\n<L4>\n<L5>\n12312359 01 <S>\n01010000 02 <S>)\n", 0),
    ("<L1>\n<L2>\nSWXQ0007 XQAA ^12312359\n<L4>\n<L5>\n12312359 01 <S>\n01010000 02 <S>)\n", 12),
    ("<L1>\n<L2>\nSWXQ0007  XQAA   ^12312359\n<L4>\n<L5>\n12312359 01 <S>\n01010000 02 <S>)\n", 12),
    ("<L1>\n<L2>\nSWXQ0007 XQAA 12312359\n<L4>\n<L5>\n12312350 01 <S>\n12312359 02 <S>)\n", 0),
    ("<L1>\n<L2>\nSWXQ0007 XQAA ^01010000\n<L4>\n<L5>\n12312350 01 <S>\n12312359 02 <S>)\n", 12),
    // The season ends with June and starts with July.
    ("<L1>\n<L2>\nSWXQ0007 XQAA 06302359\n<L4>\n<L5>\n06302359 01 <S>\n07010000 02 <S>)\n", 0),
    ("<L1>\n<L2>\nSWXQ0007 XQAA ^07010000\n<L4>\n<L5>\n06302359 01 <S>\n07010000 02 <S>)\n", 12),
    ("<L1>\n<L2>\nSWXQ0007 XQAA 12312359\n<L4>\n<L5>\n07010000 01 <S>\n12312359 02 <S>)\n", 0),
    ("<L1>\n<L2>\nSWXQ0007 XQAA 06302359\n<L4>\n<L5>\n06302359 01 <S>\n12312359 02 <S>)\n", 0),
    ("<L1>\n<L2>\nSWXQ0007 XQAA ^12312359\n<L4>\n<L5>\n06302359 01 <S>\n12312359 02 <S>)\n", 12),
    ("<L1>\n<L2>\nSWXQ0007 XQAA 06302359\n<L4>\n<L5>\n01010000 01 <S>\n06302359 02 <S>)\n", 0),
    ("<L1>\n<L2>\nSWXQ0007 XQAA ^01010000\n<L4>\n<L5>\n01010000 01 <S>\n06302359 02 <S>)\n", 12),
    // Alone they are the latest.
    ("<L1>\n<L2>\nSWXQ0007 XQAA 07010000\n<L4>\n<L5>\n07010000 01 <S>)\n", 0),
    ("<L1>\n<L2>\nSWXQ0007 XQAA 06302359\n<L4>\n<L5>\n06302359 01 <S>)\n", 0),
    // About 29 February.
    ("<L1>\n<L2>\nSWXQ0007 XQAA 02290000\n<L4>\n<L5>\n02282359 01 <S>\n02290000 02 <S>)\n", 0),
    ("<L1>\n<L2>\nSWXQ0007 XQAA ^02282359\n<L4>\n<L5>\n02282359 01 <S>\n02290000 02 <S>)\n", 12),
    ("<L1>\n<L2>\nSWXQ0007 XQAA 03010000\n<L4>\n<L5>\n02290000 01 <S>\n03010000 02 <S>\n02282359 03 <S>)\n", 0),
    ("<L1>\n<L2>\nSWXQ0007 XQAA ^02290000\n<L4>\n<L5>\n02290000 01 <S>\n03010000 02 <S>\n02282359 03 <S>)\n", 12),
    ("<L1>\n<L2>\nSWXQ0007 XQAA 03010000\n<L4>\n<L5>\n03010000 01 <S>\n02292359 02 <S>)\n", 0),
    ("<L1>\n<L2>\nSWXQ0007 XQAA ^02292359\n<L4>\n<L5>\n03010000 01 <S>\n02292359 02 <S>)\n", 12),
    // A whole season in one notice, with June and without it.
    ("<L1>\n<L2>\nSWXQ0007 XQAA 06302359\n<L4>\n<L5>\n<YEAR>06302359 08 <S>)\n", 0),
    ("<L1>\n<L2>\nSWXQ0007 XQAA ^12312359\n<L4>\n<L5>\n<YEAR>06302359 08 <S>)\n", 12),
    ("<L1>\n<L2>\nSWXQ0007 XQAA 03010000\n<L4>\n<L5>\n<YEAR>07010000 08 <S>)\n", 0),
    ("<L1>\n<L2>\nSWXQ0007 XQAA ^12312359\n<L4>\n<L5>\n<YEAR>07010000 08 <S>)\n", 12),
    ("<L1>\n<L2>\nSWXQ0007 XQAA ^07010000\n<L4>\n<L5>\n<YEAR>07010000 08 <S>)\n", 12),
    // 10 and 11 come before it, and which times are real stays.
    ("<L1>\n<L2>\nSWXQ0007 XQAA 12312350\n(SNOWTAM ^0008\n<L5>\n12312350 01 <S>\n01010010 02 <S>)\n", 10),
    ("<L1>\n<L2>\nSWXQ0007 XQAA 12312350\n<L4>\n^XQAB\n12312350 01 <S>\n01010010 02 <S>)\n", 11),
    ("<L1>\n<L2>\n^SWXQ0007 XQAA 13010010\n<L4>\n<L5>\n12312350 01 <S>\n01010010 02 <S>)\n", 3),
    ("<L1>\n<L2>\n^SWXQ0007 XQAA 06310000\n<L4>\n<L5>\n06302359 01 <S>)\n", 3),
];

/// A report by hand, sent by the desk that owns its runway: the runway, the time, the answer, and the time that the board
/// stores then.
type Sent = (&'static str, &'static str, u8, u32);

/// What is reported to a fresh board, one after the other.
const NIGHTS: &[&[Sent]] = &[
    // The station's own case, and the other way round.
    &[("07L", "12312350", 0, 12_312_350), ("07L", "01010010", 0, 1_010_010)],
    &[("07L", "01010010", 0, 1_010_010), ("07L", "12312350", 20, 1_010_010)],
    &[("07L", "12312359", 0, 12_312_359), ("07L", "01010000", 0, 1_010_000), ("07L", "12312359", 20, 1_010_000)],
    // 06302359 is the last time and 07010000 the first.
    &[("07R", "06302359", 0, 6_302_359), ("07R", "07010000", 20, 6_302_359)],
    &[("07R", "07010000", 0, 7_010_000), ("07R", "06302359", 0, 6_302_359), ("07R", "06302358", 20, 6_302_359)],
    &[("07R", "07010000", 0, 7_010_000), ("07R", "07010000", 20, 7_010_000), ("07R", "07010001", 0, 7_010_001)],
    &[("07R", "06302359", 0, 6_302_359), ("07R", "12312359", 20, 6_302_359), ("07R", "01010000", 20, 6_302_359)],
    &[("07R", "12312359", 0, 12_312_359), ("07R", "06302359", 0, 6_302_359), ("07R", "06302359", 20, 6_302_359)],
    &[("07R", "12312359", 0, 12_312_359), ("07R", "07010000", 20, 12_312_359)],
    // About 29 February.
    &[("07L", "02282359", 0, 2_282_359), ("07L", "02290000", 0, 2_290_000), ("07L", "03010000", 0, 3_010_000)],
    &[("07L", "03010000", 0, 3_010_000), ("07L", "02290000", 20, 3_010_000), ("07L", "02282359", 20, 3_010_000)],
    &[("07L", "02290000", 0, 2_290_000), ("07L", "02292359", 0, 2_292_359), ("07L", "02290000", 20, 2_292_359)],
    &[("07L", "12312359", 0, 12_312_359), ("07L", "02290000", 0, 2_290_000), ("07L", "12312359", 20, 2_290_000)],
    // Of two runways: each is judged by its own row, and the stored time is the later one's in the season.
    &[("07L", "12312350", 0, 12_312_350), ("07R", "01010010", 0, 1_010_010), ("07L", "12312351", 0, 1_010_010)],
    &[("07R", "01010010", 0, 1_010_010), ("07L", "12312350", 0, 1_010_010), ("07L", "01010011", 0, 1_010_011)],
    &[("07L", "06302359", 0, 6_302_359), ("07R", "07010000", 0, 6_302_359), ("07R", "12312359", 0, 6_302_359)],
    &[("07L", "07010000", 0, 7_010_000), ("07R", "12312359", 0, 12_312_359), ("07L", "01010000", 0, 1_010_000)],
    // The mark for none is no time: the first report is the latest, whenever it is observed.
    &[("07L", "07010000", 0, 7_010_000)],
    &[("07L", "12312359", 0, 12_312_359)],
    &[("07L", "01010000", 0, 1_010_000)],
    &[("07L", "06302359", 0, 6_302_359)],
    // Which times are real stays: a refused one changes nothing.
    &[("07L", "06310000", 5, 0), ("07L", "06302359", 0, 6_302_359), ("07L", "13010000", 5, 6_302_359)],
];

/// Reports by hand to the board that the desk's first line opens.
pub struct Night {
    reports: &'static [Sent],
}

/// The reports by hand.
pub fn nights_by_hand() -> Vec<Night> {
    NIGHTS.iter().map(|&reports| Night { reports }).collect()
}

/// 07L is desk 1's, and 07R is desk 2's.
fn line(&(runway, time, ..): &Sent) -> String {
    let desk = if runway == "07L" { 1 } else { 2 };
    expanded(&format!("{desk} {time} {runway} <S>\n"))
}

impl Night {
    /// The input of the desk.
    pub fn input(&self) -> Vec<u8> {
        let lines: String = self.reports.iter().map(line).collect();
        format!("XQAA 07L/1 07R/2\n{lines}").into_bytes()
    }

    /// The answer to each report.
    pub fn answers(&self) -> Vec<u8> {
        self.reports.iter().map(|&(_, _, answer, _)| answer).collect()
    }

    /// What the desk has to print: a runway shows the last row that was taken.
    pub fn printed(&self) -> Vec<u8> {
        let mut told = vec!["OPEN\n".to_string()];
        told.extend(self.answers().iter().map(|answer| format!("{answer}\n")));
        for place in ["07L", "07R"] {
            let taken = self.reports.iter().rev().find(|&&(runway, _, answer, _)| runway == place && answer == 0);
            told.extend(taken.map(|sent| line(sent)[2..].to_string()));
        }
        told.concat().into_bytes()
    }

    /// The time that the board stores after its opening, and then after each report.
    pub fn stored(&self) -> Vec<u32> {
        std::iter::once(0).chain(self.reports.iter().map(|&(.., stored)| stored)).collect()
    }
}
