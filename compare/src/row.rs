//! Observation times, runways and runway rows.
//!
//! A row is cut at its slashes first: five pieces are a short row, nine a full one, and a space beside a slash shows as a
//! piece that begins or ends with one. Where a text that is no row goes wrong is found in `places.rs`.
use crate::places;
use crate::refused::Refused;
use crate::text::{digits, groups, split};

pub const DESCRIPTIONS: [&str; 15] = [
    "COMPACTED SNOW",
    "DRY SNOW",
    "DRY SNOW ON TOP OF COMPACTED SNOW",
    "DRY SNOW ON TOP OF ICE",
    "FROST",
    "ICE",
    "SLUSH",
    "STANDING WATER",
    "WATER ON TOP OF COMPACTED SNOW",
    "WET",
    "WET ICE",
    "WET SNOW",
    "WET SNOW ON TOP OF COMPACTED SNOW",
    "WET SNOW ON TOP OF ICE",
    "DRY",
];

pub const COMPACTED_SNOW: u16 = 1;
pub const DRY_SNOW: u16 = 2;
pub const DRY_SNOW_ON_COMPACTED_SNOW: u16 = 3;
pub const DRY_SNOW_ON_ICE: u16 = 4;
pub const FROST: u16 = 5;
pub const ICE: u16 = 6;
pub const SLUSH: u16 = 7;
pub const STANDING_WATER: u16 = 8;
pub const WATER_ON_COMPACTED_SNOW: u16 = 9;
pub const WET: u16 = 10;
pub const WET_ICE: u16 = 11;
pub const WET_SNOW: u16 = 12;
pub const WET_SNOW_ON_COMPACTED_SNOW: u16 = 13;
pub const WET_SNOW_ON_ICE: u16 = 14;
pub const DRY: u16 = 15;

/// NR, whatever is not reported.
pub const NR: u16 = 0;

/// The greatest number of a reported runway; item I alone goes to 36.
pub const REPORTED: u8 = 18;

pub const MONTH_DAYS: [u32; 12] = [31, 29, 31, 30, 31, 30, 31, 31, 30, 31, 30, 31];
const SIDES: [&str; 4] = ["", "L", "C", "R"];

/// A runway's number and side: 0 none, 1 L, 2 C, 3 R. Ordered as a board's runways rise.
#[derive(Clone, Copy, Debug, Default, PartialEq, Eq, PartialOrd, Ord)]
pub struct Runway {
    pub number: u8,
    pub side: u8,
}

/// One third of a runway; 0 is NR but for the code.
#[derive(Clone, Copy, Debug, Default, PartialEq, Eq)]
pub struct Third {
    pub code: u16,
    pub coverage: u16,
    pub depth: u16,
    pub description: u16,
}

/// A runway row; the time is its eight digits as a number, and width 0 is a missing one.
#[derive(Clone, Debug, PartialEq, Eq)]
pub struct Row {
    pub time: u32,
    pub runway: Runway,
    pub thirds: [Third; 3],
    pub width: u8,
}

pub fn is_real_time(time: u32) -> bool {
    let (month, day, hour, minute) = (time / 1_000_000, time / 10_000 % 100, time / 100 % 100, time % 100);
    (1..=12).contains(&month) && (1..=MONTH_DAYS[month as usize - 1]).contains(&day) && hour < 24 && minute < 60
}

pub fn read_time(group: &[u8]) -> Option<u32> {
    digits(group, 8).filter(|&time| is_real_time(time))
}

/// The least depth that is reported under a description; none where a depth is never reported.
pub fn least_depth(description: u16) -> Option<u16> {
    match description {
        STANDING_WATER => Some(4),
        SLUSH | WET_SNOW | DRY_SNOW => Some(3),
        _ => None,
    }
}

impl Runway {
    pub fn read(group: &[u8], greatest: u8) -> Option<Runway> {
        let (number, side) = split(group, 2)?;
        let number = u8::try_from(digits(number, 2)?).ok()?;
        let side = u8::try_from(SIDES.iter().position(|word| word.as_bytes() == side)?).ok()?;
        (1..=greatest).contains(&number).then_some(Runway { number, side })
    }

    /// Whether a row may name it: one given as numbers can be any.
    pub fn is_reported(&self) -> bool {
        (1..=REPORTED).contains(&self.number) && usize::from(self.side) < SIDES.len()
    }

    pub fn text(&self) -> String {
        let side = SIDES.get(usize::from(self.side)).copied().unwrap_or("?");
        format!("{:02}{side}", self.number)
    }
}

impl Third {
    pub fn is_valid(&self) -> bool {
        let coverage = match self.coverage {
            NR => true,
            25 | 50 | 75 | 100 => (COMPACTED_SNOW..DRY).contains(&self.description),
            _ => false,
        };
        let depth = self.depth == NR
            || least_depth(self.description).map_or(false, |least| (least..=999).contains(&self.depth));
        self.code <= 6 && self.description <= DRY && coverage && depth
    }
}

impl Row {
    pub fn is_valid(&self) -> bool {
        is_real_time(self.time)
            && self.runway.is_reported()
            && self.thirds.iter().all(Third::is_valid)
            && self.width <= 99
    }

    /// Whether coverage and depth are left out when this row is written.
    pub fn is_short(&self) -> bool {
        self.thirds.iter().all(|third| third.coverage == NR && third.depth == NR)
            && (self.thirds.iter().all(|third| third.code == 6)
                || self.thirds.iter().all(|third| third.description == DRY))
    }

    /// The row, or the number and place of its leftmost fault.
    pub fn read(text: &[u8]) -> Result<Row, Refused> {
        Row::cut(text).ok_or_else(|| places::fault(text).expect("a text without a fault is a row"))
    }

    /// The row that a text is. This alone decides which texts are rows.
    pub fn cut(text: &[u8]) -> Option<Row> {
        let pieces = text.split(|&byte| byte == b'/').map(groups).collect::<Option<Vec<_>>>()?;
        let pieces: Vec<&[&[u8]]> = pieces.iter().map(Vec::as_slice).collect();
        let nr: &[u8] = b"NR";
        let (time, runway, codes, coverages, depths, descriptions) = match pieces.as_slice() {
            [[time, runway, c1], [c2], [c3, first @ ..], middle, last] => {
                (time, runway, [c1, c2, c3], [&nr; 3], [&nr; 3], [first, middle, last])
            }
            [[time, runway, c1], [c2], [c3, v1], [v2], [v3, d1], [d2], [d3, first @ ..], middle, last] => {
                (time, runway, [c1, c2, c3], [v1, v2, v3], [d1, d2, d3], [first, middle, last])
            }
            _ => return None,
        };
        // No description has a digit, so a last group that begins with one can only be the width.
        let [first, middle, last] = descriptions;
        let (last, width) = match last {
            [words @ .., number] if number.first().map_or(false, u8::is_ascii_digit) => (words, read_width(number)?),
            words => (words, 0),
        };
        let third = |code, coverage, depth, words| {
            Some(Third {
                code: read_code(code)?,
                coverage: read_coverage(coverage)?,
                depth: read_depth(depth)?,
                description: read_description(words)?,
            })
        };
        let row = Row {
            time: read_time(time)?,
            runway: Runway::read(runway, REPORTED)?,
            thirds: [
                third(codes[0], coverages[0], depths[0], first)?,
                third(codes[1], coverages[1], depths[1], middle)?,
                third(codes[2], coverages[2], depths[2], last)?,
            ],
            width,
        };
        let left_out = pieces.len() == 5;
        (row.is_valid() && (row.is_short() || !left_out)).then_some(row)
    }

    pub fn text(&self) -> String {
        if self.is_short() {
            self.line(&[self.joined(|t| t.code.to_string()), self.joined(|t| description_text(t.description))])
        } else {
            self.full_text()
        }
    }

    /// With coverage and depth written out, as freedom (d) allows for a short row.
    pub fn full_text(&self) -> String {
        self.line(&[
            self.joined(|t| t.code.to_string()),
            self.joined(|t| number_text(t.coverage)),
            self.joined(|t| number_text(t.depth)),
            self.joined(|t| description_text(t.description)),
        ])
    }

    fn line(&self, groups: &[String]) -> String {
        let mut text = format!("{:08} {} {}", self.time, self.runway.text(), groups.join(" "));
        if self.width > 0 {
            text += &format!(" {:02}", self.width);
        }
        text
    }

    fn joined(&self, part: impl Fn(&Third) -> String) -> String {
        self.thirds.iter().map(part).collect::<Vec<_>>().join("/")
    }
}

pub fn read_code(group: &[u8]) -> Option<u16> {
    digits(group, 1).filter(|&code| code <= 6).map(|code| code as u16)
}

pub fn read_coverage(group: &[u8]) -> Option<u16> {
    match group {
        b"NR" => Some(NR),
        b"25" => Some(25),
        b"50" => Some(50),
        b"75" => Some(75),
        b"100" => Some(100),
        _ => None,
    }
}

pub fn read_depth(group: &[u8]) -> Option<u16> {
    let depth = match group.len() {
        _ if group == b"NR" => return Some(NR),
        2 => digits(group, 2).filter(|&depth| depth >= 3),
        3 => digits(group, 3).filter(|&depth| depth >= 100),
        _ => None,
    };
    depth.map(|depth| depth as u16)
}

fn read_description(words: &[&[u8]]) -> Option<u16> {
    if words == [b"NR"] {
        return Some(NR);
    }
    let place = DESCRIPTIONS.iter().position(|text| text.split(' ').map(str::as_bytes).eq(words.iter().copied()))?;
    u16::try_from(place + 1).ok()
}

pub fn read_width(group: &[u8]) -> Option<u8> {
    digits(group, 2).filter(|&width| width > 0).map(|width| width as u8)
}

fn number_text(number: u16) -> String {
    if number == NR {
        "NR".to_string()
    } else {
        format!("{number:02}")
    }
}

fn description_text(description: u16) -> String {
    match usize::from(description).checked_sub(1) {
        None => "NR",
        Some(place) => DESCRIPTIONS.get(place).copied().unwrap_or("?"),
    }
    .to_string()
}

#[cfg(test)]
mod tests {
    use super::*;

    fn canonical(groups: &str) -> Option<String> {
        let row = Row::read(format!("01120640 07R {groups}").as_bytes()).ok();
        row.map(|row| row.text()["01120640 07R ".len()..].to_string())
    }

    #[test]
    fn short_rows() {
        for groups in ["6/6/6 NR/NR/NR", "6/6/6 FROST/ICE/WET", "0/1/2 DRY/DRY/DRY", "6/6/6 NR/NR/NR 30"] {
            assert_eq!(canonical(groups).as_deref(), Some(groups));
        }
        let written_out = "6/6/6 NR/NR/NR NR/NR/NR DRY/DRY/DRY";
        assert_eq!(canonical(written_out).as_deref(), Some("6/6/6 DRY/DRY/DRY"));
        for groups in ["5/5/5 NR/NR/NR", "6/6/5 DRY/DRY/NR", "6/6/6 NR/NR/NR NR/NR/NR", "6/6/6", "6/6/6 30"] {
            assert_eq!(canonical(groups), None, "{groups}");
        }
    }

    #[test]
    fn the_three_nr_of_a_short_row_are_its_descriptions() {
        let row = Row::read(b"01120640 07 6/6/6 NR/NR/NR 30").expect("a short row");
        assert_eq!(row.thirds, [Third { code: 6, ..Third::default() }; 3]);
        assert_eq!(row.width, 30);
    }

    #[test]
    fn depths() {
        let depths =
            |depths: &str, kind: &str| canonical(&format!("2/2/2 50/50/50 {depths} {kind}/{kind}/{kind}")).is_some();
        assert!(depths("99/100/999", "SLUSH"));
        assert!(depths("03/NR/NR", "SLUSH") && depths("03/NR/NR", "WET SNOW") && depths("03/NR/NR", "DRY SNOW"));
        assert!(depths("04/NR/NR", "STANDING WATER"));
        assert!(!depths("03/NR/NR", "STANDING WATER"));
        for wrong in ["099/NR/NR", "02/NR/NR", "00/NR/NR", "3/NR/NR", "1000/NR/NR"] {
            assert!(!depths(wrong, "SLUSH"), "{wrong}");
        }
        for kind in ["FROST", "ICE", "WET", "NR", "DRY", "WET SNOW ON TOP OF ICE"] {
            assert!(!depths("04/NR/NR", kind), "{kind}");
        }
    }

    #[test]
    fn numbers_are_never_required() {
        assert!(canonical("5/5/5 NR/NR/NR 03/NR/NR SLUSH/WET/WET").is_some());
        assert!(canonical("5/5/5 100/NR/NR NR/NR/NR WET/NR/DRY").is_some());
        assert!(canonical("5/5/5 NR/100/NR NR/NR/NR WET/NR/DRY").is_none());
        assert!(canonical("5/5/5 NR/NR/100 NR/NR/NR WET/NR/DRY").is_none());
    }

    #[test]
    fn widths_and_spaces() {
        for wrong in ["00", "5", "100", "NR", "30 30", "030"] {
            assert_eq!(canonical(&format!("6/6/6 DRY/DRY/DRY {wrong}")), None, "{wrong}");
        }
        assert!(canonical("6/6/0 NR/NR/25 NR/NR/NR DRY/DRY/DRY  SNOW ON   TOP OF ICE  45").is_some());
        for wrong in ["6/ 6/6 DRY/DRY/DRY", "6/6/6 DRY /DRY/DRY", "6/6/6\tDRY/DRY/DRY", "6/6/6 DRY/DRY/DRY "] {
            assert_eq!(canonical(wrong), None, "{wrong}");
        }
    }

    #[test]
    fn times() {
        assert!(is_real_time(2_290_000) && !is_real_time(2_300_000));
        assert!(!is_real_time(4_310_000) && !is_real_time(1_012_400) && !is_real_time(1_010_060));
        assert!(!is_real_time(13_010_000) && !is_real_time(10_000) && !is_real_time(u32::MAX));
    }

    #[test]
    fn runways() {
        let read = |group: &str| Runway::read(group.as_bytes(), REPORTED);
        assert_eq!(read("07L"), Some(Runway { number: 7, side: 1 }));
        for wrong in ["00", "19", "7", "7L", "07LR", "07l", "", "007"] {
            assert_eq!(read(wrong), None, "{wrong}");
        }
        assert!(Runway::read(b"36C", 36).is_some() && Runway::read(b"37", 36).is_none());
    }
}
