//! Awareness items and plain language.
//!
//! The line is cut at its full stops, and each item into groups; only then is an item's kind looked for.
use crate::row::{Runway, REPORTED};
use crate::text::{digits, groups, without_leading_spaces};

pub const MOST_ITEMS: usize = 32;
pub const MOST_TAXIWAYS: usize = 8;
pub const MOST_PLAIN: usize = 400;

/// The greatest runway number of item I.
pub const REDUCED: u8 = 36;

pub type Name = Vec<u8>;

#[derive(Clone, Copy, Debug, PartialEq, Eq)]
pub enum Banks {
    Left,
    Right,
    Both,
}

#[derive(Clone, Debug, PartialEq, Eq)]
pub enum Item {
    Reduced {
        runway: Runway,
        length: u16,
    },
    DriftingSnow,
    LooseSand {
        runway: Runway,
    },
    Treated {
        runway: Runway,
    },
    Snowbank {
        runway: Runway,
        banks: Banks,
        distance: u8,
    },
    TaxiwaySnowbanks {
        taxiways: Vec<Name>,
    },
    AdjacentSnowbank {
        runway: Runway,
    },
    /// No taxiways named: all of them.
    PoorTaxiways {
        taxiways: Option<Vec<Name>>,
    },
    /// No apron named: all of them.
    PoorApron {
        name: Option<Name>,
    },
}

/// The items of an awareness line, its closing `)` taken away.
pub fn read(line: &[u8]) -> Option<Vec<Item>> {
    let mut items = Vec::new();
    for (place, text) in line.strip_suffix(b".")?.split(|&byte| byte == b'.').enumerate() {
        // Freedom (c) speaks of the spaces after a full stop, so the first item has none before it.
        let text = if place == 0 { text } else { without_leading_spaces(text) };
        items.push(Item::read(text)?);
    }
    let ordered = items.windows(2).all(|pair| pair[0].letter() <= pair[1].letter());
    let repeated =
        items.iter().enumerate().any(|(place, item)| items[..place].iter().any(|other| item.excludes(other)));
    (items.len() <= MOST_ITEMS && ordered && !repeated).then_some(items)
}

/// The awareness line without its `)`; empty where there is no item.
pub fn text(items: &[Item]) -> String {
    items.iter().map(|item| item.text() + ".").collect::<Vec<_>>().join(" ")
}

pub fn is_plain_language(text: &[u8]) -> bool {
    let fits = |byte: &u8| byte.is_ascii_uppercase() || byte.is_ascii_digit() || b" .,/-+:".contains(byte);
    (2..=MOST_PLAIN).contains(&text.len()) && text.iter().all(fits) && !text.starts_with(b" ") && text.ends_with(b".")
}

impl Item {
    /// An item without its full stop.
    fn read(text: &[u8]) -> Option<Item> {
        let groups = groups(text)?;
        match groups.as_slice() {
            [b"RWY", runway, b"REDUCED", b"TO", length] => {
                Some(Item::Reduced { runway: Runway::read(runway, REDUCED)?, length: read_length(length)? })
            }
            [b"DRIFTING", b"SNOW"] => Some(Item::DriftingSnow),
            [b"RWY", runway, b"LOOSE", b"SAND"] => Some(Item::LooseSand { runway: Runway::read(runway, REPORTED)? }),
            [b"RWY", runway, b"CHEMICALLY", b"TREATED"] => {
                Some(Item::Treated { runway: Runway::read(runway, REPORTED)? })
            }
            [b"RWY", runway, b"SNOWBANK", bank, b"FM", b"CL"] => {
                let (banks, distance) = read_bank(bank)?;
                Some(Item::Snowbank { runway: Runway::read(runway, REPORTED)?, banks, distance })
            }
            [b"TWY", names @ .., b"SNOWBANK"] => Some(Item::TaxiwaySnowbanks { taxiways: read_taxiways(names)? }),
            [b"RWY", runway, b"ADJ", b"SNOWBANK"] => {
                Some(Item::AdjacentSnowbank { runway: Runway::read(runway, REPORTED)? })
            }
            [b"TWY", names @ .., b"POOR"] => Some(Item::PoorTaxiways { taxiways: Some(read_taxiways(names)?) }),
            [b"ALL", b"TWY", b"POOR"] => Some(Item::PoorTaxiways { taxiways: None }),
            [b"APRON", name, b"POOR"] => Some(Item::PoorApron { name: Some(read_name(name, 16)?) }),
            [b"ALL", b"APRON", b"POOR"] => Some(Item::PoorApron { name: None }),
            _ => None,
        }
    }

    pub fn letter(&self) -> u8 {
        match self {
            Item::Reduced { .. } => b'I',
            Item::DriftingSnow => b'J',
            Item::LooseSand { .. } => b'K',
            Item::Treated { .. } => b'L',
            Item::Snowbank { .. } => b'M',
            Item::TaxiwaySnowbanks { .. } => b'N',
            Item::AdjacentSnowbank { .. } => b'O',
            Item::PoorTaxiways { .. } => b'P',
            Item::PoorApron { .. } => b'R',
        }
    }

    pub fn runway(&self) -> Option<Runway> {
        match self {
            Item::Reduced { runway, .. }
            | Item::LooseSand { runway }
            | Item::Treated { runway }
            | Item::Snowbank { runway, .. }
            | Item::AdjacentSnowbank { runway } => Some(*runway),
            _ => None,
        }
    }

    /// Whether the two may not stand in one notice.
    pub fn excludes(&self, other: &Item) -> bool {
        if self.letter() != other.letter() {
            return false;
        }
        match (self, other) {
            (Item::PoorApron { name: Some(one) }, Item::PoorApron { name: Some(another) }) => one == another,
            // Items without a runway are J, N, P and all aprons: nothing of their letter may stand beside them.
            _ => self.runway() == other.runway(),
        }
    }

    /// The item without its full stop.
    pub fn text(&self) -> String {
        match self {
            Item::Reduced { runway, length } => format!("RWY {} REDUCED TO {length}", runway.text()),
            Item::DriftingSnow => "DRIFTING SNOW".to_string(),
            Item::LooseSand { runway } => format!("RWY {} LOOSE SAND", runway.text()),
            Item::Treated { runway } => format!("RWY {} CHEMICALLY TREATED", runway.text()),
            Item::Snowbank { runway, banks, distance } => {
                let side = match banks {
                    Banks::Left => "L",
                    Banks::Right => "R",
                    Banks::Both => "LR",
                };
                format!("RWY {} SNOWBANK {side}{distance:02} FM CL", runway.text())
            }
            Item::TaxiwaySnowbanks { taxiways } => format!("TWY {} SNOWBANK", names_text(taxiways)),
            Item::AdjacentSnowbank { runway } => format!("RWY {} ADJ SNOWBANK", runway.text()),
            Item::PoorTaxiways { taxiways: Some(taxiways) } => format!("TWY {} POOR", names_text(taxiways)),
            Item::PoorTaxiways { taxiways: None } => "ALL TWY POOR".to_string(),
            Item::PoorApron { name: Some(name) } => format!("APRON {} POOR", String::from_utf8_lossy(name)),
            Item::PoorApron { name: None } => "ALL APRON POOR".to_string(),
        }
    }
}

/// 100 to 9999 without a leading zero.
fn read_length(group: &[u8]) -> Option<u16> {
    let length = match group.len() {
        3 => digits(group, 3).filter(|&length| length >= 100),
        4 => digits(group, 4).filter(|&length| length >= 1000),
        _ => None,
    };
    length.map(|length| length as u16)
}

fn read_bank(group: &[u8]) -> Option<(Banks, u8)> {
    let letters = group.len().checked_sub(2)?;
    let (side, distance) = group.split_at(letters);
    let banks = match side {
        b"L" => Banks::Left,
        b"R" => Banks::Right,
        b"LR" => Banks::Both,
        _ => return None,
    };
    let distance = digits(distance, 2).filter(|&distance| distance > 0)?;
    Some((banks, distance as u8))
}

/// 1 to `longest` capitals and digits.
fn read_name(group: &[u8], longest: usize) -> Option<Name> {
    let fits = |byte: &u8| byte.is_ascii_uppercase() || byte.is_ascii_digit();
    ((1..=longest).contains(&group.len()) && group.iter().all(fits)).then(|| group.to_vec())
}

fn read_taxiways(groups: &[&[u8]]) -> Option<Vec<Name>> {
    let mut taxiways: Vec<Name> = Vec::new();
    for group in groups {
        let taxiway = read_name(group, 3).filter(|name| name[0].is_ascii_uppercase())?;
        if taxiways.contains(&taxiway) {
            return None;
        }
        taxiways.push(taxiway);
    }
    (1..=MOST_TAXIWAYS).contains(&taxiways.len()).then_some(taxiways)
}

fn names_text(names: &[Name]) -> String {
    names.iter().map(|name| String::from_utf8_lossy(name)).collect::<Vec<_>>().join(" ")
}

#[cfg(test)]
mod tests {
    use super::*;

    fn canonical(line: &str) -> Option<String> {
        read(line.as_bytes()).map(|items| text(&items))
    }

    #[test]
    fn every_item() {
        let line = "RWY 36L REDUCED TO 100. DRIFTING SNOW. RWY 07 LOOSE SAND. RWY 07 CHEMICALLY TREATED. \
                    RWY 07C SNOWBANK LR05 FM CL. TWY A W SNOWBANK. RWY 18R ADJ SNOWBANK. TWY B1 POOR. APRON NORTH POOR.";
        assert_eq!(canonical(line).as_deref(), Some(line));
        assert_eq!(canonical("ALL TWY POOR.   ALL APRON POOR.").as_deref(), Some("ALL TWY POOR. ALL APRON POOR."));
        assert_eq!(canonical("DRIFTING   SNOW.TWY A POOR.").as_deref(), Some("DRIFTING SNOW. TWY A POOR."));
    }

    #[test]
    fn names_that_look_like_keywords() {
        for good in ["TWY TWY POOR.", "TWY ALL POOR.", "TWY A TWY B POOR.", "APRON POOR POOR.", "APRON ALL POOR."] {
            assert_eq!(canonical(good).as_deref(), Some(good));
        }
        let wrong = ["TWY POOR.", "APRON POOR.", "ALL TWY SNOWBANK.", "APRON ALL POOR.ALL APRON POOR.", "TWY 1A POOR."];
        for wrong in wrong {
            assert_eq!(canonical(wrong), None, "{wrong}");
        }
    }

    #[test]
    fn order_and_repeats() {
        let reduced = "RWY 25 REDUCED TO 9999. RWY 07 REDUCED TO 100. RWY 07L REDUCED TO 100.";
        let aprons = "APRON 1 POOR. APRON 01 POOR.";
        for good in [reduced, aprons, "TWY A SNOWBANK. TWY A POOR."] {
            assert_eq!(canonical(good).as_deref(), Some(good));
        }
        for wrong in [
            "RWY 07 LOOSE SAND.DRIFTING SNOW.",
            "DRIFTING SNOW.DRIFTING SNOW.",
            "RWY 07 SNOWBANK L05 FM CL.RWY 07 SNOWBANK R05 FM CL.",
            "TWY A POOR.TWY B POOR.",
            "TWY A POOR.ALL TWY POOR.",
            "TWY A A POOR.",
            "ALL APRON POOR.ALL APRON POOR.",
            "ALL APRON POOR.APRON A POOR.",
            "APRON A POOR.APRON A POOR.",
        ] {
            assert_eq!(canonical(wrong), None, "{wrong}");
        }
    }

    #[test]
    fn spaces_and_full_stops() {
        for wrong in
            ["DRIFTING SNOW .", "DRIFTING SNOW. ", " DRIFTING SNOW.", "DRIFTING SNOW..", ".", "", "DRIFTING SNOW"]
        {
            assert_eq!(canonical(wrong), None, "{wrong}");
        }
    }

    #[test]
    fn bounds() {
        let reduced = |length: &str| canonical(&format!("RWY 07 REDUCED TO {length}.")).is_some();
        assert!(reduced("100") && reduced("9999"));
        assert!(!reduced("99") && !reduced("10000") && !reduced("0100") && !reduced("099"));
        let bank = |bank: &str| canonical(&format!("RWY 07 SNOWBANK {bank} FM CL.")).is_some();
        assert!(bank("L01") && bank("R99") && bank("LR50"));
        assert!(!bank("L00") && !bank("L5") && !bank("L100") && !bank("RL05") && !bank("C05") && !bank("05"));
        assert!(canonical("RWY 37 REDUCED TO 100.").is_none() && canonical("RWY 19 LOOSE SAND.").is_none());
        assert!(
            canonical("APRON ABCDEFGHIJKLMNOP POOR.").is_some() && canonical("APRON ABCDEFGHIJKLMNOPQ POOR.").is_none()
        );
        assert!(canonical("TWY A B C D E F G H POOR.").is_some() && canonical("TWY A B C D E F G H I POOR.").is_none());
    }

    #[test]
    fn at_most_32() {
        let line = |count: usize| (0..count).map(|n| format!("APRON {n} POOR.")).collect::<String>();
        assert_eq!(read(line(32).as_bytes()).map(|items| items.len()), Some(32));
        assert_eq!(read(line(33).as_bytes()), None);
    }

    #[test]
    fn plain_language() {
        let longest = [&[b'A'; 399][..], b"."].concat();
        for good in [&b".."[..], b"A.", b"A .", b"A  B,/-+:.", &longest] {
            assert!(is_plain_language(good));
        }
        let too_long = [&[b'A'; 400][..], b"."].concat();
        for wrong in [&b"."[..], b" .", b"A", b"a.", b"A).", b"A\r.", b"A(.", b"", &too_long] {
            assert!(!is_plain_language(wrong));
        }
    }
}
