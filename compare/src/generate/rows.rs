//! Rows with something done to their groups, so that each group is at fault in every way, at its place or by missing.
use super::damage::with_row_bound;
use super::typing::{loosened, Pace};
use super::Rng;
use crate::row::Row;

/// The text of a row that something was done to, and the number it has to get if that leaves no doubt.
pub struct DamagedRow {
    pub text: Vec<u8>,
    pub number: Option<u8>,
}

/// A group, with the number it has where it is at fault. The descriptions are one group, with the spaces within.
#[derive(Clone)]
struct Group {
    number: u8,
    text: String,
}

const NUMBERS: [u8; 5] = [5, 24, 25, 26, 26];
const DESCRIPTIONS: u8 = 27;
const WIDTH: u8 = 28;

/// Before a slash none of them is a description. Some begin with one, some go on with words of a longer one.
const NO_DESCRIPTIONS: [&str; 22] = [
    "DRY SNOW ON TOP OF",
    "DRY SNOW ON TOP OF X",
    "DRY SNOW ON",
    "DRY SNO",
    "DRYSNOW",
    "DRY ICE",
    "WETICE",
    "WET WET",
    "WET SNOW ON TOP OF ICEX",
    "WET SNOW ON TOP OF SNOW",
    "WATER ON TOP OF ICE",
    "WATER",
    "STANDING",
    "COMPACTED",
    "COMPACTED SNOW ON TOP OF ICE",
    "ICEBERG",
    "FROSTX",
    "NRX",
    "N",
    "",
    "ICE ",
    "SLUSH 30",
];

/// What stands behind a row's descriptions or its width, and is not one width.
const NO_WIDTHS: [&str; 10] = [" 00", " 5", " 100", " NR", " 030", " 30X", " 30 30", " 30 X", "/ICE", " ON TOP OF"];

fn groups(row: &Row, full: bool) -> Vec<Group> {
    let text = if full { row.full_text() } else { row.text() };
    let words: Vec<&str> = text.split(' ').collect();
    let (before, rest) = words.split_at(if full { 5 } else { 3 });
    let (descriptions, width) = rest.split_at(rest.len() - usize::from(row.width > 0));
    let mut groups: Vec<Group> =
        before.iter().zip(NUMBERS).map(|(text, number)| Group { number, text: text.to_string() }).collect();
    groups.push(Group { number: DESCRIPTIONS, text: descriptions.join(" ") });
    groups.extend(width.iter().map(|text| Group { number: WIDTH, text: text.to_string() }));
    groups
}

/// What is done to one group is told by its number only where coverage and depth are written: else it may be what follows
/// the codes that is judged as a coverage.
pub fn damaged_row(rng: &mut Rng, row: &Row) -> DamagedRow {
    let mut row = row.clone();
    let bound = rng.chance(20);
    if bound {
        with_row_bound(rng, &mut row);
    }
    let full = !row.is_short() || rng.chance(50);
    let mut groups = groups(&row, full);
    let mut number = with_damage(rng, &mut groups).filter(|&number| full || number < 26);
    if rng.chance(20) {
        with_damage(rng, &mut groups);
        number = None;
    }
    let text = groups.into_iter().map(|group| group.text).collect::<Vec<_>>().join(" ");
    let pace = rng.pick(&[Pace { percent: 0, most: 2 }, Pace { percent: 30, most: 4 }]);
    DamagedRow { text: loosened(rng, pace, text.as_bytes()), number: number.filter(|_| !bound) }
}

/// Does something to a row's groups; the number, if it is told by that alone in a row with coverage and depth.
fn with_damage(rng: &mut Rng, groups: &mut Vec<Group>) -> Option<u8> {
    if groups.is_empty() {
        return None;
    }
    let last = groups.len() - 1;
    let place = rng.below(groups.len());
    let Group { number, text } = groups[place].clone();
    match rng.below(12) {
        // Glued to it, before or behind.
        0 => {
            groups[place].text += "X";
            Some(if number == DESCRIPTIONS { WIDTH } else { number })
        }
        1 => {
            groups[place].text = format!("X{text}");
            Some(number)
        }
        2 => {
            groups[place].text += rng.pick(&["/", "/NR", "\t", "0", ")", "\r", "/6"]);
            None
        }
        // It and all behind it are missing, be it with a space; three NR alone would be descriptions.
        3 | 4 => {
            groups.truncate(place);
            if place > 0 && rng.chance(40) {
                groups[place - 1].text += " ";
            }
            Some(number).filter(|_| [1, 2, 3, 5].contains(&place))
        }
        // It alone is missing, it comes twice or not in its turn, or nothing parts it from the next.
        5 => {
            groups.remove(place);
            None
        }
        6 => {
            let other = rng.below(groups.len());
            groups.swap(place, other);
            None
        }
        7 if place < last => {
            let next = groups.remove(place + 1);
            groups[place].text += &next.text;
            None
        }
        7 => {
            groups.push(groups[place].clone());
            None
        }
        8 => with_space(rng, groups, place),
        // Short whether it may be or not.
        9 => {
            groups.retain(|group| group.number != 26);
            None
        }
        10 => with_other_description(rng, groups),
        _ => {
            let end = groups.iter().rposition(|group| group.number == DESCRIPTIONS)?;
            groups.truncate(end + 1);
            groups[end].text += rng.pick(&NO_WIDTHS);
            Some(WIDTH)
        }
    }
}

/// A space at the row's start or end, or beside a slash.
fn with_space(rng: &mut Rng, groups: &mut [Group], place: usize) -> Option<u8> {
    let last = groups.len() - 1;
    let slashes: Vec<usize> = groups[place].text.match_indices('/').map(|(slash, _)| slash).collect();
    if !slashes.is_empty() && rng.chance(60) {
        let slash = rng.pick(&slashes) + rng.below(2);
        groups[place].text.insert(slash, ' ');
        Some(groups[place].number)
    } else if rng.chance(30) {
        groups[0].text.insert(0, ' ');
        Some(5)
    } else {
        groups[last].text.push(' ');
        Some(WIDTH)
    }
}

/// One third described by what is no description, or that is only the start of one.
fn with_other_description(rng: &mut Rng, groups: &mut [Group]) -> Option<u8> {
    let group = groups.iter_mut().find(|group| group.number == DESCRIPTIONS)?;
    let mut thirds: Vec<&str> = group.text.split('/').collect();
    let third = rng.below(thirds.len());
    thirds[third] = rng.pick(&NO_DESCRIPTIONS);
    group.text = thirds.join("/");
    Some(DESCRIPTIONS).filter(|_| third < 2)
}

#[cfg(test)]
mod tests {
    use super::*;
    use crate::generate::records::{row, runway};
    use crate::refused::Refused;
    use crate::row::REPORTED;

    /// Where a fault stands: at a group, glued behind one, or at the row's end where something is missing.
    fn kind(text: &[u8], place: usize) -> &'static str {
        if place == text.len() {
            "missing"
        } else if place == 0 || text[place - 1] == b' ' {
            "group"
        } else {
            "glued"
        }
    }

    #[test]
    fn each_group_is_at_fault_in_every_way() {
        let mut rng = Rng::new(1);
        let mut met = Vec::new();
        for _ in 0..10_000 {
            let runway = runway(&mut rng, REPORTED);
            let good = row(&mut rng, runway);
            let DamagedRow { text, number } = damaged_row(&mut rng, &good);
            let told = Row::read(&text).err();
            if number.is_some() {
                assert_eq!(told.map(|refused| refused.number), number, "{}", text.escape_ascii());
            }
            met.extend(told.map(|Refused { number, place }| (number, kind(&text, place))));
        }
        for number in [24, 25, 26, 27, 28] {
            for kind in ["group", "missing"] {
                assert!(met.iter().filter(|&&one| one == (number, kind)).count() >= 100, "{number} {kind}");
            }
        }
        for kind in [(5, "group"), (28, "glued")] {
            assert!(met.iter().filter(|&&one| one == kind).count() >= 100, "{kind:?}");
        }
        assert!(met.iter().all(|&(number, kind)| number == 28 || kind != "glued"));
    }
}
