//! The leftmost fault of a row's text, and its place: request 2 of document 02, group by group.
//!
//! Which texts are rows is decided in `row.rs`, by another plan; here a text is walked from its first byte on, and a row has
//! no fault.
use crate::refused::Refused;
use crate::row::{least_depth, DESCRIPTIONS, DRY, NR, REPORTED};
use crate::row::{read_code, read_coverage, read_depth, read_time, read_width, Runway};

const TIME: u8 = 5;
const RUNWAY: u8 = 24;
const CODES: u8 = 25;
const COVERAGE_OR_DEPTH: u8 = 26;
const WRONG_DESCRIPTIONS: u8 = 27;
const WIDTH: u8 = 28;

/// What stands at a place up to the next space or the row's end, whatever it is; nothing where the row has ended.
#[derive(Clone, Copy)]
struct Group<'r> {
    row: &'r [u8],
    place: usize,
    text: &'r [u8],
}

impl<'r> Group<'r> {
    fn at(row: &'r [u8], place: usize) -> Group<'r> {
        let behind = &row[place..];
        let length = behind.iter().position(|&byte| byte == b' ').unwrap_or(behind.len());
        Group { row, place, text: &behind[..length] }
    }

    /// The group behind the spaces that stand at a place. One that is missing is empty, at the row's end, and fits nothing.
    fn behind(row: &'r [u8], place: usize) -> Group<'r> {
        let spaces = row[place..].iter().take_while(|&&byte| byte == b' ').count();
        Group::at(row, place + spaces)
    }

    fn next(&self) -> Group<'r> {
        Group::behind(self.row, self.end())
    }

    fn end(&self) -> usize {
        self.place + self.text.len()
    }

    /// What the whole group says, or the number at its first byte.
    fn says<T>(&self, number: u8, read: impl Fn(&[u8]) -> Option<T>) -> Result<T, Refused> {
        read(self.text).ok_or_else(|| Refused::at(number, self.place))
    }
}

/// Where the runway stands that a row names: the place of 7.
pub fn runway_place(row: &[u8]) -> usize {
    Group::at(row, 0).next().place
}

/// The leftmost fault of a text; none if it is a row.
pub fn fault(row: &[u8]) -> Option<Refused> {
    judge(row).err()
}

fn judge(row: &[u8]) -> Result<(), Refused> {
    // No space is passed before the time: a row that begins with one has an empty group there.
    let time_group = Group::at(row, 0);
    time_group.says(TIME, read_time)?;
    let runway_group = time_group.next();
    runway_group.says(RUNWAY, |text| Runway::read(text, REPORTED))?;
    let codes_group = runway_group.next();
    let codes = codes_group.says(CODES, |text| thirds(text, read_code))?;
    let coverage_group = codes_group.next();
    // What follows the codes is a coverage unless the row is short, word for word.
    if let Some(descriptions) = short(row, coverage_group.place) {
        let allowed = codes == [6; 3] || descriptions == [DRY; 3];
        return if allowed { Ok(()) } else { Err(Refused::at(COVERAGE_OR_DEPTH, coverage_group.place)) };
    }
    let coverages = coverage_group.says(COVERAGE_OR_DEPTH, |text| thirds(text, read_coverage))?;
    let depth_group = coverage_group.next();
    let depths = depth_group.says(COVERAGE_OR_DEPTH, |text| thirds(text, read_depth))?;
    let start = depth_group.next().place;
    let (descriptions, end) = descriptions(row, start).ok_or(Refused::at(WRONG_DESCRIPTIONS, start))?;
    // Now that all three are read: the coverages first, then the depths, and the width after both.
    if is_any_forbidden(coverages, descriptions, takes_coverage) {
        return Err(Refused::at(COVERAGE_OR_DEPTH, coverage_group.place));
    }
    if is_any_forbidden(depths, descriptions, takes_depth) {
        return Err(Refused::at(COVERAGE_OR_DEPTH, depth_group.place));
    }
    width(row, end).map_err(|place| Refused::at(WIDTH, place))
}

/// Three parts joined by two slashes.
fn thirds(group: &[u8], read: impl Fn(&[u8]) -> Option<u16>) -> Option<[u16; 3]> {
    let parts = group.split(|&byte| byte == b'/').map(read).collect::<Option<Vec<_>>>()?;
    parts.try_into().ok()
}

/// The descriptions of a row that is short: three of them stand at the place, and nothing but a width behind them.
fn short(row: &[u8], place: usize) -> Option<[u16; 3]> {
    let (descriptions, end) = descriptions(row, place)?;
    width(row, end).ok()?;
    Some(descriptions)
}

/// The three descriptions at a place, and where the third ends.
fn descriptions(row: &[u8], place: usize) -> Option<([u16; 3], usize)> {
    let (first, end) = longest(row, place)?;
    let (second, end) = longest(row, behind_slash(row, end)?)?;
    let (third, end) = longest(row, behind_slash(row, end)?)?;
    Some(([first, second, third], end))
}

fn behind_slash(row: &[u8], place: usize) -> Option<usize> {
    (row.get(place) == Some(&b'/')).then_some(place + 1)
}

/// The longest description that stands at a place, NR among them, and where it ends. What follows it does not matter.
fn longest(row: &[u8], place: usize) -> Option<(u16, usize)> {
    let words = std::iter::once("NR").chain(DESCRIPTIONS);
    let standing = (NR..).zip(words).filter_map(|(number, words)| Some((number, end_of(row, place, words)?)));
    standing.max_by_key(|&(_, end)| end)
}

/// Where words end that stand at a place; several spaces may stand for one of theirs.
fn end_of(row: &[u8], place: usize, words: &str) -> Option<usize> {
    let mut end = place;
    for &byte in words.as_bytes() {
        if row.get(end) != Some(&byte) {
            return None;
        }
        end += 1;
        while byte == b' ' && row.get(end) == Some(&b' ') {
            end += 1;
        }
    }
    Some(end)
}

/// A number stands where the description takes none such; NR is never forbidden.
fn is_any_forbidden(numbers: [u16; 3], descriptions: [u16; 3], takes: impl Fn(u16, u16) -> bool) -> bool {
    numbers.iter().zip(descriptions).any(|(&number, description)| number != NR && !takes(description, number))
}

fn takes_coverage(description: u16, _coverage: u16) -> bool {
    description != NR && description != DRY
}

fn takes_depth(description: u16, depth: u16) -> bool {
    least_depth(description).map_or(false, |least| least <= depth)
}

/// What follows the third description: nothing, or a gap, a width and nothing more. Else the place of what does not fit.
fn width(row: &[u8], end: usize) -> Result<(), usize> {
    if end == row.len() {
        return Ok(());
    }
    if row[end] != b' ' {
        return Err(end);
    }
    let width = Group::behind(row, end);
    read_width(width.text).ok_or(width.place)?;
    if width.end() == row.len() {
        Ok(())
    } else {
        Err(width.next().place)
    }
}

#[cfg(test)]
mod tests {
    use super::*;
    use crate::edges::{self, Example};
    use crate::row::{DRY_SNOW, WET_SNOW_ON_ICE};

    #[test]
    fn the_rows_by_hand() {
        for Example { text, number, place } in edges::rows_by_hand() {
            let told = fault(&text).unwrap_or(Refused::at(0, 0));
            assert_eq!(told, Refused::at(number, place), "{}", text.escape_ascii());
        }
    }

    #[test]
    fn the_longest_description_that_stands_there() {
        let told = |text: &str| longest(text.as_bytes(), 0);
        assert_eq!(told("DRY"), Some((DRY, 3)));
        assert_eq!(told("DRYSNOW"), Some((DRY, 3)));
        assert_eq!(told("DRY SNOWX"), Some((DRY_SNOW, 8)));
        assert_eq!(told("DRY   SNOW ON TOP OF"), Some((DRY_SNOW, 10)));
        assert_eq!(told("WET SNOW ON TOP  OF ICEBERG"), Some((WET_SNOW_ON_ICE, 23)));
        assert_eq!(told("NRX"), Some((NR, 2)));
        for none in ["", "X", "WATER ON TOP OF ICE", "COMPACTED\tSNOW", " DRY"] {
            assert_eq!(told(none), None, "{none}");
        }
    }

    #[test]
    fn where_a_runway_stands() {
        assert_eq!(runway_place(b"01120640   07 6/6/6 DRY/DRY/DRY"), 11);
    }
}
