//! The row shown and a new one by hand, and what the documents tell of them: request 5 of document 02.
use super::expanded;
use crate::due::Change;
use crate::row::{Row, Runway, Third, DESCRIPTIONS};

/// Two rows by hand and what they are answered, in either order.
pub struct Pair {
    pub old: Row,
    pub new: Row,
    pub change: Change,
}

/// A third counts or does not, and a notice is due or is not.
const Y: bool = true;
const N: bool = false;

/// A kind, its depths in either row, and the thirds that count. Nothing else differs, so that a notice is due where one counts.
const DEPTHS: &[(&str, &str, &str, [bool; 3])] = &[
    // The figure of Table 3, one below it and one above it, up and down.
    ("STANDING WATER", "10/10/10", "13/12/14", [Y, N, Y]),
    ("STANDING WATER", "10/10/10", "07/08/06", [Y, N, Y]),
    ("SLUSH", "10/10/10", "13/12/14", [Y, N, Y]),
    ("SLUSH", "10/10/10", "07/08/06", [Y, N, Y]),
    ("WET SNOW", "10/10/10", "15/14/16", [Y, N, Y]),
    ("WET SNOW", "10/10/10", "05/06/04", [Y, N, Y]),
    ("DRY SNOW", "40/40/40", "60/59/61", [Y, N, Y]),
    ("DRY SNOW", "40/40/40", "20/21/19", [Y, N, Y]),
    // The same from the least that is reported, and from the most.
    ("STANDING WATER", "04/04/04", "07/06/05", [Y, N, N]),
    ("STANDING WATER", "999/999/999", "996/997/998", [Y, N, N]),
    ("SLUSH", "03/03/03", "06/05/04", [Y, N, N]),
    ("SLUSH", "999/999/999", "996/997/998", [Y, N, N]),
    ("WET SNOW", "03/03/03", "08/07/04", [Y, N, N]),
    ("WET SNOW", "999/999/999", "994/995/998", [Y, N, N]),
    ("DRY SNOW", "03/03/03", "23/22/04", [Y, N, N]),
    ("DRY SNOW", "999/999/999", "979/980/998", [Y, N, N]),
    ("STANDING WATER", "04/999/99", "999/04/100", [Y, Y, N]),
    // The figure is another kind's.
    ("WET SNOW", "10/10/10", "13/07/10", [N, N, N]),
    ("DRY SNOW", "40/40/40", "43/45/35", [N, N, N]),
    // Where two digits become three.
    ("SLUSH", "99/98/97", "100/100/100", [N, N, Y]),
    // NR against a number, be it nearer to nothing than the figure, and NR against NR.
    ("STANDING WATER", "NR/10/NR", "04/NR/NR", [Y, Y, N]),
    ("SLUSH", "NR/10/NR", "03/NR/NR", [Y, Y, N]),
    ("WET SNOW", "NR/04/NR", "03/NR/NR", [Y, Y, N]),
    ("DRY SNOW", "NR/19/NR", "03/NR/NR", [Y, Y, N]),
    ("DRY SNOW", "NR/20/NR", "999/NR/NR", [Y, Y, N]),
    ("SLUSH", "NR/NR/NR", "NR/NR/NR", [N, N, N]),
    // None of them counts, each in its own direction.
    ("STANDING WATER", "10/10/10", "12/08/10", [N, N, N]),
    ("SLUSH", "10/10/10", "12/08/10", [N, N, N]),
    ("WET SNOW", "10/10/10", "14/06/10", [N, N, N]),
    ("DRY SNOW", "40/40/40", "59/21/40", [N, N, N]),
];

/// Two rows, the thirds that count, and whether a notice is due.
const CHANGES: &[(&str, &str, [bool; 3], bool)] = &[
    // The same row, and the same but for its time.
    ("<D><S>", "<D><S>", [N, N, N], N),
    ("<D><S>", "01120641 07 <S>", [N, N, N], N),
    ("12312359 07 <LONG>WET/WET/WET 30", "01010000 07 <LONG>WET/WET/WET 30", [N, N, N], N),
    // Of one runway with a side.
    ("<T> 07L <S>", "<T> 07L <S>", [N, N, N], N),
    ("<T> 07L <S>", "<T> 07L 6/6/5 NR/NR/NR NR/NR/NR DRY/DRY/DRY", [N, N, Y], Y),
    // The code alone, by one and by more.
    ("<D>5/5/5 NR/NR/NR NR/NR/NR WET/WET/WET", "<D>5/3/5 NR/NR/NR NR/NR/NR WET/WET/WET", [N, Y, N], Y),
    ("<D>6/6/6 DRY/DRY/DRY", "<D>5/6/0 DRY/DRY/DRY", [Y, N, Y], Y),
    ("<D>2/2/2 50/50/50 10/10/10 SLUSH/SLUSH/SLUSH", "<D>3/2/2 50/50/50 10/10/10 SLUSH/SLUSH/SLUSH", [Y, N, N], Y),
    // The coverage alone, NR too.
    ("<D><LONG>FROST/FROST/FROST", "<D>5/5/5 50/NR/25 NR/NR/NR FROST/FROST/FROST", [Y, N, Y], Y),
    ("<D><LONG>FROST/FROST/FROST", "<D>5/5/5 NR/100/NR NR/NR/NR FROST/FROST/FROST", [Y, Y, N], Y),
    // The description alone.
    ("<D><LONG>FROST/FROST/FROST", "<D><LONG>WET/FROST/FROST", [Y, N, N], Y),
    ("<D>6/6/6 NR/NR/NR", "<D>6/6/6 DRY/NR/NR", [Y, N, N], Y),
    ("<D>6/6/6 NR/NR/NR", "<D>6/6/6 DRY/DRY/DRY", [Y, Y, Y], Y),
    ("<D>6/6/6 DRY/DRY/DRY", "<D>6/6/6 DRY/DRY/DRY SNOW", [N, N, Y], Y),
    // It counts however near the depths are, and whichever kind has the larger figure.
    (
        "<D>3/3/2 NR/NR/NR 10/10/10 DRY SNOW/WET SNOW/SLUSH",
        "<D>3/3/2 NR/NR/NR 10/10/10 WET SNOW/WET SNOW/STANDING WATER",
        [Y, N, Y],
        Y,
    ),
    (
        "<D>3/3/3 NR/NR/NR 10/10/10 DRY SNOW/DRY SNOW/DRY SNOW",
        "<D>3/3/3 NR/NR/NR 11/11/11 SLUSH/DRY SNOW/WET SNOW",
        [Y, N, Y],
        Y,
    ),
    ("<D>2/2/2 NR/NR/NR NR/NR/NR SLUSH/SLUSH/SLUSH", "<D>2/2/2 NR/NR/NR NR/NR/NR WET SNOW/SLUSH/SLUSH", [Y, N, N], Y),
    // Each third by its own kind: 4 mm more.
    (
        "<D>2/2/3 NR/NR/NR 10/10/10 STANDING WATER/SLUSH/WET SNOW",
        "<D>2/2/3 NR/NR/NR 14/14/14 STANDING WATER/SLUSH/WET SNOW",
        [Y, Y, N],
        Y,
    ),
    (
        "<D>3/3/2 NR/NR/NR 10/10/10 DRY SNOW/WET SNOW/SLUSH",
        "<D>3/3/2 NR/NR/NR 15/15/12 DRY SNOW/WET SNOW/SLUSH",
        [N, Y, N],
        Y,
    ),
    // A third is held against itself and not against its neighbour.
    ("<D>2/3/4 25/50/75 NR/NR/NR ICE/ICE/ICE", "<D>4/2/3 75/25/50 NR/NR/NR ICE/ICE/ICE", [Y, Y, Y], Y),
    // The width alone: other, and missing against a number. No third counts for it.
    ("<D><S> 30", "<D><S> 31", [N, N, N], Y),
    ("<D><S>", "<D><S> 01", [N, N, N], Y),
    ("<D><S> 99", "<D><S>", [N, N, N], Y),
    ("<D><LONG>WET/WET/WET 30", "12312359 07 <LONG>WET/WET/WET 40", [N, N, N], Y),
    // The width beside a depth that does not count, and beside a third that does.
    (
        "<D>2/2/2 NR/NR/NR 10/10/10 SLUSH/SLUSH/SLUSH 30",
        "<D>2/2/2 NR/NR/NR 12/10/10 SLUSH/SLUSH/SLUSH 40",
        [N, N, N],
        Y,
    ),
    (
        "<D>2/2/2 NR/NR/NR 10/10/10 SLUSH/SLUSH/SLUSH 30",
        "<D>2/2/2 NR/NR/NR 13/10/10 SLUSH/SLUSH/SLUSH 40",
        [Y, N, N],
        Y,
    ),
    // All of it at once.
    ("<D>2/2/2 50/50/50 10/10/10 SLUSH/SLUSH/SLUSH 30", "01010000 07 6/6/6 DRY/DRY/DRY", [Y, Y, Y], Y),
];

/// Two good rows of different runways.
const OTHER_RUNWAYS: &[(&str, &str)] = &[
    ("<D><S>", "<T> 07L <S>"),
    ("<D><S>", "<T> 07C <S>"),
    ("<D><S>", "<T> 07R <S>"),
    ("<T> 07L <S>", "<T> 07R <S>"),
    ("<T> 07L <S>", "<T> 07C <S>"),
    ("<D><S>", "<T> 08 <S>"),
    ("<T> 07L <S>", "<T> 08L <S>"),
    ("<T> 01 <S>", "<T> 18 <S>"),
    ("<T> 07L <S>", "<T> 08R <S>"),
    // Whatever else differs.
    ("<D><S> 30", "<T> 07L <S> 31"),
    ("<D><S>", "<T> 07L 0/0/0 DRY/DRY/DRY"),
    ("<D>2/2/2 NR/NR/NR 10/10/10 SLUSH/SLUSH/SLUSH", "01120641 18R 2/2/2 NR/NR/NR 13/NR/NR SLUSH/SLUSH/WET"),
];

/// A good row, and what makes it invalid, each alone.
pub const GOOD: &str = "<D>2/5/6 50/25/NR 10/NR/NR STANDING WATER/FROST/DRY 30";
pub const BREACHES: [fn(&mut Row); 21] = [
    |row| row.time = 2_300_000,
    |row| row.time = 0,
    |row| row.time = u32::MAX,
    |row| row.runway.number = 0,
    |row| row.runway.number = 19,
    |row| row.runway.number = 255,
    |row| row.runway.side = 4,
    |row| row.width = 100,
    |row| row.width = 255,
    |row| row.thirds[0].code = 7,
    |row| row.thirds[2].code = 255,
    |row| row.thirds[1].coverage = 30,
    // A coverage under DRY and under NR.
    |row| row.thirds[2].coverage = 25,
    |row| row.thirds[1].description = 0,
    // A depth that is none of STANDING WATER, or of a kind that has none.
    |row| row.thirds[0].depth = 3,
    |row| row.thirds[0].depth = 1000,
    |row| row.thirds[1].depth = 4,
    |row| row.thirds[2].depth = 10,
    |row| row.thirds[0].description = 16,
    |row| row.thirds[1].description = 255,
    // What a board has in a place that has no report.
    |row| *row = Row { time: 0, runway: Runway::default(), thirds: [Third::default(); 3], width: 0 },
];

/// The pairs of rows by hand, and every two descriptions.
pub fn row_pairs_by_hand() -> Vec<Pair> {
    let mut pairs: Vec<Pair> = DEPTHS.iter().map(|&(kind, old, new, counts)| depths(kind, old, new, counts)).collect();
    pairs.extend(CHANGES.iter().map(|&(old, new, counts, due)| pair(old, new, Change { refusal: 0, counts, due })));
    let descriptions = || DESCRIPTIONS.into_iter().chain(["NR"]);
    for (old, new) in descriptions().flat_map(|old| descriptions().map(move |new| (old, new))) {
        let due = old != new;
        let change = Change { refusal: 0, counts: [N, due, N], due };
        pairs.push(pair(&format!("<D>6/6/6 {old}/{old}/NR"), &format!("<D>6/6/6 {old}/{new}/NR"), change));
    }
    pairs.extend(OTHER_RUNWAYS.iter().map(|&(old, new)| pair(old, new, refused(29))));
    for breach in BREACHES {
        let old = row(GOOD);
        let mut invalid = old.clone();
        breach(&mut invalid);
        let elsewhere = Row { runway: Runway { number: 8, side: 1 }, ..old.clone() };
        // Beside a good row, beside itself, and beside a row of another runway, since 19 comes before 29.
        for old in [old, invalid.clone(), elsewhere] {
            pairs.push(Pair { old, new: invalid.clone(), change: refused(19) });
        }
    }
    pairs
}

fn depths(kind: &str, old: &str, new: &str, counts: [bool; 3]) -> Pair {
    let text = |depths: &str| format!("<D>2/2/2 50/50/50 {depths} {kind}/{kind}/{kind}");
    pair(&text(old), &text(new), Change { refusal: 0, counts, due: counts.contains(&Y) })
}

fn pair(old: &str, new: &str, change: Change) -> Pair {
    Pair { old: row(old), new: row(new), change }
}

fn refused(refusal: u8) -> Change {
    Change { refusal, ..Change::default() }
}

pub fn row(text: &str) -> Row {
    Row::read(expanded(text).as_bytes()).expect(text)
}
