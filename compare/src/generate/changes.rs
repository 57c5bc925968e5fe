//! The row shown and a new one, about as far from each other as Table 3 has it.
use super::records::{row, runway, third, time, COVERAGES};
use super::Rng;
use crate::due::threshold;
use crate::row::{
    least_depth, Row, Runway, Third, COMPACTED_SNOW, DRY, DRY_SNOW, DRY_SNOW_ON_ICE, FROST, ICE, NR, REPORTED, SLUSH,
    STANDING_WATER, WATER_ON_COMPACTED_SNOW, WET, WET_SNOW, WET_SNOW_ON_ICE,
};

const DEEP: [u16; 4] = [STANDING_WATER, SLUSH, WET_SNOW, DRY_SNOW];
/// Some of those that no depth is reported of.
const SHALLOW: [u16; 9] =
    [NR, DRY, WET, FROST, ICE, COMPACTED_SNOW, WATER_ON_COMPACTED_SNOW, DRY_SNOW_ON_ICE, WET_SNOW_ON_ICE];
const UNREAL_TIMES: [u32; 9] =
    [0, 2_300_000, 4_310_000, 13_010_000, 1_012_400, 1_010_060, 10_000, 101_010_000, u32::MAX];

/// Two rows: in seven pairs of ten both are valid and of one runway. They are put in either order.
pub fn row_pair(rng: &mut Rng) -> (Row, Row) {
    let runway = runway(rng, REPORTED);
    let mut old = deep_row(rng, runway);
    let mut new = changed(rng, &old);
    match rng.below(100) {
        0..=13 => new.runway = other_runway(rng, runway),
        14..=22 => spoil(rng, &mut new),
        // 19 comes before 29.
        23..=26 => {
            old.runway = other_runway(rng, runway);
            spoil(rng, &mut new);
        }
        27..=28 => {
            spoil(rng, &mut new);
            spoil(rng, &mut old);
        }
        // Not even against itself does an invalid row change nothing.
        29 => {
            spoil(rng, &mut new);
            old = new.clone();
        }
        _ => {}
    }
    if rng.chance(50) {
        (new, old)
    } else {
        (old, new)
    }
}

/// A row with a deep kind in most thirds.
fn deep_row(rng: &mut Rng, runway: Runway) -> Row {
    let mut row = row(rng, runway);
    for place in &mut row.thirds {
        if rng.chance(70) {
            let kind = rng.pick(&DEEP);
            *place = third(rng, kind);
        }
    }
    row
}

/// A valid row of the same runway: the same, of another width, with one third or several changed, or any other.
fn changed(rng: &mut Rng, old: &Row) -> Row {
    let mut new = old.clone();
    if rng.chance(60) {
        new.time = time(rng);
    }
    match rng.below(20) {
        0..=2 => {}
        3..=5 => new.width = other_width(rng, old.width),
        6..=11 => {
            let place = &mut new.thirds[rng.below(3)];
            *place = altered(rng, place);
        }
        12..=18 => {
            for place in &mut new.thirds {
                if rng.chance(60) {
                    *place = altered(rng, place);
                }
            }
            if rng.chance(25) {
                new.width = other_width(rng, old.width);
            }
        }
        _ => new = deep_row(rng, old.runway),
    }
    new
}

/// The next, missing, or any other one.
fn other_width(rng: &mut Rng, width: u8) -> u8 {
    let any = rng.below(100) as u8;
    let others = [0, (width + 1) % 100, any].into_iter().filter(|&other| other != width).collect::<Vec<u8>>();
    rng.pick(&others)
}

/// A valid third that differs in one thing, where its description lets it: mostly in the depth.
fn altered(rng: &mut Rng, old: &Third) -> Third {
    let mut new = *old;
    match rng.below(10) {
        0..=5 => new.depth = other_depth(rng, old),
        6 => new.code = (old.code + 1 + rng.below(6) as u16) % 7,
        7 => {
            new.coverage = rng.pick(&COVERAGES);
            // No coverage stands under DRY or NR.
            if !new.is_valid() {
                new = *old;
            }
        }
        _ => new = described_otherwise(rng, old),
    }
    new
}

/// A depth as far away as Table 3 has it, one less or one more, or as another kind has it, up or down; at times NR for a
/// number, and a number for NR. A kind without a depth keeps its NR.
fn other_depth(rng: &mut Rng, old: &Third) -> u16 {
    let (least, figure) = match least_depth(old.description).zip(threshold(old.description)) {
        Some(both) => both,
        None => return NR,
    };
    let any = rng.between(least.into(), 999) as u16;
    if old.depth == NR {
        return rng.pick(&[least, figure.max(least), any]);
    }
    if rng.chance(12) {
        return NR;
    }
    let step = rng.pick(&[figure - 1, figure - 1, figure, figure, figure + 1, figure + 1, 3, 5, 20, any]);
    // The lower one wraps to a depth that is none.
    let near = [old.depth.wrapping_sub(step), old.depth + step];
    let near: Vec<u16> = near.into_iter().filter(|depth| (least..=999).contains(depth)).collect();
    if near.is_empty() {
        any
    } else {
        rng.pick(&near)
    }
}

/// Another description, a deep one as often as not; depth and coverage stay as far as it takes them.
fn described_otherwise(rng: &mut Rng, old: &Third) -> Third {
    let mut new = *old;
    while new.description == old.description {
        let any = rng.below(usize::from(DRY) + 1) as u16;
        new.description = if rng.chance(50) { rng.pick(&DEEP) } else { any };
    }
    if !new.is_valid() {
        new.depth = NR;
    }
    if !new.is_valid() {
        new.coverage = NR;
    }
    new
}

/// Another number, another side, or both.
fn other_runway(rng: &mut Rng, runway: Runway) -> Runway {
    let number = 1 + (runway.number + rng.below(usize::from(REPORTED) - 1) as u8) % REPORTED;
    let side = (runway.side + 1 + rng.below(3) as u8) % 4;
    rng.pick(&[Runway { number, ..runway }, Runway { side, ..runway }, Runway { number, side }])
}

/// One field out of its rules, or a third whose description forbids a number of it: the row is valid no more.
pub fn spoil(rng: &mut Rng, row: &mut Row) {
    let third = &mut row.thirds[rng.below(3)];
    match rng.below(11) {
        0 => row.time = rng.pick(&UNREAL_TIMES),
        1 => row.runway.number = rng.pick(&[0, 0, 19, 36, 255]),
        2 => row.runway.side = rng.pick(&[4, 4, 5, 255]),
        3 => row.width = rng.pick(&[100, 100, 101, 255]),
        4 => third.code = rng.pick(&[7, 7, 8, 255]),
        5 => third.coverage = rng.pick(&[1, 10, 24, 26, 30, 99, 101, 255]),
        6 => third.description = rng.pick(&[DRY + 1, DRY + 1, 255]),
        7 => {
            let coverage = rng.pick(&[25, 50, 75, 100]);
            *third = Third { coverage, depth: NR, description: rng.pick(&[DRY, DRY, NR]), ..*third };
        }
        8 => (third.depth, third.description) = (3, STANDING_WATER),
        9 => (third.depth, third.description) = (rng.pick(&[1, 2, 1000, u16::MAX]), rng.pick(&DEEP)),
        _ => (third.depth, third.description) = (rng.pick(&[3, 4, 20, 999]), rng.pick(&SHALLOW)),
    }
}

#[cfg(test)]
mod tests {
    use super::*;
    use crate::due::{due, Change};

    const ALL: usize = 20_000;

    fn pairs() -> Vec<(Row, Row)> {
        let mut rng = Rng::new(1);
        (0..ALL).map(|_| row_pair(&mut rng)).collect()
    }

    fn share(count: usize) -> usize {
        100 * count / ALL
    }

    /// The pairs of thirds of valid rows of one runway.
    fn thirds() -> Vec<(Third, Third)> {
        let pairs = pairs().into_iter().filter(|(old, new)| due(old, new).refusal == 0);
        pairs.flat_map(|(old, new)| old.thirds.into_iter().zip(new.thirds)).collect()
    }

    #[test]
    fn each_outcome_is_common() {
        let told: Vec<Change> = pairs().iter().map(|(old, new)| due(old, new)).collect();
        let of = |is: &dyn Fn(&Change) -> bool| share(told.iter().filter(|change| is(change)).count());
        assert!((60..80).contains(&of(&|change| change.refusal == 0)));
        assert!(of(&|change| change.refusal == 19) >= 12);
        assert!(of(&|change| change.refusal == 29) >= 10);
        assert!(of(&|change| change.due) >= 30);
        assert!(of(&|change| change.refusal == 0 && !change.due) >= 15);
        // The width alone.
        assert!(of(&|change| change.due && change.counts == [false; 3]) >= 10);
        for third in 0..3 {
            assert!(of(&|change| change.counts[third]) >= 12, "{third}");
            assert!(of(&|change| change.refusal == 0 && !change.counts[third]) >= 30, "{third}");
            // It alone, and all but it.
            let alone = [0, 1, 2].map(|other| other == third);
            let others = alone.map(|one| !one);
            assert!(of(&|change| change.counts == alone) >= 4, "{third}");
            assert!(of(&|change| change.counts == others) >= 1, "{third}");
        }
        assert!(of(&|change| change.counts == [true; 3]) >= 1);
    }

    /// The figures of Table 3 are told here once more: the generator has them from the second reader.
    #[test]
    fn each_edge_of_table_3_is_met_alone() {
        let thirds = thirds();
        for (description, figure) in [(STANDING_WATER, 3), (SLUSH, 3), (WET_SNOW, 5), (DRY_SNOW, 20)] {
            let met = |is: &dyn Fn(i32, i32) -> bool| {
                let alone = |(old, new): &&(Third, Third)| {
                    old.description == description
                        && *new == Third { depth: new.depth, ..*old }
                        && is(old.depth.into(), new.depth.into())
                };
                thirds.iter().filter(alone).count()
            };
            for step in [figure - 1, figure, figure + 1] {
                for step in [step, -step] {
                    let count = met(&|old, new| old > 0 && new > 0 && new - old == step);
                    assert!(count >= ALL / 400, "{description}, {step}: {count}");
                }
            }
            let nr = [met(&|old, new| old > 0 && new == 0), met(&|old, new| old == 0 && new > 0)];
            assert!(nr.iter().all(|&count| count >= ALL / 400), "{description}: {nr:?}");
            // NR against a number that is nearer to nothing than the figure, of the kinds that have one.
            let near = met(&|old, new| (old == 0) != (new == 0) && old + new < figure);
            assert!(figure <= 3 || near >= ALL / 400, "{description}: {near}");
            assert!(met(&|old, new| old == 0 && new == 0) >= ALL / 100, "{description}");
        }
    }

    /// Each other field of a third differs alone, with each value that it may have.
    #[test]
    fn each_field_differs_alone() {
        let thirds = thirds();
        let met = |is: &dyn Fn(&Third, &Third) -> bool| thirds.iter().filter(|(old, new)| is(old, new)).count();
        for code in 0..=6 {
            let count =
                met(&|old, new| old.code == code && new.code != code && *new == Third { code: new.code, ..*old });
            assert!(count >= ALL / 400, "code {code}: {count}");
        }
        for coverage in COVERAGES {
            let count = met(&|old, new| {
                let alone = *new == Third { coverage: new.coverage, ..*old };
                old.coverage == coverage && new.coverage != coverage && alone
            });
            assert!(count >= ALL / 400, "coverage {coverage}: {count}");
        }
        for description in NR..=DRY {
            let differs = |old: &Third, new: &Third| {
                let alone = *new == Third { description: new.description, ..*old };
                old.description != new.description && alone
            };
            let from = met(&|old, new| old.description == description && differs(old, new));
            let to = met(&|old, new| new.description == description && differs(old, new));
            assert!(from.min(to) >= ALL / 1000, "description {description}: {from}, {to}");
        }
        // The same depth under another deep kind.
        let same_depth = met(&|old, new| old.depth > 0 && old.depth == new.depth && old.description != new.description);
        assert!(same_depth >= ALL / 100, "{same_depth}");
    }

    #[test]
    fn times_widths_and_runways_differ_alone() {
        let pairs = pairs();
        let met = |is: &dyn Fn(&Row, &Row) -> bool| share(pairs.iter().filter(|(old, new)| is(old, new)).count());
        let valid = |old: &Row, new: &Row| old.is_valid() && new.is_valid();
        assert!(met(&|old, new| valid(old, new) && old == new) >= 2);
        assert!(
            met(&|old, new| valid(old, new) && old.time != new.time && *new == Row { time: new.time, ..old.clone() })
                >= 5
        );
        let by_width = |old: &Row, new: &Row| {
            valid(old, new) && *new == Row { time: new.time, width: new.width, ..old.clone() } && old.width != new.width
        };
        assert!(met(&|old, new| by_width(old, new) && old.width > 0 && new.width > 0) >= 2);
        assert!(met(&|old, new| by_width(old, new) && old.width == 0) >= 2);
        assert!(met(&|old, new| by_width(old, new) && new.width == 0) >= 2);
        let runways = |number, side, told: usize| {
            let count = met(&|old, new| {
                let (one, other) = (old.runway, new.runway);
                valid(old, new) && (one.number != other.number, one.side != other.side) == (number, side)
            });
            assert!(count >= told, "{number} {side}: {count}");
        };
        runways(true, false, 3);
        runways(false, true, 3);
        runways(true, true, 3);
        // As 07 and 07L do.
        assert!(
            met(&|old, new| {
                let (one, other) = (old.runway, new.runway);
                valid(old, new) && one.number == other.number && (one.side == 0) != (other.side == 0)
            }) >= 1
        );
    }

    /// The old one, the new one and both are invalid, be it of different runways, and by each of the rules.
    #[test]
    fn each_invalid_row_is_met() {
        let pairs = pairs();
        let met = |is: &dyn Fn(&Row, &Row) -> bool| pairs.iter().filter(|(old, new)| is(old, new)).count();
        assert!(share(met(&|old, new| !old.is_valid() && new.is_valid())) >= 5);
        assert!(share(met(&|old, new| old.is_valid() && !new.is_valid())) >= 5);
        assert!(share(met(&|old, new| !old.is_valid() && !new.is_valid())) >= 2);
        assert!(met(&|old, new| !old.is_valid() && old == new) >= ALL / 200);
        assert!(share(met(&|old, new| !(old.is_valid() && new.is_valid()) && old.runway != new.runway)) >= 3);
        let breaches: [fn(&Row) -> bool; 11] = [
            |row| !crate::row::is_real_time(row.time),
            |row| row.runway.number == 0,
            |row| row.runway.number > REPORTED,
            |row| row.runway.side > 3,
            |row| row.width > 99,
            |row| row.thirds.iter().any(|third| third.code > 6),
            |row| row.thirds.iter().any(|third| !COVERAGES.contains(&third.coverage)),
            |row| row.thirds.iter().any(|third| third.description > DRY),
            |row| row.thirds.iter().any(|third| [NR, DRY].contains(&third.description) && third.coverage == 25),
            |row| row.thirds.iter().any(|third| third.description == STANDING_WATER && third.depth == 3),
            |row| row.thirds.iter().any(|third| third.description == WET && third.depth > 0),
        ];
        for (place, breach) in breaches.iter().enumerate() {
            assert!(met(&|old, new| breach(old) || breach(new)) >= ALL / 1000, "breach {place}");
        }
    }

    #[test]
    fn what_is_spoilt_is_invalid_and_what_is_changed_is_not() {
        let mut rng = Rng::new(1);
        for _ in 0..ALL {
            let runway = runway(&mut rng, REPORTED);
            let old = deep_row(&mut rng, runway);
            let mut new = changed(&mut rng, &old);
            assert!(old.is_valid() && new.is_valid() && old.runway == new.runway, "{old:?} {new:?}");
            assert!(other_runway(&mut rng, runway).is_reported() && other_runway(&mut rng, runway) != runway);
            spoil(&mut rng, &mut new);
            assert!(!new.is_valid(), "{new:?}");
        }
    }
}
