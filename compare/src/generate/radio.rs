//! Lists of rows for the radio, and radio records, whole and with something done to them.
use super::changes::spoil;
use super::records::{row, row_count, runway};
use super::Rng;
use crate::radio::{self, Field};
use crate::row::{least_depth, Row, REPORTED};

/// Where the minutes take a group more, about the end of February, and the ends of the year.
const TIMES: [u32; 12] = [
    1_010_000, 1_010_001, 1_010_207, 1_010_208, 1_010_500, 1_120_903, 1_120_904, 2_282_359, 2_290_000, 2_292_359,
    3_010_000, 12_312_359,
];

/// Valid rows of different runways.
fn rows(rng: &mut Rng, count: usize) -> Vec<Row> {
    let mut rows: Vec<Row> = Vec::new();
    while rows.len() < count {
        let runway = runway(rng, REPORTED);
        if rows.iter().all(|other| other.runway != runway) {
            let row = row(rng, runway);
            rows.push(with_long_numbers(rng, row));
        }
    }
    rows
}

/// The same row, at times with minutes or depths that take a group more or just not.
fn with_long_numbers(rng: &mut Rng, mut row: Row) -> Row {
    if rng.chance(30) {
        row.time = rng.pick(&TIMES);
    }
    for third in &mut row.thirds {
        if least_depth(third.description).is_some() && rng.chance(30) {
            third.depth = rng.pick(&[126, 127, 128, 129, 300, 998, 999]);
        }
    }
    row
}

/// One row has the runway of another before it; it is at times the same row.
fn with_runway_twice(rng: &mut Rng, rows: &mut [Row]) {
    let later = rng.between(1, rows.len() - 1);
    let earlier = rng.below(later);
    if rng.chance(30) {
        rows[later] = rows[earlier].clone();
    } else {
        rows[later].runway = rows[earlier].runway;
    }
}

fn with_spoilt_row(rng: &mut Rng, rows: &mut [Row]) {
    let place = rng.below(rows.len());
    spoil(rng, &mut rows[place]);
}

/// A list of rows to be written: about half of them have a record.
pub fn radio_list(rng: &mut Rng) -> Vec<Row> {
    let any = row_count(rng);
    let several = any.max(2);
    match rng.below(20) {
        0..=10 => rows(rng, any),
        11..=14 => {
            let mut rows = rows(rng, any);
            with_spoilt_row(rng, &mut rows);
            rows
        }
        15..=16 => {
            let mut rows = rows(rng, several);
            with_runway_twice(rng, &mut rows);
            rows
        }
        // 19 comes before the runway twice, and over eight before both.
        17 => {
            let mut rows = rows(rng, several);
            with_runway_twice(rng, &mut rows);
            with_spoilt_row(rng, &mut rows);
            rows
        }
        18 => Vec::new(),
        _ => {
            let count = rng.pick(&[9, 9, 9, 10, 16, 255]);
            let mut rows = rows(rng, 9);
            if rng.chance(30) {
                with_spoilt_row(rng, &mut rows);
            }
            rows.into_iter().cycle().take(count).collect()
        }
    }
}

/// A record that is read: about a third of them are good.
pub fn radio_record(rng: &mut Rng) -> Vec<u8> {
    let count = row_count(rng);
    let mut record = radio::unjudged(&rows(rng, count));
    match rng.below(20) {
        0..=5 => {}
        6 => {
            let mut rows = rows(rng, count.max(2));
            with_runway_twice(rng, &mut rows);
            record = radio::unjudged(&rows);
        }
        7..=8 => with_bit_turned(rng, &mut record),
        9..=10 => record = with_other_form(rng, &record),
        11..=15 => record = with_other_value(rng, &record),
        16 => record = with_moved_number(rng, &record),
        17 => record[0] = rng.pick(&[record[0] - 1, record[0] + 1]),
        18 => record.extend((0..rng.between(1, 3)).map(|_| rng.pick(&[0, 1, 0x7f, 0x80, 0xff]))),
        _ => return random_record(rng),
    }
    // What is cut is met first only where nothing before it is wrong.
    if rng.chance(20) {
        record.truncate(rng.below(record.len()));
    }
    record
}

fn with_bit_turned(rng: &mut Rng, record: &mut [u8]) {
    record[rng.below(record.len())] ^= 1 << rng.below(8);
}

/// Mostly bytes that may be told, so that more than the first is looked at.
fn random_record(rng: &mut Rng) -> Vec<u8> {
    let most = rng.pick(&[0, 1, 2, 3, 16, 17, 40, 161, 162, 1000]);
    let small = rng.chance(60);
    (0..most).map(|_| if small { rng.below(8) as u8 } else { rng.below(256) as u8 }).collect()
}

fn numbers(record: &[u8]) -> Vec<Vec<u8>> {
    record.split_inclusive(|&group| group < 0x80).map(<[u8]>::to_vec).collect()
}

/// One number with more groups than it needs, or than there may be.
fn with_other_form(rng: &mut Rng, record: &[u8]) -> Vec<u8> {
    let mut numbers = numbers(record);
    let place = rng.below(numbers.len());
    let number = &mut numbers[place];
    number.iter_mut().for_each(|group| *group |= 0x80);
    match rng.below(4) {
        0..=1 => number.push(0),
        2 => {
            number.resize(3, 0x80);
            number.push(rng.pick(&[0, 1, 0x7f]));
        }
        _ => {
            number.truncate(2);
            number.resize(3, rng.pick(&[0x80, 0x81, 0xff]));
        }
    }
    numbers.concat()
}

/// One number about the bounds of what it may tell, at times any.
fn with_other_value(rng: &mut Rng, record: &[u8]) -> Vec<u8> {
    let mut numbers = numbers(record);
    let place = rng.below(numbers.len());
    let any = rng.below(1 << 21) as u32;
    let near = rng.pick(about_bounds(field(place)));
    numbers[place] = radio::groups(if rng.chance(90) { near } else { any });
    numbers.concat()
}

/// One number dropped, told twice, or in another's place.
fn with_moved_number(rng: &mut Rng, record: &[u8]) -> Vec<u8> {
    let mut numbers = numbers(record);
    let (place, other) = (rng.below(numbers.len()), rng.below(numbers.len()));
    match rng.below(3) {
        0 => {
            numbers.remove(place);
        }
        1 => numbers.insert(place, numbers[place].clone()),
        _ => numbers.swap(place, other),
    }
    numbers.concat()
}

/// What stands at a place among the numbers of a record.
fn field(place: usize) -> Field {
    match place.checked_sub(1) {
        None => Field::Count,
        Some(place) => radio::ROW[place % radio::ROW.len()],
    }
}

/// The bounds of what a number may tell with their neighbours, and numbers whose low bits alone could be told.
fn about_bounds(field: Field) -> &'static [u32] {
    match field {
        Field::Count => &[0, 1, 2, 7, 8, 9, 127, 128, 257, 65_537],
        Field::Minutes => &[0, 1, 127, 128, 16_383, 16_384, 84_959, 84_960, 86_400, 527_039, 527_040, 1_048_576],
        Field::Runway => &[0, 1, 3, 4, 5, 7, 8, 72, 75, 76, 77, 127, 128, 260, 16_388],
        Field::Code => &[0, 1, 5, 6, 7, 8, 128, 256, 262, 65_536],
        Field::Coverage => &[0, 1, 2, 3, 4, 5, 25, 100, 256, 260, 65_536],
        Field::Depth => &[0, 1, 2, 3, 4, 5, 127, 128, 998, 999, 1000, 1024, 65_536, 65_546],
        Field::Description => &[0, 1, 2, 5, 7, 8, 12, 14, 15, 16, 17, 128, 258, 65_544],
        Field::Width => &[0, 1, 2, 98, 99, 100, 101, 127, 128, 255, 256, 286],
    }
}

#[cfg(test)]
mod tests {
    use super::*;

    const ALL: usize = 20_000;

    fn share(count: usize) -> usize {
        100 * count / ALL
    }

    #[test]
    fn each_outcome_of_a_list_is_common() {
        let mut rng = Rng::new(1);
        let lists: Vec<Vec<Row>> = (0..ALL).map(|_| radio_list(&mut rng)).collect();
        let met = |is: &dyn Fn(&[Row]) -> bool| share(lists.iter().filter(|rows| is(rows)).count());
        assert!((45..65).contains(&met(&|rows| radio::write(rows).is_ok())));
        assert!(met(&|rows| radio::write(rows) == Err(19)) >= 15);
        assert!(met(&|rows| rows.is_empty()) >= 3);
        assert!(met(&|rows| rows.len() == 9) >= 1);
        assert!(lists.iter().any(|rows| rows.len() == 255));
        assert!(met(&|rows| rows.len() > 8 && rows.iter().all(Row::is_valid)) >= 2);
        assert!(lists.iter().any(|rows| rows.len() > 8 && !rows.iter().all(Row::is_valid)));
        assert!(met(&|rows| (2..=8).contains(&rows.len()) && radio::write(rows) == Err(32)) >= 5);
        for count in 1..=8 {
            assert!(met(&|rows| rows.len() == count && radio::write(rows).is_ok()) >= 2, "{count}");
        }
    }

    #[test]
    fn each_outcome_of_a_record_is_common() {
        let mut rng = Rng::new(1);
        let told: Vec<_> = (0..ALL).map(|_| radio::read(&radio_record(&mut rng))).collect();
        let of = |refusal| share(told.iter().filter(|told| told.as_ref().err().copied() == refusal).count());
        assert!((25..45).contains(&of(None)), "{}", of(None));
        for (refusal, least) in [(30, 15), (31, 5), (32, 15)] {
            assert!(of(Some(refusal)) >= least, "{refusal}: {}", of(Some(refusal)));
        }
    }

    /// Every number of a row is met at each neighbour of its bounds, and with a form that is not its own.
    #[test]
    fn each_number_is_replaced() {
        let mut rng = Rng::new(1);
        let one = radio::unjudged(&rows(&mut rng, 1));
        let mut met = Vec::new();
        for _ in 0..ALL {
            let other = with_other_value(&mut rng, &one);
            let differing =
                numbers(&other).into_iter().zip(numbers(&one)).enumerate().find(|(_, (new, old))| new != old);
            met.extend(differing.map(|(place, (new, _))| (place, new)));
            let longer = with_other_form(&mut rng, &one);
            assert_eq!(radio::read(&longer), Err(31), "{longer:02x?}");
        }
        for place in 0..=radio::ROW.len() {
            let missed =
                about_bounds(field(place)).iter().filter(|&&n| !met.contains(&(place, radio::groups(n)))).count();
            // At most the number that stands there already.
            assert!(missed <= 1, "{place}: {missed}");
        }
    }
}
