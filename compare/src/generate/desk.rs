//! Inputs of the desk program.
use super::damage::{with_byte_damage, with_neighbour, with_row_bound};
use super::records::{row, runway, word};
use super::rounds::round;
use super::rows::damaged_row;
use super::typing::{loosened, Pace};
use super::Rng;
use crate::desk::{Owned, Report, MOST_RUNWAYS};
use crate::row::{Runway, REPORTED};

/// The digits that are no desk.
const NO_DESKS: [u32; 8] = [0, 3, 4, 5, 6, 7, 8, 9];

/// An aerodrome and runways that rise; now and then one too many.
pub fn opening(rng: &mut Rng) -> ([u8; 4], Vec<Owned>) {
    let count = if rng.chance(3) { 9 } else { rng.between(1, 8) };
    let mut runways: Vec<Runway> = Vec::new();
    while runways.len() < count {
        let number = runway(rng, REPORTED);
        if !runways.contains(&number) {
            runways.push(number);
        }
    }
    runways.sort();
    // One desk may own them all.
    let owners: &[u8] = rng.pick(&[&[1, 2][..], &[1, 2], &[1, 2], &[1], &[2]]);
    (word(rng), runways.into_iter().map(|runway| Owned { runway, owner: rng.pick(owners) }).collect())
}

pub fn opening_line(aerodrome: &[u8; 4], list: &[Owned]) -> Vec<u8> {
    let mut line = aerodrome.to_vec();
    for owned in list {
        line.push(b' ');
        line.extend(owned.text().into_bytes());
    }
    line
}

fn bad_opening(rng: &mut Rng, line: &mut Vec<u8>, list: &[Owned]) {
    match rng.below(14) {
        0 => line.clear(),
        1 => line.push(b' '),
        2 => line.insert(0, b' '),
        3 => line.insert(4, b' '),
        4 => line.push(b')'),
        5 => {
            // Once more, whoever owns it then.
            let last = list.last().map(|owned| owned.runway.text()).unwrap_or_default();
            line.extend(format!(" {last}/{}", rng.pick(&[1, 2])).into_bytes());
        }
        6 => line.extend_from_slice(b" 01/1 02/1 03/1 04/1 05/1 06/1 07/1 08/1 09/1"),
        7 => line.extend(vec![b' '; 4100]),
        8 => with_byte_damage(rng, line),
        _ => with_wrong_owner(rng, line),
    }
}

/// One runway's slash and owner written otherwise.
fn with_wrong_owner(rng: &mut Rng, line: &mut Vec<u8>) {
    let slashes: Vec<usize> = (0..line.len()).filter(|&place| line[place] == b'/').collect();
    let place = rng.pick(&slashes);
    let other = rng.pick(&[
        &b""[..],
        b"/",
        b"1",
        b"/0",
        b"/3",
        b"/9",
        b"/A",
        b"/12",
        b"/21",
        b"/01",
        b"/1/1",
        b"/1/2",
        b"//1",
        b" /1",
        b"/ 1",
        b"/1/",
        b"-1",
        b"/1L",
        b"/\x01",
    ]);
    line.splice(place..place + 2, other.iter().copied());
}

/// A line that holds a row, or something that was one; mostly the row is of one of the times.
fn row_line(rng: &mut Rng, runway: Runway, times: &[u32]) -> Vec<u8> {
    let mut row = row(rng, runway);
    if rng.chance(80) {
        row.time = rng.pick(times);
    }
    if rng.chance(10) {
        with_row_bound(rng, &mut row);
    }
    let text = if rng.chance(40) { row.full_text() } else { row.text() };
    let pace = rng.pick(&[Pace { percent: 0, most: 2 }, Pace { percent: 40, most: 4 }]);
    let mut line = loosened(rng, pace, text.as_bytes());
    match rng.below(100) {
        0..=9 => line = with_neighbour(rng, &line),
        10..=17 => {
            with_byte_damage(rng, &mut line);
            line.retain(|&byte| byte != b'\n');
        }
        18..=20 => line.clear(),
        21..=22 => line.push(b')'),
        23..=24 => line = rng.pick(&[&b")"[..], b" ", b"\r", b"XQAA 07", b"\t"]).to_vec(),
        25..=34 => line = damaged_row(rng, &row).text,
        _ => {}
    }
    line
}

/// As `row_line`, but at times at the longest length that the desk looks at or over it, counted with its start or without.
fn long_row_line(rng: &mut Rng, runway: Runway, times: &[u32]) -> Vec<u8> {
    let mut line = row_line(rng, runway, times);
    if rng.chance(5) {
        let length: usize = rng.pick(&[4093, 4094, 4094, 4095, 4095, 4096, 4097, 4098, 9000]);
        if let Some(place) = line.iter().position(|&byte| byte == b' ') {
            let count = length.saturating_sub(line.len());
            line.splice(place..place, std::iter::repeat(b' ').take(count));
        }
    }
    line
}

/// A line as above, of any runway, more often with something done to its groups.
pub fn any_row_line(rng: &mut Rng) -> Vec<u8> {
    let runway = runway(rng, REPORTED);
    if rng.chance(40) {
        let row = row(rng, runway);
        return damaged_row(rng, &row).text;
    }
    let times = round(rng);
    long_row_line(rng, runway, &times)
}

/// What is reported to a board; `no_desks` are the numbers of senders that are none. Now and then a line is sent again, by
/// the other desk as often as by the same. Most rows are of one round, so that equal and earlier
/// ones are common.
pub fn reports(rng: &mut Rng, list: &[Owned], no_desks: &[u32]) -> Vec<Report> {
    let count = rng.pick(&[0, 1, 2, 5, 10, 20, 40]);
    let times = round(rng);
    let mut reports: Vec<Report> = Vec::new();
    for _ in 0..count {
        let next = if !reports.is_empty() && rng.chance(15) {
            let line = reports[rng.below(reports.len())].line.clone();
            Report { desk: rng.pick(&[1, 2]), line }
        } else {
            report(rng, list, no_desks, &times)
        };
        reports.push(next);
    }
    reports
}

/// Mostly of a runway of the board, and mostly sent by its owner.
fn report(rng: &mut Rng, list: &[Owned], no_desks: &[u32], times: &[u32]) -> Report {
    let Owned { runway, owner } =
        if rng.chance(12) { Owned { runway: runway(rng, REPORTED), owner: rng.pick(&[1, 2]) } } else { rng.pick(list) };
    let owner = u32::from(owner);
    let desk = match rng.below(100) {
        0..=69 => owner,
        70..=84 => 3 - owner,
        _ => rng.pick(no_desks),
    };
    Report { desk, line: long_row_line(rng, runway, times) }
}

/// The lines of the desk's input for a board, at times without the start that a line has to have.
pub fn report_lines(rng: &mut Rng, list: &[Owned]) -> Vec<Vec<u8>> {
    let reports = reports(rng, list, &NO_DESKS);
    reports.iter().map(|report| if rng.chance(8) { badly_started(rng, report) } else { started(report) }).collect()
}

/// A line of the desk's input: the digit, a space and the row.
pub fn started(report: &Report) -> Vec<u8> {
    let start = format!("{} ", report.desk);
    [start.as_bytes(), &report.line].concat()
}

/// Something else before the row, or nothing behind what stands there.
fn badly_started(rng: &mut Rng, report: &Report) -> Vec<u8> {
    let row = report.line.as_slice();
    let starts: [&[u8]; 18] = [
        b"", b"1", b"2", b"12 ", b"11 ", b"01 ", b"A ", b" 1 ", b" ", b"  ", b"1  ", b"1\t", b"\t1 ", b"1/", b"1\r ",
        b"\x01 ", b"/ ", b": ",
    ];
    match rng.below(24) {
        0 => Vec::new(),
        1 => b"1".to_vec(),
        2 => b"1 ".to_vec(),
        3 => b"3 ".to_vec(),
        4 => b"1 1 ".iter().chain(row).copied().collect(),
        5 => [row, b" 1"].concat(),
        _ => [rng.pick(&starts), row].concat(),
    }
}

/// An opening line and the lines after it with their ends.
pub fn ended(rng: &mut Rng, first: Vec<u8>, reports: Vec<Vec<u8>>) -> Vec<u8> {
    let crs = rng.pick(&[0, 0, 30, 100]);
    let mut input = Vec::new();
    for line in std::iter::once(first).chain(reports) {
        input.extend(line);
        input.extend_from_slice(if rng.chance(crs) { b"\r\n" } else { b"\n" });
    }
    input
}

/// A whole input of the desk program.
pub fn desk_input(rng: &mut Rng) -> Vec<u8> {
    let (aerodrome, list) = opening(rng);
    let mut first = opening_line(&aerodrome, &list);
    if rng.chance(15) {
        bad_opening(rng, &mut first, &list);
    }
    let reports = report_lines(rng, &list);
    let mut input = ended(rng, first, reports);
    match rng.below(20) {
        0..=3 => {
            input.pop();
        }
        4 => input.push(b'\r'),
        5 => input.push(b'\n'),
        6 => input.clear(),
        _ => {}
    }
    input
}

/// Whether a line of the desk's input is sent by a desk; the rest of it may be anything.
pub fn is_sent_by(line: &[u8], desk: u8) -> bool {
    line.starts_with(&[b'0' + desk, b' '])
}

/// Two desk inputs that open the same board and have the same lines of one desk, in the same order.
pub struct TwoRuns {
    pub desk: u8,
    pub list: Vec<Owned>,
    pub inputs: [Vec<u8>; 2],
}

/// Whatever the desk does not send, and where it stands, is another in each of them.
pub fn two_runs(rng: &mut Rng) -> TwoRuns {
    let desk = rng.pick(&[1, 2]);
    let (aerodrome, mut list) = opening(rng);
    list.truncate(MOST_RUNWAYS);
    let mut own = report_lines(rng, &list);
    // A CR at a line's end would be text in one of them and none in the other, by the end that comes behind it.
    own.retain(|line| is_sent_by(line, desk) && !line.ends_with(b"\r"));
    let inputs = [(); 2].map(|()| {
        let mut lines = report_lines(rng, &list);
        lines.retain(|line| !is_sent_by(line, desk));
        let lines = merged(rng, own.clone(), lines);
        ended(rng, opening_line(&aerodrome, &list), lines)
    });
    TwoRuns { desk, list, inputs }
}

/// Both lists in one, each in its own order.
fn merged<T>(rng: &mut Rng, one: Vec<T>, other: Vec<T>) -> Vec<T> {
    let mut from_one: Vec<bool> = one.iter().map(|_| true).chain(other.iter().map(|_| false)).collect();
    rng.shuffle(&mut from_one);
    let (mut one, mut other) = (one.into_iter(), other.into_iter());
    from_one.into_iter().filter_map(|first| if first { one.next() } else { other.next() }).collect()
}

#[cfg(test)]
mod tests {
    use super::*;
    use crate::desk::desk;
    use crate::text::lines;

    /// Every refusal that a text can get, each in so many of a thousand answers.
    #[test]
    fn each_answer_is_common() {
        let mut rng = Rng::new(1);
        let mut counts = [0; 29];
        let mut all = 0;
        for _ in 0..1000 {
            let input = desk_input(&mut rng);
            let printed = desk(&input);
            for answer in lines(&printed).iter().skip(1).take(lines(&input).len().saturating_sub(1)) {
                let answer: usize = std::str::from_utf8(answer).expect("a text").parse().expect("a number");
                counts[answer] += 1;
                all += 1;
            }
        }
        for answer in [0, 5, 18, 20, 22, 23] {
            assert!(1000 * counts[answer] / all >= 50, "{counts:?}");
        }
        for answer in [24, 25, 26, 27, 28] {
            assert!(1000 * counts[answer] / all >= 10, "{counts:?}");
        }
    }

    /// What a report is refused by comes before what it would be refused by otherwise; each such pair has to be met.
    #[test]
    fn each_pair_of_neighbours_is_met() {
        let mut rng = Rng::new(1);
        let mut met = Vec::new();
        for _ in 0..100 {
            let (aerodrome, list) = opening(&mut rng);
            let first = opening_line(&aerodrome, &list);
            let reports = reports(&mut rng, &list, &NO_DESKS);
            let started: Vec<Vec<u8>> = reports.iter().map(started).collect();
            for (place, line) in started.iter().enumerate() {
                let after = |line: &[u8]| last_answer(&first, &started[..place], line);
                // As it is, and sent by each desk.
                let [told, one, two] = [line[0], b'1', b'2'].map(|digit| after(&[&[digit], &line[1..]].concat()));
                met.extend([(told, one), (told, two)]);
            }
        }
        for pair in [(23, 18), (23, 22), (23, 20), (23, 0), (18, 18), (22, 20), (22, 0), (20, 22), (0, 22), (5, 5)] {
            assert!(met.iter().filter(|&&one| one == pair).count() >= 10, "{pair:?}");
        }
    }

    fn last_answer(first: &[u8], before: &[Vec<u8>], line: &[u8]) -> u8 {
        let input = [&[first][..], &before.iter().map(Vec::as_slice).collect::<Vec<_>>(), &[line, b""]].concat();
        let printed = desk(&input.join(&b'\n'));
        let answer = lines(&printed).get(before.len() + 1).map(|answer| answer.to_vec()).unwrap_or(b"17".to_vec());
        std::str::from_utf8(&answer).expect("a text").parse().expect("a number")
    }
}
