//! Boards that are written as notices, and boards that are opened with numbers.
use super::desk::{desk_input, ended, opening, opening_line, report_lines, reports};
use super::records::row;
use super::rounds::round;
use super::{message, record, typing, Rng};
use crate::desk::{Owned, Report, Shift, MOST_RUNWAYS};
use crate::row::{Row, Runway};

/// Senders that are no desk, among them what would be one if it were cut down to fewer bits.
const NO_DESKS: [u32; 14] = [0, 3, 9, 49, 50, 255, 256, 257, 258, 65_537, 65_538, 0x0100_0001, 0x8000_0002, u32::MAX];

/// A desk input, and the message that a notice of its board is modelled on. About half give one; 17, 21 and 13 are
/// common, and so are two of them at once, in which their order shows.
pub fn board_notice(rng: &mut Rng) -> (Vec<u8>, Vec<u8>) {
    let desk = if rng.chance(50) {
        desk_input(rng)
    } else {
        let (aerodrome, list) = opening(rng);
        let reports = report_lines(rng, &list);
        ended(rng, opening_line(&aerodrome, &list), reports)
    };
    let model = if rng.chance(65) {
        let record = record(rng);
        typing(rng, &record)
    } else {
        message(rng).message
    };
    (desk, model)
}

/// A board opened with numbers, every fourth time wrong ones, and reports of its runways.
pub fn shift(rng: &mut Rng) -> Shift {
    let (aerodrome, opened) = opening(rng);
    let mut shift = shift_of(rng, aerodrome, &opened);
    if rng.chance(25) {
        with_wrong_numbers(rng, &mut shift);
    }
    shift
}

/// A board that opens, and reports of its runways, not all of which are refused: among them are those of a round over some
/// runways or all, each by its own desk, which is refused only where a row was taken before it.
pub fn reported_shift(rng: &mut Rng) -> Shift {
    let (aerodrome, mut opened) = opening(rng);
    opened.truncate(MOST_RUNWAYS);
    let mut shift = shift_of(rng, aerodrome, &opened);
    let times = round(rng);
    rng.shuffle(&mut opened);
    opened.truncate(rng.between(1, opened.len()));
    for Owned { runway, owner } in opened {
        let row = Row { time: rng.pick(&times), ..row(rng, runway) };
        let place = rng.below(shift.reports.len() + 1);
        shift.reports.insert(place, Report { desk: owner.into(), line: row.text().into_bytes() });
    }
    shift
}

fn shift_of(rng: &mut Rng, aerodrome: [u8; 4], opened: &[Owned]) -> Shift {
    let reports = reports(rng, opened, &NO_DESKS);
    let mut list = [Owned::default(); MOST_RUNWAYS];
    for (place, &owned) in list.iter_mut().zip(opened) {
        *place = owned;
    }
    Shift { aerodrome, list, count: opened.len() as u8, reports }
}

/// One rule of opening broken, or only just kept.
fn with_wrong_numbers(rng: &mut Rng, shift: &mut Shift) {
    let used = usize::from(shift.count).min(MOST_RUNWAYS);
    let (one, other) = (rng.below(used), rng.below(used));
    let past = rng.pick(&[used, used, MOST_RUNWAYS - 1]).min(MOST_RUNWAYS - 1);
    let list = &mut shift.list;
    match rng.below(13) {
        0 => shift.aerodrome[rng.below(4)] = rng.pick(b"@[AZaz09 \n\x00\xc1\xff"),
        1 => list.swap(one, other),
        2 => list[one].runway = list[other].runway,
        3 => list[one].runway.side = rng.pick(&[0, 1, 2, 3, 4, 5, 255]),
        4 => list[one].runway.number = rng.pick(&[0, 1, 18, 19, 36, 255]),
        5 => list[0].runway.number = 0,
        6 => list[used - 1].runway.number = 19,
        // A count that is not the list's: less leaves runways past it, more takes zeros in.
        7 => shift.count = rng.pick(&[0, 1, shift.count - 1, shift.count + 1, 8, 9, 10, 255]),
        8 => (shift.count, *list) = (0, Default::default()),
        9 | 10 => list[one].owner = rng.pick(&[0, 1, 2, 3, 4, b'1', b'2', 129, 254, 255]),
        // Past the count, be it next in order or only a side or an owner.
        11 => list[past].owner = rng.pick(&[1, 2, 3, 255]),
        _ => {
            list[past].runway = rng.pick(&[
                Runway { number: 18, side: 3 },
                Runway { number: 1, side: 0 },
                Runway { number: 0, side: 1 },
                Runway { number: 255, side: 255 },
            ]);
        }
    }
}

#[cfg(test)]
mod tests {
    use super::*;
    use crate::desk::{live, notice, stored_times};
    use crate::reader::read;

    const ALL: usize = 1000;

    fn share(count: usize) -> usize {
        100 * count / ALL
    }

    #[test]
    fn each_refusal_of_a_notice_is_common_and_before_a_refused_model_too() {
        let mut rng = Rng::new(1);
        let (mut alone, mut both) = ([0; 24], [0; 24]);
        for _ in 0..ALL {
            let (desk, model) = board_notice(&mut rng);
            let number = usize::from(notice(&desk, &model).err().unwrap_or(0));
            let counts = if read(&model).is_ok() { &mut alone } else { &mut both };
            counts[number] += 1;
        }
        assert!(share(alone[0]) >= 45, "{alone:?}");
        assert!(share(alone[17]) >= 5 && share(alone[21]) >= 5, "{alone:?}");
        assert!(share(both[13]) >= 5 && share(both[17]) >= 1 && share(both[21]) >= 1, "{both:?}");
    }

    #[test]
    fn most_shifts_open() {
        let mut rng = Rng::new(1);
        let opened = (0..ALL).filter(|_| live(&shift(&mut rng)).starts_with(b"OPEN")).count();
        assert!((70..90).contains(&share(opened)), "{opened}");
    }

    /// Every number of rows is met, reports that are refused, rows of either desk, and times that the digits would put in
    /// another order.
    #[test]
    fn what_a_board_with_reports_shows() {
        let mut rng = Rng::new(1);
        let (mut rows, mut some_refused, mut two_desks, mut parted) = ([0; MOST_RUNWAYS + 1], 0, 0, 0);
        for _ in 0..ALL {
            let shift = reported_shift(&mut rng);
            let shown = shift.notice(record(&mut rng)).expect("a notice").rows;
            rows[shown.len()] += 1;
            let answers = String::from_utf8_lossy(&live(&shift)).into_owned();
            some_refused += usize::from(answers.lines().skip(1).take(shift.reports.len()).any(|answer| answer != "0"));
            two_desks +=
                usize::from([1, 2].iter().all(|&desk| shown.iter().any(|row| shift.owner(row.runway) == desk)));
            let greatest = shown.iter().map(|row| row.time).max();
            parted += usize::from(stored_times(&shift).and_then(|mut times| times.pop()) != greatest);
        }
        assert!(rows[0] == 0 && rows[1..].iter().all(|&count| share(count) >= 2), "{rows:?}");
        assert!(
            share(some_refused) >= 50 && share(two_desks) >= 20 && share(parted) >= 15,
            "{some_refused} {two_desks} {parted}"
        );
    }

    /// Each that can come behind an opening, in so many of a hundred answers.
    #[test]
    fn each_answer_of_a_shift_is_common() {
        let mut rng = Rng::new(1);
        let mut answers = Vec::new();
        for _ in 0..ALL {
            let shift = shift(&mut rng);
            let told = String::from_utf8_lossy(&live(&shift)).into_owned();
            answers.extend(told.lines().skip(1).take(shift.reports.len()).map(str::to_string));
        }
        for answer in ["0", "5", "18", "20", "22", "23"] {
            let count = answers.iter().filter(|&told| told == answer).count();
            assert!(100 * count / answers.len() >= 5, "{answer}: {count} of {}", answers.len());
        }
    }
}
