//! The second reader against itself, and against the models in Python of rows, of the desk and of the radio record.
mod changes;
mod places;
mod radio;
mod restore;
mod season;

use std::io;

use crate::assess::{agreement, assess};
use crate::desk::{self, desk, live, notice, stored_times, Shift};
use crate::edges;
use crate::generate::{self, Rng, Sample};
use crate::isolation;
use crate::models;
use crate::reader::{heading_time, read, row_times, same, write, Record, LONGEST_MESSAGE};
use crate::refused::Refused;
use crate::report::{Report, OF_MESSAGES, OF_ROWS};
use crate::row::{read_time, Row, Runway, Third};
use crate::text::lines;

fn message(rng: &mut Rng, report: &mut Report) {
    let Sample { message, record, number } = generate::message(rng);
    let told = read(&message);
    let refusal = told.as_ref().map_or_else(|refused| refused.number, |_| 0);
    report.count(refusal);
    if number.map_or(false, |number| number != refusal) {
        report.differ("number", &message, &format!("{number:?}"), &refusal.to_string());
    }
    if let Some(typed) = record {
        if told.as_ref() != Ok(&typed) {
            report.differ("typing", &message, &format!("{typed:?}"), &format!("{told:?}"));
        }
    }
    match told {
        Ok(record) => {
            let text = write(&record);
            let again = read(&text);
            if text.len() > LONGEST_MESSAGE || again.as_ref() != Ok(&record) || !same(&message, &text) {
                report.differ("canonical text", &text, &format!("{record:?}"), &format!("{again:?}"));
            }
            for text in [message, text] {
                let (told, expected) = (heading_time(&text), season::observed_last(&row_times(&text)));
                if told != expected {
                    report.differ("heading time", &text, &format!("{expected:?}"), &format!("{told:?}"));
                }
            }
        }
        Err(_) if same(&message, &message) => {
            report.differ("a refused message", &message, "the same as none", "the same as itself");
        }
        Err(refused) => places::message(&message, refused, report),
    }
}

/// An assessed third is valid and agrees with Table 1; a refused one is all zero.
fn observation(rng: &mut Rng, report: &mut Report) {
    let seen = generate::observation(rng);
    let (refusal, told) = assess(seen.kind, seen.cover, seen.depth, seen.temperature, seen.slippery);
    report.count(refusal);
    let [code, coverage, depth, description] = told;
    let thirds = [Third { code, coverage, depth, description }; 3];
    let row = Row { time: 1_010_000, runway: Runway { number: 1, side: 0 }, thirds, width: 0 };
    let fits = if refusal == 0 { agreement(&row) == (0, 0) } else { told == [0; 4] };
    if !fits {
        report.differ("assessing", format!("{seen:?}").as_bytes(), "a third that agrees", &format!("{told:?}"));
    }
}

/// A valid row reads back from either of its texts, an invalid one from none.
fn numbers(rng: &mut Rng, report: &mut Report) {
    let row = generate::numbers(rng);
    let (refusal, _) = agreement(&row);
    report.count(refusal);
    let expected = (refusal == 0).then_some(&row);
    for text in [row.text(), row.full_text()] {
        let told = Row::read(text.as_bytes()).ok();
        if told.as_ref() != expected {
            report.differ("row", text.as_bytes(), &format!("{expected:?}"), &format!("{told:?}"));
        }
    }
}

/// A notice reads back as its model but for the aerodrome and the rows, which are those that the desk prints. Its heading
/// bears the time that the board stores.
fn board_notice(rng: &mut Rng, report: &mut Report) {
    let (input, model) = generate::board_notice(rng);
    let told = notice(&input, &model);
    report.count(told.as_ref().err().copied().unwrap_or(0));
    let text = match told {
        Ok(text) => text,
        Err(_) => return,
    };
    let printed = desk(&input);
    // An answer has one or two digits, and any row is longer.
    let shown = lines(&printed).into_iter().skip(1).filter(|line| line.len() > 2);
    let stored = Shift::read(&input).and_then(|shift| stored_times(&shift)?.pop());
    let fits = match (read(&text), read(&model)) {
        (Ok(record), Ok(model)) => {
            let rows = record.rows.iter().map(|row| row.text().into_bytes());
            text.len() <= LONGEST_MESSAGE
                && input.starts_with(&record.aerodrome)
                && rows.eq(shown)
                && heading_time(&text) == stored
                && model == Record { aerodrome: model.aerodrome, rows: model.rows.clone(), ..record }
        }
        _ => false,
    };
    if !fits {
        let both = [&input[..], b"\n--- and\n", &model].concat();
        report.differ("notice", &both, "the rows printed and the rest of the model", &text.escape_ascii().to_string());
    }
}

/// A board that opens with numbers tells what the desk tells of the same board and lines. A number that no digit can say
/// is no desk, as 9 is none.
fn shift(rng: &mut Rng, report: &mut Report) {
    let shift = generate::shift(rng);
    let told = live(&shift);
    if told == b"REFUSED 17\n" {
        report.count(17);
        return;
    }
    stored(&shift, &told, report);
    let mut input = generate::opening_line(&shift.aerodrome, &shift.list[..usize::from(shift.count)]);
    for sent in shift.reports {
        // Not LF alone, before which a CR of the line would be no text.
        input.extend_from_slice(b"\r\n");
        input.extend(generate::started(&desk::Report { desk: sent.desk.min(9), ..sent }));
    }
    input.extend_from_slice(b"\r\n");
    let expected = desk(&input);
    count_answers(&told, report);
    if told != expected {
        report.differ("shift", &input, &expected.escape_ascii().to_string(), &told.escape_ascii().to_string());
    }
}

/// The stored time is the latest of all reports that were taken, be they shown no more: so it never falls.
fn stored(shift: &Shift, told: &[u8], report: &mut Report) {
    let mut taken: Vec<u32> = Vec::new();
    let mut expected = vec![0];
    for (sent, &answer) in shift.reports.iter().zip(&lines(told)[1..]) {
        if answer == b"0" {
            taken.extend(sent.line.get(..8).and_then(read_time));
        }
        expected.push(season::observed_last(&taken).unwrap_or(0));
    }
    let times = stored_times(shift);
    if times.as_ref() != Some(&expected) {
        report.differ_on("stored times", &format!("{shift:?}"), &format!("{expected:?}"), &format!("{times:?}"));
    }
}

/// Counts what the desk answered to each report: an answer has one or two digits, and any row is longer.
fn count_answers(printed: &[u8], report: &mut Report) {
    let lines = lines(printed);
    let answers = lines.iter().skip(1).filter(|line| line.len() <= 2);
    answers.filter_map(|line| std::str::from_utf8(line).ok()?.parse().ok()).for_each(|answer| report.count(answer));
}

/// Rows.py's own rows, those by hand, and generated ones.
fn row_model(rng: &mut Rng, count: usize, report: &mut Report) -> io::Result<()> {
    row_lines("its own", &models::lines()?, report)?;
    let by_hand: Vec<Vec<u8>> = edges::rows_by_hand().into_iter().map(|example| example.text).collect();
    row_lines("by hand", &by_hand.join(&b'\n'), report)?;
    let mut input = Vec::new();
    for _ in 0..count {
        input.extend(generate::any_row_line(rng));
        input.extend_from_slice(if rng.chance(20) { b"\r\n" } else { b"\n" });
    }
    row_lines("generated", &input, report)
}

fn row_lines(whose: &str, input: &[u8], report: &mut Report) -> io::Result<()> {
    let expected = models::answers("rows.py", input.to_vec())?;
    let (input, expected) = (lines(input), lines(&expected));
    // They are compared in pairs, so that a row without an answer would pass.
    if input.len() != expected.len() {
        report.differ("answers of rows.py", b"all rows", &expected.len().to_string(), &input.len().to_string());
    }
    for (&text, &expected) in input.iter().zip(&expected) {
        places::row(text, report);
        let read = Row::read(text);
        report.count(read.as_ref().err().map_or(0, |refused| refused.number));
        // The model tells the place too, but for a line that the desk does not look at.
        let told = match read {
            _ if text.len() > LONGEST_MESSAGE => "5".to_string(),
            Ok(row) => format!("0 {} {}", agreement(&row).1, row.text()),
            Err(Refused { number, place }) => format!("{number} {place}"),
        };
        if told.as_bytes() != expected {
            report.differ("row", text, &expected.escape_ascii().to_string(), &told);
        }
    }
    report.print_counts_of(&format!("rows.py: {} rows, {whose},", input.len()), &OF_ROWS);
    Ok(())
}

fn desk_model(rng: &mut Rng, count: usize, report: &mut Report) -> io::Result<()> {
    let mut opened = 0;
    for _ in 0..count {
        let input = generate::desk_input(rng);
        let told = desk(&input);
        let expected = models::answers("desk.py", input.clone())?;
        opened += usize::from(told.starts_with(b"OPEN"));
        count_answers(&told, report);
        if told != expected {
            report.differ("desk", &input, &expected.escape_ascii().to_string(), &told.escape_ascii().to_string());
        }
    }
    println!("desk.py: {count} inputs, {opened} of them opened a board");
    report.print_counts("answers of the desk");
    Ok(())
}

/// Whether nothing differed and the models in Python were asked.
pub fn run(count: usize, seed: u64) -> bool {
    let mut rng = Rng::new(seed);
    let mut report = Report::new();
    places::by_hand(&mut report);
    report.print_counts_of("messages and rows by hand", &OF_MESSAGES);
    changes::by_hand(&mut report);
    report.print_counts("pairs of rows by hand");
    radio::by_hand(&mut report);
    report.print_counts("radio records by hand");
    (0..count).for_each(|_| message(&mut rng, &mut report));
    report.print_counts_of("messages", &OF_MESSAGES);
    let tenth = count / 10;
    let mut equal = 0;
    for _ in 0..tenth {
        let (one, other) = generate::pair(&mut rng);
        let answer = same(&one, &other);
        equal += usize::from(answer);
        if answer != same(&other, &one) {
            report.differ("sameness", &one, "either way", &other.escape_ascii().to_string());
        }
    }
    println!("pairs that tell the same: {equal} of {tenth}");
    (0..count).for_each(|_| observation(&mut rng, &mut report));
    report.print_counts("observations");
    (0..count).for_each(|_| numbers(&mut rng, &mut report));
    report.print_counts("rows as numbers");
    let asked = season::by_hand(&mut report)
        .map(|()| report.print_counts("reports by hand"))
        .and_then(|()| restore::by_hand(&mut report))
        .map(|()| report.print_counts("boards restored by hand"))
        .and_then(|()| row_model(&mut rng, count / 4, &mut report))
        .and_then(|()| desk_model(&mut rng, (count / 200).clamp(1, 300), &mut report))
        .and_then(|()| radio::model(&mut rng, count / 4, &mut report));
    if let Err(error) = &asked {
        println!("the models in Python were not asked: {error}");
    }
    (0..tenth).for_each(|_| board_notice(&mut rng, &mut report));
    report.print_counts("notices of a board");
    (0..tenth).for_each(|_| shift(&mut rng, &mut report));
    report.print_counts("answers of boards opened with numbers");
    (0..tenth).for_each(|_| isolation::check(&mut rng, &mut report));
    let due = (0..count).filter(|_| changes::check(&mut rng, &mut report)).count();
    report.print_counts("pairs of rows");
    println!("pairs of rows for which a notice is due: {due} of {count}");
    (0..count).for_each(|_| radio::list(&mut rng, &mut report));
    report.print_counts("lists for the radio");
    (0..count).for_each(|_| radio::record(&mut rng, &mut report));
    report.print_counts("radio records");
    (0..tenth).for_each(|_| restore::check(&mut rng, &mut report));
    println!(
        "{count} messages, {tenth} pairs, {count} observations, {count} rows, {count} pairs of rows, \
         {tenth} boards of two runs, {count} lists for the radio, {count} radio records, {tenth} boards restored, \
         {} differences",
        report.differences()
    );
    asked.is_ok() && report.differences() == 0
}
