//! Each desk is alone with its runways: what the other one sends, or what no desk sends, changes neither the answers to its
//! reports nor the rows of its runways. The time that the board stores is not told to a desk: it may depend on the other.
use crate::desk::{desk, Owned};
use crate::generate::{self, is_sent_by, Rng, TwoRuns};
use crate::report::Report;
use crate::text::lines;

/// What a run tells one desk: the answers to its lines, and the rows of its runways.
#[derive(Debug, PartialEq)]
struct Told {
    answers: Vec<String>,
    rows: Vec<String>,
}

impl Told {
    fn new(input: &[u8], owner: u8, list: &[Owned]) -> Told {
        let printed = desk(input);
        let printed = lines(&printed);
        let input = lines(input);
        // The opening is answered by OPEN, so an answer stands where its line does.
        let (answers, rows) = printed.split_at(input.len());
        let answers =
            input.iter().zip(answers).filter(|(line, _)| is_sent_by(line, owner)).map(|(_, answer)| text(answer));
        let runways: Vec<String> =
            list.iter().filter(|owned| owned.owner == owner).map(|owned| owned.runway.text()).collect();
        let is_own =
            |row: &String| row.split(' ').nth(1).map_or(false, |runway| runways.iter().any(|own| own == runway));
        Told { answers: answers.collect(), rows: rows.iter().map(|row| text(row)).filter(is_own).collect() }
    }
}

fn text(line: &[u8]) -> String {
    String::from_utf8_lossy(line).into_owned()
}

/// Two runs in which the lines of one desk are the same tell it the same.
pub fn check(rng: &mut Rng, report: &mut Report) {
    let TwoRuns { desk, list, inputs } = generate::two_runs(rng);
    let told = |run: usize| Told::new(&inputs[run], desk, &list);
    let (one, other) = (told(0), told(1));
    if one != other {
        let both = inputs.join(&b"\n--- and\n"[..]);
        report.differ(&format!("what desk {desk} is told"), &both, &format!("{one:?}"), &format!("{other:?}"));
    }
}

#[cfg(test)]
mod tests {
    use super::*;
    use crate::desk::{stored_times, Shift};

    const LIST: &[u8] = b"XQAA 07L/1 07R/2\n";

    #[test]
    fn what_a_desk_is_told() {
        let list = Shift::read(LIST).expect("a board").list;
        let row = |time: &str, runway: &str| format!("{time} {runway} 6/6/6 NR/NR/NR");
        let (left, right) = (row("01120640", "07L"), row("01120641", "07R"));
        let input = format!("XQAA 07L/1 07R/2\n1 {left}\n2 {left}\n2 {right}\n1 {left}\n1 X\nX\n3 {right}\n");
        let told = |desk| Told::new(input.as_bytes(), desk, &list[..2]);
        let strings = |list: &[&str]| list.iter().map(|text| text.to_string()).collect::<Vec<_>>();
        assert_eq!(told(1), Told { answers: strings(&["0", "20", "5"]), rows: vec![left.clone()] });
        assert_eq!(told(2), Told { answers: strings(&["22", "0"]), rows: vec![right.clone()] });
    }

    #[test]
    fn a_desk_is_told_the_same_whatever_else_is_sent() {
        let mut rng = Rng::new(1);
        let mut report = Report::new();
        (0..1000).for_each(|_| check(&mut rng, &mut report));
        assert_eq!(report.differences(), 0);
    }

    /// The other lines matter to the board: mostly they give the other desk's runways other rows.
    #[test]
    fn the_two_runs_differ_in_what_the_other_desk_is_told() {
        let mut rng = Rng::new(1);
        let differing = (0..1000).filter(|_| {
            let TwoRuns { desk, list, inputs } = generate::two_runs(&mut rng);
            Told::new(&inputs[0], 3 - desk, &list) != Told::new(&inputs[1], 3 - desk, &list)
        });
        assert!(differing.count() >= 700);
    }

    #[test]
    fn the_stored_time_may_depend_on_the_other_desk() {
        let mut rng = Rng::new(1);
        let stored = |input: &[u8]| {
            let shift = Shift::read(input).expect("a board");
            stored_times(&shift).and_then(|times| times.last().copied())
        };
        let differing = (0..1000).filter(|_| {
            let TwoRuns { inputs, .. } = generate::two_runs(&mut rng);
            stored(&inputs[0]) != stored(&inputs[1])
        });
        assert!(differing.count() >= 200);
    }
}
