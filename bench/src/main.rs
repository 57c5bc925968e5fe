//! How fast notices are read, written again and compared: by the proved library, by a reader tuned for speed, and, as the
//! least that can be, by a loop that touches each byte once.
mod check;
mod fast;
mod inputs;
#[cfg(feature = "library")]
mod library;
mod run;
mod work;

use std::process::ExitCode;

use work::{agrees, repeat, Room, DOERS, WORKS};

const USAGE: &str = "\
bench check N SEED           the tuned reader against the second reader
bench run [ROUNDS]           times, as medians and as the best of interleaved rounds
bench one WHAT INPUT ROUNDS  one of `bench list` alone, for a count of its instructions
bench list                   every WHAT and INPUT, and the input's bytes
";

const ROUNDS: usize = 301;

fn answer(words: &[&str]) -> Option<bool> {
    match words {
        ["check", count, seed] => Some(check::run(count.parse().ok()?, seed.parse().ok()?)),
        ["run"] => measured(ROUNDS),
        ["run", rounds] => measured(rounds.parse().ok().filter(|&rounds| rounds > 0)?),
        ["one", what, input, rounds] => one(what, input, rounds.parse().ok()?),
        ["list"] => list(),
        _ => None,
    }
}

fn measured(rounds: usize) -> Option<bool> {
    let wrong = inputs::inputs().iter().find(|input| !agrees(input)).map(|input| input.name);
    match wrong {
        Some(name) => println!("a wrong answer to {name}"),
        None => run::run(rounds),
    }
    Some(wrong.is_none())
}

fn one(what: &str, name: &str, rounds: usize) -> Option<bool> {
    let (doer, work) = what.split_once('-')?;
    let doer = DOERS.iter().find(|one| one.name() == doer)?;
    let work = WORKS.iter().find(|one| one.name() == work)?;
    let input = inputs::inputs().into_iter().find(|input| input.name == name)?;
    repeat(*doer, *work, &input, &mut Room::new(), rounds);
    Some(true)
}

fn list() -> Option<bool> {
    for doer in DOERS {
        for work in WORKS {
            for input in inputs::inputs() {
                println!("{}-{} {} {}", doer.name(), work.name(), input.name, work.bytes(&input));
            }
        }
    }
    Some(true)
}

fn main() -> ExitCode {
    let words: Vec<String> = std::env::args().skip(1).collect();
    let words: Vec<&str> = words.iter().map(String::as_str).collect();
    match answer(&words) {
        Some(true) => ExitCode::SUCCESS,
        Some(false) => ExitCode::FAILURE,
        None => {
            eprint!("{USAGE}");
            ExitCode::FAILURE
        }
    }
}
