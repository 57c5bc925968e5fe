//! The second reader as a program.
use std::io::{self, Read, Write};
use std::process::ExitCode;

use compare::{desk, generate, reader, selfcheck, test_run};

const USAGE: &str = "\
compare list < message           what the lister prints
compare desk < input             what the desk program prints
compare desk-input SEED          writes a seeded input of the desk program
compare test-input               writes the stored input of test_run
compare test-answers < input     what test_run has to print
compare self N SEED              the second reader against itself and the models in Python
compare run N SEED               the proved library against the second reader (feature `library`)
";

fn input() -> io::Result<Vec<u8>> {
    let mut bytes = Vec::new();
    io::stdin().lock().read_to_end(&mut bytes)?;
    Ok(bytes)
}

fn answer(words: &[&str]) -> io::Result<ExitCode> {
    let output = match words {
        ["list"] => reader::listing(&input()?),
        ["desk"] => desk::desk(&input()?),
        ["desk-input", seed] => generate::desk_input(&mut generate::Rng::new(number(seed)?)),
        ["test-input"] => test_run::input()?,
        ["test-answers"] => test_run::answers(&input()?).ok_or_else(|| wrong("the input is not framed"))?,
        ["self", count, seed] => return Ok(exit(selfcheck::run(number(count)? as usize, number(seed)?))),
        ["run", count, seed] => return run(number(count)? as usize, number(seed)?),
        _ => return Err(wrong(USAGE)),
    };
    io::stdout().lock().write_all(&output)?;
    Ok(ExitCode::SUCCESS)
}

#[cfg(feature = "library")]
fn run(count: usize, seed: u64) -> io::Result<ExitCode> {
    Ok(exit(compare::run::run(count, seed)))
}

#[cfg(not(feature = "library"))]
fn run(_count: usize, _seed: u64) -> io::Result<ExitCode> {
    Err(wrong("built without the library: PHENGARYL_LIB=directory cargo run --release --features library"))
}

fn number(word: &str) -> io::Result<u64> {
    word.parse().map_err(|_| wrong(USAGE))
}

fn wrong(what: &str) -> io::Error {
    io::Error::new(io::ErrorKind::InvalidInput, what)
}

fn exit(fits: bool) -> ExitCode {
    if fits {
        ExitCode::SUCCESS
    } else {
        ExitCode::FAILURE
    }
}

fn main() -> ExitCode {
    let words: Vec<String> = std::env::args().skip(1).collect();
    let words: Vec<&str> = words.iter().map(String::as_str).collect();
    answer(&words).unwrap_or_else(|error| {
        eprintln!("{error}");
        ExitCode::FAILURE
    })
}
