//! The timing: rounds in which the doers take turns, so that whatever else the machine does falls on all of them alike.
use std::time::Instant;

use crate::inputs::{inputs, Input};
use crate::work::{repeat, Room, Work, DOERS, WORKS};

/// How long one doer's turn lasts, in nanoseconds, as far as whole works allow it.
const TURN: f64 = 20_000.0;

const NOTE: &str = "\
Times are of one message (of both for `same`), taken in turns within one process. The buffer for the text is 4,096 bytes
long and is not cleared between calls; the tuned reader leaves zeros in its record wherever a notice uses nothing.
";

/// Nanoseconds that one work takes, out of `times` in a row.
fn turn(doer: usize, work: Work, input: &Input, room: &mut Room, times: usize) -> f64 {
    let start = Instant::now();
    repeat(DOERS[doer], work, input, room, times);
    start.elapsed().as_nanos() as f64 / times as f64
}

/// For each doer its times of all rounds, sorted.
fn rounds(work: Work, input: &Input, room: &mut Room, count: usize) -> Vec<Vec<f64>> {
    let mut times = Vec::new();
    for doer in 0..DOERS.len() {
        turn(doer, work, input, room, 10);
        let one = turn(doer, work, input, room, 10);
        times.push((TURN / one.max(1.0)).ceil() as usize);
    }
    let mut taken = vec![Vec::new(); DOERS.len()];
    for _ in 0..count {
        for (doer, taken) in taken.iter_mut().enumerate() {
            taken.push(turn(doer, work, input, room, times[doer]));
        }
    }
    for taken in &mut taken {
        taken.sort_by(f64::total_cmp);
    }
    taken
}

/// Each doer beside those after it: library/fast, library/loop, fast/loop.
fn pairs() -> Vec<(usize, usize)> {
    (0..DOERS.len()).flat_map(|one| (one + 1..DOERS.len()).map(move |other| (one, other))).collect()
}

fn print_head(what: &str) {
    println!("{what}\n");
    let mut line = format!("{:<11} {:<10} {:>5}", "input", "work", "bytes");
    for doer in DOERS {
        line += &format!(" {:>11}", format!("{} ns", doer.name()));
    }
    for doer in DOERS {
        line += &format!(" {:>12}", format!("{} ns/B", doer.name()));
    }
    for (one, other) in pairs() {
        line += &format!(" {:>13}", format!("{}/{}", DOERS[one].name(), DOERS[other].name()));
    }
    println!("{line}");
}

fn print_line(input: &Input, work: Work, times: &[f64]) {
    let bytes = work.bytes(input);
    let mut line = format!("{:<11} {:<10} {bytes:>5}", input.name, work.name());
    for time in times {
        line += &format!(" {time:>11.1}");
    }
    for time in times {
        line += &format!(" {:>12.3}", time / bytes as f64);
    }
    for (one, other) in pairs() {
        line += &format!(" {:>13.2}", times[one] / times[other]);
    }
    println!("{line}");
}

pub fn run(count: usize) {
    let mut room = Room::new();
    let inputs = inputs();
    let mut measured = Vec::new();
    for input in &inputs {
        for work in WORKS {
            measured.push((input, work, rounds(work, input, &mut room, count)));
        }
    }
    println!("{NOTE}");
    for (what, place) in [("median", count / 2), ("best", 0)] {
        print_head(&format!("{what} of {count} rounds"));
        for (input, work, taken) in &measured {
            let times: Vec<f64> = taken.iter().map(|taken| taken[place]).collect();
            print_line(input, *work, &times);
        }
        println!();
    }
}
