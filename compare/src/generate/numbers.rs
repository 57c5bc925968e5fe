//! Observations, and rows as numbers.
use super::records::{row, runway};
use super::Rng;
use crate::row::{least_depth, Row, DRY, REPORTED, WET};

/// Real and unreal ones, and numbers of more than eight digits.
const TIMES: [u32; 10] =
    [0, 2_290_000, 2_300_000, 4_310_000, 13_010_000, 1_012_400, 1_010_060, 10_000, u32::MAX, 101_010_000];

#[derive(Debug)]
pub struct Observation {
    pub kind: u32,
    pub cover: u32,
    pub depth: u32,
    pub temperature: i32,
    pub slippery: bool,
}

/// At the edges mostly, a contradiction or something out of range now and then.
pub fn observation(rng: &mut Rng) -> Observation {
    let kind = 1 + rng.below(15) as u16;
    let any_cover = rng.below(101) as u32;
    let any_depth = rng.below(1000) as u32;
    let any_temperature = rng.below(1201) as i32 - 600;
    let mut seen = Observation {
        kind: kind.into(),
        cover: rng.pick(&[0, 1, 9, 10, 11, 25, 26, 50, 51, 75, 76, 99, 100, any_cover, any_cover]),
        depth: rng.pick(&[0, 1, 2, 3, 4, 5, 99, 100, 999, any_depth]),
        temperature: rng.pick(&[-600, -151, -150, -149, 0, 599, 600, any_temperature, any_temperature]),
        slippery: rng.chance(if kind == WET { 40 } else { 5 }),
    };
    // Most observations are not contradictory.
    if rng.chance(75) {
        match kind {
            DRY => (seen.cover, seen.depth) = (0, 0),
            WET => seen.depth %= 4,
            shallow if least_depth(shallow).is_none() => seen.depth = 0,
            _ => {}
        }
    }
    match rng.below(30) {
        0 => seen.kind = rng.pick(&[0, 16, 17, 255]),
        1 => seen.cover = rng.pick(&[101, 102, 255]),
        2 => seen.depth = rng.pick(&[1000, 1001, 65535]),
        3 => seen.temperature = rng.pick(&[-601, 601, i32::MIN, i32::MAX]),
        4 => with_wide_number(rng, &mut seen),
        _ => {}
    }
    seen
}

/// One number so wide that its low bits alone would be in range.
fn with_wide_number(rng: &mut Rng, seen: &mut Observation) {
    let any = 1 + rng.below(0xffff) as u32;
    let beyond_16_bits = rng.pick(&[1, 2, 0x7fff, 0x8000, 0xffff, any]) << 16;
    let beyond = if rng.chance(50) { beyond_16_bits } else { 256 * rng.pick(&[1, 2, 255, 256, any]) };
    match rng.below(4) {
        0 => seen.kind += beyond,
        1 => seen.cover += beyond,
        // Less would be a depth still.
        2 => seen.depth += beyond.max(1 << 16),
        _ => seen.temperature = seen.temperature.wrapping_add(beyond_16_bits as i32),
    }
}

/// A row as numbers; every third one has a field that may be out of its rules.
pub fn numbers(rng: &mut Rng) -> Row {
    let number = runway(rng, REPORTED);
    let mut row = row(rng, number);
    if rng.chance(35) {
        let third = &mut row.thirds[rng.below(3)];
        match rng.below(8) {
            0 => row.time = rng.pick(&TIMES),
            1 => row.runway.number = rng.pick(&[0, 1, 18, 19, 36, 255]),
            2 => row.runway.side = rng.pick(&[3, 4, 255]),
            3 => third.code = rng.pick(&[6, 7, 255]),
            4 => third.coverage = rng.pick(&[0, 10, 25, 30, 100, 101, 255]),
            5 => third.depth = rng.pick(&[1, 2, 3, 4, 999, 1000, 65535]),
            6 => third.description = rng.pick(&[0, 2, 7, 8, 12, 14, 15, 16, 255]),
            _ => row.width = rng.pick(&[0, 99, 100, 255]),
        }
    }
    row
}
