//! What `test_run` prints of the assessor: observations at the edges of document 01, and the third that is reported for each.
use crate::assess::{agrees, assess};
use crate::row::{self, Third};

const COMPACTED_SNOW: u32 = row::COMPACTED_SNOW as u32;
const FROST: u32 = row::FROST as u32;
const SLUSH: u32 = row::SLUSH as u32;
const DRY: u32 = row::DRY as u32;

/// Kind, cover, depth, temperature and slippery.
type Observation = (u32, u32, u32, i32, bool);

fn observations() -> Vec<Observation> {
    let mut seen = Vec::new();
    // Every kind, and a number below and above them.
    for kind in 0..=16 {
        seen.extend([0, 2, 3, 4].map(|depth| (kind, 100, depth, 0, false)));
        seen.push((kind, 100, 0, 0, true));
    }
    // Every cover, and two above them.
    seen.extend((0..=102).map(|cover| (FROST, cover, 0, 0, false)));
    seen.extend([0, 1].map(|cover| (DRY, cover, 0, 0, false)));
    seen.extend([999, 1000].map(|depth| (SLUSH, 100, depth, 0, false)));
    seen.extend([-601, -600, -150, -149, 600, 601].map(|degrees| (COMPACTED_SNOW, 100, 0, degrees, false)));
    seen
}

/// What was observed but for the temperature, the refusal and the third, and whether that is valid and agrees with Table 1.
fn line(seen: Observation) -> String {
    let (kind, cover, depth, temperature, slippery) = seen;
    let (refusal, told) = assess(kind, cover, depth, temperature, slippery);
    let [code, coverage, reported, description] = told;
    let third = Third { code, coverage, depth: reported, description };
    let observed = [kind, cover, depth, slippery.into(), refusal.into()];
    let judged = [third.is_valid().into(), agrees(&third).into()];
    let numbers = observed.into_iter().chain(told.map(u32::from)).chain(judged);
    numbers.map(|number| format!("{number:04} ")).collect::<String>() + "\n"
}

pub fn output() -> Vec<u8> {
    observations().into_iter().map(line).collect::<String>().into_bytes()
}
