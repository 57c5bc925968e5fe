//! Seeded inputs: records in every shape, typings of them in every freedom, and damage.
mod board;
mod changes;
mod damage;
mod desk;
mod numbers;
mod radio;
mod records;
mod rounds;
mod rows;
#[cfg(feature = "library")]
mod structs;
mod typing;

pub use board::{board_notice, reported_shift, shift};
pub use changes::row_pair;
pub use damage::damaged;
pub use desk::{any_row_line, desk_input, is_sent_by, opening_line, started, two_runs, TwoRuns};
pub use numbers::{numbers, observation, Observation};
pub use radio::{radio_list, radio_record};
pub use records::record;
#[cfg(feature = "library")]
pub use rounds::near;
#[cfg(feature = "library")]
pub use structs::{damage_board, damage_record};
pub use typing::{stretched, typing};

use crate::reader::{Record, LONGEST_MESSAGE};
use damage::with_byte_damage;
use records::{letter, plain, time, word};

/// Splitmix: small, seeded, and the same everywhere.
pub struct Rng(u64);

impl Rng {
    pub fn new(seed: u64) -> Rng {
        Rng(seed.wrapping_mul(0x9e37_79b9_7f4a_7c15) ^ 0x5851_f42d_4c95_7f2d)
    }

    pub fn next(&mut self) -> u64 {
        self.0 = self.0.wrapping_add(0x9e37_79b9_7f4a_7c15);
        let mut mixed = self.0;
        mixed = (mixed ^ (mixed >> 30)).wrapping_mul(0xbf58_476d_1ce4_e5b9);
        mixed = (mixed ^ (mixed >> 27)).wrapping_mul(0x94d0_49bb_1331_11eb);
        mixed ^ (mixed >> 31)
    }

    /// Below `bound`, which is not 0.
    pub fn below(&mut self, bound: usize) -> usize {
        (self.next() % bound as u64) as usize
    }

    pub fn between(&mut self, least: usize, most: usize) -> usize {
        least + self.below(most - least + 1)
    }

    pub fn chance(&mut self, percent: usize) -> bool {
        self.below(100) < percent
    }

    pub fn pick<T: Copy>(&mut self, choices: &[T]) -> T {
        choices[self.below(choices.len())]
    }

    pub fn shuffle<T>(&mut self, list: &mut [T]) {
        for place in (1..list.len()).rev() {
            list.swap(place, self.below(place + 1));
        }
    }
}

/// A message, the record it is a typing of if it is one, and the number it has to get if its damage leaves no doubt.
pub struct Sample {
    pub message: Vec<u8>,
    pub record: Option<Record>,
    pub number: Option<u8>,
}

fn random_bytes(rng: &mut Rng) -> Vec<u8> {
    let length = rng.pick(&[0, 1, 2, 10, 100, 1000, 4096, 4097]);
    let printable = rng.chance(50);
    (0..length).map(|_| if printable { rng.pick(b"GD XQA0127/\n\r).(SNOWTAM") } else { rng.below(256) as u8 }).collect()
}

/// A message as they come: about half of them good.
pub fn message(rng: &mut Rng) -> Sample {
    match rng.below(100) {
        0..=37 => {
            let record = record(rng);
            Sample { message: typing(rng, &record), record: Some(record), number: Some(0) }
        }
        38..=42 => {
            let record = record(rng);
            let length = rng.pick(&[4096, 4096, 4095, 3000]);
            let message = stretched(rng, &record, length);
            if message.len() > LONGEST_MESSAGE {
                Sample { message, record: None, number: Some(1) }
            } else {
                Sample { message, record: Some(record), number: Some(0) }
            }
        }
        43 => Sample { message: random_bytes(rng), record: None, number: None },
        _ => damaged(rng),
    }
}

/// Two messages: typings of one record, of records that differ in one thing, or with a refused one among them.
pub fn pair(rng: &mut Rng) -> (Vec<u8>, Vec<u8>) {
    let record = record(rng);
    let one = typing(rng, &record);
    let other = match rng.below(10) {
        0..=3 => typing(rng, &record),
        4 => damaged(rng).message,
        5 => {
            let mut other = one.clone();
            with_byte_damage(rng, &mut other);
            other
        }
        _ => {
            let other = altered(rng, &record);
            typing(rng, &other)
        }
    };
    match rng.below(12) {
        0 => {
            let refused = damaged(rng).message;
            (refused.clone(), refused)
        }
        1 => (other, one),
        _ => (one, other),
    }
}

/// A record that is valid too and differs in one thing at most.
fn altered(rng: &mut Rng, record: &Record) -> Record {
    let mut other = record.clone();
    let place = rng.below(other.rows.len());
    match rng.below(14) {
        0 => other.priority = if other.priority == *b"GG" { *b"DD" } else { *b"GG" },
        1 => other.addresses.reverse(),
        2 => other.addresses[0] = word(rng),
        3 => other.filed = other.filed / 100 * 100 + rng.below(60) as u32,
        4 => other.originator[7] = letter(rng),
        5 => other.region[1] = letter(rng),
        6 => other.serial = other.serial % 9999 + 1,
        7 => other.aerodrome[3] = letter(rng),
        8 => rng.shuffle(&mut other.rows),
        9 => other.rows[place].width = rng.below(100) as u8,
        10 => other.rows[place].time = time(rng),
        11 => other.rows[place].thirds[1].code = rng.below(7) as u16,
        12 => {
            other.items.pop();
        }
        _ => {
            if other.plain.len() > 2 {
                other.plain[1] = letter(rng);
            } else {
                other.plain = plain(rng);
            }
        }
    }
    other
}
