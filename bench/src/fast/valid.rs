//! What a record may hold, and the rules that reading and judging share.
use super::*;

/// The highest runway that is reported; item I alone goes further.
pub const HIGHEST_REPORTED: u8 = 18;
pub const HIGHEST_REDUCED: u8 = 36;

/// By month; no day for a number that is no month.
const MONTH_DAYS: [u8; 16] = [0, 31, 29, 31, 30, 31, 30, 31, 31, 30, 31, 30, 31, 0, 0, 0];

/// The least depth by description; none reaches that of a description without depths.
const LEAST_DEPTH: [u16; 16] = {
    let mut least = [u16::MAX; 16];
    least[STANDING_WATER as usize] = 4;
    least[SLUSH as usize] = 3;
    least[WET_SNOW as usize] = 3;
    least[DRY_SNOW as usize] = 3;
    least
};

#[inline(always)]
pub fn is_real_time(month: u8, day: u8, hour: u8, minute: u8) -> bool {
    let days = MONTH_DAYS.get(usize::from(month)).copied().unwrap_or(0);
    (1..=days).contains(&day) && hour < 24 && minute < 60
}

/// A time's place in its season: July comes first, and what wraps round below it comes behind December. Place 0 is before all.
#[inline(always)]
pub fn in_season(time: u32) -> u32 {
    time.wrapping_sub(7_000_000)
}

#[inline(always)]
pub fn is_name(byte: u8) -> bool {
    byte.is_ascii_uppercase() | byte.is_ascii_digit()
}

/// `+ , - . /`, the digits and `:` stand side by side.
#[inline(always)]
pub fn is_language(byte: u8) -> bool {
    byte.is_ascii_uppercase() | (byte == b' ') | (byte.wrapping_sub(b'+') <= b':' - b'+')
}

/// Of a third whose fields are in range.
#[inline(always)]
pub fn valid_third(third: &Third) -> bool {
    let contaminant = third.description != NR && third.description != DRY;
    (third.coverage == 0 || contaminant)
        && (third.depth == 0 || third.depth >= LEAST_DEPTH[usize::from(third.description & 15)])
}

/// The order of items and their repeats. Letters never fall, so only the items of the latest letter matter.
#[derive(Default)]
pub struct Order {
    letter: u8,
    /// A bit for each runway that the letter stands for.
    runways: [u64; 3],
}

impl Order {
    /// Whether the item may follow the earlier ones.
    pub fn takes(&mut self, item: &Item, earlier: &[Item]) -> bool {
        if item.letter < self.letter {
            return false;
        }
        let first = item.letter > self.letter;
        if first {
            *self = Order { letter: item.letter, runways: [0; 3] };
        }
        match item.letter {
            b'J' | b'N' | b'P' => first,
            b'R' => {
                let mut others = earlier.iter().rev().take_while(|other| other.letter == b'R');
                first || item.name[0] != 0 && others.all(|other| other.name[0] != 0 && other.name != item.name)
            }
            _ => {
                let runway = 4 * usize::from(item.number) + usize::from(item.side);
                let word = &mut self.runways[runway / 64];
                let fresh = *word >> (runway % 64) & 1 == 0;
                *word |= 1 << (runway % 64);
                fresh
            }
        }
    }
}

fn letters(text: &[u8]) -> bool {
    text.iter().all(u8::is_ascii_uppercase)
}

fn zeros(text: &[u8]) -> bool {
    text.iter().all(|&byte| byte == 0)
}

/// Whether the place holds a name: `name` characters and then zeros only.
fn holds_name(place: &[u8]) -> bool {
    let length = place.iter().take_while(|&&byte| is_name(byte)).count();
    length > 0 && zeros(&place[length..])
}

fn is_runway(number: u8, side: u8, highest: u8) -> bool {
    (1..=highest).contains(&number) && side <= 3
}

impl Record {
    pub fn is_valid(&self) -> bool {
        self.addresses.is_valid()
            && self.filing.is_valid()
            && self.title.is_valid()
            && self.rows.is_valid()
            && self.items.is_valid()
            && self.language.is_valid()
    }
}

impl Addresses {
    fn is_valid(&self) -> bool {
        if !(1..=2).contains(&self.priority) || !(1..=8).contains(&self.count) {
            return false;
        }
        let (used, unused) = self.letters.split_at(8 * usize::from(self.count));
        letters(used) && zeros(unused)
    }
}

impl Filing {
    fn is_valid(&self) -> bool {
        let (day, hour, minute) = (self.time / 10_000, self.time / 100 % 100, self.time % 100);
        (1..=31).contains(&day) && hour < 24 && minute < 60 && letters(&self.originator)
    }
}

impl Title {
    fn is_valid(&self) -> bool {
        letters(&self.region) && (1..=9999).contains(&self.serial) && letters(&self.aerodrome)
    }
}

impl Rows {
    fn is_valid(&self) -> bool {
        if !(1..=8).contains(&self.count) {
            return false;
        }
        let (used, unused) = self.rows.split_at(usize::from(self.count));
        let mut seen = 0u128;
        let mut fresh = |row: &Row| {
            let runway = 1 << (4 * row.number + row.side);
            let fresh = seen & runway == 0;
            seen |= runway;
            fresh
        };
        used.iter().all(|row| row.is_valid() && fresh(row)) && unused.iter().all(|row| *row == Row::BLANK)
    }
}

impl Row {
    fn is_valid(&self) -> bool {
        let part = |unit| (self.time / unit % 100) as u8;
        self.time < 100_000_000
            && is_real_time(part(1_000_000), part(10_000), part(100), part(1))
            && is_runway(self.number, self.side, HIGHEST_REPORTED)
            && self.thirds.iter().all(Third::is_valid)
            && self.width <= 99
    }
}

impl Third {
    fn is_valid(&self) -> bool {
        self.code <= 6
            && matches!(self.coverage, 0 | 25 | 50 | 75 | 100)
            && self.depth <= 999
            && self.description <= DRY
            && valid_third(self)
    }
}

impl Items {
    fn is_valid(&self) -> bool {
        if self.count > 32 {
            return false;
        }
        let (used, unused) = self.items.split_at(usize::from(self.count));
        let mut order = Order::default();
        let mut fits = |(place, item): (usize, &Item)| item.is_valid() && order.takes(item, &used[..place]);
        used.iter().enumerate().all(&mut fits) && unused.iter().all(|item| *item == Item::BLANK)
    }
}

impl Item {
    fn is_valid(&self) -> bool {
        let Item { letter, number, side, amount, edge, count, taxiways, name } = *self;
        let blank = Item { letter, ..Item::BLANK };
        let on_runway = Item { number, side, ..blank };
        let (fits, used) = match letter {
            b'I' => (
                is_runway(number, side, HIGHEST_REDUCED) && (100..=9999).contains(&amount),
                Item { amount, ..on_runway },
            ),
            b'J' => (true, blank),
            b'K' | b'L' | b'O' => (is_runway(number, side, HIGHEST_REPORTED), on_runway),
            b'M' => (
                is_runway(number, side, HIGHEST_REPORTED) && (1..=99).contains(&amount) && (1..=3).contains(&edge),
                Item { amount, edge, ..on_runway },
            ),
            b'N' | b'P' => {
                ((letter == b'P' || count > 0) && self.taxiways_are_valid(), Item { count, taxiways, ..blank })
            }
            b'R' => (zeros(&name) || holds_name(&name), Item { name, ..blank }),
            _ => return false,
        };
        fits && *self == used
    }

    fn taxiways_are_valid(&self) -> bool {
        if self.count > 8 {
            return false;
        }
        let (used, unused) = self.taxiways.split_at(3 * usize::from(self.count));
        let names = || used.chunks_exact(3);
        let fits = |name: &[u8]| name[0].is_ascii_uppercase() && holds_name(name);
        names().all(fits)
            && names().enumerate().all(|(place, name)| names().take(place).all(|other| other != name))
            && zeros(unused)
    }
}

impl Language {
    fn is_valid(&self) -> bool {
        if self.length > 400 {
            return false;
        }
        let (text, unused) = self.bytes.split_at(usize::from(self.length));
        let fits =
            text.len() >= 2 && text.iter().all(|&byte| is_language(byte)) && text[0] != b' ' && text.ends_with(b".");
        (text.is_empty() || fits) && zeros(unused)
    }
}
