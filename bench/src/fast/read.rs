//! Reading. Every byte is looked at where it stands, left to right, and each misfit of a line gives the line's number.
use super::valid::{
    in_season, is_language, is_name, is_real_time, valid_third, Order, HIGHEST_REDUCED, HIGHEST_REPORTED,
};
use super::*;

/// Fills the record, but nothing past its counts.
pub fn notice(message: &[u8], record: &mut Record) -> Result<(), u8> {
    if message.len() > LONGEST_MESSAGE {
        return Err(1);
    }
    let mut reader = Reader { rest: message };
    reader.addresses(&mut record.addresses).ok_or(2)?;
    record.filing = reader.filing().ok_or(2)?;
    let (title, time) = reader.heading().ok_or(3)?;
    record.title = title;
    let serial = reader.opening().ok_or(4)?;
    let aerodrome = reader.aerodrome().ok_or(4)?;
    let latest = reader.body(record)?;
    if !reader.rest.is_empty() {
        Err(4)
    } else if serial != title.serial {
        Err(10)
    } else if aerodrome != title.aerodrome {
        Err(11)
    } else if in_season(time) != latest {
        Err(12)
    } else {
        Ok(())
    }
}

struct Reader<'m> {
    rest: &'m [u8],
}

/// The first bytes, if there are so many, and the others.
#[inline(always)]
fn parted<const N: usize>(bytes: &[u8]) -> Option<(&[u8; N], &[u8])> {
    let first = bytes.get(..N)?.try_into().ok()?;
    Some((first, &bytes[N..]))
}

/// A group that was read, and whether spaces were taken behind it.
type Spaced<T> = (T, bool);

/// What is taken from the front of the rest. A part that does not fit is `None`, and then the rest is of no use any more;
/// only the ends of lines are looked for without harm.
impl<'m> Reader<'m> {
    #[inline(always)]
    fn take<const N: usize>(&mut self) -> Option<&'m [u8; N]> {
        let (taken, rest) = parted(self.rest)?;
        self.rest = rest;
        Some(taken)
    }

    /// A space at a word's end stands for a whole gap.
    #[inline(always)]
    fn word<const N: usize>(&mut self, word: &[u8; N]) -> Option<()> {
        if self.take()? != word {
            return None;
        }
        if word[N - 1] == b' ' && self.next_is(b' ') {
            self.more_spaces();
        }
        Some(())
    }

    #[inline(always)]
    fn next_is(&self, byte: u8) -> bool {
        self.rest.first() == Some(&byte)
    }

    /// Any spaces there are; whether there was one.
    #[inline(always)]
    fn spaces(&mut self) -> bool {
        self.next_is(b' ') && self.gap().is_some()
    }

    #[inline(always)]
    fn gap(&mut self) -> Option<()> {
        self.word(b" ")
    }

    /// Eight at a time and, where there are many, 32.
    fn more_spaces(&mut self) {
        while let Some((chunk, rest)) = parted(self.rest) {
            let others = u64::from_le_bytes(*chunk) ^ u64::from_le_bytes([b' '; 8]);
            if others != 0 {
                let spaces = others.trailing_zeros() / 8;
                self.rest = &self.rest[spaces as usize..];
                return;
            }
            self.rest = rest;
            while let Some(rest) = self.rest.strip_prefix(&[b' '; 32]) {
                self.rest = rest;
            }
        }
        while let [b' ', rest @ ..] = self.rest {
            self.rest = rest;
        }
    }

    #[inline(always)]
    fn letters<const N: usize>(&mut self) -> Option<[u8; N]> {
        let word = self.take()?;
        word.iter().fold(true, |fits, byte| fits & byte.is_ascii_uppercase()).then_some(*word)
    }

    #[inline(always)]
    fn digits<const N: usize>(&mut self) -> Option<u32> {
        let word: &[u8; N] = self.take()?;
        let fits = word.iter().fold(true, |fits, byte| fits & byte.is_ascii_digit());
        let number = word.iter().fold(0u32, |number, byte| number.wrapping_mul(10).wrapping_add(u32::from(byte & 15)));
        fits.then_some(number)
    }

    /// MMDDhhmm: the eight digits are joined to pairs at once, and judged as pairs.
    #[inline(always)]
    fn time(&mut self) -> Option<u32> {
        const EVERY: u64 = 0x0101_0101_0101_0101;
        let digits = u64::from_le_bytes(*self.take()?) ^ (EVERY * u64::from(b'0'));
        if (digits | digits.wrapping_add(EVERY * 6)) & (EVERY * 0xf0) != 0 {
            return None;
        }
        let [month, _, day, _, hour, _, minute, _] = (digits * 10 + (digits >> 8)).to_le_bytes();
        is_real_time(month, day, hour, minute)
            .then(|| ((u32::from(month) * 100 + u32::from(day)) * 100 + u32::from(hour)) * 100 + u32::from(minute))
    }

    /// An LF, a CR LF or the end of the message.
    #[inline(always)]
    fn line_end(&mut self) -> Option<()> {
        match self.rest {
            [b'\n', rest @ ..] | [b'\r', b'\n', rest @ ..] => self.rest = rest,
            [] => {}
            _ => return None,
        }
        Some(())
    }

    /// A `)` as the last byte of its line, and the line's end.
    #[inline(always)]
    fn closing(&mut self) -> bool {
        let mut behind = match self.rest {
            [b')', rest @ ..] => Reader { rest },
            _ => return false,
        };
        let closes = behind.line_end().is_some();
        if closes {
            *self = behind;
        }
        closes
    }

    /// The end of a line that may close the notice; whether it does.
    #[inline(always)]
    fn ending(&mut self) -> Option<bool> {
        if self.closing() {
            return Some(true);
        }
        self.line_end().map(|()| false)
    }

    /// An empty line, if there is one; the end of the message is none.
    #[inline(always)]
    fn empty_line(&mut self) -> bool {
        !self.rest.is_empty() && self.line_end().is_some()
    }
}

/// Lines 1 to 5.
impl Reader<'_> {
    fn addresses(&mut self, addresses: &mut Addresses) -> Option<()> {
        addresses.priority = match self.take()? {
            b"GG" => 1,
            b"DD" => 2,
            _ => return None,
        };
        let mut places = addresses.letters.chunks_exact_mut(8);
        addresses.count = 0;
        while self.spaces() {
            places.next()?.copy_from_slice(&self.letters::<8>()?);
            addresses.count += 1;
        }
        self.line_end().filter(|()| addresses.count > 0)
    }

    fn filing(&mut self) -> Option<Filing> {
        let [day, hour, minute] = [self.digits::<2>()?, self.digits::<2>()?, self.digits::<2>()?];
        self.gap()?;
        let originator = self.letters()?;
        self.line_end()?;
        let real = (1..=31).contains(&day) && hour < 24 && minute < 60;
        real.then_some(Filing { time: (day * 100 + hour) * 100 + minute, originator })
    }

    /// Line 3 and its time.
    fn heading(&mut self) -> Option<(Title, u32)> {
        self.word(b"SW")?;
        let region = self.letters()?;
        let serial = self.serial()?;
        self.gap()?;
        let aerodrome = self.letters()?;
        self.gap()?;
        let time = self.time()?;
        self.line_end()?;
        Some((Title { region, serial, aerodrome }, time))
    }

    fn opening(&mut self) -> Option<u16> {
        self.word(b"(SNOWTAM ")?;
        let serial = self.serial()?;
        self.line_end()?;
        Some(serial)
    }

    fn aerodrome(&mut self) -> Option<[u8; 4]> {
        let aerodrome = self.letters()?;
        self.line_end()?;
        Some(aerodrome)
    }

    #[inline(always)]
    fn serial(&mut self) -> Option<u16> {
        self.digits::<4>().filter(|&serial| serial > 0).map(|serial| serial as u16)
    }
}

/// What stands below line 5.
impl Reader<'_> {
    /// Up to the line that closes the notice; gives the latest time's place in the season.
    fn body(&mut self, record: &mut Record) -> Result<u32, u8> {
        record.items.count = 0;
        record.language.length = 0;
        let (closed, latest) = self.rows(&mut record.rows)?;
        if closed {
            return Ok(latest);
        }
        if self.rest.is_empty() {
            return Err(4);
        }
        let closed = !self.empty_line() && self.items(&mut record.items).ok_or(8)?;
        if !closed {
            self.language(&mut record.language)?;
        }
        Ok(latest)
    }

    /// The rows up to the empty line behind them, or to the one that closes; whether it did, and the latest time's place in
    /// the season.
    fn rows(&mut self, rows: &mut Rows) -> Result<(bool, u32), u8> {
        let mut seen = 0u128;
        let mut latest = 0;
        rows.count = 0;
        loop {
            if self.rest.is_empty() {
                return Err(4);
            }
            if self.empty_line() {
                return if rows.count == 0 { Err(4) } else { Ok((false, latest)) };
            }
            let row = rows.rows.get_mut(usize::from(rows.count)).ok_or(6)?;
            let closed = self.row(row).ok_or(5)?;
            let runway = 1 << (4 * row.number + row.side);
            if seen & runway != 0 {
                return Err(7);
            }
            seen |= runway;
            latest = latest.max(in_season(row.time));
            rows.count += 1;
            if closed {
                return Ok((true, latest));
            }
        }
    }

    /// A row; whether it closes the notice.
    fn row(&mut self, row: &mut Row) -> Option<bool> {
        row.time = self.time()?;
        self.gap()?;
        (row.number, row.side) = self.runway(HIGHEST_REPORTED)?;
        self.gap()?;
        let codes = match *self.take()? {
            [a, b'/', b, b'/', c] => [a, b, c].map(|digit| digit.wrapping_sub(b'0')),
            _ => return None,
        };
        if codes.iter().any(|&code| code > 6) {
            return None;
        }
        self.gap()?;
        let mut left_out = true;
        let mut coverages = [0; 3];
        let mut depths = [0; 3];
        let (descriptions, spaced) = if self.coverages_follow() {
            coverages = self.joined(Self::coverage)?;
            let spaced = self.spaces();
            if spaced && self.depths_follow() {
                left_out = false;
                depths = self.joined(Self::depth)?;
                self.gap()?;
                self.descriptions()?
            } else {
                // The three NR of a short row, which are its descriptions.
                ([NR; 3], spaced)
            }
        } else {
            self.descriptions()?
        };
        row.width = if spaced { self.digits::<2>().filter(|&width| width > 0)? as u8 } else { 0 };
        let closed = self.ending()?;
        for (place, third) in row.thirds.iter_mut().enumerate() {
            *third = Third {
                code: codes[place],
                coverage: coverages[place],
                depth: depths[place],
                description: descriptions[place],
            };
        }
        let fits = row.thirds.iter().all(valid_third) && (!left_out || row.is_short());
        fits.then_some(closed)
    }

    #[inline(always)]
    fn runway(&mut self, highest: u8) -> Option<(u8, u8)> {
        let number = self.digits::<2>()? as u8;
        let side = match self.rest.first() {
            Some(b'L') => 1,
            Some(b'C') => 2,
            Some(b'R') => 3,
            _ => 0,
        };
        self.rest = &self.rest[usize::from(side > 0)..];
        (1..=highest).contains(&number).then_some((number, side))
    }

    /// NR says nothing yet of what follows, a digit does; three NR are coverages if depths follow, and else descriptions.
    fn coverages_follow(&self) -> bool {
        matches!(
            self.rest,
            [b'0'..=b'9', ..]
                | [b'N', b'R', b'/', b'0'..=b'9', ..]
                | [b'N', b'R', b'/', b'N', b'R', b'/', b'0'..=b'9', ..]
                | [b'N', b'R', b'/', b'N', b'R', b'/', b'N', b'R', ..]
        )
    }

    /// Not a width, which has no slash behind it.
    fn depths_follow(&self) -> bool {
        matches!(
            self.rest,
            [b'N', ..] | [b'0'..=b'9', b'0'..=b'9', b'/', ..] | [b'0'..=b'9', b'0'..=b'9', b'0'..=b'9', b'/', ..]
        )
    }

    #[inline(always)]
    fn joined<T>(&mut self, part: impl Fn(&mut Self) -> Option<T>) -> Option<[T; 3]> {
        let first = part(self)?;
        self.word(b"/")?;
        let second = part(self)?;
        self.word(b"/")?;
        Some([first, second, part(self)?])
    }

    #[inline(always)]
    fn coverage(&mut self) -> Option<u8> {
        match self.take()? {
            b"NR" => Some(0),
            b"25" => Some(25),
            b"50" => Some(50),
            b"75" => Some(75),
            b"10" => self.word(b"0").map(|()| 100),
            _ => None,
        }
    }

    /// NR, two digits, or three of which the first is no 0.
    #[inline(always)]
    fn depth(&mut self) -> Option<u16> {
        if self.next_is(b'N') {
            return self.word(b"NR").map(|()| 0);
        }
        let depth = self.digits::<2>()? as u16;
        match self.rest {
            [digit @ b'0'..=b'9', rest @ ..] if depth >= 10 => {
                self.rest = rest;
                Some(10 * depth + u16::from(digit - b'0'))
            }
            _ => Some(depth).filter(|&depth| depth > 0),
        }
    }

    #[inline(always)]
    fn descriptions(&mut self) -> Option<Spaced<[u8; 3]>> {
        let first = self.description_before_slash()?;
        let second = self.description_before_slash()?;
        let (third, spaced) = self.description()?;
        Some(([first, second, third], spaced || self.spaces()))
    }

    /// No space stands between the two.
    #[inline(always)]
    fn description_before_slash(&mut self) -> Option<u8> {
        let (description, spaced) = self.description()?;
        if spaced {
            return None;
        }
        self.word(b"/").map(|()| description)
    }

    /// Spaces are taken behind a description that another word could have made a longer one.
    fn description(&mut self) -> Option<Spaced<u8>> {
        let description = match self.rest {
            [b'N', ..] => self.word(b"NR").map(|()| NR),
            [b'D', ..] => {
                self.word(b"DRY")?;
                return self.snow(DRY, DRY_SNOW, DRY_SNOW_ON_COMPACTED_SNOW, DRY_SNOW_ON_ICE);
            }
            [b'W', b'E', ..] => {
                self.word(b"WET")?;
                return self.snow(WET, WET_SNOW, WET_SNOW_ON_COMPACTED_SNOW, WET_SNOW_ON_ICE);
            }
            [b'W', ..] => {
                self.word(b"WATER ")?;
                self.on_top_of()?;
                self.compacted_snow().map(|()| WATER_ON_COMPACTED_SNOW)
            }
            [b'S', b'L', ..] => self.word(b"SLUSH").map(|()| SLUSH),
            [b'S', ..] => {
                self.word(b"STANDING ")?;
                self.word(b"WATER").map(|()| STANDING_WATER)
            }
            [b'C', ..] => self.compacted_snow().map(|()| COMPACTED_SNOW),
            [b'F', ..] => self.word(b"FROST").map(|()| FROST),
            [b'I', ..] => self.word(b"ICE").map(|()| ICE),
            _ => None,
        };
        Some((description?, false))
    }

    /// What DRY or WET goes on with.
    fn snow(&mut self, bare: u8, snow: u8, on_compacted_snow: u8, on_ice: u8) -> Option<Spaced<u8>> {
        if !self.spaces() {
            return Some((bare, false));
        }
        if !self.next_is(b'S') {
            if bare == WET && self.next_is(b'I') {
                return self.word(b"ICE").map(|()| (WET_ICE, false));
            }
            return Some((bare, true));
        }
        self.word(b"SNOW")?;
        if !self.spaces() {
            return Some((snow, false));
        }
        if !self.next_is(b'O') {
            return Some((snow, true));
        }
        self.on_top_of()?;
        if self.next_is(b'C') {
            self.compacted_snow().map(|()| (on_compacted_snow, false))
        } else {
            self.word(b"ICE").map(|()| (on_ice, false))
        }
    }

    fn on_top_of(&mut self) -> Option<()> {
        self.word(b"ON ")?;
        self.word(b"TOP ")?;
        self.word(b"OF ")
    }

    fn compacted_snow(&mut self) -> Option<()> {
        self.word(b"COMPACTED ")?;
        self.word(b"SNOW")
    }

    /// The awareness line; whether it closes the notice.
    fn items(&mut self, items: &mut Items) -> Option<bool> {
        let mut order = Order::default();
        let mut count = 0;
        loop {
            let (earlier, places) = items.items.split_at_mut(count);
            let item = places.first_mut()?;
            *item = Item::BLANK;
            item.letter = self.item(item)?;
            self.word(b".")?;
            if !order.takes(item, earlier) {
                return None;
            }
            count += 1;
            let spaced = self.spaces();
            if let Some(closed) = self.ending() {
                items.count = count as u8;
                return (!spaced).then_some(closed);
            }
        }
    }

    /// Fills a blank item and gives its letter; the full stop is left.
    fn item(&mut self, item: &mut Item) -> Option<u8> {
        match self.rest {
            [b'R', ..] => self.runway_item(item),
            [b'T', ..] => self.taxiways(item),
            [b'D', ..] => {
                self.word(b"DRIFTING ")?;
                self.word(b"SNOW").map(|()| b'J')
            }
            [b'A', b'L', ..] => {
                self.word(b"ALL ")?;
                let letter = if self.next_is(b'T') {
                    self.word(b"TWY")?;
                    b'P'
                } else {
                    self.word(b"APRON")?;
                    b'R'
                };
                self.gap()?;
                self.word(b"POOR").map(|()| letter)
            }
            [b'A', ..] => self.apron(item),
            _ => None,
        }
    }

    fn runway_item(&mut self, item: &mut Item) -> Option<u8> {
        self.word(b"RWY ")?;
        (item.number, item.side) = self.runway(HIGHEST_REDUCED)?;
        self.gap()?;
        let letter = match self.rest.first()? {
            b'R' => {
                self.word(b"REDUCED ")?;
                self.word(b"TO ")?;
                item.amount = self.length()?;
                return Some(b'I');
            }
            b'L' => {
                self.word(b"LOOSE ")?;
                self.word(b"SAND")?;
                b'K'
            }
            b'C' => {
                self.word(b"CHEMICALLY ")?;
                self.word(b"TREATED")?;
                b'L'
            }
            b'S' => {
                self.word(b"SNOWBANK ")?;
                item.edge = self.edge()?;
                item.amount = self.digits::<2>().filter(|&distance| distance > 0)? as u16;
                self.gap()?;
                self.word(b"FM ")?;
                self.word(b"CL")?;
                b'M'
            }
            _ => {
                self.word(b"ADJ ")?;
                self.word(b"SNOWBANK")?;
                b'O'
            }
        };
        (item.number <= HIGHEST_REPORTED).then_some(letter)
    }

    /// 100 to 9999 without a leading zero.
    fn length(&mut self) -> Option<u16> {
        let length = self.digits::<3>().filter(|&length| length >= 100)? as u16;
        match self.rest {
            [digit @ b'0'..=b'9', rest @ ..] => {
                self.rest = rest;
                Some(10 * length + u16::from(digit - b'0'))
            }
            _ => Some(length),
        }
    }

    fn edge(&mut self) -> Option<u8> {
        let (edge, rest) = match self.rest {
            [b'L', b'R', rest @ ..] => (3, rest),
            [b'R', rest @ ..] => (2, rest),
            [b'L', rest @ ..] => (1, rest),
            _ => return None,
        };
        self.rest = rest;
        Some(edge)
    }

    fn taxiways(&mut self, item: &mut Item) -> Option<u8> {
        self.word(b"TWY ")?;
        loop {
            // A taxiway is at most three characters long, and the word that ends the list longer.
            let (&[a, b, c, d], _) = parted(self.rest)?;
            let (name, length) = match (is_name(b), is_name(c), is_name(d)) {
                (false, _, _) => ([a, 0, 0], 1),
                (true, false, _) => ([a, b, 0], 2),
                (true, true, false) => ([a, b, c], 3),
                (true, true, true) => break,
            };
            let (earlier, places) = item.taxiways.split_at_mut(3 * usize::from(item.count));
            if !a.is_ascii_uppercase() || earlier.chunks_exact(3).any(|other| other == name) {
                return None;
            }
            places.get_mut(..3)?.copy_from_slice(&name);
            item.count += 1;
            self.rest = &self.rest[length..];
            self.gap()?;
        }
        if item.count == 0 {
            return None;
        }
        if self.next_is(b'P') {
            self.word(b"POOR").map(|()| b'P')
        } else {
            self.word(b"SNOWBANK").map(|()| b'N')
        }
    }

    fn apron(&mut self, item: &mut Item) -> Option<u8> {
        self.word(b"APRON ")?;
        let mut length = 0;
        for (place, &byte) in item.name.iter_mut().zip(self.rest) {
            if !is_name(byte) {
                break;
            }
            *place = byte;
            length += 1;
        }
        self.rest = &self.rest[length..];
        self.gap()?;
        self.word(b"POOR").map(|()| b'R')
    }

    /// The plain language line, which closes the notice. Only where it does not is its end looked for: without its `)` it
    /// is 4 whatever its bytes.
    fn language(&mut self, language: &mut Language) -> Result<(), u8> {
        let mut length = 0;
        for (place, chunk) in language.bytes.chunks_exact_mut(16).zip(self.rest.chunks_exact(16)) {
            if !chunk.iter().fold(true, |fits, &byte| fits & is_language(byte)) {
                break;
            }
            place.copy_from_slice(chunk);
            length += 16;
        }
        for (place, &byte) in language.bytes[length..].iter_mut().zip(&self.rest[length..]) {
            if !is_language(byte) {
                break;
            }
            *place = byte;
            length += 1;
        }
        self.rest = &self.rest[length..];
        let text = &language.bytes[..length];
        if length >= 2 && text[0] != b' ' && text[length - 1] == b'.' && self.closing() {
            language.length = length as u16;
            return Ok(());
        }
        let line = self.rest.split_inclusive(|&byte| byte == b'\n').next().unwrap_or(&[]);
        let closed = [&b")\r\n"[..], b")\n", b")"].iter().any(|end| line.ends_with(end));
        Err(if closed { 9 } else { 4 })
    }
}
