//! Writing. Words are put as arrays, so that each is a few stores and no call.
use super::valid::in_season;
use super::*;

/// Puts the text of a valid record and gives its length.
pub fn notice(record: &Record, out: &mut [u8; LONGEST_TEXT]) -> usize {
    let mut writer = Writer { out, length: 0 };
    writer.front(record);
    for (place, row) in record.rows().iter().enumerate() {
        if place > 0 {
            writer.put(b"\n");
        }
        writer.row(row);
    }
    if record.items.count > 0 || record.language.length > 0 {
        writer.put(b"\n\n");
        for (place, item) in record.items().iter().enumerate() {
            if place > 0 {
                writer.put(b" ");
            }
            writer.item(item);
            writer.put(b".");
        }
    }
    if record.language.length > 0 {
        writer.put(b"\n");
        writer.put_all(record.language());
    }
    writer.put(b")\n");
    writer.length
}

/// The last two digits of a number.
#[inline(always)]
fn pair(number: u32) -> [u8; 2] {
    [b'0' + (number / 10 % 10) as u8, b'0' + (number % 10) as u8]
}

struct Writer<'b> {
    out: &'b mut [u8; LONGEST_TEXT],
    length: usize,
}

impl Writer<'_> {
    #[inline(always)]
    fn put<const N: usize>(&mut self, text: &[u8; N]) {
        self.out[self.length..self.length + N].copy_from_slice(text);
        self.length += N;
    }

    fn put_all(&mut self, text: &[u8]) {
        self.out[self.length..self.length + text.len()].copy_from_slice(text);
        self.length += text.len();
    }

    #[inline(always)]
    fn two_digits(&mut self, number: u32) {
        self.put(&pair(number));
    }

    #[inline(always)]
    fn four_digits(&mut self, number: u32) {
        let [[a, b], [c, d]] = [number / 100, number].map(pair);
        self.put(&[a, b, c, d]);
    }

    #[inline(always)]
    fn time(&mut self, time: u32) {
        let [[a, b], [c, d], [e, f], [g, h]] = [time / 1_000_000, time / 10_000, time / 100, time].map(pair);
        self.put(&[a, b, c, d, e, f, g, h]);
    }

    #[inline(always)]
    fn runway(&mut self, number: u8, side: u8) {
        self.two_digits(number.into());
        match side {
            1 => self.put(b"L"),
            2 => self.put(b"C"),
            3 => self.put(b"R"),
            _ => {}
        }
    }

    /// Lines 1 to 5.
    fn front(&mut self, record: &Record) {
        let Title { region, serial, aerodrome } = record.title;
        self.put(if record.addresses.priority == 1 { b"GG" } else { b"DD" });
        for address in record.addresses().chunks_exact(8) {
            self.put(b" ");
            self.put_all(address);
        }
        self.put(b"\n");
        self.two_digits(record.filing.time / 10_000);
        self.four_digits(record.filing.time);
        self.put(b" ");
        self.put(&record.filing.originator);
        self.put(b"\nSW");
        self.put(&region);
        self.four_digits(serial.into());
        self.put(b" ");
        self.put(&aerodrome);
        self.put(b" ");
        self.time(record.rows().iter().map(|row| row.time).max_by_key(|&time| in_season(time)).unwrap_or(0));
        self.put(b"\n(SNOWTAM ");
        self.four_digits(serial.into());
        self.put(b"\n");
        self.put(&aerodrome);
        self.put(b"\n");
    }

    fn row(&mut self, row: &Row) {
        self.time(row.time);
        self.put(b" ");
        self.runway(row.number, row.side);
        self.put(b" ");
        let [a, b, c] = row.thirds.map(|third| b'0' + third.code);
        self.put(&[a, b'/', b, b'/', c, b' ']);
        if !row.is_short() {
            self.joined(row, |writer, third| writer.coverage(third.coverage));
            self.put(b" ");
            self.joined(row, |writer, third| writer.depth(third.depth.into()));
            self.put(b" ");
        }
        self.joined(row, |writer, third| writer.description(third.description));
        if row.width > 0 {
            self.put(b" ");
            self.two_digits(row.width.into());
        }
    }

    #[inline(always)]
    fn joined(&mut self, row: &Row, part: impl Fn(&mut Self, &Third)) {
        let [first, second, third] = &row.thirds;
        part(self, first);
        self.put(b"/");
        part(self, second);
        self.put(b"/");
        part(self, third);
    }

    #[inline(always)]
    fn coverage(&mut self, coverage: u8) {
        match coverage {
            0 => self.put(b"NR"),
            100 => self.put(b"100"),
            _ => self.two_digits(coverage.into()),
        }
    }

    #[inline(always)]
    fn depth(&mut self, depth: u32) {
        match depth {
            0 => self.put(b"NR"),
            1..=99 => self.two_digits(depth),
            _ => {
                let [b, c] = pair(depth);
                self.put(&[b'0' + (depth / 100) as u8, b, c]);
            }
        }
    }

    fn description(&mut self, description: u8) {
        match description {
            COMPACTED_SNOW => self.put(b"COMPACTED SNOW"),
            DRY_SNOW => self.put(b"DRY SNOW"),
            DRY_SNOW_ON_COMPACTED_SNOW => self.put(b"DRY SNOW ON TOP OF COMPACTED SNOW"),
            DRY_SNOW_ON_ICE => self.put(b"DRY SNOW ON TOP OF ICE"),
            FROST => self.put(b"FROST"),
            ICE => self.put(b"ICE"),
            SLUSH => self.put(b"SLUSH"),
            STANDING_WATER => self.put(b"STANDING WATER"),
            WATER_ON_COMPACTED_SNOW => self.put(b"WATER ON TOP OF COMPACTED SNOW"),
            WET => self.put(b"WET"),
            WET_ICE => self.put(b"WET ICE"),
            WET_SNOW => self.put(b"WET SNOW"),
            WET_SNOW_ON_COMPACTED_SNOW => self.put(b"WET SNOW ON TOP OF COMPACTED SNOW"),
            WET_SNOW_ON_ICE => self.put(b"WET SNOW ON TOP OF ICE"),
            DRY => self.put(b"DRY"),
            _ => self.put(b"NR"),
        }
    }

    /// An item without its full stop.
    fn item(&mut self, item: &Item) {
        match item.letter {
            b'J' => self.put(b"DRIFTING SNOW"),
            b'N' | b'P' => self.taxiways(item),
            b'R' if item.name[0] == 0 => self.put(b"ALL APRON POOR"),
            b'R' => {
                self.put(b"APRON ");
                let length = item.name.iter().take_while(|&&byte| byte > 0).count();
                self.put_all(&item.name[..length]);
                self.put(b" POOR");
            }
            _ => {
                self.put(b"RWY ");
                self.runway(item.number, item.side);
                self.of_runway(item);
            }
        }
    }

    fn of_runway(&mut self, item: &Item) {
        match item.letter {
            b'K' => self.put(b" LOOSE SAND"),
            b'L' => self.put(b" CHEMICALLY TREATED"),
            b'O' => self.put(b" ADJ SNOWBANK"),
            b'M' => {
                self.put(b" SNOWBANK ");
                match item.edge {
                    1 => self.put(b"L"),
                    2 => self.put(b"R"),
                    _ => self.put(b"LR"),
                }
                self.two_digits(item.amount.into());
                self.put(b" FM CL");
            }
            _ => {
                self.put(b" REDUCED TO ");
                if item.amount < 1000 {
                    self.depth(item.amount.into());
                } else {
                    self.four_digits(item.amount.into());
                }
            }
        }
    }

    fn taxiways(&mut self, item: &Item) {
        if item.count == 0 {
            return self.put(b"ALL TWY POOR");
        }
        self.put(b"TWY ");
        for name in item.taxiways.chunks_exact(3).take(item.count.into()) {
            match *name {
                [a, 0, _] => self.put(&[a, b' ']),
                [a, b, 0] => self.put(&[a, b, b' ']),
                [a, b, c] => self.put(&[a, b, c, b' ']),
                _ => {}
            }
        }
        if item.letter == b'P' {
            self.put(b"POOR");
        } else {
            self.put(b"SNOWBANK");
        }
    }
}
