//! Counts by refusal number, and the first differences with their bytes.

const SHOWN: usize = 10;
const NUMBERS: usize = 33;

/// What a message can be answered, and what a row's text can.
pub const OF_MESSAGES: [u8; 18] = [0, 1, 2, 3, 4, 5, 6, 7, 8, 9, 10, 11, 12, 24, 25, 26, 27, 28];
pub const OF_ROWS: [u8; 7] = [0, 5, 24, 25, 26, 27, 28];

pub struct Report {
    counts: [usize; NUMBERS],
    differences: usize,
}

impl Report {
    pub fn new() -> Report {
        Report { counts: [0; NUMBERS], differences: 0 }
    }

    pub fn count(&mut self, number: u8) {
        if let Some(count) = self.counts.get_mut(usize::from(number)) {
            *count += 1;
        }
    }

    /// One line of what was counted since the last such line.
    pub fn print_counts(&mut self, what: &str) {
        self.print_counts_of(what, &[]);
    }

    /// As `print_counts`, with some numbers that show even where they were never met.
    pub fn print_counts_of(&mut self, what: &str, shown: &[u8]) {
        let counted = std::mem::replace(&mut self.counts, [0; NUMBERS]);
        let is_shown = |number: usize| shown.iter().any(|&other| usize::from(other) == number);
        let numbers = counted.iter().enumerate().filter(|&(number, &count)| count > 0 || is_shown(number));
        let text: Vec<String> = numbers.map(|(number, count)| format!("{number}: {count}")).collect();
        println!("{what} by number: {}", text.join(", "));
    }

    pub fn differ(&mut self, what: &str, input: &[u8], expected: &str, told: &str) {
        self.differ_on(what, &format!("\"{}\"", input.escape_ascii()), expected, told);
    }

    /// As `differ`, of an input that is readable already.
    pub fn differ_on(&mut self, what: &str, input: &str, expected: &str, told: &str) {
        self.differences += 1;
        if self.differences <= SHOWN {
            println!("{what} differs on {input}\n  expected {expected}\n  told     {told}");
        }
    }

    pub fn differences(&self) -> usize {
        self.differences
    }
}
