//! The comparison of the proved library with the second reader, on seeded inputs.
mod board;
mod notice;
mod radio;
mod restore;
mod surface;

use std::fmt::Debug;

use crate::edges;
use crate::generate::Rng;
use crate::library::Written;
use crate::report::{Report, OF_MESSAGES, OF_ROWS};

/// What a lent byte is before a call, so that a touched one shows.
const UNTOUCHED: u8 = 0xa5;

/// Where the inputs come from, and where differences go.
struct Run {
    rng: Rng,
    report: Report,
}

impl Run {
    /// Room for a text: mostly more than enough, at times exactly enough, one byte less, or any less.
    fn room(&mut self, length: usize) -> Vec<u8> {
        let room = match self.rng.below(8) {
            0 => length,
            1 => length.saturating_sub(1),
            2 => self.rng.below(length + 1),
            _ => length + 16,
        };
        vec![UNTOUCHED; room]
    }

    fn agree<T: Debug + PartialEq>(&mut self, what: &str, input: impl Debug, expected: T, told: T) {
        if told != expected {
            self.report.differ_on(what, &format!("{input:?}"), &format!("{expected:?}"), &format!("{told:?}"));
        }
    }

    /// A writer fills exactly the text, or refuses and touches nothing; 14 is its answer where the room is too short.
    fn writes(
        &mut self,
        what: &str,
        input: impl Debug,
        expected: Result<&[u8], u8>,
        writer: impl FnOnce(&mut [u8]) -> Written,
    ) {
        let mut buffer = self.room(expected.map_or(64, <[u8]>::len));
        self.writes_into(&mut buffer, what, input, expected, writer);
    }

    /// As `writes`, into a buffer that is there. The refusal that is expected.
    fn writes_into(
        &mut self,
        buffer: &mut [u8],
        what: &str,
        input: impl Debug,
        expected: Result<&[u8], u8>,
        writer: impl FnOnce(&mut [u8]) -> Written,
    ) -> u8 {
        let expected = match expected {
            Ok(text) if text.len() <= buffer.len() => Left::new((0, text.len(), filled(text, buffer.len()))),
            other => Left::new((other.err().unwrap_or(14), 0, vec![UNTOUCHED; buffer.len()])),
        };
        let Left(number, ..) = expected;
        let Written { refusal, length } = writer(buffer);
        self.agree(what, input, expected, Left::new((refusal, length, buffer.to_vec())));
        number
    }

    /// A printer puts a text as far as there is room, and answers its whole length.
    fn prints(&mut self, what: &str, input: &[u8], text: &[u8], printer: impl FnOnce(&mut [u8]) -> usize) {
        let mut buffer = self.room(text.len());
        let expected = (0, text.len(), filled(text, buffer.len()));
        let length = printer(&mut buffer);
        self.agree(what, Shown(input), Left::new(expected), Left::new((0, length, buffer)));
    }
}

/// Bytes that are shown escaped.
#[derive(PartialEq)]
struct Shown<B>(B);

impl<B: AsRef<[u8]>> Debug for Shown<B> {
    fn fmt(&self, out: &mut std::fmt::Formatter) -> std::fmt::Result {
        write!(out, "\"{}\"", self.0.as_ref().escape_ascii())
    }
}

/// What a call left: its refusal, the length it told, and the buffer.
#[derive(Debug, PartialEq)]
struct Left(u8, usize, Shown<Vec<u8>>);

impl Left {
    fn new((refusal, length, buffer): (u8, usize, Vec<u8>)) -> Left {
        Left(refusal, length, Shown(buffer))
    }
}

/// A buffer of `room` bytes after `text` was put into it as far as it went.
fn filled(text: &[u8], room: usize) -> Vec<u8> {
    let mut buffer = vec![UNTOUCHED; room];
    let count = room.min(text.len());
    buffer[..count].copy_from_slice(&text[..count]);
    buffer
}

/// Whether nothing differed.
pub fn run(count: usize, seed: u64) -> bool {
    let mut run = Run { rng: Rng::new(seed), report: Report::new() };
    let tenth = count / 10;
    edges::by_hand().iter().for_each(|example| run.message_by_hand(example));
    run.report.print_counts_of("messages by hand", &OF_MESSAGES);
    edges::rows_by_hand().iter().for_each(|example| run.row_by_hand(example));
    run.report.print_counts_of("rows by hand", &OF_ROWS);
    edges::row_pairs_by_hand().iter().for_each(|pair| run.row_pair_by_hand(pair));
    run.report.print_counts("pairs of rows by hand");
    edges::nights_by_hand().iter().for_each(|night| run.night_by_hand(night));
    run.report.print_counts("reports by hand");
    edges::radio_lists_by_hand().iter().for_each(|listed| run.radio_list_by_hand(listed));
    run.report.print_counts("lists for the radio by hand");
    edges::radio_records_by_hand().iter().for_each(|received| run.radio_record_by_hand(received));
    run.report.print_counts("radio records by hand");
    edges::replaced_by_hand().iter().for_each(|replaced| run.replaced_by_hand(replaced));
    run.report.print_counts("boards restored by hand");
    (0..count).for_each(|_| run.message());
    run.report.print_counts_of("messages", &OF_MESSAGES);
    let equal = (0..tenth).filter(|_| run.pair()).count();
    println!("pairs that tell the same: {equal}");
    (0..tenth).for_each(|_| run.desk_input());
    (0..tenth).for_each(|_| run.board_notice());
    run.report.print_counts("board notices");
    (0..tenth).for_each(|_| run.live_board());
    run.report.print_counts("damaged boards, reported to and written,");
    (0..count).for_each(|_| run.observation());
    run.report.print_counts("observations");
    (0..count).for_each(|_| run.row());
    run.report.print_counts("rows as numbers");
    (0..count).for_each(|_| run.row_line());
    run.report.print_counts_of("rows as text", &OF_ROWS);
    (0..count).for_each(|_| run.damaged_record());
    run.report.print_counts("damaged records");
    let due = (0..count).filter(|_| run.row_pair()).count();
    run.report.print_counts("pairs of rows");
    println!("pairs of rows for which a notice is due: {due}");
    (0..count).for_each(|_| run.radio_list());
    run.report.print_counts("lists for the radio");
    (0..count).for_each(|_| run.radio_record());
    run.report.print_counts("radio records");
    (0..tenth).for_each(|_| run.cut_radio_record());
    run.report.print_counts("radio records cut at every byte");
    (0..tenth).for_each(|_| run.restored_board());
    run.report.print_counts("boards to be restored, without a report and with some,");
    println!(
        "{count} messages, {tenth} pairs, {tenth} desk inputs, {tenth} board notices, {tenth} live boards, \
         {count} observations, {count} rows, {count} pairs of rows, {count} damaged records, \
         {count} lists for the radio, {count} radio records, {tenth} radio records cut at every byte, \
         {tenth} boards restored, {} differences",
        run.report.differences()
    );
    run.report.differences() == 0
}
