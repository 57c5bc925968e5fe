//! What is measured: three works, done by the proved library, the tuned reader, or a loop that only touches the bytes.
use std::mem::ManuallyDrop;

use compare::reader;

use crate::fast;
use crate::inputs::Input;
#[cfg(feature = "library")]
use crate::library;

#[derive(Clone, Copy, PartialEq, Eq)]
pub enum Doer {
    #[cfg(feature = "library")]
    Library,
    Fast,
    Loop,
}

#[derive(Clone, Copy, PartialEq, Eq)]
pub enum Work {
    Read,
    /// Reading and writing again.
    Canonical,
    /// Sameness of two typings.
    Same,
}

pub const DOERS: &[Doer] = &[
    #[cfg(feature = "library")]
    Doer::Library,
    Doer::Fast,
    Doer::Loop,
];

pub const WORKS: [Work; 3] = [Work::Read, Work::Canonical, Work::Same];

impl Doer {
    pub fn name(self) -> &'static str {
        match self {
            #[cfg(feature = "library")]
            Doer::Library => "library",
            Doer::Fast => "fast",
            Doer::Loop => "loop",
        }
    }
}

impl Work {
    pub fn name(self) -> &'static str {
        match self {
            Work::Read => "read",
            Work::Canonical => "canonical",
            Work::Same => "same",
        }
    }

    /// How many bytes of the input it is given.
    pub fn bytes(self, input: &Input) -> usize {
        match self {
            Work::Same => input.message.len() + input.other.len(),
            _ => input.message.len(),
        }
    }
}

/// What the works are done in; made once, so that its making is not measured.
pub struct Room {
    record: fast::Record,
    text: [u8; 4096],
}

impl Room {
    pub fn new() -> Box<Room> {
        Box::new(Room { record: fast::Record::BLANK, text: [0; 4096] })
    }
}

/// Each byte is loaded once, alone: a volatile load is neither left out nor joined with others. Eight go to a turn of the
/// loop, so that the turns and where the loop happens to be placed matter little.
#[inline(never)]
fn touch(bytes: &[u8]) -> u64 {
    let load = |byte: &u8| u64::from(unsafe { std::ptr::read_volatile(byte) });
    let eights = bytes.chunks_exact(8);
    let rest: u64 = eights.remainder().iter().map(load).sum();
    eights.map(|eight| eight.iter().map(load).sum::<u64>()).sum::<u64>() + rest
}

/// The value itself, though the optimizer cannot know that: a volatile load may give anything.
#[inline(always)]
fn hidden<T>(value: T) -> T {
    let value = ManuallyDrop::new(value);
    ManuallyDrop::into_inner(unsafe { std::ptr::read_volatile(&value) })
}

/// Does a work `times` over. Neither the input nor the answer is known to the optimizer.
pub fn repeat(doer: Doer, work: Work, input: &Input, room: &mut Room, times: usize) {
    let Room { record, text } = room;
    let message = || hidden(&input.message[..]);
    let other = || hidden(&input.other[..]);
    match (doer, work) {
        #[cfg(feature = "library")]
        (Doer::Library, Work::Read) => over(times, || library::read(message())),
        #[cfg(feature = "library")]
        (Doer::Library, Work::Canonical) => over(times, || library::canonical(message(), hidden(&mut text[..]))),
        #[cfg(feature = "library")]
        (Doer::Library, Work::Same) => over(times, || library::same(message(), other())),
        (Doer::Fast, Work::Read) => over(times, || fast::read(message(), hidden(record))),
        (Doer::Fast, Work::Canonical) => over(times, || fast::canonical(message(), hidden(&mut text[..]))),
        (Doer::Fast, Work::Same) => over(times, || fast::same(message(), other())),
        (Doer::Loop, Work::Read | Work::Canonical) => over(times, || touch(message())),
        (Doer::Loop, Work::Same) => over(times, || touch(message()) + touch(other())),
    }
}

fn over<T>(times: usize, mut work: impl FnMut() -> T) {
    for _ in 0..times {
        hidden(work());
    }
}

/// What a doer answers to an input: the refusal, the refusal and text of writing again, and sameness. The loop answers
/// nothing.
fn answers(doer: Doer, Input { message, other, .. }: &Input) -> Option<(u8, (u8, Vec<u8>), bool)> {
    let mut out = vec![0; 4096];
    let (read, (refusal, length), same) = match doer {
        #[cfg(feature = "library")]
        Doer::Library => (library::read(message), library::canonical(message, &mut out), library::same(message, other)),
        Doer::Fast => {
            let read = fast::read(message, &mut fast::Record::BLANK.clone());
            (read, fast::canonical(message, &mut out), fast::same(message, other))
        }
        Doer::Loop => return None,
    };
    out.truncate(length);
    Some((read, (refusal, out), same))
}

/// Whether every doer gives the second reader's answers: only then are its times worth something.
pub fn agrees(input: &Input) -> bool {
    let text = reader::read(&input.message).map(|record| reader::write(&record)).unwrap_or_default();
    let expected = (input.refusal, (input.refusal, text), input.refusal == 0);
    DOERS.iter().filter_map(|&doer| answers(doer, input)).all(|answers| answers == expected)
}
