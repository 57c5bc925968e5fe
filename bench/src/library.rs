//! The proved library through its C interface.

#[path = "../../include/phengaryl.rs"]
mod phengaryl;

pub use phengaryl::same;

/// The refusal; the record comes with it.
pub fn read(message: &[u8]) -> u8 {
    phengaryl::read(message).refusal
}

/// The refusal, and the length of the canonical text.
pub fn canonical(message: &[u8], out: &mut [u8]) -> (u8, usize) {
    let written = phengaryl::rewrite(message, out);
    (written.refusal, written.length)
}
