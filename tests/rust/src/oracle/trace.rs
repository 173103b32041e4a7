//! Packed traces: reading and writing with their refusals
//! (document 01, "The questions", Trace).

use super::letter::{Header, Letter};
use super::refusal::Refusal;

/// "The whole-trace engine takes at most 1,024 letters."
pub const ENGINE_LETTERS: usize = 1024;

/// A header and letters that are well formed under it.
#[derive(Clone, Debug, PartialEq, Eq)]
pub struct Trace {
    /// The counts and arities.
    pub header: Header,
    /// The letters in order.
    pub letters: Vec<Letter>,
}

impl Trace {
    /// The packed bytes of a well-formed trace.
    pub fn pack(&self) -> Vec<u8> {
        let words = self.letters.iter().map(Letter::pack);
        std::iter::once(self.header.pack()).chain(words).flat_map(u16::to_be_bytes).collect()
    }
}

/// Reads a packed trace: questions 1, 2, 3, then 5 if there is a limit on the
/// number of letters, then 4 letter by letter.
pub fn read_trace(bytes: &[u8], limit: Option<usize>) -> Result<Trace, Refusal> {
    if bytes.len() < 2 {
        return Err(Refusal::plain(1));
    }
    if !bytes.len().is_multiple_of(2) {
        return Err(Refusal::plain(2));
    }
    let word_at = |index: usize| u16::from_be_bytes([bytes[2 * index], bytes[2 * index + 1]]);
    let header = Header::unpack(word_at(0)).ok_or(Refusal::plain(3))?;
    let count = bytes.len() / 2 - 1;
    if limit.is_some_and(|most| count > most) {
        return Err(Refusal::plain(5));
    }
    let mut letters = Vec::with_capacity(count);
    for number in 1..=count {
        let letter = Letter::unpack(word_at(number), &header).ok_or(Refusal::at(4, number))?;
        letters.push(letter);
    }
    Ok(Trace { header, letters })
}

/// Writes a trace: "The writer puts 3 to its header, 4 to each letter, then 6 to
/// its output."
pub fn write_trace(header: &Header, letters: &[Letter], room: usize) -> Result<Vec<u8>, Refusal> {
    if !header.is_well_formed() {
        return Err(Refusal::plain(3));
    }
    for (index, letter) in letters.iter().enumerate() {
        if !letter.is_well_formed(header) {
            return Err(Refusal::at(4, index + 1));
        }
    }
    let bytes = Trace { header: *header, letters: letters.to_vec() }.pack();
    if bytes.len() > room { Err(Refusal::plain(6)) } else { Ok(bytes) }
}
