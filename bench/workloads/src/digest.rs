//! A digest of results.

use sfv::{BareItem, Error, Integer};
use std::fmt::{self, Write};
use std::hash::Hasher;

/// The hasher of the library's maps under the library's seed.
pub struct FoldHasher {
    state: u64,
}

const MULTIPLIER: u64 = 0x9e37_79b9_7f4a_7c15;

/// Multiplies to 128 bits, and joins the halves.
fn folded(left: u64, right: u64) -> u64 {
    let product = u128::from(left) * u128::from(right);
    product as u64 ^ (product >> 64) as u64
}

/// Returns the four bytes at an index as a number.
fn four(bytes: &[u8], at: usize) -> u64 {
    u64::from(u32::from_le_bytes([bytes[at], bytes[at + 1], bytes[at + 2], bytes[at + 3]]))
}

/// Returns the eight bytes at an index as a number.
fn eight(bytes: &[u8], at: usize) -> u64 {
    four(bytes, at) | four(bytes, at + 4) << 32
}

/// Returns at most eight bytes as a number.
fn short(bytes: &[u8]) -> u64 {
    match bytes.len() {
        0 => 0,
        length @ 1..=3 => {
            let [first, middle, last] = [bytes[0], bytes[length / 2], bytes[length - 1]].map(u64::from);
            first | middle << 8 | last << 16
        }
        length => four(bytes, 0) | four(bytes, length - 4) << 32,
    }
}

impl Default for FoldHasher {
    fn default() -> FoldHasher {
        FoldHasher { state: 0x243f_6a88_85a3_08d3 }
    }
}

impl Hasher for FoldHasher {
    fn finish(&self) -> u64 {
        self.state
    }

    fn write(&mut self, bytes: &[u8]) {
        let length = bytes.len();
        if length <= 8 {
            self.state = folded(self.state ^ short(bytes), MULTIPLIER ^ (2 * length as u64));
            return;
        }
        let mut state = self.state.wrapping_add(length as u64);
        let mut at = 0;
        while length - at > 16 {
            state = folded(eight(bytes, at) ^ state, eight(bytes, at + 8) ^ MULTIPLIER);
            at += 16;
        }
        let last = eight(bytes, length.saturating_sub(16));
        self.state = folded(last ^ state, eight(bytes, length - 8) ^ MULTIPLIER);
    }
}

/// A digest of results, in their order.
#[derive(Default)]
pub struct Digest {
    state: FoldHasher,
}

impl Digest {
    /// Creates a digest of no results.
    pub fn new() -> Digest {
        Digest::default()
    }

    /// Adds a number.
    pub fn number(&mut self, number: u64) {
        self.bytes(&number.to_le_bytes());
    }

    /// Adds bytes.
    pub fn bytes(&mut self, bytes: &[u8]) {
        self.state.write(bytes);
    }

    /// Adds an integer.
    pub fn integer(&mut self, integer: Integer) {
        self.bytes(&i64::from(integer).to_le_bytes());
    }

    /// Adds a bare item.
    pub fn value(&mut self, value: &BareItem) {
        match value {
            BareItem::Decimal(decimal) => self.integer(decimal.as_integer_scaled_1000()),
            BareItem::Integer(integer) => self.integer(*integer),
            BareItem::String(text) => self.bytes(text.as_str().as_bytes()),
            BareItem::ByteSequence(bytes) => self.bytes(bytes),
            BareItem::Boolean(value) => self.number(u64::from(*value)),
            BareItem::Token(token) => self.bytes(token.as_str().as_bytes()),
            BareItem::Date(date) => self.integer(date.unix_seconds()),
            BareItem::DisplayString(text) => self.bytes(text.as_bytes()),
        }
    }

    /// Adds a text, or that there is none.
    pub fn text(&mut self, text: Option<&str>) {
        match text {
            Some(text) => self.bytes(text.as_bytes()),
            None => self.number(0),
        }
    }

    /// Adds the error of a text: its message, and its index as the library reports it.
    pub fn error(&mut self, error: &Error, text: &[u8]) {
        let mut message = Message { digest: self, is_of_bytes: false };
        // The alternate form is the message without the index. The crate formats it as one part.
        write!(message, "{error:#}").expect("a digest takes each part");
        let is_of_bytes = message.is_of_bytes;
        let index = error.index().map(|index| if is_of_bytes { after_padding(text, index) } else { index });
        self.number(index.map_or(u64::MAX, |index| index as u64));
    }

    /// Returns the digest.
    pub fn finish(&self) -> u64 {
        self.state.finish()
    }
}

/// Returns the library's index of a malformed byte sequence. If the Rust crate's index is that of padding which could
/// end the byte sequence, the library's index is after the padding. Otherwise they are equal.
fn after_padding(text: &[u8], index: usize) -> usize {
    let symbols = text[..index].iter().rev().take_while(|byte| **byte != b':').count();
    let allowed = match symbols % 4 {
        2 => 2,
        3 => 1,
        _ => 0,
    };
    index + text[index..].iter().take(allowed).take_while(|byte| **byte == b'=').count()
}

/// A message of an error, each part of which is added to a digest.
struct Message<'d> {
    digest: &'d mut Digest,
    /// The last part is the message of a malformed byte sequence.
    is_of_bytes: bool,
}

impl Write for Message<'_> {
    fn write_str(&mut self, part: &str) -> fmt::Result {
        self.digest.bytes(part.as_bytes());
        self.is_of_bytes = part == "invalid byte sequence";
        Ok(())
    }
}
