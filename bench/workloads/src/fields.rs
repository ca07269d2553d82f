//! Fields that are made from templates.

use crate::random::Random;

/// The type of a field.
#[derive(Clone, Copy)]
pub enum Kind {
    Item,
    List,
    Dictionary,
}

/// A field whose text changes from call to call.
pub struct Field {
    /// The type of the field.
    pub kind: Kind,
    /// The text.
    pub text: Vec<u8>,
    /// The index of eight digits, the lowest one first.
    stamp: usize,
}

impl Field {
    /// Creates a field without text.
    pub fn new(kind: Kind) -> Field {
        Field { kind, text: Vec::new(), stamp: 0 }
    }

    /// Appends text: a random digit for `#`, a letter for `^`, a symbol of Base64 for `$`, and for `&` eight digits
    /// that count the changes, and end with the number of the field.
    pub fn push(&mut self, random: &mut Random, template: &str, number: u32) {
        for byte in template.bytes() {
            match byte {
                b'#' => self.text.push(random.digit()),
                b'^' => self.text.push(random.letter()),
                b'$' => self.text.push(random.symbol()),
                b'&' => self.push_stamp(number),
                other => self.text.push(other),
            }
        }
    }

    /// Appends the eight digits.
    fn push_stamp(&mut self, number: u32) {
        self.stamp = self.text.len();
        self.text.extend_from_slice(b"1000");
        let mut left = number;
        for _ in 0..4 {
            self.text.push(b'0' + (left % 10) as u8);
            left /= 10;
        }
    }

    /// Returns the index after the eight digits.
    pub fn after_stamp(&self) -> usize {
        (self.stamp + 8).min(self.text.len())
    }

    /// Changes the text: adds one to the number of the eight digits.
    pub fn change(&mut self) {
        for digit in self.text.iter_mut().skip(self.stamp) {
            if *digit < b'9' {
                *digit += 1;
                return;
            }
            *digit = b'0';
        }
    }
}
