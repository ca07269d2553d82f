//! Random fields. Most follow the grammar, and then some of their bytes are changed.

/// Pseudo-random numbers (xorshift64*). A seed has the same numbers each time.
pub struct Random(u64);

impl Random {
    pub fn new(seed: u64) -> Random {
        Random(seed.wrapping_mul(0x9e37_79b9_7f4a_7c15) | 1)
    }

    pub fn next(&mut self) -> u64 {
        self.0 ^= self.0 >> 12;
        self.0 ^= self.0 << 25;
        self.0 ^= self.0 >> 27;
        self.0.wrapping_mul(0x2545_f491_4f6c_dd1d)
    }

    fn below(&mut self, limit: usize) -> usize {
        ((self.next() >> 32) as usize) % limit
    }

    pub fn one_of<T: Copy>(&mut self, values: &[T]) -> T {
        values[self.below(values.len())]
    }
}

/// Pieces of fields, valid and malformed.
const PIECES: &[&str] = &[
    "a", "b", "*", "a1", "key-_.*", "A", "0", "7", "-", "-0", "007", "1.5", "1.50", "123456789012345", "999999999999.999",
    "1234567890123456", ".", "\"", "\"a\"", "\"\\\"\"", "\"\\\\ \"", "\\", "%\"", "%\"a%c3%bc\"", "%\"%ff\"", "%2", "%", ":",
    ":YQ==:", ":YWI=:", ":YWJj:", ":YQ:", "::", ":Y:", "@", "@1", "@-5", "@1.5", "?1", "?0", "?", "(", ")", "()", "(a b)",
    "( 1  2 );x", ";", ";a", "; b=1", "=", ",", ", ", " ,\t", " ", "\t", "\u{e9}", "\u{0}", "\n", "~", "#", "/",
];

const KEYS: &[&str] = &["a", "b", "c", "aa", "*k", "x-1", "longer_key.of-some*letters", "u", "i"];

const VALUES: &[&str] = &[
    "1", "-42", "0", "999999999999999", "-0", "1.0", "-0.125", "3.14", "tok", "*t/k:e~n", "\"\"", "\"text\"", "\"a\\\"b\\\\c\"",
    "?0", "?1", "::", ":aGVsbG8=:", ":/+A=:", "@0", "@1659578233", "%\"\"", "%\"plain\"", "%\"f%c3%bc%20\"",
];

fn push_parameters(random: &mut Random, text: &mut String) {
    for _ in 0..random.one_of(&[0, 0, 0, 1, 2, 5]) {
        text.push_str(random.one_of(&[";", "; "]));
        text.push_str(random.one_of(KEYS));
        if random.below(3) > 0 {
            text.push('=');
            text.push_str(random.one_of(VALUES));
        }
    }
}

fn push_item(random: &mut Random, text: &mut String) {
    text.push_str(random.one_of(VALUES));
    push_parameters(random, text);
}

fn push_member(random: &mut Random, text: &mut String) {
    if random.below(3) > 0 {
        return push_item(random, text);
    }
    text.push('(');
    for number in 0..random.below(4) {
        text.push_str(if number > 0 { " " } else { random.one_of(&["", " "]) });
        push_item(random, text);
    }
    text.push_str(random.one_of(&[")", " )"]));
    push_parameters(random, text);
}

fn push_members(random: &mut Random, text: &mut String, keyed: bool) {
    for number in 0..random.below(5) {
        if number > 0 {
            text.push_str(random.one_of(&[",", ", ", " ,\t"]));
        }
        if keyed {
            text.push_str(random.one_of(KEYS));
            if random.below(4) == 0 {
                push_parameters(random, text);
                continue;
            }
            text.push('=');
        }
        push_member(random, text);
    }
}

/// Changes a byte, removes some, or inserts a piece.
fn change(random: &mut Random, text: &mut Vec<u8>) {
    let at = random.below(text.len() + 1);
    match random.below(4) {
        0 if at < text.len() => text[at] = random.next() as u8,
        1 if at < text.len() => text[at] = b' ' + random.below(95) as u8,
        2 if at < text.len() => {
            let end = text.len().min(at + 1 + random.below(3));
            text.drain(at..end);
        }
        _ => {
            let piece = random.one_of(PIECES).bytes();
            text.splice(at..at, piece);
        }
    }
}

/// A field of this type, or a damaged one.
pub fn field(random: &mut Random, kind: u32) -> Vec<u8> {
    let mut text = String::new();
    if random.below(4) == 0 {
        for _ in 0..random.below(12) {
            text.push_str(random.one_of(PIECES));
        }
        return text.into_bytes();
    }
    text.push_str(random.one_of(&["", "", " ", "  "]));
    match kind {
        sfv_c::ITEM => push_item(random, &mut text),
        sfv_c::LIST => push_members(random, &mut text, false),
        _ => push_members(random, &mut text, true),
    }
    text.push_str(random.one_of(&["", "", " "]));
    let mut text = text.into_bytes();
    for _ in 0..random.one_of(&[0, 0, 1, 1, 2, 4]) {
        change(random, &mut text);
    }
    text
}
