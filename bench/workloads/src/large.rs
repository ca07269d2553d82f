//! Large fields.

use crate::digest::FoldHasher;
use crate::fields::{Field, Kind};
use crate::random::Random;
use sfv::KeyRef;
use std::hash::{BuildHasher, BuildHasherDefault};

/// The number of kinds of large fields.
pub const KINDS: u64 = 15;

/// The length at which a field is large enough.
const LENGTH: usize = 200_000;

/// The beginning of a text, the part that is repeated, and the end.
type Parts = (&'static str, &'static str, &'static str);

/// Returns the parts of a list.
fn list_parts(kind: u64) -> Parts {
    match kind {
        0 => ("a&", ", t####;q=0.#", ""),
        1 => ("(a &)", ", (^^^^#;x ## \"^^^\");y=#", ""),
        2 => ("&", ", ######", ""),
        3 => ("&.5", ", ####.###", ""),
        _ => ("(t&", " ^^^^##", ")"),
    }
}

/// Returns the parts of an item.
fn item_parts(kind: u64) -> Parts {
    match kind {
        5 => ("\"&", "^^^^^^^\\\"", "\""),
        6 => ("\"&", "\\\\", "\""),
        7 => ("%\"&", "^^^^^^^^%c3%bc", "\""),
        8 => ("%\"&", "%c3%bc", "\""),
        9 => (":&", "$$$$", ":"),
        10 => ("1;a=&", ";^^^^^^#=##", ""),
        _ => ("\"&", "^^^^^^^^^^^^^^^^", "\""),
    }
}

/// Returns the parts of a dictionary.
fn dictionary_parts(kind: u64) -> Parts {
    match kind {
        12 => ("a=&", ", ^^^^^^#=##", ""),
        _ => ("a=&", ", a=####", ""),
    }
}

/// Returns a key of six letters that the number determines.
fn letters(number: u64) -> [u8; 6] {
    let mut left = number;
    let mut letters = [b'a'; 6];
    for letter in letters.iter_mut().rev() {
        *letter = b'a' + (left % 26) as u8;
        left /= 26;
    }
    letters
}

/// Appends members whose keys begin their search at one place in a map under the library's seed. In the maps of the
/// Rust crate, whose seed is random, they don't.
fn push_colliding(random: &mut Random, field: &mut Field) {
    let start = random.next();
    let seed = BuildHasherDefault::<FoldHasher>::default();
    let mut wanted = None;
    for number in 0..400_000 {
        let letters = letters(start.wrapping_add(number));
        let Ok(key) = KeyRef::from_bytes(&letters) else {
            continue;
        };
        let hash = seed.hash_one(key);
        let place = (hash ^ (hash >> 32)) & 0xff00_0060;
        if *wanted.get_or_insert(place) == place {
            field.text.extend_from_slice(b", ");
            field.text.extend_from_slice(&letters);
        }
    }
}

/// Returns the large field of a kind.
pub fn large_field(random: &mut Random, kind: u64) -> Field {
    let (field_kind, (open, part, close)) = match kind {
        0..=4 => (Kind::List, list_parts(kind)),
        5..=11 => (Kind::Item, item_parts(kind)),
        _ => (Kind::Dictionary, dictionary_parts(kind)),
    };
    let mut field = Field::new(field_kind);
    field.push(random, open, 1);
    if kind == 14 {
        push_colliding(random, &mut field);
        return field;
    }
    while field.text.len() < LENGTH {
        field.push(random, part, 1);
    }
    field.push(random, close, 1);
    field
}
