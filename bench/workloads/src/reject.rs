//! Fields that are rejected.

use crate::digest::Digest;
use crate::fields::{Field, Kind};
use crate::random::Random;
use sfv::visitor::Ignored;
use sfv::{Dictionary, Error, Item, List, Parser};

/// Puts a byte at an index, or appends it.
fn put(field: &mut Field, index: usize, byte: u8) {
    match field.text.get_mut(index) {
        Some(place) => *place = byte,
        None => field.text.push(byte),
    }
}

/// Spoils a field after its changing digits: right after them, in the middle of the rest, at its last byte, or after its
/// end. Each such field is rejected, and changes before its error.
pub fn spoil(random: &mut Random, field: &mut Field) {
    let after = field.after_stamp();
    let length = field.text.len();
    let index = match random.next() % 4 {
        0 => after,
        1 => after / 2 + length / 2,
        2 => length - 1,
        _ => length,
    };
    let index = index.max(after).min(length);
    let byte = match random.next() % 4 {
        0 => b'}',
        1 => 0x7f,
        2 => b'=',
        _ => 0xc3,
    };
    put(field, index, byte);
    if error_without_tree(field).is_none() {
        // A text may contain the byte, and no part of a field contains this one.
        put(field, index, 0x7f);
    }
}

/// Adds the error of a field, or that there is none.
fn add(field: &Field, error: Option<Error>, digest: &mut Digest) {
    match error {
        Some(error) => digest.error(&error, &field.text),
        None => digest.number(0),
    }
}

/// Parses a field to a tree, and adds its error.
pub fn reject(field: &Field, digest: &mut Digest) {
    let parser = Parser::new(&field.text);
    let error = match field.kind {
        Kind::Item => parser.parse::<Item>().err(),
        Kind::List => parser.parse::<List>().err(),
        Kind::Dictionary => parser.parse::<Dictionary>().err(),
    };
    add(field, error, digest);
}

/// Returns the error of a field that is parsed without a tree.
fn error_without_tree(field: &Field) -> Option<Error> {
    let parser = Parser::new(&field.text);
    let checked = match field.kind {
        Kind::Item => parser.parse_item_with_visitor(Ignored),
        Kind::List => parser.parse_list_with_visitor(Ignored),
        Kind::Dictionary => parser.parse_dictionary_with_visitor(Ignored),
    };
    checked.err()
}

/// Checks a field, and adds its error.
pub fn check(field: &Field, digest: &mut Digest) {
    add(field, error_without_tree(field), digest);
}
