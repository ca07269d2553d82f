//! Parsing of fields to trees, with look-ups.

use crate::digest::Digest;
use crate::fields::{Field, Kind};
use sfv::{key_ref, Dictionary, Error, Item, KeyRef, List, ListEntry, Parameters, Parser};

/// Adds the value of a parameter, if there is one.
fn add_param(digest: &mut Digest, params: &Parameters, key: &KeyRef) {
    if let Some(value) = params.get(key) {
        digest.value(value);
    }
}

/// Adds the number of parameters, and the values of some.
fn add_params(digest: &mut Digest, params: &Parameters) {
    digest.number(params.len() as u64);
    if params.is_empty() {
        return;
    }
    add_param(digest, params, key_ref("v"));
    add_param(digest, params, key_ref("ttl"));
    add_param(digest, params, key_ref("created"));
}

/// Adds a bare item with its parameters.
fn add_item(digest: &mut Digest, item: &Item) {
    digest.value(&item.bare_item);
    add_params(digest, &item.params);
}

/// Adds a member.
fn add_member(digest: &mut Digest, member: &ListEntry) {
    match member {
        ListEntry::Item(item) => add_item(digest, item),
        ListEntry::InnerList(list) => {
            for item in &list.items {
                add_item(digest, item);
            }
            add_params(digest, &list.params);
        }
    }
}

/// Adds the member of a key, if there is one.
fn add_entry(digest: &mut Digest, dictionary: &Dictionary, key: &KeyRef) {
    if let Some(member) = dictionary.get(key) {
        add_member(digest, member);
    }
}

/// Adds some members of a dictionary.
fn add_dictionary(digest: &mut Digest, dictionary: &Dictionary) {
    digest.number(dictionary.len() as u64);
    add_entry(digest, dictionary, key_ref("u"));
    add_entry(digest, dictionary, key_ref("max-age"));
    add_entry(digest, dictionary, key_ref("sha-256"));
    add_entry(digest, dictionary, key_ref("sig1"));
}

/// Adds the members of a list.
fn add_list(digest: &mut Digest, list: &List) {
    for member in list {
        add_member(digest, member);
    }
}

/// Parses a list that comes in two lines.
fn two_lists(field: &mut Field) -> Result<List, Error> {
    let first: List = Parser::new(&field.text).parse()?;
    field.change();
    Parser::new(&field.text).parse_list_with_visitor(first)
}

/// Parses a dictionary that comes in two lines.
fn two_dictionaries(field: &mut Field) -> Result<Dictionary, Error> {
    let first: Dictionary = Parser::new(&field.text).parse()?;
    field.change();
    Parser::new(&field.text).parse_dictionary_with_visitor(first)
}

/// Parses a field that comes in two lines, and adds its members.
pub fn parse_lines(field: &mut Field, digest: &mut Digest) -> Result<(), Error> {
    match field.kind {
        Kind::Item => parse(field, digest)?,
        Kind::List => add_list(digest, &two_lists(field)?),
        Kind::Dictionary => add_dictionary(digest, &two_dictionaries(field)?),
    }
    Ok(())
}

/// Parses a field, and adds its members.
pub fn parse(field: &Field, digest: &mut Digest) -> Result<(), Error> {
    let parser = Parser::new(&field.text);
    match field.kind {
        Kind::Item => add_item(digest, &parser.parse()?),
        Kind::List => add_list(digest, &parser.parse()?),
        Kind::Dictionary => add_dictionary(digest, &parser.parse()?),
    }
    Ok(())
}
