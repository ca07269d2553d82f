//! Parsing, and writing of the canonical text.

use crate::digest::Digest;
use crate::fields::{Field, Kind};
use sfv::{BareItem, Dictionary, Error, FieldType, Item, List, ListEntry, Parameters, Parser};

/// Returns `true` if RFC 8941 has the value. The crate has no such test.
fn has_value(value: &BareItem) -> bool {
    !matches!(value, BareItem::Date(_) | BareItem::DisplayString(_))
}

/// Returns `true` if RFC 8941 has each value of the parameters.
fn has_params(params: &Parameters) -> bool {
    params.values().all(has_value)
}

/// Returns `true` if RFC 8941 has each value of an item.
fn has_item(item: &Item) -> bool {
    has_value(&item.bare_item) && has_params(&item.params)
}

/// Returns `true` if RFC 8941 has each value of a member.
fn has_member(member: &ListEntry) -> bool {
    match member {
        ListEntry::Item(item) => has_item(item),
        ListEntry::InnerList(list) => list.items.iter().all(has_item) && has_params(&list.params),
    }
}

/// Adds the canonical text of a tree.
fn add_text<T: FieldType>(tree: &T, digest: &mut Digest) {
    let text: Option<String> = tree.serialize().into();
    digest.text(text.as_deref());
}

/// Adds the canonical text of a tree, or that RFC 8941 has none.
fn add_older_text<T: FieldType>(tree: &T, has_text: bool, digest: &mut Digest) {
    if has_text {
        add_text(tree, digest);
    } else {
        digest.number(2);
    }
}

/// Parses a field under RFC 9651, and adds its canonical text.
pub fn rewrite(field: &Field, digest: &mut Digest) -> Result<(), Error> {
    let parser = Parser::new(&field.text);
    match field.kind {
        Kind::Item => add_text::<Item>(&parser.parse()?, digest),
        Kind::List => add_text::<List>(&parser.parse()?, digest),
        Kind::Dictionary => add_text::<Dictionary>(&parser.parse()?, digest),
    }
    Ok(())
}

/// Parses a field under RFC 9651, and adds its canonical text under RFC 8941, or that it has none.
pub fn rewrite_older(field: &Field, digest: &mut Digest) -> Result<(), Error> {
    let parser = Parser::new(&field.text);
    match field.kind {
        Kind::Item => {
            let item: Item = parser.parse()?;
            add_older_text(&item, has_item(&item), digest);
        }
        Kind::List => {
            let list: List = parser.parse()?;
            add_older_text(&list, list.iter().all(has_member), digest);
        }
        Kind::Dictionary => {
            let dictionary: Dictionary = parser.parse()?;
            add_older_text(&dictionary, dictionary.values().all(has_member), digest);
        }
    }
    Ok(())
}
