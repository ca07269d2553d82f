//! The jobs of crates/sfv_signature_bench by hand over the Rust crate: `bases JOB ROUNDS`.

mod heads;

use heads::{ROW, ROW_LIST, THIRTY, THIRTY_LIST};
use sfv::{BareItem, InnerList, Item, ItemSerializer, List, ListEntry, ListSerializer, Parser};
use std::collections::HashMap;

const DERIVED: &[(&str, &str)] = &[("@method", "POST"), ("@authority", "example.com"), ("@path", "/foo")];

type Fields = HashMap<String, Vec<Vec<u8>>>;

/// Returns the lines by name.
fn fields_of(head: &[(&str, &str)]) -> Fields {
    let mut fields = Fields::new();
    for (name, value) in head {
        let lines = fields.entry(name.to_ascii_lowercase()).or_default();
        lines.push(value.as_bytes().to_vec());
    }
    fields
}

fn is_blank(byte: &u8) -> bool {
    *byte == b' ' || *byte == b'\t'
}

fn trimmed(line: &[u8]) -> &[u8] {
    let start = line.iter().position(|byte| !is_blank(byte)).unwrap_or(line.len());
    let end = line.iter().rposition(|byte| !is_blank(byte)).map_or(start, |last| last + 1);
    &line[start..end]
}

/// Appends the value of a component, or returns `None` if there is none.
fn push_value(fields: &Fields, name: &str, base: &mut String) -> Option<()> {
    let start = base.len();
    if name.starts_with('@') {
        base.push_str(DERIVED.iter().find(|row| row.0 == name)?.1);
    } else {
        for (index, line) in fields.get(name)?.iter().enumerate() {
            if index > 0 {
                base.push_str(", ");
            }
            base.push_str(std::str::from_utf8(trimmed(line)).ok()?);
        }
    }
    let value = &base[start..];
    (value.is_ascii() && !value.contains(['\n', '\r'])).then_some(())
}

/// Returns the base. The identifiers have no parameters.
fn base_of(list: &InnerList, fields: &Fields) -> Option<String> {
    let mut base = String::with_capacity(128 * (list.items.len() + 1));
    for (index, item) in list.items.iter().enumerate() {
        let BareItem::String(name) = &item.bare_item else { return None };
        if !item.params.is_empty() || list.items[..index].iter().any(|other: &Item| other == item) {
            return None;
        }
        let _ = ItemSerializer::with_buffer(&mut base).bare_item(&item.bare_item).parameters(&item.params).finish();
        base.push_str(": ");
        push_value(fields, name.as_str(), &mut base)?;
        base.push('\n');
    }
    base.push_str("\"@signature-params\": ");
    let mut members = ListSerializer::with_buffer(&mut base);
    let mut items = members.inner_list();
    for item in &list.items {
        let _ = items.bare_item(&item.bare_item).parameters(&item.params).finish();
    }
    let _ = items.finish().parameters(&list.params).finish();
    members.finish()?;
    Some(base)
}

fn main() {
    let args: Vec<String> = std::env::args().collect();
    let (head, text) = if args[1] == "row" { (ROW, ROW_LIST) } else { (THIRTY, THIRTY_LIST) };
    let rounds: u32 = args[2].parse().expect("rounds");
    let fields = fields_of(head);
    let mut members: List = Parser::new(text).parse().expect("list");
    let Some(ListEntry::InnerList(list)) = members.pop() else { panic!("inner list") };
    let mut base = String::new();
    for _ in 0..rounds {
        base = base_of(&list, &fields).expect("base");
    }
    println!("{base}");
}
