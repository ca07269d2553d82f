//! The Rust crate.

use crate::Outcome;
use sfv::{Dictionary, Error, FieldType, Item, List, Parser, Version};
use sfv_c::{ITEM, LIST, RFC8941};

/// The canonical text by the Rust crate.
pub fn read(field: u32, version: u32, input: &[u8]) -> Option<Outcome> {
    let version = if version == RFC8941 { Version::Rfc8941 } else { Version::Rfc9651 };
    let parser = Parser::new(input).with_version(version);
    let text = match field {
        ITEM => parser.parse::<Item>().map(|item| Some(item.serialize())),
        LIST => parser.parse::<List>().map(|list| list.serialize()),
        _ => parser.parse::<Dictionary>().map(|dictionary| dictionary.serialize()),
    };
    Some(match text {
        Ok(Some(text)) => Outcome::Text(text.into_bytes()),
        Ok(None) => Outcome::Nothing,
        Err(error) => rejected(&error),
    })
}

/// An error's text is `MESSAGE at index N`.
fn rejected(error: &Error) -> Outcome {
    let text = error.to_string();
    let (message, index) = text.rsplit_once(" at index ").unwrap_or((&text, ""));
    let index = if message == "invalid byte sequence" { None } else { index.parse().ok() };
    Outcome::Rejected { message: message.to_string(), index }
}
