//! Writing of fields: call by call, and as lists of calls.

use crate::digest::Digest;
use crate::random::Random;
use sfv::{
    key_ref, string_ref, token_ref, Date, Decimal, DictSerializer, Error, InnerListSerializer, Integer, ItemSerializer,
    KeyRef, ListSerializer, RefBareItem, StringRef, TokenRef,
};

/// The texts and bytes that a response has at hand.
pub struct Parts<'a> {
    path: &'a StringRef,
    word: &'a TokenRef,
    bytes: &'a [u8],
}

/// Returns the parts with these texts.
pub fn parts_of<'a>(path: &'a [u8], word: &'a [u8], bytes: &'a [u8]) -> Result<Parts<'a>, Error> {
    let path = StringRef::from_bytes(path)?;
    let word = TokenRef::from_bytes(word)?;
    Ok(Parts { path, word, bytes })
}

/// Returns a random integer.
fn number(random: &mut Random) -> Integer {
    Integer::from(random.number())
}

/// Returns a random decimal.
fn decimal(random: &mut Random) -> Decimal {
    Decimal::from_integer_scaled_1000(number(random))
}

/// Appends a Cache-Status field.
fn cache_status(text: &mut String, parts: &Parts<'_>, random: &mut Random) {
    let mut list = ListSerializer::with_buffer(text);
    list.bare_item(token_ref("OriginCache")).parameter(key_ref("hit"), true).parameter(key_ref("ttl"), number(random));
    list.bare_item(string_ref("CDN Company Here"))
        .parameter(key_ref("fwd"), parts.word)
        .parameter(key_ref("fwd-status"), 304u16)
        .parameter(key_ref("key"), parts.path);
}

/// Writes the items of an inner list.
fn components(inner: &mut InnerListSerializer<'_>) {
    inner.bare_item(string_ref("@method"));
    inner.bare_item(string_ref("@authority"));
    inner.bare_item(string_ref("content-digest"));
}

/// Appends a member of a Signature-Input field.
fn signature_input(text: &mut String, parts: &Parts<'_>, random: &mut Random) {
    let mut dictionary = DictSerializer::with_buffer(text);
    let mut inner = dictionary.inner_list(key_ref("sig1"));
    components(&mut inner);
    inner.finish().parameter(key_ref("created"), number(random)).parameter(key_ref("keyid"), parts.path);
}

/// Appends a dictionary of numbers, a digest and a date.
fn limits(text: &mut String, parts: &Parts<'_>, random: &mut Random) {
    let date = Date::from_unix_seconds(number(random));
    let mut dictionary = DictSerializer::with_buffer(text);
    dictionary.bare_item(key_ref("max-age"), number(random));
    dictionary.bare_item(key_ref("public"), true);
    dictionary.bare_item(key_ref("q"), decimal(random));
    dictionary.bare_item(key_ref("sha-256"), parts.bytes);
    dictionary.bare_item(key_ref("at"), date);
}

/// Appends an item with a parameter.
fn item(text: &mut String, parts: &Parts<'_>, random: &mut Random) {
    ItemSerializer::with_buffer(text).bare_item(decimal(random)).parameter(key_ref("type"), parts.word);
}

/// Appends a list of many short members.
fn hints(text: &mut String, parts: &Parts<'_>, random: &mut Random) {
    let mut list = ListSerializer::with_buffer(text);
    for _ in 0..8 {
        list.bare_item(parts.word);
        list.bare_item(number(random));
    }
}

/// The calls of an item with parameters. The crate has no lists of calls.
struct Calls<'a> {
    value: RefBareItem<'a>,
    params: Vec<(&'static KeyRef, RefBareItem<'a>)>,
}

/// Returns the calls of an item with a parameter.
fn calls<'a>(parts: &Parts<'a>, random: &mut Random) -> Calls<'a> {
    Calls { value: RefBareItem::String(parts.path), params: vec![(key_ref("v"), number(random).into())] }
}

/// Appends a list by a list of calls.
fn list_script(text: &mut String, parts: &Parts<'_>, random: &mut Random) {
    let mut members = Vec::new();
    for _ in 0..4 {
        members.push(calls(parts, random));
    }
    let mut list = ListSerializer::with_buffer(text);
    for member in &members {
        list.bare_item(member.value).parameters(member.params.iter().copied());
    }
}

/// Appends a dictionary by a list of calls.
fn dict_script(text: &mut String, parts: &Parts<'_>, random: &mut Random) {
    let mut members = Vec::new();
    for name in [key_ref("a"), key_ref("bc"), key_ref("def"), key_ref("u")] {
        members.push((name, calls(parts, random)));
    }
    let mut dictionary = DictSerializer::with_buffer(text);
    for (name, member) in &members {
        dictionary.bare_item(name, member.value).parameters(member.params.iter().copied());
    }
}

/// Appends a Priority field (RFC 9218) with an extension. Members with their default values are omitted.
fn priority(text: &mut String, random: &mut Random) {
    let urgency = (random.next() % 8) as u8;
    let incremental = random.next() % 2 == 0;
    let mut dictionary = DictSerializer::with_buffer(text);
    if urgency != 3 {
        dictionary.bare_item(key_ref("u"), urgency);
    }
    if incremental {
        dictionary.bare_item(key_ref("i"), true);
    }
    dictionary.bare_item(key_ref("n"), number(random));
}

/// Writes the field with this number, and adds its text.
pub fn write(kind: u64, parts: &Parts<'_>, random: &mut Random, digest: &mut Digest) {
    let mut text = String::new();
    match kind % 8 {
        0 => cache_status(&mut text, parts, random),
        1 => signature_input(&mut text, parts, random),
        2 => limits(&mut text, parts, random),
        3 => item(&mut text, parts, random),
        4 => hints(&mut text, parts, random),
        5 => list_script(&mut text, parts, random),
        6 => dict_script(&mut text, parts, random),
        _ => priority(&mut text, random),
    }
    digest.text(Some(&text));
}
