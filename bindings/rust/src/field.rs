#![forbid(unsafe_code)]

use std::collections::TryReserveError;
use std::slice::Iter;

use crate::ffi::{self, text, Kind, Row, Rows, Tag, ValueKind, Version};
use crate::Error;

/// The value of an item or parameter. A decimal is in thousandths, and a date in seconds since 1970.
#[derive(Clone, Copy, Debug, PartialEq, Eq)]
pub enum Value<'a> {
    Integer(i64),
    Decimal(i64),
    String(&'a str),
    Token(&'a str),
    ByteSequence(&'a [u8]),
    Boolean(bool),
    Date(i64),
    DisplayString(&'a str),
}

impl<'a> Value<'a> {
    fn from_row(row: &Row<'a>) -> Option<Value<'a>> {
        Some(match row.kind {
            ValueKind::INTEGER => Value::Integer(row.number),
            ValueKind::DECIMAL => Value::Decimal(row.number),
            ValueKind::STRING => Value::String(text(row.bytes())),
            ValueKind::TOKEN => Value::Token(text(row.bytes())),
            ValueKind::BYTE_SEQUENCE => Value::ByteSequence(row.bytes()),
            ValueKind::BOOLEAN => Value::Boolean(row.number != 0),
            ValueKind::DATE => Value::Date(row.number),
            ValueKind::DISPLAY_STRING => Value::DisplayString(text(row.bytes())),
            _ => return None,
        })
    }

    fn to_row(self, tag: Tag, key: &'a str) -> Row<'a> {
        match self {
            Value::Integer(number) => Row::new(tag, key, ValueKind::INTEGER, b"", number),
            Value::Decimal(number) => Row::new(tag, key, ValueKind::DECIMAL, b"", number),
            Value::String(text) => Row::new(tag, key, ValueKind::STRING, text.as_bytes(), 0),
            Value::Token(text) => Row::new(tag, key, ValueKind::TOKEN, text.as_bytes(), 0),
            Value::ByteSequence(bytes) => Row::new(tag, key, ValueKind::BYTE_SEQUENCE, bytes, 0),
            Value::Boolean(is_true) => Row::new(tag, key, ValueKind::BOOLEAN, b"", is_true.into()),
            Value::Date(number) => Row::new(tag, key, ValueKind::DATE, b"", number),
            Value::DisplayString(text) => Row::new(tag, key, ValueKind::DISPLAY_STRING, text.as_bytes(), 0),
        }
    }
}

/// A parsed field. Its texts borrow from the input, or from the field if they are decoded.
///
/// A repeated key is a member or parameter each time. Look-ups find its last value.
///
/// ```
/// use sfv_proved::{parse, Error, ErrorKind, Kind, Value};
///
/// let field = parse(Kind::List, b"(a b);x=1, \"c\"")?;
/// let members: Vec<_> = field.members().collect();
/// assert_eq!(members[0].items().last().and_then(|item| item.value), Some(Value::Token("b")));
/// assert_eq!(members[0].parameter("x"), Some(Value::Integer(1)));
/// assert_eq!(members[1].value, Some(Value::String("c")));
/// assert_eq!(parse(Kind::List, b"a,").err(), Some(Error::Syntax { kind: ErrorKind::TrailingComma, index: 1 }));
/// # Ok::<(), Error>(())
/// ```
pub struct Field<'a> {
    kind: Kind,
    version: Version,
    input: &'a [u8],
    rows: Rows<'a>,
}

/// Parses a field of RFC 9651. Empty input is a list or dictionary without members.
///
/// # Errors
/// Returns `Error::Syntax` if the input is no such field, `Error::OutOfMemory` or `Error::Incompatible`.
pub fn parse(kind: Kind, input: &[u8]) -> Result<Field<'_>, Error> {
    parse_version(kind, input, Version::Rfc9651)
}

/// Parses a field of this version. The errors are the same.
pub fn parse_version(kind: Kind, input: &[u8], version: Version) -> Result<Field<'_>, Error> {
    Ok(Field { kind, version, input, rows: ffi::parse(kind, version, input)? })
}

impl Field<'_> {
    /// Returns the members of a list or dictionary in order, or the item.
    pub fn members(&self) -> Members<'_> { Members(self.rows.get().iter()) }

    /// Returns the last member of a dictionary with this key.
    pub fn get(&self, key: &str) -> Option<Member<'_>> {
        self.members().filter(|member| member.key == Some(key)).last()
    }

    /// Returns the canonical text, or `None` without a member: do not send the field. A repeated key keeps its first
    /// position and takes its last value.
    ///
    /// # Errors
    /// Returns `Error::Unsupported` if the version lacks a value, `Error::OutOfMemory` or `Error::Incompatible`.
    pub fn serialize(&self, version: Version) -> Result<Option<String>, Error> {
        if repeats_key(self.rows.get())? {
            ffi::canonical(self.kind, self.version, version, self.input)
        } else {
            ffi::write(self.kind, version, self.rows.get())
        }
    }
}

/// Returns whether two members of the dictionary, or two parameters of an item or inner list, have the same key.
fn repeats_key(rows: &[Row<'_>]) -> Result<bool, TryReserveError> {
    let mut keys = Vec::new();
    if has_equal(rows.iter().filter(|row| row.tag == Tag::KEY), &mut keys)? {
        return Ok(true);
    }
    for parameters in rows.split(|row| row.tag != Tag::PARAMETER) {
        if has_equal(parameters.iter(), &mut keys)? {
            return Ok(true);
        }
    }
    Ok(false)
}

/// Returns whether two of these rows have the same key. The vector is a buffer.
fn has_equal<'r>(rows: impl Iterator<Item = &'r Row<'r>>, keys: &mut Vec<&'r [u8]>) -> Result<bool, TryReserveError> {
    keys.clear();
    for row in rows {
        keys.try_reserve(1)?;
        keys.push(row.key_bytes());
    }
    keys.sort_unstable();
    Ok(keys.windows(2).any(|pair| pair[0] == pair[1]))
}

/// The members of a field, or the items of an inner list.
#[derive(Clone)]
pub struct Members<'f>(Iter<'f, Row<'f>>);

impl<'f> Iterator for Members<'f> {
    type Item = Member<'f>;

    fn next(&mut self) -> Option<Member<'f>> {
        let first = self.0.find(|row| matches!(row.tag, Tag::KEY | Tag::BARE_ITEM | Tag::BEGIN_INNER))?;
        if first.tag == Tag::KEY {
            return Some(Member { key: Some(first.key()), ..self.next()? });
        }
        let rows = self.0.as_slice();
        if first.tag == Tag::BEGIN_INNER {
            self.0.find(|row| row.tag == Tag::END_INNER);
        }
        let (items, parameters) = rows.split_at(rows.len() - self.0.as_slice().len());
        self.0.find(|row| row.tag == Tag::END_PARAMETERS);
        Some(Member { key: None, value: Value::from_row(first), items, parameters })
    }
}

/// An item or inner list.
#[derive(Clone, Copy)]
pub struct Member<'f> {
    /// The key in a dictionary.
    pub key: Option<&'f str>,
    /// The value of an item, or `None` for an inner list.
    pub value: Option<Value<'f>>,
    items: &'f [Row<'f>],
    parameters: &'f [Row<'f>],
}

impl<'f> Member<'f> {
    /// Returns the items of an inner list.
    pub fn items(&self) -> Members<'f> { Members(self.items.iter()) }

    pub fn parameters(&self) -> impl Iterator<Item = (&'f str, Value<'f>)> + Clone {
        let parameters = self.parameters.iter().take_while(|row| row.tag == Tag::PARAMETER);
        parameters.filter_map(|row| Some((row.key(), Value::from_row(row)?)))
    }

    /// Returns the last parameter with this key.
    pub fn parameter(&self, key: &str) -> Option<Value<'f>> {
        self.parameters().filter(|(name, _)| *name == key).last().map(|(_, value)| value)
    }
}

/// Writes a field part by part. `text` returns the error of a wrong order of calls, or of a value that no field can
/// hold.
///
/// ```
/// use sfv_proved::{Kind, Value, Version, Writer};
///
/// let inner = Writer::new(Kind::Dictionary).key("a").begin_inner().item(Value::Integer(1)).end_inner();
/// let text = inner.parameter("x", Value::Boolean(true)).key("b").item(Value::String("c")).text(Version::Rfc9651);
/// assert_eq!(text, Ok(Some("a=(1);x, b=\"c\"".to_owned())));
/// let writer = Writer::new(Kind::Item).item(Value::Token("no token"));
/// assert!(writer.text(Version::Rfc9651).is_err());
/// ```
pub struct Writer<'a> {
    kind: Kind,
    rows: Vec<Row<'a>>,
    is_inner: bool,
    is_out_of_memory: bool,
}

impl<'a> Writer<'a> {
    pub fn new(kind: Kind) -> Self { Writer { kind, rows: Vec::new(), is_inner: false, is_out_of_memory: false } }

    /// Begins a member of a dictionary. Its item or inner list follows.
    pub fn key(self, key: &'a str) -> Self { self.close().push_tag(Tag::KEY, key) }

    pub fn item(self, value: Value<'a>) -> Self { self.begin(Tag::BEGIN_ITEM).push(value.to_row(Tag::BARE_ITEM, "")) }

    pub fn begin_inner(self) -> Self { Writer { is_inner: true, ..self.begin(Tag::BEGIN_INNER) } }

    /// Ends the items of an inner list. Its parameters can follow.
    pub fn end_inner(self) -> Self { Writer { is_inner: false, ..self.close().push_tag(Tag::END_INNER, "") } }

    /// Appends a parameter to the last item, or to the inner list that ended.
    pub fn parameter(self, key: &'a str, value: Value<'a>) -> Self { self.push(value.to_row(Tag::PARAMETER, key)) }

    /// Returns the canonical text, as `Field::serialize`.
    ///
    /// # Errors
    /// Returns `Error::WrongPart`, `Error::Unsupported`, `Error::OutOfMemory` or `Error::Incompatible`.
    pub fn text(self, version: Version) -> Result<Option<String>, Error> {
        let Writer { kind, rows, is_out_of_memory, .. } = self.close();
        if is_out_of_memory {
            return Err(Error::OutOfMemory);
        }
        match ffi::write(kind, version, &rows)? {
            Some(text) if repeats_key(&rows)? => ffi::canonical(kind, version, version, text.as_bytes()),
            text => Ok(text),
        }
    }

    fn push(mut self, row: Row<'a>) -> Self {
        match self.rows.try_reserve(1) {
            Ok(()) => self.rows.push(row),
            Err(_) => self.is_out_of_memory = true,
        }
        self
    }

    fn push_tag(self, tag: Tag, key: &'a str) -> Self { self.push(Row::new(tag, key, ValueKind::NONE, b"", 0)) }

    fn begin(self, tag: Tag) -> Self {
        match (self.kind, self.is_inner) {
            (Kind::Item, _) => self.close(),
            (Kind::List, false) => self.close().push_tag(Tag::ENTRY, "").push_tag(tag, ""),
            _ => self.close().push_tag(tag, ""),
        }
    }

    /// Ends the parameters of the last item or inner list.
    fn close(self) -> Self {
        match self.rows.last().map(|row| row.tag) {
            Some(Tag::BARE_ITEM | Tag::PARAMETER | Tag::END_INNER) => self.push_tag(Tag::END_PARAMETERS, ""),
            _ => self,
        }
    }
}
