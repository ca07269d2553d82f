//! Tests over the installed library. They read the replay and the header of the repository.

use std::fs;
use std::path::Path;
use std::thread;

use sfv_proved::{parse, parse_version, Error, ErrorKind, Field, Kind, Member, Unsupported, Value, Version, Writer};

const LARGEST: i64 = 999_999_999_999_999;

fn repository(path: &str) -> String {
    fs::read_to_string(Path::new(env!("CARGO_MANIFEST_DIR")).join("../..").join(path)).expect(path)
}

fn bytes_of(hexadecimal: &str) -> Vec<u8> {
    let digits = if hexadecimal == "-" { "" } else { hexadecimal };
    (0..digits.len()).step_by(2).map(|i| u8::from_str_radix(&digits[i..i + 2], 16).expect("two digits")).collect()
}

fn write_item<'f>(writer: Writer<'f>, member: &Member<'f>) -> Writer<'f> {
    let started = match member.value {
        Some(value) => writer.item(value),
        None => member.items().fold(writer.begin_inner(), |writer, item| write_item(writer, &item)).end_inner(),
    };
    member.parameters().fold(started, |writer, (key, value)| writer.parameter(key, value))
}

/// Writes the members of a field one by one.
fn rewritten(kind: Kind, field: &Field<'_>) -> Option<String> {
    let writer = field.members().fold(Writer::new(kind), |writer, member| match member.key {
        Some(key) => write_item(writer.key(key), &member),
        None => write_item(writer, &member),
    });
    writer.text(Version::Rfc9651).expect("a field")
}

fn parse_line<'i>(words: &[&str], input: &'i [u8]) -> Result<Field<'i>, Error> {
    let version = if words[1] == "8941" { Version::Rfc8941 } else { Version::Rfc9651 };
    parse_version(kind_of(words[0]), input, version)
}

fn kind_of(name: &str) -> Kind {
    match name {
        "item" => Kind::Item,
        "list" => Kind::List,
        _ => Kind::Dictionary,
    }
}

/// Returns the result of a line `TYPE VERSION HEX CALLS RESULT`, in the form of the line.
fn replayed(line: &str, header: &str) -> String {
    let words: Vec<&str> = line.split(' ').collect();
    match parse_line(&words, &bytes_of(words[2])) {
        Err(error) => {
            let Error::Syntax { kind, .. } = error else { panic!("{line}: {error}") };
            assert_eq!(header_name(header, kind as u32), format!("{kind:?}").to_uppercase(), "{line}");
            format!("err {error}")
        }
        Ok(field) => {
            let text = field.serialize(Version::Rfc9651).expect("each value is in RFC 9651");
            assert_eq!(rewritten(kind_of(words[0]), &field), text, "{line}");
            let hexadecimal: Option<String> = text.map(|text| text.bytes().map(|byte| format!("{byte:02x}")).collect());
            format!("ok {}", hexadecimal.as_deref().unwrap_or("none"))
        }
    }
}

/// Returns the name of a kind of error in the header, without underscores.
fn header_name(header: &str, number: u32) -> String {
    let names = header.lines().filter_map(|line| line.trim().strip_prefix("SFV_ERR_")?.trim_end_matches(',').split_once(" = "));
    let (name, _) = names.filter(|(_, text)| *text == number.to_string()).last().expect("a kind");
    name.replace('_', "")
}

#[test]
fn replay() {
    let (lines, header) = (repository("crates/sfv_replay/stdin"), repository("include/sfv.h"));
    assert_eq!(lines.lines().count(), 2857);
    for line in lines.lines() {
        assert_eq!(replayed(line, &header), line.splitn(5, ' ').last().expect("a result"), "{line}");
    }
}

/// A line of bindings/errors is `TYPE VERSION INPUT KIND NAME INDEX MESSAGE`, between tabs.
#[test]
fn syntax_errors() {
    let lines = repository("bindings/errors");
    assert_eq!(lines.lines().count(), 26);
    for line in lines.lines() {
        let words: Vec<&str> = line.split('\t').collect();
        let error = parse_line(&words, words[2].as_bytes()).err().expect(line);
        let Error::Syntax { kind, index } = error else { panic!("{line}: {error}") };
        assert_eq!((kind as u32, index), (words[3].parse().unwrap(), words[5].parse().unwrap()), "{line}");
        assert_eq!(format!("{kind:?}").to_uppercase(), words[4].replace('_', ""), "{line}");
        assert_eq!(error.to_string(), format!("{} at index {}", words[6], words[5]), "{line}");
    }
}

#[test]
fn other_errors() {
    let dates = Writer::new(Kind::List).item(Value::Integer(1)).item(Value::Date(1)).item(Value::DisplayString("a"));
    let error = dates.text(Version::Rfc8941).unwrap_err();
    assert_eq!(error, Error::Unsupported(Unsupported::Date));
    assert_eq!(error.to_string(), "RFC 8941 does not support dates");
    let error = parse(Kind::Item, b"%\"a\";b=@1").unwrap().serialize(Version::Rfc8941).unwrap_err();
    assert_eq!(error, Error::Unsupported(Unsupported::DisplayString));
    assert_eq!(error.to_string(), "RFC 8941 does not support display strings");
    // Four parts for the first item, and two before the value of the second.
    let writer = Writer::new(Kind::List).item(Value::Integer(1)).item(Value::Token("a b"));
    let error = writer.text(Version::Rfc9651).unwrap_err();
    assert_eq!(error, Error::WrongPart { index: 6 });
    assert_eq!(error.to_string(), "no field has these parts: part 6 is wrong or missing");
    assert_eq!(Error::OutOfMemory.to_string(), "out of memory");
    assert_eq!(Error::Incompatible.to_string(), "this version of libsfv is not the one that the crate needs");
    let error: Box<dyn std::error::Error + Send + Sync> = error.into();
    assert!(error.source().is_none());
}

/// The same key can be in two items.
#[test]
fn repeated_keys() {
    let texts = [
        (Kind::Item, "1;a;b;a=2", "1;a=2;b"),
        (Kind::List, "1;a, 2;a, (3;a 4;a);a", "1;a, 2;a, (3;a 4;a);a"),
        (Kind::List, "1;a, (2 3;b;b=1)", "1;a, (2 3;b=1)"),
        (Kind::List, "(2 3);a;a=1", "(2 3);a=1"),
        (Kind::Dictionary, "a;b, b;a, c=(1;a);b", "a;b, b;a, c=(1;a);b"),
        (Kind::Dictionary, "b;x, a, c=(), b", "b, a, c=()"),
        (Kind::Dictionary, "a, aa, b;a=1;aa=2;a=3", "a, aa, b;a=3;aa=2"),
    ];
    for (kind, input, text) in texts {
        let field = parse(kind, input.as_bytes()).unwrap();
        assert_eq!(field.serialize(Version::Rfc9651).unwrap().as_deref(), Some(text));
        assert_eq!(rewritten(kind, &field).as_deref(), Some(text));
    }
    let members: Vec<String> = (0..50).map(|n| format!("key{}=1", n * 7 % 50)).collect();
    let many = members.join(", ");
    let repeated = format!("{many}, key14=2");
    let field = parse(Kind::Dictionary, repeated.as_bytes()).unwrap();
    let text = many.replace("key14=1", "key14=2");
    assert_eq!(field.serialize(Version::Rfc9651).unwrap().as_ref(), Some(&text));
    assert_eq!(rewritten(Kind::Dictionary, &field), Some(text));
}

/// The first buffers of a parser have 64 rows, and those of a writer a byte and a half for each byte.
#[test]
fn second_buffers() {
    let strings: Vec<String> = (0..70).map(|n| format!("\"\\\\{n} is a number\\\"\"")).collect();
    let list = strings.join(", ");
    let field = parse(Kind::List, list.as_bytes()).unwrap();
    for (n, member) in field.members().enumerate() {
        assert_eq!(member.value, Some(Value::String(&format!("\\{n} is a number\""))));
    }
    assert_eq!(field.members().count(), 70);
    assert_eq!(field.serialize(Version::Rfc8941).unwrap().as_ref(), Some(&list));
    assert_eq!(rewritten(Kind::List, &field), Some(list));
    let quotes = "\"".repeat(1000);
    assert_eq!(written(Value::String(&quotes)), Ok(Some(format!("\"{}\"", "\\\"".repeat(1000)))));
    let repeated = format!("{}a", "a,".repeat(100));
    let field = parse(Kind::Dictionary, repeated.as_bytes()).unwrap();
    assert_eq!(field.serialize(Version::Rfc8941).unwrap().as_deref(), Some("a"));
    let keys: Vec<String> = (0..100).map(|n| format!("a{n}")).collect();
    let field_text = format!("{},a0", keys.join(","));
    let field = parse(Kind::Dictionary, field_text.as_bytes()).unwrap();
    assert_eq!(field.serialize(Version::Rfc8941).unwrap(), Some(keys.join(", ")));
}

/// A field of 500 bytes, under the older version.
#[test]
fn rfc8941() {
    let keys: Vec<String> = (0..80).map(|n| format!("k{n}")).collect();
    let input: Vec<String> = keys.iter().map(|key| format!("{key}=\"\\\"\"")).collect();
    let input = input.join(", ");
    assert!(input.len() > 500);
    let quote = Value::String("\"");
    let write = || keys.iter().fold(Writer::new(Kind::Dictionary), |writer, key| writer.key(key).item(quote));
    let field = parse_version(Kind::Dictionary, input.as_bytes(), Version::Rfc8941).unwrap();
    assert_eq!(field.serialize(Version::Rfc8941).as_ref(), Ok(&Some(input.clone())));
    assert_eq!(write().text(Version::Rfc8941).as_ref(), Ok(&Some(input.clone())));
    let unsupported = Err(Error::Unsupported(Unsupported::Date));
    for dates in ["d=@1", "d=@2, d=@1"] {
        let dated = format!("{input}, {dates}");
        let error = parse_version(Kind::Dictionary, dated.as_bytes(), Version::Rfc8941).err();
        assert_eq!(error, Some(Error::Syntax { kind: ErrorKind::Rfc8941Date, index: input.len() + 4 }));
        let field = parse(Kind::Dictionary, dated.as_bytes()).unwrap();
        assert_eq!(field.serialize(Version::Rfc9651), Ok(Some(format!("{input}, d=@1"))));
        assert_eq!(field.serialize(Version::Rfc8941), unsupported);
    }
    assert_eq!(write().key("d").item(Value::Date(1)).text(Version::Rfc8941), unsupported);
    let repeated = format!("{input}, k0=1");
    let field = parse_version(Kind::Dictionary, repeated.as_bytes(), Version::Rfc8941).unwrap();
    assert_eq!(field.serialize(Version::Rfc8941), Ok(Some(format!("k0=1{}", &input["k0=\"\\\"\"".len()..]))));
}

#[test]
fn look_ups_take_the_last_value() {
    let field = parse(Kind::Dictionary, br#"u=1, i, u=5;x;q=0.5;x="a\"b", in=(1 2;y);z=:YQ==:, d=@1, e=%"%c3%a9""#).unwrap();
    let value = |key| field.get(key).and_then(|member| member.value);
    assert_eq!(value("u"), Some(Value::Integer(5)));
    assert_eq!(value("i"), Some(Value::Boolean(true)));
    assert_eq!(value("d"), Some(Value::Date(1)));
    assert_eq!(value("e"), Some(Value::DisplayString("é")));
    assert!(field.get("none").is_none() && field.get("").is_none());
    let u = field.get("u").unwrap();
    assert_eq!(u.parameter("x"), Some(Value::String("a\"b")));
    assert_eq!(u.parameter("q"), Some(Value::Decimal(500)));
    assert_eq!((u.parameter("y"), u.items().count()), (None, 0));
    let inner = field.get("in").unwrap();
    assert_eq!((inner.value, inner.parameter("z")), (None, Some(Value::ByteSequence(b"a"))));
    let items: Vec<_> = inner.items().map(|item| (item.key, item.value, item.parameter("y"))).collect();
    assert_eq!(items[0], (None, Some(Value::Integer(1)), None));
    assert_eq!(items[1], (None, Some(Value::Integer(2)), Some(Value::Boolean(true))));
    assert_eq!((items.len(), field.members().count()), (2, 6));
    let text = r#"u=5;x="a\"b";q=0.5, i, in=(1 2;y);z=:YQ==:, d=@1, e=%"%c3%a9""#;
    assert_eq!(field.serialize(Version::Rfc9651).unwrap().as_deref(), Some(text));
    assert_eq!(field.serialize(Version::Rfc8941), Err(Error::Unsupported(Unsupported::Date)));
}

/// A text that has no escape borrows from the input, and its field can move.
#[test]
fn texts_of_a_moved_field() {
    let input = br#""\\";a=:YWJj:;b="plain""#.to_vec();
    let fields: Vec<Field<'_>> = (0..100).map(|_| parse(Kind::Item, &input).unwrap()).collect();
    for field in &fields {
        let item = field.members().next().unwrap();
        assert_eq!((item.value, item.parameter("a")), (Some(Value::String("\\")), Some(Value::ByteSequence(b"abc"))));
        let Some(Value::String(plain)) = item.parameter("b") else { panic!("no string") };
        assert!(input.as_ptr_range().contains(&plain.as_ptr()));
    }
}

#[test]
fn empty_input() {
    let expected = Error::Syntax { kind: ErrorKind::ExpectedStartOfBareItem, index: 0 };
    assert_eq!(parse(Kind::Item, b"").err(), Some(expected));
    assert_eq!(expected.to_string(), "expected start of bare item at index 0");
    for kind in [Kind::List, Kind::Dictionary] {
        let field = parse(kind, b"").unwrap();
        assert_eq!((field.members().count(), field.serialize(Version::Rfc9651)), (0, Ok(None)));
        assert_eq!(Writer::new(kind).text(Version::Rfc8941), Ok(None));
    }
    assert_eq!(Writer::new(Kind::Item).text(Version::Rfc9651), Err(Error::WrongPart { index: 0 }));
}

#[test]
fn nul_bytes() {
    let index = |input| match parse(Kind::Item, input) {
        Err(Error::Syntax { index, .. }) => Some(index),
        _ => None,
    };
    assert_eq!(index(b"\0"), Some(0));
    assert_eq!(index(b"1\0"), Some(1));
    assert_eq!(index(b"\"a\0\""), Some(2));
    let field = parse(Kind::Item, b":YQBi:").unwrap();
    assert_eq!(field.members().next().unwrap().value, Some(Value::ByteSequence(b"a\0b")));
    assert!(written(Value::String("a\0")).is_err());
}

#[test]
fn a_megabyte() {
    let list: Vec<String> = (0..70_000).map(|n| format!("token{n};q=1")).collect();
    let list = list.join(", ");
    assert!(list.len() > 1_000_000);
    let field = parse(Kind::List, list.as_bytes()).unwrap();
    assert_eq!(field.members().count(), 70_000);
    assert_eq!(field.serialize(Version::Rfc9651).unwrap().as_ref(), Some(&list));
    assert_eq!(rewritten(Kind::List, &field), Some(list));
    let string = format!("\"{}\"", "\\".repeat(1_000_000));
    let field = parse(Kind::Item, string.as_bytes()).unwrap();
    assert_eq!(field.members().next().unwrap().value, Some(Value::String(&"\\".repeat(500_000))));
}

fn written(value: Value<'_>) -> Result<Option<String>, Error> {
    Writer::new(Kind::Item).item(value).text(Version::Rfc9651)
}

#[test]
fn values_that_no_field_holds() {
    for number in [LARGEST, -LARGEST] {
        assert!(written(Value::Integer(number)).is_ok() && written(Value::Decimal(number)).is_ok());
        assert!(written(Value::Date(number)).is_ok());
    }
    let wrong = Err(Error::WrongPart { index: 0 });
    for number in [LARGEST + 1, -LARGEST - 1, i64::MAX, i64::MIN] {
        for value in [Value::Integer(number), Value::Decimal(number), Value::Date(number)] {
            assert_eq!(written(value), wrong);
        }
    }
    for text in ["", "a b", "1a", "é", "a\n"] {
        assert_eq!(written(Value::Token(text)), wrong);
        let keyed = Writer::new(Kind::Item).item(Value::Boolean(true)).parameter(text, Value::Boolean(true));
        assert_eq!(keyed.text(Version::Rfc9651), Err(Error::WrongPart { index: 1 }));
    }
    assert_eq!((written(Value::String("é")), written(Value::String("a\n"))), (wrong.clone(), wrong));
    assert_eq!(written(Value::DisplayString("é")), Ok(Some("%\"%c3%a9\"".into())));
}

#[test]
fn wrong_orders_of_calls() {
    let item = Value::Integer(1);
    for writer in [
        Writer::new(Kind::List).parameter("a", item),
        Writer::new(Kind::List).begin_inner().item(item),
        Writer::new(Kind::List).begin_inner().begin_inner(),
        Writer::new(Kind::Dictionary).item(item),
        Writer::new(Kind::Dictionary).key("a"),
        Writer::new(Kind::Item).item(item).item(item),
        Writer::new(Kind::Item).begin_inner().end_inner(),
    ] {
        assert!(matches!(writer.text(Version::Rfc9651), Err(Error::WrongPart { .. })));
    }
    let again = Writer::new(Kind::Dictionary).key("a").item(item).key("b").begin_inner().end_inner().key("a").item(Value::Token("t"));
    assert_eq!(again.text(Version::Rfc9651), Ok(Some("a=t, b=()".into())));
}

#[test]
fn threads() {
    fn is_send_and_sync<T: Send + Sync>(_: &T) {}
    let input = br#"a;n="\\", (1 b);q=:AAAA:"#;
    let shared = parse(Kind::List, input).unwrap();
    is_send_and_sync(&shared);
    let text = shared.serialize(Version::Rfc9651);
    thread::scope(|scope| {
        for _ in 0..8 {
            scope.spawn(|| {
                for _ in 0..2000 {
                    assert_eq!(parse(Kind::List, input).unwrap().serialize(Version::Rfc9651), text);
                    assert_eq!(rewritten(Kind::List, &shared), *text.as_ref().unwrap());
                }
            });
        }
    });
}
