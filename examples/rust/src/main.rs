//! Parses a Priority field and a Cache-Status list, prints canonical texts and syntax errors, and writes a dictionary that
//! it parses back, as demo.c does.

use sfv_c::*;

/// Prints the field, and the error under its index.
fn point(field: &str, answer: Answer) {
    println!("{field}\n{}^ {}", " ".repeat(answer.index), message(answer.kind));
}

/// Prints the canonical text of a field for a version.
// A program that parses untrusted fields chooses one random seed at its start.
fn print_canonical(kind: u32, writing: u32, field: &str) {
    let mut out = [0; 128];
    let answer = canonical(kind, RFC9651, writing, 1, field.as_bytes(), &mut out);
    match answer.status {
        OK => println!("{}", String::from_utf8_lossy(&out[..answer.length])),
        NOTHING => println!("(no members)"),
        REJECTED => point(field, answer),
        UNSUPPORTED => println!("(RFC 8941 does not support {})", if answer.kind == 7 { "dates" } else { "display strings" }),
        status => println!("status {status}"),
    }
}

/// Passes the rows of the field to `inspect`, or returns the answer.
fn with_rows<R>(kind: u32, field: &[u8], inspect: impl FnOnce(&[Row<'_>]) -> R) -> Result<R, Answer> {
    let mut room = vec![0; field.len()];
    let mut rows = vec![Row::default(); rows_for(field.len())];
    let answer = parse(kind, RFC9651, field, &mut rows, &mut room);
    if answer.status == OK { Ok(inspect(&rows[..answer.rows])) } else { Err(answer) }
}

/// Returns the value of the last member with this key.
fn member<'r, 'a>(rows: &'r [Row<'a>], key: &str) -> Option<&'r [Row<'a>]> {
    let is_it = |row: &Row<'_>| row.tag == KEYED_ENTRY && row.key.as_slice() == key.as_bytes();
    let value = &rows[rows.iter().rposition(is_it)? + 1..];
    Some(if value[0].tag == BEGIN_INNER { value } else { &value[1..] })
}

/// Returns the last parameter with this key of the item or inner list that the rows begin with.
fn parameter<'r, 'a>(rows: &'r [Row<'a>], key: &str) -> Option<&'r Row<'a>> {
    let end = |row: &Row<'_>| row.tag == END_INNER;
    let start = if rows[0].tag == BEGIN_INNER { rows.iter().position(end)? } else { 0 };
    let parameters = rows[start + 1..].iter().take_while(|row| row.tag == PARAMETER);
    parameters.filter(|row| row.key.as_slice() == key.as_bytes()).last()
}

fn text(bytes: Bytes<'_>) -> String {
    String::from_utf8_lossy(bytes.as_slice()).into_owned()
}

fn value(row: &Row<'_>) -> String {
    match row.kind {
        1 => row.number.to_string(),
        2 => format!("{}/1000", row.number),
        4 => text(row.bytes),
        5 => format!("{} bytes", row.bytes.as_slice().len()),
        6 => (row.number != 0).to_string(),
        7 => format!("@{}", row.number),
        _ => format!("[{}]", text(row.bytes)),
    }
}

/// Prints Priority (RFC 9218): `u` is an integer from 0 to 7, or 3; `i` is a boolean, or false.
fn priority(field: &str) {
    let parsed = with_rows(DICTIONARY, field.as_bytes(), |rows| {
        let urgency = member(rows, "u").map(|row| row[0]).filter(|row| row.kind == 1 && (0..=7).contains(&row.number));
        let incremental = member(rows, "i").is_some_and(|row| row[0].kind == 6 && row[0].number != 0);
        (urgency.map_or(3, |row| row.number), incremental)
    });
    let (urgency, incremental) = parsed.unwrap_or_else(|answer| {
        point(field, answer);
        (3, false)
    });
    println!("urgency {urgency}, incremental {}", if incremental { "yes" } else { "no" });
}

/// Prints Cache-Status (RFC 9211): a list of caches, each with parameters. The field has two lines.
fn cache_status(lines: [&str; 2]) {
    let parsed = with_rows(LIST, lines.join(", ").as_bytes(), |rows| {
        for row in rows {
            match row.tag {
                BARE_ITEM => println!("cache {}", value(row)),
                PARAMETER => println!("  {} = {}", text(row.key), value(row)),
                _ => {}
            }
        }
    });
    parsed.expect("a list");
}

fn statuses() {
    let answer = canonical(ITEM, RFC9651, RFC9651, 1, b"token", &mut []);
    println!("{} {}", answer.status, answer.length);
    let answer = parse(LIST, RFC9651, b"a, b;k=:YWI=:", &mut [], &mut []);
    println!("{} {} {}", answer.status, answer.rows, answer.length);
    println!("{}", canonical(LIST, RFC9651, RFC9651, 1, b"", &mut []).status);
    println!("{} {}", check(ITEM, RFC8941, b"@1").status, check(ITEM, RFC9651, b"@1").status);
    println!("{}", check(7, RFC9651, b"1").status);
}

/// Writes the dictionary `name="a \"b\"";q=0.5, size=(1)`, parses it, and finds its parts.
fn dictionary() {
    let row = |tag| Row { tag, ..Row::default() };
    let key = |tag, key: &'static str| Row { key: key.as_bytes().into(), ..row(tag) };
    let rows = [
        key(KEYED_ENTRY, "name"),
        row(BEGIN_ITEM),
        Row { kind: 3, bytes: b"a \"b\""[..].into(), ..row(BARE_ITEM) },
        Row { kind: 2, number: 500, ..key(PARAMETER, "q") },
        row(END_PARAMETERS),
        key(KEYED_ENTRY, "size"),
        row(BEGIN_INNER),
        row(BEGIN_ITEM),
        Row { kind: 1, number: 1, ..row(BARE_ITEM) },
        row(END_PARAMETERS),
        row(END_INNER),
        row(END_PARAMETERS),
    ];
    let mut out = [0; 64];
    let answer = write(DICTIONARY, RFC9651, &rows[..11], &mut out);
    println!("{} {}", answer.status, answer.index);
    let answer = write(DICTIONARY, RFC9651, &rows, &mut out);
    let line = &out[..answer.length];
    println!("{} {}", answer.status, String::from_utf8_lossy(line));
    let parsed = with_rows(DICTIONARY, line, |again| {
        assert_eq!(again, rows);
        let (name, size) = (member(again, "name").expect("name"), member(again, "size").expect("size"));
        let q = parameter(name, "q").map_or("none".to_string(), value);
        let kind = if size[0].tag == BEGIN_INNER { "an inner list" } else { "an item" };
        let with_q = if parameter(size, "q").is_some() { "with q" } else { "without q" };
        println!("{}, {q}, {kind}, {with_q}", value(&name[0]));
    });
    parsed.expect("a dictionary");
}

fn main() {
    assert_eq!(abi(), 1);
    priority("u=1, i");
    priority("u=9;x, i=?1, u=5, z=(1 2)");
    priority("u=1, i=?2");
    priority("");
    cache_status([
        "ExampleCache; hit; ttl=30",
        "\"the \\\"far\\\" one\"; fwd=uri-miss; fwd-status=304; key=\"/a b\"",
    ]);
    print_canonical(DICTIONARY, RFC9651, "a=1;x, b=2, a=3.10");
    print_canonical(LIST, RFC9651, "  ");
    print_canonical(LIST, RFC9651, "gzip, br ,");
    print_canonical(ITEM, RFC9651, "\"unfinished");
    print_canonical(ITEM, RFC9651, "@1659578233.5");
    print_canonical(LIST, RFC9651, "(a b");
    print_canonical(LIST, RFC8941, "1, @2, %\"c\"");
    print_canonical(LIST, RFC8941, "1, 2.0, c");
    statuses();
    dictionary();
}
