//! The measured fields.

use crate::keys;
use sfv_c::{DICTIONARY, ITEM, LIST};

const SEED: u64 = 0x5eed;

pub struct Case {
    pub name: &'static str,
    pub kind: u32,
    pub field: Vec<u8>,
    pub accepted: bool,
    /// The seed of the library's maps.
    pub seed: u64,
}

pub fn accepted(name: &'static str, kind: u32, field: impl Into<Vec<u8>>) -> Case {
    Case { name, kind, field: field.into(), accepted: true, seed: SEED }
}

fn rejected(name: &'static str, kind: u32, field: impl Into<Vec<u8>>) -> Case {
    Case { accepted: false, ..accepted(name, kind, field) }
}

/// This number of parts, with a separator between neighbours.
fn joined(count: usize, separator: &str, part: impl Fn(usize) -> String) -> String {
    (0..count).map(part).collect::<Vec<_>>().join(separator)
}

fn quoted(open: &str, piece: &str, length: usize) -> String {
    format!("{open}{}\"", piece.repeat(length / piece.len()))
}

fn headers() -> Vec<Case> {
    let cache = "ExampleCache; hit; ttl=30, \"far\"; fwd=uri-miss; fwd-status=304; key=\"/a b\"; detail=stale, Third; stored";
    let hints = "\"Not:A-Brand\", \"Chromium\", \"Google\"; v=1";
    let agent = "\"Chromium\";v=\"110\", \"Not A(Brand\";v=\"24\", \"Google Chrome\";v=\"110\"";
    let signature = "sig1=(\"@method\" \"@authority\" \"content-digest\");created=1618884473;keyid=\"test-key\";alg=ed25519";
    let digest = "sha-256=:X48E9qOokqqrvdts8nOJRJN3OWDUoyWxBf7kbu9DBPE=:";
    vec![
        accepted("`42`", ITEM, "42"),
        accepted("`u=1, i`", DICTIONARY, "u=1, i"),
        accepted("Cache-Status", LIST, cache),
        accepted("Client Hints", LIST, hints),
        accepted("Sec-CH-UA", LIST, agent),
        accepted("Signature-Input", DICTIONARY, signature),
        accepted("Content-Digest", DICTIONARY, digest),
        accepted("30 tokens", LIST, joined(30, ", ", |n| format!("Sec-CH-Hint-{n}"))),
        accepted("10 tokens with 2 parameters", LIST, joined(10, ", ", |n| format!("tok{n};q=0.5;level={n}"))),
    ]
}

fn long() -> Vec<Case> {
    vec![
        accepted("1,000 tokens with a parameter", LIST, joined(1_000, ", ", |n| format!("tok{n};q=1"))),
        accepted("10,000 integers", LIST, joined(10_000, ", ", |n| format!("{}", n * 7))),
        accepted("10,000 decimals", LIST, joined(10_000, ", ", |n| format!("{n}.125"))),
        accepted("inner list of 10,000 tokens", LIST, format!("({})", joined(10_000, " ", |n| format!("t{n}")))),
        accepted("dictionary of 10,000 keys", DICTIONARY, joined(10_000, ", ", |n| format!("k{n}={n}"))),
        accepted("one key 10,000 times", DICTIONARY, joined(10_000, ", ", |n| format!("k={n}"))),
        accepted("1,000 parameters", ITEM, format!("1;{}", joined(1_000, ";", |n| format!("p{n}={n}")))),
        accepted("10,000 parameters", ITEM, format!("1;{}", joined(10_000, ";", |n| format!("p{n}={n}")))),
        accepted("string of 100 KB", ITEM, quoted("\"", "a", 102_400)),
        accepted("string with escapes", ITEM, quoted("\"", "abcdefg\\\"", 102_400)),
        accepted("string of escapes", ITEM, quoted("\"", "\\\\", 102_400)),
        accepted("display string of 100 KB", ITEM, quoted("%\"", "a", 102_400)),
        accepted("display string with escapes", ITEM, quoted("%\"", "abcdefgh%c3%bc", 102_400)),
        accepted("display string of escapes", ITEM, quoted("%\"", "%c3%bc", 102_400)),
        accepted("token of 100 KB", ITEM, "t".repeat(102_400)),
        accepted("byte sequence of 100 KB", ITEM, format!(":{}:", "QUJD".repeat(34_133))),
    ]
}

fn rejections() -> Vec<Case> {
    vec![
        rejected("rejected at the first byte: list", LIST, "}"),
        rejected("rejected at the first byte: dictionary", DICTIONARY, "}"),
        rejected("rejected at the first byte: item", ITEM, "}"),
        rejected("rejected at the end: `u=1, i=`", DICTIONARY, "u=1, i="),
        rejected("rejected at the end: `42 x`", ITEM, "42 x"),
        rejected("string of 100 KB without its end", ITEM, format!("\"{}", "a".repeat(102_400))),
    ]
}

/// A dictionary of 64 KB whose keys collide in the library's maps under one seed, parsed under that seed and under another
/// one.
fn hostile() -> Vec<Case> {
    let field = keys::chosen(9_362, SEED);
    let other = Case { seed: SEED + 1, ..accepted("the same keys under another seed", DICTIONARY, field.clone()) };
    vec![accepted("9,362 keys chosen for the seed", DICTIONARY, field), other]
}

pub fn all() -> Vec<Case> {
    headers().into_iter().chain(long()).chain(rejections()).chain(hostile()).collect()
}
