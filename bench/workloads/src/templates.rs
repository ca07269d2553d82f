//! Templates of fields as servers receive them.

use crate::fields::{Field, Kind};
use crate::random::Random;

/// Returns the item with this number.
fn item(number: u64) -> &'static str {
    match number % 7 {
        0 => "&",
        1 => "?1;n=&",
        2 => "&.##",
        3 => "@&",
        4 => "\"/path/to/^^^^^^/&\"",
        5 => "text/html;charset=utf-8;v=&",
        _ => "%\"f%c3%bc%c3%bc &\"",
    }
}

/// Returns the list with this number.
fn list(number: u64) -> &'static str {
    match number % 8 {
        0 => "ExampleCache; hit; ttl=&",
        1 => {
            "OriginCache; hit; ttl=1###; collapsed, \"CDN Company Here\"; fwd=uri-miss; fwd-status=304; stored; \
             ttl=&; key=\"/a/^^^^^\""
        }
        2 => {
            "proxy.example.net; error=http_protocol_error; details=\"Malformed response header: space before \
             colon\"; received-status=5##; n=&"
        }
        3 => "\"Chromium\";v=\"1##\", \"Not A(Brand\";v=\"##\", \"Google Chrome\";v=\"1##.0.&\"",
        4 => "Sec-CH-UA-Arch, Sec-CH-UA-Bitness, Sec-CH-UA-Full-Version-List, Sec-CH-UA-Model, X-^^^^-&",
        5 => "\"default\";q=###;w=#, \"daily\";q=&;w=####;pk=:$$$$$$$$:",
        6 => "gzip;q=1.0, br;q=0.#, zstd;q=0.##, *;q=0.#;n=&",
        _ => "(\"a^^^\" \"b^^^\";x=#);created=&, (\"c^^^\");keyid=\"k-##\"",
    }
}

/// Returns the dictionary with this number.
fn dictionary(number: u64) -> &'static str {
    match number % 9 {
        0 => "u=#, i, n=&",
        1 => "u=#;x=&, i=?1",
        2 => {
            "sig1=(\"@method\" \"@authority\" \"@path\" \"content-digest\" \"content-type\");created=16########\
             ;keyid=\"test-key-&\";alg=\"ed25519\""
        }
        3 => "sig1=:$$$$$$$$$$$$$$$$$$$$$$$$$$$$$$$$$$$$$$$$$$$$$$$$$$$$$$$$$$$$$$$$$$$$$$$$$$$$$&Q==:",
        4 => "sha-256=:$$$$$$$$$$$$$$$$$$$$$$$$$$$$$$$$$$&A=:",
        5 => {
            "sha-256=:$$$$$$$$$$$$$$$$$$$$$$$$$$$$$$$$$$&A=:, \
             sha-512=:$$$$$$$$$$$$$$$$$$$$$$$$$$$$$$$$$$$$$$$$$$$$$$$$$$$$$$$$$$$$$$$$$$$$$$$$$$$$$$$$$$$$$A==:"
        }
        6 => "max-age=&, stale-while-revalidate=###, stale-if-error=####, must-revalidate, public",
        7 => "max-age=60, no-transform, max-age=&;a, s-maxage=###",
        _ => "accept=(text/html application/json;q=0.#), lang=en;q=1.0, note=\"say \\\"^^^^\\\" &\", at=@16########",
    }
}

/// Returns a field of a random template.
pub fn any_field(random: &mut Random, number: u32) -> Field {
    let (kind, template) = match random.next() % 6 {
        0 => (Kind::Item, item(random.next())),
        1..=3 => (Kind::List, list(random.next())),
        _ => (Kind::Dictionary, dictionary(random.next())),
    };
    let mut field = Field::new(kind);
    field.push(random, template, number);
    field
}
