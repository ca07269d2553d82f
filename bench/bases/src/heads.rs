//! The heads, and the inner lists over them, as in crates/sfv_signature_bench.

/// The head of the example in RFC 9421, section 2.5.
pub const ROW: &[(&str, &str)] = &[
    ("Host", "example.com"),
    ("Date", "Tue, 20 Apr 2021 02:07:55 GMT"),
    ("Content-Type", "application/json"),
    ("Content-Digest", "sha-512=:WZDPaVn/7XgHaAy8pmojAkGWoRx2UFChF41A2svX+TaPm+AbwAgBWnrIiYllu7BNNyealdVLvRwEmTHWXvJwew==:"),
    ("Content-Length", "18"),
];

/// Its identifiers and parameters.
pub const ROW_LIST: &str = "(\"@method\" \"@authority\" \"@path\" \"content-digest\" \"content-length\" \"content-type\");created=1618884473;keyid=\"test-key-rsa-pss\"";

/// A head of thirty lines.
pub const THIRTY: &[(&str, &str)] = &[
    ("Host", "example.com"),
    ("Date", "Tue, 20 Apr 2021 02:07:55 GMT"),
    ("Content-Type", "application/json"),
    ("Content-Digest", "sha-512=:WZDPaVn/7XgHaAy8pmojAkGWoRx2UFChF41A2svX+TaPm+AbwAgBWnrIiYllu7BNNyealdVLvRwEmTHWXvJwew==:"),
    ("Content-Length", "18"),
    ("Accept", "application/json, text/plain;q=0.9"),
    ("Accept-Encoding", "gzip, deflate, br"),
    ("Accept-Language", "en-US,en;q=0.5"),
    ("User-Agent", "client/1.0 (linux)"),
    ("Cache-Control", "max-age=60"),
    ("Cache-Control", "must-revalidate"),
    ("Connection", "keep-alive"),
    ("Cookie", "a=1; b=2"),
    ("Cookie", "c=3"),
    ("DNT", "1"),
    ("Forwarded", "for=192.0.2.60;proto=http;by=203.0.113.43"),
    ("From", "user@example.com"),
    ("If-None-Match", "\"xyzzy\""),
    ("Origin", "https://example.com"),
    ("Priority", "u=1, i"),
    ("Referer", "https://example.com/page"),
    ("Sec-CH-UA", "\"Chromium\";v=\"120\""),
    ("Sec-CH-UA-Mobile", "?0"),
    ("Sec-Fetch-Mode", "cors"),
    ("TE", "trailers"),
    ("Upgrade-Insecure-Requests", "1"),
    ("Via", "1.1 proxy.example"),
    ("X-Forwarded-For", "203.0.113.7"),
    ("X-Request-Id", "7f3c9a10"),
    ("X-Trace", "on"),
];

/// Ten components of it, with parameters.
pub const THIRTY_LIST: &str = "(\"@method\" \"@authority\" \"@path\" \"content-digest\" \"content-length\" \"content-type\" \"cache-control\" \"cookie\" \"priority\" \"x-request-id\");created=1618884473;keyid=\"test-key-rsa-pss\"";
