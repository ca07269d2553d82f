//! Structured Field Values for HTTP (RFC 9651 and the older RFC 8941), over the proved library libsfv.
//!
//! ```
//! use sfv_proved::{parse, Kind, Value, Version, Writer};
//!
//! let field = parse(Kind::Dictionary, b"u=1, i;q=0.5")?;
//! assert_eq!(field.get("u").and_then(|member| member.value), Some(Value::Integer(1)));
//! for member in field.members() {
//!     println!("{:?} {:?} {:?}", member.key, member.value, member.parameter("q"));
//! }
//! let writer = Writer::new(Kind::List).item(Value::Token("br")).parameter("q", Value::Decimal(500));
//! assert_eq!(writer.text(Version::Rfc9651)?.as_deref(), Some("br;q=0.5"));
//! # Ok::<(), sfv_proved::Error>(())
//! ```
#![deny(unsafe_code)] // Each module except `ffi` forbids it.

mod error;
#[allow(unsafe_code)]
mod ffi;
mod field;

pub use error::{Error, ErrorKind, Unsupported};
pub use ffi::{Kind, Version};
pub use field::{parse, parse_version, Field, Member, Members, Value, Writer};
