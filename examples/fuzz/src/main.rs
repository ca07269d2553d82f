//! Parses random fields by every call of the library, and by the Rust crate if it is present. Prints each field for which
//! two results differ.

mod fields;
#[cfg(feature = "theirs")]
mod theirs;
#[cfg(not(feature = "theirs"))]
mod theirs {
    /// The Rust crate is absent.
    pub fn read(_field: u32, _version: u32, _input: &[u8]) -> Option<crate::Outcome> {
        None
    }
}

use fields::Random;
use sfv_c::{Row, DICTIONARY, ITEM, LIST, NOTHING, OK, REJECTED, RFC8941, RFC9651};
use std::process::ExitCode;
use std::time::{Duration, Instant};

/// The result for a field: its canonical text, nothing if it has no members, or the text of its error.
#[derive(Clone, Debug, PartialEq, Eq)]
pub enum Outcome {
    Text(Vec<u8>),
    Nothing,
    Rejected { message: String, index: Option<usize> },
    Failed(u32),
}

/// The canonical text by the library.
fn ours(field: u32, version: u32, seed: u64, input: &[u8]) -> Outcome {
    let mut out = vec![0; 4 * input.len() + 16];
    let answer = sfv_c::canonical(field, version, RFC9651, seed, input, &mut out);
    match answer.status {
        OK => {
            out.truncate(answer.length);
            Outcome::Text(out)
        }
        NOTHING => Outcome::Nothing,
        REJECTED => {
            let message = sfv_c::message(answer.kind);
            // The two report different indices for a malformed byte sequence.
            let index = (message != "invalid byte sequence").then_some(answer.index);
            Outcome::Rejected { message, index }
        }
        status => Outcome::Failed(status),
    }
}

/// Returns `true` if the rows, written again, have the canonical text. A repeated key makes the text longer, and then it
/// parses to the same value.
fn is_written(field: u32, rows: &[Row<'_>], text: &[u8]) -> bool {
    let mut out = vec![0; 4 * text.len() + 40 * rows.len() + 16];
    let answer = sfv_c::write(field, RFC9651, rows, &mut out);
    let line = &out[..answer.length];
    let is_longer = line.len() > text.len() && ours(field, RFC9651, 1, line) == Outcome::Text(text.to_vec());
    answer.status == OK && (line == text || is_longer)
}

/// Returns `true` if the other calls agree with the result, and a canonical text with itself.
fn is_coherent(field: u32, version: u32, input: &[u8], outcome: &Outcome) -> bool {
    let checked = sfv_c::check(field, version, input);
    let mut room = vec![0; input.len()];
    let mut rows = vec![Row::default(); sfv_c::rows_for(input.len())];
    let listed = sfv_c::parse(field, version, input, &mut rows, &mut room);
    let same = checked.status == listed.status && (checked.kind, checked.index) == (listed.kind, listed.index);
    same && match outcome {
        Outcome::Text(text) => {
            checked.status == OK
                && ours(field, version, 0, text) == *outcome
                && text.iter().all(u8::is_ascii)
                && is_written(field, &rows[..listed.rows], text)
        }
        Outcome::Nothing => checked.status == OK && listed.rows == 0,
        Outcome::Rejected { message, index } => {
            checked.status == REJECTED
                && *message == sfv_c::message(checked.kind)
                && index.map_or(true, |index| index == checked.index)
        }
        Outcome::Failed(_) => false,
    }
}

/// Tries a field. Returns whether it is accepted, and whether all results agree. Prints it if they differ.
fn try_field(random: &mut Random, field: u32, version: u32, input: &[u8]) -> (bool, bool) {
    let outcome = ours(field, version, random.next(), input);
    let theirs = theirs::read(field, version, input);
    let is_same = theirs.as_ref().map_or(true, |theirs| *theirs == outcome);
    let agrees = is_same && is_coherent(field, version, input, &outcome);
    if !agrees {
        let text = String::from_utf8_lossy(input);
        println!("differs: {field} {version} {text:?}: {outcome:?}, the Rust crate {theirs:?}");
    }
    (matches!(outcome, Outcome::Text(_) | Outcome::Nothing), agrees)
}

fn main() -> ExitCode {
    let mut args = std::env::args().skip(1).map(|arg| arg.parse::<u64>().expect("a number"));
    let time = Duration::from_secs(args.next().unwrap_or(10));
    let mut random = Random::new(args.next().unwrap_or(1));
    let (start, mut tried, mut accepted, mut differ) = (Instant::now(), 0u64, 0u64, 0u64);
    while start.elapsed() < time && differ < 20 {
        for _ in 0..1_000 {
            let field = random.one_of(&[ITEM, LIST, DICTIONARY]);
            let version = random.one_of(&[RFC8941, RFC9651, RFC9651]);
            let input = fields::field(&mut random, field);
            let (is_accepted, agrees) = try_field(&mut random, field, version, &input);
            tried += 1;
            accepted += u64::from(is_accepted);
            differ += u64::from(!agrees);
        }
    }
    let with = if cfg!(feature = "theirs") { "the Rust crate" } else { "the library alone" };
    println!("{tried} fields, {accepted} accepted, {differ} differ, with {with}");
    ExitCode::from(u8::from(differ > 0))
}
