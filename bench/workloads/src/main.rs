//! The jobs of the program `sfv_bench`, with the Rust crate sfv. `workloads JOB SEED ROUNDS` prints a digest of all
//! results, which is the digest of `sfv_bench`.
//!
//! The fields and their changes are those of `sfv_bench`. The maps have the hash of the Rust crate. The jobs are:
//!
//! - `parse`: small fields to trees, with look-ups; some fields come in two lines;
//! - `rewrite`: small fields to trees and to their canonical texts, under both versions;
//! - `write`: small fields call by call, and by lists of calls;
//! - `reject`: small fields with an error;
//! - `large`: fields of 200 KB to trees and to their canonical texts, and a field of keys that collide.
//!
//! There is no job `read`: the Rust crate has no readers of Cache-Status, Proxy-Status, Priority, CDN-Cache-Control or
//! the head of a request.

mod digest;
mod fields;
mod large;
mod parse;
mod random;
mod reject;
mod rewrite;
mod templates;
mod write;

use digest::Digest;
use fields::{Field, Kind};
use random::Random;
use sfv::Error;
use std::env;
use std::process::ExitCode;

/// The number of small fields.
const FIELDS: u32 = 2_000;

/// Returns the small fields of a seed.
fn small_fields(random: &mut Random) -> Vec<Field> {
    (0..FIELDS).map(|number| templates::any_field(random, number)).collect()
}

/// Parses small fields to trees. Each eighth field comes in two lines.
fn parse_all(seed: u64, rounds: u64) -> Result<u64, Error> {
    let mut digest = Digest::new();
    let mut fields = small_fields(&mut Random::new(seed));
    for round in 0..rounds {
        for (number, field) in fields.iter_mut().enumerate() {
            field.change();
            if number % 8 == 0 && round % 2 == 0 {
                parse::parse_lines(field, &mut digest)?;
            } else {
                parse::parse(field, &mut digest)?;
            }
        }
    }
    Ok(digest.finish())
}

/// Rewrites small fields. Each third one is written for the older version.
fn rewrite_all(seed: u64, rounds: u64) -> Result<u64, Error> {
    let mut digest = Digest::new();
    let mut fields = small_fields(&mut Random::new(seed));
    for _ in 0..rounds {
        for (number, field) in fields.iter_mut().enumerate() {
            field.change();
            if number % 3 == 0 {
                rewrite::rewrite_older(field, &mut digest)?;
            } else {
                rewrite::rewrite(field, &mut digest)?;
            }
        }
    }
    Ok(digest.finish())
}

/// Writes small fields.
fn write_all(seed: u64, rounds: u64) -> Result<u64, Error> {
    let mut digest = Digest::new();
    let mut random = Random::new(seed);
    let mut path = Field::new(Kind::Item);
    path.push(&mut random, "/path/to/^^^^/&", 0);
    let mut word = Field::new(Kind::Item);
    word.push(&mut random, "uri-miss-&", 0);
    let mut bytes = Field::new(Kind::Item);
    bytes.push(&mut random, "$$$$$$$$$$$$$$$$$$$$$$$$&", 0);
    for _ in 0..rounds {
        path.change();
        word.change();
        bytes.change();
        let parts = write::parts_of(&path.text, &word.text, &bytes.text)?;
        for kind in 0..8 {
            write::write(kind, &parts, &mut random, &mut digest);
        }
    }
    Ok(digest.finish())
}

/// Rejects small fields: half of them by a tree, half by a check.
fn reject_all(seed: u64, rounds: u64) -> u64 {
    let mut digest = Digest::new();
    let mut random = Random::new(seed);
    let mut fields = small_fields(&mut random);
    for field in fields.iter_mut() {
        reject::spoil(&mut random, field);
    }
    for round in 0..rounds {
        for field in fields.iter_mut() {
            field.change();
            if round % 2 == 0 {
                reject::reject(field, &mut digest);
            } else {
                reject::check(field, &mut digest);
            }
        }
    }
    digest.finish()
}

/// Rewrites large fields.
fn large_all(seed: u64, rounds: u64) -> Result<u64, Error> {
    let mut digest = Digest::new();
    let mut random = Random::new(seed);
    for kind in 0..large::KINDS {
        let mut field = large::large_field(&mut random, kind);
        for _ in 0..rounds {
            field.change();
            rewrite::rewrite(&field, &mut digest)?;
        }
    }
    Ok(digest.finish())
}

/// Returns the digest of a job, or `None` if there is no such job.
fn perform(job: &str, seed: u64, rounds: u64) -> Option<Result<u64, Error>> {
    match job {
        "parse" => Some(parse_all(seed, rounds)),
        "rewrite" => Some(rewrite_all(seed, rounds)),
        "write" => Some(write_all(seed, rounds)),
        "reject" => Some(Ok(reject_all(seed, rounds))),
        "large" => Some(large_all(seed, rounds)),
        _ => None,
    }
}

/// Returns an argument that is a number.
fn argument(place: usize) -> Option<u64> {
    env::args().nth(place)?.parse::<u32>().ok().map(u64::from)
}

fn main() -> ExitCode {
    let (Some(job), Some(seed), Some(rounds)) = (env::args().nth(1), argument(2), argument(3)) else {
        eprintln!("usage: workloads JOB SEED ROUNDS");
        return ExitCode::from(2);
    };
    match perform(&job, seed, rounds) {
        Some(Ok(digest)) => {
            println!("{job} {digest:016x}");
            ExitCode::SUCCESS
        }
        Some(Err(error)) => {
            eprintln!("{job}: {error}");
            ExitCode::FAILURE
        }
        None => {
            eprintln!("{job}: no such job");
            ExitCode::from(3)
        }
    }
}
