//! Fields of 1 MB. Each is parsed to a tree and written once, by its own process.

use crate::cases::{accepted, Case};
use crate::{processor_time, Task};
use sfv_c::{DICTIONARY, LIST};
use std::process::Command;

const BYTES: usize = 1 << 20;
const ROUNDS: u32 = 7;

fn list(name: &'static str, member: &str) -> Case {
    let field = format!("{member},").repeat(BYTES / (member.len() + 1)) + member;
    accepted(name, LIST, field)
}

fn inner_list(name: &'static str, item: &str) -> Case {
    let field = format!("({})", format!("{item} ").repeat(BYTES / (item.len() + 1)));
    accepted(name, LIST, field)
}

fn dictionary(name: &'static str, value: &str) -> Case {
    let mut field = String::from("k");
    for n in 0..BYTES / (value.len() + 7) {
        field += &format!("{value},k{n}");
    }
    accepted(name, DICTIONARY, field)
}

/// A name, the function that makes the field, and its member, item or value.
type Row = (&'static str, fn(&'static str, &str) -> Case, &'static str);

const ROWS: [Row; 11] = [
    ("`()`", list, "()"),
    ("`1`", list, "1"),
    ("`\"\\\\\"`", list, "\"\\\\\""),
    ("`a;b=1, (c;d);e`", list, "a;b=1,(c;d);e"),
    ("`?1;a`", list, "?1;a"),
    ("`a;a`", list, "a;a"),
    ("`();a`", list, "();a"),
    ("inner list of `a;a`", inner_list, "a;a"),
    ("dictionary of `k0`, ..", dictionary, ""),
    ("dictionary of `k0;a`, ..", dictionary, ";a"),
    ("dictionary of `k0=(c;d);e`, ..", dictionary, "=(c;d);e"),
];

/// The peak memory of this process, in kilobytes.
fn peak() -> u64 {
    let status = std::fs::read_to_string("/proc/self/status").unwrap_or_default();
    let peak = status.lines().find_map(|line| line.strip_prefix("VmHWM:"));
    peak.and_then(|peak| peak.trim().strip_suffix(" kB")?.parse().ok()).expect("Linux names the peak")
}

/// Runs one side on a field, and prints the time and the peak.
pub fn run_one(side: &str, place: usize) {
    let (name, make, part) = ROWS[place];
    let case = make(name, part);
    let start = processor_time();
    match side {
        "ours" => {
            let mut ours = crate::Ours::writing(&case);
            ours.run(&case, Task::Canonical);
        }
        #[cfg(feature = "theirs")]
        "theirs" => crate::theirs::Theirs::parsing().run(&case, Task::Canonical),
        _ => panic!("no side {side}"),
    }
    println!("{} {}", processor_time() - start, peak());
}

/// The least time of a side in nanoseconds, and its least peak.
fn least(side: &str, place: usize) -> (f64, f64) {
    let program = std::env::current_exe().expect("the program has a path");
    let (mut time, mut memory) = (f64::MAX, f64::MAX);
    for _ in 0..ROUNDS {
        let run = Command::new(&program).args(["one", side, &place.to_string()]).output().expect("the program runs");
        assert!(run.status.success(), "{side} {place}");
        let line = String::from_utf8(run.stdout).expect("two numbers");
        let (this_time, this_memory) = line.trim().split_once(' ').expect("two numbers");
        time = time.min(this_time.parse().expect("a time"));
        memory = memory.min(this_memory.parse().expect("a number"));
    }
    (time, memory)
}

pub fn print() {
    println!("\nFields of 1 MB, each parsed to a tree and written by its own process, least of {ROUNDS} runs.\n");
    println!("| field of 1 MB | time | ms | peak memory | MB |\n|---|--:|--:|--:|--:|");
    for (place, (name, ..)) in ROWS.iter().enumerate() {
        let (time, memory) = least("ours", place);
        let ratios = cfg!(feature = "theirs").then(|| least("theirs", place));
        let (times, memories) = match ratios {
            Some((their_time, their_memory)) => {
                (format!("{:.2}", time / their_time), format!("{:.2}", memory / their_memory))
            }
            None => (String::new(), String::new()),
        };
        println!("| {} | {times} | {:.1} | {memories} | {:.1} |", name, time / 1e6, memory / 1e3);
    }
}
