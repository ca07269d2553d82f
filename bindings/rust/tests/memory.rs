//! Tests of calls that run out of memory.

use std::alloc::{GlobalAlloc, Layout, System};
use std::cell::Cell;
use std::fmt::Debug;
use std::io::Write;
use std::process::Command;
use std::{env, iter, ptr};

use sfv_proved::{parse, Error, ErrorKind, Kind, Value, Version, Writer};

/// The allocator of the system, except that one request of a thread can fail. The library has its own allocator.
struct Failing;

thread_local! {
    /// The number of the request that fails, counted from the next one. 0 for none.
    static FAILS: Cell<usize> = const { Cell::new(0) };
}

fn fails() -> bool {
    let number = FAILS.with(Cell::get);
    FAILS.with(|fails| fails.set(number.saturating_sub(1)));
    number == 1
}

// SAFETY: the blocks are those of the system.
unsafe impl GlobalAlloc for Failing {
    unsafe fn alloc(&self, layout: Layout) -> *mut u8 {
        // SAFETY: the caller's layout.
        if fails() { ptr::null_mut() } else { unsafe { System.alloc(layout) } }
    }

    unsafe fn dealloc(&self, block: *mut u8, layout: Layout) {
        // SAFETY: the caller's block.
        unsafe { System.dealloc(block, layout) }
    }
}

#[global_allocator]
static ALLOCATOR: Failing = Failing;

/// Makes the call, and again with each of its requests failing. Returns the number of requests.
fn fail_each<T: Debug + PartialEq>(call: impl Fn() -> Result<T, Error>) -> usize {
    let expected = call();
    assert!(expected.is_ok(), "{expected:?}");
    for number in 1.. {
        FAILS.with(|fails| fails.set(number));
        let result = call();
        let has_failed = FAILS.with(|fails| fails.replace(0)) == 0;
        if !has_failed {
            assert_eq!(result, expected);
            return number - 1;
        }
        assert_eq!(result, Err(Error::OutOfMemory), "request {number}");
    }
    unreachable!()
}

#[test]
fn each_request_fails_in_turn() {
    let long = iter::repeat("\"\\\\\"").take(70).collect::<Vec<_>>().join(", ");
    let fields = [(Kind::Item, "1"), (Kind::Dictionary, "a;b;c, d"), (Kind::Dictionary, "a;b;c, a"), (Kind::List, &long)];
    for (kind, input) in fields {
        let count = fail_each(|| parse(kind, input.as_bytes()).map(|field| field.members().count()));
        assert_eq!(count, if input == long { 4 } else { 2 }, "rows and room of {input}");
        let field = parse(kind, input.as_bytes()).unwrap();
        let count = fail_each(|| field.serialize(Version::Rfc9651));
        assert_eq!(count, if kind == Kind::Dictionary { 2 } else { 1 }, "the text of {input}, and its keys");
    }
    let quotes = "\"".repeat(1000);
    let writer = || Writer::new(Kind::Dictionary).key("a").item(Value::String(&quotes)).parameter("b", Value::Integer(1));
    assert!(fail_each(|| writer().text(Version::Rfc9651)) >= 4);
    assert!(fail_each(|| writer().key("a").item(Value::Boolean(true)).text(Version::Rfc9651)) >= 5);
}

#[test]
fn an_error_is_displayed_without_memory() {
    let mut text = [0; 64];
    let error = Error::Syntax { kind: ErrorKind::ExpectedBoolean, index: 1 };
    FAILS.with(|fails| fails.set(1));
    write!(&mut text[..], "{error}").unwrap();
    assert_eq!(FAILS.with(|fails| fails.replace(0)), 1);
    assert!(text.starts_with(b"expected boolean ('0' or '1') at index 1\0"));
}

const MEGABYTE: usize = 1_000_000;

/// The calls for fields of 20 MB, and a limit of memory in MB that each exceeds.
const LIMITED: [(&str, usize); 4] = [("room", 40), ("rows", 400), ("serialize", 60), ("write", 60)];

fn out_of_memory(call: &str) -> Option<Error> {
    let mut text = "a,".repeat(10 * MEGABYTE);
    if call == "rows" {
        text.pop();
        return parse(Kind::List, text.as_bytes()).err();
    }
    if call == "write" {
        return Writer::new(Kind::Item).item(Value::String(&text)).text(Version::Rfc9651).err();
    }
    text.replace_range(..1, "\"");
    text.replace_range(text.len() - 1.., "\"");
    let field = parse(Kind::Item, text.as_bytes());
    if call == "room" { field.err() } else { field.unwrap().serialize(Version::Rfc9651).err() }
}

/// Starts this test in a process with a limit. The process must end with the error, and not be aborted.
#[test]
fn a_limit_of_memory() {
    if let Ok(call) = env::var("SFV_LIMITED") {
        return assert_eq!(out_of_memory(&call), Some(Error::OutOfMemory));
    }
    for (call, megabytes) in LIMITED {
        let script = format!("ulimit -v {} && exec \"$0\" --exact a_limit_of_memory --test-threads=1", 1000 * megabytes);
        let mut command = Command::new("sh");
        command.arg("-c").arg(script).arg(env::current_exe().unwrap());
        // A backtrace would need memory, too.
        command.env("SFV_LIMITED", call).env("RUST_BACKTRACE", "0");
        let output = command.output().expect("sh runs");
        assert!(output.status.success(), "{call}: {}, {output:?}", output.status);
    }
}
