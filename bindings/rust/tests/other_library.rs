//! Tests of this crate's source over a library that answers as each test chooses: with numbers that the crate does not
//! know, with sizes above those of the buffers, or with another binary interface.

use std::cell::Cell;

#[path = "../src/error.rs"]
mod error;
#[allow(dead_code)]
#[path = "../src/ffi.rs"]
mod ffi;
#[allow(dead_code)]
#[path = "../src/field.rs"]
mod field;

use error::{Error, ErrorKind, Unsupported};
use ffi::{Kind, Version};
use field::{parse, Value, Writer};

#[repr(C)]
#[derive(Clone, Copy)]
struct Answer { status: u32, kind: u32, index: usize, length: usize, rows: usize }

#[repr(C)]
struct Row { tag: u32, kind: u32, key: *const u8, key_length: usize, bytes: *const u8, bytes_length: usize, number: i64 }

const OK: u32 = 0;
const TOO_SMALL: u32 = 2;
const REJECTED: u32 = 3;
const OUT_OF_MEMORY: u32 = 4;
const BAD_ARGUMENT: u32 = 5;
const UNSUPPORTED: u32 = 6;

const fn status(status: u32) -> Answer { Answer { status, kind: 0, index: 0, length: 0, rows: 0 } }

/// What the library returns: its binary interface, the numbers of the row that it writes, and its answer.
#[derive(Clone, Copy)]
struct Library { abi: u32, has_processor: bool, tag: u32, kind: u32, answer: Answer, calls: usize }

const ITEM: Library =
    Library { abi: 1, has_processor: true, tag: 5, kind: 1, answer: Answer { rows: 1, ..status(OK) }, calls: 0 };

thread_local! {
    static LIBRARY: Cell<Library> = const { Cell::new(ITEM) };
}

fn library() -> Library { LIBRARY.with(Cell::get) }

fn set_library(library: Library) { LIBRARY.with(|cell| cell.set(library)) }

fn answer() -> Answer {
    let library = library();
    assert!(library.calls < 1000, "the crate calls again and again");
    set_library(Library { calls: library.calls + 1, ..library });
    library.answer
}

#[no_mangle]
extern "C" fn sfv_c_abi() -> u32 { library().abi }

#[no_mangle]
extern "C" fn sfv_seed() -> u64 { 1 }

#[no_mangle]
extern "C" fn sfv_processor_error() -> *const u8 {
    if library().has_processor { std::ptr::null() } else { b"too old\0".as_ptr() }
}

#[no_mangle]
extern "C" fn sfv_c_canonical(_: u32, _: u32, _: u32, _: u64, _: *const u8, _: usize, _: *mut u8, _: usize) -> Answer {
    answer()
}

#[no_mangle]
unsafe extern "C" fn sfv_c_spans(
    _: u32, _: u32, input: *const u8, _: usize, rows: *mut Row, count: usize, _: *mut u8, _: usize,
) -> Answer {
    let Library { tag, kind, .. } = library();
    if count > 0 {
        // SAFETY: the crate passes this number of rows.
        unsafe { rows.write(Row { tag, kind, key: input, key_length: 0, bytes: input, bytes_length: 0, number: 42 }) };
    }
    answer()
}

#[no_mangle]
extern "C" fn sfv_c_write_spans(_: u32, _: u32, _: *const Row, _: usize, _: *mut u8, _: usize) -> Answer { answer() }

#[no_mangle]
extern "C" fn sfv_c_message(_: u32, _: *mut u8, _: usize) -> Answer { answer() }

/// Returns the errors of all calls of the library with this answer.
fn errors(answer: Answer) -> [Option<Error>; 4] {
    set_library(ITEM);
    let field = parse(Kind::Item, b"1").expect("an item");
    set_library(Library { answer, ..ITEM });
    [
        parse(Kind::Item, b"1").err(),
        field.serialize(Version::Rfc9651).err(),
        Writer::new(Kind::Item).item(Value::Integer(1)).text(Version::Rfc9651).err(),
        ffi::canonical(Kind::Item, Version::Rfc9651, Version::Rfc9651, b"1").err(),
    ]
}

const INCOMPATIBLE: [Option<Error>; 4] = [Some(Error::Incompatible); 4];

#[test]
fn the_row_of_this_library() {
    set_library(ITEM);
    let field = parse(Kind::Item, b"1").unwrap();
    assert_eq!(field.members().next().and_then(|member| member.value), Some(Value::Integer(42)));
}

/// An enum would not compile here: a number that it does not name is undefined behaviour.
#[test]
fn each_number_is_a_value() {
    for number in [0, 8, 9, u32::MAX] {
        let (status, tag, kind) = (ffi::Status(number), ffi::Tag(number), ffi::ValueKind(number));
        assert_eq!(format!("{status:?} {tag:?} {kind:?}"), format!("Status({number}) Tag({number}) ValueKind({number})"));
    }
}

#[test]
fn unknown_statuses() {
    for number in [8, 9, 256, u32::MAX] {
        assert_eq!(errors(status(number)), INCOMPATIBLE, "{number}");
    }
    // The second buffer has the size that the library asked for, and no argument is bad.
    for number in [TOO_SMALL, BAD_ARGUMENT] {
        assert_eq!(errors(status(number)), INCOMPATIBLE, "{number}");
    }
}

#[test]
fn unknown_kinds() {
    for kind in [0, 1, 2, 31, u32::MAX] {
        assert_eq!(errors(Answer { kind, ..status(REJECTED) }), INCOMPATIBLE, "{kind}");
    }
    let last = Error::Syntax { kind: ErrorKind::ExpectedStartOfKey, index: 1 };
    assert_eq!(errors(Answer { kind: 30, index: 1, ..status(REJECTED) }), [Some(last); 4]);
    let unsupported = |kind| errors(Answer { kind, ..status(UNSUPPORTED) });
    for kind in [0, 1, 6, 9, u32::MAX] {
        assert_eq!(unsupported(kind), INCOMPATIBLE, "{kind}");
    }
    assert_eq!(unsupported(7), [Some(Error::Unsupported(Unsupported::Date)); 4]);
    assert_eq!(unsupported(8), [Some(Error::Unsupported(Unsupported::DisplayString)); 4]);
}

#[test]
fn out_of_memory() {
    assert_eq!(errors(Answer { kind: 1, ..status(OUT_OF_MEMORY) }), [Some(Error::OutOfMemory); 4]);
}

#[test]
fn unknown_tags_and_values() {
    for number in [9, 256, u32::MAX] {
        for (tag, kind) in [(number, 1), (5, number), (0, 1)] {
            set_library(Library { tag, kind, ..ITEM });
            assert_eq!(parse(Kind::Item, b"1").err(), Some(Error::Incompatible), "{tag} {kind}");
        }
    }
}

#[test]
fn sizes_above_the_buffers() {
    for size in [1000, usize::MAX] {
        assert_eq!(errors(Answer { rows: size, length: size, ..status(OK) }), INCOMPATIBLE);
    }
    let largest = Answer { rows: usize::MAX, length: usize::MAX, ..status(TOO_SMALL) };
    assert_eq!(errors(largest), [Some(Error::OutOfMemory); 4]);
}

/// Writing builds a tree, by a second call, only if two members or two parameters of one item have the same key.
#[test]
fn trees_for_repeated_keys() {
    let calls = |writer: Writer<'_>| {
        set_library(Library { answer: status(OK), ..ITEM });
        assert_eq!(writer.text(Version::Rfc9651), Ok(Some(String::new())));
        library().calls
    };
    let one = Value::Integer(1);
    let list = || Writer::new(Kind::List).begin_inner().item(one).parameter("a", one).item(one).parameter("b", one);
    assert_eq!(calls(list().parameter("a", one).end_inner().parameter("a", one).parameter("b", one)), 1);
    assert_eq!(calls(list().parameter("b", one).end_inner()), 2);
    assert_eq!(calls(list().end_inner().parameter("a", one).parameter("aa", one).parameter("a", one)), 2);
    let dictionary = || Writer::new(Kind::Dictionary).key("a").item(one).parameter("b", one).key("b").item(one);
    assert_eq!(calls(dictionary().parameter("a", one).parameter("b", one)), 1);
    assert_eq!(calls(dictionary().key("a").item(one)), 2);
}

/// Another library gets no call but the one for its number.
#[test]
fn another_binary_interface() {
    for abi in [0, 2, u32::MAX] {
        set_library(ITEM);
        let field = parse(Kind::Item, b"1").unwrap();
        set_library(Library { abi, ..ITEM });
        assert_eq!(parse(Kind::Item, b"1").err(), Some(Error::Incompatible));
        assert_eq!(field.serialize(Version::Rfc9651), Err(Error::Incompatible));
        assert_eq!(Writer::new(Kind::List).text(Version::Rfc9651), Err(Error::Incompatible));
        assert_eq!(ffi::canonical(Kind::Item, Version::Rfc9651, Version::Rfc9651, b"1"), Err(Error::Incompatible));
        assert_eq!(SYNTAX_ERROR.to_string(), "no such field at index 1");
        assert_eq!(library().calls, 0);
    }
}

/// Without its instructions, the library gets no call but those that every processor can run.
#[test]
fn another_processor() {
    set_library(ITEM);
    let field = parse(Kind::Item, b"1").unwrap();
    set_library(Library { has_processor: false, ..ITEM });
    assert_eq!(parse(Kind::Item, b"1").err(), Some(Error::Processor));
    assert_eq!(field.serialize(Version::Rfc9651), Err(Error::Processor));
    assert_eq!(Writer::new(Kind::List).text(Version::Rfc9651), Err(Error::Processor));
    assert_eq!(SYNTAX_ERROR.to_string(), "no such field at index 1");
    assert_eq!(library().calls, 0);
    assert_eq!(Error::Processor.to_string(), "libsfv needs an x86-64-v2 processor (SSE4.2, POPCNT)");
}

const SYNTAX_ERROR: Error = Error::Syntax { kind: ErrorKind::ExpectedBoolean, index: 1 };

#[test]
fn messages() {
    let sizes = [64, usize::MAX].map(|length| Answer { length, ..status(OK) });
    for answer in [status(TOO_SMALL), status(8), sizes[0], sizes[1]] {
        set_library(Library { answer, ..ITEM });
        assert_eq!(SYNTAX_ERROR.to_string(), "no such field at index 1");
    }
}
