//! The calls of libsfv. The header sfv.h describes each call and struct.

use std::collections::TryReserveError;
use std::os::raw::c_char;
use std::marker::PhantomData;
use std::{slice, str};

use crate::Error;

/// The SFV_ABI of the header.
const ABI: u32 = 1;

/// The type of a field.
#[repr(u32)]
#[derive(Clone, Copy, Debug, PartialEq, Eq)]
pub enum Kind { Item = 1, List, Dictionary }

/// RFC 8941 has no dates and no display strings.
#[repr(u32)]
#[derive(Clone, Copy, Debug, PartialEq, Eq)]
pub enum Version { Rfc8941 = 8941, Rfc9651 = 9651 }

// The numbers that the library returns. An enum would have undefined behaviour for a number that it does not name.
macro_rules! numbers {
    ($($type:ident { $($name:ident = $number:literal)* })*) => {$(
        #[repr(transparent)]
        #[derive(Clone, Copy, Debug, PartialEq, Eq)]
        pub struct $type(pub u32);

        #[allow(dead_code)] // The library returns each of them.
        impl $type { $(pub const $name: $type = $type($number);)* }
    )*};
}

numbers! {
    Status {
        OK = 0 NOTHING = 1 TOO_SMALL = 2 REJECTED = 3 OUT_OF_MEMORY = 4 BAD_ARGUMENT = 5 UNSUPPORTED = 6 WRONG_ROW = 7
    }
    Tag {
        ENTRY = 1 KEY = 2 BEGIN_ITEM = 3 BEGIN_INNER = 4 BARE_ITEM = 5 PARAMETER = 6 END_PARAMETERS = 7 END_INNER = 8
    }
    ValueKind {
        NONE = 0 INTEGER = 1 DECIMAL = 2 STRING = 3 TOKEN = 4 BYTE_SEQUENCE = 5 BOOLEAN = 6 DATE = 7 DISPLAY_STRING = 8
    }
}

#[repr(C)]
pub struct Answer { pub status: Status, pub kind: u32, pub index: usize, pub length: usize, pub rows: usize }

/// A part of a field. It borrows the bytes that its pointers point to.
#[repr(C)]
#[derive(Clone, Copy)]
pub struct Row<'a> {
    pub tag: Tag,
    pub kind: ValueKind,
    key: *const u8,
    key_length: usize,
    bytes: *const u8,
    bytes_length: usize,
    pub number: i64,
    borrow: PhantomData<&'a [u8]>,
}

// SAFETY: the pointers are shared borrows of bytes.
unsafe impl Send for Row<'_> {}
// SAFETY: the same.
unsafe impl Sync for Row<'_> {}

impl<'a> Row<'a> {
    pub fn new(tag: Tag, key: &'a str, kind: ValueKind, bytes: &'a [u8], number: i64) -> Self {
        let (key, key_length, bytes, bytes_length) = (key.as_ptr(), key.len(), bytes.as_ptr(), bytes.len());
        Row { tag, kind, key, key_length, bytes, bytes_length, number, borrow: PhantomData }
    }

    pub fn key(&self) -> &'a str { text(self.key_bytes()) }

    pub fn key_bytes(&self) -> &'a [u8] {
        // SAFETY: `new` and the library write the parts of bytes that are borrowed for 'a (see `Rows`).
        unsafe { slice::from_raw_parts(self.key, self.key_length) }
    }

    pub fn bytes(&self) -> &'a [u8] {
        // SAFETY: as in `key_bytes`.
        unsafe { slice::from_raw_parts(self.bytes, self.bytes_length) }
    }

    fn is_known(&self) -> bool {
        (Tag::ENTRY.0..=Tag::END_INNER.0).contains(&self.tag.0) && self.kind.0 <= ValueKind::DISPLAY_STRING.0
    }
}

pub fn text(bytes: &[u8]) -> &str { str::from_utf8(bytes).expect("the library returns UTF-8") }

/// The rows of a field. Their bytes are in the input, or in the room.
pub struct Rows<'a> { rows: Vec<Row<'a>>, _room: Vec<u8> }

impl Rows<'_> {
    /// Returns the rows, which borrow from the room, too.
    pub fn get(&self) -> &[Row<'_>] { &self.rows }
}

extern "C" {
    fn sfv_c_abi() -> u32;
    fn sfv_c_canonical(kind: Kind, reading: Version, writing: Version, seed: u64, input: *const u8, input_length: usize,
                       out: *mut u8, out_length: usize) -> Answer;
    fn sfv_c_spans(kind: Kind, version: Version, input: *const u8, input_length: usize, rows: *mut Row<'_>,
                   rows_length: usize, room: *mut u8, room_length: usize) -> Answer;
    fn sfv_c_write_spans(kind: Kind, version: Version, rows: *const Row<'_>, rows_length: usize, out: *mut u8,
                         out_length: usize) -> Answer;
    fn sfv_c_message(kind: u32, out: *mut u8, out_length: usize) -> Answer;
    fn sfv_seed() -> u64;
    fn sfv_processor_error() -> *const c_char;
}

/// Returns an error if the library has another binary interface, or needs another processor. Every other call of the library
/// comes after it.
fn check_library() -> Result<(), Error> {
    // SAFETY: they have no arguments, and run on every x86-64 processor.
    let (abi, error) = unsafe { (sfv_c_abi(), sfv_processor_error()) };
    match abi {
        ABI if error.is_null() => Ok(()),
        ABI => Err(Error::Processor),
        _ => Err(Error::Incompatible),
    }
}

fn reserved<T>(count: usize) -> Result<Vec<T>, TryReserveError> {
    let mut vector = Vec::new();
    vector.try_reserve_exact(count)?;
    Ok(vector)
}

fn zeros(count: usize) -> Result<Vec<u8>, TryReserveError> {
    let mut bytes = reserved(count)?;
    bytes.resize(count, 0);
    Ok(bytes)
}

pub fn parse(kind: Kind, version: Version, input: &[u8]) -> Result<Rows<'_>, Error> {
    check_library()?;
    // Most fields have at most 64 rows. Others are parsed twice.
    let (mut count, mut length) = (2 * input.len().min(31) + 2, input.len());
    for _ in 0..2 {
        let (mut rows, mut room) = (reserved(count)?, reserved(length)?);
        let (to, decoded) = (rows.as_mut_ptr(), room.as_mut_ptr());
        // SAFETY: the pointers have these lengths, are not null, and do not overlap.
        let answer = unsafe { sfv_c_spans(kind, version, input.as_ptr(), input.len(), to, count, decoded, length) };
        match answer.status {
            Status::TOO_SMALL => (count, length) = (answer.rows, answer.length),
            Status::OK if answer.rows <= count => {
                // SAFETY: the library wrote this number of rows. Their bytes are in the input, which is borrowed, or in
                // the allocation of the room, which `Rows` keeps and never changes.
                unsafe { rows.set_len(answer.rows) };
                let are_known = rows.iter().all(Row::is_known);
                return if are_known { Ok(Rows { rows, _room: room }) } else { Err(Error::Incompatible) };
            }
            _ => return Err(answer.into()),
        }
    }
    Err(Error::Incompatible)
}

/// Passes a buffer to `write`, again if it is too small. Returns the text, or `None` without a member.
fn written(guess: usize, write: impl Fn(*mut u8, usize) -> Answer) -> Result<Option<String>, Error> {
    let mut out = zeros(guess)?;
    let mut answer = write(out.as_mut_ptr(), out.len());
    if answer.status == Status::TOO_SMALL {
        out = zeros(answer.length)?;
        answer = write(out.as_mut_ptr(), out.len());
    }
    match answer.status {
        Status::NOTHING => Ok(None),
        Status::OK if answer.length <= out.len() => {
            out.truncate(answer.length);
            String::from_utf8(out).map(Some).or(Err(Error::Incompatible))
        }
        _ => Err(answer.into()),
    }
}

pub fn write(kind: Kind, version: Version, rows: &[Row<'_>]) -> Result<Option<String>, Error> {
    check_library()?;
    // Enough for most texts.
    let guess = rows.iter().fold(0, |sum: usize, row| {
        sum.saturating_add(row.key_length + row.bytes_length + row.bytes_length / 2 + 8)
    });
    // SAFETY: the pointers are parts of slices, so they are not null. Nothing else borrows the buffer.
    written(guess, |out, length| unsafe { sfv_c_write_spans(kind, version, rows.as_ptr(), rows.len(), out, length) })
}

pub fn canonical(kind: Kind, reading: Version, writing: Version, input: &[u8]) -> Result<Option<String>, Error> {
    check_library()?;
    // SAFETY: as in `write`.
    written(input.len(), |out, length| unsafe {
        sfv_c_canonical(kind, reading, writing, sfv_seed(), input.as_ptr(), input.len(), out, length)
    })
}

/// Writes the message of a kind of syntax error to a buffer, and returns it.
pub fn message(kind: u32, out: &mut [u8; 63]) -> Option<&str> {
    check_library().ok()?;
    // SAFETY: as in `write`.
    let answer = unsafe { sfv_c_message(kind, out.as_mut_ptr(), out.len()) };
    let message = out.get(..answer.length).filter(|_| answer.status == Status::OK)?;
    str::from_utf8(message).ok()
}
