//! The exported calls of `include/sfv.h`, over slices. The header describes each call.
//!
//! A slice's pointer is never null, and a `&mut` overlaps no other argument. So no call here has a precondition.

use std::fmt;
use std::marker::PhantomData;

/// The result of a call: `sfv_answer`.
#[repr(C)]
#[derive(Clone, Copy, Debug, Default, PartialEq, Eq)]
pub struct Answer {
    pub status: u32,
    pub kind: u32,
    pub index: usize,
    pub length: usize,
    pub rows: usize,
}

/// Borrowed bytes: `sfv_bytes`.
#[repr(C)]
#[derive(Clone, Copy)]
pub struct Bytes<'a> {
    data: *const u8,
    length: usize,
    borrow: PhantomData<&'a [u8]>,
}

impl<'a> Bytes<'a> {
    pub fn as_slice(self) -> &'a [u8] {
        // SAFETY: `From` takes the parts of a slice, and the library writes no others.
        unsafe { std::slice::from_raw_parts(self.data, self.length) }
    }
}

impl<'a> From<&'a [u8]> for Bytes<'a> {
    fn from(bytes: &'a [u8]) -> Bytes<'a> {
        Bytes { data: bytes.as_ptr(), length: bytes.len(), borrow: PhantomData }
    }
}

impl Default for Bytes<'_> {
    fn default() -> Self {
        Bytes::from(&b""[..])
    }
}

impl PartialEq for Bytes<'_> {
    fn eq(&self, other: &Self) -> bool {
        self.as_slice() == other.as_slice()
    }
}

impl fmt::Debug for Bytes<'_> {
    fn fmt(&self, f: &mut fmt::Formatter<'_>) -> fmt::Result {
        write!(f, "{:?}", String::from_utf8_lossy(self.as_slice()))
    }
}

/// A part of a field: `sfv_row`.
#[repr(C)]
#[derive(Clone, Copy, Debug, Default, PartialEq)]
pub struct Row<'a> {
    pub tag: u32,
    pub kind: u32,
    pub key: Bytes<'a>,
    pub bytes: Bytes<'a>,
    pub number: i64,
}

pub const ITEM: u32 = 1;
pub const LIST: u32 = 2;
pub const DICTIONARY: u32 = 3;

pub const RFC8941: u32 = 8941;
pub const RFC9651: u32 = 9651;

pub const OK: u32 = 0;
pub const NOTHING: u32 = 1;
pub const TOO_SMALL: u32 = 2;
pub const REJECTED: u32 = 3;
pub const OUT_OF_MEMORY: u32 = 4;
pub const UNSUPPORTED: u32 = 6;
pub const WRONG_ROW: u32 = 7;

pub const ENTRY: u32 = 1;
pub const KEYED_ENTRY: u32 = 2;
pub const BEGIN_ITEM: u32 = 3;
pub const BEGIN_INNER: u32 = 4;
pub const BARE_ITEM: u32 = 5;
pub const PARAMETER: u32 = 6;
pub const END_PARAMETERS: u32 = 7;
pub const END_INNER: u32 = 8;

/// The largest number of rows of a field of this length.
pub fn rows_for(length: usize) -> usize {
    2 * length + 2
}

extern "C" {
    fn sfv_c_abi() -> u32;
    fn sfv_c_canonical(
        field: u32,
        reading: u32,
        writing: u32,
        seed: u64,
        input: *const u8,
        input_length: usize,
        out: *mut u8,
        out_length: usize,
    ) -> Answer;
    fn sfv_c_check(field: u32, version: u32, input: *const u8, input_length: usize) -> Answer;
    fn sfv_c_spans(
        field: u32,
        version: u32,
        input: *const u8,
        input_length: usize,
        rows: *mut Row<'_>,
        rows_length: usize,
        room: *mut u8,
        room_length: usize,
    ) -> Answer;
    fn sfv_c_write_spans(
        field: u32,
        version: u32,
        rows: *const Row<'_>,
        rows_length: usize,
        out: *mut u8,
        out_length: usize,
    ) -> Answer;
    fn sfv_c_message(kind: u32, out: *mut u8, out_length: usize) -> Answer;
}

pub fn abi() -> u32 {
    unsafe { sfv_c_abi() }
}

pub fn canonical(field: u32, reading: u32, writing: u32, seed: u64, input: &[u8], out: &mut [u8]) -> Answer {
    let (from, to) = (input.as_ptr(), out.as_mut_ptr());
    unsafe { sfv_c_canonical(field, reading, writing, seed, from, input.len(), to, out.len()) }
}

pub fn check(field: u32, version: u32, input: &[u8]) -> Answer {
    unsafe { sfv_c_check(field, version, input.as_ptr(), input.len()) }
}

pub fn parse<'a>(field: u32, version: u32, input: &'a [u8], rows: &mut [Row<'a>], room: &'a mut [u8]) -> Answer {
    let (to, decoded) = (rows.as_mut_ptr(), room.as_mut_ptr());
    unsafe { sfv_c_spans(field, version, input.as_ptr(), input.len(), to, rows.len(), decoded, room.len()) }
}

pub fn write(field: u32, version: u32, rows: &[Row<'_>], out: &mut [u8]) -> Answer {
    let (from, to) = (rows.as_ptr(), out.as_mut_ptr());
    unsafe { sfv_c_write_spans(field, version, from, rows.len(), to, out.len()) }
}

pub fn message(kind: u32) -> String {
    let mut out = [0; 64];
    let answer = unsafe { sfv_c_message(kind, out.as_mut_ptr(), out.len()) };
    String::from_utf8_lossy(&out[..answer.length]).into_owned()
}
