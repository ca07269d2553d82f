#![forbid(unsafe_code)]

use std::collections::TryReserveError;
use std::fmt;

use crate::ffi::{self, Answer, Status, ValueKind};

macro_rules! error_kinds {
    ($($name:ident = $number:literal)*) => {
        /// The kinds of syntax error.
        #[derive(Clone, Copy, Debug, PartialEq, Eq, Hash)]
        #[non_exhaustive]
        pub enum ErrorKind { $($name = $number),* }

        fn kind_of(number: u32) -> Option<ErrorKind> {
            Some(match number { $($number => ErrorKind::$name,)* _ => return None })
        }
    };
}

error_kinds! {
    Empty = 3 InvalidCharacter = 4 TrailingCharactersAfterMember = 5 TrailingComma = 6
    TrailingCharactersAfterParsedValue = 7 ExpectedInnerListDelimiter = 8 UnterminatedInnerList = 9
    ExpectedStartOfBareItem = 10 ExpectedBoolean = 11 InvalidStringCharacter = 12 UnterminatedString = 13
    UnterminatedEscapeSequence = 14 InvalidEscapeSequence = 15 UnterminatedByteSequence = 16 InvalidByteSequence = 17
    ExpectedDigit = 18 TooManyDigits = 19 TooManyDigitsBeforeDecimalPoint = 20 TooManyDigitsAfterDecimalPoint = 21
    TrailingDecimalPoint = 22 Rfc8941Date = 23 NonIntegerDate = 24 Rfc8941DisplayString = 25 ExpectedQuote = 26
    InvalidUtf8InDisplayString = 27 InvalidDisplayStringCharacter = 28 UnterminatedDisplayString = 29
    ExpectedStartOfKey = 30
}

/// The values that RFC 8941 does not support.
#[derive(Clone, Copy, Debug, PartialEq, Eq, Hash)]
pub enum Unsupported { Date, DisplayString }

/// The error of a call.
#[derive(Clone, Copy, Debug, PartialEq, Eq)]
#[non_exhaustive]
pub enum Error {
    /// The input is no such field. The index is at most its length.
    Syntax { kind: ErrorKind, index: usize },
    /// The version lacks a value: the first such value.
    Unsupported(Unsupported),
    /// No field has these parts: the number of the first part that is wrong or missing.
    WrongPart { index: usize },
    OutOfMemory,
    /// The program is linked to another version of libsfv: one with another binary interface, or one that returns a
    /// number that this crate does not know. Every call can return this error.
    Incompatible,
    /// The processor lacks instructions of the library, which is for x86-64-v2. Every call can return this error.
    Processor,
}

impl From<Answer> for Error {
    fn from(Answer { status, kind, index, .. }: Answer) -> Error {
        match (status, ValueKind(kind)) {
            (Status::REJECTED, _) => kind_of(kind).map_or(Error::Incompatible, |kind| Error::Syntax { kind, index }),
            (Status::UNSUPPORTED, ValueKind::DATE) => Error::Unsupported(Unsupported::Date),
            (Status::UNSUPPORTED, ValueKind::DISPLAY_STRING) => Error::Unsupported(Unsupported::DisplayString),
            (Status::WRONG_ROW, _) => Error::WrongPart { index },
            (Status::OUT_OF_MEMORY, _) => Error::OutOfMemory,
            _ => Error::Incompatible,
        }
    }
}

impl From<TryReserveError> for Error {
    fn from(_: TryReserveError) -> Error { Error::OutOfMemory }
}

impl fmt::Display for Error {
    fn fmt(&self, f: &mut fmt::Formatter<'_>) -> fmt::Result {
        match *self {
            Error::Syntax { kind, index } => {
                let mut buffer = [0; 63];
                let message = ffi::message(kind as u32, &mut buffer).unwrap_or("no such field");
                write!(f, "{message} at index {index}")
            }
            Error::Unsupported(Unsupported::Date) => f.write_str("RFC 8941 does not support dates"),
            Error::Unsupported(Unsupported::DisplayString) => f.write_str("RFC 8941 does not support display strings"),
            Error::WrongPart { index } => write!(f, "no field has these parts: part {index} is wrong or missing"),
            Error::OutOfMemory => f.write_str("out of memory"),
            Error::Processor => f.write_str("libsfv needs an x86-64-v2 processor (SSE4.2, POPCNT)"),
            Error::Incompatible => f.write_str("this version of libsfv is not the one that the crate needs"),
        }
    }
}

impl std::error::Error for Error {}
