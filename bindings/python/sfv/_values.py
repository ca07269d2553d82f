"""The types of the module, the numbers of include/sfv.h, and values as the library takes and returns them."""

from __future__ import annotations

import re
from collections.abc import Mapping as AnyMapping
from dataclasses import dataclass
from datetime import datetime, timedelta, timezone
from decimal import ROUND_HALF_EVEN, Context, Decimal, InvalidOperation
from enum import Enum, IntEnum
from typing import Any, Dict, List, Mapping, NoReturn, Pattern, Tuple, Union

Type = IntEnum("Type", "ITEM LIST DICTIONARY")
Version = IntEnum("Version", {"RFC8941": 8941, "RFC9651": 9651})
Status = IntEnum("Status", "OK NOTHING TOO_SMALL REJECTED OUT_OF_MEMORY BAD_ARGUMENT UNSUPPORTED WRONG_ROW", start=0)
Tag = IntEnum("Tag", "ENTRY KEYED_ENTRY BEGIN_ITEM BEGIN_INNER BARE_ITEM PARAMETER END_PARAMETERS END_INNER")
Kind = IntEnum("Kind", "NONE INTEGER DECIMAL STRING TOKEN BYTE_SEQUENCE BOOLEAN DATE DISPLAY_STRING", start=0)
ErrorKind = Enum(
    "ErrorKind",
    """NONE OUT_OF_MEMORY OUT_OF_RANGE EMPTY INVALID_CHARACTER TRAILING_CHARACTERS_AFTER_MEMBER TRAILING_COMMA
    TRAILING_CHARACTERS_AFTER_PARSED_VALUE EXPECTED_INNER_LIST_DELIMITER UNTERMINATED_INNER_LIST
    EXPECTED_START_OF_BARE_ITEM EXPECTED_BOOLEAN INVALID_STRING_CHARACTER UNTERMINATED_STRING
    UNTERMINATED_ESCAPE_SEQUENCE INVALID_ESCAPE_SEQUENCE UNTERMINATED_BYTE_SEQUENCE INVALID_BYTE_SEQUENCE EXPECTED_DIGIT
    TOO_MANY_DIGITS TOO_MANY_DIGITS_BEFORE_DECIMAL_POINT TOO_MANY_DIGITS_AFTER_DECIMAL_POINT TRAILING_DECIMAL_POINT
    RFC8941_DATE NON_INTEGER_DATE RFC8941_DISPLAY_STRING EXPECTED_QUOTE INVALID_UTF8_IN_DISPLAY_STRING
    INVALID_DISPLAY_STRING_CHARACTER UNTERMINATED_DISPLAY_STRING EXPECTED_START_OF_KEY""",
    start=0,
)


class ParseError(ValueError):
    """The input is no such field: the kind of the syntax error, its index in the input, and its message."""

    def __init__(self, kind: ErrorKind, index: int, message: str) -> None:
        super().__init__(kind, index, message)
        self.kind, self.index, self.message = kind, index, message

    def __str__(self) -> str:
        return f"{self.message} at index {self.index}"


class _Text(str):
    __slots__ = ()

    def __repr__(self) -> str:
        return f"{type(self).__name__}({super().__repr__()})"


class Token(_Text):
    """A token. It equals the string with the same text; `isinstance` distinguishes them.

    Raises `ValueError` if no token has this text.
    """

    __slots__ = ()

    def __new__(cls, text: str) -> Token:
        _matching("token", _TOKEN, text)
        return super().__new__(cls, text)


class DisplayString(_Text):
    """A display string: any Unicode text. It equals the string with the same text.

    Raises `ValueError` if the text contains a surrogate.
    """

    __slots__ = ()

    def __new__(cls, text: str) -> DisplayString:
        _matching("Unicode text", _UNICODE, text)
        return super().__new__(cls, text)


@dataclass(frozen=True)
class Date:
    """A date in seconds since 1970. A date in the years 1 to 9999 parses to `datetime`, and any other to `Date`.

    Raises `ValueError` if the number is no integer of at most 15 digits.
    """

    seconds: int

    def __post_init__(self) -> None:
        _in_range(self.seconds)


BareItem = Union[int, Decimal, str, Token, bytes, bool, datetime, Date, DisplayString]
Parameters = Dict[str, BareItem]
Item = Tuple[BareItem, Parameters]
InnerList = Tuple[List[Item], Parameters]
Member = Union[Item, InnerList]
# What `serialize` takes. Members are `Any`, because a `List[int]` is no `List` of all types of members.
FieldValue = Union[BareItem, Item, List[Any], Mapping[str, Any]]

# A row to write: its tag, key, kind, bytes and number.
Row = Tuple[int, bytes, int, bytes, int]
# The kind, bytes and number of a value.
_Encoded = Tuple[int, bytes, int]

_EPOCH = datetime(1970, 1, 1, tzinfo=timezone.utc)
_LARGEST = 999_999_999_999_999
# Holds each decimal of a field, so it rounds only to thousandths. The caller's context has no effect.
_DECIMALS = Context(prec=18, rounding=ROUND_HALF_EVEN, traps=[InvalidOperation])
_THOUSANDTH = Decimal("0.001")
_KEY = re.compile(r"[a-z*][a-z0-9_.*-]*")
_TOKEN = re.compile(r"[A-Za-z*][A-Za-z0-9!#$%&'*+.^_`|~:/-]*")
_STRING = re.compile(r"[ -~]*")
_UNICODE = re.compile(r"[^\ud800-\udfff]*")


def checked_version(version: int) -> int:
    """Returns the version. Raises `ValueError` for another number."""
    return int(Version(version))


def fail(status: int, kind: int, index: int, message: str) -> NoReturn:
    """Raises the error of an answer of the library."""
    if status == Status.REJECTED:
        raise ParseError(ErrorKind(kind), index, message)
    if status == Status.UNSUPPORTED:
        raise ValueError(f"RFC 8941 does not support {'dates' if kind == Kind.DATE else 'display strings'}")
    if status == Status.OUT_OF_MEMORY:
        raise MemoryError
    raise RuntimeError(f"libsfv returned the status {status}")


def decimal_of(thousandths: int) -> Decimal:
    return _DECIMALS.divide(thousandths, 1000)


def date_of(seconds: int) -> Union[datetime, Date]:
    try:
        return _EPOCH + timedelta(seconds=seconds)
    except OverflowError:
        return Date(seconds)


def thousandths_of(value: Decimal) -> int:
    """Rounds to three digits after the point, half to even."""
    try:
        return _in_range(int(value.quantize(_THOUSANDTH, context=_DECIMALS).scaleb(3, _DECIMALS)))
    except (InvalidOperation, OverflowError, ValueError) as error:
        raise ValueError(f"no decimal of at most 12 digits before the point: {value}") from error


def seconds_of(value: Union[datetime, Date]) -> int:
    if isinstance(value, Date):
        return _in_range(value.seconds)
    if value.utcoffset() is None or (value - _EPOCH).microseconds:
        raise ValueError(f"a date needs a time zone and whole seconds: {value!r}")
    return (value - _EPOCH) // timedelta(seconds=1)


def rows_of(value: Any) -> Tuple[Type, List[Row]]:
    """Returns the type of a field and its rows. Raises `ValueError` if no field can hold the value."""
    if isinstance(value, list):
        entries = [(_row(Tag.ENTRY), member) for member in value]
        return Type.LIST, [row for entry, member in entries for row in (entry, *_member_rows(member))]
    if isinstance(value, AnyMapping):
        keyed = [(_row(Tag.KEYED_ENTRY, _matching("key", _KEY, key)), member) for key, member in value.items()]
        return Type.DICTIONARY, [row for entry, member in keyed for row in (entry, *_member_rows(member))]
    return Type.ITEM, _item_rows(value)


def _member_rows(member: Any) -> List[Row]:
    value, parameters = _pair(member)
    if not isinstance(value, list):
        return [_row(Tag.BEGIN_ITEM), *_item_rows(member)]
    items = [row for item in value for row in (_row(Tag.BEGIN_ITEM), *_item_rows(item))]
    return [_row(Tag.BEGIN_INNER), *items, _row(Tag.END_INNER), *_parameter_rows(parameters)]


def _item_rows(item: Any) -> List[Row]:
    value, parameters = _pair(item)
    return [_row(Tag.BARE_ITEM, b"", _encoded(value)), *_parameter_rows(parameters)]


def _parameter_rows(parameters: Mapping[str, Any]) -> List[Row]:
    rows = [_row(Tag.PARAMETER, _matching("key", _KEY, key), _encoded(value)) for key, value in parameters.items()]
    return [*rows, _row(Tag.END_PARAMETERS)]


def _row(tag: int, key: bytes = b"", encoded: _Encoded = (0, b"", 0)) -> Row:
    return (tag, key, *encoded)


def _pair(member: Any) -> Tuple[Any, Mapping[str, Any]]:
    """Returns the value and the parameters of a member. Only a tuple has parameters."""
    value, parameters = member if isinstance(member, tuple) and len(member) == 2 else (member, {})
    if not isinstance(parameters, AnyMapping):
        raise ValueError(f"no dict of parameters: {parameters!r}")
    return value, parameters


def _encoded(value: Any) -> _Encoded:
    """Returns the kind, bytes and number of a value. A `bool` is an `int`, and a token or display string is a `str`."""
    if isinstance(value, bool):
        return Kind.BOOLEAN, b"", int(value)
    if isinstance(value, int):
        return Kind.INTEGER, b"", _in_range(value)
    if isinstance(value, Decimal):
        return Kind.DECIMAL, b"", thousandths_of(value)
    if isinstance(value, DisplayString):
        return Kind.DISPLAY_STRING, _matching("Unicode text", _UNICODE, value), 0
    if isinstance(value, Token):
        return Kind.TOKEN, _matching("token", _TOKEN, value), 0
    if isinstance(value, str):
        return Kind.STRING, _matching("string of printable ASCII", _STRING, value), 0
    if isinstance(value, bytes):
        return Kind.BYTE_SEQUENCE, value, 0
    if isinstance(value, (datetime, Date)):
        return Kind.DATE, b"", _in_range(seconds_of(value))
    raise ValueError(f"no field can hold a {type(value).__name__}: {value!r}")


def _matching(name: str, pattern: Pattern[str], text: Any) -> bytes:
    if not isinstance(text, str) or not pattern.fullmatch(text):
        raise ValueError(f"no {name}: {text!r}")
    return text.encode("utf-8")


def _in_range(number: int) -> int:
    if not isinstance(number, int) or not -_LARGEST <= number <= _LARGEST:
        raise ValueError(f"no integer of at most 15 digits: {number!r}")
    return number
