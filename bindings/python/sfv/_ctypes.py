"""The calls of the library by ctypes, for a module that was installed without a C compiler."""

from __future__ import annotations

import ctypes
import struct
from ctypes import c_char, c_char_p, c_size_t, c_uint32, c_void_p
from itertools import takewhile
from typing import Any, Callable, Dict, Iterable, Iterator, List, Tuple

from . import _values
from ._values import DisplayString, Item, Kind, Member, Parameters, Row, Status, Tag, Token, Type, decimal_of, date_of


class _Answer(ctypes.Structure):
    _fields_ = [("status", c_uint32), ("kind", c_uint32), ("index", c_size_t), ("length", c_size_t), ("rows", c_size_t)]


_ROW = struct.Struct("IIPNPNq")  # the members of sfv_row
_library = ctypes.CDLL("libsfv.so.1")
_processor_error = _library.sfv_processor_error
_processor_error.restype = c_char_p
if _library.sfv_c_abi() != 1 or _ROW.size != 48:
    raise ImportError("libsfv has another binary interface")
if _processor_error():
    raise ImportError(_processor_error().decode("ascii"))
_spans, _write_spans, _message = _library.sfv_c_spans, _library.sfv_c_write_spans, _library.sfv_c_message
_spans.restype = _write_spans.restype = _message.restype = _Answer
_BUFFER = [c_void_p, c_size_t]
_spans.argtypes = [c_uint32, c_uint32, *_BUFFER, *_BUFFER, *_BUFFER]
_write_spans.argtypes = [c_uint32, c_uint32, *_BUFFER, *_BUFFER]
_message.argtypes = [c_uint32, *_BUFFER]

# The tag, key and value of a row.
_Part = Tuple[int, str, Any]
_DECODERS: Dict[int, Callable[[bytes, int], Any]] = {
    int(Kind.NONE): lambda data, number: None,
    int(Kind.INTEGER): lambda data, number: number,
    int(Kind.DECIMAL): lambda data, number: decimal_of(number),
    int(Kind.STRING): lambda data, number: data.decode("ascii"),
    int(Kind.TOKEN): lambda data, number: str.__new__(Token, data, "ascii"),  # without the check
    int(Kind.BYTE_SEQUENCE): lambda data, number: data,
    int(Kind.BOOLEAN): lambda data, number: number == 1,
    int(Kind.DATE): lambda data, number: date_of(number),
    int(Kind.DISPLAY_STRING): lambda data, number: str.__new__(DisplayString, data, "utf-8"),
}
_BEGIN_ITEM, _PARAMETER = int(Tag.BEGIN_ITEM), int(Tag.PARAMETER)


def parse(kind: int, field: Any, version: int) -> Any:
    """Returns the item, the list or the dictionary of a field."""
    if not isinstance(field, (bytes, bytearray, memoryview)):
        raise TypeError(f"a field is bytes, not {type(field).__name__}")
    rows = _parts(kind, bytes(field), _values.checked_version(version))
    if kind == Type.ITEM:
        return _item(rows)
    if kind == Type.LIST:
        return [_member(rows) for _ in rows]
    return {key: _member(rows) for _, key, _ in rows}


def serialize(value: Any, version: int) -> str:
    """Returns the canonical text of a value."""
    kind, rows = _values.rows_of(value)
    return _write(kind, _values.checked_version(version), rows)


def _member(rows: Iterator[_Part]) -> Member:
    tag, _, _ = next(rows)
    if tag == _BEGIN_ITEM:
        return _item(rows)
    return [_item(rows) for _ in takewhile(lambda row: row[0] == _BEGIN_ITEM, rows)], _parameters(rows)


def _item(rows: Iterator[_Part]) -> Item:
    _, _, value = next(rows)
    return value, _parameters(rows)


def _parameters(rows: Iterator[_Part]) -> Parameters:
    return {key: value for _, key, value in takewhile(lambda row: row[0] == _PARAMETER, rows)}


def _address(buffer: bytearray) -> int:
    """Returns the address of a buffer that is not empty. An array of ctypes would need a type for each length."""
    return ctypes.addressof(c_char.from_buffer(buffer))


def _parts(kind: int, field: bytes, version: int) -> Iterator[_Part]:
    size = len(field)
    # Most fields have at most 256 parts. Others are parsed twice.
    answer = _Answer(length=size, rows=min(256, 2 * size + 2))
    for _ in range(2):
        # The rows point into one buffer: the field, and after it the room for decoded texts.
        buffer, rows = bytearray(size + answer.length + 1), bytearray(answer.rows * _ROW.size + 1)
        buffer[:size] = field
        start, to = _address(buffer), _address(rows)
        answer = _spans(kind, version, start, size, to, answer.rows, start + size, answer.length)
        if answer.status != Status.TOO_SMALL:
            break
    _raise_error(answer)
    texts, written = bytes(buffer), memoryview(rows)[: answer.rows * _ROW.size]
    for tag, value_kind, key, key_length, data, length, number in _ROW.iter_unpack(written):
        key, data = key - start, data - start
        name = texts[key : key + key_length].decode("ascii") if key_length else ""
        yield tag, name, _DECODERS[value_kind](texts[data : data + length], number)


def _packed(rows: Iterable[Row], at: int) -> Iterator[bytes]:
    """Yields the rows. Their keys and bytes follow each other, from this address."""
    for tag, key, kind, data, number in rows:
        yield _ROW.pack(tag, kind, at, len(key), at + len(key), len(data), number)
        at += len(key) + len(data)


def _write(kind: int, version: int, rows: List[Row]) -> str:
    texts = bytearray(b"".join([text for _, key, _, data, _ in rows for text in (key, data)]) + b"\0")
    array = bytearray(b"".join(_packed(rows, _address(texts))) + b"\0")
    answer = _Answer(length=1024)
    for _ in range(2):
        out = bytearray(answer.length)
        answer = _write_spans(kind, version, _address(array), len(rows), _address(out), len(out))
        if answer.status != Status.TOO_SMALL:
            break
    _raise_error(answer)
    return out[: answer.length].decode("ascii")


def _raise_error(answer: _Answer) -> None:
    if answer.status in (Status.OK, Status.NOTHING):
        return
    message = ""
    if answer.status == Status.REJECTED:
        text = bytearray(64)
        length = _message(answer.kind, _address(text), len(text)).length
        message = text[:length].decode("ascii")
    _values.fail(answer.status, answer.kind, answer.index, message)
