"""Structured Field Values for HTTP (RFC 9651 and the older RFC 8941), over the proved library libsfv.

>>> parse_dictionary(b'u=1, i;q=0.5')
{'u': (1, {}), 'i': (True, {'q': Decimal('0.5')})}
>>> serialize({'u': 1, 'i': (True, {'q': Decimal('0.5')})})
'u=1, i;q=0.5'
>>> parse_list(join_lines([b'a, b', b'c']))
[(Token('a'), {}), (Token('b'), {}), (Token('c'), {})]
>>> parse_item(b'?2')
Traceback (most recent call last):
sfv.ParseError: expected boolean ('0' or '1') at index 1
"""

from __future__ import annotations

from decimal import Decimal
from importlib import import_module
from typing import Any, Dict, Iterable, List, Union

from ._values import BareItem, Date, DisplayString, ErrorKind, FieldValue, InnerList, Item, Member, Parameters, ParseError
from ._values import Token

__all__ = ["BareItem", "Date", "DisplayString", "ErrorKind", "FieldValue", "InnerList", "Item", "Member", "Parameters"]
__all__ += ["ParseError", "Token", "join_lines", "parse_dictionary", "parse_item", "parse_list", "serialize"]
__version__ = "0.16.0.post1"

for _type in (Date, DisplayString, ErrorKind, ParseError, Token):
    _type.__module__ = __name__


def _calls() -> Any:
    """Returns the extension, or the module over ctypes if there is none. Both have the same two calls."""
    try:
        return import_module("sfv._sfv")
    except ModuleNotFoundError as error:
        if error.name != "sfv._sfv":
            raise
    return import_module("sfv._ctypes")


# The bytes of a field.
Field = Union[bytes, bytearray, memoryview]

_ITEM, _LIST, _DICTIONARY = 1, 2, 3
_native = _calls()
_parse, _serialize = _native.parse, _native.serialize


def parse_item(field: Field, version: int = 9651) -> Item:
    """Parses an item: its value and its parameters (RFC 9651, section 4.2). Raises `ParseError`."""
    item: Item = _parse(_ITEM, field, version)
    return item


def parse_list(field: Field, version: int = 9651) -> List[Member]:
    """Parses a list. An inner list is a pair of its items and its parameters. Raises `ParseError`."""
    members: List[Member] = _parse(_LIST, field, version)
    return members


def parse_dictionary(field: Field, version: int = 9651) -> Dict[str, Member]:
    """Parses a dictionary. A repeated key keeps its first position and takes its last value. Raises `ParseError`."""
    members: Dict[str, Member] = _parse(_DICTIONARY, field, version)
    return members


def join_lines(lines: Iterable[Field]) -> bytes:
    """Joins the lines of one field with a comma and a space, for the other calls (RFC 9651, section 4.2)."""
    return b", ".join(lines)


def serialize(value: FieldValue, version: int = 9651) -> str:
    """Returns the canonical text of a dictionary (a `Mapping`), a list (`list`) or an item (RFC 9651, section 4.1).

    A value without parameters can be alone, not in a pair. Without members, the text is empty: do not send the field.
    Raises `ValueError` if no field can hold the value, or if the version lacks it.
    """
    text: str = _serialize(value, version)
    return text
