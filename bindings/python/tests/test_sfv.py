"""Tests of the module over the installed library. They read the replay and the header of the repository.

If SFV_NATIVE is set, it names the module whose calls are tested: sfv._sfv or sfv._ctypes.
"""

import copy
import ctypes
import doctest
import gc
import os
import pickle
import re
import subprocess
import sys
import unittest
from collections import ChainMap, OrderedDict
from concurrent.futures import ThreadPoolExecutor
from datetime import datetime, timedelta, timezone, tzinfo
from decimal import Decimal, localcontext
from enum import IntEnum
from pathlib import Path
from types import MappingProxyType
from typing import Any, NamedTuple, get_type_hints

import sfv
from sfv import Date, DisplayString, ErrorKind, ParseError, Token, join_lines, parse_dictionary, parse_item, parse_list
from sfv import _values, serialize

TOP = Path(__file__).resolve().parents[3]
PARSERS = {"item": parse_item, "list": parse_list, "dict": parse_dictionary}
LARGEST = 999_999_999_999_999
UTC = timezone.utc
NATIVE = sfv._native.__name__
WITHOUT_EXTENSION = "import sys; sys.modules['sfv._sfv'] = None\n"


def has_library():
    """Whether the shared library is there, which the module needs without the extension."""
    try:
        return bool(ctypes.CDLL("libsfv.so.1"))
    except OSError:
        return False


def output_of(script):
    """Returns what a new process of Python prints."""
    return subprocess.run([sys.executable, "-c", script], stdout=subprocess.PIPE, check=True, text=True).stdout


def replayed(line):
    """Returns the result of a line of the replay, in the form of the line."""
    kind, version, hexadecimal, *_ = line.split(" ")
    field = b"" if hexadecimal == "-" else bytes.fromhex(hexadecimal)
    try:
        value = PARSERS[kind](field, version=int(version))
    except ParseError as error:
        assert (str(error), type(error.kind)) == (f"{error.message} at index {error.index}", ErrorKind)
        return f"err {error}"
    text = serialize(value)
    assert PARSERS[kind](text.encode()) == value
    return f"ok {text.encode().hex() or 'none'}"


class Replay(unittest.TestCase):
    def test_each_line(self):
        lines = (TOP / "crates/sfv_replay/stdin").read_text().splitlines()
        self.assertEqual(len(lines), 2857)
        for line in lines:
            self.assertEqual(replayed(line), line.split(" ", 4)[4], line)

    def test_numbers_are_those_of_the_header(self):
        header = (TOP / "include/sfv.h").read_text()
        kinds = {name: int(number) for name, number in re.findall(r"SFV_ERR_(\w+) = (\d+)", header)}
        self.assertEqual(kinds, {kind.name: kind.value for kind in ErrorKind})
        for enum in (_values.Type, _values.Status, _values.Tag, _values.Kind):
            for member in enum:
                name = "NO_VALUE" if member is _values.Kind.NONE else member.name
                self.assertRegex(header, rf"\bSFV_{name} = {member.value}\b")

    def test_examples(self):
        self.assertEqual(doctest.testmod(sfv, optionflags=doctest.IGNORE_EXCEPTION_DETAIL).failed, 0)


class Parsing(unittest.TestCase):
    def check_item(self, field, value):
        parsed = parse_item(field)
        self.assertEqual(parsed, (value, {}))
        self.assertIs(type(parsed[0]), type(value))
        self.assertEqual(serialize(value), field.decode())

    def test_values(self):
        self.check_item(b"42", 42)
        self.check_item(b"-999999999999999", -LARGEST)
        self.check_item(b"1.5", Decimal("1.5"))
        self.check_item(b"-999999999999.999", Decimal("-999999999999.999"))
        self.check_item(rb'"a \"b\" \\"', 'a "b" \\')
        self.check_item(b"*a/b:c", Token("*a/b:c"))
        self.check_item(b":AAEC/w==:", b"\0\1\2\xff")
        self.check_item(b"?1", True)
        self.check_item(b"@1659578233", datetime(2022, 8, 4, 1, 57, 13, tzinfo=UTC))
        self.check_item(b'%"f%c3%bc %e2%82%ac%00"', DisplayString("fü €\0"))

    def test_types(self):
        self.assertEqual(repr(parse_item(b'a;b="c";d=%"e"')), "(Token('a'), {'b': 'c', 'd': DisplayString('e')})")
        self.assertNotIsInstance(parse_item(b'"a"')[0], Token)
        # The type distinguishes equal values.
        self.assertIs(parse_item(b"?1")[0], True)
        self.assertEqual(repr(parse_item(b"1.0")[0]), "Decimal('1')")

    def test_structure(self):
        self.assertEqual(parse_list(b'a;x, (1 2;y);z, "s"'), [("a", {"x": True}), ([(1, {}), (2, {"y": True})], {"z": True}), ("s", {})])
        self.assertEqual(parse_dictionary(b"a, b=();c=1"), {"a": (True, {}), "b": ([], {"c": 1})})

    def test_repeated_keys(self):
        parsed = parse_dictionary(b"a=1;x;y=2;x=3, b=2, a=4;z")
        self.assertEqual(list(parsed.items()), [("a", (4, {"z": True})), ("b", (2, {}))])
        self.assertEqual(list(parse_item(b"1;x;y=2;x=3")[1].items()), [("x", 3), ("y", 2)])

    def test_dates_outside_of_datetime(self):
        first, last = datetime(1, 1, 1, tzinfo=UTC), datetime(9999, 12, 31, 23, 59, 59, tzinfo=UTC)
        self.check_item(b"@-62135596800", first)
        self.check_item(b"@253402300799", last)
        self.check_item(b"@-62135596801", Date(-62135596801))
        self.check_item(b"@253402300800", Date(253402300800))
        self.check_item(b"@-999999999999999", Date(-LARGEST))
        self.assertEqual(serialize(Date(0)), "@0")

    def test_dates_before_1970(self):
        self.check_item(b"@-1", datetime(1969, 12, 31, 23, 59, 59, tzinfo=UTC))
        self.check_item(b"@-86401", datetime(1969, 12, 30, 23, 59, 59, tzinfo=UTC))
        self.check_item(b"@-2208988800", datetime(1900, 1, 1, tzinfo=UTC))
        east = timezone(timedelta(hours=2))
        self.assertEqual(serialize(datetime(1970, 1, 1, 1, 59, 59, tzinfo=east)), "@-1")
        for microsecond in (1, 999_999):
            self.assertRaises(ValueError, serialize, datetime(1969, 12, 31, 23, 59, 59, microsecond, UTC))

    def test_the_context_of_decimals(self):
        with localcontext() as context:
            context.prec = 3
            self.check_item(b"123456789012.345", Decimal("123456789012.345"))

    def test_empty_input(self):
        self.assertEqual((parse_list(b""), parse_dictionary(b"  ")), ([], {}))
        with self.assertRaises(ParseError) as caught:
            parse_item(b"")
        self.assertEqual((caught.exception.kind, caught.exception.index), (ErrorKind.EXPECTED_START_OF_BARE_ITEM, 0))

    def test_nul_bytes(self):
        for field, index in ((b"\0", 0), (b"1\0", 1), (b'"a\0b"', 2), (b"a;b\0", 3)):
            with self.assertRaises(ParseError) as caught:
                parse_item(field)
            self.assertEqual(caught.exception.index, index)
        self.check_item(b":YQBi:", b"a\0b")

    def test_large_fields(self):
        tokens = ", ".join(f"token{n};q=1" for n in range(70_000))
        self.assertGreater(len(tokens), 1_000_000)
        self.assertEqual(serialize(parse_list(tokens.encode())), tokens)
        self.check_item(b":" + b"QUJD" * 250_000 + b":", b"ABC" * 250_000)
        self.check_item(b'"' + b"\\\\" * 500_000 + b'"', "\\" * 500_000)

    def test_second_buffers(self):
        strings = [f'\\{n} is a number"' for n in range(300)]
        text = ", ".join(f'"\\\\{n} is a number\\""' for n in range(300))
        self.assertTrue(parse_list(text.encode()) == [(string, {}) for string in strings])
        self.assertEqual(serialize(strings), text)
        self.assertEqual(serialize(['"' * 1000]), '"' + '\\"' * 1000 + '"')

    def test_no_type_for_each_length(self):
        gc.collect()
        gc.disable()
        try:
            count = len(ctypes.Array.__subclasses__())
            for length in range(1, 100):
                text = '"' + "\\\\" * length + '"'
                self.assertEqual(serialize([parse_item(text.encode())] * length), ", ".join([text] * length))
                self.assertRaises(ParseError, parse_item, text.encode() * 2)
            self.assertEqual(len(ctypes.Array.__subclasses__()), count)
        finally:
            gc.enable()

    @unittest.skipIf("ASAN_OPTIONS" in os.environ, "the sanitizer needs the address space")
    def test_a_limit_of_memory(self):
        script = """if True:
            import resource, sfv
            field = b"a," * 10_000_000 + b"a"
            resource.setrlimit(resource.RLIMIT_AS, (500_000_000, 500_000_000))
            try:
                sfv.parse_list(field)
            except MemoryError:
                print("out of memory")
        """
        self.assertEqual(output_of(script), "out of memory\n")

    def test_errors(self):
        with self.assertRaises(ParseError) as caught:
            parse_dictionary(b"u=1, i=?2")
        error = pickle.loads(pickle.dumps(caught.exception))
        self.assertEqual((error.kind, error.index, error.message), (ErrorKind.EXPECTED_BOOLEAN, 8, "expected boolean ('0' or '1')"))
        self.assertIsInstance(error, ValueError)

    def test_each_syntax_error(self):
        # TYPE VERSION INPUT KIND NAME INDEX MESSAGE
        lines = (TOP / "bindings/errors").read_text(encoding="utf-8").splitlines()
        for line in lines:
            kind, version, field, number, name, index, message = line.split("\t")
            with self.assertRaises(ParseError, msg=line) as caught:
                PARSERS[kind](field.encode(), int(version))
            error = caught.exception
            self.assertEqual((error.kind.name, error.kind.value, error.index), (name, int(number), int(index)), line)
            self.assertEqual((error.message, str(error)), (message, f"{message} at index {index}"))
        self.assertEqual(len({line.split("\t")[3] for line in lines}), 26)

    def test_versions(self):
        with self.assertRaises(ParseError) as caught:
            parse_list(b"1, @1", version=8941)
        self.assertEqual((caught.exception.kind, caught.exception.index), (ErrorKind.RFC8941_DATE, 3))
        self.assertEqual(serialize([1], version=8941), "1")
        for value in (Date(1), DisplayString("a"), datetime(2020, 1, 1, tzinfo=UTC)):
            self.assertRaises(ValueError, serialize, [value], version=8941)
        self.assertRaises(ValueError, parse_list, b"1", version=1)
        self.assertRaises(ValueError, serialize, [1], version=8941 + 2**32)

    def test_fields_are_bytes(self):
        for field in ("1", None, 1, [49], (b"1",), iter(b"1")):
            for parse in (parse_item, parse_list, parse_dictionary):
                self.assertRaises(TypeError, parse, field)

    def test_other_bytes(self):
        class Bytes(bytes):
            pass

        field = b"u=1, i;q=:AAEC:"
        expected = parse_dictionary(field)
        for same in (bytearray(field), memoryview(field), memoryview(bytearray(field)), Bytes(field)):
            self.assertEqual(parse_dictionary(same), expected)
        self.assertEqual(parse_item(memoryview(b"1x2x")[::2]), (12, {}))
        # The result keeps nothing of a buffer that changes.
        changing = bytearray(b'"abc";d=:AAEC:')
        parsed = parse_item(changing)
        changing[:] = b"x" * len(changing)
        self.assertEqual(parsed, ("abc", {"d": b"\0\1\2"}))

    def test_lines(self):
        self.assertEqual(join_lines([b"a=1", bytearray(b"b"), memoryview(b"a=2")]), b"a=1, b, a=2")
        self.assertEqual(list(parse_dictionary(join_lines([b"a=1", b"b", b"a=2"])).items()), [("a", (2, {})), ("b", (True, {}))])
        self.assertEqual((join_lines([]), join_lines([b"a"]), join_lines(iter([b"", b""]))), (b"", b"a", b", "))
        self.assertRaises(TypeError, join_lines, ["a"])

    def test_threads(self):
        lines = [f"a{n};n={n}, ({n} b);q=:AAAA:".encode() for n in range(2000)]
        expected = [parse_list(line) for line in lines]
        with ThreadPoolExecutor(8) as pool:
            self.assertTrue(list(pool.map(parse_list, lines)) == expected)
            self.assertTrue(list(pool.map(serialize, expected)) == [line.decode() for line in lines])


class Errors(unittest.TestCase):
    def check(self, exception, text, call, *arguments):
        with self.assertRaises(exception) as caught:
            call(*arguments)
        self.assertEqual((type(caught.exception), str(caught.exception)), (exception, text))

    def test_parsing(self):
        self.check(TypeError, "a field is bytes, not str", parse_item, "1")
        self.check(TypeError, "a field is bytes, not NoneType", parse_list, None)
        self.check(ValueError, "1 is not a valid Version", parse_dictionary, b"", 1)
        self.check(ValueError, "None is not a valid Version", parse_item, b"1", None)

    def test_values(self):
        self.check(ValueError, "no integer of at most 15 digits: 1000000000000000", serialize, LARGEST + 1)
        self.check(ValueError, "no decimal of at most 12 digits before the point: 1E+12", serialize, Decimal("1e12"))
        self.check(ValueError, "no string of printable ASCII: 'a\\n'", serialize, "a\n")
        self.check(ValueError, "no key: 'A'", serialize, {"A": 1})
        self.check(ValueError, "no key: 1", serialize, (1, {1: 1}))
        self.check(ValueError, "no dict of parameters: None", serialize, (1, None))
        self.check(ValueError, "no field can hold a float: 1.5", serialize, [1.5])
        naive = "a date needs a time zone and whole seconds: datetime.datetime(2020, 1, 1, 0, 0)"
        self.check(ValueError, naive, serialize, datetime(2020, 1, 1))
        self.check(ValueError, "1 is not a valid Version", serialize, 1, 1)
        # The error is that of the first wrong value.
        self.check(ValueError, "no string of printable ASCII: 'é'", serialize, ["é", Decimal("1e12"), 1.5])
        self.check(ValueError, "no decimal of at most 12 digits before the point: 1E+12", serialize, [Decimal("1e12"), "é"])

    def test_types_that_fail_at_once(self):
        for text in ("", "a b", "1a", "a\n", "é", 'a"'):
            self.check(ValueError, f"no token: {text!r}", Token, text)
        self.check(ValueError, "no token: 1", Token, 1)
        self.check(ValueError, "no Unicode text: 'a\\ud800'", DisplayString, "a\ud800")
        self.check(ValueError, "no Unicode text: b'a'", DisplayString, b"a")
        self.check(ValueError, "no integer of at most 15 digits: 1.5", Date, 1.5)
        self.check(ValueError, "no integer of at most 15 digits: -1000000000000000", Date, -LARGEST - 1)
        for value in (Token("*a/b:c"), DisplayString("é\n"), Date(-LARGEST)):
            for same in (pickle.loads(pickle.dumps(value)), copy.deepcopy(value)):
                self.assertEqual((same, type(same)), (value, type(value)))

    def test_versions(self):
        self.check(ValueError, "RFC 8941 does not support dates", serialize, [1, Date(1), DisplayString("a")], 8941)
        self.check(ValueError, "RFC 8941 does not support display strings", serialize, (DisplayString("a"), {"a": Date(1)}), 8941)

    def test_statuses(self):
        self.check(MemoryError, "", _values.fail, 4, 1, 0, "")
        for status in (0, 2, 5, 7, 8, 2**32 - 1):
            self.check(RuntimeError, f"libsfv returned the status {status}", _values.fail, status, 0, 0, "")

    def test_another_library(self):
        script = WITHOUT_EXTENSION + """if True:
            import ctypes, types
            class Call:
                def __init__(self, result): self.result = result
                def __call__(self): return self.result
            calls = {"sfv_c_abi": Call(%s), "sfv_processor_error": Call(%s)}
            ctypes.CDLL = lambda name: types.SimpleNamespace(**calls)
            try:
                import sfv
            except ImportError as error:
                print(error)
        """
        self.assertEqual(output_of(script % (2, None)), "libsfv has another binary interface\n")
        self.assertEqual(output_of(script % (1, b"too old")), "too old\n")

    def test_annotations(self):
        for function in (serialize, parse_item, parse_list, parse_dictionary):
            self.assertNotIn(Any, get_type_hints(function).values())


class Serializing(unittest.TestCase):
    def test_shapes(self):
        self.assertEqual(serialize({"a": 1, "b": (True, {"q": Token("x")}), "c": [1, ("s", {"p": False})]}), 'a=1, b;q=x, c=(1 "s";p=?0)')
        self.assertEqual(serialize([Token("a"), ([], {"x": 1}), [b""]]), "a, ();x=1, (::)")
        self.assertEqual((serialize([]), serialize({})), ("", ""))

    def test_mappings(self):
        members = {"a": 1, "b": (True, {"q": Token("x")})}
        for same in (OrderedDict(members), MappingProxyType(members), ChainMap(members)):
            self.assertEqual(serialize(same), "a=1, b;q=x")
        for parameters in (OrderedDict(q=1), MappingProxyType({"q": 1})):
            self.assertEqual(serialize((2, parameters)), "2;q=1")
            self.assertEqual(serialize([(2, parameters), ([3], parameters)]), "2;q=1, (3);q=1")
        self.assertEqual(serialize(MappingProxyType({})), "")

    def test_types_of_callers(self):
        class Text(str):
            pass

        class Number(IntEnum):
            ONE = 1

        class Items(list):
            pass

        class Pair(NamedTuple):
            value: Any
            parameters: Any

        class Moment(datetime):
            pass

        self.assertEqual(serialize(Items([Text("a"), Number.ONE, Pair(Text("b"), {Text("q"): Number.ONE})])), '"a", 1, "b";q=1')
        self.assertEqual(serialize([Moment(1970, 1, 1, tzinfo=UTC), (Items([1]), {})]), "@0, (1)")

    def test_a_value_that_changes_its_container(self):
        members = [Decimal(1), "a" * 50, "b"]

        class Zone(tzinfo):
            def utcoffset(self, moment):
                del members[1:]
                return timedelta(0)

        members[0] = datetime(1970, 1, 1, tzinfo=Zone())
        self.assertIn(serialize(members), ("@0", f'@0, "{"a" * 50}", "b"'))

    def test_decimals_are_rounded(self):
        for value, text in (("0.0005", "0.0"), ("0.0015", "0.002"), ("-1.2345", "-1.234"), ("2", "2.0"), ("1e2", "100.0"), ("1e-99", "0.0")):
            self.assertEqual(serialize(Decimal(value)), text)
        self.assertEqual(serialize(Decimal("999999999999.9994")), "999999999999.999")

    def test_dates(self):
        self.assertEqual(serialize(datetime(1970, 1, 1, 2, tzinfo=timezone(timedelta(hours=1)))), "@3600")
        self.assertEqual(serialize(datetime(9999, 12, 31, 23, tzinfo=timezone(timedelta(hours=-5)))), "@253402315200")

    def check_no_field_holds(self, value):
        for shape in (value, [value], {"a": value}, (1, {"a": value}), [[value]], ([(value, {})], {})):
            with self.assertRaises(ValueError, msg=repr(shape)) as caught:
                serialize(shape)
            self.assertNotIsInstance(caught.exception, ParseError)

    def test_values_that_no_field_holds(self):
        for value in (LARGEST + 1, -LARGEST - 1, 10**40, 1.5, None, "é", "a\n", "a\0", str.__new__(Token, "a b")):
            self.check_no_field_holds(value)
        for text in ("1e12", "-1e12", "999999999999.9995", "NaN", "sNaN", "Infinity", "1e999999", "1e99999999"):
            self.check_no_field_holds(Decimal(text))
        for value in (str.__new__(DisplayString, "\ud800"), datetime(2020, 1, 1), datetime(2020, 1, 1, 0, 0, 0, 1, UTC)):
            self.check_no_field_holds(value)
        date = Date(1)
        object.__setattr__(date, "seconds", LARGEST + 1)
        self.check_no_field_holds(date)
        for value in (object(), {1}, bytearray(b"a"), (1,), (1, {}, 2), (1, None), datetime(2020, 1, 1).date()):
            self.check_no_field_holds(value)

    def test_keys_that_no_field_holds(self):
        for key in ("", "A", "1", "a b", "é", "a\0", "a\n", 1, None, b"a"):
            for value in ({key: 1}, (1, {key: 1}), [([], {key: 1})]):
                self.assertRaises(ValueError, serialize, value)

    def test_inner_lists_only_in_members(self):
        for value in (([], {}), [[[1]]], (1, {"a": [1]}), [([([1], {})], {})]):
            self.assertRaises(ValueError, serialize, value)

    def test_many_rows(self):
        self.assertEqual(len(serialize([1] * 100_000)), 299_998)
        self.assertEqual(serialize([([n, "x"], {"y": n}) for n in range(300)]).count("x"), 300)


class Module(unittest.TestCase):
    def test_native(self):
        self.assertEqual(NATIVE, os.environ.get("SFV_NATIVE", NATIVE))

    @unittest.skipUnless(has_library(), "no shared library")
    def test_without_extension(self):
        script = WITHOUT_EXTENSION + "import sfv; print(sfv._native.__name__, sfv.serialize(sfv.parse_item(b'a;b')))"
        self.assertEqual(output_of(script), "sfv._ctypes a;b\n")

    def test_version(self):
        upstream, number = (TOP / "release/version").read_text().strip().split("-")
        self.assertEqual(sfv.__version__, f"{upstream}.post{number}")

    def test_names(self):
        for name in sfv.__all__:
            self.assertTrue(hasattr(sfv, name), name)
        for it in (Date, DisplayString, ErrorKind, ParseError, Token):
            self.assertEqual(it.__module__, "sfv")

    def test_memory_is_constant(self):
        # Python shares texts of one letter and small numbers.
        field = b'first=1.5;left, second=(tok "text" :AAEC: 4000);right=@1, third=%"f%c3%bc"'
        other = b"first=1, second=?2"

        def work():
            for _ in range(200):
                serialize(parse_dictionary(field))
                serialize(MappingProxyType(parse_dictionary(bytearray(field))))
                for call, value in ((parse_dictionary, other), (serialize, "é"), (parse_item, None), (serialize, [1, object()])):
                    try:
                        call(value)
                    except (ValueError, TypeError):
                        pass

        def growth():
            gc.collect()
            before = sys.getallocatedblocks()
            work()
            gc.collect()
            return sys.getallocatedblocks() - before

        # A block that is lost in each call would be 200 each time. Python's own caches grow at times.
        self.assertLess(min(growth() for _ in range(5)), 100)

    def test_subinterpreters(self):
        script = """if True:
            import importlib
            for name in ("_interpreters", "_xxsubinterpreters"):
                try:
                    interpreters = importlib.import_module(name)
                    break
                except ImportError:
                    pass
            else:
                raise SystemExit(print("1"))
            import sfv
            for _ in range(3):
                other = interpreters.create()
                error = interpreters.run_string(other, "import sfv; assert sfv.parse_item(b'a;b=1.5')[0] == sfv.Token('a')")
                assert not error, error
                interpreters.destroy(other)
            print(sfv.serialize(sfv.parse_item(b"1")[0]))
        """
        result = subprocess.run([sys.executable, "-c", script], stdout=subprocess.PIPE, stderr=subprocess.PIPE, text=True)
        if NATIVE == "sfv._ctypes" and "does not support loading in subinterpreters" in result.stderr:
            return  # ctypes itself says so, in some versions of Python
        self.assertEqual((result.stdout, result.returncode), ("1\n", 0), result.stderr)

    def test_each_failed_request(self):
        """Fails each request of Python's memory in turn. Then a call raises MemoryError, or returns the same."""
        try:
            import _testcapi
        except ImportError:
            return print("no request is made to fail: this Python has no _testcapi", file=sys.stderr)
        if NATIVE != "sfv._sfv":
            return
        field = b'a=1.5;x, b=(tok "s" :AAEC:);y=@1, c=%"f%c3%bc", d=@253402300800'
        tree = parse_dictionary(field)
        long_field = b"1, " * 200 + b'"' + b"\\\\" * 400 + b'"'
        long_tree = parse_list(long_field)
        calls = [(parse_dictionary, field), (parse_dictionary, bytearray(field)), (parse_list, long_field)]
        calls += [(serialize, tree), (serialize, MappingProxyType(tree)), (serialize, long_tree), (parse_item, b"?2"), (serialize, "é")]
        for call, value in calls:
            try:
                expected = call(value)
            except ValueError as error:
                expected = str(error)
            self.assertGreater(failures(_testcapi, call, value, expected), 0)


def is_of_python_code(error):
    """Whether the error comes from code of the module _values: from its last frame, or from the call of a function."""
    frame = error.__traceback__
    while frame.tb_next:
        frame = frame.tb_next
    return frame.tb_frame.f_code.co_filename.endswith("_values.py") or str(error).startswith("<function ")


def failures(testcapi, call, value, expected):
    """Makes the call, with each request of memory failing in turn. Returns the number of calls that ran out of memory.

    After the last request, the calls are as usual. Python can do without some requests, but not without many in order.
    """
    count = number = usual = 0
    while usual < 50:
        number += 1
        result = ""
        testcapi.set_nomemory(number, number + 1)
        try:
            result = call(value)
        except ValueError as error:
            result = error
        except MemoryError:
            result = None
        except SystemError as error:
            # Python's interpreter loses some errors of memory in Python code. The extension must lose none.
            assert is_of_python_code(error), error
            result = None
        finally:
            testcapi.remove_mem_hooks()
        if result is None:
            count, usual = count + 1, 0
        else:
            usual += 1
            assert (str(result) if isinstance(result, ValueError) else result) == expected, (call, number, result)
    return count


if __name__ == "__main__":
    unittest.main()
