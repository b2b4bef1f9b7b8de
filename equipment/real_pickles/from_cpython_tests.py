"""Pickles from CPython's own tests; Python 2 wrote many of them. They are copied and not loaded."""

from __future__ import annotations

import ast
import os.path
import test.pickletester as tester
from collections.abc import Iterator

# constants of test/pickletester.py: its name there, our name, what it is
CONSTANTS = [
    ('DATA0', 'cpython_data_protocol_0', 'its test object'),
    ('DATA1', 'cpython_data_protocol_1', 'its test object'),
    ('DATA2', 'cpython_data_protocol_2', 'its test object'),
    ('DATA3', 'cpython_data_protocol_3', 'its test object'),
    ('DATA4', 'cpython_data_protocol_4', 'its test object'),
    ('DATA_SET', 'python_2_set', 'a set, by Python 2'),
    ('DATA_SET2', 'python_2_set_of_one', 'a set, by Python 2'),
    ('DATA_XRANGE', 'python_2_xrange', 'an xrange, by Python 2'),
    ('DATA_COOKIE', 'python_2_cookie', 'a cookie, by Python 2'),
    ('DATA_UEERR', 'python_2_unicode_error', 'an exception, by Python 2'),
    ('exception_pickle', 'python_2_exception', 'an exception of Python 2'),
]

# files of test/
FILES = [
    ('randv2_32.pck', 'python_2_random_32_bit', 'a random generator, by Python 2'),
    ('randv2_64.pck', 'python_2_random_64_bit', 'a random generator, by Python 2'),
    ('randv3.pck', 'python_3_random', 'a random generator, by Python 3'),
]

# methods of test/pickletester.py: the first bytes that are in each
METHODS = [
    ('test_load_python2_str_as_bytes', 'python_2_string', 'a string, by Python 2'),
    ('test_load_python2_unicode_as_str', 'python_2_unicode', 'a text, by Python 2'),
    ('test_binbytes', 'cpython_binbytes', 'BINBYTES'),
    ('test_binbytes8', 'cpython_binbytes8', 'BINBYTES8'),
    ('test_binunicode8', 'cpython_binunicode8', 'BINUNICODE8'),
    ('test_bytearray8', 'cpython_bytearray8', 'BYTEARRAY8'),
    ('test_short_binunicode', 'cpython_short_binunicode', 'SHORT_BINUNICODE'),
    ('test_large_32b_binbytes8', 'cpython_binbytes8_cut', 'a length far past the end'),
    ('test_negative_32b_binbytes', 'cpython_binbytes_cut', 'a length past the end'),
    ('test_get', 'cpython_get', 'GET and PUT of a great key'),
    ('test_binget', 'cpython_binget', 'BINGET'),
    ('test_long_binget', 'cpython_long_binget', 'LONG_BINGET'),
    ('test_dup', 'cpython_dup', 'DUP'),
    ('test_misc_get', 'cpython_get_of_nothing', 'a GET of no entry'),
    ('test_negative_put', 'cpython_put_of_negative_key', 'a negative key'),
    ('test_frame_readline', 'cpython_line_in_a_frame', 'a line in a frame'),
]


def bytes_of(method: str, tree: ast.AST) -> bytes:
    """The first bytes that are in a method."""
    for node in ast.walk(tree):
        if isinstance(node, ast.FunctionDef) and node.name == method:
            # by its place in the text, since a walk does not keep the order
            found = [n for n in ast.walk(node) if isinstance(n, ast.Constant) and isinstance(n.value, bytes)]
            found.sort(key=lambda n: (n.lineno, n.col_offset))
            first: bytes = found[0].value
            return first
    raise KeyError(method)


def pickles() -> Iterator[tuple[str, bytes, str]]:
    """Each pickle's name, bytes, and what it holds."""
    for constant, name, what in CONSTANTS:
        yield name, getattr(tester, constant), what
    folder = os.path.dirname(tester.__file__)
    for file, name, what in FILES:
        with open(os.path.join(folder, file), 'rb') as data:
            yield name, data.read(), what
    with open(tester.__file__, encoding='utf-8') as text:
        tree = ast.parse(text.read())
    for method, name, what in METHODS:
        yield name, bytes_of(method, tree), what
