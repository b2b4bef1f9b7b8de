"""Pickles of Python's own objects, written by Python's own picklers at protocols 0 to 5."""

from __future__ import annotations

import collections
import copyreg
import datetime
import decimal
import enum
import fractions
import functools
import io
import logging
import os.path
import pickle
import pickletools
import types
import uuid
from collections.abc import Iterable, Iterator
from typing import Any


class Point:
    """An object with a state of its own making."""

    def __init__(self, x: int, y: int) -> None:
        self.x, self.y = x, y
        self.cached = [x, y]

    def __getstate__(self) -> dict[str, int]:
        return {'x': self.x, 'y': self.y}

    class Unit:
        """A class inside a class."""


class Reduced:
    """An object that says how it is made, with list items and dictionary items to add."""

    def __reduce__(self) -> Any:
        return Reduced, (), {'colour': 'red'}, iter(range(4)), iter([('a', 1), ('b', 2)])

    def extend(self, items: Iterable[Any]) -> None:
        pass

    def append(self, item: Any) -> None:
        pass

    def __setitem__(self, key: Any, value: Any) -> None:
        pass


class Slotted:
    left: str
    right: list[str]
    __slots__ = ('left', 'right')


class Keyworded(tuple[Any, ...]):
    """A tuple that is made with keywords."""

    def __new__(cls, *items: Any, unit: str = 'm') -> Any:
        made: Any = tuple.__new__(cls, items)
        made.unit = unit
        return made

    def __getnewargs_ex__(self) -> Any:
        return tuple(self), {'unit': vars(self)['unit']}


class Extended1:
    pass


class Extended2:
    pass


class Extended4:
    pass


class Colour(enum.Enum):
    RED = 1
    GREEN = 'green'


class Access(enum.IntFlag):
    READ = 4
    WRITE = 2


class PersistentPickler(pickle.Pickler):
    """Leaves open files out of the pickle, and lists under a name."""

    lines: bool

    def persistent_id(self, obj: Any) -> Any:
        if isinstance(obj, Point):
            return 'point 17' if self.lines else ('point', 17)
        return None


def shared() -> Any:
    word, row = 'word', [1, 2]
    return [word, row, word, row, (word, row), {word: row}]


def nested() -> Any:
    return {'names': ['Ada', 'Grace'], 'empty': [[], (), {}, set(), ''],
            'numbers': (0, 1, 255, 256, 65535, 65536, -1, 2 ** 31, -2 ** 63, 1.5),
            'truth': (None, True, False), 'one': (1,), 'two': (1, 2), 'three': (1, 2, 3), 'four': (1, 2, 3, 4),
            'inner': {'deeper': {'deepest': [{'x': (b'bytes', [3.0])}]}}}


def recursive_list() -> Any:
    row: list[Any] = [1]
    row.append(row)
    row.append((row, [row]))
    return row


def recursive_dictionary() -> Any:
    table: dict[str, Any] = {}
    pair: list[Any] = []
    table['self'] = table
    table['pair'] = (pair, table)
    pair.append(table)
    return table


def recursive_tuple() -> Any:
    row: list[Any] = []
    pair = (row, 1)
    row.append(pair)
    return pair


def collections_of() -> Any:
    counted: Any = collections.defaultdict(list, {'a': [1], 'b': []})
    row: Any = collections.deque([1, 'two', 3.0], maxlen=5)
    ordered: Any = collections.OrderedDict([('z', 1), ('y', row), ('x', counted)])
    return [ordered, collections.Counter('abracadabra'), collections.ChainMap({'k': 1}, {'k': 2})]


def dates() -> Any:
    zone = datetime.timezone(datetime.timedelta(hours=5, minutes=30), 'India')
    return [datetime.date(2024, 2, 29), datetime.time(23, 59, 59, 999999),
            datetime.datetime(2001, 9, 9, 1, 46, 40, tzinfo=zone), datetime.timedelta(days=-1, microseconds=5),
            datetime.datetime(1999, 12, 31, tzinfo=datetime.timezone.utc)]


def numbers_of_libraries() -> Any:
    return [fractions.Fraction(-22, 7), decimal.Decimal('3.1400'), decimal.Decimal('NaN'), complex(1, -2),
            uuid.UUID(int=17), range(1, 10, 3), slice(1, None, 2)]


def objects() -> Any:
    slotted = Slotted()
    slotted.left, slotted.right = 'l', ['r']
    return [Point(1, 2), Reduced(), slotted, types.SimpleNamespace(a=1), functools.partial(int, base=2), Point(3, 4)]


def exceptions() -> Any:
    fault: Any = ValueError('a value', 17)
    fault.note = 'an attribute'
    return [fault, KeyError('k'), OSError(2, 'No such file', 'name.txt'), UnicodeDecodeError('utf-8', b'\xff', 0, 1, 'why'), StopIteration()]


def log_record() -> Any:
    return logging.makeLogRecord({
        'name': 'picklestep', 'msg': 'read %d of %s', 'args': (3, "it's"), 'levelname': 'WARNING', 'levelno': 30,
        'pathname': '/srv/app.py', 'filename': 'app.py', 'module': 'app', 'lineno': 17, 'funcName': 'main',
        'created': 1700000000.25, 'msecs': 250.0, 'relativeCreated': 12.5, 'thread': 140000000000000,
        'threadName': 'MainThread', 'processName': 'MainProcess', 'process': 4242})


def by_name() -> Any:
    return [len, os.path.join, collections.OrderedDict, Point, Point.Unit, str.upper, dict.fromkeys, [1, 2].append,
            NotImplemented, Ellipsis, type(None)]


def many_memo_entries() -> Any:
    words = ['w%d' % n for n in range(300)]
    return [words, [words[0], words[255], words[256], words[299]]]


def long_integers() -> Any:
    return [2 ** 31, -2 ** 31 - 1, 2 ** 63, 2 ** 64, -2 ** 127, 2 ** 128, 10 ** 40, 2 ** 2040 - 1, 2 ** 2047, -3 ** 1700]


def floats() -> Any:
    return [0.0, -0.0, 1.5, -1e308, 5e-324, float('inf'), float('-inf'), 0.1, 1e100]


def texts() -> Any:
    return ['', "it's", 'say "so"', 'back\\slash', 'two\nlines\r\n', '\x00\x1a\x7f', 'é ü ß', '\u03c0 \u20ac', '\U0001f600',
            '\udc80 alone \ud800', '\\u0041', 'x' * 255, 'y' * 256, '\u20ac' * 100]


def byte_strings() -> Any:
    return [b'', b'\x00\xff', b'z' * 255, b'z' * 256, bytearray(b''), bytearray(b'array\n'), memoryview(b'view').tobytes()]


def long_row() -> Any:
    return ['%03d ' % n + 'some words to fill the frame ' * 3 for n in range(750)]


def large_bytes() -> Any:
    return ['before', b'picklestep' * 6600, 'between', b'small', 'after']


def large_array() -> Any:
    return {'array': bytearray(b'0123456789abcdef' * 4100), 'text': 'behind'}


# name, object, protocols
CASES = [
    ('nested_containers', nested, (0, 1, 2, 3, 4, 5)),
    ('shared_objects', shared, (0, 2, 4)),
    ('recursive_list', recursive_list, (0, 2, 5)),
    ('recursive_dictionary', recursive_dictionary, (1, 4)),
    ('recursive_tuple', recursive_tuple, (0, 3, 4)),
    ('sets', lambda: [{1, 2, 3}, set(), frozenset({4, 5}), frozenset(), {frozenset({6})}], (0, 2, 4)),
    ('collections', collections_of, (0, 2, 4)),
    ('dates_and_times', dates, (0, 2, 4)),
    ('numbers_of_libraries', numbers_of_libraries, (1, 4)),
    ('objects_with_state', objects, (2, 3, 4)),
    ('made_with_keywords', lambda: [Keyworded(1, 2, unit='km'), Keyworded()], (2, 4)),
    ('exceptions', exceptions, (0, 4)),
    ('log_record', log_record, (1, 4)),
    ('functions_and_classes_by_name', by_name, (0, 3, 4)),
    ('enumerations', lambda: [Colour.RED, Colour.GREEN, Access.READ | Access.WRITE], (2, 4)),
    ('byte_strings', byte_strings, (0, 2, 3, 5)),
    ('many_memo_entries', many_memo_entries, (1, 4)),
    ('long_integers', long_integers, (0, 1, 2)),
    ('floats', floats, (0, 1)),
    ('texts', texts, (0, 2, 4)),
    ('several_frames', long_row, (4,)),
    ('large_bytes_outside_frames', large_bytes, (4,)),
    ('large_array_outside_frames', large_array, (5,)),
]


def with_extension_codes() -> bytes:
    """Classes that have codes instead of names."""
    classes: list[tuple[Any, int]] = [(Extended1, 7), (Extended2, 300), (Extended4, 70000)]
    for made, code in classes:
        copyreg.add_extension(__name__, made.__name__, code)
    data = pickle.dumps([made() for made, _ in classes] + [Extended1], 2)
    for made, code in classes:
        copyreg.remove_extension(__name__, made.__name__, code)
    return data


def with_persistent_ids(protocol: int) -> bytes:
    """Points are outside the pickle, under a line at protocol 0 and else under an object."""
    output = io.BytesIO()
    pickler = PersistentPickler(output, protocol)
    pickler.lines = protocol == 0
    pickler.dump({'first': Point(1, 2), 'rest': [Point(3, 4), 'x']})
    return output.getvalue()


def with_buffers(out_of_band: bool) -> bytes:
    """Buffers, in the pickle or outside it."""
    views = [pickle.PickleBuffer(b'read only'), pickle.PickleBuffer(bytearray(b'writable')), pickle.PickleBuffer(b'')]
    beside: list[Any] = []
    return pickle.dumps(['buffers', views, views[0]], 5, buffer_callback=beside.append if out_of_band else None)


def in_fast_mode() -> bytes:
    """A pickler without a memo."""
    output = io.BytesIO()
    pickler = pickle.Pickler(output, 2)
    pickler.fast = True
    pickler.dump(shared())
    return output.getvalue()


def several(one_memo: bool) -> bytes:
    """Three pickles in one file, by three picklers or by one that keeps its memo."""
    output = io.BytesIO()
    first, word = ['first', 'word'], 'word'
    pickler = pickle.Pickler(output, 2)
    for obj in (first, {'second': first}, ['third', word, first]):
        if one_memo:
            pickler.dump(obj)
        else:
            pickle.dump(obj, output, 3)
    return output.getvalue()


def pickles() -> Iterator[tuple[str, bytes, str]]:
    """Each pickle's name, bytes, and what it holds."""
    for name, make, protocols in CASES:
        for protocol in protocols:
            yield '%s_protocol_%d' % (name, protocol), pickle.dumps(make(), protocol), name.replace('_', ' ')
    for protocol in (0, 2, 5):
        # (the pickler that is written in Python differs a little from the one in C)
        yield ('pure_python_pickler_protocol_%d' % protocol,
               pickle._dumps([nested(), shared(), 12345, True], protocol),  # type: ignore[attr-defined]
               'nested containers, by the pickler in Python')
    for protocol in (0, 2, 4):
        yield 'persistent_ids_protocol_%d' % protocol, with_persistent_ids(protocol), 'persistent ids'
    yield 'extension_codes_protocol_2', with_extension_codes(), 'codes of one, two and four bytes instead of names'
    yield 'buffers_out_of_band_protocol_5', with_buffers(True), 'buffers outside the pickle'
    yield 'buffers_in_band_protocol_5', with_buffers(False), 'buffers in the pickle'
    yield 'fast_mode_protocol_2', in_fast_mode(), 'a pickler without a memo'
    yield 'optimized_protocol_4', pickletools.optimize(pickle.dumps(nested(), 4)), 'without the memo entries that nothing gets'
    yield 'optimized_protocol_0', pickletools.optimize(pickle.dumps(shared(), 0)), 'likewise'
    yield 'several_pickles_in_one_file', several(False), 'three pickles'
    yield 'several_pickles_with_one_memo', several(True), 'three pickles of one pickler'
