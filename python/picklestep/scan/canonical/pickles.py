"""What pickles come to, as far as the form of what follows depends on it (joblib's arrays), and what numpy and loaders take it for.

A reader of values. Whether the opcodes are those of a pickler the program is asked (`formed`), so nothing of that is looked at here: where they
are, this reads what every loader reads.

Sources: Lib/pickle.py and Modules/_pickle.c (3.6 to 3.13), torch/csrc/jit/serialization/pickler.cpp, joblib/numpy_pickle.py.
"""

from __future__ import annotations

import codecs
import re
import struct
from dataclasses import dataclass, field
from typing import Any, Callable, Dict, List, NoReturn, Optional, Set, Tuple

from ...opcodes import TABLE
from ...patterns import pattern
from ..blobs import CHUNK, STEPS, Blob, Budget, JoinedBlob
from .formed import require_form
from .forms import NotCanonical, count_of_shape
from .methods import OF_ARRAYS
from .values import (Array, DATA, DICTIONARY, Global, HOLDERS, MADE, MAY_BE_KIND, Made, NOTHING, OldText, Opaque, PDict, PList, TAKE_ATTRIBUTES,
                    TAKE_KINDS, gives_method, has_dtype, has_kind, has_odd_key, is_method, is_wrapper, is_wrapper_name, may_be, may_be_of_kind,
                    may_take_list, text_of)

__all__ = ['Hook', 'Pickle', 'Reader', 'read_pickle']

# Longer texts are no names, codes or keys: nothing needs to be known of them.
_LONGEST_TEXT = 256
_LONGEST_LINE = 1 << 26
# The longest opcode whose argument has a fixed length, in bytes; and after how many bytes of opcodes the time is looked at.
_LONGEST_FIXED = 9
_TURN = 4 * STEPS
# So much is read at first: there may be many pickles in a row, each of a few bytes.
_FIRST = 1 << 13
# This many values in lists and dictionaries are kept, and this many in the memo: a hostile pickle can have millions.
_MOST_VALUES = 1 << 19
_MOST_IN_MEMO = 1 << 22
# Picklers make one at once: EMPTY_TUPLE and NEWOBJ follow, perhaps behind a key of the memo and the begin of a frame.
_MADE_AT_ONCE = pattern(rb'(\x94|q.|r.{4}|p[0-9]{1,10}\n)?(\x95.{8})?\)\x81', re.DOTALL)
_LONGEST_MAKING = 24


@dataclass
class Pickle:
    """A pickle, from its first byte to behind its STOP.

    `raw` are the ranges within it that are no opcodes, as offset and end; of these `inner` are pickles with a memo of their own. `counts`
    is set where it takes things from the memo that stand there in the order in which they came: another memo gives it other things. `kinds`
    are numpy's kinds of items that it makes. `has_odd_states` says that a state has a key by which numpy takes an object for an array, or
    one that is worked out, or may give an array another number of objects than it has items; `has_odd_items` and `has_made_items` say it of items,
    which some objects take for attributes. `gives_methods` says that an object gets what is imported under a name that loaders call. `gets`
    counts how often a tuple, list or dictionary was taken from the memo, by its id: something else may have changed it.
    """

    offset: int
    end: int = 0
    imports: Set[Tuple[str, str]] = field(default_factory=set)
    raw: List[Tuple[int, int]] = field(default_factory=list)
    inner: List['Pickle'] = field(default_factory=list)
    counts: bool = False
    kinds: List[Made] = field(default_factory=list)
    has_odd_states: bool = False
    has_odd_items: bool = False
    has_made_items: bool = False
    gives_methods: bool = False
    gets: Dict[int, int] = field(default_factory=dict)


_MOST_DIGITS = 4000
_STOP = 0x2E
_BINGET, _BINPUT, _MEMOIZE, _BININT1, _BINFLOAT, _SHORT_BINUNICODE = 0x68, 0x71, 0x94, 0x4B, 0x47, 0x8C

Hook = Callable[['Reader', Made], None]


class Reader:
    """Reads one pickle. `on_build` is asked at each BUILD of something that a call of `_KEPT` made: joblib's arrays begin there.

    The bytes at hand begin at `_base`; there the next one to be read has the index `_next`, and the opcode that is read `_begin`. Up to `_stop`
    an opcode with an argument of a fixed length is at hand as a whole, and nothing has to be looked at between opcodes.
    """

    def __init__(self, blob: Blob, at: int = 0, on_build: Optional[Hook] = None, budget: Optional[Budget] = None, of_numpy: bool = True) -> None:
        self.blob = blob
        self.on_build = on_build
        self._of_numpy = of_numpy
        self.budget = budget
        self.pickle = Pickle(at)
        self.frame_end: Optional[int] = None
        self._base = at
        self._window = b''
        self._begin = self._next = self._stop = 0
        self._counted = at
        self._memo: List[Any] = []
        self._memoizes = False
        self._top: List[Any] = []
        self._under: List[List[Any]] = []
        self._globals: Dict[Tuple[str, str], Global] = {}
        self._is_plain = True
        self._has_gets = False
        self._left = _MOST_VALUES
        self._unfilled = 0
        # Whether a kind of items was given to something that may have changed it.
        self.gives_kinds = False

    # --- Bytes ---

    @property
    def at(self) -> int:
        """The offset of the next byte."""
        return self._base + self._next

    def _load(self, count: int) -> None:
        """Has at least so many bytes at hand."""
        at = self.at
        if at + count > self.blob.size:
            self.fail('it is cut short')
        self._begin += self._base - at
        most = CHUNK if self._window else _FIRST
        self._base, self._window, self._next = at, self.blob.read(at, max(count, most)), 0
        self._stop = 0

    def take(self, count: int) -> bytes:
        """The next bytes."""
        if self._next + count > len(self._window):
            self._load(count)
        start = self._next
        self._next = start + count
        return self._window[start:start + count]

    def number(self, width: int) -> int:
        """The number in the next bytes."""
        return int.from_bytes(self.take(width), 'little')

    def over(self, count: int) -> None:
        """Goes over bytes that are not looked at."""
        if self.at + count > self.blob.size:
            self.fail('it is cut short')
        self._next += count

    def line(self) -> bytes:
        """The bytes up to a newline, which is gone over."""
        start = self._next
        found = self._window.find(b'\n', start)
        if found < 0:
            end = self.blob.find(b'\n', self.at)
            if end < 0:
                self.fail('it is cut short')
            if end - self.at > _LONGEST_LINE:
                self.fail(f'a line of more than {_LONGEST_LINE:,} bytes, which is more than is looked at here')
            text = self.take(end - self.at)
            self._next += 1
            return text
        self._next = found + 1
        return self._window[start:found]

    def fail(self, reason: str) -> NoReturn:
        """Raises NotCanonical with the place of the opcode."""
        raise NotCanonical(reason, self._base + self._begin)

    # --- Reading ---

    def read(self) -> Pickle:
        """Reads to STOP."""
        try:
            self._read_opcodes()
        except IndexError:
            self.fail('it is cut short')
        except ValueError:
            self.fail('a text or number that is none')
        return self.pickle

    def _read_opcodes(self) -> None:
        """Goes from opcode to opcode. The commonest are done here, since a call for each takes longer than what it does; any other by `_DO`."""
        do, memo = _DO, self._memo
        window, top, at, code = self._window, self._top, self._next, -1
        while code != _STOP:
            if at >= self._stop:
                self._next = at
                self._turn()
                window, at = self._window, self._next
            self._begin, code = at, window[at]
            if code == _BINGET and self._is_plain and window[at + 1] < len(memo):
                top.append(memo[window[at + 1]])
                self._has_gets = True
                at += 2
                if type(top[-1]) in HOLDERS:
                    self._count_get(top[-1])
            elif code == _BININT1:
                top.append(window[at + 1])
                at += 2
            elif code == _MEMOIZE and top and len(memo) < _MOST_IN_MEMO:
                memo.append(top[-1])
                self._memoizes = True
                at += 1
            elif code == _BINPUT and top and window[at + 1] == len(memo):
                memo.append(top[-1])
                at += 2
            elif code == _SHORT_BINUNICODE and at + 2 + window[at + 1] <= len(window):
                begin, at = at + 2, at + 2 + window[at + 1]
                top.append(window[begin:at].decode('utf-8', 'surrogatepass'))
            elif code == _BINFLOAT:
                top.append(DATA)
                at += 9
            else:
                self._next = at + 1
                do[code](self)
                window, top, at = self._window, self._top, self._next

    def _turn(self) -> None:
        """What is to be looked at between two opcodes: the end of a frame, the bytes at hand, and the time."""
        at = self.at
        if self.frame_end is not None and at >= self.frame_end:
            if at > self.frame_end:
                self.fail('an opcode crosses the end of a frame')
            self.frame_end = None
        self._count(0)
        if at == self.blob.size:
            self._begin = self._next
        if at >= self.blob.size or self._next + _LONGEST_FIXED > len(self._window) < self.blob.size - self._base:
            self._load(1)
        is_last = self._base + len(self._window) >= self.blob.size
        self._stop = min(self._next + _TURN, len(self._window) - (0 if is_last else _LONGEST_FIXED - 1))
        if self.frame_end is not None:
            self._stop = min(self._stop, self.frame_end - self._base)

    def _count(self, more: int) -> None:
        """Counts opcodes by their bytes, some four each."""
        if self.budget is not None:
            self.budget.count((self.at - self._counted) // 4 + more)
            self._counted = self.at

    def stop(self) -> None:
        if self._unfilled:
            self.fail("an object of joblib's class of arrays that gets no state")
        self._count(16)  # (a pickle takes time by itself)
        self.pickle.counts = self._has_gets and self._memoizes
        self.pickle.end = self.at

    def skip(self, count: int) -> None:
        """Goes over raw bytes between the opcodes."""
        start = self.at
        self.over(count)
        if count:
            self.pickle.raw.append((start, self.at))

    # --- The stack ---

    def push(self, value: Any) -> None:
        self._top.append(value)

    def pop(self) -> Any:
        if not self._top:
            self.fail('the stack is empty')
        return self._top.pop()

    def peek(self) -> Any:
        if not self._top:
            self.fail('the stack is empty')
        return self._top[-1]

    def marked(self) -> List[Any]:
        if not self._under:
            self.fail('no mark')
        items, self._top = self._top, self._under.pop()
        return items

    def mark(self) -> None:
        self._under.append(self._top)
        self._top = []

    def drop(self) -> None:
        if self._top:
            self._top.pop()
        else:
            self.marked()

    def refuse(self) -> None:
        self.fail('no opcode that picklers write here')

    # --- The memo ---

    def key(self) -> int:
        return int(self.line())

    def get(self, key: int) -> None:
        if not 0 <= key < len(self._memo) or self._memo[key] is NOTHING:
            self.fail(f'nothing is in the memo at {key} (it may be of an earlier pickle)')
        value = self._memo[key]
        self._has_gets = True
        self._top.append(value)
        if type(value) in HOLDERS:
            self._count_get(value)
        if type(value) is Made and is_wrapper(value.function):
            self.fail("an object of joblib's class of arrays that is used twice")
        self._check_wrapper(value)

    def _count_get(self, value: Any) -> None:
        """Counts it. A kind of items that is used before its state may change under an array."""
        if type(value) is Made:
            self.pickle.has_odd_states = self.pickle.has_odd_states or value.state is None
        else:
            self.pickle.gets[id(value)] = self.pickle.gets.get(id(value), 0) + 1

    def put(self, key: int) -> None:
        """Keys come in order; those of Python 2 leave one out."""
        if key == len(self._memo) + 1:
            self._memo.append(NOTHING)
            self._is_plain = False
        if key != len(self._memo):
            self.fail(f'the memo key {key} where {len(self._memo)} comes')
        self.keep()

    def memoize(self) -> None:
        self._memoizes = True
        self.keep()

    def keep(self) -> None:
        if len(self._memo) >= _MOST_IN_MEMO:
            self.fail(f'more than {_MOST_IN_MEMO:,} objects in its memo, which is more than is looked at here')
        self._memo.append(self.peek())

    # --- Imports and calls ---

    def imported(self, module: str, name: str) -> Global:
        found = self._globals.get((module, name))
        if found is None:
            found = self._globals[module, name] = Global(module, name)
            self.pickle.imports.add((module, name))
            self._is_plain = self._is_plain and not is_wrapper_name(name)
        return found

    def _name_of_line(self) -> str:
        return self.line().decode('utf-8')

    def _check_wrapper(self, value: Any) -> None:
        """Where this is one of joblib's classes of arrays, one is made of it at once, under its own name.

        What was made of it gets its state before anything else.
        """
        if type(value) is Made and value.state is None and is_wrapper(value.function):
            self.fail("an object of joblib's class of arrays that is used before it has its state")
        if type(value) is not Global or not is_wrapper_name(value.name):
            return
        if not is_wrapper(value) or not _MADE_AT_ONCE.match(self.blob.read(self.at, _LONGEST_MAKING)):
            self.fail("joblib's class of arrays under another name, or used for something else than to make one")

    def global_(self) -> None:
        value = self.imported(self._name_of_line(), self._name_of_line())
        self.push(value)
        self._check_wrapper(value)

    def stack_global(self) -> None:
        name, module = self.pop(), self.pop()
        if not isinstance(name, str) or not isinstance(module, str):
            self.fail('the name of an import is no text')
        value = self.imported(module, name)
        self.push(value)
        self._check_wrapper(value)

    def extension(self, width: int) -> None:
        self.over(width)
        self.push(DATA)

    def called(self, function: Any, arguments: Any) -> None:
        is_kept = isinstance(function, Global) and function.is_kept
        self._unfilled += is_kept and is_wrapper(function)
        takes_kind = has_kind(arguments)
        if isinstance(arguments, tuple) and not self.pickle.gives_methods:
            is_state = function in TAKE_ATTRIBUTES
            self.pickle.gives_methods = any(gives_method(each, not is_state) for each in arguments)
        self.gives_kinds = self.gives_kinds or takes_kind and not (isinstance(function, Global) and function in TAKE_KINDS)
        makes = function.makes if isinstance(function, Global) else ''
        if is_kept:
            self._top.append(Made(function, arguments))
        elif makes in ('array', 'buffer'):
            self._top.append(Array(makes == 'array'))
        elif makes == 'bytes':
            self._top.append(DATA)
        elif makes == 'dictionary':
            self._top.append(DICTIONARY)
        else:
            self._top.append(MAY_BE_KIND if takes_kind or makes or has_dtype(arguments) else MADE)
        if is_kept and not is_wrapper(function):
            self.pickle.kinds.append(self._top[-1])

    def newobj(self) -> None:
        arguments = self.pop()
        self.called(self.pop(), arguments)

    def newobj_ex(self) -> None:
        keywords, arguments = self.pop(), self.pop()
        self.called(self.pop(), (arguments, keywords))

    def inst(self) -> None:
        function = self.imported(self._name_of_line(), self._name_of_line())
        self._check_wrapper(function)
        self.called(function, tuple(self.marked()))

    def obj(self) -> None:
        items = self.marked()
        self.called(items[0], tuple(items[1:]))

    def build(self) -> None:
        state, target = self.pop(), self.peek()
        self.pickle.gives_methods = self.pickle.gives_methods or gives_method(state)
        if isinstance(target, Made) and not has_kind(target.arguments):
            if target.state is not None:
                self.fail("an object of joblib's class of arrays, or a kind of items, that gets a second state")
            if is_wrapper(target.function):
                self._unfilled -= 1
            target.state = state
            if self.on_build is not None:
                self.on_build(self, target)
        elif self._of_numpy and (isinstance(target, Made) or target is MAY_BE_KIND or may_be_of_kind(state)):
            self.fail('a state of what may be a kind of items')
        else:
            self.pickle.has_odd_states = self.pickle.has_odd_states or has_odd_key(state) or self._is_odd_array(state) or self._has_odd_array(state)
            if isinstance(target, Array):
                kinds = state[1:3] if isinstance(state, tuple) else ()
                target.may_hold_objects = not any(isinstance(kind, Made) for kind in kinds) or any(map(may_take_list, kinds))

    def _is_odd_array(self, state: Any) -> bool:
        """Whether numpy may take this as the state of an array, and so many objects from a list, without counting, as the list has not.

        The state is a version, a shape, a kind of items, an order, and bytes or a list; masked arrays go on, and old ones have no version.
        """
        if type(state) not in (tuple, PList) or len(state) < 4:
            return False
        return self._is_odd_list(state, *state[:4]) or len(state) > 4 and self._is_odd_list(state, *state[1:5])

    def _has_odd_array(self, state: Any, depth: int = 2) -> bool:
        """Whether a part of a state, or a part of a part, may be taken so: the `__setstate__` of a library may hand it on, as that of pandas'
        SparseArray does."""
        return depth > 0 and type(state) in (tuple, PList) and any(
            self._is_odd_array(each) or self._has_odd_array(each, depth - 1) for each in state if type(each) in (tuple, PList))

    def _is_odd_list(self, state: Any, shape: Any, kind: Any, _: Any, items: Any) -> bool:
        if not may_be(tuple, shape) or not may_be(PList, items) or not may_take_list(kind):
            return False
        if not isinstance(items, PList) or items.is_set or id(items) in self.pickle.gets or id(state) in self.pickle.gets:
            return True
        return count_of_shape(shape) != len(items) + items.left_out

    def persistent(self) -> None:
        self.pop()
        self.push(DATA)

    def persistent_line(self) -> None:
        self.line().decode('ascii')
        self.push(DATA)

    # --- Numbers and texts ---

    def int_(self) -> None:
        text = self.line()
        self.push(bool(int(text)) if text in (b'00', b'01') else int(text) if len(text) < _MOST_DIGITS else DATA)

    def long_(self) -> None:
        text = self.line()
        self.push(int(text.rstrip(b'L')) if len(text) < _MOST_DIGITS else DATA)

    def float_(self) -> None:
        self.line()
        self.push(DATA)

    def binfloat(self) -> None:
        self.over(8)
        self.push(DATA)

    def long_bytes(self, width: int) -> None:
        length = self.number(width)
        if length > _LONGEST_TEXT:
            self.over(length)
            self.push(DATA)
        else:
            self.push(int.from_bytes(self.take(length), 'little', signed=True))

    def unicode_(self) -> None:
        text = self.line()
        self.push(text.decode('raw-unicode-escape') if len(text) <= _LONGEST_TEXT else DATA)

    def string_(self) -> None:
        text = self.line()
        if len(text) <= _LONGEST_TEXT:
            read: Any = codecs.escape_decode(text[1:-1])[0]
            self.push(OldText(read))
        else:
            self.push(DATA)

    def text(self, length: int) -> None:
        if length <= _LONGEST_TEXT:
            self._top.append(self.take(length).decode('utf-8', 'surrogatepass'))
        else:
            self.bytes_(length)

    def old_text(self, width: int) -> None:
        self.bytes_(self.number(width))
        if type(self._top[-1]) is bytes:
            self._top[-1] = OldText(self._top[-1])

    def bytes_(self, length: int) -> None:
        if length <= _LONGEST_TEXT:
            self._top.append(self.take(length))
        else:
            self.over(length)
            self.push(DATA)

    def bytearray_(self) -> None:
        self.over(self.number(8))
        self.push(DATA)

    # --- Tuples, lists, dictionaries, sets ---

    def tuple_(self, count: int) -> None:
        top = self._top
        if len(top) < count:
            self.fail('the stack is empty')
        top[-count:] = [tuple(top[-count:])]

    def marked_tuple(self) -> None:
        self.push(tuple(self.marked()))

    def _fill(self, target: PList, items: List[Any]) -> None:
        if self._left > 0:
            self._left -= len(items)
            target += items
        else:
            target.left_out += len(items)

    def append(self, items: List[Any]) -> None:
        target = self.peek()
        if type(target) is PList:
            self._fill(target, items)

    def append_one(self) -> None:
        self.append([self.pop()])

    def set_items(self, items: List[Any]) -> None:
        target = self.peek()
        if isinstance(target, PDict):
            self._fill(target, items)
            for key, value in zip(items[::2], items[1::2]):
                if (type(value) is Global or value is MADE or isinstance(key, (str, OldText))) and is_method(key, value):
                    target.has_called = True
                    target.has_called_item = target.has_called_item or is_method(key, value, True)
        elif type(target) is PList:
            target.is_set = True
        elif target is not DICTIONARY:  # (some classes take their items for attributes)
            for key, value in zip(items[::2], items[1::2]):
                self.pickle.has_odd_items |= text_of(key) in OF_ARRAYS
                self.pickle.has_made_items |= isinstance(key, Opaque) and key is not DATA
                self.pickle.gives_methods |= bool(text_of(key)) and not isinstance(value, (str, int)) and is_method(key, value)

    def set_one(self) -> None:
        value, key = self.pop(), self.pop()
        self.set_items([key, value])

    def list_(self) -> None:
        items, made = self.marked(), PList()
        self._fill(made, items)
        self.push(made)

    def dict_(self) -> None:
        items = self.marked()
        self.push(PDict())
        self.set_items(items)

    def frozen(self) -> None:
        self.marked()
        self.push(DATA)

    def frame(self) -> None:
        size = self.number(8)
        self.frame_end = self.at + size
        self._stop = min(self._stop, self.frame_end - self._base)


def _with_number(width: int, do: Callable[[Reader, int], None]) -> Callable[[Reader], None]:
    """Does something with the number in the next bytes."""
    def read(reader: Reader) -> None:
        argument = reader._window[reader._next:reader._next + width]
        if len(argument) < width:
            reader.fail('it is cut short')
        reader._next += width
        do(reader, int.from_bytes(argument, 'little'))
    return read


_OPCODES: Dict[str, Callable[[Reader], Any]] = {
    'MARK': Reader.mark, 'POP': Reader.drop, 'POP_MARK': Reader.marked, 'PROTO': lambda r: r.over(1), 'STOP': Reader.stop, 'FRAME': Reader.frame,
    'NONE': lambda r: r.push(None), 'NEWTRUE': lambda r: r.push(True), 'NEWFALSE': lambda r: r.push(False),
    'INT': Reader.int_, 'LONG': Reader.long_, 'FLOAT': Reader.float_, 'BINFLOAT': Reader.binfloat,
    'BININT': lambda r: r.push(struct.unpack('<i', r.take(4))[0]), 'BININT1': _with_number(1, Reader.push),
    'BININT2': _with_number(2, Reader.push), 'LONG1': lambda r: r.long_bytes(1), 'LONG4': lambda r: r.long_bytes(4),
    'STRING': Reader.string_, 'BINSTRING': lambda r: r.old_text(4), 'SHORT_BINSTRING': lambda r: r.old_text(1),
    'UNICODE': Reader.unicode_, 'BINUNICODE': _with_number(4, Reader.text), 'SHORT_BINUNICODE': _with_number(1, Reader.text),
    'BINUNICODE8': _with_number(8, Reader.text),
    'BINBYTES': _with_number(4, Reader.bytes_), 'SHORT_BINBYTES': _with_number(1, Reader.bytes_), 'BINBYTES8': _with_number(8, Reader.bytes_),
    'BYTEARRAY8': Reader.bytearray_, 'NEXT_BUFFER': lambda r: r.push(DATA), 'READONLY_BUFFER': Reader.peek,
    'EMPTY_LIST': lambda r: r.push(PList()), 'EMPTY_TUPLE': lambda r: r.push(()), 'EMPTY_DICT': lambda r: r.push(PDict()),
    'EMPTY_SET': lambda r: r.push(DATA), 'APPEND': Reader.append_one, 'APPENDS': lambda r: r.append(r.marked()), 'LIST': Reader.list_,
    'SETITEM': Reader.set_one, 'SETITEMS': lambda r: r.set_items(r.marked()), 'DICT': Reader.dict_,
    'ADDITEMS': Reader.marked, 'FROZENSET': Reader.frozen,
    'TUPLE': Reader.marked_tuple, 'TUPLE1': lambda r: r.tuple_(1), 'TUPLE2': lambda r: r.tuple_(2), 'TUPLE3': lambda r: r.tuple_(3),
    'GET': lambda r: r.get(r.key()), 'BINGET': _with_number(1, Reader.get), 'LONG_BINGET': _with_number(4, Reader.get),
    'PUT': lambda r: r.put(r.key()), 'BINPUT': _with_number(1, Reader.put), 'LONG_BINPUT': _with_number(4, Reader.put),
    'MEMOIZE': Reader.memoize,
    'GLOBAL': Reader.global_, 'STACK_GLOBAL': Reader.stack_global, 'INST': Reader.inst, 'OBJ': Reader.obj, 'BUILD': Reader.build,
    'REDUCE': Reader.newobj, 'NEWOBJ': Reader.newobj, 'NEWOBJ_EX': Reader.newobj_ex,
    'EXT1': lambda r: r.extension(1), 'EXT2': lambda r: r.extension(2), 'EXT4': lambda r: r.extension(4),
    'PERSID': Reader.persistent_line, 'BINPERSID': Reader.persistent,
}

# What each byte does where an opcode is to come.
_DO: List[Callable[[Reader], Any]] = [Reader.refuse] * 256
for _each in TABLE:
    _DO[_each.code] = _OPCODES.get(_each.name, Reader.refuse)


def read_pickle(blob: Blob, at: int = 0, on_build: Optional[Hook] = None, budget: Optional[Budget] = None, of_numpy: bool = True) -> Pickle:
    """The pickle that begins here, in the form that picklers write. Without `of_numpy` nothing in it is a kind of numpy's items."""
    pickle = Reader(blob, at, on_build, budget, of_numpy).read()
    whole = blob if at == 0 and pickle.end == blob.size else blob.part(at, pickle.end - at)
    require_form(JoinedBlob(whole, [(start - at, end - at) for start, end in pickle.raw]) if pickle.raw else whole, budget, at)
    return pickle
