"""Reads the opcodes of a listing, and finds what they build and in which order it happens.

The program says which opcodes there are, which of them are refused, and where reading ends. Here is only kept which object lies where on
the stack and in the memo: a short plain value as its source, all else as a node. What each opcode takes from the stack is that of
`pickletools`. A literal may grow as long as nobody was given the object; from then on each change of it is a statement.
"""

from __future__ import annotations

from ast import literal_eval
from functools import lru_cache
from itertools import repeat
from typing import Any, Callable, Dict, List, Optional, Sequence, Set, Tuple, Union, cast

from ..hints import is_array_wrapper
from ..listed import Batch, Fields, key_of, names_of, offset_in
from ..literals import Failing, of_bytes, of_floats, of_line, of_number, of_numbers, of_text
from ..opcodes import TABLE, OpcodeInfo
from .names import Names, python3_name
from .nodes import Arguments, Called, Entry, Event, Filled, Formed, Insides, Needed, Node, Paired, Statement, is_dict, is_pure, is_tuple
from .shapes import ALIKE, GETS, RUNS, RUNS_WITHOUT_UNITS, Part, Said, Shape, codes_of, shape_of

__all__ = ['Builder', 'KINDS', 'MOST_SHORT', 'taken_count']

# The most letters of a plain value that is written wherever it is used.
MOST_SHORT = 80

_Handler = Callable[['Builder', Fields], None]

# Codes of opcodes that there are most of.
_TEXTS = frozenset('X\x8c\x8d')
_TEXT, _NUMBER, _MEMOIZE, _MARK, _LIST, _DICT, _FLOAT, _FRAME = 'X', 'K', '\x94', '(', ']', '}', 'G', '\x95'
# The values of these codes are always short.
_SHORT = frozenset([_NUMBER, _FLOAT])
_READ = GETS | _TEXTS | {_NUMBER, _MEMOIZE, _MARK, _LIST, _DICT, _FLOAT, *ALIKE}
# Opcodes of whose lines nothing is asked but the offset.
_BARE = frozenset(opcode.letter for opcode in TABLE if not opcode.argument)
_NOTHING: Fields = {}

# So many units of a shape are read at once. Where there are none in so many opcodes, they are not looked for in the next batches, in at most so many.
_SOME_UNITS = 4
_MOST_PASSED = 16
_MANY_OPCODES = 256
_MANY_ENTRIES = 32

# What is under a key of the memo: an entry, or a container in another one that was not opened.
_Stored = Union[Entry, Tuple[Formed, Part]]


class Builder:
    """What the opcodes that were read so far have built. `events` is what happens, `needs` the helpers that this takes, `places` how many
    opcodes were read, `array_at` where joblib's first array begins, and `is_framed` says whether there was a FRAME."""

    def __init__(self) -> None:
        self.events: List[Event] = []
        self.needs: Set[str] = set()
        self.stack: List[Entry] = []
        self.results = 0
        self.places = 0
        self.array_at: Optional[int] = None
        self.is_framed = False
        self._array_classes: Set[int] = set()  # the class that stands for such an array, and what is made of it, by their numbers
        self._arrays: Set[int] = set()
        self._names = Names()
        self._said = Said()
        self._head = ''  # of the line that is read
        self._made = 0
        self._misses = self._passes = 0  # in how many batches there were no units, and in how many they are not looked for
        self._begin()

    def _begin(self) -> None:
        """A pickle begins."""
        self.stack.clear()
        self._names.begin()
        self._marks: List[int] = []
        self._memo: List[_Stored] = []  # by keys, and those behind a gap
        self._far: Dict[int, _Stored] = {}
        self._protocol = 0

    # --- Opcodes ---

    def read(self, batch: Batch) -> None:
        """Reads opcodes."""
        heads, tails = batch
        codes = codes_of(tails)
        self.places += len(tails)
        self.is_framed = self.is_framed or _FRAME in codes
        read, is_passed = 0, self._passes > 0
        if is_passed:
            self._passes -= 1
        elif len(tails) > _MANY_OPCODES:
            self._misses, self._passes = self._misses + 1, min(_MOST_PASSED, 1 << self._misses >> 2)
        for run in (RUNS_WITHOUT_UNITS if is_passed else RUNS).finditer(codes):
            begin, end = run.span()
            self._read_each(heads[read:begin], tails[read:begin], codes[read:begin])
            read = end
            if run.lastgroup == 'units':
                self._read_units(heads[begin:end], tails[begin:end], codes[begin:end], len(run['unit']))
            elif self._far:
                self._read_each(heads[begin:end], tails[begin:end], codes[begin:end])
            else:
                entries: Sequence[Entry]
                if run.lastgroup == 'texts':
                    entries = self._texts(tails[begin:end:2])
                else:
                    entries = self._said.sources(codes[begin], tails[begin:end])
                self.stack += entries
                self._made += len(entries)
        self._read_each(heads[read:], tails[read:], codes[read:])
        self._said.forget()

    def _texts(self, tails: List[str]) -> List[Entry]:
        """Texts that are stored as they come."""
        texts = self._said.sources(_TEXT, tails)
        entries = [self._value(text, number) for number, text in enumerate(texts, self._made)]
        self._memo += entries
        return entries

    def _read_each(self, heads: List[str], tails: List[str], codes: str) -> None:
        """Reads opcodes one by one. What there is most of is done here and not by a handler, which would take twice the time."""
        stack, memo, marks, made = self.stack, self._memo, self._marks, self._made
        said = self._said.fields([tail for code, tail in zip(codes, tails) if code not in _BARE])
        for code, head, tail in zip(codes, heads, tails):
            if code == _MEMOIZE and not self._far:
                memo.append(stack[-1])
            elif code in GETS:
                key = cast(int, key_of(said[tail]))
                entry = memo[key] if key < len(memo) else self._far[key]
                if isinstance(entry, tuple):
                    entry = entry[0].open()[entry[1]]
                stack.append(entry)
            elif code in _TEXTS:
                stack.append(self._value(of_text(said[tail]), made))
                made += 1
            elif code == _NUMBER:
                stack += of_numbers([said[tail]])
                made += 1
            elif code == _MARK:
                marks.append(len(stack))
            elif code == _DICT or code == _LIST:
                stack.append(Node('list' if code == _LIST else 'dict', made, []))
                made += 1
            elif code == _FLOAT:
                stack += of_floats([said[tail]])
                made += 1
            else:
                self._made, self._head = made, head
                _HANDLERS[code](self, said.get(tail, _NOTHING))
                memo, marks, made = self._memo, self._marks, self._made
        self._made = made

    @property
    def _offset(self) -> int:
        """Where the opcode begins that is read."""
        return offset_in(self._head)

    # --- Units of one shape ---

    def _read_units(self, heads: List[str], tails: List[str], codes: str, size: int) -> None:
        """Reads units of one shape, at once where that can be."""
        count = len(tails) // size
        if count < _SOME_UNITS:
            self._read_each(heads, tails, codes)
            return
        self._misses = self._passes = 0
        shape = shape_of(codes[:size])
        odd = self._take_units(shape, shape.columns_of(tails), count)
        if not odd:
            return
        if 4 * len(odd) > count:
            self._read_each(heads, tails, codes)
            return
        begin = 0
        for each in [*odd, count]:
            start, odds, end = size * begin, size * each, size * each + size
            if each > begin:
                self._read_units(heads[start:odds], tails[start:odds], codes[start:odds], size)
            self._read_each(heads[odds:end], tails[odds:end], codes[:size])
            begin = each + 1

    def _take_units(self, shape: Shape, columns: List[Sequence[str]], count: int) -> List[int]:
        """Takes units of one shape, whose arguments are in columns. Where it cannot it answers those in which more is than short plain values."""
        first, step = len(self._memo), len(shape.stores)
        if step and not self._are_next(shape, columns, [range(first + at, first + step * count, step) for at in range(step)]):
            return list(range(count))
        codes = [shape.columns[at].code for at in shape.values]
        values: List[Sequence[str]] = [self._said.sources(code, columns[at]) if code not in GETS else () for code, at in zip(codes, shape.values)]
        stored: List[Any] = [None] * (step * count)
        for at, (item, _) in enumerate(shape.stores):
            if not isinstance(item, Part):
                stored[at::step] = values[item] if isinstance(item, int) else [item] * count
        odd: Set[int] = set()
        for number, (code, at) in enumerate(zip(codes, shape.values)):
            if code in GETS:
                values[number] = self._taken(columns[at], stored, odd)
            elif code not in _SHORT and (max(map(len, values[number])) > MOST_SHORT or Failing in set(map(type, values[number]))):
                odd.update(place for place, value in enumerate(values[number]) if len(value) > MOST_SHORT or type(value) is Failing)
        if not odd:
            numbers = range(self._made + shape.part.number, self._made + shape.made * count, shape.made)
            nodes = list(map(Formed, repeat(shape), numbers, zip(*values) if values else repeat(())))
            for at, (item, _) in enumerate(shape.stores):
                if isinstance(item, Part):
                    stored[at::step] = nodes if item is shape.part else zip(nodes, repeat(item))
            self._memo += stored
            if shape.taken:
                self.events.append(Insides(nodes))
            self.stack += nodes
            self._made += shape.made * count
        return sorted(odd)

    def _are_next(self, shape: Shape, columns: List[Sequence[str]], keys: List[range]) -> bool:
        """Whether units store under these keys, and nothing is under them."""
        return not self._far and all(key is None or self._keys(columns[key]) == list(numbers)
                                          for (_, key), numbers in zip(shape.stores, keys))

    def _taken(self, column: Sequence[str], stored: Sequence[Any], odd: Set[int]) -> Sequence[str]:
        """What is in the memo under keys, or is stored behind it. The places of keys under which no short plain value is, are added to `odd`."""
        found: Dict[str, str] = {}
        tails = list(set(column))
        for tail, key in zip(tails, self._keys(tails)):
            entry = self._far.get(key) or (self._memo[key] if key < len(self._memo) else stored[key - len(self._memo)])
            if isinstance(entry, str):
                found[tail] = entry
        if len(found) == len(tails):
            return list(map(found.__getitem__, column))
        odd.update(place for place, tail in enumerate(column) if tail not in found)
        return [found.get(tail, '') for tail in column]

    def _keys(self, column: Sequence[str]) -> List[int]:
        """The keys of opcodes that store under one, or get one."""
        said = self._said.fields(column)
        return [cast(int, key_of(said[tail])) for tail in column]

    def _value(self, text: str, number: int) -> Entry:
        """A plain value as its source, or as a node where that is long. What is none has a statement of its own: loading ends there."""
        if isinstance(text, Failing):
            node = Node.atom(number, str(text))
            self._name_now(node)
            return node
        return text if len(text) <= MOST_SHORT else Node.atom(number, text)

    # --- Plain values ---

    def _push_value(self, text: str) -> None:
        self.stack.append(self._value(text, self._made))
        self._made += 1

    def _on_bytearray8(self, fields: Fields) -> None:
        self._push(Node.atom(self._made, f'bytearray({of_bytes(fields)})', is_pure=False))

    # --- Stack and memo ---

    def _push(self, node: Node) -> None:
        self.stack.append(node)
        self._made += 1

    def _cut(self) -> List[Entry]:
        """What is above the topmost mark, which is taken away."""
        at = self._marks.pop()
        items = self.stack[at:]
        del self.stack[at:]
        return items

    def _on_proto(self, fields: Fields) -> None:
        self._protocol = fields['argument']

    def _on_frame(self, fields: Fields) -> None:
        """A frame builds nothing."""

    def _on_pop(self, fields: Fields) -> None:
        if self._marks and self._marks[-1] == len(self.stack):
            self._marks.pop()
        else:
            self.stack.pop()

    def _on_pop_mark(self, fields: Fields) -> None:
        self._cut()

    def _on_dup(self, fields: Fields) -> None:
        self.stack.append(self.stack[-1])

    def _on_put(self, fields: Fields) -> None:
        self._store(cast(int, key_of(fields)))

    def _on_memoize(self, fields: Fields) -> None:
        self._store(len(self._memo) + len(self._far))

    def _store(self, key: int) -> None:
        """Stores what is on top of the stack."""
        if key < len(self._memo):
            self._memo[key] = self.stack[-1]
        elif key > len(self._memo) or self._far:
            self._far[key] = self.stack[-1]
        else:
            self._memo.append(self.stack[-1])

    def _on_stop(self, fields: Fields) -> None:
        result = self._take(self.stack.pop())
        self.results += 1
        self.events.append(Statement('result = {}' if self.results == 1 else f'result_{self.results} = {{}}', [result]))
        self._begin()

    # --- Containers ---

    def _take(self, entry: Entry) -> Entry:
        """An object is needed by another one. Where it is needed first, its literal ends."""
        if type(entry) is not str:
            assert isinstance(entry, Node)
            entry.uses += 1
            if not entry.is_taken:
                entry.is_taken = True
                self.events.append(entry)
        return entry

    def _take_all(self, entries: List[Entry]) -> List[Node]:
        """Objects are needed. Answers those of them that are nodes."""
        if len(entries) > _MANY_ENTRIES and _are_texts(entries):
            return []
        nodes: List[Node] = [entry for entry in entries if type(entry) is not str]  # type: ignore[misc]
        needed: List[Node] = []
        for node in nodes:
            node.uses += 1
            if not node.is_taken:
                node.is_taken = True
                needed.append(node)
        if len(needed) > _MANY_ENTRIES:
            self.events.append(Needed(needed))
        else:
            self.events += needed
        return nodes

    def _name_now(self, node: Node) -> None:
        """The object is made here and not later."""
        self._take(node)
        node.uses += 1

    def _last(self, count: int) -> List[Entry]:
        items = self.stack[-count:]
        del self.stack[-count:]
        return items

    def _push_container(self, kind: str, items: List[Entry]) -> None:
        node = Node(kind, self._made, items)
        node.inner = self._take_all(items)
        self._push(node)
        node.is_pure = kind in ('tuple', 'frozenset') and is_pure(node.inner)
        if kind == 'frozenset' and not node.is_pure or kind == 'dict' and not is_pure(items[::2]):
            self._name_now(node)

    def _on_empty_tuple(self, fields: Fields) -> None:
        self.stack.append('()')
        self._made += 1

    def _on_append(self, fields: Fields) -> None:
        self._fill(fields, [self.stack.pop()], 'append')

    def _on_appends(self, fields: Fields) -> None:
        at = self._marks.pop()
        items = self.stack[at:]
        del self.stack[at:]
        self._fill(fields, items, 'append')

    def _on_additems(self, fields: Fields) -> None:
        self._fill(fields, self._cut(), 'add')

    def _extend_literal(self, items: List[Entry], keys: Sequence[Entry]) -> Optional[Node]:
        """Puts items into the container on top of the stack, while its literal goes on. Answers the container where a statement has to do it."""
        if not items:
            return None
        target = self.stack[-1]
        assert isinstance(target, Node)
        nodes = self._take_all(items)
        if target.is_taken:
            target.uses += 1
            return target
        if isinstance(target, Formed):
            target.open()
        if target.items:
            target.items += items
        else:
            target.items = items
        if not nodes:
            return None
        if isinstance(target.inner, list):
            target.inner += nodes
        else:
            target.inner = nodes
        if target.kind != 'list' and not is_pure(keys):
            self._name_now(target)
        return None

    def _end_literal(self, *kinds: str) -> None:
        """What is filled next is filled by statements, where it is of these kinds: no literal says that a byte array grows, or an item is replaced."""
        target = self.stack[-1]
        if isinstance(target, Node) and target.kind in kinds and not target.is_taken:
            self._name_now(target)

    def _fill(self, fields: Fields, items: List[Entry], method: str) -> None:
        self._end_literal('atom')
        target = self._extend_literal(items, items)
        if target is not None:
            self._fill_later(fields, target, items, method)

    def _fill_later(self, fields: Fields, target: Node, items: List[Entry], method: str) -> None:
        """A statement puts items into a container. What that does to one that comes from a call depends on its type, which C's unpickler asks."""
        is_each = len(items) == 1 and not target.is_opaque
        form = f'{{}}.{method}({{}})' if is_each else '{}.update({})' if method == 'add' else '{}.extend({})'
        if target.is_opaque:
            helper = 'add_items' if method == 'add' else 'extend'
            form = f'{helper}({{}}, {{}})'
            self.needs.add(helper)
        self.events.append(Filled(form, target, items, is_each, self._offset if target.is_opaque else None))

    def _on_setitem(self, fields: Fields) -> None:
        self._set(fields, self._last(2))

    def _on_setitems(self, fields: Fields) -> None:
        self._set(fields, self._cut())

    def _set(self, fields: Fields, items: List[Entry]) -> None:
        self._end_literal('atom', 'list')
        target = self._extend_literal(items, items[::2])
        if target is not None:
            self.events.append(Paired(target, items, self._offset if target.is_opaque else None))

    # --- What reaches out ---

    def _push_name(self, text: str = '') -> Node:
        node = Node.name(self._made, text or f'_{self._made}')
        self._push(node)
        return node

    def _import(self, offset: int, module: str, name: str) -> str:
        """Imports a name, and answers how it is called."""
        is_dotted = self._protocol >= 4
        found = (module, name) if self._protocol >= 3 else python3_name(module, name)
        statement, text = self._names.bind(*found, self._made, is_dotted)
        if not statement.startswith('from'):
            self.needs |= {'import_module', 'reduce'} if 'reduce(getattr, ' in statement else {'import_module'}
        if is_array_wrapper(name):
            self._array_classes.add(self._made)
        note = '' if found == (module, name) else f', in the pickle {module!r} {name!r}'
        self.events.append(Statement(_form_of(statement), (), offset, note))
        return text

    def _import_lines(self, fields: Fields, encoding: str) -> str:
        """Imports what GLOBAL or INST names. Where a line is no name it fails as C's unpickler does: before anything is imported."""
        names, offset = [], self._offset
        for name in names_of(fields):
            try:
                names.append(name.decode(encoding))
            except UnicodeDecodeError:
                self.events.append(Statement(_form_of(f'{name!r}.decode({encoding!r})'), (), offset))
                return f'_{self._made}'
            if not name:
                self.events.append(Statement("raise EOFError('a name is empty')", (), offset))
                return f'_{self._made}'
        return self._import(offset, *names)

    def _on_global(self, fields: Fields) -> None:
        self._push_name(self._import_lines(fields, 'utf-8'))

    def _on_stack_global(self, fields: Fields) -> None:
        module, name = map(self._take, self._last(2))
        texts = _literal_text(module), _literal_text(name)
        if texts[0] is not None and texts[1] is not None:
            self._push_name(self._import(self._offset, texts[0], texts[1]))
            return
        self.needs |= {'find_class', 'unpickle'}
        form = f'_{self._made} = find_class({{}}, {{}}, protocol={self._protocol})'
        self.events.append(Statement(form, [module, name], self._offset))
        self._push_name()

    def _on_extension(self, fields: Fields) -> None:
        self.needs.add('unpickle')
        self._call_of_own(fields, 'extension', [str(fields['argument']), f'protocol={self._protocol}'])

    def _on_persid(self, fields: Fields) -> None:
        self._call_of_own(fields, 'persistent_load', [str(of_line(fields))])

    def _on_binpersid(self, fields: Fields) -> None:
        self._call_of_own(fields, 'persistent_load', self._last(1))

    def _call_of_own(self, fields: Fields, function: str, items: List[Entry]) -> None:
        """A call of what the source is given, or defines."""
        self.needs.add(function)
        self._call(fields, '{}', function, Arguments(items))

    def _call(self, fields: Fields, form: str, function: Entry, arguments: Arguments) -> None:
        for entry in (function, *arguments.items, arguments.spread or '', arguments.keywords or ''):
            self._take(entry)
        for several in (arguments.spread, arguments.keywords):
            if isinstance(several, Formed):
                several.open()
        if arguments.spread is not None and not is_tuple(arguments.spread):
            self.needs.add('arguments')
        if arguments.keywords is not None and not is_dict(arguments.keywords):
            self.needs.add('keywords')
        if self._array_classes and any(map(self._is_array_class, (function, *arguments.items, arguments.spread))):
            self._arrays.add(self._made)
        self.events.append(Called(self._made, form, function, arguments, self._offset))
        self._push_name()

    def _is_array_class(self, entry: Optional[Entry]) -> bool:
        """Whether it is the class that stands for joblib's arrays, or a tuple with that."""
        if not isinstance(entry, Node):
            return False
        return entry.number in self._array_classes or entry.kind == 'tuple' and any(map(self._is_array_class, entry.inner))

    def _on_reduce(self, fields: Fields) -> None:
        function, arguments = self._last(2)
        self._call(fields, '{}', function, Arguments(spread=arguments))

    def _on_newobj(self, fields: Fields) -> None:
        kind, arguments = self._last(2)
        self._call(fields, '{}.__new__', kind, Arguments([kind], arguments))

    def _on_newobj_ex(self, fields: Fields) -> None:
        kind, arguments, keywords = self._last(3)
        self._call(fields, '{}.__new__', kind, Arguments([kind], arguments, keywords))

    def _on_obj(self, fields: Fields) -> None:
        kind, *items = self._cut()
        self._instantiate(fields, kind, items)

    def _on_inst(self, fields: Fields) -> None:
        items = self._cut()
        self._instantiate(fields, Node.name(self._made, self._import_lines(fields, 'ascii')), items)

    def _instantiate(self, fields: Fields, kind: Entry, items: List[Entry]) -> None:
        if items:
            self._call(fields, '{}', kind, Arguments(items))
        else:
            self._call_of_own(fields, 'instantiate', [kind])

    def _on_build(self, fields: Fields) -> None:
        state = self._take(self.stack.pop())
        target = self._take(self.stack[-1])
        if self.array_at is None and isinstance(target, Node) and target.number in self._arrays:
            self.array_at = self._offset + 1
        self.needs.add('set_state')
        self.events.append(Statement('set_state({}, {})', [target, state], self._offset))

    def _on_next_buffer(self, fields: Fields) -> None:
        self.needs.add('buffers')
        self.events.append(Statement(f'_{self._made} = next(buffers)', offset=self._offset))
        self._push_name().kind = 'buffer'

    def _on_readonly_buffer(self, fields: Fields) -> None:
        buffer = self.stack[-1]
        text = buffer if isinstance(buffer, str) else buffer.text
        if text[:2] in ("b'", 'b"') or (isinstance(buffer, Node) and buffer.kind == 'readonly'):
            return
        self._take(self.stack.pop())
        is_opaque = isinstance(buffer, Node) and buffer.is_opaque
        form = '{0} if memoryview({0}).readonly else memoryview({0}).toreadonly()' if is_opaque else 'memoryview({0}).toreadonly()'
        offset = self._offset if isinstance(buffer, Node) and buffer.kind == 'name' else None
        self.events.append(Statement(f'_{self._made} = {form}', [buffer], offset))
        node = self._push_name()
        node.kind, node.is_opaque = 'readonly', False

    # --- The end ---

    def leave(self) -> List[Entry]:
        """What is on the stack where reading ends early. It is needed now."""
        self._take_all(self.stack)
        return self.stack


# The opcodes that make a container, and its kind.
KINDS = {info.name: info.kind for info in TABLE if info.kind in ('list', 'dict', 'set', 'frozenset', 'tuple') and info.name != 'EMPTY_TUPLE'}


def _are_texts(entries: Sequence[Entry]) -> bool:
    """Whether all entries are short plain values."""
    try:
        ''.join(entries)  # type: ignore[arg-type]
    except TypeError:
        return False
    return True


def taken_count(opcode: OpcodeInfo) -> Optional[int]:
    """How many objects an opcode takes from the stack. None where it takes all that is above the mark."""
    return None if opcode.takes_mark else opcode.taken


def _form_of(statement: str) -> str:
    """A statement without parts."""
    return statement.replace('{', '{{').replace('}', '}}')


def _literal_text(entry: Entry) -> Optional[str]:
    """The text that an entry is, if it is one."""
    text = entry if isinstance(entry, str) else entry.text if entry.kind == 'atom' else ''
    return _evaluated(text) if text[:1] in ("'", '"') else None


@lru_cache(maxsize=1000)
def _evaluated(text: str) -> str:
    return str(literal_eval(text))


# --- What reads each other opcode, by its code ---

def _handler(opcode: OpcodeInfo) -> _Handler:
    own: Optional[_Handler] = getattr(Builder, f'_on_{opcode.name.lower()}', None)
    if own is not None:
        return own
    if opcode.name in KINDS:
        return _maker(KINDS[opcode.name], opcode)
    if opcode.name.startswith('EXT'):
        return Builder._on_extension
    if opcode.name.endswith('PUT'):
        return Builder._on_put
    return _pusher(opcode.name, opcode.argument)


def _pusher(name: str, form: str) -> _Handler:
    """A handler for an opcode whose argument is a plain value, or that makes one without an argument."""
    if form in ('long1', 'long4'):
        return lambda builder, fields: builder._push_value(of_number(fields))
    if form in ('bytes1', 'bytes4', 'bytes8'):
        return lambda builder, fields: builder._push_value(of_bytes(fields))
    if form:
        return lambda builder, fields: builder._push_value(of_line(fields))
    return lambda builder, fields: builder._push_value(_VALUES[name])


_VALUES = {'NONE': 'None', 'NEWTRUE': 'True', 'NEWFALSE': 'False'}


def _maker(kind: str, opcode: OpcodeInfo) -> _Handler:
    """A handler for an opcode that makes a container: empty, of what is above the mark, or of the objects on top."""
    count = taken_count(opcode)
    if count is None:
        return lambda builder, fields: builder._push_container(kind, builder._cut())
    most: int = count
    if not most:
        return lambda builder, fields: builder._push(Node(kind, builder._made, []))
    return lambda builder, fields: builder._push_container(kind, builder._last(most))


_HANDLERS: Dict[str, _Handler] = {opcode.letter: _handler(opcode) for opcode in TABLE if opcode.letter not in _READ - {_MEMOIZE}}
