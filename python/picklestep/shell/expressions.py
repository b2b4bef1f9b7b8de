"""What is asked of the pickle where it is, as Python writes it: `top == 'os'`, `len(#3) > 2`, `memo[1]`.

The values are the program's: its stack, its memo and its objects at the cursor. Nothing of an expression is run as Python: what is not named here is
refused when the expression is typed.
"""

from __future__ import annotations

import ast
import operator
import re
from typing import Any, Callable, Dict, List, Sequence, Tuple, Type, Union

from ..comparing import shown_value
from ..errors import PicklestepError
from ..heaps import Heap
from ..listed import opcode_of
from ..listing_records import Change, Object
from ..patterns import pattern
from ..records import Extension, Global, Name, Ref
from ..session_records import Mark
from ..trees import Values
from .opened import Opened

__all__ = ['Expression', 'ExpressionError', 'NAMES', 'dotted', 'split_condition']

_LONGEST = 1000  # letters
_MOST_SHOWN = 3
# A text in quotes, the number of an object, or the cursor as gdb has it.
_SPELT = pattern(r"""('(?:[^'\\]|\\.)*'|"(?:[^"\\]|\\.)*")|#([0-9]{1,12})|\$(?:pc|ip)\b|#""")
_IF = pattern(r"""('(?:[^'\\]|\\.)*'|"(?:[^"\\]|\\.)*")|(?:^|\s)if\s""")
_OBJECT = 'object'
_FUNCTIONS = ('len', 'kind')


class ExpressionError(ValueError):
    """A text that is no expression, or one that has no value where the pickle is."""


class _Dotted:
    """A name that is imported, as it is typed."""

    def __init__(self, text: str) -> None:
        self.text = text

    def __eq__(self, other: object) -> bool:
        if isinstance(other, (Global, Extension)):
            return dotted(other) == self.text
        return isinstance(other, _Dotted) and other.text == self.text

    def __hash__(self) -> int:
        return hash(self.text)


def dotted(name: Name) -> str:
    """A name as `module.name`. What comes from an object is its number, as in the lines of `calls`.

    >>> dotted(Global(b'os', Ref(3))), dotted(Ref(4)), dotted(Extension(7))
    ('os.#3', '#4', 'ext 7')
    """
    if isinstance(name, Global):
        return b'.'.join(b'#%d' % part.number if isinstance(part, Ref) else part for part in (name.module, name.name)).decode('utf-8', 'replace')
    return f'ext {name.code}' if isinstance(name, Extension) else f'#{name.number}'


def split_condition(text: str) -> Tuple[str, str]:
    """What is before the word `if`, and the condition behind it. Within quotes it is no such word.

    >>> split_condition("call os.* if top == ' if '"), split_condition('if place > 3'), split_condition('text iffy')
    (('call os.*', "top == ' if '"), ('', 'place > 3'), ('text iffy', ''))
    """
    for match in _IF.finditer(text):
        if match[1] is None:
            return text[:match.start()].strip(), text[match.end():].strip()
    return text.strip(), ''


class Expression:
    """Something that has a value at each place of a pickle. Raises ExpressionError where the text says nothing of that kind.

    >>> from contextlib import closing
    >>> with closing(Opened(b'X\\x02\\0\\0\\0os](N.', '')) as pickle:
    ...     pickle.session.goto(1), Expression("top == 'os' and len(#0) < 3").value(pickle)
    (1, True)
    """

    def __init__(self, text: str) -> None:
        self.text = text.strip()
        self._tree = _parsed(self.text)
        try:
            _check(self._tree)
        except RecursionError:
            raise ExpressionError(f'{self.text[:60]!r} has too many parts in one another') from None

    def __str__(self) -> str:
        return self.text

    def value(self, pickle: Opened) -> Any:
        """The value at the cursor. An object is a Ref, and a mark on the stack a Mark. Raises ExpressionError where there is none."""
        try:
            return _At(pickle).of(self._tree)
        except (TypeError, ValueError, LookupError, OverflowError, RecursionError, PicklestepError) as error:
            why = f'{self.text} has no value here'
            raise ExpressionError(why if isinstance(error, LookupError) else f'{why}: {error}') from error

    def is_true(self, pickle: Opened) -> bool:
        """Whether it is true at the cursor. Where it has no value it is not."""
        try:
            value = self.value(pickle)
            return bool(_At(pickle).plain(value))
        except (ExpressionError, PicklestepError):
            return False

    def shown(self, pickle: Opened) -> str:
        """Its value at the cursor, as it is shown."""
        return _shown(pickle, self.value(pickle))


def _shown(pickle: Opened, value: Any) -> str:
    if isinstance(value, Ref):
        return f'#{value.number} {pickle.described(value.number)}'
    if isinstance(value, Mark):
        return f'mark of {value.place}'
    if isinstance(value, _Stack):
        return _latest([_shown(pickle, each) for each in value[-_MOST_SHOWN:]], len(value))
    if isinstance(value, _Memo):
        return _latest([f'{key}: {_shown(pickle, each)}' for key, each in list(value.items())[-_MOST_SHOWN:]], len(value))
    return value.text if isinstance(value, _Dotted) else shown_value(value)


def _latest(shown: List[str], count: int) -> str:
    """The last of some things, the latest first."""
    return ' | '.join(shown[::-1] + ([f'.. {count - len(shown)} more'] if count > len(shown) else [])) or 'empty'


# --- What is typed ---

def _parsed(text: str) -> ast.expr:
    """The parts of a text."""
    def spelt(match: 're.Match[str]') -> str:
        if match[0] == '#':
            raise ValueError('an object has a number, as #3')
        return match[1] or (f' {_OBJECT}[{match[2]}]' if match[2] else ' place')

    try:
        if len(text) > _LONGEST:
            raise ValueError(f'it has more than {_LONGEST} letters')
        return ast.parse(_SPELT.sub(spelt, text).strip(), mode='eval').body
    except (SyntaxError, ValueError, MemoryError, RecursionError) as error:
        raise ExpressionError(f"{text[:60]!r} is no expression, as top == 'os' or len(#3) > 2 is") from error


def _check(tree: ast.expr) -> None:
    """Raises ExpressionError where there is something that is not known."""
    for node in ast.walk(tree):
        if not isinstance(node, _KNOWN):
            raise ExpressionError(f'{type(node).__name__} is not known in an expression')
    for node in ast.walk(tree):
        if isinstance(node, ast.Call):
            name = node.func.id if isinstance(node.func, ast.Name) else ''
            if name not in _FUNCTIONS or len(node.args) != 1 or node.keywords:
                raise ExpressionError('only len(..) and kind(..) are known, of one value')
    _check_names(tree)


def _check_names(node: ast.AST) -> None:
    if isinstance(node, ast.Attribute):
        _name_of(node)
    elif isinstance(node, ast.Call):
        _check_names(node.args[0])
    elif isinstance(node, ast.Subscript) and isinstance(node.value, ast.Name) and node.value.id == _OBJECT:
        _check_names(node.slice)
    elif isinstance(node, ast.Name):
        if node.id not in NAMES:
            raise ExpressionError(f'there is no {node.id!r}: there are {", ".join(NAMES)}, #N, len(..) and kind(..); texts have quotes')
    else:
        for inner in ast.iter_child_nodes(node):
            _check_names(inner)


def _name_of(node: ast.AST) -> str:
    """The name that is imported, as `os.path.join`."""
    if isinstance(node, ast.Attribute):
        return f'{_name_of(node.value)}.{node.attr}'
    if isinstance(node, ast.Name) and node.id not in NAMES:
        return node.id
    raise ExpressionError('a dot stands in the names of imports alone, as os.system')


_OPERATORS: Dict[Type[ast.cmpop], Callable[[Any, Any], Any]] = {
    ast.Lt: operator.lt, ast.LtE: operator.le, ast.Gt: operator.gt, ast.GtE: operator.ge}
_EQUAL = (ast.Eq, ast.NotEq, ast.Is, ast.IsNot)
_IN = (ast.In, ast.NotIn)
_NOT = (ast.NotEq, ast.IsNot, ast.NotIn)
_KNOWN: Tuple[Type[ast.AST], ...] = (
    ast.BoolOp, ast.UnaryOp, ast.Compare, ast.Call, ast.Constant, ast.Attribute, ast.Subscript, ast.Name, ast.Tuple, ast.List, ast.Set, ast.Dict,
    ast.And, ast.Or, ast.Not, ast.USub, ast.Load, ast.cmpop, *([ast.Index] if hasattr(ast, 'Index') else []))


# --- What it is at the cursor ---

class _Stack(Tuple[Union[Ref, Mark], ...]):
    """The stack, from the bottom."""


class _Memo(Dict[int, Ref]):
    """The memo."""


class _At:
    """The values of parts of an expression where the pickle is."""

    def __init__(self, pickle: Opened) -> None:
        self._pickle = pickle

    def of(self, node: ast.AST) -> Any:
        """The value of a part."""
        return _OF[type(node)](self, node)

    def plain(self, value: Any) -> Any:
        """A value; where it is an object, that of the object, unless this is large."""
        return self._object(value.number) if isinstance(value, Ref) else value

    def _object(self, number: int) -> Any:
        if not self._pickle.is_short(number):
            return Ref(number)
        shown = {each.number: each.object for each in self._pickle.session.show(number) if each.object is not None}
        at = {known: place for place, known in enumerate(sorted(shown))}
        return Values(Heap.of([_renumbered(shown[known], at) for known in sorted(shown)])).at(at[number])

    def _named(self, node: ast.Name) -> Any:
        return NAMES[node.id](self._pickle)

    def _item(self, node: ast.Subscript) -> Any:
        index = node.slice.value if type(node.slice).__name__ == 'Index' else node.slice  # type: ignore[attr-defined]
        key = self.plain(self.of(index))
        if isinstance(node.value, ast.Name) and node.value.id == _OBJECT:
            if key >= self._pickle.made_before(self._pickle.session.where().place)[0]:
                raise LookupError(key)
            return Ref(key)
        return self.plain(self.of(node.value))[key]

    def _either(self, node: ast.BoolOp) -> Any:
        """As in Python: the first value that settles it."""
        value: Any = None
        for part in node.values:
            value = self.plain(self.of(part))
            if bool(value) == isinstance(node.op, ast.Or):
                break
        return value

    def _turned(self, node: ast.UnaryOp) -> Any:
        value = self.plain(self.of(node.operand))
        return not value if isinstance(node.op, ast.Not) else -value

    def _compared(self, node: ast.Compare) -> bool:
        left = self.of(node.left)
        for sign, part in zip(node.ops, node.comparators):
            right = self.of(part)
            if not self._holds(sign, left, right):
                return False
            left = right
        return True

    def _holds(self, sign: ast.cmpop, left: Any, right: Any) -> bool:
        if isinstance(sign, _EQUAL):
            return self._is_equal(left, right) != isinstance(sign, _NOT)
        if isinstance(sign, _IN):
            held = self.plain(right)
            is_in = any(self._is_equal(left, each) for each in held) if isinstance(held, _Stack) else self.plain(left) in held
            return is_in != isinstance(sign, _NOT)
        return bool(_OPERATORS[type(sign)](self.plain(left), self.plain(right)))

    def _is_equal(self, left: Any, right: Any) -> bool:
        """Two objects are equal if they are one, or plain values that are equal. (Others may hold one another again and again.)"""
        if isinstance(left, Ref) and isinstance(right, Ref):
            return left == right or all(map(self._pickle.is_plain, (left.number, right.number))) and self.plain(left) == self.plain(right)
        for one, other in ((left, right), (right, left)):
            if isinstance(one, Ref) and not isinstance(other, (tuple, list, dict, set, _Dotted)) and not self._pickle.is_plain(one.number):
                return False
        return bool(self.plain(left) == self.plain(right))

    def _call(self, node: ast.Call) -> Any:
        value = self.of(node.args[0])
        if isinstance(node.func, ast.Name) and node.func.id == 'len':
            return len(self.plain(value))
        if isinstance(value, Ref):
            return self._pickle.final_kind(value.number)
        return _KINDS.get(type(value), type(value).__name__)

    def _many(self, node: Union[ast.Tuple, ast.List, ast.Set]) -> Any:
        made = {ast.Tuple: tuple, ast.List: list, ast.Set: set}[type(node)]
        return made(self.plain(self.of(each)) for each in node.elts)

    def _pairs(self, node: ast.Dict) -> Any:
        if None in node.keys:
            raise ValueError('a key is wanted')
        return {self.plain(self.of(key)): self.plain(self.of(value)) for key, value in zip(node.keys, node.values) if key is not None}


# What the values are called that are no objects and no values of Python.
_KINDS: Dict[type, str] = {Mark: 'mark', _Stack: 'stack', _Memo: 'memo', _Dotted: 'name'}

_OF: Dict[Type[ast.AST], Callable[[_At, Any], Any]] = {
    ast.Constant: lambda at, node: node.value, ast.Attribute: lambda at, node: _Dotted(_name_of(node)), ast.Name: _At._named, ast.Subscript: _At._item,
    ast.BoolOp: _At._either, ast.UnaryOp: _At._turned, ast.Compare: _At._compared, ast.Call: _At._call, ast.Tuple: _At._many, ast.List: _At._many,
    ast.Set: _At._many, ast.Dict: _At._pairs}


def _renumbered(made: Object, at: Dict[int, int]) -> Object:
    """An object with other numbers for it and for what it holds."""
    def of(numbers: Sequence[int]) -> Tuple[int, ...]:
        return tuple(at[number] for number in numbers)

    changes: List[Change] = [Change(change.how, at[change.value], None if change.key is None else at[change.key]) for change in made.changes]
    return Object(at[made.number], made.kind, made.text, of(made.parts), tuple(changes))


def _top(pickle: Opened) -> Union[Ref, Mark]:
    top = pickle.session._stack().last(1)
    if not top:
        raise LookupError('top')
    return top[0]


def _result(pickle: Opened) -> Ref:
    return Ref(pickle.session.where().results[-1])


def _argument(pickle: Opened) -> Any:
    """The value of the argument at the cursor; None at the end. One that is not shown whole has none."""
    place = pickle.session.where().place
    if place >= len(pickle.lines):
        return None
    fields = pickle.lines.whole(place)
    if fields is None:
        raise LookupError('argument')
    return opcode_of(fields).value


def _opcode(pickle: Opened) -> str:
    place = pickle.session.where().place
    return pickle.lines.name(place) if place < len(pickle.lines) else ''


# What has a value, by its name.
NAMES: Dict[str, Callable[[Opened], Any]] = {
    'top': _top, 'stack': lambda pickle: _Stack(pickle.session.stack()),
    'memo': lambda pickle: _Memo({key: Ref(number) for key, number in pickle.session.memo().items()}), 'result': _result, 'opcode': _opcode,
    'argument': _argument, 'place': lambda pickle: pickle.session.where().place, 'offset': lambda pickle: pickle.session.where().offset,
    'marks': lambda pickle: pickle.session.where().marks}
