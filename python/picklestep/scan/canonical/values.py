"""What the reader of pickles takes values for, and what loaders and numpy may take them for: kinds of items, states, methods, joblib's arrays."""

from __future__ import annotations

from dataclasses import dataclass, field
from typing import Any, Dict, List, Type

from .forms import wrong
from .methods import CALLED, CALLED_ALONE, CALLED_OF_ITEMS, OF_ARRAYS, REPLACING

__all__ = ['Array', 'DATA', 'DICTIONARY', 'Global', 'HOLDERS', 'MADE', 'MAY_BE_KIND', 'Made', 'NOTHING', 'OldText', 'Opaque', 'PDict', 'PList', 'TAKE_ATTRIBUTES',
           'TAKE_KINDS', 'gives_method', 'has_dtype', 'has_kind', 'has_odd_key', 'is_method', 'is_wrapper', 'is_wrapper_name', 'may_be', 'may_be_of_kind',
           'may_take_list', 'text_of']


@dataclass(frozen=True)
class Global:
    """A value that is imported, by the names that find_class gets."""

    module: str
    name: str
    # What a call of it makes decides how many bytes follow, so its arguments and its state are kept.
    is_kept: bool = field(init=False, compare=False)
    # What a call of it makes, where that is known: 'bytes', a 'dictionary', an 'array', one over a 'buffer', or perhaps a 'kind' of items.
    makes: str = field(init=False, compare=False)

    def __post_init__(self) -> None:
        object.__setattr__(self, 'is_kept', (self.module, self.name) in _KEPT)
        kind = 'kind' if self.module.startswith('numpy') and 'DType' in self.name else ''
        object.__setattr__(self, 'makes', _MAKERS.get((self.module, self.name), kind))


class Made:
    """A value that a call made. The arguments and the state are kept where the form of what follows depends on them."""

    __slots__ = ('function', 'arguments', 'state')

    def __init__(self, function: Any, arguments: Any) -> None:
        self.function = function
        self.arguments = arguments
        self.state: Any = None


class OldText(bytes):
    """A text that Python 2 wrote, by opcodes of its own: Python 3 makes a text of it, and of no other bytes."""


def text_of(key: Any) -> str:
    """The text that a key is, or an empty one."""
    return key.decode('latin-1') if isinstance(key, OldText) else key if isinstance(key, str) else ''


class PList(List[Any]):
    """A list, as far as its items are kept. `left_out` counts the others; `is_set` says that an item was put in place of another, as no pickler
    does."""

    left_out = 0
    is_set = False

    @property
    def is_whole(self) -> bool:
        """Whether all of its items are kept."""
        return not self.left_out


class PDict(PList):
    """A dictionary: its keys and values in turn, as far as they are kept. `has_called` says that something is under a name that loaders call,
    and `has_called_item` so of what takes its items for attributes."""

    has_called = False
    has_called_item = False

    def by_text(self) -> Dict[str, Any]:
        """The values by their keys, where these are texts."""
        pairs = [(text_of(key), value) for key, value in zip(self[::2], self[1::2]) if isinstance(key, (str, OldText))]
        if len(dict(pairs)) < len(pairs):
            wrong('a key comes twice')
        return dict(pairs)


class Opaque:
    """A value of which nothing needs to be known."""


DATA = Opaque()
# What a call made that was given a kind of items: it may be that itself, as of `numpy.dtype(kind)`.
MAY_BE_KIND = Opaque()
# What any other call made; a dictionary, whose items are no attributes.
MADE = Opaque()
DICTIONARY = Opaque()


class Array(Opaque):
    """What numpy makes for an array. One of numbers is no state of another array."""

    def __init__(self, may_hold_objects: bool) -> None:
        self.may_hold_objects = may_hold_objects


# What the memo has where there is nothing.
NOTHING = Opaque()

# joblib reads an array where such an object gets its state, whatever made the object.
_WRAPPER_NAMES = ('NumpyArrayWrapper', 'NDArrayWrapper', 'ZNDArrayWrapper')
_LONGEST_WRAPPER = 1 + max(map(len, _WRAPPER_NAMES))
_WRAPPERS = frozenset((module, name) for module in ('joblib.numpy_pickle', 'joblib.numpy_pickle_compat') for name in _WRAPPER_NAMES)

_BUILTINS = ('builtins', '__builtin__')
_KEPT = _WRAPPERS | {('numpy', 'dtype')}
_MAKERS = {('_codecs', 'encode'): 'bytes', **{('collections', name): 'dictionary' for name in ('OrderedDict', 'defaultdict', 'Counter')},
           **{(f'numpy.{core}.{name}', function): made for core in ('core', '_core') for name, function, made in (
               ('numeric', '_frombuffer', 'buffer'), ('multiarray', '_reconstruct', 'array'))}}
# What picklers call with a kind of items, and what leaves it as it is.
TAKE_KINDS = frozenset(Global(f'numpy.{core}.{name}', function) for core in ('core', '_core') for name, function in (
    ('multiarray', 'scalar'), ('numeric', '_frombuffer'), ('multiarray', '_reconstruct')))

# What takes attributes as its argument (Python 3.13).
TAKE_ATTRIBUTES = (Global('types', 'SimpleNamespace'),)

# The flag of a kind of items whose arrays get a list (NPY_LIST_PICKLE).
_TAKES_LIST = 2
# What the memo gives that can be changed, or hold what can.
HOLDERS = frozenset((tuple, PList, PDict, Made))


def has_kind(values: Any, depth: int = 0) -> bool:
    """Whether a kind of items is among arguments, or in a container among them."""
    if isinstance(values, Made):
        return not is_wrapper(values.function)
    return depth < 3 and isinstance(values, (tuple, PList)) and any(type(each) in HOLDERS and has_kind(each, depth + 1) for each in values)


def has_dtype(arguments: Any) -> bool:
    """Whether numpy.dtype itself is among arguments: a call may make a kind of items by it."""
    return isinstance(arguments, tuple) and any(type(each) is Global and each.is_kept for each in arguments)


def may_be_of_kind(state: Any) -> bool:
    """Whether numpy.dtype takes such a state: a version, an order of bytes, and so on."""
    return isinstance(state, tuple) and 5 <= len(state) <= 9 and type(state[0]) is int and isinstance(state[1], (str, bytes, Opaque))


def has_odd_key(state: Any) -> bool:
    """Whether a state sets an attribute by which numpy takes an object for an array, or one that nobody sees."""
    if isinstance(state, PDict):
        return not state.is_whole or any(isinstance(key, Opaque) or text_of(key) in OF_ARRAYS for key in state[::2])
    if isinstance(state, Opaque):
        return state.may_hold_objects if isinstance(state, Array) else state is not DATA
    return isinstance(state, tuple) and len(state) == 2 and any(map(has_odd_key, state))


def gives_method(state: Any, of_items: bool = False) -> bool:
    """Whether a state, or items, have something under a name that loaders call, or may have: what is in a dictionary that a call made is not
    kept."""
    if isinstance(state, PDict):
        return state.has_called_item if of_items else state.has_called
    if isinstance(state, Opaque):  # (the unpickler in Python asks any object for its items)
        return not of_items and state is not DATA and not isinstance(state, Array)
    return isinstance(state, tuple) and len(state) == 2 and any(gives_method(each, of_items) for each in state)


def is_method(key: Any, value: Any, is_item: bool = False) -> bool:
    """Whether a loader may call this by its name. The names of methods of lists and dictionaries also stand for settings, which are values, or
    kinds of them, and for items."""
    if not isinstance(key, (str, OldText)):
        return type(value) is Global and isinstance(key, Opaque) and key is not DATA and not is_item
    name = text_of(key)
    if name in REPLACING:
        return not is_item
    if name in CALLED_ALONE:
        return type(value) is Global or value is MADE
    return name in (CALLED_OF_ITEMS if is_item else CALLED) and type(value) is Global and value.module not in _BUILTINS


def may_be(kind: Type[Any], value: Any) -> bool:
    """Whether a value is of this class, or a call may have made one that is."""
    return isinstance(value, kind) or isinstance(value, Opaque) and value is not DATA and not isinstance(value, Array)


def may_take_list(kind: Any) -> bool:
    """Whether an array of this kind may take a list, without counting."""
    if not isinstance(kind, Made):
        return kind is MAY_BE_KIND
    state = kind.state
    return not isinstance(state, tuple) or len(state) < 8 or type(state[7]) is not int or state[7] & _TAKES_LIST != 0


def is_wrapper(value: Any) -> bool:
    return isinstance(value, Global) and (value.module, value.name) in _WRAPPERS


def is_wrapper_name(name: str) -> bool:
    return name[-_LONGEST_WRAPPER:].rpartition('.')[2] in _WRAPPER_NAMES
