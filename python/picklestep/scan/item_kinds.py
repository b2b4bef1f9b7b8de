"""What a pickle says of numpy's kinds of items (`dtype`), by the program's lines.

numpy believes it. Where raw bytes are said to be objects they become pointers of the author's; where objects are said to be raw bytes, so
does what is read as these. And a number of a kind of objects is that object itself, whatever it is.
"""

from __future__ import annotations

from typing import Any, Dict, List, NamedTuple, Optional, Sequence, Tuple, Union

from ..reaches import CHANGES, Fields, said_in

__all__ = ['ItemKinds']

# What shows in lines that a pickle has kinds of items.
_NUMPY = b'"module":"numpy'
_SIGNS = (b'"module":"numpy","name":"dtype"', b'"module":"numpy.dtypes"', b'multiarray","name":"scalar"', b'"state":{"kind":"object"')
# Flag of a kind whose items hold objects (NPY_ITEM_REFCOUNT), and all flags of a kind by its letter.
_HOLDS_OBJECTS = 1
_FLAGS = {'O': 63, 'U': 8}
_PLAIN_CODES = frozenset('?bBhHiIlLqQeufdgFDGcSaUVMm')
# The bytes of a letter, where an item has some.
_WIDTHS = {'S': 1, 'a': 1, 'U': 4, 'V': 1}
# What makes texts that do not stand in the pickle.
_OF_TEXTS = b'"name":"dtype","args":[{"kind":"text","value":"'
_MAKE_TEXTS = (b'"UserString"', _OF_TEXTS + b'U', _OF_TEXTS + b'<U', b'"str_"', b'StringDType')
_MAKERS = ('call', 'new', 'inst')
_SCALARS = ('numpy.core.multiarray', 'numpy._core.multiarray')
Line = Tuple[int, str, str]


class ItemKind(NamedTuple):
    """A kind of numpy's items is made: the number of the object, and its code; '' where that is not known."""

    number: int
    code: str


class KindState(NamedTuple):
    """Something is given a state: its number, whether the state is that of a kind of items, whether it has parts, its size and its flags; and
    whether it may set attributes, which the line does not show. `array` is the kind of items of an array that may get a list."""

    number: int
    is_whole: bool
    has_parts: bool
    size: int
    flags: int
    is_of_attributes: bool
    array: Optional[int] = None


class NumberOfKind(NamedTuple):
    """A number of a kind of items is made: the number of that kind, if it is one object of the pickle."""

    kind: Optional[int]


def kind_in(fields: Fields) -> Union[ItemKind, KindState, NumberOfKind, None]:
    """What a line says of numpy's kinds of items or of a state.

    >>> kind_in({'kind': 'call', 'module': 'numpy', 'name': 'dtype', 'args': [{'kind': 'text', 'value': 'O8'}], 'object': 5})
    ItemKind(number=5, code='O8')
    """
    what, module, arguments = fields['kind'], fields.get('module'), fields.get('args')
    if what == 'state':
        return _state_in(int(fields['object']), fields['state'])
    first: Fields = arguments[0] if isinstance(arguments, list) and arguments else {}
    if what in _MAKERS and module == 'numpy.dtypes' and 'name' in fields:
        return ItemKind(int(fields['object']), 'O' if fields['name'] == 'ObjectDType' else 'V')
    if not isinstance(arguments, list):
        return None
    if what in _MAKERS and (module, fields.get('name')) == ('numpy', 'dtype'):
        is_named = first.get('kind') == 'global' and first.get('module') == 'numpy' and first.get('name') in ('record', 'void')
        return ItemKind(int(fields['object']), _plain(first) or ('V' if is_named else ''))
    if what == 'call' and module in _SCALARS and fields.get('name') == 'scalar':
        return NumberOfKind(int(first['object']) if first.get('kind') == 'object' else None)
    return None


def _plain(value: Fields) -> str:
    """A text that stands for itself in quotes; '' of another value."""
    text = value.get('value')
    is_plain = value.get('kind') in ('text', 'string') and isinstance(text, str) and text.isascii() and text.isprintable() and not set(text) & {"'", '\\'}
    return str(text) if is_plain else ''


def _state_in(number: int, state: Any) -> KindState:
    """A state: its version, the order of bytes, what it repeats, names and fields, size and place, flags, and of times their unit. That of an array is a
    shape, perhaps behind a version, then the kind of items, an order, and what is no bytes."""
    parts: List[Fields] = state if isinstance(state, list) else []
    kinds = [part['kind'] for part in parts]
    is_whole = (len(parts) in (8, 9) and len(_plain(parts[1])) == 1 and all(kind in ('none', 'object') for kind in kinds[2:5])
                and all(kind in ('int', 'int-line') for kind in (kinds[0], *kinds[5:8])) and kinds[8:] in ([], ['object']))
    size, flags = [int(parts[at].get('value', parts[at].get('digits', -1))) for at in (5, 7)] if is_whole else [0, 0]
    at = 1 if kinds[:1] == ['object'] else 2
    is_array = not is_whole and kinds[at - 1:at + 1] == ['object', 'object'] and any('object' in part for part in parts[at + 1:])
    is_of_attributes = len(parts) == 2 if parts else not isinstance(state, list) and state['kind'] == 'object'
    return KindState(number, is_whole, is_whole and kinds[2:5] != ['none'] * 3, size, flags, is_of_attributes, int(parts[at]['object']) if is_array else None)


def _is_filled(fields: Fields) -> bool:
    """Whether an object gets something, or its attributes as an argument."""
    is_namespace = fields['kind'] == 'call' and fields.get('module') == 'types' and fields.get('name') == 'SimpleNamespace'
    return fields['kind'] in CHANGES or is_namespace and isinstance(fields['args'], list)


class ItemKinds:
    """The kinds of items in a pickle. `odd` is the first line, with its offset and part, that no pickler of numpy has written, and `unsure`
    the first one of which the lines do not show whether it is odd: what parts a kind has, how many objects an array gets, or which attributes
    a state sets beside numpy."""

    def __init__(self) -> None:
        self.odd: Optional[Line] = None
        self._codes: Dict[int, str] = {}
        self._of_kind: Optional[Line] = None
        self._of_array: Optional[Line] = None
        self._of_object: Optional[Line] = None
        self._has_numpy = False
        # Whether what is no text of the pickle may be one, or as good as one.
        self.makes_texts = False

    @property
    def unsure(self) -> Optional[Line]:
        return self._of_kind or self._of_array or self._of_object

    @property
    def of_numpy(self) -> bool:
        """Whether numpy may get any of it."""
        return self._of_kind is not None or self._of_array is not None and self._has_numpy

    def name(self, oddness: str) -> str:
        """What numpy or a loader makes of it."""
        if oddness == 'items':
            return 'numpy.ndarray'
        if self.odd is None and (oddness == 'attribute' or not self.of_numpy):
            return 'attribute'
        return 'numpy.dtype' if self.odd is not None or self._of_kind is not None else 'numpy.ndarray'

    def read(self, lines: Sequence[Fields], signs: bytes, part: str) -> None:
        """Reads lines, which stand in this part of an answer and have these signs."""
        self._has_numpy = self._has_numpy or _NUMPY in signs
        self.makes_texts = self.makes_texts or any(sign in signs for sign in _MAKE_TEXTS)
        if self._of_object is None:
            found = next(filter(_is_filled, lines), None)
            self._of_object = (int(found['offset']), said_in(found), part) if found else None
        if not self._codes and not any(sign in signs for sign in _SIGNS):
            return
        for fields in lines:
            what = kind_in(fields)
            if isinstance(what, ItemKind):
                code = what.code.lstrip('<>=|')
                self._codes[what.number] = code if code[:1] in _PLAIN_CODES else 'O'
            elif what is not None:
                line = int(fields['offset']), said_in(fields), part
                if self._is_odd(what, line) and self.odd is None:
                    self.odd = line

    def _is_odd(self, what: Union[KindState, NumberOfKind], line: Line) -> bool:
        if isinstance(what, NumberOfKind):
            return self._may_be_objects(what.kind)
        code = self._codes.get(what.number)
        if code is None:
            if what.is_of_attributes or what.array is not None and self._may_be_objects(what.array):
                self._of_array = self._of_array or line
            return what.is_whole
        if not what.is_whole:
            return True
        if what.flags & _HOLDS_OBJECTS:
            self._codes[what.number] = 'O'
        if what.has_parts or code == 'V':
            self._of_kind = self._of_kind or line
            return code[0] != 'V'
        width = _WIDTHS.get(code[0])
        return what.flags & 0xFF != _FLAGS.get(code[0], 0) or width is not None and code[1:] != str(what.size // width)

    def _may_be_objects(self, kind: Optional[int]) -> bool:
        """Whether a kind of items, by its number, may hold objects."""
        return kind is None or self._codes.get(kind, 'O') == 'O'
