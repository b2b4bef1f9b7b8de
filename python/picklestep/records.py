"""What the answers are made of: what is reached, and how reading ended. (It takes time to make such a class: those that fewer answers
have are in `listing_records`, `short_records` and `session_records`.)"""

from __future__ import annotations

import sys
from dataclasses import dataclass, field
from typing import Any, Dict, Optional, Tuple, Union

from .values import Argument

__all__ = ['Argument', 'Brief', 'Briefs', 'End', 'Extension', 'Global', 'Name', 'Reach', 'Ref', 'SLOTS', 'Value']

# What makes a record of these classes smaller, where Python has it.
SLOTS: Dict[str, Any] = {'slots': True} if sys.version_info >= (3, 10) else {}


@dataclass(frozen=True, **SLOTS)
class End:
    """How reading ended.

    `how` is 'stopped' (STOP was read), 'refused' (the machine refused an opcode), 'fault' (the bytes cannot be read on), 'unsure'
    (loaders go on at different places: only `calls`) or 'part' (only `source` with `first`: no more was wanted). `code` is the code of the refusal or
    fault ('S2', 'F1', 'U1'), and `text` the program's words for it. `offset` is where the refused opcode or the fault is in the bytes, and `item` the
    place of the refused opcode. `of_frame` is set where reading ended at a frame: with `unframed` it goes on there. `words` is what `text` says without
    the offset and the number of an object. (Of a part under a heading, and in `picklestep.scan`, its place alone may be known, and `of_frame` and `words`
    are not in the JSON of `scan`.)

    >>> import picklestep
    >>> picklestep.listing(b'N').end
    End(how='fault', code='F1', text='F1 ended at 1', offset=1, item=None)
    """

    how: str
    code: Optional[str] = None
    text: str = 'stopped'
    offset: Optional[int] = None
    item: Optional[int] = None
    of_frame: bool = field(default=False, repr=False, compare=False)
    words: str = field(default='', repr=False, compare=False)

    @property
    def is_stopped(self) -> bool:
        """Whether the pickle was read to its STOP.

        >>> import picklestep
        >>> picklestep.calls(b'N.').end.is_stopped, picklestep.calls(b'N').end.is_stopped
        (True, False)
        """
        return self.how == 'stopped'

    def __reduce__(self) -> Tuple[Any, ...]:
        # (What a dataclass with slots does for this asks for its fields each time; `scan` hands over one for each pickle.)
        return End, (self.how, self.code, self.text, self.offset, self.item, self.of_frame, self.words)


@dataclass(frozen=True, **SLOTS)
class Ref:
    r"""An object of which only the number is shown.

    >>> import picklestep
    >>> picklestep.calls(b'ca\nb\n]R.')[1].value
    Brief(kind='object', value=Ref(number=1), more=0)
    """

    number: int


@dataclass(frozen=True, **SLOTS)
class Global:
    r"""What an import names, each part by its value. A part that no text gives is the object that it comes from. `raw` has the parts
    that cannot be decoded, 'module' or 'name': these are the bytes as they stand in the pickle.

    >>> import picklestep
    >>> picklestep.calls(b'cos\ngetcwd\n.')[0].name
    Global(module=b'os', name=b'getcwd')
    """

    module: Union[bytes, Ref]
    name: Union[bytes, Ref]
    raw: Tuple[str, ...] = field(default=(), repr=False)


@dataclass(frozen=True, **SLOTS)
class Extension:
    r"""An entry of the extension registry.

    >>> import picklestep
    >>> picklestep.calls(b'\x82\x07.')[0].name
    Extension(code=7)
    """

    code: int


# What is imported or called: a name, an entry of the extension registry, or some other object.
Name = Union[Global, Extension, Ref]


@dataclass(frozen=True, **SLOTS)
class Brief:
    """A value in a line of `calls`: its kind ('text', 'int', 'global', 'object', ..), the value, and how many bytes were cut off. Texts
    that cannot be decoded are of the kinds 'raw' and 'raw string'.

    >>> import picklestep
    >>> picklestep.calls(b'NQ.')[0].value
    Brief(kind='none', value=None, more=0)
    """

    kind: str
    value: Union[None, bool, int, float, bytes, Name]
    more: int = 0


@dataclass(frozen=True, **SLOTS)
class Briefs:
    r"""The items of a tuple in a line of `calls`: the first 16 of them, and how many come after these.

    >>> import picklestep
    >>> picklestep.calls(b'ca\nb\nK\x05\x85R.')[1].value
    Briefs(items=(Brief(kind='int', value=5, more=0),), more=0)
    """

    items: Tuple[Brief, ...]
    more: int = 0


Value = Union[Brief, Briefs]


@dataclass(frozen=True, **SLOTS)
class Reach:
    r"""A line of `calls`: an import, a call, or something else that reaches out of the pickle.

    `what` is the line's first word: 'import', 'inst', 'call', 'new', 'state', 'append', 'set', 'add', 'persistent', 'buffer' or
    'readonly'. `name` is what is imported or called, as Python 3 does it, and `said` the names of Python 2 that stand in the pickle
    for that; `value` the arguments, the state or the persistent id; `keywords` those of a 'new' that has them; `count` how many items
    were put in, or the number of the buffer. `number` is the object that was made, and `target` the one that was changed or made
    read-only. `text` is the line without its offset.

    >>> import picklestep
    >>> reach = picklestep.calls(b'ca\nb\n}b.')[1]
    >>> reach.what, reach.target, reach.text
    ('state', 0, 'state #1 to #0')
    """

    offset: int
    what: str
    text: str
    name: Optional[Name] = None
    value: Optional[Value] = None
    keywords: Optional[Value] = None
    count: Optional[int] = None
    number: Optional[int] = None
    target: Optional[int] = None
    said: Optional[Global] = None
