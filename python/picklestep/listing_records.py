"""Records of listings: opcodes, and objects."""

from __future__ import annotations

from dataclasses import dataclass
from typing import Optional, Tuple, Union

from .records import SLOTS, Ref
from .values import PLAIN_KINDS, Argument, PlainValue, argument_value, kind_value

__all__ = ['Change', 'Object', 'Opcode']


@dataclass(frozen=True, **SLOTS)
class Opcode:
    """A line of a listing.

    `code` is the opcode's byte, `argument` the value of its argument (texts as bytes), `note` what the listing says of it besides,
    without parentheses ('MARK at 3', 'as 0', or ''), and `marks` the number of open marks before it.

    >>> import picklestep
    >>> picklestep.listing(b'(N1N.')[2]
    Opcode(offset=2, code=b'1', name='POP_MARK', argument=None, note='MARK at 0', marks=1)
    """

    offset: int
    code: bytes
    name: str
    argument: Argument
    note: str
    marks: int

    @property
    def value(self) -> PlainValue:
        r"""The argument as a value of Python: a text, a number, bytes, two texts of GLOBAL and INST; of NONE, NEWTRUE and NEWFALSE what
        they make. What no loader could read stays bytes.

        >>> import picklestep
        >>> [opcode.value for opcode in picklestep.listing(b'\x8c\x03\xe2\x82\xacI42\n\x88t.')]
        ['€', 42, True, None]
        """
        return argument_value(self.name, self.argument)


@dataclass(frozen=True, **SLOTS)
class Change:
    """What was done to an object after it was made.

    `how` is 'append', 'add', 'set' or 'state'. `value` is the number of the object that was put in, `key` that of the key of a 'set'.

    >>> import picklestep
    >>> picklestep.objects(b'}NNs.')[0].changes
    (Change(how='set', value=2, key=1),)
    """

    how: str
    value: int
    key: Optional[int] = None


@dataclass(frozen=True, **SLOTS)
class Object:
    r"""An object that the pickle makes.

    `kind` is its word ('list', 'global', 'call', ..), `text` what its opcode says of it, `parts` the numbers of the objects that it
    was made of, and `changes` what was done to it later.

    >>> import picklestep
    >>> picklestep.objects(b'NK\x07\x86.')[2]
    Object(number=2, kind='tuple', text=None, parts=(0, 1), changes=())
    """

    number: int
    kind: str
    text: Argument
    parts: Tuple[int, ...]
    changes: Tuple[Change, ...]

    @property
    def value(self) -> Union[PlainValue, Ref]:
        r"""What a plain object is in Python; of any other object a `Ref` to it (`picklestep.tree` has these).

        >>> import picklestep
        >>> [made.value for made in picklestep.objects(b'G@\x04\x00\x00\x00\x00\x00\x00L7L\n\x86.')]
        [2.5, 7, Ref(number=2)]
        """
        return kind_value(self.kind, self.text) if self.kind in PLAIN_KINDS else Ref(self.number)
