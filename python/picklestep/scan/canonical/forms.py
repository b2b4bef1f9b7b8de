"""What a verifier answers."""

from __future__ import annotations

from typing import Any, Dict, NamedTuple, NoReturn, Optional, Tuple

__all__ = ['Form', 'Member', 'NotCanonical', 'NotKnown', 'WRITERS', 'count_of_shape', 'require', 'wrong']

# Who writes the forms of pickles, as a line names it. (`containers` has those of containers.)
WRITERS: Dict[str, str] = {
    'pickle': 'picklers write', 'torch': 'torch.save writes', 'torch-legacy': 'torch.save before 1.6 writes',
    'torch-tar': 'torch.save before 0.1.12 writes',
}


class NotCanonical(Exception):
    """The bytes are not in the form. The text says why, and where if that has one place."""

    def __init__(self, reason: str, offset: int = -1) -> None:
        super().__init__(reason)
        self.reason = reason
        self.offset = offset

    def __str__(self) -> str:
        return self.reason if self.offset < 0 else f'{self.reason}, at {self.offset}'


class NotKnown(NotCanonical):
    """Whether the bytes are in the form cannot be found out."""


def wrong(reason: str, offset: int = -1) -> NoReturn:
    """Raises NotCanonical."""
    raise NotCanonical(reason, offset)


def require(holds: bool, reason: str, offset: int = -1) -> None:
    """Raises NotCanonical unless something holds."""
    if not holds:
        raise NotCanonical(reason, offset)


_LARGEST = 2 ** 63


def count_of_shape(shape: Any) -> int:
    """How many items an array of this shape has. A shape is a tuple of whole numbers."""
    is_shape = isinstance(shape, tuple) and all(type(length) is int and 0 <= length < _LARGEST for length in shape)
    require(is_shape, 'a shape of other things than numbers')
    product = 1
    for length in shape:
        product *= length
        require(product < _LARGEST, 'a shape that is too large')
    return product


class Member(NamedTuple):
    """A member: where its bytes are as they are stored, and what they unpack to.

    `role` is 'file', 'folder', 'link', 'pickle' or 'numbers' (raw ones, of the exact size). `unpacked` and `checksum` are those of the
    content of a packed member.
    """

    name: str
    offset: int
    size: int
    role: str = 'file'
    method: int = 0
    unpacked: int = 0
    checksum: Optional[int] = None

    def as_numbers(self) -> 'Member':
        """The same as raw numbers."""
        return self._replace(role='numbers')


class Form(NamedTuple):
    """A container in its strict form: its members in order, and whether it is laid out as torch.save does. All other bytes of it are
    accounted for. `agreed` says why the program does not know the form, where readers find the same members all the same."""

    members: Tuple[Member, ...]
    is_torch: bool = False
    agreed: str = ''
