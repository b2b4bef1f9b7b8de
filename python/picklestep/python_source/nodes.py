"""What a pickle has built so far, and what happens meanwhile, as it goes into Python source."""

from __future__ import annotations

from dataclasses import dataclass
from typing import Dict, List, Optional, Sequence, Tuple, Union

from .shapes import Part, Shape

__all__ = ['Arguments', 'Called', 'Entry', 'Event', 'Filled', 'Formed', 'Insides', 'Needed', 'Node', 'Paired', 'Statement', 'is_dict', 'is_pure', 'is_tuple']


class Node:
    """An object that is more than a short plain value.

    `kind` is 'list', 'tuple', 'dict', 'set', 'frozenset', 'atom' (a long plain value, or a byte array), or 'name', 'buffer' or 'readonly'
    (what comes from elsewhere or from a call, which has its name from the start). `items` are what it was made of; in a dictionary keys and
    values take turns. `inner` are the nodes among them. `uses` counts where it is needed, and `is_taken` says that it was needed once: from
    then on a change of it is a statement. `text` is how it appears in other source, and `depth` how many brackets that has inside one
    another. `is_pure` says that as a key or a member it asks nothing of anybody.
    """

    __slots__ = ('kind', 'number', 'items', 'inner', 'uses', 'depth', 'text', 'is_pure', 'is_taken', 'is_named', 'is_opaque')

    def __init__(self, kind: str, number: int, items: 'List[Entry]') -> None:
        self.kind = kind
        self.number = number
        self.items = items
        self.inner: 'Sequence[Node]' = ()
        self.uses = self.depth = 0
        self.text = ''
        self.is_pure = self.is_taken = self.is_named = self.is_opaque = False

    @classmethod
    def atom(cls, number: int, text: str, is_pure: bool = True) -> 'Node':
        """A long plain value, or a byte array."""
        node = cls('atom', number, [])
        node.text, node.is_pure = text, is_pure
        return node

    @classmethod
    def name(cls, number: int, text: str) -> 'Node':
        """What has a name from the start."""
        node = cls('name', number, [])
        node.text, node.is_taken, node.is_named, node.is_opaque = text, True, True, True
        return node

    def __str__(self) -> str:
        return self.text


class Formed(Node):
    """A container of plain values, as a shape and the source of its values. It is opened where more is needed of it than its source."""

    __slots__ = ('shape', 'values', 'opened')

    def __init__(self, shape: Shape, number: int, values: 'Tuple[str, ...]') -> None:
        self.kind = shape.kind
        self.number = number
        self.shape = shape
        self.values = values
        self.inner = ()
        self.uses = self.depth = 0
        self.text = ''
        self.is_pure = shape.is_pure
        self.is_taken = self.is_named = self.is_opaque = False
        self.opened: 'Optional[Dict[Part, Node]]' = None

    def open(self) -> 'Dict[Part, Node]':
        """Makes a node of each container in it, and answers them by the parts of the shape."""
        if self.opened is None:
            self.opened = {}
            self._open(self.shape.part)
            for part in self.shape.taken:
                self.opened[part].is_taken, self.opened[part].uses = True, 1
        return self.opened

    def _open(self, part: Part) -> Node:
        whole = self.shape.part
        node = self if part is whole else Node(part.kind, self.number - whole.number + part.number, [])
        assert self.opened is not None
        self.opened[part] = node
        node.items = [item if isinstance(item, str) else self._open(item) if isinstance(item, Part) else self.values[item] for item in part.items]
        node.inner = [item for item in node.items if isinstance(item, Node)]
        node.is_pure = part.is_pure
        return node

    @property
    def insides(self) -> List[Node]:
        """Where it was opened the containers in it, in the order in which they came to be."""
        return [] if self.opened is None else [self.opened[part] for part in self.shape.taken]


# What is on the stack: a short plain value as its source, or a node.
Entry = Union[str, Node]


def is_pure(entries: Sequence[Entry]) -> bool:
    """Whether keys or members are plain values and tuples of them, so that it does not matter when they are hashed."""
    return all(type(entry) is str or entry.is_pure for entry in entries)  # type: ignore[union-attr]


def is_tuple(entry: Entry) -> bool:
    """Whether it is a tuple that the pickle builds itself. (Of what a call made nobody knows it.)"""
    return entry == '()' if isinstance(entry, str) else entry.kind == 'tuple'


def is_dict(entry: Entry) -> bool:
    """Whether it is a dictionary that the pickle builds itself."""
    return isinstance(entry, Node) and entry.kind == 'dict'


@dataclass(frozen=True)
class Arguments:
    """The arguments of a call: some one by one, then those of a tuple, then keywords from a dictionary."""

    items: Sequence[Entry] = ()
    spread: Optional[Entry] = None
    keywords: Optional[Entry] = None


@dataclass(frozen=True)
class Statement:
    """A statement with a `{}` for each of its parts. `offset` is where its opcode is, if it reaches out of the pickle."""

    form: str
    parts: Sequence[Entry] = ()
    offset: Optional[int] = None
    note: str = ''


@dataclass(frozen=True)
class Called:
    """A call, whose value gets a name. `form` has a `{}` for what is called."""

    number: int
    form: str
    function: Entry
    arguments: Arguments
    offset: int


@dataclass(frozen=True)
class Filled:
    """Items go into a container. `form` has a `{}` for the container and one for a list of the items, or with `is_each` for one of them."""

    form: str
    target: Node
    items: Sequence[Entry]
    is_each: bool
    offset: Optional[int]


@dataclass(frozen=True)
class Paired:
    """Keys and values in turns are set in a container."""

    target: Node
    items: Sequence[Entry]
    offset: Optional[int]


@dataclass(frozen=True)
class Insides:
    """The containers in some others come to be, as far as these were opened."""

    nodes: Sequence[Formed]


@dataclass(frozen=True)
class Needed:
    """Some nodes are first needed, one after another."""

    nodes: Sequence[Node]


# What comes one after another: a node where it is first needed, and what happens.
Event = Union[Node, Needed, Statement, Called, Filled, Paired, Insides]
