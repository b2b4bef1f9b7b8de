"""Pickles to try on the gate: what a pickler writes of random things, some of them changed, and random opcodes.

The pickler is Python's own, which also writes what no program has: imports of any names, calls of what calls made, and things that are filled or
get a state though they are imports. So most of these pickles are in the form that picklers write, and most of the rest are not.
"""

from __future__ import annotations

import _compat_pickle
import io
import pickle
import pickletools
import random
from collections.abc import Callable, Iterator, Sequence
from dataclasses import dataclass
from typing import Any, Optional

import load_cases

MODULES = ("os", "posix", "a.b", "builtins", "collections", "caf\xe9", "a", "__builtin__", "copy_reg")
MEMBERS = ("system", "OrderedDict", "x.y", "_reconstructor", "b", "Kind", "unichr", "\xe9")
# Names that are no plain words, and those that Python 3 has others for.
ODD = ("", "a b", "os ", "x.", ".x", "2d", "a" * 300, "a" * 1024, "a" * 1025, "'", "#", "*", "a*b", "\\x6fs", "\xe9.\xe8", "e\u0301", "\U0001f600", "\ufb01")
RENAMED = sorted([*_compat_pickle.NAME_MAPPING, *((module, "x") for module in _compat_pickle.IMPORT_MAPPING)])
OLD = 3
CODES = (1, 2, 256)
PLAIN: tuple[Callable[[random.Random], object], ...] = (
    lambda chance: None, lambda chance: chance.random() < 0.5, lambda chance: chance.choice((0, 7, 300, -1, 2**31, 2**70)),
    lambda chance: chance.choice(("", "id", "caf\xe9", "os", "system")), lambda chance: chance.choice((b"", b"ab", bytes(300))), lambda chance: 1.5,
)


@dataclass(eq=False)
class Named:
    """An import."""

    module: str
    name: str


@dataclass(eq=False)
class Coded:
    """What an extension code stands for."""

    code: int


@dataclass(eq=False)
class Asked:
    """What is asked for by a persistent id."""

    number: int


@dataclass(eq=False)
class Buffer:
    """A buffer that is not in the pickle."""

    is_read_only: bool


@dataclass(eq=False)
class Made:
    """What a call makes, or __new__ of a class, with keywords or without."""

    callee: object
    arguments: tuple[object, ...]
    keywords: Optional[dict[str, object]] = None
    is_new: bool = False


@dataclass(eq=False)
class Done:
    """A thing, and what is put into it."""

    target: object
    items: Optional[list[object]] = None
    pairs: Optional[dict[object, object]] = None
    state: Optional[object] = None


class Pickler(pickle._Pickler):
    """Writes all of these, and whatever it writes itself."""

    dispatch = dict(pickle._Pickler.dispatch)  # type: ignore[attr-defined]
    proto: int
    write: Callable[[bytes], None]
    save: Callable[[object], None]
    memoize: Callable[[object], None]
    save_reduce: Callable[..., None]
    _batch_appends: Callable[..., None]
    _batch_setitems: Callable[..., None]

    def persistent_id(self, thing: object) -> Optional[int]:
        return thing.number if isinstance(thing, Asked) else None

    def save_named(self, thing: Named) -> None:
        if self.proto >= 4:
            self.save(thing.module)
            self.save(thing.name)
            self.write(pickle.STACK_GLOBAL)
        else:
            self.write(pickle.GLOBAL + f"{thing.module}\n{thing.name}\n".encode())
        self.memoize(thing)

    def save_coded(self, thing: Coded) -> None:
        if self.proto < 2:
            self.save(None)
        elif thing.code < 256:
            self.write(pickle.EXT1 + bytes([thing.code]))
        else:
            self.write(pickle.EXT2 + thing.code.to_bytes(2, "little"))

    def save_buffer(self, thing: Buffer) -> None:
        if self.proto < 5:
            self.save(None)
            return
        self.write(pickle.NEXT_BUFFER)
        if thing.is_read_only:
            self.write(pickle.READONLY_BUFFER)

    def save_made(self, thing: Made) -> None:
        self.save(thing.callee)
        self.save(thing.arguments)
        if thing.keywords is not None and self.proto >= 4:
            self.save(thing.keywords)
            self.write(pickle.NEWOBJ_EX)
        else:
            self.write(pickle.NEWOBJ if thing.is_new and self.proto >= 2 else pickle.REDUCE)
        self.memoize(thing)

    def save_done(self, thing: Done) -> None:
        self.save(thing.target)
        if thing.items is not None:
            self._batch_appends(iter(thing.items), *self._whole(thing))
        if thing.pairs is not None:
            self._batch_setitems(iter(thing.pairs.items()), *self._whole(thing))
        if thing.state is not None:
            self.save(thing.state)
            self.write(pickle.BUILD)

    def _whole(self, thing: object) -> tuple[object, ...]:
        """From Python 3.14 on a batch is told what it is of."""
        return (thing,) if self._batch_appends.__code__.co_argcount > 2 else ()  # type: ignore[attr-defined]

    dispatch.update({Named: save_named, Coded: save_coded, Buffer: save_buffer, Made: save_made, Done: save_done})


class Maker:
    """Makes random things, of which some come again."""

    def __init__(self, chance: random.Random) -> None:
        self.chance = chance
        self.foreign: list[object] = []

    def thing(self, depth: int) -> object:
        """Anything."""
        how = self.chance.randrange(10)
        if how < 3 or depth <= 0:
            return self.chance.choice(PLAIN)(self.chance)
        if how < 7:
            return self.elsewhere(depth)
        parts = [self.thing(depth - 1) for _ in range(self.chance.choice((0, 1, 2, 3, 5)))]
        kinds: tuple[Callable[[list[object]], object], ...] = (list, tuple, lambda parts: dict(enumerate(parts)), lambda parts: {1, 2, "a"})
        return self.chance.choice(kinds)(parts)

    def elsewhere(self, depth: int) -> object:
        """What comes from elsewhere, or comes of that."""
        if self.foreign and self.chance.random() < 0.3:
            return self.chance.choice(self.foreign)
        made = self.chance.choice(WAYS if depth > 0 else WAYS[:1])(self, depth - 1)
        self.foreign.append(made)
        return made

    def named(self, depth: int) -> object:
        how = self.chance.random()
        if how < 0.1:
            return Named(*self.chance.choice(RENAMED))
        return Named(self.chance.choice(ODD if how < 0.13 else MODULES), self.chance.choice(ODD if 0.12 < how < 0.16 else MEMBERS))

    def other(self, depth: int) -> object:
        return self.chance.choice((Coded(self.chance.choice(CODES)), Asked(self.chance.randrange(9)), Buffer(self.chance.random() < 0.5)))

    def called(self, depth: int) -> object:
        arguments = tuple(self.thing(depth) for _ in range(self.chance.choice((0, 1, 2))))
        keywords: Optional[dict[str, object]] = {"k": self.thing(depth)} if self.chance.random() < 0.15 else None
        return Made(self.elsewhere(depth), arguments, keywords, self.chance.random() < 0.3)

    def done(self, depth: int) -> object:
        thing = Done(self.elsewhere(depth))
        how = self.chance.randrange(4)
        count = self.chance.choice((0, 1, 2, 4))
        if how in (0, 3):
            thing.items = [self.thing(depth) for _ in range(count)]
        if how in (1, 3):
            thing.pairs = {key: self.thing(depth) for key in range(count)}
        if how == 2 or self.chance.random() < 0.2:
            thing.state = self.thing(depth)
        return thing


WAYS: list[Callable[[Maker, int], object]] = [*[Maker.named] * 3, Maker.other, *[Maker.called] * 4, *[Maker.done] * 3]


def written(chance: random.Random) -> bytes:
    """What the pickler writes of a random thing."""
    page = io.BytesIO()
    pickler: Any = Pickler(page, chance.randrange(6))
    maker, depth = Maker(chance), chance.choice((2, 4, 6))
    things = [maker.elsewhere(depth) for _ in range(chance.choice((1, 1, 2, 3)))]
    pickler.dump(things[0] if len(things) == 1 else [*things, maker.thing(depth)])
    return page.getvalue()


def optimized(chance: random.Random) -> bytes:
    """The same without what nothing gets from the memo."""
    content = written(chance)
    try:
        return pickletools.optimize(content)
    except ValueError:  # (it takes no text that is not ASCII for a name)
        return content


def changed(chance: random.Random) -> bytes:
    """The same with some bytes changed."""
    content = bytearray(written(chance))
    for _ in range(chance.choice((1, 1, 2))):
        at = chance.randrange(len(content))
        how = chance.randrange(3)
        if how == 0:
            content[at] = chance.randrange(256)
        elif how == 1:
            content[at:at + 1] = chance.choice(load_cases.CODES)
        else:
            content[at:at] = chance.choice(load_cases.CODES)
    return bytes(content)


def cases(seed: int, count: int, real: Sequence[bytes]) -> Iterator[bytes]:
    """So many pickles."""
    chance = random.Random(f"gate {seed}")
    others = load_cases.singles(seed, count, real)
    for _ in range(count):
        how = chance.random()
        if how < 0.5:
            yield written(chance)
        elif how < 0.6:
            yield optimized(chance)
        elif how < 0.8:
            yield changed(chance)
        elif how < 0.95 or not real:
            yield next(others)
        else:
            yield chance.choice(real)
