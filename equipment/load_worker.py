#!/usr/bin/env python3
"""Gives pickles to real unpicklers, one load after another, and writes down what they do. Nothing that a pickle names is imported.

    load_worker.py CASES OUT [--one] [--bytes] [--all]

CASES has pickles, each behind its length (4 bytes). Each line of OUT is JSON: for each unpickler its name and its acts, each as what is
done, to which thing (by the number of the act that brought it), and with what. With --one the same unpickler loads again and again, with
--bytes what STRING, BINSTRING and SHORT_BINSTRING make is bytes, with --all there are all readers and not four of them, and behind the acts
stands how much of the bytes was read at each, where that is known. It runs in each Python from 3.8 on.
"""

from __future__ import annotations

import _compat_pickle
import copyreg
import ctypes
import json
import pickle
import resource
import struct
import sys
from collections.abc import Callable, Iterator
from typing import Any, Optional

import load_readers
import whole_loads

MOST_ACTS = 3000
MOST_MEMORY = 3 << 30
MOST_IN_PIECES = 5000
EXTENSIONS = (-1, 0, 1, 2, 256, 0x7FFFFFFF)
# An unpickler in C has in this word, from its own address on, how much of its input it has read, and in the next how much of that its file gave away.
READ = 20 if sys.version_info >= (3, 13) else 21

acts: list[list[Any]] = []
ends: list[Optional[int]] = []
# The unpickler that loads, and its file.
at_work: list[Any] = []


class TooMany(BaseException):
    """Nothing more is written down."""


def act(what: str, target: Optional[int], *rest: Any) -> int:
    """Writes an act down, and answers its number."""
    if len(acts) >= MOST_ACTS:
        raise TooMany
    acts.append([what, target, *rest])
    ends.append(read_up_to(*at_work) if at_work else None)
    return len(acts) - 1


def read_up_to(unpickler: Any, file: Any) -> Optional[int]:
    """How much of the bytes an unpickler has read; None where its file does not tell where it is."""
    if not file.seekable():
        return None
    place: int = file.tell()
    if isinstance(unpickler, pickle.Unpickler):
        read, given = (ctypes.c_ssize_t * 2).from_address(id(unpickler) + READ * ctypes.sizeof(ctypes.c_ssize_t))
        return place - given + read
    frame = unpickler._unframer.current_frame
    return place - frame.getbuffer().nbytes + frame.tell() if frame else place


def number_of(thing: Any) -> Optional[int]:
    """The act that brought a thing."""
    number: Optional[int] = vars(thing).get("number")
    return number


def doing(what: str, count: Callable[[tuple[Any, ...]], int]) -> Callable[..., None]:
    def method(self: Any, *values: Any) -> None:
        act(what, number_of(self), count(values))
    return method


def asked(what: str, count: Callable[[tuple[Any, ...]], int]) -> property:
    """A method of a class that is written down when it is called of the class itself."""
    return property(lambda self: lambda *values: act(what, number_of(self), count(values)) and None)


def one(values: tuple[Any, ...]) -> int:
    return 1


def size(values: tuple[Any, ...]) -> int:
    return len(values[0])


class EqualToItself(type):
    """A class that is equal to itself alone, and holds nothing. Asking it is no act."""

    def __hash__(cls) -> int:
        return id(cls) >> 4

    def __index__(cls) -> int:
        return 0

    def __iter__(cls) -> Iterator[Any]:
        return iter(())

    def keys(cls) -> list[Any]:
        return []

    def __getitem__(cls, key: Any) -> None:
        return None


class Meta(EqualToItself):
    """A thing from elsewhere: a class, which can be called, made, filled and given a state."""

    append, extend, add = asked("append", one), asked("append", size), asked("add", one)
    __setstate__ = asked("state", one)
    __setitem__ = doing("set", one)

    def __call__(cls, *values: Any, **named: Any) -> Any:
        return thing(act("call", number_of(cls), len(values)))


class Base(metaclass=Meta):
    def __new__(cls, *values: Any, **named: Any) -> Any:
        return thing(act("new", number_of(cls), len(values)))


def thing(number: int) -> Any:
    return type.__new__(Meta, "Thing", (Base,), {"number": number})


class Held(bytes):
    """A buffer from elsewhere, which is read only already, and has keys."""

    append, extend, add = doing("append", one), doing("append", size), doing("add", one)
    __setstate__, __setitem__ = doing("state", one), doing("set", one)

    def __call__(self, *values: Any, **named: Any) -> Any:
        return thing(act("call", number_of(self), len(values)))

    def keys(self) -> list[Any]:
        return []


def buffers() -> Iterator[Any]:
    for _ in range(3):
        held = Held(b"ab")
        vars(held)["number"] = act("buffer", None)
        yield held


def brought(self: Any, module: str, name: str) -> Any:
    """Stands for an import. The unpickler in Python knows its protocol, and so which names Python 3 imports."""
    names = [module, name]
    if getattr(self, "proto", 3) < 3:
        names = list(_compat_pickle.NAME_MAPPING.get((module, name), (_compat_pickle.IMPORT_MAPPING.get(module, module), name)))
    return thing(act("import", None, module, name, names if isinstance(self, pickle._Unpickler) else None))


def persistent(self: Any, asked_for: Any) -> Any:
    if asked_for == "text":
        act("persistent", None, "text")
        return "os"
    return thing(act("persistent", None))


class FromC(pickle.Unpickler):
    find_class, persistent_load = brought, persistent


class FromPython(pickle._Unpickler):
    find_class, persistent_load = brought, persistent


def load_all(name: str, data: bytes, is_one: bool, encoding: str) -> list[list[Any]]:
    """What an unpickler does with all pickles of some bytes; `pickle.loads` only with the first."""
    acts.clear()
    ends.clear()
    at_work.clear()
    copyreg._extension_cache.clear()  # type: ignore[attr-defined]
    try:
        if name == load_readers.LOADS:
            whole_loads.loads(data, lambda module, member: brought(None, module, member), buffers(), encoding)
        else:
            _load_file(name, data, is_one, encoding)
    except (Exception, TooMany):
        pass  # (it ends there)
    return list(acts)


def kind_of(name: str) -> Any:
    """The unpickler that a reader is for."""
    return FromPython if name.startswith("Python") else FromC


def _load_file(name: str, data: bytes, is_one: bool, encoding: str) -> None:
    kind = kind_of(name)
    with load_readers.READERS[name](data) as file:
        unpickler = kind(file, buffers=buffers(), encoding=encoding)
        at_work[:] = unpickler, file
        unpickler.load()
        while is_one or load_readers.has_more(file, len(data)):  # (one unpickler may still hold bytes where its file has no more)
            if not is_one:
                unpickler = kind(file, buffers=buffers(), encoding=encoding)
                at_work[:] = unpickler, file
            unpickler.load()


def readers_for(length: int, is_one: bool, is_all: bool) -> list[str]:
    """The readers of a case. Where all are asked for, `pickle.loads` loads once, and few bytes come in pieces."""
    if not is_all:
        return list(load_readers.FEW)
    names = [name for name in load_readers.ALL if "short reads" not in name or length <= MOST_IN_PIECES]
    return names if is_one else [load_readers.LOADS, *names]


def cases_of(path: str) -> Iterator[bytes]:
    with open(path, "rb") as file:
        while length := file.read(4):
            yield file.read(struct.unpack("<I", length)[0])


def main() -> None:
    resource.setrlimit(resource.RLIMIT_AS, (MOST_MEMORY, MOST_MEMORY))
    for code in EXTENSIONS:
        copyreg._inverted_registry[code] = ("extension", str(code))  # type: ignore[attr-defined]
    is_one, encoding, is_all = "--one" in sys.argv, "bytes" if "--bytes" in sys.argv else "ASCII", "--all" in sys.argv
    if is_all:
        whole_loads.listen()
    with open(sys.argv[2], "w") as out:
        for data in cases_of(sys.argv[1]):
            names = readers_for(len(data), is_one, is_all)
            done = [[name, load_all(name, data, is_one, encoding), list(ends)] for name in names]
            print(json.dumps(done if is_all else [load[:2] for load in done]), file=out)


if __name__ == "__main__":
    main()
