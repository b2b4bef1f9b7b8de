"""Runs `pickle.loads` itself. It takes no class of ours, so what it imports is made where Python imports: nothing that a pickle names is."""

from __future__ import annotations

import builtins
import pickle
import sys
from collections.abc import Iterator
from contextlib import contextmanager
from typing import Any, Callable, Optional

# (of typing: that of collections takes no types in Python 3.8)
Found = Callable[[str, str], Any]


class Imports:
    """What stands for imports while `pickle.loads` runs. `found` makes the thing that a module and a name are."""

    def __init__(self, found: Found) -> None:
        self.found = found
        # The names that stand in the pickle, which the audit event tells, and the module that Python imports for them.
        self.asked: Optional[tuple[str, str]] = None
        self.module = ""
        self.path: list[str] = []
        self.kept: dict[str, Any] = {}

    def step(self, name: str) -> Any:
        """One attribute: the thing itself, if it is the last one of what was asked for."""
        assert self.asked is not None
        module, wanted = self.asked
        self.path.append(name)
        # (Of a name of Python 2 what is asked for is another one, with as many dots.)
        is_last = ".".join(self.path) == wanted or self.module != module and len(self.path) > wanted.count(".")
        if not is_last:
            return Part(self)
        self.asked = None
        self.path.clear()
        return self.found(module, wanted)

    def imported(self, name: str) -> Any:
        """Stands for `__import__`."""
        self.kept.setdefault(name, sys.modules.get(name))
        self.module = name
        sys.modules[name] = Part(self)  # type: ignore[assignment]
        return sys.modules[name]

    def put_back(self) -> None:
        for name, module in self.kept.items():
            if module is None:
                sys.modules.pop(name, None)
            else:
                sys.modules[name] = module
        self.asked = None
        self.path.clear()
        self.kept.clear()


class Part:
    """A module, or a part of one on the way to what is asked for."""

    def __init__(self, imports: Imports) -> None:
        object.__setattr__(self, "imports", imports)

    def __getattribute__(self, name: str) -> Any:
        imports: Imports = object.__getattribute__(self, "imports")
        return imports.step(name) if imports.asked is not None else object.__getattribute__(self, name)


_running: list[Imports] = []


def _heard(event: str, words: tuple[Any, ...]) -> None:
    if event == "pickle.find_class" and _running:
        _running[-1].path.clear()
        _running[-1].asked = words[0], words[1]


def listen() -> None:
    """Is called once: an audit hook cannot be taken away."""
    sys.addaudithook(_heard)


@contextmanager
def _standing_in(imports: Imports) -> Iterator[None]:
    real = builtins.__import__

    def stand_in(name: str, *words: Any, **named: Any) -> Any:
        return imports.imported(name) if imports.asked is not None and _running else real(name, *words, **named)

    builtins.__import__ = stand_in
    _running.append(imports)
    try:
        yield
    finally:
        _running.pop()
        builtins.__import__ = real
        imports.put_back()


def loads(data: bytes, found: Found, buffers: Iterator[Any], encoding: str) -> None:
    """Runs `pickle.loads`, where imports are what `found` makes."""
    with _standing_in(Imports(found)):
        pickle.loads(data, buffers=buffers, encoding=encoding)
