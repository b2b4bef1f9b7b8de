"""Pickles that call a name and do something with what the call makes, as a pickler writes them. No library is needed, and none is ever loaded."""

from __future__ import annotations

import copyreg
import importlib
import pickle
import sys
import types
import unittest.mock
from dataclasses import dataclass
from typing import Any, Dict, Iterator, Tuple

# What a pickle does with what a call makes, and the word of lists that allows it.
WORD_OF = {'state': 'made-state', 'items': 'made-fill', 'pairs': 'made-fill', 'call': 'made-call', 'new': 'made-new'}
# The modules whose names picklers find here; stand-ins have all others.
_HERE = ('argparse', 'builtins', 'collections', 'copyreg', 'datetime', 'random', 'urllib', 'uuid')


@dataclass(frozen=True)
class Named:
    """What a name stands for."""

    name: str
    is_class: bool = True

    def found(self, modules: Dict[str, types.ModuleType]) -> Any:
        """What picklers write under this name. A stand-in is entered into its module."""
        module, _, member = self.name.rpartition('.')
        if module.partition('.')[0] in _HERE:
            return getattr(importlib.import_module(module), member)
        found = type(member, (), {}) if self.is_class else types.FunctionType((lambda: None).__code__, {})
        found.__module__, found.__name__, found.__qualname__ = module, member, member
        parts = module.split('.')
        for each in ('.'.join(parts[:count]) for count in range(1, len(parts) + 1)):
            modules.setdefault(each, types.ModuleType(each))
        setattr(modules[module], member, found)
        return found


@dataclass(frozen=True)
class Made:
    """A call of a name with arguments, or an object of a class that is made by NEWOBJ."""

    name: str
    arguments: Tuple[Any, ...] = ()
    is_new: bool = False
    state: Any = ('x',)

    def pickled(self, use: str, protocol: int) -> bytes:
        """A pickle that does this with what is made, or nothing where `use` is empty."""
        modules: Dict[str, types.ModuleType] = {}
        given = tuple(each.found(modules) if isinstance(each, Named) else each for each in self.arguments)
        made = _Of(Named(self.name, self.is_new).found(modules), given, self.is_new, use, self.state)
        with unittest.mock.patch.dict(sys.modules, modules):
            content = pickle.dumps(_Of(made, (), False) if use in ('call', 'new') else made, protocol)
        # (picklers let only classes be made by NEWOBJ)
        return b')\x81'.join(content.rsplit(b')R', 1)) if use == 'new' else content


class _Of:
    """Says to a pickler how it is made."""

    def __init__(self, what: Any, arguments: Tuple[Any, ...], is_new: bool, use: str = '', state: Any = None) -> None:
        self.__dict__.update(what=what, arguments=arguments, is_new=is_new, use=use, state=state)

    def __call__(self) -> None:
        """(Picklers write calls only of what can be called.)"""

    def __getattribute__(self, name: str) -> Any:
        found = object.__getattribute__(self, '__dict__')
        # (picklers compare the class with that which NEWOBJ is given)
        return found['what'] if name == '__class__' and found['is_new'] else object.__getattribute__(self, name)

    def __reduce_ex__(self, protocol: Any) -> Tuple[Any, ...]:
        items: Iterator[Any] = iter([1] if self.use == 'items' else [])
        pairs: Iterator[Any] = iter([(1, 2)] if self.use == 'pairs' else [])
        how = (copyreg.__newobj__, (self.what, *self.arguments)) if self.is_new else (self.what, self.arguments)  # type: ignore[attr-defined]
        return (*how, self.state if self.use == 'state' else None, items, pairs)
