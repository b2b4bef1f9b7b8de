"""Where the entrance finds packages that need not be there, once one of them is asked for.

Python's `site` looks through folders of packages before a program begins, and runs what they want run at each start. That takes longer than
to look at a small file, and most words need no package. So help/start.sh starts Python without it. The first import that nothing else answers
brings `site`, and with it what the environment names.

It is imported before those places are known, so like entrance.py it imports only what an interpreter has loaded.
"""

import os
import sys
from _thread import RLock  # type: ignore[attr-defined]

TYPE_CHECKING = False  # (a module that is not loaded has the one that all know)
if TYPE_CHECKING:
    from importlib.machinery import ModuleSpec
    from types import ModuleType
    from typing import Optional, Sequence

__all__ = ['search', 'search_when_asked']

# What the standard library asks for and does without, beside its own modules of other systems (which an older Python does not list).
_OF_OTHERS = frozenset(('org', 'java', 'vms_lib', 'nt', 'msvcrt', 'winreg', '_winapi', *getattr(sys, 'stdlib_module_names', ())))


class _Packages:
    """A finder behind all others: the first package for which it is asked lets it search."""

    def __init__(self) -> None:
        self._has_begun = self._is_done = False
        self._lock = RLock()

    def find_spec(self, name: str, path: 'Optional[Sequence[str]]' = None, target: 'Optional[ModuleType]' = None) -> 'Optional[ModuleSpec]':
        """What the others find then."""
        if path is not None or name in _OF_OTHERS or not self.search():
            return None
        from importlib.util import find_spec
        known = sys.modules.get(name)
        return find_spec(name) if known is None else _spec_of(known, name)

    def search(self) -> bool:
        """Whether the places are known now. (They are not while `site` itself imports something.)"""
        with self._lock:  # (what another thread imports waits until they are)
            if not self._has_begun:
                self._has_begun = True
                import site
                site.main()
                _extend()
                sys.meta_path.remove(self)
                self._is_done = True
            return self._is_done


class _Loaded:
    """Answers a module that is there instead of loading it again."""

    def __init__(self, module: 'ModuleType') -> None:
        self._module, self._spec = module, getattr(module, '__spec__', None)

    def create_module(self, spec: 'ModuleSpec') -> 'ModuleType':
        return self._module

    def exec_module(self, module: 'ModuleType') -> None:
        module.__spec__ = self._spec  # (the import has put its own there)


def _spec_of(module: 'ModuleType', name: str) -> 'ModuleSpec':
    """What an import finds where `site` itself has imported the package: many may not be loaded twice."""
    from importlib.machinery import ModuleSpec
    spec = ModuleSpec(name, _Loaded(module))  # type: ignore[arg-type]  # (it has what an import calls)
    module.__spec__ = spec  # (an import takes this one of a module that came meanwhile)
    return spec


_packages = _Packages()


def search_when_asked(words: 'list[str]') -> None:
    """Makes packages known, at the first import of one where Python began without `site`. At once where an address is among the words: how to
    trust a server may be set where `site` looks."""
    if not sys.flags.no_site:
        _extend()
        return
    sys.meta_path.append(_packages)
    if any('://' in word for word in words):
        search()


def search() -> None:
    """Makes packages known that are not yet, for another process that is to find what this one does."""
    if _packages in sys.meta_path:
        _packages.search()


def _extend() -> None:
    """Puts what the environment names behind the standard library, so that it hides nothing of it."""
    sys.path.extend(path for path in _places() if path not in sys.path)


def _places() -> 'list[str]':
    """Where packages are that an isolated interpreter leaves out: those of PYTHONPATH and of the user. Optional ones may be there."""
    import site
    named = [path for path in os.environ.get('PYTHONPATH', '').split(os.pathsep) if os.path.isabs(path)]
    if sys.prefix == sys.base_prefix:
        named.append(site.getusersitepackages())
    here = os.stat('.')
    return [path for path in named if os.path.isdir(path) and not os.path.samestat(os.stat(path), here)]
