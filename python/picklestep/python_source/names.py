"""Names for what a pickle imports."""

from __future__ import annotations

import keyword
import re
from typing import Dict, List, Set, Tuple

from _compat_pickle import IMPORT_MAPPING, NAME_MAPPING

from ..patterns import pattern

__all__ = ['Names', 'TAKEN', 'is_identifier', 'python3_name']

_IDENTIFIER = pattern(r'[A-Za-z_][A-Za-z0-9_]*', re.ASCII)
# The most letters of a name that stands wherever it is used.
_MOST_NAME = 1000
_OWN = pattern(r'(result)?_[0-9]+')

# What Python 3.9 to 3.14 have without an import. One list, so that a source is the same whichever of them writes it.
_BUILTINS = '''
    ArithmeticError AssertionError AttributeError BaseException BaseExceptionGroup BlockingIOError BrokenPipeError BufferError BytesWarning
    ChildProcessError ConnectionAbortedError ConnectionError ConnectionRefusedError ConnectionResetError DeprecationWarning EOFError Ellipsis
    EncodingWarning EnvironmentError Exception ExceptionGroup False FileExistsError FileNotFoundError FloatingPointError FutureWarning
    GeneratorExit IOError ImportError ImportWarning IndentationError IndexError InterruptedError IsADirectoryError KeyError KeyboardInterrupt
    LookupError MemoryError ModuleNotFoundError NameError None NotADirectoryError NotImplemented NotImplementedError OSError OverflowError
    PendingDeprecationWarning PermissionError ProcessLookupError PythonFinalizationError RecursionError ReferenceError ResourceWarning
    RuntimeError RuntimeWarning StopAsyncIteration StopIteration SyntaxError SyntaxWarning SystemError SystemExit TabError TimeoutError True
    TypeError UnboundLocalError UnicodeDecodeError UnicodeEncodeError UnicodeError UnicodeTranslateError UnicodeWarning UserWarning ValueError
    Warning WindowsError ZeroDivisionError _IncompleteInputError __build_class__ __debug__ __doc__ __import__ __loader__ __name__ __package__
    __spec__ abs aiter all anext any ascii bin bool breakpoint bytearray bytes callable chr classmethod compile complex copyright credits
    delattr dict dir divmod enumerate eval exec exit filter float format frozenset getattr globals hasattr hash help hex id input int isinstance
    issubclass iter len license list locals map max memoryview min next object oct open ord pow print property quit range repr reversed round
    set setattr slice sorted staticmethod str sum super tuple type vars zip
'''.split()

# The names that a source has from the start, with the module and the name of each thing.
TAKEN: Dict[str, Tuple[str, str]] = {
    **{name: ('builtins', name) for name in _BUILTINS}, 'import_module': ('importlib', 'import_module'), 'reduce': ('functools', 'reduce'),
    **{name: ('', name) for name in ('add_items', 'arguments', 'buffers', 'cut', 'extend', 'extension', 'find_class', 'instantiate',
                                     'keywords', 'persistent_load', 'result', 'set_state', 'stack', 'unpickle')}}


def is_identifier(text: str) -> bool:
    """Whether a text can be a name in the source. (Python takes other letters than ASCII for one another, so they are not taken here.)"""
    return _IDENTIFIER.fullmatch(text) is not None and not keyword.iskeyword(text)


def python3_name(module: str, name: str) -> Tuple[str, str]:
    """What Python 3 imports for a name in a pickle of a protocol below 3.

    >>> python3_name('__builtin__', 'xrange'), python3_name('copy_reg', '_reconstructor')
    (('builtins', 'range'), ('copyreg', '_reconstructor'))
    """
    module, name = NAME_MAPPING.get((module, name), (module, name))
    return IMPORT_MAPPING.get(module, module), name


class Names:
    """The names of a source, each for one thing as it is when it is imported: what a module has under a name may change, so that a name which
    a pickle imports again is another one."""

    def __init__(self) -> None:
        self._taken = dict(TAKEN)
        self._imported: Set[str] = set()

    def begin(self) -> None:
        """A pickle begins: what those before it imported is used no more."""
        self._imported.clear()

    def bind(self, module: str, name: str, number: int, is_dotted: bool) -> Tuple[str, str]:
        """The statement that imports a name, and how the thing is called then. `number` is that of the object."""
        first, *rest = name.split('.') if is_dotted else [name]
        parts = [*module.split('.'), first, *rest]
        if not all(map(is_identifier, parts)) or module == '__future__':
            found = f'reduce(getattr, {name!r}.split(\'.\'), import_module({module!r}))' if rest else f'getattr(import_module({module!r}), {name!r})'
            return f'_{number} = {found}', f'_{number}'
        own = f'_{number}' if len(name) > _MOST_NAME else self._own(module, first, rest, number)
        if own == first:
            return f'from {module} import {first}', first
        return f'from {module} import {first} as {own}' + (f'; {own} = {".".join([own, *rest])}' if rest else ''), own

    def _own(self, module: str, first: str, rest: List[str], number: int) -> str:
        """A name that is free, or that of the thing itself."""
        thing = (module, first)
        if not rest and first not in self._imported and not _OWN.fullmatch(first) and self._taken.setdefault(first, thing) == thing:
            self._imported.add(first)
            return first
        own = f'{[first, *rest][-1]}_{number}'
        while self._taken.setdefault(own, ('', own)) != ('', own) or own in self._imported:
            own += '_'
        self._imported.add(own)
        return own
