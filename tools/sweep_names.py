#!/usr/bin/env python3
"""Prints the names that lead to code, commands, imports, files or the system when a pickle calls them, and that scan does not mark yet.

    python3 tools/sweep_names.py [MODULE..]       # without a name: the standard library, and LIBRARIES as far as they are installed

Run it by hand with each Python from 3.8 on (`~/.pyenv/versions/*/bin/python`) and with the system's, which has the libraries, and read
what it prints: a name that a pickle can make use of gets a line in python/picklestep/scan/known.txt. It imports the modules with all
their parts, so run it where that does no harm. A module in C has no source to read: of it the tool sees only what it shares with another.

There are two sweeps. The first finds objects that are marked under one name and bound under another (`enum.reduce`), and modules under a
name that no rule has. The second reads the source of each function for calls of what PRIMITIVES has, with an argument of the function in
reach. A line is a name, `=` and the name that is marked; or a name and what it calls, with its arguments.
"""

from __future__ import annotations

import ast
import builtins
import importlib
import inspect
import pkgutil
import re
import sys
import types
import warnings
from pathlib import Path
from typing import Dict, Iterator, List, Optional, Set, Tuple, Union

sys.path.insert(0, str(Path(__file__).resolve().parent.parent / 'python'))

from picklestep.scan.canonical.standard import STANDARD_MODULES  # noqa: E402
from picklestep.scan.looks import Judge  # noqa: E402

LIBRARIES = ('numpy', 'scipy', 'pandas', 'sklearn', 'joblib', 'torch')
# What opens windows, or is a test.
_LEFT_OUT = re.compile(r'(^|\.)(antigravity|this|idlelib|lib2to3|turtledemo|turtle|tkinter|__main__|_?tests?|_testcapi|pip|ensurepip|conftest)(\.|$)')
# What functions call to run code, start programs, import, and open, write or delete files.
PRIMITIVES = re.compile(
    r'(exec|eval|compile|__import__|execfile|input|breakpoint|open|_builtin_open|Popen|check_output|check_call|CDLL|urlopen|import_module'
    r'|FunctionType|SourceFileLoader|spec_from_file_location|(os|_os|posix)\.(system|popen|exec\w+|_exec\w+|spawn\w*|_spawn\w*|posix_spawn\w*|fork\w*'
    r'|startfile|open|write|remove|unlink|rename|replace|rmdir|removedirs|symlink|link|chmod|putenv|kill|mkdir|makedirs)'
    r'|(subprocess|_subprocess|socket|_socket|ctypes|shutil|runpy|tempfile|urllib\.request)\.(?!get)\w+|(importlib|_importlib)\.(import_module|__import__|reload)'
    r'|(pickle|_pickle|cPickle|marshal|dill|cloudpickle)\.\w*load\w*|\w*[Uu]npickle\w*|(io|_io|codecs|builtins|gzip|bz2|lzma|tokenize)\.(open|exec|eval|compile'
    r'|__import__|open_code)|webbrowser\.open\w*|types\.(FunctionType|CodeType)|(.*\.)?(exec_module|load_module))')
_BUILT_IN = ('exec', 'eval', 'compile', '__import__', 'open', 'getattr', 'setattr', 'delattr', 'input', 'breakpoint')
# What shows that a module may do something, where it stands in another.
_PROBES = ('system', 'exec', 'FunctionType', 'Popen', 'loads', 'run', 'load', 'open', '_exit', 'import_module', 'attrgetter', 'fork', 'dlopen', 'CDLL', 'socket', 'rmtree', 'stack')
_Function = Union[ast.FunctionDef, ast.AsyncFunctionDef]


def imported(name: str) -> Iterator[types.ModuleType]:
    """A module and its parts, as far as they can be imported here."""
    if _LEFT_OUT.search(name):
        return
    try:
        module = importlib.import_module(name)
    except BaseException:  # (a part may need another system, and end the process)
        return
    yield module
    for part in pkgutil.iter_modules(getattr(module, '__path__', ())):
        yield from imported(f'{name}.{part.name}')


class Sweep:
    """The sweeps over some modules."""

    def __init__(self, modules: List[types.ModuleType]) -> None:
        self.modules = modules
        self._judge = Judge()

    def is_marked(self, module: str, member: str) -> bool:
        """Whether scan marks an import."""
        return self._judge.mark(f'{module}.{member}', member if '.' in member else '') is not None

    # --- What is bound under another name ---

    def _marked_objects(self) -> Dict[int, str]:
        """The objects that are marked under the name that they have themselves."""
        found = {id(getattr(builtins, name)): f'builtins.{name}' for name in _BUILT_IN}
        for name, module in list(sys.modules.items()):
            if isinstance(module, types.ModuleType) and not name.startswith('picklestep'):
                for key, value in list(vars(module).items()):
                    is_own = callable(value) and getattr(value, '__module__', None) == name and getattr(value, '__qualname__', None) == key
                    if is_own and self.is_marked(name, key):
                        found.setdefault(id(value), f'{name}.{key}')
        return found

    def bound_elsewhere(self) -> Iterator[str]:
        """Objects that are marked under another name, and modules that no rule finds in others."""
        marked = self._marked_objects()
        for module in self.modules:
            for key, value in list(vars(module).items()):
                name = module.__name__
                if id(value) in marked and marked[id(value)] != f'{name}.{key}' and not self.is_marked(name, key):
                    yield f'{name}.{key} = {marked[id(value)]}'
                if isinstance(value, types.ModuleType):
                    for probe in _PROBES:
                        if hasattr(value, probe) and self.is_marked(value.__name__, probe) and not self.is_marked(name, f'{key}.{probe}'):
                            yield f'{name}.{key}.{probe} = {value.__name__}.{probe}'

    # --- What calls something of PRIMITIVES ---

    def calling(self) -> Iterator[str]:
        """Functions and methods whose source calls one of them."""
        for module in self.modules:
            source = _source(module)
            if source is not None:
                for qualified, function in _functions(source.body, []):
                    owner = qualified.rpartition('.')[0]
                    if not self.is_marked(module.__name__, qualified) and not (owner and self.is_marked(module.__name__, owner)):
                        calls = sorted(_calls(function, vars(module)))
                        if calls:
                            arguments = ', '.join(each.arg for each in function.args.args)
                            yield f'{module.__name__}.{qualified}: {", ".join(calls)} ({arguments})'


def _source(module: types.ModuleType) -> Optional[ast.Module]:
    try:
        return ast.parse(inspect.getsource(module))
    except (OSError, TypeError, SyntaxError, ValueError):
        return None


def _functions(body: List[ast.stmt], before: List[str]) -> Iterator[Tuple[str, _Function]]:
    """The functions of a module and the methods of its classes, each with its name in the module. Inner ones belong to the outer."""
    for statement in body:
        if isinstance(statement, (ast.FunctionDef, ast.AsyncFunctionDef)):
            yield '.'.join([*before, statement.name]), statement
        elif isinstance(statement, ast.ClassDef):
            yield from _functions(statement.body, [*before, statement.name])
        else:
            for part in ('body', 'orelse', 'finalbody'):
                yield from _functions(getattr(statement, part, []), before)


def _calls(function: _Function, known: Dict[str, object]) -> Set[str]:
    """What of PRIMITIVES a function calls. `known` is what its module has by name, which may be another's."""
    if not (function.args.args or function.args.vararg or function.args.kwonlyargs or function.args.kwarg):
        return set()
    names = {_name(node.func) for node in ast.walk(function) if isinstance(node, ast.Call)}
    return {own for name in names for own in (_own_name(name, known),) if PRIMITIVES.fullmatch(name) or PRIMITIVES.fullmatch(own)}


def _own_name(name: str, known: Dict[str, object]) -> str:
    """A name with that of the module itself before it, where it goes through one that has another name here."""
    first, dot, rest = name.partition('.')
    found = known.get(first)
    return f'{found.__name__}{dot}{rest}' if isinstance(found, types.ModuleType) else name


def _name(node: ast.expr) -> str:
    """The dotted name that an expression is, or what it ends in."""
    if isinstance(node, ast.Name):
        return node.id
    return f'{_name(node.value) or "?"}.{node.attr}' if isinstance(node, ast.Attribute) else ''


def main() -> None:
    """Prints what is new."""
    warnings.simplefilter('ignore')
    roots = sys.argv[1:] or [*sorted(STANDARD_MODULES), *LIBRARIES]
    sweep = Sweep([module for root in roots for module in imported(root)])
    print(f'{len(sweep.modules)} modules of Python {sys.version.split()[0]}', file=sys.stderr)
    for line in sorted({*sweep.bound_elsewhere(), *sweep.calling()}):
        print(line)


if __name__ == '__main__':
    main()
