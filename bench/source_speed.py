"""How fast `picklestep.source` is, beside a syntax tree that is built as fickling does it.

    source_speed.py     makes two pickles of a million opcodes and more, and prints the processor's seconds for each way

As in fickling there is an object for each opcode that `pickletools.genops` finds, of a class by the opcode and with its argument, its position
and its bytes, a list of all, an interpreter that runs them one after another and builds nodes and assignments, and `ast.unparse`. It does less
than `source`: no order of changes, no offsets, and no names but for what a statement has to fill.
"""

from __future__ import annotations

import ast
import io
import pickle
import pickletools
import resource
import sys
import time
from pathlib import Path
from typing import Any, Callable, Dict, Iterator, List, Optional

sys.path.insert(0, str(Path(__file__).resolve().parent.parent / 'python'))
from picklestep.python_source import source  # noqa: E402

_MARK = object()


class Interpreter:
    """Runs opcodes over nodes of a syntax tree."""

    def __init__(self, opcodes: List[Opcode]) -> None:
        self.stack: List[Any] = []
        self.memory: Dict[int, Any] = {}
        self.body: List[ast.stmt] = []
        self._opcodes: Iterator[Opcode] = iter(opcodes)

    def tree(self) -> ast.Module:
        """The module that the opcodes build."""
        for opcode in self._opcodes:
            opcode.run(self)
        return ast.Module(body=self.body, type_ignores=[])

    def name(self, value: ast.expr, name: str = '') -> ast.Name:
        """An assignment of a value to a name."""
        name = name or f'_var{len(self.body)}'
        self.body.append(ast.Assign(targets=[ast.Name(name, ast.Store())], value=value, lineno=1))
        return ast.Name(name, ast.Load())

    def cut(self) -> List[Any]:
        """What is above the topmost mark."""
        items: List[Any] = []
        while True:
            item = self.stack.pop()
            if item is _MARK:
                items.reverse()
                return items
            items.append(item)


class Opcode:
    """An opcode of a pickle."""

    name = ''

    def __init__(self, argument: Any, position: Optional[int], data: bytes) -> None:
        self.argument = argument
        self.position = position
        self.data = data

    def run(self, interpreter: Interpreter) -> None:
        """Does what the opcode does."""
        raise NotImplementedError(self.name)


def _constant(opcode: Opcode, interpreter: Interpreter) -> None:
    interpreter.stack.append(ast.Constant(opcode.argument))


def _nothing(opcode: Opcode, interpreter: Interpreter) -> None:
    pass


def _mark(opcode: Opcode, interpreter: Interpreter) -> None:
    interpreter.stack.append(_MARK)


def _memoize(opcode: Opcode, interpreter: Interpreter) -> None:
    interpreter.memory[len(interpreter.memory)] = interpreter.stack[-1]


def _get(opcode: Opcode, interpreter: Interpreter) -> None:
    interpreter.stack.append(interpreter.memory[opcode.argument])


def _list(opcode: Opcode, interpreter: Interpreter) -> None:
    interpreter.stack.append(ast.List(elts=[], ctx=ast.Load()))


def _dict(opcode: Opcode, interpreter: Interpreter) -> None:
    interpreter.stack.append(ast.Dict(keys=[], values=[]))


def _appends(opcode: Opcode, interpreter: Interpreter) -> None:
    items = interpreter.cut()
    interpreter.stack[-1].elts.extend(items)


def _setitems(opcode: Opcode, interpreter: Interpreter) -> None:
    items = interpreter.cut()
    target = interpreter.stack.pop()
    if isinstance(target, ast.Dict) and not target.keys:
        interpreter.stack.append(target)
    else:
        name = interpreter.name(target)
        target = ast.Dict(keys=[], values=[])
        interpreter.body.append(ast.Expr(ast.Call(func=ast.Attribute(name, 'update', ast.Load()), args=[target], keywords=[])))
        interpreter.stack.append(name)
    target.keys.extend(items[::2])
    target.values.extend(items[1::2])


def _stop(opcode: Opcode, interpreter: Interpreter) -> None:
    interpreter.name(interpreter.stack.pop(), 'result')


_RUNS: Dict[str, Callable[[Opcode, Interpreter], None]] = {
    'PROTO': _nothing, 'FRAME': _nothing, 'MARK': _mark, 'MEMOIZE': _memoize, 'BINGET': _get, 'LONG_BINGET': _get, 'EMPTY_LIST': _list,
    'EMPTY_DICT': _dict, 'APPENDS': _appends, 'SETITEMS': _setitems, 'STOP': _stop}
_CLASSES: Dict[str, type] = {info.name: type(info.name, (Opcode,), {'name': info.name, 'run': _RUNS.get(info.name, _constant)})
                             for info in pickletools.opcodes}


def opcodes_of(data: bytes) -> List[Opcode]:
    """The opcodes of a pickle as objects."""
    stream = io.BytesIO(data)
    found = []
    for info, argument, position in pickletools.genops(stream):
        assert position is not None
        found.append(_CLASSES[info.name](argument, position, data[position:stream.tell()]))
    return found


def by_tree(data: bytes) -> str:
    """The source by a syntax tree."""
    return ast.unparse(Interpreter(opcodes_of(data)).tree())


def seconds(work: Callable[[bytes], Any], data: bytes) -> float:
    """The seconds of the processor that some work takes, with those of the programs that it starts."""
    def spent() -> float:
        children = resource.getrusage(resource.RUSAGE_CHILDREN)
        return time.process_time() + children.ru_utime + children.ru_stime
    before = spent()
    work(data)
    return spent() - before


def main() -> None:
    """Prints a line for each pickle, of which each way has the least of three times."""
    records = [{'id': number, 'name': f'user{number}', 'score': number * 0.5, 'tags': ['a', 'b', str(number)]} for number in range(50_000)]
    for name, value in (('a million integers', [number % 256 for number in range(1_000_000)]), ('50,000 records', records)):
        data = pickle.dumps(value, 4)
        works = (by_tree, lambda data: source(data), lambda data: source(data, full=False))
        taken = [min(seconds(work, data) for _ in range(3)) for work in works]
        print(f'{name}: tree {taken[0]:.2f} s, source {taken[1]:.2f} s, cut {taken[2]:.2f} s: {taken[0] / taken[1]:.1f} and {taken[0] / taken[2]:.1f} times')


if __name__ == '__main__':
    main()
