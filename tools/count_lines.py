#!/usr/bin/python3
"""Counts the lines of Python behind an answer of `picklestep scan`.

    python3 tools/count_lines.py FILE..

FILEs are looked at, so give one of each kind: python/tests/data/models. What counts are the lines with code, without blank lines, comments and
docstrings, of each module of the package that is loaded then. Modules of stores, reports and policies do not count.
"""

from __future__ import annotations

import ast
import contextlib
import io
import sys
import tokenize
from pathlib import Path
from typing import Iterator, Set

PACKAGE = Path(__file__).resolve().parent.parent / 'python' / 'picklestep'
LEFT_OUT = tuple(f'scan/{name}/' for name in ('stores', 'reports', 'policy'))
NO_CODE = (tokenize.COMMENT, tokenize.NL, tokenize.NEWLINE, tokenize.INDENT, tokenize.DEDENT, tokenize.ENDMARKER)


def lines_with_code(text: str) -> int:
    """How many lines of a module have code."""
    lines: Set[int] = set()
    for token in tokenize.generate_tokens(io.StringIO(text).readline):
        if token.type not in NO_CODE:
            lines.update(range(token.start[0], token.end[0] + 1))
    for node in ast.walk(ast.parse(text)):
        if isinstance(node, ast.Expr) and isinstance(node.value, ast.Constant) and isinstance(node.value.value, str):
            lines.difference_update(range(node.lineno, (node.end_lineno or 0) + 1))
    return len(lines)


def loaded() -> Iterator[Path]:
    """The modules of the package that are loaded."""
    files = {Path(module.__file__) for module in list(sys.modules.values()) if getattr(module, '__file__', None)}
    yield from sorted(file for file in files if PACKAGE in file.parents and not file.relative_to(PACKAGE).as_posix().startswith(LEFT_OUT))


def main() -> None:
    sys.path.insert(0, str(PACKAGE.parent))
    from picklestep.scan import command
    with contextlib.redirect_stdout(io.StringIO()):
        command.main(['--brief', *sys.argv[1:]])
    counts = {file.relative_to(PACKAGE).as_posix(): lines_with_code(file.read_text('utf-8')) for file in loaded()}
    print(*(f'{count:>6} {name}' for name, count in sorted(counts.items(), key=lambda each: -each[1])), sep='\n')
    print(f'{sum(counts.values()):>6} in {len(counts)} modules')


if __name__ == '__main__':
    main()
