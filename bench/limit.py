"""limit.py FOLDER: compiles limit.c into the program FOLDER/limit. Its table of opcodes is made of Python's pickletools: a name for each code, how
its line begins, and what it makes."""

from __future__ import annotations

import pickletools
import shutil
import subprocess
import sys
from pathlib import Path
from typing import Iterator

SOURCE = Path(__file__).with_suffix('.c')
# clang first: its code is quicker here, and what picklestep's users start is compiled by it too
COMPILERS = ('clang', 'cc')
OPTIONS = ['-O2', '-fno-pie', '-no-pie']
# What an opcode may take an object for, by what pickletools calls the object. All others are PLAIN.
CLASSES = {
    'any': 'OPAQUE', 'buffer': 'OPAQUE', 'str': 'TEXT', 'bytes_or_str': 'TEXT', 'tuple': 'TUPLE', 'list': 'LIST', 'dict': 'DICT', 'set': 'SET',
    'bytes': 'READONLY', 'bytearray': 'BYTEARRAY',
}


def class_made(opcode: pickletools.OpcodeInfo) -> str:
    """The class of the object that an opcode leaves on top."""
    return CLASSES.get(opcode.stack_after[-1].name, 'PLAIN') if opcode.stack_after else 'PLAIN'


def code_column(opcode: pickletools.OpcodeInfo) -> str:
    """A colon, and the code at the left of four places, as a literal of C."""
    return f': {opcode.code:4}  ' if opcode.code.isascii() else f': \\\\x{ord(opcode.code):02x}  '


def width(opcode: pickletools.OpcodeInfo) -> int:
    """How many places the name takes: before an argument or a note at least ten, and a blank."""
    ends = opcode.arg is None and opcode.name != 'MEMOIZE' and pickletools.markobject not in opcode.stack_before
    return len(opcode.name) if ends else max(10, len(opcode.name)) + 1


def table() -> Iterator[str]:
    """The lines of limit_opcodes.h."""
    yield 'enum {'
    for opcode in pickletools.opcodes:
        yield f'    OP_{opcode.name} = {ord(opcode.code)},'
    yield '};\nstatic const struct opcode opcodes[256] = {'
    for opcode in pickletools.opcodes:
        row = f'"{code_column(opcode)}", "{opcode.name:16}", {width(opcode)}, 1 << {opcode.proto}, {class_made(opcode)}'
        yield f'    [OP_{opcode.name}] = {{{row}}},'
    yield '};'


def compiled(folder: Path) -> Path | None:
    """The program, if there is a compiler."""
    compiler = next(filter(None, map(shutil.which, COMPILERS)), None)
    if compiler is None:
        return None
    (folder / 'limit_opcodes.h').write_text('\n'.join(table()) + '\n', encoding='utf-8')
    subprocess.run([compiler, *OPTIONS, '-I', folder, '-o', folder / 'limit', SOURCE], check=True)
    return folder / 'limit'


def must_print_the_same(program: str, limit: str, path: str) -> None:
    """Ends this script if the limit does not print what `list` prints of a file."""
    with subprocess.Popen([program, 'list', path], stdout=subprocess.PIPE) as listing, subprocess.Popen([limit, path], stdout=subprocess.PIPE) as other:
        assert listing.stdout is not None and other.stdout is not None
        while (text := listing.stdout.read(1 << 20)) == other.stdout.read(1 << 20):
            if not text:
                return
    sys.exit(f'limit.py: limit.c does not print what list prints of {path}')


if __name__ == '__main__':
    sys.exit(None if compiled(Path(sys.argv[1])) else 'limit.py: there is no compiler for C')
