"""Pickles of texts that have one opcode in each line. `picklestep assemble FILE --save OUT` writes a file that is there only when it is whole."""

from __future__ import annotations

import argparse
import os
import subprocess
import sys
from pathlib import Path
from typing import List, Optional, Union

from .errors import NotAssembled, NotConverted, PicklestepError, ProgramError, reason
from .optimizing import framed
from .place import NOT_FOR_NODE, find_program, program_words
from .program import Process, check_timeout
from .saving import naming, written_whole
from .sources import Input
from .tasks import listing
from .waiting import Waiting

__all__ = ['assemble', 'main']

# How the line of a refusal begins: the number of the line and the reason come next.
_REFUSED = 'refused: line '


def assemble(text: Union[str, bytes], *, frames: bool = False, timeout: Optional[float] = None, memory: Optional[int] = None) -> bytes:
    r"""The pickle of a text that has one opcode in each line, as `listing(..).text` has them; with `frames` in frames as pickle makes them.
    `timeout` and `memory` are as for `listing`.

    Raises NotAssembled where a line is none, with its number and the reason, and NotConverted where frames cannot be put around what it makes.

    >>> assemble("BINUNICODE 'a'\nBINFLOAT 1.5\nTUPLE2\nSTOP")
    b'X\x01\x00\x00\x00aG?\xf8\x00\x00\x00\x00\x00\x00\x86.'
    """
    check_timeout(timeout)
    given = Input(text.encode('utf-8', 'surrogateescape') if isinstance(text, str) else text)
    try:
        process = Process(['assemble', given.path], given.files, memory)
        output = process.communicate(None, timeout)
    finally:
        given.close()
    if process.status == 0:
        return _in_frames(output) if frames else output
    number, _, why = output.decode('ascii', 'replace')[len(_REFUSED):].partition(': ')
    if not number.isdigit() or not why.endswith('\n'):
        raise ProgramError('the program gave no whole answer')
    raise NotAssembled(int(number), why[:-1])


def _in_frames(content: bytes) -> bytes:
    answer = listing(content)
    if not answer.end.is_stopped or answer.kept or any(opcode.name == 'FRAME' for opcode in answer):
        raise NotConverted(['frames are put around one whole pickle that has none, with nothing behind it'])
    return framed(content)


def main(arguments: List[str]) -> int:
    """Writes the pickle to OUT, or to standard output. The status is 1 where a line is refused, which is printed, and 2 where the text cannot be read,
    the pickle not framed, or OUT not written: then OUT is as it was."""
    parser = argparse.ArgumentParser(prog='picklestep assemble', add_help=False)
    parser.add_argument('file', metavar='FILE')
    parser.add_argument('--save', metavar='OUT')
    parser.add_argument('--frame', action='store_true')
    options = parser.parse_args(arguments)
    environment = {name: value for name, value in os.environ.items() if name not in NOT_FOR_NODE}
    try:
        with Waiting():
            done = subprocess.run([*program_words(find_program()), 'assemble', '--', options.file], env=environment, stdout=subprocess.PIPE, close_fds=False)
        if done.returncode:
            sys.stdout.write(done.stdout.decode('ascii', 'replace'))
            return done.returncode
        made = _in_frames(done.stdout) if options.frame else done.stdout
        if options.save is None:
            sys.stdout.buffer.write(made)
            sys.stdout.buffer.flush()
            return 0
        with naming(options.save), written_whole(Path(options.save)) as file:
            file.write(made)
    except (OSError, PicklestepError) as error:
        print(f'picklestep: {reason(error)}', file=sys.stderr)
        return 2
    return 0
