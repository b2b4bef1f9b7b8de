"""What the program says of lists: which line is no entry of one, and whether a pickle passes. It reads lists, proved; nothing else here does."""

from __future__ import annotations

from contextlib import closing
from typing import TYPE_CHECKING, Callable, Iterable, List, Optional, Sequence

from .. import library
from ..errors import ProgramError
from ..sources import Input

if TYPE_CHECKING:
    from ..short_records import GateAnswer

__all__ = ['answer_of', 'asked', 'refused_line', 'said', 'text_of']

# A pickle that passes by each list.
_NONE = b'N.'


def text_of(entries: Iterable[str]) -> bytes:
    """Lines as the program takes them."""
    return ''.join([f'{line}\n' for line in entries]).encode('utf-8', 'surrogatepass')


def refused_line(entries: Sequence[str]) -> Optional[int]:
    """The index of the first of these lines that is no entry of a list, nor a comment, nor empty. None of them may have a newline.

    >>> refused_line(['os.path', '# a note', 'os.path: cal']), refused_line(['os.path: call'])
    (2, None)
    """
    from ..verdicts import line_refused
    number = line_refused(said(text_of(entries), _NONE))
    return None if number is None else number - 1


def asked(entries: bytes, content: bytes, timeout: Optional[float] = None, memory: Optional[int] = None) -> GateAnswer:
    """What the program says of a pickle by such lines. Raises ProgramError where there is no answer."""
    return answer_of(said(entries, content, timeout, memory), lambda: said(entries, content, timeout, memory, is_json=False))


def answer_of(line: bytes, text: Callable[[], bytes]) -> GateAnswer:
    """What the line of JSON says, and `text` where a line for people is too long for that. Raises ProgramError where it is no answer."""
    from ..verdicts import gate_answer
    return gate_answer(line, lambda: text().decode('ascii').rstrip('\n'))


def said(entries: bytes, content: bytes, timeout: Optional[float] = None, memory: Optional[int] = None, *, is_json: bool = True) -> bytes:
    """What is said of a pickle. In this process there is no limit of time."""
    found = library.gate(entries, content, memory, is_json) if timeout is None else None
    if found is not None:
        return found
    from ..program import Process
    from ..verdicts import line_refused
    pieces: List[bytes] = []
    with Input(entries) as listed, Input(content) as given:
        process = Process(['gate', *['--json'] * is_json, listed.path, given.path], [*listed.files, *given.files], memory)
        try:
            with closing(process.blocks(timeout)) as blocks:
                pieces.extend(blocks)
        except ProgramError:
            if not pieces or line_refused(b''.join(pieces)) is None:
                raise
    return b''.join(pieces)
