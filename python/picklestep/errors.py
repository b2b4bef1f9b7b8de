"""What can go wrong, as exceptions."""

from __future__ import annotations

from typing import List, Optional, Sequence

from .wording import shown

__all__ = ['NoResult', 'NotAllowed', 'NotAssembled', 'NotConverted', 'NotOpened', 'NotRenamed', 'OutOfMemory', 'PicklestepError', 'ProgramError', 'Refused', 'TimedOut', 'TooLarge']


# What reads on where reading ended at a frame: in Python, and on the command line.
_READS_ON = ' (unframed=True reads that frame)', ' (--unframed reads that frame)'


def reason(error: Exception) -> str:
    """What is wrong, in the words of the command line: of a file that cannot be read, which and why."""
    if isinstance(error, NoResult):
        return error.text + (_READS_ON[1] if error.is_of_frame else '')
    if isinstance(error, OSError) and error.filename is not None:
        return f'cannot read {shown(str(error.filename))}: {error.strerror}'
    if isinstance(error, BrokenPipeError):  # (the reader of standard output has left)
        return f'cannot write: {error.strerror}'
    return str(error)


class PicklestepError(Exception):
    """Anything that this package raises by itself.

    >>> issubclass(Refused, PicklestepError), issubclass(TimedOut, PicklestepError)
    (True, True)
    """


class Refused(PicklestepError):
    """The program refused a line of a session. The session is as it was before the line. `refusal` says why the machine refuses an opcode, where the line
    was refused for that. `inner` is the code of the opcode, the edit or the argument for which the line was refused, or ''.

    >>> import picklestep
    >>> with picklestep.Session(b'0.') as session:
    ...     try:
    ...         session.step()
    ...     except picklestep.Refused as error:
    ...         error.code, error.text, error.refusal, error.inner
    ('C3', 'C3 item 0: S2 stack underflow', 'S2 stack underflow', 'S2')
    """

    def __init__(self, text: str, code: str = '', inner: str = '', refusal: str = '') -> None:
        super().__init__(text)
        self.text = text
        self.code = code
        self.inner = inner
        self.refusal = refusal


class NoResult(PicklestepError):
    """Reading ended before the pickle's STOP, so that there is no result. `text` says how; `is_of_frame` is set where it was at a frame.

    >>> import picklestep
    >>> try:
    ...     picklestep.tree(b'N')
    ... except picklestep.NoResult as error:
    ...     print(error)
    F1 ended at 1
    """

    def __init__(self, text: str, is_of_frame: bool = False) -> None:
        super().__init__(text + (_READS_ON[0] if is_of_frame else ''))
        self.text = text
        self.is_of_frame = is_of_frame


class NotOpened(PicklestepError):
    """There is no one pickle at an address in a file. The text says in several lines what is there, with the addresses of other pickles.

    >>> import picklestep, pathlib, zipfile
    >>> with zipfile.ZipFile('a.zip', 'w') as archive:
    ...     archive.writestr('a.pkl', b'N.')
    >>> try:
    ...     picklestep.calls('a.zip > b.pkl')
    ... except picklestep.NotOpened as error:
    ...     print(error)
    nothing in a.zip has the address 'b.pkl': it has 1 pickle
      'a.zip > a.pkl'  # 2 bytes
    """


class NotAssembled(PicklestepError):
    """A line of a text is no line of an assembler. `line` is its number, from 1, and `text` says why.

    >>> error = NotAssembled(2, 'no opcode has this name')
    >>> error.line, str(error)
    (2, 'line 2: no opcode has this name')
    """

    def __init__(self, line: int, text: str) -> None:
        super().__init__(f'line {line}: {text}')
        self.line = line
        self.text = text


class ProgramError(PicklestepError):
    """The program could not answer: it ended with status 2 or by a signal, or it could not be started.

    `words` is what it said on standard error, `status` its status, and `signal` the number of the signal that ended it.

    >>> error = ProgramError('cannot read', status=2)
    >>> error.words, error.status, error.signal
    ('cannot read', 2, None)
    """

    def __init__(self, words: str, status: Optional[int] = None, signal: Optional[int] = None) -> None:
        super().__init__(words)
        self.words = words
        self.status = status
        self.signal = signal


class TooLarge(ProgramError):
    """The input has more than 1,073,741,824 bytes.

    >>> issubclass(TooLarge, ProgramError)
    True
    """


class OutOfMemory(ProgramError):
    """The program got no more memory from the system, or it reached the limit that the call gave.

    >>> import picklestep
    >>> try:
    ...     picklestep.objects(b'N' * 2_000_000 + b'.', memory=32_000_000)
    ... except picklestep.OutOfMemory as error:
    ...     error.words
    'out of memory'
    """


class TimedOut(ProgramError, TimeoutError):
    """The program took longer than the call allows, and was ended.

    >>> issubclass(TimedOut, TimeoutError)
    True
    """


class NotRenamed(PicklestepError):
    """`rename` cannot give other names to the imports of a pickle, and to nothing else. The text says why.

    >>> import picklestep
    >>> try:
    ...     picklestep.rename(b'cold\\nA\\n', {'old': 'new'})
    ... except picklestep.NotRenamed as error:
    ...     print(error)
    reading ends early: F1 ended at 7
    """


class NotConverted(PicklestepError):
    """`convert` cannot make a pickle of another kind that loads alike. `lines` says why, with the offset of each opcode that stands against it.

    >>> import picklestep
    >>> try:
    ...     picklestep.convert(b'U\\x01\\xe9.')
    ... except picklestep.NotConverted as error:
    ...     print(error)
    0: SHORT_BINSTRING b'\\xe9': 'ascii' codec can't decode byte 0xe9 in position 0: ordinal not in range(128)
    """

    def __init__(self, lines: Sequence[str]) -> None:
        super().__init__('\n'.join(lines))
        self.lines = tuple(lines)


class NotAllowed(PicklestepError):
    """What `check` was given has something to look at first. `lines` says what, a line each, as `scan --brief` does.

    >>> import picklestep
    >>> try:
    ...     picklestep.check(b'cposix\\nsystem\\n.')
    ... except picklestep.NotAllowed as error:
    ...     print(*error.lines)
    pickle: import posix.system once, first at 0: runs a shell command
    """

    def __init__(self, lines: Sequence[str]) -> None:
        super().__init__('\n'.join(lines))
        self.lines = tuple(lines)

    def _render_traceback_(self) -> List[str]:
        """The lines alone, for notebooks: where `check` was called from says nothing more."""
        return ['NotAllowed:', *(f'! {line}' for line in self.lines)]
