"""Starts the program for a word of its own: opens what is in a container before, and says behind its lines what these do not: which file cannot be
read, and where else to look.

What the program prints is passed on as it comes, and its status is this one's. What was opened is said on standard error, as the hints are.
"""

from __future__ import annotations

import contextlib
import json
import os
import signal
import stat
import subprocess
import sys
from dataclasses import dataclass
from typing import Iterator, List, Optional, Sequence, Tuple

from .entrance import explains, gathers, saves
from .errors import PicklestepError, reason
from .hints import Watch
from .opens import has_more, has_zip_behind, is_gated_whole, is_taken_apart, may_have_arrays, split
from .place import NOT_FOR_NODE, find_program, program_words
from .waiting import Waiting
from .wording import shown

__all__ = ['main']

_BLOCK = 1 << 16
# Options of the program whose value is a word of its own.
_WITH_VALUES = ('--memo', '--save', '--skip', '--window')
# Words that are about the bytes of a file, whatever these hold.
_OF_BYTES = ('assemble', 'members')
# How each line of `gate --json` begins.
_VERDICT = '{"kind":"verdict",'
_SIGNALS = ('SIGINT', 'SIGTERM', 'SIGHUP')  # (Windows has not all of them)


def main(words: List[str]) -> int:
    """Does what the words say, of which the first is the program's, and answers the status."""
    if explains(words):
        from .scan.explaining import main as explain
        return explain(words[1:])
    with contextlib.ExitStack() as held:
        try:
            if gathers(words):
                from .scan.listing import with_one_list
                words = with_one_list(words, held)
            given = _given(words, held)
        except (PicklestepError, OSError) as error:
            return _complain(reason(error))
        for line in given.said:
            print(line if line.startswith('  ') else f'picklestep: {line}', file=sys.stderr)
        if saves(words):
            from .assembling import main as assemble
            return assemble(given.words[1:])
        status = _run(given)
    if status < 0:
        _end_by(-status)
    return status


def _run(given: _Given) -> int:
    environment = {name: value for name, value in os.environ.items() if name not in NOT_FOR_NODE}
    is_watched = given.words[0] == 'calls'
    try:
        command = [*program_words(find_program()), *given.words]
        # (A file may be one that the shell has opened, as in `<(..)`: it stays open for the program.)
        process = subprocess.Popen(command, env=environment, stdout=subprocess.PIPE if is_watched or given.names else None,
                                   stderr=subprocess.PIPE if is_watched and sys.stderr.isatty() else None, close_fds=False)
    except PicklestepError as error:
        return _complain(reason(error))
    except OSError as error:
        return _complain(f'cannot start {command[0]}: {error.strerror}')
    _pass_signals_on(process)
    watch = _pass_on(process, _watch(given.words)) if is_watched else _pass_on_named(process, given.names) if given.names else Watch()
    if process.stderr is not None:  # (it comes once nothing is told of the time any more)
        with process.stderr as said:
            print(said.read().decode('utf-8', 'replace'), end='', file=sys.stderr)
    status = process.wait()
    if status < 0:
        return status
    if watch is None and status != 2:  # (the program had written all before its reader left)
        return _complain('cannot write')
    hints = () if watch is None else watch.hints_of_frames if given.leaves_out else watch.hints
    for why in _unread(given.words[1:]) if status == 2 else (*hints, *(_unlisted(given.words) if status else ())):
        _complain(why)
    return status


def _unlisted(words: List[str]) -> List[str]:
    """Why `members` lists nothing: the file is of another kind."""
    at = _place_of_file(words)
    if words[0] != 'members' or at is None:
        return []
    from .addresses import unlisted
    return unlisted(words[at])


def _complain(text: str) -> int:
    print(f'picklestep: {text}', file=sys.stderr)
    return 2


# --- What it is given ---

@dataclass(frozen=True)
class _Given:
    """The words for the program, whether arrays are left out of what it reads, and what is said before. `names` has for each name that the program prints
    of what was opened the one that the user gave."""

    words: List[str]
    leaves_out: bool = False
    said: Tuple[str, ...] = ()
    names: Tuple[Tuple[str, str], ...] = ()

    def without(self, skip: Tuple[Tuple[int, int], ...], held: contextlib.ExitStack, said: List[str]) -> _Given:
        """The same where `calls` leaves bytes out."""
        from .tasks import left_out
        word, *rest = self.words  # (behind `--` they would be files)
        return _Given([word, *held.enter_context(left_out(skip)), *rest], True, (*self.said, *said))


def _given(words: List[str], held: contextlib.ExitStack) -> _Given:
    """What the program is given: the file, or the bytes that are opened in it, for as long as they are held. Raises NotOpened."""
    at = _place_of_file(words)
    parts = None if at is None else split(words[at])
    out = _value_of(words, '--save')
    if out:
        from .addresses import check_out
        check_out(out, '' if parts is None else parts[0])
    if words[0] == 'gate':
        return _gated(words, held)
    if words[0] == 'same':
        return _compared(words, held)
    if words[0] in _OF_BYTES and at is not None and parts is not None:
        return _at_address(words, at, held)
    if at is None or words[0] in _OF_BYTES:
        return _Given(words)
    if is_taken_apart(words[at]):
        given = _opened(words, at, held)
        if given is not None:
            return given
    return _beside(words, words[at], held)


def _opened(words: List[str], at: int, held: contextlib.ExitStack) -> Optional[_Given]:
    """The same where something is opened."""
    from . import addresses  # (it takes longer to import than most answers take)
    found = addresses.opened(words[at])
    if found is None:
        return None
    out, said = _value_of(words, '--save'), found.said
    if out:
        addresses.check_out(out, found.path)
        said = (*said, f'the pickle alone, and no container, is saved to {shown(out)}')
    made = _Given(_with_content(words, at, found.content, held), said=said)
    if not found.skip or _value_of(words, '--skip'):
        return made
    if words[0] == 'calls':
        return made.without(found.skip, held, addresses.left_out(found.address, found.skip))
    return _Given(made.words, said=(*made.said, *addresses.ends_early(found.address, found.skip)))


def _gated(words: List[str], held: contextlib.ExitStack) -> _Given:
    """The same for `gate`: of one FILE what is opened in it, and of several those that are addresses."""
    places = [at for at, each in enumerate(_with_options(words)) if at and _is_file(*each)][1:]
    said: List[str] = []
    names: List[Tuple[str, str]] = []
    is_json = _is_json(words)
    for at in places:
        name = words[at]
        if split(name) is None if len(places) > 1 else is_gated_whole(name) or not is_taken_apart(name) and not has_more(name):
            continue
        from . import addresses
        found = addresses.gated(name)
        said += addresses.said_of(name, found, 'gate')
        if found is not None:
            words = _with_content(words, at, found.content, held)
            names += [(_printed(words[at], is_json), _printed(name, is_json))] if len(places) > 1 else []
    return _Given(words, said=tuple(said), names=tuple(names))


def _compared(words: List[str], held: contextlib.ExitStack) -> _Given:
    """The same for `same`: what is opened in either file."""
    said: List[str] = []
    for at in [at for at, each in enumerate(_with_options(words)) if at and _is_file(*each)]:
        if is_taken_apart(words[at]):
            from . import addresses
            found = addresses.opened(words[at])
            if found is not None:
                said += addresses.said_of(words[at], found)
                words = _with_content(words, at, found.content, held)
    return _Given(words, said=tuple(said))


def _printed(name: str, is_json: bool = False) -> str:
    """How a line of `gate` begins, by the name of one file among several.

    >>> print(_printed("it's") + _printed("it's", is_json=True))
    'it\\'s': {"kind":"verdict","file":"it's",
    """
    content = os.fsencode(name)
    if not is_json:
        return f"'{repr(content + b'%c' % 34)[2:-2]}': "
    try:
        return f'{_VERDICT}"file":{json.dumps(content.decode("utf-8"))},'
    except UnicodeDecodeError:
        return f'{_VERDICT}"file_hex":"{content.hex()}",'


def _at_address(words: List[str], at: int, held: contextlib.ExitStack) -> _Given:
    """The same where the bytes at an address are what is asked about, whatever is in them."""
    from . import addresses
    return _Given(_with_content(words, at, addresses.bytes_at(words[at]), held), said=(f'opened {addresses.quoted(words[at])}',))


def _with_content(words: List[str], at: int, content: bytes, held: contextlib.ExitStack) -> List[str]:
    """The words with these bytes in the place of a file."""
    from .sources import Input
    given = held.enter_context(Input(content))
    for file in given.files:
        os.set_inheritable(file, True)
    return [*words[:at], given.path, *words[at + 1:]]


def _beside(words: List[str], path: str, held: contextlib.ExitStack) -> _Given:
    """What a word is given of a file that is a pickle itself. `calls` leaves arrays in it out."""
    if not has_more(path) and not has_zip_behind(path):
        return _Given(words)
    from . import addresses
    if words[0] != 'calls':
        return _Given(words, said=tuple(addresses.what_else(path)))
    given = _Given(words, said=tuple(addresses.other_kinds(path)))
    try:
        skip, said = addresses.arrays_of(path) if not _value_of(words, '--skip') and may_have_arrays(path) else ((), [])
    except OSError:
        return given  # (the program says so)
    return given.without(skip, held, said) if skip else given


# --- The program ---

def _pass_signals_on(process: 'subprocess.Popen[bytes]') -> None:
    """What ends this ends the program. (On Windows the program gets Ctrl-C itself.)"""
    for name in _SIGNALS:
        if os.name == 'nt':
            signal.signal(signal.SIGINT, signal.SIG_IGN)
        elif signal.getsignal(getattr(signal, name)) != signal.SIG_IGN:
            signal.signal(getattr(signal, name), lambda number, frame: process.send_signal(number))


def _end_by(number: int) -> None:
    """Ends as the program did."""
    with contextlib.suppress(OSError):  # (of SIGKILL nothing can be set)
        signal.signal(number, signal.SIG_DFL)
    os.kill(os.getpid(), number)


def _watch(words: List[str]) -> Watch:
    """What reads the lines of `calls`. (To ask for JSON too where they are for people would be to read the file twice.)"""
    if not _is_json(words):
        return Watch()
    from .reaches import FieldsWatch
    return FieldsWatch()


def _pass_on(process: 'subprocess.Popen[bytes]', watch: Watch) -> Optional[Watch]:
    """Writes what the program writes, as it comes, and reads it. None where it cannot be written: then the program, whose reader leaves,
    cannot write either, and says so. Until the first lines come somebody at a terminal is told how long it takes."""
    assert process.stdout is not None
    parts: List[bytes] = []
    with process.stdout as answer, Waiting() as waiting:
        while block := os.read(answer.fileno(), _BLOCK):
            waiting.end()
            try:
                _write(block)
            except OSError:
                return None
            lines, newline, rest = block.rpartition(b'\n')
            if newline:
                watch.feed(b''.join([*parts, lines, newline]))
                parts = []
            parts.append(rest)
    return watch


def _pass_on_named(process: 'subprocess.Popen[bytes]', names: Sequence[Tuple[str, str]]) -> Optional[Watch]:
    """Writes the lines of `gate` of several files, with the names that the user gave. None where they cannot be written."""
    assert process.stdout is not None
    given = {old.encode('ascii'): new.encode('ascii') for old, new in names}
    with process.stdout as answer:
        for line in answer:
            begin = line.find(b'",', len(_VERDICT) + len('"file":"')) + 2 if line.startswith(b'{') else line.find(b"': ") + 3
            name = line[:begin]
            try:
                _write(given.get(name, name) + line[len(name):])
            except OSError:
                return None
    return Watch()


def _write(block: bytes) -> None:
    """Writes bytes to standard output, all of them."""
    left = memoryview(block)
    while left:
        left = left[os.write(1, left):]


# --- Its files ---

def _unread(words: List[str]) -> Iterator[str]:
    """A line for each file that cannot be read."""
    for path in _files(words):
        try:
            path.encode()  # (a name that is no text cannot be written)
            _try(path)
        except UnicodeEncodeError:
            pass
        except (OSError, ValueError) as error:
            yield f'cannot read {shown(path) or repr(path)}: {getattr(error, "strerror", None) or error}'


def _files(words: List[str]) -> Iterator[str]:
    """The names of files among the words of the program."""
    for word, before, is_option_over in _with_options(words):
        if before == '--skip' and word.startswith('@') or word.startswith('--skip=@') and not is_option_over:
            yield word.partition('@')[2]
        elif _is_file(word, before, is_option_over):
            yield word


def _with_options(words: List[str]) -> Iterator[Tuple[str, str, bool]]:
    """Each word with the option before it, and whether options are over there."""
    before, is_option_over = '', False
    for word in words:
        yield word, before, is_option_over
        is_option_over = is_option_over or word == '--'
        before = '' if is_option_over else word


def _is_file(word: str, before: str, is_option_over: bool) -> bool:
    return is_option_over or before not in _WITH_VALUES and not word.startswith('-')


def _is_json(words: List[str]) -> bool:
    """Whether lines of JSON are asked for."""
    return '--json' in (words[:words.index('--')] if '--' in words else words)


def _place_of_file(words: List[str]) -> Optional[int]:
    """Where among the words of the program its file is, if there is one. (`gate` has a list before it.)"""
    found = [at for at, each in enumerate(_with_options(words)) if at and _is_file(*each)]
    return found[-1] if len(found) == (2 if words[0] == 'gate' else 1) else None


def _value_of(words: List[str], option: str) -> str:
    """The value that an option has among the words, or none."""
    for word, before, is_option_over in _with_options(words):
        if not is_option_over and (before == option or word.startswith(f'{option}=')):
            return word.partition('=')[2] if word.startswith(f'{option}=') else word
    return ''


def _try(path: str) -> None:
    """Raises what keeps a file from being read. Nothing is taken from one that is read once."""
    mode = os.stat(path).st_mode
    with open(os.open(path, os.O_RDONLY | getattr(os, 'O_NONBLOCK', 0) | getattr(os, 'O_BINARY', 0)), 'rb', buffering=0) as file:
        if stat.S_ISREG(mode):
            file.read(1)
