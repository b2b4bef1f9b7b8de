"""The one entrance: `picklestep WORD ..`, in whatever way it is started.

Words of the proved program are handed over to it in place. The others are of this package, and run in an interpreter that searches neither
the current folder nor, before the standard library, any that the environment names: a folder from elsewhere may hold a `json.py`.

So this file imports only what an interpreter has loaded when it starts (`from __future__` would import a file of that name, too). It is
a module for `python -m picklestep` and for pip's `picklestep`, and a script (`python -I entrance.py`) for the rest.
"""

import io
import os
import sys

__all__ = ['explains', 'gathers', 'main', 'run', 'saves']

_HERE = os.path.dirname(os.path.realpath(__file__))
# Each word of the program has a page here, by which it is known.
_PAGES = os.path.join(_HERE, 'help')
# The words of this package, and the modules that do them.
_OWN = {'convert': 'converting', 'dap': 'dap', 'diff': 'diff', 'mend': 'mend', 'optimize': 'optimizing', 'policy': 'scan.policy.command', 'rename': 'renaming.command',
        'scan': 'scan.command', 'shell': 'shell.command', 'size': 'sizing', 'source': 'python_source', 'view': 'view.command'}
_MOST_WRONG = 2  # letters that are taken for a slip
_ASKS_HELP = ('--help', '-h')


def main(words: 'list[str]') -> int:
    """Does what the words say, and answers the status. A word of the program never comes back."""
    if sys.version_info < (3, 8):
        if words and _is_of_program(words[0]):
            return _hand_over(words)
        return _complain('python3 is older than 3.8: only list, objects, calls, form, gate, reach, members, assemble, same, opcodes and debug work with it')
    if not words or words[0] in _ASKS_HELP:
        return _print_page('picklestep', to_output=bool(words))
    first, rest = words[0], words[1:]
    if first == '--version':
        return _do_apart(words)
    if _is_of_program(first):
        return _print_page(first) if _asks_help(rest) else _do_apart(words) if _is_told_more(words) else _hand_over(words)
    if first in _OWN:
        return _do_apart(words)
    if first == 'help':
        return _help(rest)
    if first == '--':
        return _do_apart(['scan', *words])
    if os.path.lexists(first):  # (one that begins like an option is none)
        return _do_apart(['scan', os.path.join('.', first) if first.startswith('-') else first, *rest])
    from .opens import split
    if split(first) is not None:
        return _do_apart(['scan', *words])
    return _complain(f'{first!r} is neither a word of picklestep nor a file that is there: {_meant(first)}see picklestep --help')


def _complain(text: str) -> int:
    print(f'picklestep: {text}', file=sys.stderr)
    return 2


def _page(word: str) -> str:
    return os.path.join(_PAGES, f'{word}.txt')


def _is_of_program(word: str) -> bool:
    return '/' not in word and word != 'picklestep' and os.path.isfile(_page(word))


def _asks_help(rest: 'list[str]') -> bool:
    options = rest[:rest.index('--')] if '--' in rest else rest
    return any(word in _ASKS_HELP for word in options)


def _print_page(word: str, to_output: bool = True) -> int:
    with open(_page(word), encoding='utf-8') as page:
        print(page.read(), end='', file=sys.stdout if to_output else sys.stderr)
    return 0 if to_output else 2


def _help(words: 'list[str]') -> int:
    """The page of a word, or the one of all."""
    if len(words) > 1:
        return _complain('it is: picklestep help [WORD]')
    word = words[0] if words else 'help'
    if word in _OWN:
        return _do_apart([word, '--help'])
    if word == 'help' or _is_of_program(word):
        return _print_page('picklestep' if word == 'help' else word)
    return _complain(f'{word!r} is no word of picklestep: {_meant(word)}see picklestep --help')


def _meant(word: str) -> str:
    """The nearest word, where a slip or two lead to it."""
    known = sorted([*_OWN, 'help', *(name[:-4] for name in os.listdir(_PAGES) if _is_of_program(name[:-4]))])
    wrong, nearest = min((_slips(word, each), each) for each in known)
    return f'is it {nearest}? ' if wrong <= min(_MOST_WRONG, len(word) // 2) else ''


def _slips(one: str, other: str) -> int:
    """How many letters are to be put in, taken away or replaced, or pairs of them turned, to get one word from another."""
    before, row = [0], list(range(len(other) + 1))
    for at, letter in enumerate(one):
        earlier, before, row = before, row, [at + 1]
        for to, wanted in enumerate(other):
            row.append(min(before[to + 1] + 1, row[to] + 1, before[to] + (letter != wanted)))
            if at and to and letter == other[to - 1] and one[at - 1] == wanted:
                row[-1] = min(row[-1], earlier[to - 1] + 1)
    return row[-1]


def _is_told_more(words: 'list[str]') -> bool:
    """Whether something stands beside the program's own lines: where else to look, or which file cannot be read; or something is opened, an
    address or a container (help/start.sh asks the same)."""
    if words[0] in ('calls', 'members') or saves(words) or '--' in words:  # (behind that a file may have a name like an option)
        return True
    if words[0] == 'opcodes':  # (it has no file)
        return False
    if explains(words) or gathers(words):
        return True
    from .opens import has_more, holds_others
    files = [word for word in words[1:] if not word.startswith('-')]
    if any(not os.access(word, os.R_OK) or os.path.isdir(word) for word in files):
        return True
    if words[0] == 'gate':
        files = files[1:] if len(files) == 2 else []  # (LIST and FILE: among several files none is opened)
    return words[0] != 'assemble' and any(holds_others(word) or has_more(word) for word in files)


def explains(words: 'list[str]') -> bool:
    """Whether `gate` is asked which lines of lists have a name, which this package says.

    >>> explains(['gate', '--explain', 'a.b']), explains(['gate', '--explain=a.b', 'c']), explains(['gate', 'c', '--', '--explain'])
    (True, True, False)
    """
    return _has_option(words, '--explain')


def saves(words: 'list[str]') -> bool:
    """Whether `assemble` is to save what it makes, or to frame it, which this package does.

    >>> saves(['assemble', 'a', '--save', 'b']), saves(['assemble', '--frame', 'a']), saves(['debug', 'a', '--save', 'b'])
    (True, True, False)
    """
    return any(_has_option(words, option, 'assemble') for option in ('--save', '--frame'))


def gathers(words: 'list[str]') -> bool:
    """Whether `gate` is given sets, several lists, or one that includes others: this package puts them together for the program.

    >>> gathers(['gate', '--list', 'a', 'b']), gathers(['gate', 'numpy', 'b']), gathers(['gate', './numpy', 'b'])
    (True, True, False)
    """
    if _has_option(words, '--list'):
        return True
    listed = next((word for word in words[1:] if not word.startswith('-')), '')
    return words[0] == 'gate' and (_is_set(listed) or _includes(listed))


def _has_option(words: 'list[str]', option: str, task: str = 'gate') -> bool:
    options = words[:words.index('--')] if '--' in words else words
    return words[0] == task and any(word.partition('=')[0] == option for word in options)


def _is_set(word: str) -> bool:
    return '/' not in word and os.path.isfile(os.path.join(_HERE, 'scan', 'allow', f'{word}.txt'))


def _includes(path: str) -> bool:
    """Whether a list has a line that begins with `include`. (What is read once is left to the program.)"""
    if not os.path.isfile(path) or not os.access(path, os.R_OK):
        return False
    with open(path, 'rb') as file:
        return any(line.split(None, 1)[:1] == [b'include'] for line in file)


def _hand_over(words: 'list[str]') -> int:
    _wait_for_look(words)
    from .place import NOT_FOR_NODE, find_program, program_words
    try:
        program = find_program()
        for name in NOT_FOR_NODE:
            os.environ.pop(name, None)
        return _become([*program_words(program), *words])
    except OSError as error:
        return _complain(f'cannot start {program}: {error.strerror}')
    except Exception as error:  # (to name ProgramError takes the time of its module)
        return _complain(str(error))


def _wait_for_look(words: 'list[str]') -> None:
    """Waits until it is known that no source of a clone is newer than its program: ./picklestep looks at them while this starts. Where one is newer, or
    where that is not known, ./picklestep begins anew, and looks first."""
    looking = os.environ.pop('PICKLESTEP_LOOKING', '')
    if not looking:
        return
    try:
        is_known = os.waitpid(int(looking), 0)[1] == 0
    except (OSError, ValueError):
        is_known = False
    if not is_known:
        os.environ.pop('PICKLESTEP_PROGRAM', None)
        os.environ['PICKLESTEP_LOOK_FIRST'] = 'yes'
        _become([os.path.join(os.path.dirname(os.path.dirname(_HERE)), 'picklestep'), *words])


def _become(command: 'list[str]') -> int:
    """Lets a command take the place of this process. On Windows execv would come back to the shell at once: there its status is answered."""
    if os.name == 'nt':
        here = os.path.normcase(os.getcwd())
        sys.path[:] = [path for path in sys.path if path and os.path.normcase(os.path.abspath(path)) != here]
        import subprocess
        process = subprocess.Popen(command)
        while True:
            try:
                return process.wait()
            except KeyboardInterrupt:  # (Ctrl-C goes to the command too, and it ends as it will)
                pass
    os.execv(command[0], command)


def _print_version() -> int:
    import hashlib
    from picklestep import __version__
    from picklestep.place import commit, files_of, find_program, toolchain_of
    lines = []
    try:
        program = find_program()
        for path in files_of(program):
            with open(path, 'rb') as file:
                lines.append(f'program sha256 {hashlib.sha256(file.read()).hexdigest()} {path}')
    except Exception as error:
        return _complain(str(error))
    of = commit()
    print(f'picklestep {__version__} (commit {of})' if of else f'picklestep {__version__}', f'toolchain {toolchain_of(program)}', *lines, sep='\n')
    return 0


# --- Apart from the current folder ---

def _do_apart(words: 'list[str]') -> int:
    """Does a word in this package, or says the version. Where this interpreter may find modules in the current folder, another one takes its
    place."""
    if not sys.flags.isolated and sys.executable:
        options = ['-I', '-B'] if sys.dont_write_bytecode else ['-I']
        return _become([sys.executable, *options, os.path.join(_HERE, 'entrance.py'), *words])
    if words[0] == '--version':
        return _print_version()
    from importlib import import_module
    own = _OWN.get(words[0])
    try:
        module = import_module(f'picklestep.{own or "answering"}')
        _wait_for_look(words)
        status: int = module.main(words[1:] if own else words)
    except KeyboardInterrupt:
        _complain('interrupted')
        return 130
    except MemoryError:
        return _complain('out of memory')
    return status


# --- Its standard streams ---

class _Unwritten(Exception):
    """What standard output does not take. It is no OSError, so that no word takes it for a fault of its files."""


class _Output(io.FileIO):
    """Standard output, or standard error, whose failures nobody could read of. After the first write that fails it takes all, so that the end
    of Python has nothing to say about it."""

    has_failed = False

    def write(self, data: 'bytes') -> int:  # type: ignore[override]
        if self.has_failed:
            return len(data)
        try:
            return super().write(data) or 0
        except OSError as error:
            self.has_failed = True
            if self.fileno() == 2:
                return len(data)
            if isinstance(error, BrokenPipeError):  # (its reader has left, which `scan` answers in its way)
                raise
            raise _Unwritten(error.strerror) from None


def _open_streams() -> None:
    """Opens what is closed of the descriptors 0 to 2, for what is opened next (a pipe to the program) would be in its place. Reading from it
    and writing to it fail as before."""
    for number, way in enumerate((os.O_WRONLY, os.O_RDONLY, os.O_RDONLY)):
        try:
            os.fstat(number)
        except OSError:
            opened = os.open(os.devnull, way)
            if opened == number:
                os.set_inheritable(opened, True)
    if sys.stdin is None:
        sys.stdin = open(0, encoding='utf-8', closefd=False)
    sys.stdout = _output(1, sys.stdout) or sys.stdout
    sys.stderr = _output(2, sys.stderr) or sys.stderr


def _output(number: int, now: 'object') -> 'io.TextIOWrapper | None':
    """What takes the place of a stream, which is None where its descriptor is closed. None where the stream stays, as a console of Windows does."""
    encoding, errors, is_by_lines = 'utf-8', 'backslashreplace', number == 2
    if now is not None:
        if not isinstance(now, io.TextIOWrapper) or type(getattr(now.buffer, 'raw', now.buffer)) is not io.FileIO:
            return None
        encoding, errors, is_by_lines = now.encoding, now.errors or 'strict', now.line_buffering or getattr(now, 'write_through', False)  # (older than 3.7)
    return io.TextIOWrapper(io.BufferedWriter(_Output(number, 'w', closefd=False)), encoding, errors, line_buffering=is_by_lines)


def _finish(words: 'list[str]') -> int:
    """Does what the words say, and writes all that is to be written: the one place that says it where this cannot be."""
    try:
        try:
            return main(words)
        finally:
            sys.stdout.flush()
    except (_Unwritten, BrokenPipeError) as error:
        return _complain(f'cannot write: {getattr(error, "strerror", None) or error}')
    except KeyboardInterrupt:  # (a word that has more to say at Ctrl-C catches it itself)
        print('picklestep: interrupted', file=sys.stderr)
        return 130


def run() -> None:
    """The entry point of pip's `picklestep`."""
    _open_streams()
    sys.exit(_finish(sys.argv[1:]))


if __name__ == '__main__':
    # Another copy of the package may be among those of the interpreter: the one of this file comes first.
    sys.path.insert(0, os.path.dirname(_HERE))
    from picklestep.entrance import run as run_in_package
    from picklestep.further import search_when_asked
    search_when_asked(sys.argv[1:])
    run_in_package()
