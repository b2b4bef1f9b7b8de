"""The words of `picklestep shell`."""

from __future__ import annotations

import argparse
import contextlib
import sys
from typing import Iterable, Iterator, List

from ..addresses import given
from ..errors import PicklestepError, reason
from ..printing import print_text
from ..waiting import Waiting
from ..wording import shown
from .complete import completions
from .shell import Shell, WordError
from .terminal import Terminal, is_terminal

__all__ = ['main']


def _parser() -> argparse.ArgumentParser:
    parser = argparse.ArgumentParser(
        prog='picklestep shell', description='A prompt at which you step through a pickle, look at it and edit it. Nothing of it is run.',
        epilog='Status: 0; 1 if a line of SCRIPT was refused; 2 if FILE or SCRIPT could not be read; 130 after Ctrl-C.')
    parser.add_argument('file', metavar='FILE', help='the pickle, or its address')
    parser.add_argument('--many', action='store_true', help='FILE has several pickles that follow one another')
    parser.add_argument('--unframed', action='store_true', help='ignore the lengths of frames, so that a pickle that was cut off is read to the cut')
    parser.add_argument('--whole', action='store_true', help='read all of a long pickle at once, and not the first opcodes alone')
    parser.add_argument('--batch', metavar='SCRIPT', help='run the lines of this file instead of a prompt, up to the first that is refused')
    return parser


def main(arguments: List[str]) -> int:
    """Runs lines. The status is 1 where a line of a script could not be run, 2 where the pickle could not be opened, and 130 after Ctrl-C."""
    options = _parser().parse_args(arguments)
    try:
        pickle, found = given(options.file)
        path, container = (options.file, '') if found is None else ('', found.path)
        with Waiting() as waiting:
            opened = Shell(pickle, path, options.many, unframed=options.unframed, container=container, progress=waiting.progress, whole=options.whole)
        with opened as shell:
            if shell.pickle.is_part and (options.batch is not None or not is_terminal()):
                print('\n'.join(f'picklestep: {line.strip("()")}' for line in shell.hints()[0].split('\n')), file=sys.stderr)
            if options.batch is not None:
                with open(options.batch, encoding='utf-8') as script:
                    return _obey_all(shell, options.batch, _lines(options.batch, script))
            if not is_terminal():
                return _obey_all(shell, 'standard input', _lines('standard input', sys.stdin))
            return _converse(shell)
    except (OSError, PicklestepError, WordError) as error:
        print(f'picklestep: {reason(error)}', file=sys.stderr)
        return 2
    except KeyboardInterrupt:
        print('picklestep: interrupted', file=sys.stderr)
        return 130


def _lines(name: str, script: Iterable[str]) -> Iterator[str]:
    """The lines of a script. What cannot be read of it is said with its name."""
    lines = iter(script)
    while True:
        try:
            line = next(lines, None)
        except UnicodeDecodeError as error:
            raise PicklestepError(f'cannot read {shown(name)}: it is not {error.encoding.upper()}') from error
        except OSError as error:
            raise PicklestepError(f'cannot read {shown(name)}: {error.strerror}') from error
        if line is None:
            return
        yield line


def _obey_all(shell: Shell, name: str, lines: Iterable[str]) -> int:
    """Runs the lines of a script."""
    for number, line in enumerate(lines, 1):
        try:
            answer = shell.obey(line) if line.strip() else ''
        except WordError as error:
            print(f'picklestep: {name}, line {number}: {error}', file=sys.stderr)
            return 1
        if answer:
            print_text(answer + '\n')
        if shell.is_over:
            break
    if shell.is_unsaved:
        print('picklestep: the edits were not saved', file=sys.stderr)
    return 0


def _answer(shell: Shell, terminal: Terminal, line: str) -> str:
    """What is shown for a line that is typed. After Ctrl-C the shell is where it was, with its edits."""
    with Waiting() as waiting:
        def ask(question: str) -> bool:
            with waiting.asking():
                return terminal.ask(question)

        shell.ask, shell.pickle.tell = ask, waiting.progress
        try:
            answer = shell.obey(line)
        except WordError as error:
            answer = str(error)
        except KeyboardInterrupt:
            answer = '^C'
        if not shell.is_over and not shell.is_open:
            waiting.progress('opening it again')
            shell.pickle.reopen()
        return answer


@contextlib.contextmanager
def _dropped_interrupts() -> Iterator[List[str]]:
    """What is to be said of each Ctrl-C that Python drops within it. (One that comes while an object is freed ends nothing.)"""
    said: List[str] = []
    hook = sys.unraisablehook

    def note(dropped: 'sys.UnraisableHookArgs') -> None:
        if isinstance(dropped.exc_value, KeyboardInterrupt):
            said.append('^C (it came too late: the line above is done)')
        else:
            hook(dropped)

    sys.unraisablehook = note
    try:
        yield said
    finally:
        sys.unraisablehook = hook


def _converse(shell: Shell) -> int:
    """Runs lines that are typed."""
    terminal = Terminal(lambda before: completions(shell.pickle, before))
    terminal.show('\n'.join([shell.obey('where'), *shell.hints(), '`help` shows the words.']))
    try:
        with _dropped_interrupts() as dropped:
            while not shell.is_over:
                for line in terminal.lines():
                    try:
                        terminal.show(_answer(shell, terminal, line))
                    except KeyboardInterrupt:  # (while the answer was shown: what is left of it is not)
                        terminal.show('^C')
                    if dropped:
                        terminal.show(dropped[0])
                        dropped.clear()
                    if shell.is_over:
                        break
                else:
                    _answer(shell, terminal, 'quit')
    finally:
        terminal.close()
    return 0
