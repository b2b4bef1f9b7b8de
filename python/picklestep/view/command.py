"""The words of `python -m picklestep view`."""

from __future__ import annotations

import argparse
import contextlib
import math
import os
import signal
import sys
import tempfile
import webbrowser
from pathlib import Path
from typing import Iterator, List, Optional

from ..addresses import Opened, check_out, given, other_kinds
from ..document import Document
from ..errors import PicklestepError, ProgramError, reason
from ..opens import is_at_server
from ..saving import is_same_file, naming, written_whole
from ..sources import LIMIT, Input, rereadable
from ..waiting import Waiting
from ..wording import shown
from .export import MOST, write_report
from .server import IDLE, Served, Viewer

__all__ = ['main']

_MOST_LESSON = 1 << 20


def _seconds(text: str) -> float:
    try:
        seconds = float(text)
    except ValueError:
        seconds = math.nan
    if not 0 < seconds < math.inf:
        raise argparse.ArgumentTypeError(f'{text!r} is no number of seconds above 0')
    return seconds


def _parser() -> argparse.ArgumentParser:
    parser = argparse.ArgumentParser(
        prog='picklestep view', description='Shows a pickle in a browser. Nothing of it is run.',
        epilog='Status: 0; 1 if the report of --export does not have all of FILE; 2 if FILE could not be read or OUT.html not written; 130 after '
               'Ctrl-C while it opens or exports.')
    parser.add_argument('file', metavar='FILE', help='the pickle, or its address')
    parser.add_argument('--many', action='store_true', help='FILE has several pickles that follow one another')
    parser.add_argument('--unframed', action='store_true', help='ignore the lengths of frames, so that a pickle that was cut off is read to the cut')
    parser.add_argument('--whole', action='store_true', help='read all of a long pickle before anything is shown')
    parser.add_argument('--export', metavar='OUT.html', type=Path, help='write a report into this page, and end')
    parser.add_argument('--force', action='store_true', help='let --export replace a file that is there')
    parser.add_argument('--no-browser', action='store_true', help='print the address, and open no browser')
    parser.add_argument('--idle', metavar='SECONDS', type=_seconds, default=IDLE, help='end when no open page has asked for anything for this long (%(default)g)')
    return parser


def _export(document: Document, path: Path) -> int:
    with naming(path), written_whole(path, 'utf-8') as file, Waiting():
        count, all_lines = write_report(document, file)
    if count < all_lines:
        print(f'picklestep: {shown(str(path))} has the first {MOST:,} of {all_lines:,} opcodes', file=sys.stderr)
    if document.missing:
        print(f'picklestep: {shown(str(path))} has not all of the file: {"; ".join(document.missing)}', file=sys.stderr)
    return int(bool(document.missing))


def _serve(served: Served, with_browser: bool, idle: float) -> int:
    with contextlib.suppress(KeyboardInterrupt), Viewer(served, idle) as viewer:
        print(f'{viewer.address}\nCtrl-C ends it.', flush=True)
        if not with_browser:
            viewer.serve()
            return 0
        with _leading_to(viewer.address) as path:
            webbrowser.open(path.as_uri())
            viewer.serve()
    return 0


@contextlib.contextmanager
def _leading_to(address: str) -> Iterator[Path]:
    """A page that leads to an address, for as long as it is wanted. Only its owner can read it. A browser that got the address as a word
    would show the token to all who list the processes."""
    with tempfile.TemporaryDirectory(prefix='picklestep-') as folder:
        path = Path(folder) / 'open.html'
        path.write_text(f'<!DOCTYPE html><title>picklestep</title><meta http-equiv="refresh" content="0; url={address}">', encoding='ascii')
        yield path


@contextlib.contextmanager
def _signals_interrupt() -> Iterator[None]:
    """SIGTERM and SIGHUP (which Windows has not) do what Ctrl-C does, so that nothing is left behind."""
    numbers = (signal.SIGTERM, *([signal.SIGHUP] if hasattr(signal, 'SIGHUP') else []))
    before = {number: signal.signal(number, signal.default_int_handler) for number in numbers}
    try:
        yield
    finally:
        for number, handler in before.items():
            signal.signal(number, handler)


def _lesson(path: str) -> str:
    """The lesson that is in a file beside the pickle, if there is one."""
    try:
        return Path(f'{path}.lesson.txt').read_text(encoding='utf-8', errors='replace')[:_MOST_LESSON]
    except (OSError, ValueError):
        return ''


def _name(options: argparse.Namespace, found: Optional[Opened]) -> str:
    """What the pickle is called: the name of its file, and where it is in there."""
    path, rest = (options.file, '') if found is None else (found.path, found.address[len(found.path):])
    return f'{path if is_at_server(path) else os.path.basename(path)}{rest}'


def _served(options: argparse.Namespace) -> Served:
    """The pickle that is shown. Raises PicklestepError or OSError where it cannot be read."""
    pickle, found = given(options.file)
    source = rereadable(pickle)
    with Input(source) as opened:
        if not os.path.isdir(opened.path) and opened.size() > LIMIT:
            raise ProgramError('too large')
        next(opened.blocks(0), b'')
    return Served(source, _name(options, found), options.many, options.unframed, options.whole, _lesson(options.file) if found is None else '',
                  '' if found is None else found.path)


def _reported(options: argparse.Namespace) -> Document:
    """The whole pickle, for a report. Somebody at a terminal is told how far it is."""
    pickle, found = given(options.file)
    with Waiting() as waiting:
        document = Document(pickle, _name(options, found), options.many, waiting.progress, unframed=options.unframed)
    document.container = '' if found is None else found.path
    document.said = other_kinds(options.file) if found is None else list(found.said)
    return document


def _do(options: argparse.Namespace) -> int:
    if options.export is None:
        return _serve(_served(options), not options.no_browser, options.idle)
    if options.export.is_file() and not options.force:
        raise PicklestepError(f'{shown(str(options.export))} is there; with --force it is written over')
    if is_same_file(options.file, str(options.export)):
        raise PicklestepError('OUT.html is FILE, which stays as it is')
    with contextlib.closing(_reported(options)) as document:
        check_out(str(options.export), document.container)
        return _export(document, options.export)


def main(words: Optional[List[str]] = None) -> int:
    """Does what the words say, and answers the status."""
    try:
        options = _parser().parse_args(words)
    except SystemExit as end:
        return int(end.code or 0)
    try:
        with _signals_interrupt():
            return _do(options)
    except KeyboardInterrupt:
        return 130
    except (OSError, PicklestepError) as error:
        why = reason(error) if isinstance(error, BrokenPipeError) else str(error)
        if isinstance(error, OSError) and error.filename == options.file:
            why = f'cannot read {shown(options.file)}: {error.strerror}'
        print(f'picklestep: {why}', file=sys.stderr)
        return 2
