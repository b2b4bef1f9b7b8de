"""A program at a terminal: lines are typed, and what it shows up to its next prompt is read."""

from __future__ import annotations

import fcntl
import os
import pty
import re
import select
import signal
import subprocess
import sys
import termios
import time
from typing import Dict, List

import picklestep

_PACKAGE = os.path.dirname(os.path.dirname(os.path.abspath(picklestep.__file__)))
# What is told while something takes long, with what wipes it out.
_WAITING = re.compile(r'\r\x1b\[K[^\r\n]* \.\. [0-9]+ s \(Ctrl-C ends it\)(?=\r\x1b\[K)')
_CONTROL = re.compile(r'\x1b\[[0-9;?]*[a-zA-Z]|\x1b[=>]|\r|\x07')


def heed_ctrl_c() -> None:
    """Lets Ctrl-C reach a process, also where who runs the tests ignores it (as what a script starts in the background does)."""
    signal.signal(signal.SIGINT, signal.SIG_DFL)


def _take_terminal() -> None:
    """Makes standard input the terminal of the process, so that Ctrl-C reaches it."""
    heed_ctrl_c()
    fcntl.ioctl(0, termios.TIOCSCTTY, 0)


def shown_at(words: List[str], folder: str, **environment: str) -> 'tuple[int, str]':
    """The status of the package's command at a terminal of its own, and all that it shows there."""
    master, slave = pty.openpty()
    path = os.pathsep.join([_PACKAGE, os.environ.get('PYTHONPATH', '')])
    process = subprocess.Popen([sys.executable, '-m', 'picklestep', *words], stdin=slave, stdout=slave, stderr=slave, cwd=folder,
                               env={**os.environ, 'PYTHONPATH': path, **environment}, start_new_session=True)
    os.close(slave)
    read = b''
    while True:
        try:
            block = os.read(master, 65536)
        except OSError:  # (the end of a terminal's other side)
            break
        if not block:
            break
        read += block
    os.close(master)
    return process.wait(), read.decode('utf-8', 'replace').replace('\r\n', '\n')


class Terminal:
    """The shell at a terminal of its own, with a home of its own for what was typed."""

    def __init__(self, words: List[str], folder: str, **environment: str) -> None:
        self.master, slave = pty.openpty()
        settings = termios.tcgetattr(slave)
        settings[3] &= ~termios.ECHO
        termios.tcsetattr(slave, termios.TCSANOW, settings)
        path = os.pathsep.join([_PACKAGE, os.environ.get('PYTHONPATH', '')])
        known: Dict[str, str] = {**os.environ, 'PYTHONPATH': path, 'XDG_STATE_HOME': folder, 'TERM': 'dumb', 'COLUMNS': '200', **environment}
        self.process = subprocess.Popen([sys.executable, '-m', 'picklestep', 'shell', *words], stdin=slave, stdout=slave, stderr=slave,
                                        cwd=folder, env=known, start_new_session=True, preexec_fn=_take_terminal)
        os.close(slave)
        self.read = ''

    def until(self, *endings: str, seconds: float = 600) -> str:
        """What is shown up to one of these endings, or to the end of the program."""
        deadline = time.monotonic() + seconds
        while True:
            shown = _CONTROL.sub('', _WAITING.sub('', self.read))
            if shown.endswith(endings):
                self.read = ''
                return shown
            if not select.select([self.master], [], [], max(0, deadline - time.monotonic()))[0]:
                raise AssertionError(f'no prompt: {shown[-500:]!r}')
            try:
                block = os.read(self.master, 65536)
            except OSError:
                block = b''
            if not block:
                return shown
            self.read += block.decode('utf-8', 'replace')

    def raw_until(self, text: str, seconds: float = 600) -> str:
        """What is shown up to the line that has a text, with all that a terminal obeys."""
        deadline = time.monotonic() + seconds
        while text not in self.read or '\n' not in self.read.rpartition(text)[2]:
            if not select.select([self.master], [], [], max(0, deadline - time.monotonic()))[0]:
                raise AssertionError(f'nothing more: {self.read[-500:]!r}')
            self.read += os.read(self.master, 65536).decode('utf-8', 'replace')
        shown, self.read = self.read, ''
        return shown

    def type(self, line: str, *endings: str) -> str:
        """What is shown after a line was typed, without the line itself and the prompt."""
        os.write(self.master, line.encode() + b'\n')
        shown = self.until(*(endings or ('(pickle) ',)))
        for ending in endings or ('(pickle) ',):
            shown = shown[:-len(ending)] if shown.endswith(ending) else shown
        first, newline, rest = shown.partition('\n')
        return (rest if first.endswith(line) else shown).rstrip('\n')

    def close(self) -> int:
        """Ends the program where it runs, and answers its status."""
        os.close(self.master)
        try:
            return self.process.wait(600)
        except subprocess.TimeoutExpired:
            self.process.kill()
            return self.process.wait()
