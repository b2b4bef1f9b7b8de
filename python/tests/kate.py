"""Kate with its debugger plugin, as far as the tests of `picklestep dap` need it: keys are pressed, lines are typed into the command line of the
debugger, and what the plugin and the adapter say is read.

Kate shows its window on a screen of Qt's own, which sends and takes what VNC does: it takes the keys, and nobody looks at it. Anybody who reaches this
machine could press keys, too, while the test runs, so Kate runs without those of its plugins that start programs of the user.
"""

from __future__ import annotations

import json
import os
import re
import socket
import struct
import subprocess
import sys
import time
from pathlib import Path
from typing import Any, Callable, Dict, List, Optional, Sequence

__all__ = ['Kate']

_PATIENCE = 120  # seconds
_AGAIN = 5  # (seconds after which a key is pressed again that Kate was not ready for)
# A blank behind a line: so no line begins like another one, and Kate offers none to be completed. (Where it did, keys were lost on this screen.)
_BLANK = 0xa0
_TURNS = 4  # (so often Kate takes what has come before it has done what this leads to)
# Keys as X has them. (A letter is its own.)
_CONTROL, _ALT = 0xffe3, 0xffe9
_HEAD = re.compile(rb'Content-Length: ([0-9]+)\r\n\r\n')
_KEYS = {'Up': 0xff52, 'Down': 0xff54, 'Home': 0xff50, 'Return': 0xff0d, 'Escape': 0xff1b}
# The words of the plugin's menu, and the letter that each gets here, with Ctrl and Alt.
_LETTERS = {'debug': 'A', 'kill': 'D', 'toggle_breakpoint': 'F', 'step_in': 'G', 'step_over': 'H', 'step_out': 'J', 'move_pc': 'K', 'continue': 'L'}
_VERSION = 9  # (Kate takes the newer one of this file and its own, which is 2)
# What the adapter and the plugin say goes by here, and is written down once the other one has it.
_ADAPTER = """import subprocess, sys, threading
adapter = subprocess.Popen({words!r}, stdin=subprocess.PIPE, stdout=subprocess.PIPE)
def pass_on(source, target, path):
    with open(path, 'wb', buffering=0) as log:
        while block := source.read1():
            target.write(block)
            target.flush()
            log.write(block)
    target.close()
asking = threading.Thread(target=pass_on, args=(sys.stdin.buffer, adapter.stdin, {asked!r}), daemon=True)
asking.start()
pass_on(adapter.stdout, sys.stdout.buffer, {said!r})
"""


class _Screen:
    """A screen as VNC has it: it takes keys, and says when they are taken."""

    def __init__(self, port: int, is_running: Callable[[], bool]) -> None:
        self._socket = self._connected(port, is_running)
        self._reader = self._socket.makefile('rb')
        self._socket.sendall(self._read(12))  # (the version of the protocol)
        self._read(4)  # (nobody is asked for a password)
        self._socket.sendall(b'\1')
        head = self._read(24)
        self._read(int.from_bytes(head[20:], 'big'))
        self._socket.sendall(b'\0\0\0\0' + head[4:20] + struct.pack('>BxHi', 2, 1, 0))  # (pixels as they are)
        self._pixel = head[4] // 8

    @staticmethod
    def _connected(port: int, is_running: Callable[[], bool]) -> socket.socket:
        deadline = time.monotonic() + _PATIENCE
        while True:
            try:
                return socket.create_connection(('127.0.0.1', port), timeout=_PATIENCE)
            except OSError:
                if time.monotonic() > deadline or not is_running():
                    raise AssertionError('Kate has not started') from None
                time.sleep(0.1)

    def _read(self, count: int) -> bytes:
        data = self._reader.read(count)
        assert len(data) == count, 'Kate has ended'
        return data

    def press(self, key: int, *held: int) -> None:
        """Presses a key, while others are held."""
        for is_down, code in [*((1, code) for code in held), (1, key), (0, key), *((0, code) for code in held)]:
            self._socket.sendall(struct.pack('>BBxxI', 4, is_down, code))

    def turn(self) -> None:
        """Waits until what was sent before is taken: a point is asked for, and what is shown anew comes with it."""
        self._socket.sendall(struct.pack('>BBHHHH', 3, 0, 0, 0, 1, 1))
        count, = struct.unpack('>xxH', self._read(4))
        for _ in range(count):
            width, height = struct.unpack('>4xHH4x', self._read(12))
            self._read(width * height * self._pixel)

    def close(self) -> None:
        """Leaves."""
        self._reader.close()
        self._socket.close()


class Kate:
    """A running Kate that has the pickle as its target."""

    def __init__(self, folder: str, pickle: str, adapter: Sequence[str], environment: Dict[str, str]) -> None:
        self._folder = Path(folder)
        self._said, self._asked = self._folder / 'said', self._folder / 'asked'
        self._write_settings(pickle, adapter)
        port = _free_port()
        known = {**environment, 'QT_QPA_PLATFORM': f'vnc:size=800x600:port={port}', 'LC_ALL': 'C.UTF-8', 'DBUS_SESSION_BUS_ADDRESS': 'unix:path=/dev/null'}
        known.update({f'XDG_{name}': str(self._folder / name.lower()) for name in ('CONFIG_HOME', 'DATA_HOME', 'CACHE_HOME', 'RUNTIME_DIR')})
        self._process = subprocess.Popen(['kate', '-n', '-b', '--start', 'dap'], env=known, stdout=subprocess.DEVNULL, stderr=subprocess.DEVNULL)
        self._screen: Optional[_Screen] = None
        try:
            self._screen = _Screen(port, self._is_running)
        except BaseException:
            self.close()
            raise

    def _is_running(self) -> bool:
        return self._process.poll() is None

    def _file(self, name: str, text: str) -> Path:
        path = self._folder / name
        path.parent.mkdir(parents=True, exist_ok=True)
        path.write_text(text, encoding='utf-8')
        return path

    def _write_settings(self, pickle: str, adapter: Sequence[str]) -> None:
        (self._folder / 'runtime_dir').mkdir(mode=0o700)
        passing = self._file('passing.py', _ADAPTER.format(words=list(adapter), said=str(self._said), asked=str(self._asked)))
        request = {'command': 'launch', 'program': '${file}', 'files': True, 'stopOnEntry': True}
        self._file('config_home/kate/gdbplugin/dap.json', json.dumps({'dap': {'picklestep': {
            'run': {'command': [sys.executable, str(passing)]}, 'configurations': {'pickle': {'request': request}}}}}))
        target = {'target': 'pickle', 'debuggerKey': 'picklestep', 'debuggerProfile': 'pickle', 'variables': {'file': pickle}}
        self._file('data_home/kate/sessions/dap.katesession', '\n'.join([
            '[Open MainWindows]', 'Count=1',
            '[Kate Plugins]', 'kategdbplugin=true', 'katekonsoleplugin=false', 'externaltoolsplugin=false', 'lspclientplugin=false',
            '[Plugin:kategdbplugin:MainWindow:0]', 'version=5', 'targetCount=1', 'lastTarget=0', 'alwaysFocusOnInput=true', f'target_0={json.dumps(target)}', '']))
        menu = ''.join(f'<Action name="{name}"/>' for name in _LETTERS)
        keys = ''.join(f'<Action name="{name}" shortcut="Ctrl+Alt+{letter}"/>' for name, letter in _LETTERS.items())
        self._file('data_home/kxmlgui5/kategdb/ui.rc',
                   f'<!DOCTYPE gui>\n<gui name="kategdbplugin" library="kategdbplugin" version="{_VERSION}"><MenuBar><Menu name="debug"><text>Debug</text>'
                   f'{menu}</Menu></MenuBar><ActionProperties scheme="Default">{keys}</ActionProperties></gui>\n')

    # --- Keys ---

    def press(self, *names: str) -> None:
        """Presses keys, or the keys of words of the menu."""
        assert self._screen is not None
        for name in names:
            held = (_CONTROL, _ALT) if name in _LETTERS else ()
            self._screen.press(ord(_LETTERS[name].lower()) if held else _KEYS[name], *held)

    def _type(self, line: str) -> None:
        """Types a line into the command line of the debugger, where Kate leads the keys after each stop."""
        assert self._screen is not None
        self._screen.press(_BLANK)
        self.press('Home')
        for letter in line:
            self._screen.press(ord(letter))
        self.press('Return')

    def _settle(self) -> None:
        """Waits until Kate has taken what the adapter has said, and listens to the keys again."""
        assert self._screen is not None
        for _ in range(_TURNS):
            self._screen.turn()

    # --- What Kate does ---

    def start(self) -> None:
        """Starts the adapter, and waits until it has read the pickle."""
        deadline = time.monotonic() + _PATIENCE
        while not self._asked.exists():
            self.press('debug')
            again = time.monotonic() + _AGAIN
            while not self._asked.exists() and time.monotonic() < again:
                time.sleep(0.1)
            assert time.monotonic() < deadline, 'Kate does not start the adapter'
        self.wait(lambda said: any(each.get('event') == 'initialized' for each in said))
        self._settle()

    def asked(self) -> List[Dict[str, Any]]:
        """What the plugin has asked so far."""
        return _messages(self._asked.read_bytes())

    def wait(self, is_there: Callable[[List[Dict[str, Any]]], bool]) -> List[Dict[str, Any]]:
        """What the adapter has said, once something is there."""
        deadline = time.monotonic() + _PATIENCE
        while True:
            said = _messages(self._said.read_bytes()) if self._said.exists() else []
            if is_there(said):
                return said
            assert time.monotonic() < deadline and self._is_running(), said[-3:]
            time.sleep(0.02)

    def _answered(self, command: str, act: Callable[[], None]) -> Dict[str, Any]:
        """What the adapter answers to a request that Kate makes of an act."""
        before = len(self.wait(lambda said: True))
        act()
        said = self.wait(lambda said: any(each.get('command') == command for each in said[before:]))
        self._settle()
        return next(each for each in said[before:] if each.get('command') == command)

    def _stopped(self, act: Callable[[], None]) -> 'tuple[str, int]':
        """Why and in which line it stops after an act, once Kate shows that."""
        before = len(self.wait(lambda said: True))
        act()

        def is_shown(said: List[Dict[str, Any]]) -> bool:
            new = said[before:]
            at = next((at for at, each in enumerate(new) if each.get('event') == 'stopped'), len(new))
            answered = [each.get('command') for each in new[at:]]
            return 'stackTrace' in answered and 'threads' in answered[answered.index('stackTrace'):]  # (so Kate asks where it has stopped)

        new = self.wait(is_shown)[before:]
        self._settle()
        reason = next(each['body']['reason'] for each in new if each.get('event') == 'stopped')
        line = [each['body']['stackFrames'][0]['line'] for each in new if each.get('command') == 'stackTrace'][-1]
        return reason, line

    def go(self, *names: str) -> 'tuple[str, int]':
        """Why and in which line it stops after keys were pressed."""
        return self._stopped(lambda: self.press(*names))

    def walk(self, line: str) -> 'tuple[str, int]':
        """Why and in which line it stops after a line was typed."""
        return self._stopped(lambda: self._type(line))

    def say(self, line: str) -> str:
        """What the adapter answers to a line behind `print`."""
        answer = self._answered('evaluate', lambda: self._type(f'print {line}'))
        text: str = answer['body']['result'] if answer['success'] else answer['message']
        return text

    def set_breakpoint(self, line: str = '') -> List[Dict[str, Any]]:
        """The breakpoints of the listing, as the adapter has them after a line was typed, or the one in the line of the text cursor was set."""
        answer = self._answered('setBreakpoints', (lambda: self._type(line)) if line else (lambda: self.press('toggle_breakpoint')))
        found: List[Dict[str, Any]] = answer['body']['breakpoints']
        return found

    def close(self) -> None:
        """Ends it."""
        if self._screen is not None:
            self._screen.close()
        self._process.kill()  # (it would ask what is to become of the session)
        self._process.wait()


def _free_port() -> int:
    with socket.create_server(('127.0.0.1', 0)) as server:
        port: int = server.getsockname()[1]
        return port


def _messages(data: bytes) -> List[Dict[str, Any]]:
    """The messages that have come whole."""
    found = []
    while (head := _HEAD.match(data)) is not None and head.end() + int(head[1]) <= len(data):
        end = head.end() + int(head[1])
        found.append(json.loads(data[head.end():end]))
        data = data[end:]
    return found
