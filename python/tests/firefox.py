"""A headless Firefox, driven over the WebSocket of its remote-debugging protocol (WebDriver BiDi)."""

from __future__ import annotations

import base64
import json
import os
import re
import secrets
import shutil
import signal
import socket
import struct
import subprocess
import tempfile
import time
from pathlib import Path
from typing import Any, Dict, List

from chromium import BrowserError, Page

PROGRAM = next((path for path in map(shutil.which, ('firefox-esr', 'firefox')) if path), None)
KEYS = {'ArrowRight': '\ue014', 'ArrowLeft': '\ue012', 'ArrowDown': '\ue015', 'ArrowUp': '\ue013', 'Home': '\ue011', 'End': '\ue010',
        'PageUp': '\ue00e', 'PageDown': '\ue00f', 'Enter': '\ue007', 'Delete': '\ue017', 'Tab': '\ue004', 'Escape': '\ue00c'}
_SECONDS = 600


class _Socket:
    """A WebSocket to this machine: whole messages of text, one after another."""

    def __init__(self, port: int) -> None:
        self._socket = socket.create_connection(('127.0.0.1', port), _SECONDS)
        key = base64.b64encode(secrets.token_bytes(16)).decode('ascii')
        self._socket.sendall(f'GET /session HTTP/1.1\r\nHost: 127.0.0.1:{port}\r\nUpgrade: websocket\r\nConnection: Upgrade\r\n'
                             f'Sec-WebSocket-Key: {key}\r\nSec-WebSocket-Version: 13\r\n\r\n'.encode('ascii'))
        self._file = self._socket.makefile('rb')
        while self._file.readline().strip():
            pass

    def send(self, text: str) -> None:
        """Sends a message in one frame, with the mask that a client has to use."""
        data, mask = text.encode('utf-8'), secrets.token_bytes(4)
        masked = bytes(byte ^ mask[at % 4] for at, byte in enumerate(data))
        self._socket.sendall(b'\x81' + _masked_size(len(data)) + mask + masked)

    def receive(self) -> str:
        """The next message."""
        parts = []
        while True:
            first, size = struct.unpack('>BB', self._exactly(2))
            if size > 125:
                size = int.from_bytes(self._exactly(2 if size == 126 else 8), 'big')
            part = self._exactly(size)
            if first & 15 < 3:  # (not a word about the connection itself)
                parts.append(part)
                if first & 128:
                    return b''.join(parts).decode('utf-8')

    def _exactly(self, size: int) -> bytes:
        data = self._file.read(size)
        if len(data) < size:
            raise BrowserError('the browser ended')
        return data

    def close(self) -> None:
        """Ends the connection."""
        self._file.close()
        self._socket.close()


def _masked_size(size: int) -> bytes:
    """The size of a frame, in as few bytes as it can have."""
    if size < 126:
        return struct.pack('>B', 0x80 | size)
    return struct.pack('>BH', 0xfe, size) if size < 1 << 16 else struct.pack('>BQ', 0xff, size)


class Firefox(Page):
    """A browser with one page, which is asked as the Chromium of the other tests is."""

    def __init__(self, width: int = 1280, height: int = 800) -> None:
        assert PROGRAM is not None
        self._profile = tempfile.mkdtemp(prefix='picklestep-firefox-')
        command = [PROGRAM, '--headless', '--remote-debugging-port=0', '--no-remote', '--profile', self._profile]
        self._errors = Path(self._profile, 'stderr')
        with self._errors.open('wb') as errors:
            self._process = subprocess.Popen(command, stdin=subprocess.DEVNULL, stdout=subprocess.DEVNULL, stderr=errors, start_new_session=True)
        self._number = 0
        self.told: List[Dict[str, Any]] = []
        try:
            self._socket = _Socket(self._port())
            self.call('session.new', capabilities={})
            self._page = str(self.call('browsingContext.getTree')['contexts'][0]['context'])
            self.call('session.subscribe', events=['log.entryAdded', 'network.beforeRequestSent'])
            self.size(width, height)
        except BaseException:
            self._end()
            raise

    def _port(self) -> int:
        """Where it listens, which it says once it has started."""
        deadline = time.monotonic() + _SECONDS
        while time.monotonic() < deadline and self._process.poll() is None:
            match = re.search(rb'WebDriver BiDi listening on ws://127\.0\.0\.1:([0-9]+)\n', self._errors.read_bytes())
            if match is not None:
                return int(match[1])
            time.sleep(0.05)
        raise BrowserError(f'the browser does not listen: {self._errors.read_text(errors="replace")[-300:]}')

    def call(self, method: str, **words: Any) -> Dict[str, Any]:
        """Asks the browser, and answers what it answers."""
        self._number += 1
        self._socket.send(json.dumps({'id': self._number, 'method': method, 'params': words}))
        while True:
            told = json.loads(self._socket.receive())
            if told.get('id') == self._number:
                if told['type'] == 'error':
                    raise BrowserError(told['message'])
                return dict(told['result'])
            self.told.append(told)

    def size(self, width: int, height: int) -> None:
        """Sets the size of the page."""
        self.call('browsingContext.setViewport', context=self._page, viewport={'width': width, 'height': height})

    def go(self, address: str) -> None:
        """Opens a page."""
        self.call('browsingContext.navigate', context=self._page, url=address, wait='complete')

    def js(self, text: str) -> Any:
        answer = self.call('script.evaluate', expression=f'(async () => JSON.stringify((await ({text})) ?? null))()', awaitPromise=True,
                           target={'context': self._page})
        if answer['type'] == 'exception':
            raise BrowserError(answer['exceptionDetails']['text'])
        return json.loads(answer['result']['value'])

    def key(self, key: str) -> None:
        """Presses a key."""
        pressed = [{'type': kind, 'value': KEYS.get(key, key)} for kind in ('keyDown', 'keyUp')]
        self.call('input.performActions', context=self._page, actions=[{'type': 'key', 'id': 'keys', 'actions': pressed}])

    def choose(self, selector: str, path: Path) -> None:
        """Chooses a file."""
        found = self.call('browsingContext.locateNodes', context=self._page, locator={'type': 'css', 'value': selector})['nodes'][0]
        self.call('input.setFiles', context=self._page, element={'sharedId': found['sharedId']}, files=[str(path)])

    def screenshot(self, path: Path) -> None:
        """Writes what the page looks like."""
        path.write_bytes(base64.b64decode(self.call('browsingContext.captureScreenshot', context=self._page)['data']))

    def requested(self) -> List[str]:
        """What the browser asked for."""
        return [told['params']['request']['url'] for told in self.told if told.get('method') == 'network.beforeRequestSent']

    def errors(self) -> List[str]:
        """What the page's script or its policy complained of."""
        return [str(told['params']['text']) for told in self.told if told.get('method') == 'log.entryAdded' and told['params']['level'] == 'error']

    def close(self) -> None:
        """Ends the browser, and takes its files away."""
        self._socket.close()
        self._end()

    def _end(self) -> None:
        os.killpg(self._process.pid, signal.SIGKILL)
        self._process.wait()
        shutil.rmtree(self._profile, ignore_errors=True)
