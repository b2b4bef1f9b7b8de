"""The server of the page: on 127.0.0.1 alone, at a free port, for those who know the token in its address.

It gives the page and the bytes of one pickle, saves what the page has made of them, and draws where the bytes go. All else the page does itself.
"""

from __future__ import annotations

import hmac
import json
import os
import secrets
import sys
import threading
import time
from dataclasses import dataclass
from http import HTTPStatus
from http.server import BaseHTTPRequestHandler, ThreadingHTTPServer
from pathlib import Path
from typing import Any, Callable, ContextManager, Dict, Iterator, Optional, Tuple
from urllib.parse import parse_qs, urlsplit

from ..addresses import is_in
from ..errors import PicklestepError, ProgramError
from ..patterns import pattern
from ..saving import written_whole
from ..sources import LIMIT, Input, Source
from ..wording import shown

__all__ = ['IDLE', 'Served', 'Viewer']

# After this many seconds without a word from a page the server ends. (A page in the background speaks once a minute.)
IDLE = 150.0
# After a page was closed it waits for others, which may speak but once a minute.
_CLOSED = 75.0
_PACKAGE = Path(__file__).parent.parent
_NAME = 'picklestep.html'
# The page has a policy of its own, which forbids all requests; from here it may ask this server.
_OWN_POLICY = pattern('<meta http-equiv="Content-Security-Policy" content="([^"]*)">')
_POLICY = "default-src 'none'; base-uri 'none'; form-action 'none'; frame-ancestors 'none'"
_HEADERS = {'X-Content-Type-Options': 'nosniff', 'Referrer-Policy': 'same-origin', 'Cache-Control': 'no-store', 'Cross-Origin-Resource-Policy': 'same-origin',
            'Cross-Origin-Opener-Policy': 'same-origin'}
_NOT_SERVED = '<script id="served" type="application/json">null</script>'
_LENGTH = pattern('[0-9]{1,10}')
_BLOCK = 1 << 20


@dataclass(frozen=True)
class Served:
    """A pickle that a page shows: its bytes, which can be read again, and how they are read. `container` is the file that it was opened in, if it
    was: that is not written over."""

    source: Source
    name: str
    many: bool = False
    unframed: bool = False
    whole: bool = False
    lesson: str = ''
    container: str = ''

    def said(self) -> str:
        """What the page is told, as a text that can stand in a page."""
        fields = {name: getattr(self, name) for name in ('name', 'many', 'unframed', 'whole', 'lesson')}
        return json.dumps(fields).replace('<', '\\u003c')


def page() -> str:
    """The page: the package's own copy, or that of the source tree. Raises ProgramError where there is none."""
    for path in (_PACKAGE / 'bin' / _NAME, _PACKAGE.parent.parent / 'dist' / _NAME):
        if path.is_file():
            return path.read_text(encoding='utf-8')
    raise ProgramError(f'there is no {_NAME}: make it by ./release --page in a clone')


def page_of(served: Served) -> Tuple[str, bytes]:
    """The page of a pickle, and its policy."""
    text = page()
    found = _OWN_POLICY.search(text)
    if found is None or _NOT_SERVED not in text:
        raise ProgramError(f'{_NAME} is of another version: make it by ./release --page in a clone')
    policy = f"{found[1]}; connect-src 'self'"
    text = text.replace(found[1], policy, 1).replace(_NOT_SERVED, _NOT_SERVED.replace('null', served.said()), 1)
    return f"{policy}; frame-ancestors 'none'", text.encode('utf-8')


class Viewer(ContextManager['Viewer']):
    """Serves the page of a pickle until it is closed, or until no page was open for a while."""

    def __init__(self, served: Served, idle: float = IDLE) -> None:
        self.served = served
        self.policy, self.page = page_of(served)
        self.token = secrets.token_urlsafe(24)
        self.lock = threading.Lock()
        self._idle = idle
        self._until = time.monotonic() + idle
        self._is_stopped = False
        self._server = _Server(('127.0.0.1', 0), _Handler)
        self._server.viewer = self
        self.host = f'127.0.0.1:{self._server.server_address[1]}'
        self.address = f'http://{self.host}/{self.token}/'

    def serve(self) -> None:
        """Serves until no page was open for a while."""
        self.heard()  # (to start a browser may have taken long)
        self._server.timeout = 0.2
        while not self._is_stopped and time.monotonic() < self._until:
            self._server.handle_request()

    def stop(self) -> None:
        """Ends `serve`, which may run in another thread."""
        self._is_stopped = True

    def __exit__(self, *error: object) -> None:
        self._server.server_close()

    def heard(self, seconds: Optional[float] = None) -> None:
        """Reports that a page is open, or that it was closed."""
        self._until = time.monotonic() + (self._idle if seconds is None else min(seconds, self._idle))


class _Server(ThreadingHTTPServer):
    """The server, whose threads do not outlive it."""

    daemon_threads = True
    block_on_close = False
    viewer: Viewer

    def handle_error(self, request: Any, client_address: Any) -> None:
        """Says nothing of a browser that went away in the middle of a request."""
        if not isinstance(sys.exc_info()[1], ConnectionError):
            super().handle_error(request, client_address)


class _Handler(BaseHTTPRequestHandler):
    """Answers a request, where it comes from the page."""

    protocol_version = 'HTTP/1.1'
    server_version = 'picklestep'
    sys_version = ''
    timeout = 60
    # Headers and body go out together: apart, the second would wait for the browser to confirm the first.
    wbufsize = -1
    disable_nagle_algorithm = True

    def do_GET(self) -> None:
        """Gives the page, or the bytes of the pickle."""
        word = self._word()
        if word is None or self.headers.get('Origin', self._origin()) != self._origin():
            self._refuse(403, b'refused\n')
        elif word == '':
            self.viewer.heard()
            self._send(200, 'text/html; charset=utf-8', self.viewer.page)
        elif word == 'pickle':
            self.viewer.heard()
            self._send_pickle()
        else:
            self._refuse(404, b'no such page\n')

    do_HEAD = do_GET

    def do_POST(self) -> None:
        """Does what the page asks for with the bytes that it sends."""
        word = self._word()
        length = self.headers.get('Content-Length', '')
        if word is None or self.headers.get('Origin') != self._origin():
            self._refuse(403, b'refused\n')
        elif word not in _ANSWERS:
            self._refuse(404, b'no such question\n')
        elif not _LENGTH.fullmatch(length) or int(length) > LIMIT:
            self._refuse(413, b'too long\n')
        else:
            self._answer(_ANSWERS[word], _Body(self.rfile, int(length)))

    def _answer(self, act: 'Callable[[Viewer, Dict[str, str], _Body], Dict[str, Any]]', body: '_Body') -> None:
        """Refusals and what cannot be done are answered in words."""
        asked = {name: values[-1] for name, values in parse_qs(urlsplit(self.path).query).items()}
        try:
            answer = act(self.viewer, asked, body)
        except FileExistsError:
            answer = {'said': 'not saved: there is such a file', 'failed': True}
        except ConnectionError:
            raise
        except (PicklestepError, OSError, ValueError, OverflowError, RecursionError) as error:
            answer = {'said': f'not done: {error}', 'failed': True}
        except MemoryError:
            answer = {'said': 'not done: out of memory', 'failed': True}
        for _ in body.blocks():  # (a browser takes no answer before it has sent all)
            pass
        self._send(200, 'application/json', json.dumps(answer, separators=(',', ':')).encode('ascii'))

    @property
    def viewer(self) -> Viewer:
        assert isinstance(self.server, _Server)
        return self.server.viewer

    def _origin(self) -> str:
        return f'http://{self.viewer.host}'

    def _word(self) -> Optional[str]:
        """What is asked for, where the host and the token are ours."""
        path = self.path.partition('?')[0]
        _, token, *rest = [*path.split('/', 2), '']
        host = self.headers.get('Host', '')
        if host != self.viewer.host or not hmac.compare_digest(token.encode(), self.viewer.token.encode()):
            return None
        return rest[0] if '/' in path[1:] else 'none'

    def send_error(self, code: int, message: Optional[str] = None, explain: Optional[str] = None) -> None:
        """Refuses what is no request of the page, such as a method that there is not, in the server's own words."""
        if code == HTTPStatus.NOT_IMPLEMENTED and self._word() is None:
            self._refuse(403, b'refused\n')
        else:
            self._refuse(code, b'no such request\n')

    def _refuse(self, status: int, text: bytes) -> None:
        """Refuses a request, of which a part may not have been read."""
        self.close_connection = True
        self._send(status, 'text/plain; charset=utf-8', text)

    def _send(self, status: int, kind: str, body: bytes) -> None:
        self._send_head(status, kind, len(body))
        if self.command != 'HEAD':
            self.wfile.write(body)

    def _send_head(self, status: int, kind: str, size: int) -> None:
        self.request_version = self.protocol_version  # (to a request without a version no headers would be sent)
        self.send_response(status)
        policy = self.viewer.policy if kind.startswith('text/html') else _POLICY
        for name, value in {'Content-Security-Policy': policy, **_HEADERS, 'Content-Type': kind, 'Content-Length': str(size)}.items():
            self.send_header(name, value)
        if self.close_connection:
            self.send_header('Connection', 'close')
        self.end_headers()

    def _send_pickle(self) -> None:
        """Gives the bytes of the pickle. Where they became fewer meanwhile, the connection ends, which the browser takes for an error."""
        try:
            opened = Input(self.viewer.served.source)
        except OSError:
            self._refuse(404, b'the pickle cannot be read\n')
            return
        with opened as given:
            left = given.size()
            self._send_head(200, 'application/octet-stream', left)
            if self.command == 'HEAD':
                return
            for block in given.blocks(0):
                self.wfile.write(block[:left])
                left -= min(left, len(block))
        self.close_connection = self.close_connection or left > 0

    def log_message(self, format: str, *words: Any) -> None:
        """Says nothing on standard error."""


class _Body:
    """The bytes that come with a request."""

    def __init__(self, file: Any, size: int) -> None:
        self._file, self._left = file, size

    def blocks(self) -> Iterator[bytes]:
        """Those that are not read yet, some at a time. Raises ConnectionError where the browser goes away."""
        while self._left:
            block = self._file.read(min(self._left, _BLOCK))
            if not block:
                raise ConnectionResetError
            self._left -= len(block)
            yield block


# --- What the page asks for ---

def _alive(viewer: Viewer, asked: Dict[str, str], body: _Body) -> Dict[str, Any]:
    viewer.heard()
    return {}


def _closed(viewer: Viewer, asked: Dict[str, str], body: _Body) -> Dict[str, Any]:
    viewer.heard(_CLOSED)
    return {}


def _save(viewer: Viewer, asked: Dict[str, str], body: _Body) -> Dict[str, Any]:
    """Writes what the page sends. A file that is there is written over only where that is asked for."""
    name, container = asked.get('name', ''), viewer.served.container
    if not name.strip():
        raise ValueError('a name is wanted')
    path = Path(os.path.abspath(os.path.expanduser(name)))
    if is_in(str(path), container) or is_in(name, container):
        raise ValueError(f'cannot write {shown(name)}: nothing is written into a container')
    is_new = asked.get('over') != 'true'
    with viewer.lock:
        if is_new:
            os.close(os.open(path, os.O_WRONLY | os.O_CREAT | os.O_EXCL, 0o666))
        try:
            with written_whole(path) as file:
                file.writelines(body.blocks())
        except BaseException:
            if is_new:
                path.unlink()
            raise
    return {'said': f'saved {path}'}


def _sizes(viewer: Viewer, asked: Dict[str, str], body: _Body) -> Dict[str, Any]:
    from .sizes import sizes_shown  # (most pages never ask for it)
    with viewer.lock:
        return sizes_shown(b''.join(body.blocks()), asked.get('many') == 'true', asked.get('unframed') == 'true',
                           int(asked.get('width', '0')), int(asked.get('height', '0')))


_ANSWERS: Dict[str, Callable[[Viewer, Dict[str, str], _Body], Dict[str, Any]]] = {'alive': _alive, 'closed': _closed, 'save': _save, 'sizes': _sizes}
