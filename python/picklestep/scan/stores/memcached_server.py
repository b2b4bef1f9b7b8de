"""memcached: all items, through pymemcache. The keys come from the crawler (`lru_crawler metadump`), which stops nobody.

Passwords are not supported: pymemcache has none, and a server with SASL speaks the binary protocol alone, in which the crawler is not asked.
"""

from __future__ import annotations

import re
import socket
import ssl
import time
from contextlib import closing, contextmanager
from typing import Any, Iterator, List, Optional, Sequence, Tuple
from urllib.parse import unquote_to_bytes

from ...patterns import pattern
from .address import Address
from .server import IsSilent, NoServer, Server, Wanted, library
from .values import Values, key_name

__all__ = ['SERVER', 'MemcachedServer']

_PORT = 11_211
_TOGETHER = 100
_CONNECT_SECONDS = 10
_ANSWER_SECONDS = 60
_BUSY_TRIES = 20

_NO_PASSWORDS = 'memcached with a password (SASL, -Y) is not supported'
_MOST_OF_LINE = 8_192

_ITEM = pattern(rb'key=(\S+) .*?\bsize=([0-9]+)')

# The text protocol cannot ask for keys that have these, or are longer than this.
_NOT_ASKED = pattern(rb'[\0-\x20\x7f]')
_MOST_OF_KEY = 250

# So many bytes of values are asked for at once.
_BYTES_TOGETHER = 16 << 20


class MemcachedServer(Server):
    """A memcached server."""

    has_keys = True

    def __init__(self, address: Address) -> None:
        super().__init__(address)
        if address.password or address.split.username:
            raise NoServer(f'a password is given, and {_NO_PASSWORDS}')
        self.place = (address.split.hostname or '127.0.0.1', address.split.port or _PORT)
        self.tls: Optional[ssl.SSLContext] = ssl.create_default_context() if address.split.scheme.lower() == 'memcacheds' else None
        self.library = library('pymemcache.client.base')
        self.seconds = address.seconds(_ANSWER_SECONDS)
        self.client: Any = self.library.Client(self.place, connect_timeout=min(self.seconds, _CONNECT_SECONDS), timeout=self.seconds,
                                               tls_context=self.tls)

    @contextmanager
    def _named(self) -> Iterator[None]:
        """Errors of the library as NoServer."""
        errors = library('pymemcache.exceptions')
        try:
            yield
        except (errors.MemcacheError, OSError) as error:
            self.client.close()
            raise (IsSilent if isinstance(error, socket.timeout) else NoServer)(f'{type(error).__name__}: {error}') from None

    def total(self, wanted: Wanted) -> int:
        with self._named():
            return min(int(self.client.stats().get(b'curr_items', 0)), wanted.sample or (1 << 62))

    def parts(self, wanted: Wanted) -> Iterator[Tuple[Any, ...]]:
        keys: List[bytes] = []
        size = 0
        for count, (key, length) in enumerate(self._items(wanted.match)):
            if count == wanted.sample:
                break
            if keys and (len(keys) == _TOGETHER or size + length > _BYTES_TOGETHER):
                yield tuple(keys)
                keys, size = [], 0
            keys.append(key)
            size += length
        if keys:
            yield tuple(keys)

    def _items(self, match: Optional[str]) -> Iterator[Tuple[bytes, int]]:
        """The keys, each with the size of its item."""
        pattern = None if match is None else _pattern(match)
        with self._named():
            for line in self._dump():
                found = _ITEM.match(line)
                if found is not None:
                    key = unquote_to_bytes(found[1])
                    if pattern is None or pattern.fullmatch(key):
                        yield key, int(found[2])

    def _dump(self) -> Iterator[bytes]:
        """The lines that the crawler writes. It serves one client at a time."""
        for _ in range(_BUSY_TRIES):
            with closing(self._link()) as link:
                link.settimeout(self.seconds)
                link.sendall(b'lru_crawler metadump all\r\n')
                with link.makefile('rb') as lines:
                    first = lines.readline(_MOST_OF_LINE)
                    if not first.startswith(b'BUSY'):
                        yield from _lines(first, lines)
                        return
            time.sleep(0.5)
        raise NoServer('its crawler is busy with somebody else')

    def _link(self) -> socket.socket:
        plain = socket.create_connection(self.place, min(self.seconds, _CONNECT_SECONDS))
        return plain if self.tls is None else self.tls.wrap_socket(plain, server_hostname=self.place[0])

    def keys_named(self, names: Sequence[str]) -> Optional[Tuple[Any, ...]]:
        found = super().keys_named(names)
        return found if found is None else tuple(filter(_is_asked, found))

    def look(self, values: Values, keys: Tuple[Any, ...]) -> int:
        asked = list(filter(_is_asked, keys))
        for key in set(keys) - set(asked):
            values.looker.note((key_name(key),), 'its key cannot be asked for in the text protocol', missed=True)
        with self._named():
            for key, value in self.client.get_many(asked).items():
                values.add(value, (key_name(key),))
        return len(keys)


def _is_asked(key: bytes) -> bool:
    """Whether a key can be asked for in the text protocol."""
    return len(key) <= _MOST_OF_KEY and _NOT_ASKED.search(key) is None


def _lines(first: bytes, lines: Any) -> Iterator[bytes]:
    """The lines up to END. Raises NoServer where they end otherwise."""
    line = first
    while line.rstrip() != b'END':
        if line.startswith(b'CLIENT_ERROR unauthenticated'):
            raise NoServer(f'it wants a password, and {_NO_PASSWORDS}')
        if not line and line is first:
            raise NoServer(f'it closed the connection. (If it wants a password: {_NO_PASSWORDS})')
        if not line.endswith(b'\n') or line.startswith((b'ERROR', b'CLIENT_ERROR', b'SERVER_ERROR')):
            raise NoServer(f'its crawler does not list the keys: {line.decode("latin-1").strip() or "it closed the connection"}')
        yield line
        line = lines.readline(_MOST_OF_LINE)


def _pattern(match: str) -> 're.Pattern[bytes]':
    """A pattern with `*` and `?`, as those of Redis."""
    pieces = (b'.*' if sign == '*' else b'.' if sign == '?' else re.escape(sign.encode('utf-8', 'surrogateescape')) for sign in match)
    return re.compile(b''.join(pieces), re.DOTALL)


SERVER = MemcachedServer
