"""Redis: strings, hashes, lists, sets, sorted sets and streams, through redis-py.

The keys come from SCAN, so the server goes on meanwhile.
"""

from __future__ import annotations

import os
import socket
from contextlib import contextmanager
from typing import Any, Dict, Iterator, List, Optional, Sequence, Tuple

from ..blobs import Blob
from ..results import Place
from ..walk import stops_at_end
from .address import Address
from .server import IsSilent, NoServer, Server, Wanted, library
from .values import Values, key_name

__all__ = ['SERVER', 'RedisServer']

# Keys that are asked for at once, and handed out at once.
_SCANNED = 1_000
_TOGETHER = 250

# So much of each string is read at first, and so many bytes of elements at once.
_FIRST = 64 << 10
_PAGE_BYTES = 4 << 20
_MOST_ELEMENTS = 1_000

_CONNECT_SECONDS = 10
_ANSWER_SECONDS = 60

_KINDS = ('hash', 'list', 'set', 'zset', 'stream')


class RedisServer(Server):
    """A database of a Redis server. The password is that of the URL, or REDISCLI_AUTH."""

    has_keys = True

    def __init__(self, address: Address) -> None:
        super().__init__(address)
        self.redis = library('redis')
        number = address.split.path.strip('/')
        if number and not number.isdecimal():
            raise ValueError(f'{number!a} is no number of a database')
        words: Dict[str, Any] = {} if address.password else {'password': os.environ.get('REDISCLI_AUTH') or None}
        if address.split.scheme.lower() == 'rediss':
            words['ssl_check_hostname'] = True  # (older versions of redis-py take any name where nobody says so)
        seconds = address.seconds(_ANSWER_SECONDS)
        self.client = self.redis.Redis.from_url(address.plain, socket_connect_timeout=min(seconds, _CONNECT_SECONDS), socket_timeout=seconds,
                                                **words)
        # (redis-py makes a dictionary of each entry of a stream, and loses fields that come twice)
        self.client.response_callbacks.pop('XRANGE', None)
        self.client.response_callbacks.pop('XREVRANGE', None)

    @contextmanager
    def named(self) -> Iterator[None]:
        """Errors of the library as NoServer."""
        try:
            yield
        except (self.redis.RedisError, OSError, ValueError) as error:
            kind = IsSilent if isinstance(error, (self.redis.TimeoutError, socket.timeout)) else NoServer
            raise kind(f'{type(error).__name__}: {error}') from None

    def total(self, wanted: Wanted) -> int:
        with self.named():
            return min(int(self.client.dbsize()), wanted.sample or (1 << 62))

    def parts(self, wanted: Wanted) -> Iterator[Tuple[Any, ...]]:
        cursor, left = 0, wanted.sample
        while True:
            with self.named():
                cursor, keys = self.client.scan(cursor, match=wanted.match, count=_SCANNED)
            if left is not None:
                keys = keys[:left]
                left -= len(keys)
            for start in range(0, len(keys), _TOGETHER):
                yield tuple(keys[start:start + _TOGETHER])
            if cursor == 0 or left == 0:
                return

    def keys_named(self, names: Sequence[str]) -> Optional[Tuple[Any, ...]]:
        found = super().keys_named(names)
        with self.named():
            # (what is not there would be an empty text)
            return found if found is None else tuple(key for key, is_there in zip(found, self._all(found, _ask_for)) if is_there)

    def look(self, values: Values, keys: Tuple[Any, ...]) -> int:
        with self.named():
            others = []
            for key in keys:
                _look_at_name(values, key, (key_name(key),), 'key')
            for key, answer in zip(keys, self._all(keys, lambda pipe, key: pipe.getrange(key, 0, _FIRST - 1))):
                if isinstance(answer, bytes):
                    self._look_at_string(values, key, answer)
                else:
                    others.append(key)
            for key, kind in zip(others, self._all(others, lambda pipe, key: pipe.type(key))):
                self.look_at_elements(values, key, kind)
        return len(keys)

    def _all(self, keys: Any, ask: Any) -> List[Any]:
        """The answers about several keys, which travel together. An error about one is its answer."""
        if not keys:
            return []
        pipe = self.client.pipeline(transaction=False)
        for key in keys:
            ask(pipe, key)
        answers: List[Any] = pipe.execute(raise_on_error=False)
        return answers

    def _look_at_string(self, values: Values, key: bytes, begin: bytes) -> None:
        where = (key_name(key),)
        if len(begin) < _FIRST:
            values.add(begin, where)
        else:
            values.add_blob(_String(self.client, key), where)

    def look_at_elements(self, values: Values, key: bytes, kind: Any) -> None:
        """Looks at each element of a key that is no string. One that vanished has the kind `none`."""
        name = kind.decode('utf-8', 'backslashreplace') if isinstance(kind, bytes) else 'none'
        where = (key_name(key),)
        if isinstance(kind, Exception):
            values.looker.note(where, f'it cannot be read: {kind}', missed=True)
            return
        if name == 'string':  # (it became one meanwhile)
            values.add_blob(_String(self.client, key), where)
        elif name in _KINDS:
            try:
                getattr(self, f'_look_at_{name}')(values, key, where)
            except self.redis.ResponseError as error:  # (it became something else meanwhile, or may not be read)
                if 'WRONGTYPE' not in str(error):
                    values.looker.note(where, f'it cannot be read: {error}', missed=True)
        elif name != 'none':
            values.looker.note(where, f'{name}: this type of a module is not opened', missed=True)

    def _look_at_hash(self, values: Values, key: bytes, where: Place) -> None:
        for field, value in self.client.hscan_iter(key, count=100):
            values.add(value, where + (key_name(field),))
            _look_at_name(values, field, where + (key_name(field),), 'field')

    def _look_at_set(self, values: Values, key: bytes, where: Place) -> None:
        for value in self.client.sscan_iter(key, count=100):
            values.add(value, where + (f'[{key_name(value[:40])}]',))

    def _look_at_zset(self, values: Values, key: bytes, where: Place) -> None:
        for value, score in self.client.zscan_iter(key, count=100):
            values.add(value, where + (f'[score {score:g}]',))

    def _look_at_list(self, values: Values, key: bytes, where: Place) -> None:
        at, count = 0, 8
        while True:
            found = self.client.lrange(key, at, at + count - 1)
            for number, value in enumerate(found, at):
                values.add(value, where + (f'[{number}]',))
            if len(found) < count:
                return
            at += count
            count = _following(count, sum(map(len, found)))

    def _look_at_stream(self, values: Values, key: bytes, where: Place) -> None:
        least, count = b'-', 8
        while True:
            found = self.client.execute_command('XRANGE', key, least, '+', 'COUNT', count)
            self.look_at_entries(values, where, found)
            if len(found) < count:
                return
            least = _after(found[-1][0])
            count = _following(count, sum(len(part) for _, parts in found for part in parts or ()))

    def look_at_entries(self, values: Values, where: Place, entries: Any) -> None:
        """Looks at entries of a stream: each has a name, and fields with values."""
        for name, parts in entries:
            for field, value in zip((parts or ())[::2], (parts or ())[1::2]):
                place = where + (name.decode('ascii', 'backslashreplace'), key_name(field))
                values.add(value, place)
                _look_at_name(values, field, place, 'field')


def _ask_for(pipe: Any, key: bytes) -> None:
    """Asks whether a key is there."""
    pipe.exists(key)


def _look_at_name(values: Values, name: bytes, where: Place, what: str) -> None:
    """Looks at a name that ends as a pickle does, which most do not."""
    if stops_at_end(name):
        values.add(name, where + (f'(the name of the {what})',))


def _following(count: int, size: int) -> int:
    """How many elements are read next, by the size of the last ones."""
    return max(1, min(_MOST_ELEMENTS, 4 * count, _PAGE_BYTES * count // max(1, size)))


def _after(name: bytes) -> bytes:
    """The least name of an entry after this one. (Redis before 6.2 has no way to say `after`.)"""
    time, _, number = name.partition(b'-')
    return b'%d-%d' % (int(time), int(number) + 1) if int(number) < (1 << 64) - 1 else b'%d-0' % (int(time) + 1)


class _String(Blob):
    """A string that Redis hands out in parts. One that became shorter meanwhile ends earlier."""

    def __init__(self, client: Any, key: bytes) -> None:
        self.client = client
        self.key = key
        self.size = client.strlen(key)

    def read(self, offset: int, count: int) -> bytes:
        if count <= 0 or offset >= self.size:
            return b''
        found: bytes = self.client.getrange(self.key, offset, min(self.size, offset + count) - 1)
        return found


SERVER = RedisServer
