"""Looks at new values of a Redis server as they come: by its keyspace events, or at the end of a stream.

Nothing is taken out of a queue, and no setting of the server is changed. A value that is gone before it is looked at leaves no line.
"""

from __future__ import annotations

import time
from collections import OrderedDict
from fnmatch import fnmatchcase
from itertools import count
from typing import TYPE_CHECKING, Any, Callable, Generator, Iterator, List, Optional, Tuple

from ..results import Result
from .address import Address
from .redis_server import RedisServer
from .server import NoServer, Server, Wanted, ask_again, looked, server_of
from .values import Values, key_name

if TYPE_CHECKING:
    from ..looking import Options

__all__ = ['follow']

# Events after which a key has nothing new.
_TAKING = frozenset('del unlink expire expired evicted persist lpop rpop lrem ltrim srem spop zrem zremrangebyscore zremrangebyrank '
                    'zremrangebylex zpopmin zpopmax hdel xtrim xdel rename_from move_from'.split())
# Of a list or a stream so many of the newest elements are looked at, and as many before them where one of these is new.
_NEWEST = 64
_MOST_PAGES = 1_000
_TOGETHER = 250
_MOST_SEEN = 100_000
_LONGEST_PAUSE = 30.0
_WAIT_SECONDS = 1.0

# What a server has to send: the events of keys (E) of all kinds (A).
_KINDS = 'g$lshzt'

Look = Callable[[RedisServer, Values], None]


class Seen:
    """The values that were looked at last. An event names a key and not what is new in it."""

    def __init__(self) -> None:
        self._values: 'OrderedDict[int, None]' = OrderedDict()

    def is_new(self, content: bytes, where: Tuple[str, ...]) -> bool:
        """Whether such a value at such a key was not there before, which it is from now on."""
        value = hash((where[0], content))
        if value in self._values:
            self._values.move_to_end(value)
            return False
        self._values[value] = None
        if len(self._values) > _MOST_SEEN:
            self._values.popitem(last=False)
        return True


def follow(address: Address, options: 'Options', wanted: Wanted) -> Generator[Result, None, None]:
    """A result for each key with a new value, without end. Where the connection is lost, a result says so and it is tried again.

    Raises NoServer where it cannot begin.
    """
    seen, pause = Seen(), 0.0
    server = server_of(address)
    if not isinstance(server, RedisServer):
        raise NoServer('only redis:// and rediss:// can be followed')
    news: Optional[Iterator[Look]] = _news(server, address, wanted)
    while True:
        try:
            news = news or _news(server, address, wanted)
            look = next(news)
            pause = 0.0
            ask_again(address)
            yield from _looked(address, options, look, seen)
        except NoServer as error:
            if not pause:
                yield Result(str(address), error=address.cleaned(f'{error}: what comes meanwhile is not looked at'), keys=1)
            pause = min(_LONGEST_PAUSE, 2 * pause or 1.0)
            time.sleep(pause)
            news = None


def _looked(address: Address, options: 'Options', look: Look, seen: Seen) -> Iterator[Result]:
    def work(server: Server, values: Values) -> int:
        assert isinstance(server, RedisServer)
        values.is_new = seen.is_new
        with server.named():
            look(server, values)
        return 1

    result = looked(address, options, work)
    if result.pickles or result.plain or result.notes or result.others or result.error is not None:
        yield result


def _news(server: RedisServer, address: Address, wanted: Wanted) -> Iterator[Look]:
    """What is to be looked at, as it comes. Raises NoServer where nothing can come."""
    stream = address.asked.get('stream')
    return _of_stream(server, stream.encode('utf-8', 'surrogateescape')) if stream is not None else _of_events(server, wanted)


def _of_stream(server: RedisServer, name: bytes) -> Iterator[Look]:
    with server.named():
        newest = server.client.execute_command('XREVRANGE', name, '+', '-', 'COUNT', 1)
    return _behind(server, name, newest[0][0] if newest else b'0-0')


def _behind(server: RedisServer, name: bytes, last: bytes) -> Iterator[Look]:
    while True:
        with server.named():
            found = server.client.execute_command('XRANGE', name, b'(' + last, '+', 'COUNT', _NEWEST)
        if found:
            last = found[-1][0]
            yield lambda server, values, found=found: server.look_at_entries(values, (key_name(name),), found)  # type: ignore[misc]
        else:
            time.sleep(_WAIT_SECONDS / 4)


def _of_events(server: RedisServer, wanted: Wanted) -> Iterator[Look]:
    return _with_events(server, _listening(server), wanted)


def _with_events(server: RedisServer, events: Any, wanted: Wanted) -> Iterator[Look]:
    try:
        while True:
            for event, key in _waiting(server, events):
                if wanted.match is None or fnmatchcase(key.decode('utf-8', 'surrogateescape'), wanted.match):
                    yield _look_at(event, key)
    finally:
        events.close()


def _listening(server: RedisServer) -> Any:
    """A subscription to the events of the database. Raises NoServer where the server sends none."""
    with server.named():
        try:
            sends = next(iter(server.client.config_get('notify-keyspace-events').values()), '')
        except server.redis.ResponseError:
            sends = 'EA'  # (who may not ask may still listen)
        sends = sends.decode() if isinstance(sends, bytes) else sends
        if 'E' not in sends or 'A' not in sends and not set(_KINDS) <= set(sends):
            raise NoServer(f'its keyspace events are off (they are {sends!r}). Who runs it turns them on: '
                           'redis-cli config set notify-keyspace-events EA')
        events = server.client.pubsub(ignore_subscribe_messages=True)
        number = server.client.connection_pool.connection_kwargs.get('db', 0)
        events.psubscribe(f'__keyevent@{number}__:*')
        return events


def _waiting(server: RedisServer, events: Any) -> List[Tuple[str, bytes]]:
    """The events that came, a key once."""
    found: 'OrderedDict[bytes, str]' = OrderedDict()
    with server.named():
        message: Optional[Any] = events.get_message(timeout=_WAIT_SECONDS)
        while message is not None:
            event = message['channel'].decode('utf-8', 'backslashreplace').partition(':')[2]
            if event not in _TAKING:
                found[message['data']] = event
            if len(found) >= _TOGETHER:
                break
            message = events.get_message(timeout=0)
    return [(event, key) for key, event in found.items()]


def _look_at(event: str, key: bytes) -> Look:
    where = (key_name(key),)

    def look(server: RedisServer, values: Values) -> None:
        if event in ('lpush', 'rpush'):
            _look_at_newest(values, where, _from_end(server.client, key, event == 'lpush'), lambda page: _add_all(values, where, page))
        elif event == 'xadd':
            _look_at_newest(values, where, _entries(server.client, key), lambda page: server.look_at_entries(values, where, page))
        else:
            server.look(values, (key,))

    return look


def _add_all(values: Values, where: Tuple[str, ...], page: List[bytes]) -> None:
    for value in page:
        values.add(value, where)


def _look_at_newest(values: Values, where: Tuple[str, ...], pages: Iterator[List[Any]], add: Callable[[List[Any]], None]) -> None:
    """Looks at the newest values, so many at once, until all of a page were there before."""
    for number, page in enumerate(pages):
        if number == _MOST_PAGES:
            values.looker.note(where, f'more than {_MOST_PAGES * _NEWEST:,} values are new: the others are not looked at', missed=True)
            return
        before = values.count
        add(page)
        if values.count == before:
            return


def _from_end(client: Any, key: bytes, is_left: bool) -> Iterator[List[bytes]]:
    """The values of a list from one end on, in pages."""
    for at in count(0, _NEWEST):
        found: List[bytes] = client.lrange(key, at, at + _NEWEST - 1) if is_left else client.lrange(key, -at - _NEWEST, -at - 1)
        yield found
        if len(found) < _NEWEST:
            return


def _entries(client: Any, key: bytes) -> Iterator[List[Any]]:
    """The entries of a stream from its end on, in pages."""
    last = b'+'
    while True:
        found: List[Any] = client.execute_command('XREVRANGE', key, last, '-', 'COUNT', _NEWEST)
        yield found
        if len(found) < _NEWEST:
            return
        last = b'(' + found[-1][0]
