"""Servers as sources of `scan`: which keys there are, and looking at some of them.

The keys are listed by one process and handed out in tasks, as files are. Each process that works has its own connection.
"""

from __future__ import annotations

import threading
from dataclasses import dataclass
from importlib import import_module
from typing import TYPE_CHECKING, Any, Callable, Dict, Iterator, Optional, Sequence, Tuple, Type

from ...errors import PicklestepError
from ..blobs import LimitMet
from ..results import Note, Place, Result
from .address import SERVERS, Address
from .values import Values, key_name

if TYPE_CHECKING:
    from ..looking import Looker, Options

__all__ = ['IsSilent', 'NoServer', 'Server', 'Task', 'Wanted', 'ask_again', 'looked_by', 'server_of', 'tasks', 'total_of']


class NoServer(PicklestepError):
    """A server does not answer, refuses, or went away; or its client library is not installed. The text says which."""


class IsSilent(NoServer):
    """A server let the time for an answer pass. It is not asked again by this process, which would wait as long for each task."""


@dataclass(frozen=True)
class Wanted:
    """Which keys are looked at: those that match a pattern of the server, and so many at most."""

    match: Optional[str] = None
    sample: Optional[int] = None


class Server:
    """A connection to a server.

    `parts` lists what there is. `look` looks at the keys of one part. Both raise NoServer. What was found by then is kept. `has_keys` is set where
    a value is asked for by a key of bytes.
    """

    has_keys = False

    def __init__(self, address: Address) -> None:
        self.address = address

    def total(self, wanted: Wanted) -> int:
        """About how many keys there are, for the progress; 0 where that is not known."""
        return 0

    def parts(self, wanted: Wanted) -> Iterator[Tuple[Any, ...]]:
        """The keys, some at a time."""
        raise NotImplementedError

    def look(self, values: Values, keys: Tuple[Any, ...]) -> int:
        """Looks at the values of some keys, and answers how many keys there were."""
        raise NotImplementedError

    def keys_named(self, names: Sequence[str]) -> Optional[Tuple[Any, ...]]:
        """The keys that places begin with these names, if the server is asked for values by their keys and no other key has such a name. (What is
        written with a backslash may be another byte, and of a long key a place has only the beginning.)"""
        keys = [name.encode('utf-8', 'surrogateescape') for name in names]
        is_plain = self.has_keys and all('\\' not in name and key_name(key) == name for name, key in zip(names, keys))
        return tuple(keys) if is_plain else None

    def narrowed(self, keys: Tuple[Any, ...], wants: Callable[[Place], bool]) -> Optional[Tuple[Any, ...]]:
        """Those of some keys that are wanted by their places. None where none is."""
        return tuple(key for key in keys if wants((key_name(key),))) or None


@dataclass(frozen=True)
class Task:
    """Some keys of a server, to be looked at in any process."""

    address: Address
    keys: Tuple[Any, ...]

    def __str__(self) -> str:
        return str(self.address)

    def look(self, options: 'Options') -> Result:
        """Looks at these keys. Whatever is wrong becomes part of the result."""
        return looked(self.address, options, lambda server, values: server.look(values, self.keys))


def looked(address: Address, options: 'Options', work: Callable[[Server, Values], int]) -> Result:
    """The result of some work on a server."""
    from ..looking import Looker  # (it uses this package)

    return looked_by(Looker(options), address, work)


def looked_by(looker: 'Looker', address: Address, work: Callable[[Server, Values], int]) -> Result:
    """The same by a looker."""
    values = Values(looker)
    keys, error = 0, None
    try:
        keys = work(server_of(address), values)
    except NoServer as failure:
        error = _given_up(address, failure)
    except LimitMet as limit:
        looker.note(looker.at, str(limit), missed=True)
    except Exception as failure:  # a hostile value must not end the others
        looker.note(looker.at, address.cleaned(f'{type(failure).__name__}: {failure}'), missed=True)
    try:
        values.flush()
    except Exception as failure:
        looker.note(looker.at, f'{type(failure).__name__}: {failure}', missed=True)
    return Result(str(address), pickles=tuple(looker.pickles), others=looker.others, notes=tuple(looker.notes), error=error,
                  keys=max(keys, 1), plain=looker.plain)


# The connections of each thread of this process (a worker of a cluster has several).
_held = threading.local()


def _servers() -> Dict[str, Server]:
    servers: Dict[str, Server] = _held.__dict__.setdefault('servers', {})
    return servers


def _silent() -> Dict[str, str]:
    """Why servers are silent, by their URLs."""
    silent: Dict[str, str] = _held.__dict__.setdefault('silent', {})
    return silent


def _given_up(address: Address, failure: NoServer) -> str:
    """Gives a connection up, and answers why. The next task makes another, unless the server is silent."""
    _servers().pop(address.url, None)
    why = address.cleaned(str(failure))
    if isinstance(failure, IsSilent):
        _silent()[address.url] = why
    return why


def ask_again(address: Address) -> None:
    """Lets a silent server be asked again."""
    _silent().pop(address.url, None)


def server_of(address: Address) -> Server:
    """The connection of this process to a server. Raises NoServer."""
    servers = _servers()
    if address.url in _silent():
        raise NoServer(_silent()[address.url])
    if address.url not in servers:
        module = import_module(f'{__package__}.{SERVERS[address.split.scheme.lower()]}')
        kind: Type[Server] = module.SERVER
        try:
            servers[address.url] = kind(address)
        except ValueError as error:
            raise NoServer(f'the address is not right: {error}') from None
    return servers[address.url]


def tasks(address: Address, wanted: Wanted, failed: Callable[[Result], None]) -> Iterator[Task]:
    """All tasks of a server. Where listing the keys fails, or there are none, `failed` gets a result that says so."""
    is_empty = True
    try:
        for keys in server_of(address).parts(wanted):
            is_empty = False
            yield Task(address, keys)
    except NoServer as error:
        failed(Result(str(address), error=_given_up(address, error), keys=1))
        return
    if is_empty:
        left = 'a server without keys' if wanted.match is None else 'a server without keys that match'
        failed(Result(str(address), left=left, notes=(Note((), 'no key of it is looked at', missed=True),), keys=1))


def total_of(address: Address, wanted: Wanted) -> int:
    """How many keys a server has, as far as it says so."""
    try:
        return server_of(address).total(wanted)
    except NoServer as error:
        _given_up(address, error)
        return 0


def library(*names: str) -> Any:
    """A client library: the first of these that is installed. Raises NoServer."""
    for name in names:
        try:
            return import_module(name)
        except ImportError:
            continue
    raise NoServer(f'{names[0]} is not installed: pip install {names[0]}')
