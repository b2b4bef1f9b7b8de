"""Values of a Redis server that vanish, and servers that say nothing, with a client that stands for redis-py."""

from __future__ import annotations

import sys
import types
import unittest
from typing import Any, Dict, List
from unittest import mock

from picklestep.scan import Options
from picklestep.scan.stores.address import Address
from picklestep.scan.stores.server import Wanted, ask_again, tasks
from scan_support import HOSTILE, names_of, notes_of, places_of


class _Error(Exception):
    """As all errors of redis-py."""


class _TimeoutError(_Error):
    """No answer came in time."""


class _Pipeline:
    """Questions that travel together."""

    def __init__(self, client: '_Client') -> None:
        self.client = client
        self.asked: List[Any] = []

    def getrange(self, key: bytes, start: int, end: int) -> None:
        self.asked.append(('string', key))

    def type(self, key: bytes) -> None:
        self.asked.append(('type', key))

    def execute(self, raise_on_error: bool) -> List[Any]:
        return [self.client.answer(*each) for each in self.asked]


class _Client:
    """A server whose hashes vanish between two questions, or that is silent."""

    values: Dict[bytes, Any] = {}
    is_silent = False

    def __init__(self) -> None:
        self.response_callbacks: Dict[str, Any] = {}

    @classmethod
    def from_url(cls, url: str, **words: Any) -> '_Client':
        assert words['socket_timeout'] and words['socket_connect_timeout']
        return cls()

    def answer(self, word: str, key: bytes) -> Any:
        if word == 'type':
            return b'none'
        return _Error('WRONGTYPE') if self.values.get(key, b'') is None else self.values.get(key, b'')

    def pipeline(self, transaction: bool) -> _Pipeline:
        return _Pipeline(self)

    def scan(self, cursor: int, match: Any, count: int) -> Any:
        if self.is_silent:
            raise _TimeoutError('Timeout reading from socket')
        return 0, [b'string', b'gone', b'hash']


class Redis(unittest.TestCase):
    """What is found while values come and go."""

    def setUp(self) -> None:
        module = types.SimpleNamespace(Redis=_Client, RedisError=_Error, TimeoutError=_TimeoutError)
        held = mock.patch.dict(sys.modules, {'redis': module})
        held.start()
        self.addCleanup(held.stop)

    def test_values_that_vanish(self) -> None:
        _Client.values = {b'string': HOSTILE, b'hash': None}
        address = Address('redis://127.0.0.1:1/1')
        failed: List[Any] = []
        found = [task.look(Options()) for task in tasks(address, Wanted(), failed.append)]
        self.assertEqual((failed, len(found)), ([], 1))
        self.assertEqual((names_of(found[0]), places_of(found[0]), notes_of(found[0]), found[0].error), (['posix.system'], ['string'], '', None))
        self.assertEqual(found[0].keys, 3)

    def test_a_silent_server(self) -> None:
        failed: List[Any] = []
        with mock.patch.object(_Client, 'is_silent', True):
            self.assertEqual(list(tasks(Address('redis://:word@127.0.0.1:1/2'), Wanted(), failed.append)), [])
        self.addCleanup(ask_again, Address('redis://:word@127.0.0.1:1/2'))
        self.assertIn('Timeout reading from socket', failed[0].error)
        self.assertNotIn('word', failed[0].error + failed[0].path)


if __name__ == '__main__':
    unittest.main()
