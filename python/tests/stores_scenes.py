"""What happens to a server while it is looked at, in an interpreter that has the libraries: `stores_scenes.py NAME WORD..`.

Writes a line of JSON: for each task what was found, what is wrong, and how many seconds it took.
"""

from __future__ import annotations

import json
import os
import signal
import sys
import time
from pathlib import Path
from typing import Any, Callable, Dict, List

from picklestep.scan import Options
from picklestep.scan.results import Result
from picklestep.scan.stores.address import Address
from picklestep.scan.stores.server import Task, Wanted, server_of, tasks


def told(result: Result, seconds: float) -> Dict[str, Any]:
    """What is compared of a result."""
    return {'found': [' > '.join(each.where) for each in result.pickles for name in each.imports if name.name == 'posix.system'],
            'plain': result.plain, 'error': result.error, 'notes': [note.text for note in result.notes if note.is_marked], 'keys': result.keys,
            'seconds': seconds}


def looked(url: str, between: Callable[[int], None]) -> List[Dict[str, Any]]:
    """Lists all tasks, and looks at each after something has happened. A task that cannot be listed comes last."""
    failed: List[Result] = []
    found = []
    for number, task in enumerate(list(tasks(Address(url), Wanted(), failed.append))):
        between(number)
        begin = time.monotonic()
        assert isinstance(task, Task)
        found.append(told(task.look(Options()), time.monotonic() - begin))
    return [*found, *(told(each, 0) for each in failed)]


def redis_vanishes(url: str) -> List[Dict[str, Any]]:
    """Half of the keys go, and others become something else, when they are listed and not looked at."""
    import redis
    client = redis.Redis.from_url(url)

    def between(number: int) -> None:
        if number:
            return
        names = sorted(client.keys('key *'))
        client.delete(*names[::2])
        client.delete(names[1])
        client.rpush(names[1], client.get(names[3]))
        for each in client.keys('large*'):
            client.set(each, b'short now')
    return looked(url, between)


def memcached_vanishes(url: str) -> List[Dict[str, Any]]:
    """All values but the hostile one go."""
    from pymemcache.client.base import Client
    address = Address(url)
    client = Client((address.split.hostname, address.split.port))

    def between(number: int) -> None:
        if not number:
            client.delete_many([f'key{each}' for each in range(1_000)])
    return looked(url, between)


def postgresql_vanishes(url: str) -> List[Dict[str, Any]]:
    """A table and many rows go."""
    import psycopg2
    connection = psycopg2.connect(url)
    connection.autocommit = True

    def between(number: int) -> None:
        if not number:
            connection.cursor().execute('DELETE FROM jobs WHERE id % 2 = 1; DROP TABLE large')
    return looked(url, between)


def _stop(process: int) -> None:
    """Stops a process, and waits until each of its threads stands still."""
    os.kill(process, signal.SIGSTOP)
    while any(state.read_text().rpartition(')')[2].split()[0] != 'T' for state in Path(f'/proc/{process}/task').glob('*/stat')):
        time.sleep(0.01)


def stopped(url: str, process: str) -> List[Dict[str, Any]]:
    """A process of the server stops after the first task, and says nothing any more."""
    def between(number: int) -> None:
        if number == 1:
            held: Any = server_of(Address(url))
            _stop(int(process) or held.connection.info.backend_pid)
    return looked(url, between)


def killed(url: str, process: str) -> List[Dict[str, Any]]:
    """The server dies after the first task."""
    def between(number: int) -> None:
        if number == 1:
            os.kill(int(process), signal.SIGKILL)
            time.sleep(0.5)
    return looked(url, between)


if __name__ == '__main__':
    print(json.dumps(globals()[sys.argv[1]](*sys.argv[2:])))
