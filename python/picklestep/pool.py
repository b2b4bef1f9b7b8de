"""Several files at once, each by a process of its own. What is done with them may be anything: `scan` looks at them, and `rename` writes them.

A thread for each file would not do: what Python does for a small file takes longer than the program, and threads take turns there. The
library's executors end as a whole when one of their processes dies, as it may by a hostile file. Here that costs its file a second try.

Several small files are handed over at once: to hand one over takes a good part of the time that it takes to look at it.
"""

from __future__ import annotations

import gc
import os
import pickle
import signal
import subprocess
import sys
import threading
import time
from collections import deque
from contextlib import suppress
from itertools import islice
from multiprocessing.connection import Connection, Pipe, wait
from pathlib import Path
from typing import Any, Deque, Dict, Generator, Iterable, List, Optional, Protocol, Tuple, Union

from .further import search

__all__ = ['Work', 'do_all', 'work']

# A path, or something else that is worked at, and how often that was begun.
_Task = Tuple[Any, int]

# A process that dies twice at one file is not started a third time for it.
TRIES = 2
# So many files are handed over at once, and a worker answers after so many seconds though it was given more.
_MOST_AT_ONCE = 32
_TURN = 0.05
# So many seconds a worker that writes may take to come to an end.
_PATIENCE = 3.0
# A worker looks for garbage in cycles after so many objects more: hardly any of what it makes is such.
_MOST_GARBAGE = 10_000
# A file above this size is handed over alone: others would wait for it.
_MOST_OF_SMALL = 1 << 20


class Work(Protocol):
    """What is done with each file. It is sent to other processes, and what it answers comes from there."""

    @property
    def writes(self) -> bool:
        """Whether files are written, so that no process is ended in the midst of one."""
        ...

    def do(self, task: Any) -> Any:
        """What becomes of one."""
        ...

    def lost(self, task: Any, why: str) -> Any:
        """What is said of one at which processes ended."""
        ...


def do_all(paths: Iterable[Any], work: Work, jobs: int) -> Generator[Any, None, None]:
    """What becomes of each of them, as it is ready."""
    if jobs == 1:
        return (work.do(path) for path in paths)
    return _Pool(paths, work, jobs).results()


# What a worker runs, in an interpreter that does not search the current folder.
_WORKER = Path(__file__).resolve().parent / 'worker.py'


def work(link: Connection) -> None:
    """What a worker does: it gets the work, and does it with the paths that it is given, until there are none."""
    gc.set_threshold(_MOST_GARBAGE)
    try:
        what = _receive(link)
        while True:
            _send(link, _first_results(_receive(link), what))
    except (EOFError, OSError):
        pass  # the parent is gone or has no more


def _send(link: Connection, what: Any) -> None:
    """Sends something. (`send` of a link asks tables in Python about each object in it, which takes longer than the rest.)"""
    link.send_bytes(pickle.dumps(what, pickle.HIGHEST_PROTOCOL))


def _receive(link: Connection) -> Any:
    """What the other end sent. Raises EOFError and OSError where it is gone."""
    return pickle.loads(link.recv_bytes())


def _first_results(tasks: List[Any], what: Work) -> List[Any]:
    """The results of the first of these, of as many as take a short time."""
    end = time.monotonic() + _TURN
    results: List[Any] = []
    for task in tasks:
        results.append(what.do(task))
        if time.monotonic() >= end:
            break
    return results


def _start(command: List[str], link: int) -> 'subprocess.Popen[bytes]':
    """Starts a process that inherits one end of a link, in a group of its own: Ctrl-C goes to the parent alone, which ends it and all that it
    started. Windows has the link as a handle."""
    if os.name != 'nt':
        return subprocess.Popen(command, stdin=subprocess.DEVNULL, pass_fds=[link], start_new_session=True)
    system: Any = os  # (elsewhere these modules have not these names)
    processes: Any = subprocess
    system.set_handle_inheritable(link, True)
    return subprocess.Popen(command, stdin=subprocess.DEVNULL, creationflags=processes.CREATE_NEW_PROCESS_GROUP,
                            startupinfo=processes.STARTUPINFO(lpAttributeList={'handle_list': [link]}))


def _new_process(link: int) -> 'subprocess.Popen[bytes]':
    """A worker that finds modules where this process does."""
    search()
    places = [path for path in sys.path if path]
    flags = ['-I', '-B'] if sys.dont_write_bytecode else ['-I']
    return _start([sys.executable, *flags, str(_WORKER), str(link), *places], link)


class _Fork:
    """A copy of this process as a worker. It has imported everything, which takes longer than hundreds of small files."""

    def __init__(self, link: Connection, others: Iterable[Connection]) -> None:
        """`others` are the ends of links that are the parent's alone: a worker sees by them that it is gone."""
        self._status: Optional[int] = None
        # (Ctrl-C goes to the parent alone. The copy has to be in a group of its own before: it would go on with what the parent does then.)
        masked = signal.pthread_sigmask(signal.SIG_BLOCK, {signal.SIGINT})
        self.pid = os.fork()
        if self.pid:
            signal.pthread_sigmask(signal.SIG_SETMASK, masked)
            return
        try:
            os.setpgid(0, 0)
            signal.pthread_sigmask(signal.SIG_SETMASK, masked)
            gc.freeze()  # (what it was copied with is not looked through again and again)
            for other in others:
                other.close()
            os.dup2(os.open(os.devnull, os.O_RDONLY), 0)
            work(link)
        finally:
            os._exit(0)

    def poll(self) -> Optional[int]:
        """The status, once it has ended."""
        return self._wait(os.WNOHANG)

    def wait(self) -> Optional[int]:
        """Waits for the end."""
        return self._wait(0)

    def kill(self) -> None:
        """Ends it."""
        os.kill(self.pid, signal.SIGKILL)

    def _wait(self, how: int) -> Optional[int]:
        if self._status is None:
            ended, status = os.waitpid(self.pid, how)
            self._status = status if ended else None
        return self._status


def _may_fork() -> bool:
    """Whether a copy of this process is as good as a new one: it finds modules at the same places, and has no other thread."""
    return sys.platform == 'linux' and hasattr(os, 'fork') and bool(sys.flags.isolated) and threading.active_count() == 1


class _Worker:
    """A process, and the paths that it has."""

    def __init__(self, what: Work, others: Optional[Iterable[Connection]]) -> None:
        """A copy of this process where the other links are given, else a new one."""
        self.link, far = Pipe()
        self.process: Union['subprocess.Popen[bytes]', _Fork]
        with far:
            self.process = _new_process(far.fileno()) if others is None else _Fork(far, [*others, self.link])
        self.tasks: List[_Task] = []
        # How many it gets at once: one at first, and more as long as it answers all of them in time.
        self.at_once = 1
        self._send(what)

    def give(self, tasks: List[_Task]) -> None:
        """Hands over paths."""
        self.tasks = tasks
        self._send([path for path, _ in tasks])

    def _send(self, what: Any) -> None:
        try:
            _send(self.link, what)
        except OSError:
            pass  # it is dead already, which is noticed when its answer is read

    def answered(self, results: List[Any]) -> List[_Task]:
        """Takes its results, and answers those of its tasks that are yet to be done."""
        left, self.tasks = self.tasks[len(results):], []
        self.at_once = len(results) if left else min(2 * self.at_once, _MOST_AT_ONCE)
        return left

    def end(self, is_waited_for: bool = False) -> None:
        """Ends the process and the programs that it started. One that is waited for ends by itself, if it does in time: it sees that the link is closed."""
        self.link.close()
        until = time.monotonic() + (_PATIENCE if is_waited_for else 0)
        while self.process.poll() is None and time.monotonic() < until:
            time.sleep(_TURN / 10)
        if self.process.poll() is None:
            if hasattr(os, 'killpg'):
                with suppress(OSError):
                    os.killpg(self.process.pid, signal.SIGKILL)
            self.process.kill()
        self.process.wait()


class _Pool:
    """The workers, and the files with which something is yet to be done."""

    def __init__(self, paths: Iterable[Any], what: Work, jobs: int) -> None:
        # (A server lists its keys while others are looked at, so what is yet to come is not held.)
        self.paths = iter(paths)
        self.waiting: Deque[_Task] = deque()
        self.what = what
        self.jobs = jobs
        self.workers: Dict[Connection, _Worker] = {}

    def results(self) -> Generator[Any, None, None]:
        """Hands out the files and answers what comes back."""
        try:
            self._fill(_may_fork())
            while any(worker.tasks for worker in self.workers.values()):
                ready = wait([link for link, worker in self.workers.items() if worker.tasks])
                for worker in [worker for link, worker in self.workers.items() if link in ready]:
                    yield from self._answers_of(worker)
                self._fill()
        finally:
            for worker in self.workers.values():
                worker.end(self.what.writes)

    def _next(self) -> bool:
        """Whether there is another task, which is the first of those that wait then."""
        if not self.waiting:
            self.waiting.extend((path, 1) for path in islice(self.paths, 1))
        return bool(self.waiting)

    def _take(self, most: int) -> List[_Task]:
        """The tasks that come next: small files, or one task alone."""
        if not self._next():
            return []
        tasks = [self.waiting.popleft()]
        if _goes_along(tasks[0]):
            while len(tasks) < most and self._next() and _goes_along(self.waiting[0]):
                tasks.append(self.waiting.popleft())
        return tasks

    def _fill(self, forks: bool = False) -> None:
        """Lets as many workers work as there may be. Once a server was asked for keys, none is a copy of this process, which has a connection."""
        for worker in self.workers.values():  # (what others did not come to may wait again when one has nothing to do)
            if not worker.tasks:
                self._hand_out(worker)
        while len(self.workers) < self.jobs and self._next():
            worker = _Worker(self.what, self.workers if forks and _is_first_try(self.waiting[0]) else None)
            self.workers[worker.link] = worker
            self._hand_out(worker)

    def _hand_out(self, worker: _Worker) -> None:
        """Gives a worker what comes next, if there is something."""
        tasks = self._take(worker.at_once)
        if tasks:
            worker.give(tasks)

    def _answers_of(self, worker: _Worker) -> List[Any]:
        """What a worker answers. It gets the next files; where it has died, its files wait again."""
        try:
            results: List[Any] = _receive(worker.link)
        except (EOFError, OSError):
            del self.workers[worker.link]
            worker.end()
            return self._given_up(worker.tasks)
        self.waiting.extendleft(reversed(worker.answered(results)))
        self._hand_out(worker)
        return results

    def _given_up(self, tasks: List[_Task]) -> List[Any]:
        """Lets the files of a worker that has died wait again, where one of them was not tried too often."""
        if tasks[0][1] < TRIES:
            self.waiting.extendleft((path, tries + 1) for path, tries in reversed(tasks))
            return []
        return [self.what.lost(path, f'the process that looked at it ended without an answer, {TRIES} times') for path, _ in tasks]


def _goes_along(task: _Task) -> bool:
    """Whether it may be handed over with others: a small file that nobody has died at."""
    path = task[0]
    if not isinstance(path, str) or not _is_first_try(task):
        return False
    try:
        return os.stat(path).st_size <= _MOST_OF_SMALL
    except (OSError, ValueError):  # (whoever looks at it says why)
        return True


def _is_first_try(task: _Task) -> bool:
    """Whether a task is a file that nobody has died at."""
    path, tries = task
    return tries == 1 and isinstance(path, str)
