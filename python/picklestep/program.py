"""The program: how it is started.

A run has its memory limit before its first instruction, since a shell sets the limit on itself and then becomes the program. (A limit
set on the running program would come late, and code that runs between fork and exec is not safe where there are threads.)

A run does not outlive the interpreter, whatever ends it. The program inherits one end of a pipe, the lifeline, and nobody writes into it.
When the interpreter is gone, its end is closed, and the system then sends the program the signal that was asked for. This needs no
thread, and unlike PR_SET_PDEATHSIG it does not end a session when the thread that opened it is done. (Only Linux does that. Elsewhere a
program ends when its input or its output is closed.)

The module is limited by what starts it (`picklestep.mjs`), to which the limit is given by the environment.
"""

from __future__ import annotations

import contextlib
import math
import os
import select
import signal
import subprocess
import threading
import time
from typing import IO, Dict, Generator, Iterable, Iterator, List, NoReturn, Optional, Sequence, Tuple

from .errors import OutOfMemory, ProgramError, TimedOut, TooLarge
from .place import NOT_FOR_NODE, find_program, is_module, program_words
from .took import count_seconds

try:
    import fcntl
except ImportError:  # (Windows has none)
    fcntl = None  # type: ignore[assignment]
try:
    import resource
except ImportError:  # (nor this)
    resource = None  # type: ignore[assignment]

__all__ = ['MOST_SECONDS', 'Process', 'check_timeout', 'find_program', 'run_program', 'time_to_wait']

# A program is waited for at most so long: poll counts milliseconds in 31 bits.
MOST_SECONDS = (2**31 - 1) // 1000

_BLOCK = 1 << 20  # (also of a pipe where the system lets it be so large: fewer turns between the program and its reader)
_HAS_MASKS = hasattr(signal, 'pthread_sigmask')  # (Windows has none)
_HAS_POLL = hasattr(select, 'poll')  # (nor this)
_GROUP: int = getattr(subprocess, 'CREATE_NEW_PROCESS_GROUP', 0)  # (Windows has these: Ctrl-C comes to none but the first)
_HAS_LIFELINES = hasattr(fcntl, 'F_SETSIG')
_HAS_LIMITS = hasattr(resource, 'prlimit')  # (of another process: only Linux has them)
_WAITING, _STARTING = 5, 3
_ENDING = 30  # (seconds that a program may take to end once it takes or gives no more, where others have the processor)
_LIMITED = ['/bin/sh', '-c', 'ulimit -v "$1" && shift && exec "$@"', 'sh']


# No program starts in so little memory: the system ends it by a signal.
_OF_PROGRAM = 1 << 20
_WORDS = 'out of memory'
# What stands before its complaints.
_COMPLAINT = 'picklestep: '


def _command(words: Sequence[str], memory: Optional[int]) -> Tuple[List[str], Optional[Dict[str, str]]]:
    """The command that runs the program on these words, with at most this many bytes of memory, and its environment if that is another."""
    program = find_program()
    command = [*program_words(program), *words]
    if memory is not None and memory <= _OF_PROGRAM:
        raise OutOfMemory(_WORDS)
    if is_module(program):
        return command, {**_environment_of_node(), **({} if memory is None else {'PICKLESTEP_MEMORY': str(memory)})}
    return command if memory is None else [*_LIMITED, str(max(1, memory // 1024)), *command], None


def _environment_of_node() -> Dict[str, str]:
    return {name: value for name, value in os.environ.items() if name not in NOT_FOR_NODE}


# What the loader of programs says where the memory limit is too small for the program itself.
_OUT_OF_MEMORY = ('failed to map segment', 'annot allocate memory', 'annot allocate TLS', 'annot create search path array')


class Process:
    """A running program, whose standard streams are pipes. It ends when the interpreter does."""

    def __init__(self, words: Sequence[str], files: Sequence[int] = (), memory: Optional[int] = None, stdin: bool = False,
                 command: Optional[List[str]] = None) -> None:
        """`command` starts a script of Node instead of the program on these words."""
        command, environment = _command(words, memory) if command is None else (command, _environment_of_node())
        self._is_limited = memory is not None
        self._is_open = False
        self._timed_out = False
        near, self._lifeline = os.pipe() if _HAS_LIFELINES else (-1, -1)
        # (An interrupt that came while the program starts would leave it without anybody who ends it. The program keeps the mask: a Ctrl-C
        # of the terminal interrupts the interpreter alone, and that ends the program.)
        masked = signal.pthread_sigmask(signal.SIG_BLOCK, {signal.SIGINT}) if _HAS_MASKS else ()
        try:
            self._popen = subprocess.Popen(command, stdin=subprocess.PIPE if stdin else subprocess.DEVNULL, stdout=subprocess.PIPE,
                                           stderr=subprocess.PIPE, bufsize=0, pass_fds=(*files, near) if _HAS_LIFELINES else tuple(files),
                                           env=environment, creationflags=_GROUP)
            if _HAS_LIFELINES:
                _end_with(near, self._popen.pid)
            _widen(self.stdout)
            self._is_open = True
        except BaseException as error:
            _close(self._lifeline)
            if isinstance(error, OSError):
                raise ProgramError(f'cannot start the program: {error}') from error
            raise
        finally:
            _close(near)
            self._unmask(masked)

    def _unmask(self, masked: Iterable[int]) -> None:
        """Lets interrupts come again. One that came meanwhile ends the program."""
        try:
            if _HAS_MASKS:
                signal.pthread_sigmask(signal.SIG_SETMASK, masked)
        except BaseException:
            self.close()
            raise

    @property
    def stdin(self) -> int:
        """Where the program reads its lines from."""
        return _pipe(self._popen.stdin)

    @property
    def stdout(self) -> int:
        """Where the program's answers come from."""
        return _pipe(self._popen.stdout)

    @property
    def status(self) -> Optional[int]:
        """The status with which the program ended."""
        return self._popen.returncode

    def limit_seconds(self, seconds: float) -> None:
        """Lets the program take this much processor time, rounded up, from its start on. The system then ends it, where it can (`time_to_wait`)."""
        most = max(1, math.ceil(seconds))
        if _HAS_LIMITS:
            with contextlib.suppress(OSError, ValueError):  # (it has ended already, or the limit of this process is lower)
                resource.prlimit(self._popen.pid, resource.RLIMIT_CPU, (most, most + 1))

    def communicate(self, script: Optional[bytes], timeout: Optional[float]) -> bytes:
        """Gives the program its whole input, and answers its whole output. The program has ended then, also after an exception."""
        try:
            with _counted_by_the_clock():
                output, errors = self._popen.communicate(script, timeout)
        except subprocess.TimeoutExpired:
            raise TimedOut(f'no answer within {timeout} seconds') from None
        finally:
            self.close()
        if self._popen.returncode not in (0, 1):
            _raise_failure(self._popen.returncode, errors, self._is_limited)
        return bytes(output)

    def blocks(self, timeout: Optional[float] = None) -> Generator[bytes, None, None]:
        """The program's output as it comes, for a program without input. It has ended then, also after an exception.

        Raises TimedOut after `timeout` seconds, and ProgramError where the program failed, after what it wrote.
        """
        deadline = None if timeout is None else time.monotonic() + timeout
        try:
            while True:
                with self.waiting(self.stdout, deadline):
                    block = os.read(self.stdout, _BLOCK)
                if not block:
                    break
                yield block
            assert self._popen.stderr is not None
            errors = self._popen.stderr.read()
            self._popen.wait()
        except TimedOut:
            raise TimedOut(f'no answer within {timeout} seconds') from None
        finally:
            self.close()
        if self._popen.returncode not in (0, 1):
            _raise_failure(self._popen.returncode, errors, self._is_limited)

    @contextlib.contextmanager
    def waiting(self, file: int, deadline: Optional[float], writes: bool = False) -> Iterator[None]:
        """Within it a pipe of the program is read or written. TimedOut where it is not ready by then.

        Where the system cannot wait for pipes the program is ended at that time, which ends the read or write too.
        """
        left = None if deadline is None else max(0.0, deadline - time.monotonic())
        if _HAS_POLL:
            ready = select.poll()
            ready.register(file, select.POLLOUT if writes else select.POLLIN)
            if left == 0 or not ready.poll(None if left is None else left * 1000):
                raise TimedOut('no answer')
            yield
            return
        timer = None if left is None else threading.Timer(left, self._end_late)
        try:
            if timer is not None:
                timer.start()
            with _counted_by_the_clock():
                yield
        finally:
            if timer is not None:
                timer.cancel()
            if self._timed_out:
                raise TimedOut('no answer')

    def _end_late(self) -> None:
        self._timed_out = True
        self._popen.kill()

    def fail(self) -> NoReturn:
        """Raises why the program gave no answer, which ends it where it runs."""
        try:
            output = self._popen.communicate(timeout=_ENDING)
        except subprocess.TimeoutExpired:
            output = (b'', b'')
        self.close()
        _raise_failure(self._popen.returncode, output[1], self._is_limited)

    def close(self) -> None:
        """Ends the program, where it runs."""
        if not self._is_open:
            return
        self._is_open = False
        try:
            self._popen.kill()
            self._popen.wait()
        finally:
            for stream in (self._popen.stdin, self._popen.stdout, self._popen.stderr):
                if stream is not None:
                    stream.close()
            _close(self._lifeline)


@contextlib.contextmanager
def _counted_by_the_clock() -> Iterator[None]:
    """Within it a program is waited for. Where the system does not count what it took (Windows), the time by the clock is taken for that."""
    begin = time.monotonic()
    try:
        yield
    finally:
        if resource is None:
            count_seconds(time.monotonic() - begin)


def check_timeout(timeout: Optional[float]) -> None:
    """Raises ValueError where a program cannot be waited for so long.

    >>> check_timeout(-3)
    Traceback (most recent call last):
    ValueError: timeout is in seconds, from 0 to 2,147,483: -3 is not
    """
    if timeout is not None and not 0 <= timeout <= MOST_SECONDS:  # (nor is a NaN)
        raise ValueError(f'timeout is in seconds, from 0 to {MOST_SECONDS:,}: {timeout} is not')


def time_to_wait(seconds: float) -> float:
    """How long a program is waited for that may take so many seconds of processor time: the clock may run longer, where other processes have the
    processor. Where the system does not end a program after that time, it ends by the clock, which also runs while it starts."""
    return min(MOST_SECONDS, max(0.5, seconds) * _WAITING if _HAS_LIMITS else max(0.0, seconds) + _STARTING)


def _close(file: int) -> None:
    """Closes an open file, if there is one."""
    if file >= 0:
        os.close(file)


def _pipe(stream: Optional[IO[bytes]]) -> int:
    assert stream is not None
    return stream.fileno()


def _end_with(lifeline: int, process: int) -> None:
    """Asks the system to end a process when the lifeline's other end is closed."""
    with contextlib.suppress(OSError):  # (it has ended already)
        fcntl.fcntl(lifeline, fcntl.F_SETSIG, signal.SIGKILL)
        fcntl.fcntl(lifeline, fcntl.F_SETOWN, process)
        fcntl.fcntl(lifeline, fcntl.F_SETFL, fcntl.fcntl(lifeline, fcntl.F_GETFL) | os.O_ASYNC)


def _widen(pipe: int) -> None:
    """Lets a pipe hold a block. Only Linux can do that."""
    with contextlib.suppress(OSError, AttributeError):
        fcntl.fcntl(pipe, fcntl.F_SETPIPE_SZ, _BLOCK)


def _raise_failure(status: int, errors: bytes, is_limited: bool) -> NoReturn:
    """Raises why a run failed, by its status and by what it wrote on standard error. Where its memory is limited, its stack may not grow either."""
    words = errors.decode('utf-8', 'replace').strip()
    words = words[len(_COMPLAINT):] if words.startswith(_COMPLAINT) else words
    if status == -signal.SIGSEGV and is_limited:
        raise OutOfMemory(_WORDS, signal=-status)
    if status < 0:
        raise ProgramError(words or f'ended by signal {-status}', signal=-status)
    if words == 'too large':
        raise TooLarge(words, status)
    if words == _WORDS or any(loader in words for loader in _OUT_OF_MEMORY):
        raise OutOfMemory(_WORDS, status)
    raise ProgramError(words or f'ended with status {status}', status)


def run_program(words: Sequence[str], files: Sequence[int] = (), script: Optional[bytes] = None, timeout: Optional[float] = None,
                memory: Optional[int] = None) -> bytes:
    """Runs the program to its end, and answers its output."""
    process = Process(words, files, memory, stdin=script is not None)
    return process.communicate(script, timeout)
