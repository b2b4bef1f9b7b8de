"""What a command takes: the seconds that pass, and the most memory of all its processes together."""

from __future__ import annotations

import os
import subprocess
import sys
import tempfile
import threading
import time
from dataclasses import dataclass
from pathlib import Path
from typing import Dict, List, Sequence

# what takes longer than this is run once, and all else three times
LONG = 1.0
RUNS = 3


def environment() -> Dict[str, str]:
    """As a user has it: with this Python itself as `python3`, and with compiled modules kept from the first run on."""
    kept = {name: value for name, value in os.environ.items() if not name.startswith(('PYTHON', 'PICKLESTEP'))}
    kept['PATH'] = os.pathsep.join((os.path.dirname(sys.executable), kept.get('PATH', os.defpath)))
    return kept


def family(process: int) -> List[int]:
    """A process and all that it started."""
    found = [process]
    for each in found:
        try:
            for task in os.listdir(f'/proc/{each}/task'):
                found.extend(map(int, Path(f'/proc/{each}/task/{task}/children').read_text().split()))
        except OSError:  # it has ended
            pass
    return found


def memory(processes: List[int]) -> int:
    """The bytes of memory of these processes. What several of them share counts once."""
    total = 0
    for process in processes:
        try:
            lines = Path(f'/proc/{process}/smaps_rollup').read_text().splitlines()
        except OSError:
            continue
        total += sum(int(line.split()[1]) << 10 for line in lines if line.startswith('Pss:'))
    return total


@dataclass(frozen=True)
class Taken:
    """The seconds that passed, the seconds of processors, the most memory in bytes, and the status of a command."""

    seconds: float
    used: float
    memory: int
    status: int


class Watch(threading.Thread):
    """Looks now and then how much memory all processes have together that a process started: often at first, in a long run less often."""

    def __init__(self, process: int) -> None:
        super().__init__(daemon=True)
        self._most = 0
        self._ended = threading.Event()
        self._process = process

    def run(self) -> None:
        start = time.perf_counter()
        while not self._ended.wait(max(0.02, (time.perf_counter() - start) / 20)):
            self._most = max(self._most, memory(family(self._process)[1:]))

    def end(self) -> int:
        """The most that was seen."""
        self._ended.set()
        self.join()
        return self._most


def run(command: Sequence[str], lines: bytes = b'', folder: str = '.') -> Taken:
    """Runs a command once, which reads these lines. Its output is thrown away.

    GNU time starts it, and says the most memory that one of its processes had. (For a process that this one started itself, the system would count
    what this one has.)
    """
    with tempfile.TemporaryFile() as given, tempfile.NamedTemporaryFile('r') as figures:
        given.write(lines)
        given.seek(0)
        start = time.perf_counter()
        process = subprocess.Popen(['/usr/bin/time', '-o', figures.name, '-f', '%U %S %M', *command], stdin=given, stdout=subprocess.DEVNULL,
                                   stderr=subprocess.DEVNULL, env=environment(), cwd=folder)
        watch = Watch(process.pid)
        watch.start()
        status = process.wait()
        seconds, most = time.perf_counter() - start, watch.end()
        # (the last line, since GNU time writes another before it where the status is not 0)
        user, system, kibibytes = figures.read().split('\n')[-2].split()
    return Taken(seconds, float(user) + float(system), max(most, int(kibibytes) << 10), status)


def least(command: Sequence[str], lines: bytes = b'', folder: str = '.') -> Taken:
    """The shortest of three runs, or the only one where that takes long, with the most memory of all."""
    runs = [run(command, lines, folder)]
    while len(runs) < RUNS and runs[0].seconds < LONG:
        runs.append(run(command, lines, folder))
    shortest = min(runs, key=lambda taken: taken.seconds)
    return Taken(shortest.seconds, shortest.used, max(taken.memory for taken in runs), max(taken.status for taken in runs))
