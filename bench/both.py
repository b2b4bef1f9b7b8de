"""both.py PROGRAM OTHER SCALE: runs two programs by turns on the same files, and prints how many times the seconds and the instructions of the
other the first takes."""

from __future__ import annotations

import fractions
import os
import sys
import tempfile

from bars import at_most, heading, verdict
from measure import FILES, RUNS, SMALL, Writer, instructions, made, measure, when

TASKS = ('list', 'calls', 'debug')
# the lines of a conversation: so many steps, and as many back
STEPS = 1_000_000
# how many times those of the other at most
AS_OTHER = 1.03


def there_and_back(folder: str, count: int) -> str:
    """The file of a script that goes so many steps, and back."""
    path = os.path.join(folder, 'steps-%d' % count)
    with open(path, 'wb') as file:
        file.write(b'step\n' * count + b'back\n' * count)
    return path


def shortest_by_turns(programs: tuple[str, str], task: str, path: str, script: str) -> list[float]:
    """The seconds of the shortest run of each."""
    runs = [[measure([program, task, path], script).seconds for program in programs] for _ in range(RUNS)]
    return [min(seconds) for seconds in zip(*runs)]


def rows(folder: str, programs: tuple[str, str], letter: str, write: Writer, count: int, steps: int) -> None:
    """The lines of the table for a file, the whole of it timed, and instructions counted on a small one."""
    whole, small = (made(folder, letter, write, many) for many in (count, int(count * SMALL)))
    script, short = (there_and_back(folder, many) for many in (steps, int(steps * SMALL)))
    for task in TASKS:
        seconds, other = shortest_by_turns(programs, task, whole, script)
        counted, of_other = (instructions([program, task, small], short) for program in programs)
        longer, more = seconds / other, counted / of_other
        bars = verdict({'times as long': at_most(longer, AS_OTHER, seconds, other), 'times the instructions': at_most(more, AS_OTHER)})
        print('| (%s) %s | %.2f s | %.2f s | %.3f | %.3f | %s |' % (letter, task, seconds, other, longer, more, bars), flush=True)
    os.unlink(whole)


def main() -> None:
    programs, scale = (sys.argv[1], sys.argv[2]), fractions.Fraction(sys.argv[3])
    print(when(scale))
    print(heading('Two programs by turns', f'Bar: {AS_OTHER} times for both.', 'File and command', 'the first', 'the other', 'times as long',
                  'times the instructions'))
    with tempfile.TemporaryDirectory() as folder:
        for letter, _, write, count in FILES:
            rows(folder, programs, letter, write, int(count * scale), int(STEPS * scale))


main()
