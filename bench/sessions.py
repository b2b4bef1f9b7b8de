"""sessions.py PROGRAM SCALE: runs long conversations, and many edits, and prints the tables."""

from __future__ import annotations

import fractions
import os
import subprocess
import sys
import tempfile
import time
from collections.abc import Sequence

from bars import at_least, at_most, heading, verdict
from inputs import inserts

# commands a second, how many times as long for twice the way, how many times as long for places by offset, seconds for 10,000 edits at
# one place and 1,000 at random ones, bytes of memory for each opcode besides the file
A_SECOND, TWICE, BY_OFFSET, ONE_PLACE, RANDOM_PLACES, BYTES_AN_OPCODE = 2_000_000, 2.3, 2, 0.1, 5, 90
# microseconds for a line over a pipe and its answer
A_LINE = 20


def measure(command: Sequence[str], script: bytes = b'') -> tuple[float, int]:
    """The seconds that one processor took for a command, and the most memory that it held in bytes."""
    with tempfile.NamedTemporaryFile('r') as figures, tempfile.TemporaryFile() as lines:
        lines.write(script)
        lines.seek(0)
        subprocess.run(['/usr/bin/time', '-o', figures.name, '-f', '%U %S %M', *command],
                       stdin=lines, stdout=subprocess.DEVNULL, stderr=subprocess.DEVNULL)
        user, system, kibibytes = figures.read().split('\n')[-2].split()
    return float(user) + float(system), int(kibibytes) * 1024


def one_byte_opcodes(folder: str, count: int) -> str:
    """A pickle of this many opcodes: NONE and POP in turn, then NONE and STOP."""
    path = os.path.join(folder, 'n-%d.pickle' % count)
    with open(path, 'wb') as file:
        file.write(b'N0' * (count // 2 - 1) + b'N.')
    return path


def conversation_row(program: str, what: str, once: tuple[str, bytes], twice: tuple[str, bytes], commands: int, *options: str) -> str:
    """A line of the table of conversations: each a file and a script; the second has twice as many commands, or opcodes."""
    (first, memory), (second, _) = (min(measure([program, 'debug', path, *options], script) for _ in range(3)) for path, script in (once, twice))
    first, rate = max(first, 0.01), commands / max(first, 0.01)
    good = verdict({**({'commands a second': at_least(rate, A_SECOND)} if commands else {}), 'twice as many': at_most(second / first, TWICE, first)})
    return '| %s | %.2f s | %s | %.2f | %.0f | %s |' % (
        what, first, format(int(rate), ',') if commands else '', second / first, memory / 1e6, good)


def near_places(program: str, path: str, middle: int) -> str:
    """What is said of a thousand gotos between two places in the middle of one-byte opcodes, by number and by offset. A walk to a place
    and one that looks for it go over the same opcodes."""
    ways = b'goto %d\n' % middle + (b'goto %d\n' % (middle + 1000) + b'goto %d\n' % middle) * 500
    number, offset = (min(measure([program, 'debug', path], script)[0] for _ in range(3)) for script in (ways, ways.replace(b' ', b' @')))
    times = offset / max(number, 0.01)
    return '| 1,000 gotos over the same 1,000 opcodes: by offset, beside by number | %.2f s beside %.2f s: %.2f times as long | %s times | %s |' % (
        offset, number, times, BY_OFFSET, verdict({'times as long': at_most(times, BY_OFFSET, offset, number)}))


def seconds_over_a_pipe(program: str, path: str, count: int) -> float:
    """The seconds from the first of some `step` lines to the last answer, where each line waits for the answer before it."""
    with subprocess.Popen([program, 'debug', path], stdin=subprocess.PIPE, stdout=subprocess.PIPE, bufsize=0) as process:
        assert process.stdin is not None and process.stdout is not None
        start = time.perf_counter()
        for _ in range(count):
            process.stdin.write(b'step\n')
            process.stdout.read(100)
        return time.perf_counter() - start


def over_a_pipe(program: str, path: str, count: int) -> str:
    """What is said of a `step` line from another program."""
    line = min(seconds_over_a_pipe(program, path, count) for _ in range(3)) / count * 1e6
    good = verdict({'microseconds': at_most(line, A_LINE)})
    return '| a line `step` over a pipe, until its answer is there | %.1f microseconds | %s microseconds | %s |' % (line, A_LINE, good)


def edits_row(program: str, path: str, what: str, lines: bytes, bar: float, base: float) -> str:
    """A line of the table of edits. To open the pickle and to end takes as long as the base."""
    seconds = min(measure([program, 'debug', path], lines)[0] for _ in range(3)) - base
    return '| %s | %.2f s | %s s | %s |' % (what, seconds, bar, verdict({'time': at_most(seconds, bar)}))


def edits_table(program: str, path: str, million: int) -> str:
    """The table of edits."""
    base = min(measure([program, 'debug', path])[0] for _ in range(3))
    one_place, at_random = b'insert %d NONE\n' % (million // 2) * 10_000, inserts(1000, million)
    rows = [edits_row(program, path, '10,000 in its middle', one_place, ONE_PLACE, base),
            edits_row(program, path, 'these 10,000, undone and made again', one_place + b'undo\n' * 10_000 + b'redo\n' * 10_000, 2 * ONE_PLACE, base),
            edits_row(program, path, '1,000 at random places', at_random, RANDOM_PLACES, base),
            edits_row(program, path, 'these 1,000, undone and made again', at_random + b'undo\n' * 1000 + b'redo\n' * 1000, 3 * RANDOM_PLACES, base)]
    title = heading('Edits', f'Edits by `debug` of a pickle of {million:,} opcodes, in seconds of a processor.', 'Edits', 'time', 'bar')
    return '\n'.join([title, *rows])


def main() -> None:
    program, scale = sys.argv[1], fractions.Fraction(sys.argv[2])
    million = int(1_000_000 * scale)
    half = million // 2
    with tempfile.TemporaryDirectory() as folder:
        one, two = one_byte_opcodes(folder, million), one_byte_opcodes(folder, 2 * million)
        print(heading('Conversations', f'Many commands to `debug` over a pickle of {million:,} opcodes. *Twice as many* is the time for twice as '
                      'many commands, divided by the time for these. (The last row has as many commands for twice as many opcodes.) '
                      f'Bars: at least {A_SECOND:,} commands a second; {TWICE} for twice as many.',
                      'Commands', 'time', 'commands a second', 'twice as many', 'memory, MB'))
        print(conversation_row(program, 'steps', (one, b'step\n' * million), (two, b'step\n' * 2 * million), million), flush=True)
        print(conversation_row(program, 'steps, and back again', (one, b'step\n' * half + b'back\n' * half),
                               (two, b'step\n' * million + b'back\n' * million), million), flush=True)
        print(conversation_row(program, 'steps, with a window of 100', (one, b'step\n' * million), (two, b'step\n' * 2 * million), million,
                               '--window', '100'), flush=True)
        ways = b'goto %d\ngoto 0\n' * 10
        print(conversation_row(program, 'to the end and to the start by goto, ten times', (one, ways.replace(b'%d', b'%d' % million)),
                               (two, ways.replace(b'%d', b'%d' % (2 * million))), 0), flush=True)
        print(heading('Single values of `debug`', 'Each has a bar of its own.', 'What', 'measured', 'bar'))
        print(near_places(program, one, half), flush=True)
        print(over_a_pipe(program, one, half // 10), flush=True)
        _, memory = measure([program, 'debug', one], b'run\n')
        each = (memory - os.path.getsize(one)) / million
        print('| memory of `run` to the end, for each opcode besides the file | %.0f bytes | %d bytes | %s |' % (
            each, BYTES_AN_OPCODE, verdict({'bytes': at_most(each, BYTES_AN_OPCODE)})))
        print(edits_table(program, one, million))


main()
