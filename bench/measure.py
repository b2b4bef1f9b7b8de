"""measure.py PROGRAM LIMIT SCALE: makes big pickles in a temporary folder, runs the listings, and prints the tables."""

from __future__ import annotations

import datetime
import fractions
import os
import pickle
import pickletools
import platform
import random
import re
import struct
import subprocess
import sys
import tempfile
import textwrap
from collections.abc import Callable, Sequence
from typing import BinaryIO, NamedTuple

from bars import at_least, at_most, heading, verdict
from limit import must_print_the_same

# the bars: instructions for each opcode, and how many times as many for twice the file
INSTRUCTIONS = {'a': 270, 'b': 290, 'c': 180, 'e': 230, 'f': 1500}
TWICE = 2.05
# how many times as long as the limit at most
AS_LIMIT = 1.5
# how many times faster than pickletools at least, bytes of memory for each opcode besides the file, how many times as long as a copy of
# the text for one long string
FASTER, BYTES_AN_OPCODE, AS_COPY = 80, 2.6, 2.5
# how many times as long as `objects` `calls` may take
AS_OBJECTS = 1.5
# how many times the instructions of `list` `list --json` may take, and how many times those of `calls` `gate`
AS_LIST, AS_CALLS = 2.2, 1.3
# how many times as much `calls` may take behind an early end: of a file without frames, and of one with frames
AS_WHOLE, AS_WHOLE_FRAMED = 1.5, 2.5
# the most memory on 256 MiB of one-byte opcodes
MOST_MEMORY = 700_000_000
# instructions are counted on files of a twenty-fifth of the size
SMALL = fractions.Fraction(1, 25)
# the shortest of this many runs counts; short commands are started so many times in each
RUNS, STARTS = 3, 5


# --- The files, each of this many items or bytes ---

def numbers_and_strings(file: BinaryIO, count: int) -> None:
    """A list of small integers and short strings at protocol 4."""
    draw = random.Random(7)
    pickle.dump([draw.randrange(-300, 70000) if n % 2 else 's%d' % draw.randrange(100000) for n in range(count)], file, 4)


def text(file: BinaryIO, count: int) -> None:
    """Tuples at protocol 0."""
    pickle.dump([(n, 'name %d' % n, n * 0.5, [n, None]) for n in range(count)], file, 0)


def one_byte_opcodes(file: BinaryIO, count: int) -> None:
    """NONE and POP in turn, and then NONE and STOP."""
    file.write(b'N0' * (count - 1) + b'N.')


def one_string(file: BinaryIO, count: int) -> None:
    """One BINBYTES8."""
    file.write(b'\x80\x04\x8e' + struct.pack('<Q', count) + bytes(count) + b'.')


def dictionaries(file: BinaryIO, count: int) -> None:
    """Dictionaries in dictionaries, which share keys and values by the memo."""
    draw, keys = random.Random(5), ['key%d' % n for n in range(40)]
    made: list[dict[str, object]] = []
    for n in range(count):
        table: dict[str, object] = {keys[n % 40]: n, keys[(n + 7) % 40]: {keys[n * 3 % 40]: [n], 'v': keys[n % 11]}}
        if n > 20:
            table['old'] = made[draw.randrange(n)]
        made.append(table)
    pickle.dump(made, file, 2)


def under_marks(file: BinaryIO, count: int) -> None:
    """NONE and POP in turn above 1,000 open marks, whose lines are indented by 4,000 blanks."""
    file.write(b'(' * 1000 + b'N0' * count + b'N.')


def calls(file: BinaryIO, count: int) -> None:
    """A class that is called again and again, with no arguments; each result is dropped."""
    file.write(b'cm\nn\nq\x000' + b'h\x00)R0' * count + b'N.')


def small_pickles(file: BinaryIO, count: int) -> None:
    """NONE and STOP, again and again."""
    file.write(b'N.' * count)


def behind_a_large_one(file: BinaryIO, count: int) -> None:
    """Small pickles behind one with a thousand open marks and ten thousand entries of the memo."""
    file.write(b'(' * 1000 + b'N\x94' * 10_000 + b'.')
    small_pickles(file, count)


Writer = Callable[[BinaryIO, int], None]
# letter, what it is, who writes it, how many items or bytes
FILES: list[tuple[str, str, Writer, int]] = [
    ('a', 'small integers and short strings, protocol 4', numbers_and_strings, 4_125_000),
    ('b', 'text, protocol 0', text, 340_000),
    ('c', 'one-byte opcodes `N0`', one_byte_opcodes, 8_388_608),
    ('e', 'nested dictionaries with memo', dictionaries, 252_500),
]
LONG_STRING, MARKED, FULL, CALLED = 50_000_000, 30_000, 134_217_728, 1_000_000
# small pickles in one input, how many times as long twice that may take, and how many bytes of memory for each besides the file
SEVERAL, SEVERAL_TWICE, BYTES_A_PICKLE = 1_000_000, 2.1, 3


# --- Runs ---

class Measured(NamedTuple):
    """The seconds that one processor took for a command, the most memory that it held in bytes, and its status."""

    seconds: float
    memory: int
    status: int


def measure(command: Sequence[str], lines: str = os.devnull) -> Measured:
    """Runs a command by GNU time, which reads the lines of a file; its output is thrown away."""
    with tempfile.NamedTemporaryFile('r') as figures, open(lines, 'rb') as given:
        status = subprocess.run(['/usr/bin/time', '-o', figures.name, '-f', '%U %S %M', *command],
                                stdin=given, stdout=subprocess.DEVNULL, stderr=subprocess.DEVNULL).returncode
        # (the last line, since GNU time writes another before it where the status is not 0)
        user, system, kibibytes = figures.read().split('\n')[-2].split()
    return Measured(max(float(user) + float(system), 0.01), int(kibibytes) * 1024, status)


def shortest(command: Sequence[str], runs: int = RUNS) -> Measured:
    """The shortest of some runs."""
    return min((measure(command) for _ in range(runs)), key=lambda m: m.seconds)


def by_turns(*commands: Sequence[str]) -> list[float]:
    """The seconds of each command, one after another: the shortest of some runs, in each of which it is started some times."""
    again = ['sh', '-c', 'for start in %s; do "$@" || exit; done' % ' '.join(map(str, range(STARTS))), 'sh']
    runs = [[measure([*again, *command]).seconds for command in commands] for _ in range(RUNS)]
    return [min(seconds) / STARTS for seconds in zip(*runs)]


def instructions(command: Sequence[str], lines: str = os.devnull) -> int:
    """How many instructions the whole process takes, as callgrind counts them."""
    with open(lines, 'rb') as given:
        report = subprocess.run(['valgrind', '--tool=callgrind', '--callgrind-out-file=/dev/null', *command],
                                stdin=given, stdout=subprocess.DEVNULL, stderr=subprocess.PIPE, text=True).stderr
    counted = re.search(r'Collected : (\d+)', report)
    assert counted is not None, report
    return int(counted[1])


def made(folder: str, letter: str, write: Writer, count: int) -> str:
    path = os.path.join(folder, '%s-%d.pickle' % (letter, count))
    with open(path, 'wb') as file:
        write(file, count)
    return path


def opcodes_of(path: str) -> int:
    """How many opcodes a file has."""
    with open(path, 'rb') as file:
        return sum(1 for _ in pickletools.genops(file))


# --- Tables ---

def megabytes(count: float) -> str:
    return '%.1f' % (count / 1e6)


def counted_row(folder: str, program: str, limit: str, letter: str, what: str, write: Writer, count: int) -> str:
    """A line of the table of instructions."""
    once, twice = made(folder, letter, write, count), made(folder, letter, write, 2 * count)
    must_print_the_same(program, limit, once)
    opcodes, listing, least = opcodes_of(once), instructions([program, 'list', once]), instructions([limit, once])
    factor = instructions([program, 'list', twice]) / listing
    bar = INSTRUCTIONS[letter]
    good = verdict({'`list`': at_most(listing / opcodes, bar), 'twice the file': at_most(factor, TWICE)})
    return '| (%s) %s | %s | %.0f | %s | %.0f | %.2f | %.3f | %s |' % (
        letter, what, format(opcodes, ','), listing / opcodes, bar, least / opcodes, listing / least, factor, good)


def timed_row(folder: str, program: str, limit: str, letter: str, what: str, write: Writer, count: int) -> str:
    """A line of the table of times and memory."""
    path = made(folder, letter, write, count)
    must_print_the_same(program, limit, path)
    length, opcodes, listing = os.path.getsize(path), opcodes_of(path), measure([program, 'list', path])
    seconds, least = by_turns([program, 'list', path], [limit, path])
    theirs = measure([sys.executable, '-m', 'pickletools', path])
    beside = (listing.memory - length) / opcodes
    longer, faster = seconds / least, theirs.seconds / seconds
    good = verdict({'times the limit': at_most(longer, AS_LIMIT, STARTS * seconds, STARTS * least), 'times faster': at_least(faster, FASTER),
                    'bytes an opcode': at_most(beside, BYTES_AN_OPCODE), 'status': at_most(max(abs(listing.status), abs(theirs.status)), 0)})
    os.unlink(path)
    return '| (%s) %s | %s | %.3f s | %.3f s | %.2f | %.1f s | %.0f | %s | %.1f | %s |' % (
        letter, what, megabytes(length), seconds, least, longer, theirs.seconds, faster, megabytes(listing.memory), beside, good)


def called_row(folder: str, program: str, letter: str, what: str, write: Writer, count: int) -> str:
    """A line of the table of `calls` against `objects`."""
    small = int(count * SMALL)
    once, twice, whole = (made(folder, letter, write, many) for many in (small, 2 * small, count))
    calls, objects = instructions([program, 'calls', once]), instructions([program, 'objects', once])
    growth = instructions([program, 'calls', twice]) / calls
    theirs, ours = shortest([program, 'objects', whole]), shortest([program, 'calls', whole])
    opcodes, longer = opcodes_of(once), ours.seconds / theirs.seconds
    os.unlink(whole)
    good = verdict({'twice the file': at_most(growth, TWICE), 'times as long': at_most(longer, AS_OBJECTS, theirs.seconds, ours.seconds)})
    return '| (%s) %s | %.0f | %.0f | %.3f | %.2f s | %.2f s | %.2f | %s |' % (
        letter, what, calls / opcodes, objects / opcodes, growth, ours.seconds, theirs.seconds, longer, good)


def early_row(folder: str, program: str, letter: str, what: str, write: Writer, count: int) -> str:
    """A line of the table of `calls` behind an early end: a file without its last byte, which is the STOP, beside the file."""
    small, large = (made(folder, letter, write, many) for many in (int(count * SMALL), count))

    def taken() -> tuple[int, Measured]:
        return instructions([program, 'calls', small]), measure([program, 'calls', large])

    counted, good_end = taken()
    for path in (small, large):
        os.truncate(path, os.path.getsize(path) - 1)
    more, early_end = taken()
    os.unlink(large)
    bar = AS_WHOLE_FRAMED if letter == 'a' else AS_WHOLE
    longer, larger = early_end.seconds / good_end.seconds, early_end.memory / good_end.memory
    good = verdict({'times as many': at_most(more / counted, bar), 'times as long': at_most(longer, bar, good_end.seconds, early_end.seconds),
                    'times the bytes of memory': at_most(larger, bar), 'status': at_most(abs(early_end.status - 1), 0)})
    return '| (%s) %s | %s | %s | %.2f | %s | %.2f s | %.2f | %s | %.2f | %s |' % (
        letter, what, format(counted, ','), format(more, ','), more / counted, bar, early_end.seconds, longer, megabytes(early_end.memory), larger, good)


def lines_row(folder: str, program: str, letter: str, what: str, write: Writer, count: int) -> str:
    """A line of the table of `list --json` against `list`."""
    path = made(folder, letter, write, count)
    opcodes, lines, listing = opcodes_of(path), instructions([program, 'list', '--json', path]), instructions([program, 'list', path])
    factor = lines / listing
    return '| (%s) %s | %.0f | %.0f | %.2f | %s |' % (
        letter, what, lines / opcodes, listing / opcodes, factor, verdict({'times as many': at_most(factor, AS_LIST)}))


def gate_row(folder: str, program: str, letter: str, what: str, write: Writer, count: int) -> str:
    """A line of the table of `gate` against `calls`, with a list of a thousand lines."""
    path, names = made(folder, letter, write, count), os.path.join(folder, 'names.txt')
    with open(names, 'w') as file:
        file.writelines('app.module%d.Name: call(text number) made-state\n' % n for n in range(1000))
    opcodes, gate, calls = opcodes_of(path), instructions([program, 'gate', names, path]), instructions([program, 'calls', path])
    return '| (%s) %s | %.0f | %.0f | %.2f | %s |' % (
        letter, what, gate / opcodes, calls / opcodes, gate / calls, verdict({'times as many': at_most(gate / calls, AS_CALLS)}))


def long_string(folder: str, program: str, count: int) -> str:
    """What is said of one long string, against a copy of the listing's own text."""
    path, listed = made(folder, 'd', one_string, count), os.path.join(folder, 'listed')
    listing = shortest([program, 'list', path])
    with open(listed, 'wb') as file:
        subprocess.run([program, 'list', path], stdout=file, check=True)
    copy = shortest(['sh', '-c', 'cat "$0" | cat', listed])
    factor = listing.seconds / copy.seconds
    os.unlink(path)
    os.unlink(listed)
    return '| (d) one BINBYTES8 of %s MB, beside `cat` of its listing | %.2f s beside %.2f s: %.1f times as long; %s MB | %s times | %s |' % (
        megabytes(count), listing.seconds, copy.seconds, factor, megabytes(listing.memory), AS_COPY,
        verdict({'times as long': at_most(factor, AS_COPY, listing.seconds, copy.seconds)}))


def several_row(folder: str, program: str, letter: str, what: str, write: Writer, count: int) -> str:
    """A line of the table of several pickles in one input."""
    once, twice = made(folder, letter, write, count), made(folder, letter, write, 2 * count)
    length, command = os.path.getsize(once), [program, 'list', '--many']
    listing, longer = shortest([*command, once]), shortest([*command, twice])
    factor, beside = longer.seconds / listing.seconds, (listing.memory - length) / count
    counted = instructions([*command, made(folder, letter, write, 2 * count // 25)]) / instructions([*command, made(folder, letter, write, count // 25)])
    os.unlink(once)
    os.unlink(twice)
    good = verdict({'times as long for twice as many': at_most(factor, SEVERAL_TWICE, listing.seconds),
                    'times as many instructions for twice as many': at_most(counted, SEVERAL_TWICE),
                    'bytes a pickle': at_most(beside, BYTES_A_PICKLE), 'status': at_most(abs(listing.status), 0)})
    return '| (%s) %s | %s | %.2f s | %.2f | %.3f | %s | %.1f | %s |' % (
        letter, what, format(count, ','), listing.seconds, factor, counted, megabytes(listing.memory), beside, good)


def full_file(folder: str, program: str, count: int) -> str:
    """What is said of a large input, all of it one-byte opcodes."""
    path = made(folder, 'n', one_byte_opcodes, count)
    length, listing = os.path.getsize(path), measure([program, 'list', path])
    os.unlink(path)
    return '| (n) memory for %s MB of `N0` | %s MB, in %.2f s | %s MB | %s |' % (
        megabytes(length), megabytes(listing.memory), listing.seconds, megabytes(MOST_MEMORY),
        verdict({'MB': at_most(listing.memory / 1e6, MOST_MEMORY / 1e6)}))


def processor() -> str:
    """What the system says the processor is."""
    with open('/proc/cpuinfo') as file:
        return next((line.split(':', 1)[1].strip() for line in file if line.startswith('model name')), platform.machine())


def when(scale: fractions.Fraction) -> str:
    """When and where it is measured, and what counts under this load and at this scale."""
    processors, load = os.cpu_count() or 1, os.getloadavg()[0]
    busy = 'The machine was busy: no time counts.' if load >= processors / 2 else 'The times count if nothing else ran meanwhile.'
    small = '' if scale == 1 else ' The bars are for scale 1: only compare this with another run of the same scale.'
    return textwrap.fill('Measured on %s at scale %s, with a load of %.1f at the start, on %d processors (%s) with Python %s. %s%s' % (
        datetime.date.today(), scale, load, processors, processor(), platform.python_version(), busy, small), 100)


def listing_tables(folder: str, program: str, limit: str, scale: fractions.Fraction) -> None:
    """The tables of `list` beside the limit."""
    print(heading('Instructions of `list`', 'How many instructions `list` and the limit take for each opcode, and how many times those of the limit '
                  '`list` takes. It takes long to count them, so the files (a) to (e) are 25 times smaller here than in the next table. (f) is only '
                  f'here. Bars: the column *bar* for `list`; {TWICE} for twice the file.',
                  'File', 'opcodes', '`list`', 'bar', 'limit', 'times the limit', 'twice the file'))
    for letter, what, write, count in FILES:
        print(counted_row(folder, program, limit, letter, what, write, int(count * scale * SMALL)), flush=True)
    print(counted_row(folder, program, limit, 'f', '`N0` above 1,000 marks', under_marks, int(MARKED * scale)), flush=True)
    print(heading('Time and memory of `list`', '*Times the limit* compares `list` with the limit, and *times faster* with `python3 -m pickletools`. '
                  f'`list` and the limit run by turns, {STARTS} times each turn. *Bytes an opcode* is the memory besides the file. Bars: {AS_LIMIT} '
                  f'times the limit; at least {FASTER} times faster; {BYTES_AN_OPCODE} bytes an opcode.',
                  'File', 'MB', '`list`', 'limit', 'times the limit', 'pickletools', 'times faster', 'memory, MB', 'bytes an opcode'))
    for letter, what, write, count in FILES:
        print(timed_row(folder, program, limit, letter, what, write, int(count * scale)), flush=True)


def calls_tables(folder: str, program: str, scale: fractions.Fraction) -> None:
    """The tables of `calls`."""
    print(heading('`calls` beside `objects`', 'The first three columns are instructions for each opcode, and for twice the file, counted with files that are '
                  '25 times smaller than those of the times. '
                  f'`calls` makes the same objects and prints less. Bars: {AS_OBJECTS} times as long as `objects`; {TWICE} for twice the file.',
                  'File', '`calls`', '`objects`', 'twice the file', 'time of `calls`', 'time of `objects`', 'times as long'))
    for letter, what, write, count in [*FILES, ('r', 'REDUCE again and again', calls, CALLED)]:
        print(called_row(folder, program, letter, what, write, int(count * scale)), flush=True)
    print(heading('`calls` behind an early end', 'What `calls` takes of a file whose last byte, the STOP, is cut off, beside the whole file. '
                  'Instructions are counted with files that are 25 times smaller than those of times and memory. '
                  f'Bars: {AS_WHOLE} times that of the whole file; {AS_WHOLE_FRAMED} times for (a), which has frames, so that three kinds of loaders '
                  'are followed.', 'File', 'instructions of the whole', 'of the cut one', 'times as many', 'bar', 'time of the cut one',
                  'times as long', 'its memory, MB', 'times the bytes of memory'))
    for letter, what, write, count in [*FILES, ('r', 'REDUCE again and again', calls, CALLED)]:
        print(early_row(folder, program, letter, what, write, int(count * scale)), flush=True)


def other_tables(folder: str, program: str, scale: fractions.Fraction) -> None:
    """The tables of other commands beside `list` and `calls`, and of large and many inputs."""
    print(heading('`list --json` beside `list`', f'Instructions for each opcode, with the small files of the first table. Bar: {AS_LIST} times as many.',
                  'File', '`list --json`', '`list`', 'times as many'))
    for letter, what, write, count in FILES:
        print(lines_row(folder, program, letter, what, write, int(count * scale * SMALL)), flush=True)
    print(heading('`gate` beside `calls`', 'Instructions for each opcode, with the small files of the first table and a list of 1,000 lines. '
                  f'Bar: {AS_CALLS} times as many.', 'File', '`gate`', '`calls`', 'times as many'))
    for letter, what, write, count in FILES:
        if letter != 'c':  # (that is not in form)
            print(gate_row(folder, program, letter, what, write, int(count * scale * SMALL)), flush=True)
    print(heading('`list --many`', 'Many small pickles in one file. Two columns are about a file with twice as many pickles: its time, and its '
                  'instructions, divided by those of this file. *Bytes a pickle* is the memory besides the file. '
                  f'Bars: {SEVERAL_TWICE} for twice as many; {BYTES_A_PICKLE} bytes a pickle.',
                  'File', 'pickles', 'time', 'times as long for twice as many', 'times as many instructions for twice as many', 'memory, MB',
                  'bytes a pickle'))
    print(several_row(folder, program, 's', '`N.` again and again', small_pickles, int(SEVERAL * scale)), flush=True)
    print(several_row(folder, program, 't', 'the same behind a large pickle', behind_a_large_one, int(SEVERAL * scale)), flush=True)
    print(heading('Large inputs of `list`', 'One opcode with a long text, and a large file in which each byte is an opcode.', 'Input', 'measured', 'bar'))
    print(long_string(folder, program, int(LONG_STRING * scale)))
    print(full_file(folder, program, int(FULL * scale)))


def main() -> None:
    program, limit, scale = sys.argv[1], sys.argv[2], fractions.Fraction(sys.argv[3])
    print(when(scale))
    with tempfile.TemporaryDirectory() as folder:
        listing_tables(folder, program, limit, scale)
        calls_tables(folder, program, scale)
        other_tables(folder, program, scale)


if __name__ == '__main__':
    main()
