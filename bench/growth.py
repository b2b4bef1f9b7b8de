"""growth.py PROGRAM SCALE: makes a file of each of many shapes, and one that is twice as large, and prints how many times the instructions the
second takes, in each of some commands."""

from __future__ import annotations

import fractions
import os
import subprocess
import sys
import tempfile
from collections.abc import Callable, Sequence
from concurrent.futures import ThreadPoolExecutor
from typing import NamedTuple

from bars import at_most, heading, verdict
from measure import instructions, when

# how many times the instructions a file that is twice as large takes at most
TWICE = 2.1
# how many repeated parts the smaller file has; shapes whose parts cost more have fewer
PARTS = 10_000
# what a command takes of this one, it takes of any file: it is left out of what is compared
SMALLEST = b'N.'
# instructions for each byte to read a file into memory that grows by steps: a command that ends at the beginning takes no more, and counts as this many
TO_READ = 4


# --- Shapes: a pickle of so many parts ---

def little(number: int, width: int) -> bytes:
    return number.to_bytes(width, 'little')


def keys_far_apart(parts: int) -> bytes:
    return b'N' + b''.join(b'r' + little(part * 2_654_435_761 % (1 << 32), 4) for part in range(parts)) + b'.'


def largest_keys(parts: int) -> bytes:
    return b'N' + b''.join(b'p%d\n' % ((1 << 64) - 1 - part * 1_000_003) for part in range(parts)) + b'.'


def gets_at_random(parts: int) -> bytes:
    return b'N\x94' * parts + b''.join(b'j' + little(part * 7919 % parts, 4) for part in range(parts)) + b'.'


def few_keys_far_apart(parts: int) -> bytes:
    """Each of 4,096 keys is given again and again."""
    return b'N' + b''.join(b'r' + little(part % 4096 << 20, 4) for part in range(parts)) + b'.'


def frames(parts: int) -> bytes:
    return b'\x80\x04' + (b'\x95' + little(2, 8) + b'N0') * parts + b'N.'


def one_frame(parts: int) -> bytes:
    return b'\x80\x04\x95' + little(2 * parts + 2, 8) + b'N0' * parts + b'N.'


def many_calls_of_many_arguments(parts: int) -> bytes:
    """As many calls as each has arguments would be quadratic if all of these were looked at each time."""
    side = b'K\x01' * parts
    return b'cm\nn\nq\x000(' + side + b'tq\x010' + b'h\x00h\x01R0' * parts + b'N.'


def calls_with_one_text(parts: int) -> bytes:
    """The lines of `calls` have the text again and again, and the pickle has it once."""
    text = b'\x8c' + bytes([200]) + b'a' * 200 + b'q\x000'
    return text + b'cm\nn\nq\x010' + b'h\x01h\x00\x85R0' * parts + b'N.'


class Shape(NamedTuple):
    """What it is, its pickle of so many parts, whether that is several pickles, and how many times fewer parts it gets."""

    what: str
    make: Callable[[int], bytes]
    many: bool = False
    divisor: int = 1


SHAPES = [
    Shape('open marks', lambda parts: b'(' * parts + b'N.', divisor=10),
    Shape('objects above open marks', lambda parts: b'(' * parts + b'N0' * parts + b'N.', divisor=33),
    Shape('marks that are set and taken', lambda parts: b'(N1' * parts + b'N.'),
    Shape('keys of the memo far apart', keys_far_apart),
    Shape('4,096 keys of the memo far apart', few_keys_far_apart),
    Shape('PUT of the largest keys', largest_keys),
    Shape('MEMOIZE, and gets at random', gets_at_random),
    Shape('GLOBAL, each another', lambda parts: b''.join(b'cm%d\nn\n0' % part for part in range(parts)) + b'N.'),
    Shape('STACK_GLOBAL', lambda parts: b'\x8c\x01m\x8c\x01n\x930' * parts + b'N.'),
    Shape('frames', frames),
    Shape('one frame', one_frame),
    Shape('long lines', lambda parts: (b'V' + b'x' * (10 * parts) + b'\n0') * 10 + b'N.'),
    Shape('long lines of escapes', lambda parts: (b'V' + b'\\u20ac' * parts + b'\n0') * 10 + b'N.', divisor=2),
    Shape('a long integer', lambda parts: b'\x8b' + little(4 * parts, 4) + b'\x01' * (4 * parts) + b'.'),
    Shape('nested lists', lambda parts: b']' * parts + b'a' * (parts - 1) + b'.'),
    Shape('nested tuples', lambda parts: b')' + b'\x85' * parts + b'.'),
    Shape('tuples of the same twice', lambda parts: b'N' + b'2\x86' * parts + b'.'),
    Shape('one list of many', lambda parts: b'](' + b'K\x01' * parts + b'e.'),
    Shape('one dictionary of many', lambda parts: b'}(' + b'K\x01K\x02' * parts + b'u.'),
    Shape('calls of one function', lambda parts: b'cm\nn\nq\x000' + b'h\x00)R0' * parts + b'N.'),
    Shape('calls of what a call made', lambda parts: b'cm\nn\n' + b')R' * parts + b'.'),
    Shape('calls with many arguments', many_calls_of_many_arguments, divisor=5),
    Shape('calls with one text', calls_with_one_text),
    Shape('a call with tuples of the same twice', lambda parts: b'cm\nn\nN' + b'2\x86' * parts + b'R.'),
    Shape('states of one object', lambda parts: b'cm\nn\n)R' + b'}b' * parts + b'.'),
    Shape('many small pickles', lambda parts: b'N.' * parts, many=True),
    Shape('early end: no STOP', lambda parts: b'N0' * parts),
    Shape('early end: a refused POP', lambda parts: b'N0' * parts + b'0N.'),
    Shape('early end behind calls', lambda parts: b'cm\nn\nq\x000' + b'h\x00)R0' * parts),
]
# what stands for the file of a shape, and for a list that allows all names
FILE, NAMES = 'FILE', 'NAMES'
ALL_NAMES = b'**\n'
# `same` compares the file with itself
COMMANDS = {
    'list': ('list', FILE),
    'list --json': ('list', '--json', FILE),
    'objects': ('objects', FILE),
    'objects --json': ('objects', '--json', FILE),
    'calls': ('calls', FILE),
    'calls --full': ('calls', '--full', FILE),
    'calls --json': ('calls', '--json', FILE),
    'form': ('form', FILE),
    'reach': ('reach', FILE),
    'gate': ('gate', NAMES, FILE),
    'same': ('same', FILE, FILE),
    'debug': ('debug', FILE),
}
# the words with an option for several pickles
OF_SEVERAL = ('list', 'objects', 'same', 'debug')
# `debug` runs to the end; what `show` takes is what it adds to that
RUN, SHOW = b'run\n', b'run\nshow 0\n'


# --- Runs ---

class Asked(NamedTuple):
    """A command, with a word in the place of its file, and the file with the lines that it reads."""

    words: Sequence[str]
    lines: str

    def of(self, path: str) -> list[str]:
        """The command that is about a file."""
        return [path if word == FILE else word for word in self.words]

    def instructions(self, path: str) -> int:
        return instructions(self.of(path), self.lines)

    def printed(self, path: str) -> int:
        """How many bytes it prints."""
        with open(self.lines, 'rb') as given, tempfile.TemporaryFile() as answer:
            subprocess.run(self.of(path), stdin=given, stdout=answer, stderr=subprocess.DEVNULL)
            return answer.seek(0, os.SEEK_END)


def written(folder: str, name: str, content: bytes) -> str:
    path = os.path.join(folder, name)
    with open(path, 'wb') as file:
        file.write(content)
    return path


def questions(program: str, folder: str, many: bool) -> dict[str, tuple[Asked, Asked | None]]:
    """What is compared: each command, and what of it is left out."""
    run, show, names = (written(folder, name, content) for name, content in (('run', RUN), ('show', SHOW), ('names', ALL_NAMES)))
    plain = {}
    for what, (word, *rest) in COMMANDS.items():
        options = ['--many'] if many and word in OF_SEVERAL else []
        plain[what] = Asked([program, word, *options, *(names if each == NAMES else each for each in rest)], run)
    return {**{what: (asked, None) for what, asked in plain.items()}, 'show': (plain['debug']._replace(lines=show), plain['debug'])}


def grown(asked: Asked, within: Asked | None, smallest: str, once: str, twice: str) -> float:
    """How many times as much a command takes of twice the file."""
    if within is not None:
        taken, more = (asked.instructions(path) - within.instructions(path) for path in (once, twice))
    else:
        least = asked.instructions(smallest)
        taken, more = (max(asked.instructions(path) - least, TO_READ * os.path.getsize(path)) for path in (once, twice))
    return more / taken


def row(program: str, folder: str, shape: Shape, parts: int) -> str:
    """A line of the table: how many times as much each command takes of twice the file."""
    smallest, once, twice = (written(folder, name, content) for name, content in (
        ('smallest', SMALLEST), ('once', shape.make(parts)), ('twice', shape.make(2 * parts))))
    asked_of = questions(program, folder, shape.many)
    bars, quadratic = {}, []
    with ThreadPoolExecutor(os.cpu_count()) as pool:  # (how many there are depends on nothing else that runs)
        factors = list(pool.map(lambda each: grown(each[0], each[1], smallest, once, twice), asked_of.values()))
    for (word, (asked, _)), factor in zip(asked_of.items(), factors):
        longer = asked.printed(twice) / asked.printed(once) if factor > TWICE else 0
        if longer > TWICE:
            quadratic.append(f'; the output of `{word}` is {longer:.2f} times as long')
        bars[f'`{word}`'] = at_most(factor, TWICE if longer <= TWICE else round(TWICE / 2 * longer, 2))
    cells = ' | '.join(f'{factor:.2f}' for factor in factors)
    return f'| {shape.what} | {os.path.getsize(once) / 1000:,.1f} | {cells} | {verdict(bars)}{"".join(quadratic)} |'


def main() -> None:
    program, scale = sys.argv[1], fractions.Fraction(sys.argv[2])
    if '--alone' in sys.argv:
        print(when(scale))
    print(heading('Growth', 'How many times the instructions each command takes of a file that is twice as large as one of *KB*. `debug` runs to the '
                  'end. `show` is what `show 0` adds to that: in most shapes it shows one small object among many. `gate` has a list that allows all '
                  'names, and `same` compares the file with itself. What a command takes of the smallest pickle is left out. '
                  f'A command that ends at the beginning of the file only reads it, which counts as {TO_READ} instructions for each byte. '
                  f'Bars: {TWICE} times; where the output itself grows by more, the result says so, and that many times and a twentieth.',
                  'Shape', 'KB', *(f'`{word}`' for word in (*COMMANDS, 'show'))))
    with tempfile.TemporaryDirectory() as folder:
        for shape in SHAPES:
            print(row(program, folder, shape, max(int(PARTS * scale / shape.divisor), 2)), flush=True)


main()
