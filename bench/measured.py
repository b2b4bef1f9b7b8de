#!/usr/bin/env python3
"""Measures what docs/why/measured.md shows, and writes it there: bench/measured.py

One run makes all files, runs all commands one after another, keeps the numbers in bench/measured.json, and has measured_page.py put them into the
page. It wants Linux, the released programs in `dist`, some seven minutes of a machine that does nothing else, 8 GB of memory, and 4 GB in the
temporary folder. Rows with Node are left out where there is no `node`, and those of the limit where there is no compiler for C.

bench/measured.py SCALE makes all files so many times smaller, runs each command once, and writes the page too: 1/10 takes about two minutes.
"""

from __future__ import annotations

import datetime
import fractions
import json
import os
import pickle
import platform
import shutil
import subprocess
import sys
import tempfile
import time
from dataclasses import asdict, dataclass
from pathlib import Path
from typing import Callable, Dict, Iterator, List, Optional, Sequence, Tuple

import inputs
import limit
import processes
from inputs import MEGABYTE, ROOT
from processes import least, run

sys.path.insert(0, str(ROOT / 'python'))
import picklestep  # noqa: E402

ENTRANCE = str(ROOT / 'picklestep')
PROGRAM = str(ROOT / 'dist/linux-x86_64-static/picklestep')
MODULE = str(ROOT / 'dist/picklestep.mjs')
PACKAGE = f'import sys; sys.path.insert(0, {str(ROOT / "python")!r}); import picklestep; '
GENOPS = 'import pathlib, pickletools, sys\nfor path in sys.argv[1:]:\n    for _ in pickletools.genops(pathlib.Path(path).read_bytes()): pass'
KEPT = Path(__file__).with_suffix('.json')
HOSTILE = b'cposix\nsystem\n(X\x02\x00\x00\x00idtR.'


@dataclass(frozen=True)
class Row:
    """A measurement: the table that it belongs to, what was done, with what, and what it took: seconds that passed, seconds of processors, memory.

    Of a server nobody knows what a question to it took of the processors. A call of a function has no memory of its own.
    """

    table: str
    what: str
    given: str
    seconds: float
    used: Optional[float]
    memory: Optional[int]


# --- One file ---

@dataclass(frozen=True)
class Word:
    """A word of the command, as the page names it, with its arguments, what it reads, and how many megabytes the largest file has that it gets.

    FILE, OTHER, CUT, TEXT, NAMES and OUT among the arguments stand for files, and LIMIT for the program of limit.c. TEXT is what `list` prints of FILE.
    """

    what: str
    words: List[str]
    lines: bytes = b''
    largest: int = 10
    status: int = 0


# (by its own limits scan gives up on 100 MB)
WITHOUT_LIMITS = ['--max-memory', '16G', '--max-seconds', '10000', '--max-lines', '1000000000']
WORDS = [
    Word('`list`', [ENTRANCE, 'list', 'FILE'], largest=100),
    Word('`gate`', [ENTRANCE, 'gate', 'NAMES', 'FILE'], largest=100),
    Word('`objects`', [ENTRANCE, 'objects', 'FILE'], largest=100),
    Word('`debug`, run to the end', [ENTRANCE, 'debug', 'FILE'], b'run\n', largest=100),
    Word('`calls`', [ENTRANCE, 'calls', 'FILE'], largest=100),
    Word('`scan`', [ENTRANCE, 'scan', *WITHOUT_LIMITS, 'FILE'], largest=100),
    Word('`mend` of the same, cut off', [ENTRANCE, 'mend', 'CUT', '--save', 'OUT'], status=1),
    Word('`assemble` of what `list` prints', [ENTRANCE, 'assemble', 'TEXT', '--save', 'OUT']),
    Word('`source`', [ENTRANCE, 'source', 'FILE'], largest=1),
    Word('`picklestep.tree` (Python)', [sys.executable, '-c', PACKAGE + 'picklestep.tree(sys.argv[1])', 'FILE'], largest=1),
    Word('`size`', [ENTRANCE, 'size', 'FILE'], largest=1),
    Word('`diff`, if one number differs', [ENTRANCE, 'diff', 'FILE', 'OTHER'], largest=1, status=1),
    Word('`optimize`', [ENTRANCE, 'optimize', 'FILE', '--save', 'OUT'], largest=1),
    Word('`convert --protocol 2`', [ENTRANCE, 'convert', 'FILE', '--protocol', '2', '--save', 'OUT'], largest=1),
    Word('*the limit: a C program that prints what `list` does*', ['LIMIT', 'FILE'], largest=100),
    Word('*`python3 -m pickletools`*', [sys.executable, '-m', 'pickletools', 'FILE'], largest=1),
    Word('*`pickle.load`*', [sys.executable, '-c', 'import pickle, sys; pickle.load(open(sys.argv[1], "rb"))', 'FILE'], largest=100),
]


FAULTS: List[str] = []


def sized(size: float) -> str:
    """A size in megabytes, as the page has it."""
    return f'{size / 1000:g} GB' if size >= 1000 else f'{size:g} MB' if size >= 0.1 else f'{size * 1000:g} KB'


def command_row(table: str, what: str, given: str, command: Sequence[str], folder: Path, lines: bytes = b'', statuses: Sequence[int] = (0,),
                repeated: bool = True) -> Iterator[Row]:
    """What a command takes. If it does not end as it should, there is no row. What changes its files is not repeated."""
    taken = (least if repeated else run)(command, lines, str(folder))
    waited = ', WAITED' if taken.seconds > 1.3 * taken.used + 0.1 else ''
    print(f'{table}: {what}, {given}: {taken.seconds:.2f} s ({taken.used:.2f} s of processors{waited}), {taken.memory / MEGABYTE:.1f} MB', file=sys.stderr)
    if taken.status in statuses:
        yield Row(table, what, given, taken.seconds, taken.used, taken.memory)
    else:
        FAULTS.append(f'{table}: {what}, {given}: status {taken.status}')


def makes_file(path: Path, content: bytes) -> Path:
    path.write_bytes(content)
    return path


def rows_of_words(folder: Path, size: float, scale: fractions.Fraction) -> Iterator[Row]:
    """All words with a pickle of so many megabytes."""
    values = inputs.records(int(inputs.RECORDS[size] * scale))
    content = inputs.pickled(values)
    values[len(values) // 2]['id'] = -1
    program = limit.compiled(folder)
    text = folder / 'text'
    files = {'TEXT': text, 'FILE': makes_file(folder / f'{size}.pickle', content), 'CUT': makes_file(folder / 'cut.pickle', content[:-len(content) // 20]),
             'OTHER': makes_file(folder / 'other.pickle', inputs.pickled(values)), 'NAMES': makes_file(folder / 'names.txt', inputs.NAMES_OF_PLAIN.encode()),
             'OUT': folder / 'out.pickle', **({'LIMIT': program} if program else {})}
    del values, content
    if program:
        limit.must_print_the_same(PROGRAM, str(program), str(files['FILE']))
    given = sized(float(size * scale))
    yield Row('opcodes', given, '', opcodes_of(files['FILE']), None, None)
    with text.open('wb') as listing:  # (of a larger file it would be too large for `assemble`)
        if size * scale <= 10:
            subprocess.run([PROGRAM, 'list', files['FILE']], stdout=listing, check=True)
    for word in WORDS:
        if size * scale <= word.largest and (program or 'LIMIT' not in word.words):
            words = [str(files.get(each, each)) for each in word.words]
            yield from command_row('words', word.what, given, words, folder, word.lines, (word.status,))


def listing_of(path: Path) -> Tuple[int, int]:
    """How many lines and bytes `list` prints."""
    lines = size = 0
    with subprocess.Popen([PROGRAM, 'list', path], stdout=subprocess.PIPE) as listing:
        assert listing.stdout is not None
        for piece in iter(lambda stream=listing.stdout: stream.read(MEGABYTE), b''):  # type: ignore[misc]
            lines, size = lines + piece.count(b'\n'), size + len(piece)
    assert listing.returncode == 0
    return lines, size


def opcodes_of(path: Path) -> int:
    """How many opcodes a file has: `list` prints a line for each, and one more."""
    return listing_of(path)[0] - 1


def rows_of_contents(folder: Path, scale: fractions.Fraction) -> Iterator[Row]:
    """Some words with files of ten megabytes that have other contents."""
    for name, make in inputs.CONTENTS.items():
        path = makes_file(folder / 'contents.pickle', make(int(MEGABYTE * scale)))
        yield from command_row('contents', '`scan`', name, [ENTRANCE, 'scan', *WITHOUT_LIMITS, str(path)], folder, b'', (0, 1))
        makes_file(path, make(int(10 * MEGABYTE * scale)))
        yield Row('opcodes', name, '', opcodes_of(path), None, None)
        for word, lines in {'list': b'', 'calls': b'', 'objects': b'', 'debug': b'run\n'}.items():
            yield from command_row('contents', f'`{word}`', name, [ENTRANCE, word, str(path)], folder, lines, (0, 1))


# --- Many files, and large ones ---

def rows_of_many(folder: Path, scale: fractions.Fraction) -> Iterator[Row]:
    """Folders of many files."""
    count = int(10_000 * scale)
    inputs.make_plain(folder / 'plain', count)
    inputs.make_mixed(folder / 'mixed', count)
    inputs.make_plain(folder / 'few', count // 10)
    names = makes_file(folder / 'names.txt', inputs.NAMES_OF_PLAIN.encode())
    plain = sorted(map(str, (folder / 'plain').iterdir()))
    mixed = f'{count:,} files of 1 to 9 KB, a fourth of them models'
    calls = PACKAGE + 'import pathlib\nfor path in sys.argv[1:]: list(picklestep.calls(pathlib.Path(path).read_bytes()))'
    given = f'{count:,} pickles of 2 to 7 KB'
    yield from command_row('many', '`scan --jobs 4`', mixed, [ENTRANCE, 'scan', '--jobs', '4', str(folder / 'mixed')], folder, statuses=(0, 1))
    yield from command_row('many', '`gate`', given, [ENTRANCE, 'gate', str(names), *plain], folder)
    given = f'{count // 10:,} pickles of 2 to 7 KB'
    yield from command_row('many', '`scan`', given, [ENTRANCE, 'scan', str(folder / 'few')], folder)
    yield from command_row('many', 'Python: `picklestep.calls` in a loop', given, [sys.executable, '-c', calls, *plain[:count // 10]], folder)
    yield from command_row('many', '*`pickletools.genops` in a loop*', given, [sys.executable, '-c', GENOPS, *plain[:count // 10]], folder)
    renamed = [ENTRANCE, 'rename', 'collections', 'other', str(folder / 'few'), '--jobs', '4', '--in-place']
    yield from command_row('many', '`rename --jobs 4`', given, renamed, folder, repeated=False)
    inputs.make_tiny(folder / 'tiny', 10 * count)
    given = f'{10 * count:,} pickles of 20 bytes'
    yield from command_row('many', '`scan --jobs 4`', given, [ENTRANCE, 'scan', '--jobs', '4', str(folder / 'tiny')], folder)
    for name in ('plain', 'mixed', 'few', 'tiny'):
        shutil.rmtree(folder / name)


def rows_of_large(folder: Path, scale: fractions.Fraction) -> Iterator[Row]:
    """Files that are larger than most."""
    path, gigabyte = folder / 'large', sized(float(1000 * scale))
    inputs.make_model(path, int(5000 * MEGABYTE * scale) >> 20 << 20)
    given = f'a `.pt` of {sized(float(5000 * scale))}, whose pickle has 1 MB'
    yield from command_row('many', '`scan`', given, [ENTRANCE, 'scan', str(path)], folder)
    makes_file(path, inputs.array(int(100 * MEGABYTE * scale)))
    yield from command_row('many', '`size`', f'a pickle of {sized(float(100 * scale))}: one object of bytes', [ENTRANCE, 'size', str(path)], folder)
    makes_file(path, inputs.array(int(1000 * MEGABYTE * scale)))
    yield from command_row('many', '`calls`', f'a pickle of {gigabyte}: one object of bytes', [ENTRANCE, 'calls', str(path)], folder)
    path.unlink()
    inputs.make_database(path, int(100_000 * scale))
    given = f'an SQLite file with {int(100_000 * scale):,} pickles of 1 KB'
    yield from command_row('many', '`scan`', given, [ENTRANCE, 'scan', str(path)], folder, statuses=(0, 1))
    path.unlink()


def rows_of_slow(folder: Path, scale: fractions.Fraction) -> Iterator[Row]:
    """What takes long for its size."""
    path = makes_file(folder / 'slow', inputs.under_marks(3333))
    given = f'a hostile pickle of 10 KB, with 3,333 open marks: the listing has {listing_of(path)[1] / MEGABYTE:.0f} MB'
    yield from command_row('slow', '`list`', given, [ENTRANCE, 'list', str(path)], folder)
    inputs.make_bomb(path, int(100 * MEGABYTE * scale))
    given = f'a zip archive of {sized(float(scale / 10))} that unpacks to {sized(float(100 * scale))}'
    yield from command_row('slow', '`scan`', given, [ENTRANCE, 'scan', str(path)], folder, statuses=(0, 1))
    makes_file(path, os.urandom(int(10 * MEGABYTE * scale)))
    given = f'{sized(float(10 * scale))} of random bytes'
    yield from command_row('slow', '`scan --everywhere`', given, [ENTRANCE, 'scan', '--everywhere', str(path)], folder, statuses=(0, 1))
    makes_file(path, inputs.short_opcodes(int(MEGABYTE * scale / 5)))
    given, edits = f'{sized(float(scale / 5))} of NONE and POP in turn', inputs.inserts(1000, int(MEGABYTE * scale / 5))
    command, back = [ENTRANCE, 'debug', str(path)], b'run\n' + b'back\n' * 1000
    what = '`debug --window 10`, which keeps 10 steps: run to the end, and 1,000 steps back'
    yield from command_row('slow', what, given, [*command, '--window', '10'], folder, back)
    yield from command_row('slow', '`debug`: 1,000 edits at random places', given, command, folder, edits)
    path.unlink()


# --- The debugger ---

def rows_of_debugger(folder: Path, scale: fractions.Fraction) -> Iterator[Row]:
    """Steps and edits, and how long a debugger takes to open."""
    path, given, count = folder / '10.pickle', f'records of {sized(float(10 * scale))}', int(MEGABYTE * scale)
    back = b'run\n' + b'back\n' * count
    for what, lines in {f'{count:,} single steps': b'step\n' * count, f'run to the end, and {count:,} steps back': back}.items():
        yield from command_row('debugger', f'`debug`: {what}', given, [ENTRANCE, 'debug', str(path)], folder, lines)
    what = '`debug --window 100`, which keeps 100 steps: run to the end'
    yield from command_row('debugger', what, given, [ENTRANCE, 'debug', '--window', '100', str(path)], folder, b'run\n')
    yield from command_row('debugger', '`shell`: open it, and quit', given, [ENTRANCE, 'shell', str(path)], folder, b'quit\n')
    yield from rows_of_long(folder / 'long.pickle', scale)


def rows_of_long(path: Path, scale: fractions.Fraction) -> Iterator[Row]:
    """How long the prompt takes to open a pickle of which it reads the first part, and all of a smaller one."""
    for words, millions in ((['shell'], 90), (['shell', '--whole'], 30)):
        opcodes = int(millions * MEGABYTE * scale)
        makes_file(path, inputs.long_list(opcodes))
        given = f'records of {sized(round(path.stat().st_size / MEGABYTE))}, in {opcodes / MEGABYTE:g} million opcodes'
        yield from command_row('debugger', f'`{" ".join(words)}`: open it, and quit', given, [ENTRANCE, *words, str(path)], path.parent, b'quit\n')
        path.unlink()


# --- Starts and single questions ---

def function_row(what: str, action: Callable[[], object], times: int = 1000) -> Row:
    """The least of five times, each the mean of many calls."""
    taken = []
    for _ in range(5):
        start = time.process_time()
        for _ in range(times):
            action()
        taken.append((time.process_time() - start) / times)
    return Row('starts', what, '', min(taken), min(taken), None)


def rows_of_starts(folder: Path) -> Iterator[Row]:
    """How long a question about 25 bytes takes."""
    file = str(makes_file(folder / 'hostile.pickle', HOSTILE))
    ways = {
        'the native program in `dist`: `picklestep calls FILE`': [PROGRAM, 'calls', file],
        '`./picklestep list FILE`, which starts that program': [ENTRANCE, 'list', file],
        '`./picklestep calls FILE`, which starts Python': [ENTRANCE, 'calls', file],
        '`./picklestep FILE`, which is `scan` and starts Python': [ENTRANCE, file],
        '*a Python that starts, and does nothing*': [sys.executable, '-c', 'pass'],
        'a Python that starts, and asks `picklestep.calls` once': [sys.executable, '-c', PACKAGE + 'picklestep.calls(open(sys.argv[1], "rb").read())', file]}
    if shutil.which('node'):
        ways['Node: `node picklestep.mjs calls FILE`'] = ['node', MODULE, 'calls', file]
    for what, command in ways.items():
        yield from command_row('starts', what, '', command, folder, statuses=(0, 1))
    yield function_row('Python: `picklestep.calls(data)`, asked before', lambda: list(picklestep.calls(HOSTILE)))
    yield function_row("Python: `picklestep.check(data, allow=['sklearn'])`", lambda: picklestep.check(b']K\x01a.', allow=['sklearn']), 200)
    with picklestep.Session(HOSTILE) as session:
        yield function_row('Python: a step and a step back in a `Session`', lambda: (session.step(), session.back()))


def rows_of_node(folder: Path, scale: fractions.Fraction) -> Iterator[Row]:
    """The module in Node beside the native program, with the records of ten megabytes. (Most of what the entrance takes is the start of Python.)"""
    if shutil.which('node'):
        path, given = str(folder / '10.pickle'), f'records of {sized(float(10 * scale))}'
        yield from command_row('node', '`calls`, the native program alone', given, [PROGRAM, 'calls', path], folder)
        yield from command_row('node', '`calls` in Node', given, ['node', MODULE, 'calls', path], folder)


# --- The run ---

def machine() -> Dict[str, Any]:
    """Where and when it is measured."""
    with open('/proc/cpuinfo', encoding='utf-8') as file:
        processor = next((line.split(':', 1)[1].strip() for line in file if line.startswith('model name')), platform.machine())
    node = subprocess.run(['node', '--version'], capture_output=True, text=True, check=False).stdout.strip() if shutil.which('node') else ''
    return {'day': str(datetime.date.today()), 'version': picklestep.__version__, 'processor': ' '.join(processor.split()),
            'processors': os.cpu_count(), 'memory': os.sysconf('SC_PAGE_SIZE') * os.sysconf('SC_PHYS_PAGES'),
            'python': platform.python_version(), 'node': node.lstrip('v'), 'load': os.getloadavg()[0]}


def all_rows(folder: Path, scale: fractions.Fraction) -> Iterator[Row]:
    yield from rows_of_starts(folder)
    for size in (0.1, 1, 10):
        yield from rows_of_words(folder, size, scale)
    yield from rows_of_node(folder, scale)
    yield from rows_of_debugger(folder, scale)
    yield from rows_of_contents(folder, scale)
    yield from rows_of_many(folder, scale)
    yield from rows_of_large(folder, scale)
    yield from rows_of_slow(folder, scale)
    yield from rows_of_words(folder, 100, scale)


def main() -> None:
    scale = fractions.Fraction(sys.argv[1]) if len(sys.argv) > 1 else fractions.Fraction(1)
    processes.RUNS = 3 if scale == 1 else 1
    start = time.perf_counter()
    with tempfile.TemporaryDirectory() as name:
        run([ENTRANCE, os.devnull])  # (Python compiles its modules)
        where, rows = machine(), [asdict(row) for row in all_rows(Path(name), scale)]
    print(f'{time.perf_counter() - start:.0f} s, load {where["load"]:.1f} at the start', *FAULTS, sep='\n', file=sys.stderr)
    where.update(sizes=[sized(float(size * scale)) for size in inputs.RECORDS], runs=processes.RUNS)
    KEPT.write_text(json.dumps({'machine': where, 'rows': rows}, indent=0) + '\n', encoding='utf-8')
    subprocess.run([sys.executable, '-B', str(ROOT / 'bench/measured_page.py')], check=True)
    sys.exit(1 if FAULTS else 0)


if __name__ == '__main__':
    main()
