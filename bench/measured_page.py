#!/usr/bin/env python3
"""Writes the numbers of bench/measured.json into docs/why/measured.md: bench/measured_page.py [--check]

What stands in the page between the marks `<!-- begin -->` and `<!-- end -->`, and between `<!-- run -->` and `<!-- end of run -->`, and the first table
below each of some headings, is made here. With --check nothing is written, and the status says whether the page has them.
"""

from __future__ import annotations

import json
import re
import statistics
import sys
import textwrap
from pathlib import Path
from typing import Any, Callable, Dict, List, Optional, Tuple

KEPT = Path(__file__).with_name('measured.json')
PAGE = Path(__file__).resolve().parent.parent / 'docs/why/measured.md'
SECONDS, MEMORY = 's', 'MB'
# the columns of a table: the row of the first table that has the same, and what it shows
CONTENTS = (('list', SECONDS), ('calls', SECONDS), ('calls', MEMORY), ('objects', MEMORY), ('debug', MEMORY))
RECORDS, DEBUG, SCAN, JOBS = 'records, as above', '`debug`, run to the end', '`scan`', '`scan --jobs 4`'
# What people ask about: a pickle of so many megabytes. What a word takes for it is a guess if it was measured only with files that are less
# than a tenth as large.
ASKED, GUESSED = 40, 10
# What to use in place of the words that are slow.
OTHER_WAYS = {
    '`mend` of the same, cut off': '`list --unframed` shows what is left',
    '`source`': '`source --first N`, which reads only the first N opcodes; or `calls`',
    '`picklestep.tree` (Python)': '`list`, which shows each value',
    '`size`': '`list`: the difference of two offsets is the size of an opcode',
    '`diff`, if one number differs': '`list` of both files, and `diff` of your system',
    '`optimize`': '`pickletools.optimize`, which is quicker, and compares nothing',
    '`convert --protocol 2`': 'if the file is yours: load it, and pickle it again'}
# What people would use in place of picklestep, or to compare with: the first table that has both rows, the input, and what is done.
LIMIT, SMALL_FILES = '*the limit: a C program that prints what `list` does*', '1,000 pickles of 2 to 7 KB'
BESIDE = [
    ('words', '1 MB', '`list`', '*`python3 -m pickletools`*'),
    ('words', '100 MB', '`list`', LIMIT),
    ('words', '10 MB', '`calls`', '*`pickle.load`*'),
    ('words', '10 MB', '`objects`', '*`pickle.load`*'),
    ('node', 'records of 10 MB', '`calls`, the native program alone', '`calls` in Node'),
    ('many', SMALL_FILES, 'Python: `picklestep.calls` in a loop', '*`pickletools.genops` in a loop*'),
    ('many', SMALL_FILES, '`scan`', '*`pickletools.genops` in a loop*')]
MEMORY_ENDS = (
    '**If memory runs out**, these words end with `picklestep: out of memory` and status 2, or Linux kills them (status 137). In both cases nothing is '
    'saved, and your file is as it was. To keep the rest of the machine alive, type `ulimit -v 4000000` before: each command in this shell then gets '
    'at most 4 GB.')
# The memory that `scan` takes for a file at most, if it is not told otherwise.
MEMORY_OF_SCAN = 1 << 30

Key = Tuple[str, str, str]
Numbers = Tuple[float, Optional[int]]


def seconds(value: float) -> str:
    """With two digits, as far as hundredths."""
    return f'{max(value, 0.01):.2f}' if value < 0.995 else f'{value:.1f}' if value < 9.95 else f'{value:.0f}'


def short_time(value: float) -> str:
    """With a unit: the rows of one table are from microseconds to a second."""
    if value == 0:  # (processors are counted in hundredths)
        return 'less than 10 ms'
    return f'{value * 1e6:.0f} microseconds' if value < 1e-3 else f'{value * 1e3:.0f} ms' if value < 0.9995 else f'{value:.1f} s'


def megabytes(value: Optional[int]) -> str:
    return '' if value is None else f'{value / 1e6:.1f}' if value < 9.95e6 else f'{value / 1e6:,.0f}'


def span(value: float) -> str:
    """A time with its unit, as people say it."""
    return f'{seconds(value)} s' if value < 99.5 else f'{value / 60:.0f} minutes'


def room(value: float) -> str:
    """Memory with its unit."""
    return f'{value / 1e9:.1f} GB' if value >= 1e9 else f'{megabytes(int(value))} MB'


def guess(value: float, show: Callable[[float], str]) -> str:
    """With one digit, and with what it is a number of."""
    number, unit = show(value).split()
    return f'{float(f"{float(number):.0e}"):g} {unit}'


def table(heads: List[str], rows: List[List[str]]) -> str:
    """The columns after the first are numbers, but those whose heads begin with !."""
    rules = ['---', *('---' if head.startswith('!') else '---:' for head in heads[1:])]
    lines = [[head.lstrip('!') for head in heads], rules, *rows]
    return '\n'.join('|' + '|'.join(line) + '|' if line is rules else '| ' + ' | '.join(line) + ' |' for line in lines)


def megabytes_in(size: str) -> float:
    """How many megabytes a size is, as measured.py writes it."""
    number, unit = size.split()
    return float(number) * {'KB': 0.001, 'MB': 1, 'GB': 1000}[unit]


class Kept:
    """The numbers that were kept, and the parts of the page that they make."""

    def __init__(self, content: Dict[str, Any]) -> None:
        self.machine: Dict[str, Any] = content['machine']
        self.sizes: List[str] = self.machine['sizes']
        self.middle = self.sizes[-2]
        # Where other work kept the processors, commands waited for them: then the seconds of processors say what a command takes.
        ratios = [row['seconds'] / row['used'] for row in content['rows'] if row['used'] is not None and row['used'] > 0.5]
        self.is_quiet = statistics.median(ratios) < 1.1
        self.rows: Dict[Key, Numbers] = {
            (row['table'], row['what'], row['given']): (row['seconds'] if self.is_quiet or row['table'] == 'opcodes' else row['used'], row['memory'])
            for row in content['rows'] if self.is_quiet or row['used'] is not None or row['table'] == 'opcodes'}
        # How long the processors worked for `scan --jobs 4`.
        self.used_by_jobs: float = next(row['used'] for row in content['rows'] if row['what'] == JOBS)

    def of(self, name: str) -> List[Tuple[str, str, Numbers]]:
        """The rows of a table."""
        return [(what, given, numbers) for (of, what, given), numbers in self.rows.items() if of == name]

    # --- The tables ---

    def words(self) -> str:
        heads = ['Command', *(f'{size}: s' for size in self.sizes), 'each further MB: s', f'memory for {self.sizes[1]}: MB', 'memory for each further MB: MB']
        rows = []
        for word in dict.fromkeys(what for what, _, _ in self.of('words')):
            times = [self._cell('words', word, size, SECONDS) for size in self.sizes]
            room = self._cell('words', word, self.sizes[1], MEMORY)
            rows.append([word, *times, f'{self._further(word, 0):.2g}', room, f'{self._further(word, 1) / 1e6:.1f}'])
        return table(heads, rows)

    def contents(self) -> str:
        names = list(dict.fromkeys(given for _, given, _ in self.of('contents')))
        first = [self._cell('words', DEBUG if word == 'debug' else f'`{word}`', self.middle, shown) for word, shown in CONTENTS]
        rows = [[RECORDS, self._opcodes(self.middle), *first, self._cell('words', '`scan`', self.sizes[1], SECONDS)]]
        columns = (*CONTENTS, ('scan', SECONDS))
        rows += [[name, self._opcodes(name), *(self._cell('contents', f'`{word}`', name, shown) for word, shown in columns)] for name in names]
        heads = [f'`{word}`: {shown}' for word, shown in CONTENTS]
        return table([f'{self.middle} of', 'opcodes', *heads, f'`scan` of {self.sizes[1]}: s'], rows)

    def listed(self, *names: str) -> str:
        """Rows that say what was done with what, what it took, and how much memory."""
        return table(['Command', '!Input', 's', 'MB'],
                     [[what, given, seconds(taken), megabytes(memory)] for name in names for what, given, (taken, memory) in self.of(name)
                      if not self._is_daily(what)])

    def starts(self) -> str:
        return table(['With a pickle of 25 bytes', 'Time'], [[what, short_time(taken)] for what, _, (taken, _) in self.of('starts')])

    def _cell(self, name: str, what: str, given: str, shown: str) -> str:
        numbers = self.rows.get((name, what, given))
        return '' if numbers is None else seconds(numbers[0]) if shown == SECONDS else megabytes(numbers[1])

    def _opcodes(self, name: str) -> str:
        count = self.rows['opcodes', name, ''][0]
        return f'{count / 1e6:.1f} million' if count >= 1e6 else f'{count:,.0f}'

    def beside(self) -> str:
        """What other programs take for the same input."""
        rows = [[f'records of {given}' if name == 'words' else given, what, seconds(ours), other, seconds(theirs), f'{theirs / ours:.1f}']
                for name, given, what, other in BESIDE if (ours := self._time(name, what, given)) and (theirs := self._time(name, other, given))]
        return table(['Input', '!You use', 's', '!In place of it', 's', 'times as long'], rows)

    def _time(self, name: str, what: str, given: str) -> float:
        return self.rows.get((name, what, given), (0.0, None))[0]

    # --- The answers to what people ask ---

    def answers(self) -> str:
        """What most readers want to know."""
        parts = [self._unit(), f'## A pickle of {ASKED} MB', self._asked(), self._about_asked(), self._slow(), MEMORY_ENDS, '## A `.pt` of 5 GB',
                 self._about_models(), '## Many files', self._daily(), self._about_starts()]
        return '\n\n'.join(part if part.startswith(('|', '#')) else filled(part) for part in parts)

    def _unit(self) -> str:
        time = ('*Time* is how long you wait, on a machine that does nothing else.' if self.is_quiet else
                '*Time* is CPU time: how long the processors worked for the command. On a machine that does nothing else you wait about as long, and longer if '
                'the bytes come from a slow disk.')
        return f'{time} *Memory* is the most that all processes of the command took together. An MB has 1,000,000 bytes.'

    def _asked(self) -> str:
        """What is worked out from files that are large enough."""
        rows = [[what, *(show(self._at(what, size, which)) for size in (1, ASKED) for which, show in ((0, span), (1, room)))]
                for what in self._words() if not self._is_guessed(what)]
        return table(['You use', '1 MB: time', '1 MB: memory', f'{ASKED} MB: time', f'{ASKED} MB: memory'], rows)

    def _about_asked(self) -> str:
        most = self.sizes[-1]
        limit = megabytes_in(most) + (MEMORY_OF_SCAN - (self.rows['words', SCAN, most][1] or 0)) / self._further(SCAN, 1)
        return (
            f'The pickle holds [records](#one-pickle). What {ASKED} MB take is worked out from files of up to {most}. A pickle of long texts or of arrays '
            f'has fewer opcodes, and [takes less](#other-contents). *`pickle.load`* is Python\'s own, for comparison.{self._about_limit()}\n\n'
            '**`scan` has limits.** It takes at most 1 GiB of memory and 60 seconds of CPU time for a file, if you say nothing else. Such records meet '
            f'the limit of memory at about {round(limit, -1):.0f} MB. Then `scan` marks the file as `unread`, with status 3, and the line says what it '
            'did not look at. Try again with a higher [limit](../reference/scan.md#limits), as in `scan --max-memory 8G --max-seconds 600`.\n\n'
            f'**These words are slow.** What they take for {ASKED} MB is a guess: it takes for granted that each further MB takes as long and as much memory '
            'as the last one that was measured. The last column has a quicker way:')

    def _about_limit(self) -> str:
        """What the row of the limit is there for, if it was measured."""
        measured = LIMIT in self._words()
        return ' *The limit* shows how quick a listing could be: it is not proved.' if measured else ''

    def _slow(self) -> str:
        """What was measured with files that are far too small, and a guess from them."""
        rows = []
        for what in filter(self._is_guessed, self._words()):
            size, _ = self._largest_two(what, 0)[1]
            rows.append([what, f'{size:g} MB', *(show(self._at(what, size, which)) for which, show in ((0, span), (1, room))),
                         *(guess(self._at(what, ASKED, which), show) for which, show in ((0, span), (1, room))), OTHER_WAYS.get(what, '')])
        heads = ['You use', 'Measured with', 'time for this', 'memory for this', f'{ASKED} MB: time', f'{ASKED} MB: memory', '!In place of it']
        return table(heads, rows)

    def _words(self) -> List[str]:
        return list(dict.fromkeys(what for what, _, _ in self.of('words')))

    def _is_guessed(self, what: str) -> bool:
        return self._largest_two(what, 0)[1][0] * GUESSED < ASKED

    def _model(self) -> Tuple[str, Numbers]:
        """The model file that was measured: its size, and what it took."""
        return next((re.findall('of ([0-9.]+ [KMG]B)', given)[0], numbers) for _, given, numbers in self.of('many') if '`.pt`' in given)

    def _about_models(self) -> str:
        size, (taken, memory) = self._model()
        return (
            'A `.pt` is a zip archive. It has a small pickle, and the numbers of the tensors beside it. `scan` reads the pickle, and of the other members '
            f'only the headers. So it does not matter how many numbers there are: for a `.pt` of {size} with a pickle of 1 MB `scan` took {span(taken)} '
            f'and {room(memory or 0)} of memory. The other words find the pickle in the same way, and then read it alone. So `calls model.pt` takes about '
            'as long as `scan model.pt`.\n\n'
            '**`gate` and `members` are the exceptions**: they read the archive itself, and take at most 1 GiB. For a larger one the answer is '
            '`picklestep: too large`, with status 2. Then ask `gate` about the pickle in it, or let `scan` ask the gate:\n\n'
            "    picklestep gate LIST 'model.pt > archive/data.pkl'\n"
            '    picklestep scan --allow LIST model.pt\n\n'
            'With `--allow` `scan` asks `gate` about an archive of up to 64 MiB [as a whole](../reference/scan.md#a-file-that-gate-does-not-let-pass). It then '
            'reads all of the archive. Of a larger one it reads no more than without a list.\n\n'
            'In Python [`check`](../reference/check.md) gives back the bytes of the whole file, so it needs as much memory as the file has bytes.')

    def _daily(self) -> str:
        rows = [(given, what, taken, memory or 0) for what, given, (taken, memory) in self.of('many') if self._is_daily(what)]
        rows += [('a pickle of 25 bytes', what, taken, memory or 0)
                 for what, _, (taken, memory) in self.of('starts') if what.startswith('`./picklestep FILE`')]
        cells = [[have, what.partition(',')[0], span(taken), room(memory)] for have, what, taken, memory in rows]
        return table(['You have', '!You use', 'Time', 'Memory'], cells)

    def _about_starts(self) -> str:
        quarter = (f', which took {span(self.used_by_jobs)} of CPU time together for the first row' if self.is_quiet else
                   ': with four processors you wait about a quarter of this CPU time')
        return (f'`scan --jobs 4` shares the files out among four processes{quarter}. '
                f'Each start of `scan` takes {self._start("`./picklestep FILE`")}, so give many '
                'files to one command. `list`, `objects`, `gate`, `form`, `reach`, `members` and `debug` start a native program, which takes '
                f'{self._start("`./picklestep list")}.')

    def _is_daily(self, what: str) -> bool:
        return what in ('`gate`', JOBS)

    def _largest_two(self, word: str, which: int) -> List[Tuple[float, float]]:
        """The sizes of the two largest files that were measured, and what each took."""
        return [(megabytes_in(size), float(self.rows['words', word, size][which] or 0)) for size in self.sizes if ('words', word, size) in self.rows][-2:]

    def _further(self, word: str, which: int) -> float:
        """What a megabyte more adds, between the two largest files that were measured."""
        (before, less), (after, more) = self._largest_two(word, which)
        return (more - less) / (after - before)

    def _at(self, word: str, size: float, which: int) -> float:
        """What a file of this size takes: as it was measured, or else worked out."""
        for given in self.sizes:
            if megabytes_in(given) == size and ('words', word, given) in self.rows:
                return float(self.rows['words', word, given][which] or 0)
        after, taken = self._largest_two(word, which)[1]
        return taken + self._further(word, which) * (size - after)

    def _start(self, begin: str) -> str:
        return next(short_time(taken) for what, _, (taken, _) in self.of('starts') if what.startswith(begin))

    def run(self) -> str:
        """Where and when it was measured."""
        machine = self.machine
        node = f' and Node {machine["node"]}' if machine['node'] else ''
        unit = ('' if self.is_quiet else ' The machine was busy with other work, so the times are CPU time (user and system), summed over all processes '
                'of a command.')
        smaller = 100 / megabytes_in(self.sizes[-1])
        scale = f' The files were {smaller:g} times smaller than those of a full run.' if smaller > 1 else ''
        runs = ('What takes less than a second was run three times, and the least counts.' if machine['runs'] > 1 else 'Each command was run once.')
        runs += ' A difference of some hundredths of a second says nothing.'
        return filled(f'All numbers come from one run on {machine["day"]}, of picklestep {machine["version"]}, with '
                      f'Python {machine["python"]}{node}, on a virtual machine with {machine["processors"]} processors '
                      f'({machine["processor"].replace("(R)", "")}) and {machine["memory"] / 2**30:.0f} GiB of memory.{unit} The output was thrown '
                      f'away.{scale} {runs}')


def filled(text: str) -> str:
    """Paragraphs in lines of at most 100 columns. Tables, and lines that begin with blanks, stay as they are."""
    return '\n\n'.join(part if part.startswith(('|', '    ')) else textwrap.fill(part, 100, break_on_hyphens=False, break_long_words=False)
                       for part in text.split('\n\n'))


def written(page: str, kept: Kept) -> str:
    """The page with what is made of the numbers: two parts between marks, and the first table below some headings."""
    tables = {'One pickle': kept.words(), 'Beside what you would use instead': kept.beside(), 'Other contents': kept.contents(),
              'Other commands': kept.listed('many', 'node', 'debugger', 'slow'), 'What a start takes': kept.starts()}
    page = replaced(page, '(<!-- begin -->\n).*?(<!-- end -->)', kept.answers() + '\n')
    page = replaced(page, '(<!-- run -->\n).*?(<!-- end of run -->)', kept.run() + '\n')
    for heading, made in tables.items():
        page = replaced(page, f'(^## {heading}\n(?:(?![#|]).*\n)*?)(?:\\|.*\n)+()', made + '\n')
    return page


def replaced(page: str, pattern: str, part: str) -> str:
    found = list(re.finditer(pattern, page, flags=re.S if '<!--' in pattern else re.M))
    assert len(found) == 1, pattern
    return page[:found[0].end(1)] + part + page[found[0].start(2):]


def main() -> None:
    page = PAGE.read_text(encoding='utf-8')
    made = written(page, Kept(json.loads(KEPT.read_text(encoding='utf-8'))))
    if '--check' in sys.argv:
        sys.exit(None if made == page else 'bench/measured_page.py makes another page of bench/measured.json')
    PAGE.write_text(made, encoding='utf-8')


if __name__ == '__main__':
    main()
