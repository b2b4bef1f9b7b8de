"""The shell right after an edit, before the pickle is read anew: what it shows then is what a shell shows that reads the edited pickle."""

from __future__ import annotations

import contextlib
import datetime
import pickle
import random
import tempfile
import threading
import time
import unittest
from collections import Counter
from pathlib import Path
from typing import Iterator, List
from unittest import mock

from picklestep import Session
from picklestep.shell import between
from picklestep.shell.opened import Opened
from picklestep.shell.shell import Shell, WordError
from picklestep import document
from pickles import chosen, real_pickles
from terminals import Terminal

RECORDS = [{'id': n, 'name': f'user{n}', 'score': n * 0.5, 'tags': ['a', 'b', str(n)], 'of': (n, str(n)), 'in': {1, n}, 'day': datetime.date(2020, 1, 1 + n)}
           for n in range(20)]
VALUES = ('NONE', 'True', '7', '300', "'x'", "'a longer text'", '1.5', "b'yz'", '-3', '123456789012345678901')


def pickles() -> List[bytes]:
    """Pickles of all protocols, with frames and marks, with texts that are cut, and several that follow one another."""
    texts = [b'x' * 70000, 'y' * 70000, 1, 2, {'k': 'z' * 70000}]
    return [*(pickle.dumps(RECORDS, protocol) for protocol in range(6)), pickle.dumps(list(range(1200)), 4), pickle.dumps(texts, 4), b'N0' * 20 + b'N.',
            pickle.dumps([1, (2, 3), [4, {5: 6}]], 2) + pickle.dumps({'a': [1] * 5}, 4)]


def edit(rng: random.Random, count: int, here: int) -> str:
    """An edit somewhere, or an undo."""
    place = max(0, min(count - 1, here + rng.randrange(-3, 6) if rng.random() < 0.7 else rng.randrange(count or 1)))
    value = rng.choice(VALUES)
    return rng.choice((f'insert {place} {value}', f'insert {place} {value}', f'replace {place} {value}', f'delete {place}',
                       f'set {rng.randrange(30)} to {value}', f'set {rng.randrange(30)} to {value}', f'insert {place} {rng.choice(("MARK", "POP"))}'))


def look(rng: random.Random, count: int, here: int) -> str:
    """A line that moves or shows something."""
    place = max(0, min(count - 1, here + rng.randrange(-3, 6)))
    return rng.choice(('where', 'step', 'back', 'list', 'stack', f'step {rng.randrange(9)}', f'goto {place}', f'list {max(0, place - 3)} {place + 3}',
                       f'until {place + 4}'))


def answer(shell: Shell, line: str) -> str:
    """What a line is answered, also where it cannot be run."""
    try:
        return shell.obey(line)
    except WordError as error:
        return f'cannot: {error}'


class Unread(unittest.TestCase):
    """Pickles of any size are taken for large ones."""

    def setUp(self) -> None:
        self._enter(Opened, '_most_waited', 0)

    def _enter(self, of: object, name: str, value: object) -> None:
        patch = mock.patch.object(of, name, value)
        patch.start()
        self.addCleanup(patch.stop)

    def test_it_is_what_a_fresh_shell_shows(self) -> None:
        """Objects are shown as they are at the cursor, or in large pickles as they are at the end."""
        rng, seen = random.Random(50), Counter()  # type: ignore[var-annotated]
        self._enter(Opened, 'is_read', False)
        real = [data for data in real_pickles().values() if len(data) < 5000]
        tried = chosen(enumerate([*pickles(), *pickles(), *rng.sample(real, 8)]), 5)
        for at, data in tried:
            modes = {'many': at % 3 == 0, 'unframed': at % 7 == 0}
            most = rng.choice((0, 5, 20000))
            self._enter(document, 'MOST_EXACT', most)
            self._enter(between, 'MOST_EXACT', most)
            with self.subTest(at), Shell(data, '', **modes) as shell:
                for _ in range(5):
                    self._edit_and_look(rng, shell, modes, seen)
        self.assertGreater(seen['before'], len(tried) * 2 // 3)
        self.assertGreater(seen['after'], len(tried) // 4)

    def _edit_and_look(self, rng: random.Random, shell: Shell, modes: 'dict[str, bool]', seen: 'Counter[str]') -> None:
        shell.obey('break')  # (it waits until the pickle is read)
        while shell.pickle.edits_made:
            shell.obey('undo')
            shell.obey('break')
        with contextlib.suppress(WordError):
            shell.obey(f'goto {rng.randrange(len(shell.pickle.lines) + 1)}')
        for _ in range(rng.choice((1, 1, 2))):
            line = edit(rng, len(shell.pickle.lines), shell.pickle.session.where().place)
            answer(shell, line)
        moving = shell.pickle._moving
        if moving is None:
            return
        moving.wait()
        for _ in range(2):
            here, listed, content = shell.pickle.session.where().place, shell._listed, shell.pickle.session.bytes()
            word = look(rng, len(shell.pickle.lines), here)
            shown = answer(shell, word)
            seen['before' if shell.pickle.is_unread else 'after'] += 1
            with Shell(content, '', **modes) as fresh:
                fresh.pickle._return(here)
                fresh._listed = listed
                self.assertEqual(shown, answer(fresh, word), (line, word))

    @contextlib.contextmanager
    def _held(self) -> 'Iterator[threading.Event]':
        """Reading waits within it, until this is set."""
        event, read = threading.Event(), Opened._read_beside

        def waiting(*arguments: object) -> object:
            event.wait(600)
            return read(*arguments)  # type: ignore[arg-type]

        with mock.patch.object(Opened, '_read_beside', waiting):
            try:
                yield event
            finally:
                event.set()

    def test_it_does_not_wait(self) -> None:
        data = pickle.dumps(list(range(300)), 4)
        with Shell(data, '') as shell, self._held() as event:
            for line, last in (('goto 100', None), ("insert 100 'x'", '100: SHORT_BINUNICODE \'x\' is new'), ('set 1 to 7', '5: BININT1 7 (was BININT1 0)'),
                               ('step', "made:  #96 'x'"), ('where', "stack: 'x' | 94 | 93 | .. 95 more"), ('delete 101', '101: BININT1 95 is gone'),
                               ('back', "stack: 94 | 93 | 92 | .. 94 more")):
                shown = shell.obey(line)
                if last is not None:
                    self.assertIn(last, shown.split('\n'))
                    self.assertTrue(shell.pickle.is_unread)
            event.set()
            self.assertIn('undone 101: delete at 101', shell.obey('undo'))
            self.assertEqual(shell.obey('find STOP').split('\n')[-1], 'at 307')

    def test_undone_before_it_was_read(self) -> None:
        data = pickle.dumps(list(range(300)), 4)
        with Shell(data, '') as shell, self._held():
            shell.obey('goto 100')
            shown = shell.obey('where')
            for line in ('insert 100 NONE', 'delete 100', 'replace 50 7'):
                shell.obey(line)
                self.assertNotEqual(shell.obey('where') if line != 'replace 50 7' else '', shown)
                shell.obey('undo')
                self.assertFalse(shell.pickle.is_unread)
                self.assertEqual((shell.obey('where'), shell.pickle.content()), (shown, data))

    def test_the_cursor_is_back_where_it_was(self) -> None:
        """Also where the next line comes while it goes back from the edit."""
        data = pickle.dumps(list(range(300)), 4)
        returned = Opened._return

        def late(opened: Opened, here: int) -> None:
            time.sleep(0.05)
            returned(opened, here)

        with mock.patch.object(Opened, '_return', late), Shell(data, '') as shell:
            for line in ('run', 'insert 2 NONE', 'where'):
                shell.obey(line)
            self.assertEqual(shell.pickle.session.where().place, shell.pickle.session.where().places)

    def test_offsets(self) -> None:
        """They are known once the pickle is read, which a line with one waits for."""
        data = pickle.dumps(list(range(300)), 4)
        self._enter(Opened, 'is_read', False)
        for line, place in (('goto @204', 100), ('goto @205', 101), (f'goto @{len(data) + 1}', 308)):
            with self.subTest(line), Shell(data, '') as shell:
                for word in ('goto 90', 'insert 100 NONE', line):
                    shell.obey(word)
                self.assertEqual(shell.pickle.session.where().place, place)

    def test_reading_fails(self) -> None:
        """All edits since the last reading are taken back, and breaks are at their opcodes."""
        data = pickle.dumps(list(range(300)), 4)
        self._enter(Opened, 'is_read', False)
        with Shell(data, '') as shell, mock.patch.object(Opened, '_read_beside', side_effect=ValueError('not read')):
            for line in ('goto 50', 'break 60', 'insert 50 NONE', 'insert 50 NONE', 'delete 61', 'where'):
                shell.obey(line)
            with self.assertRaisesRegex(WordError, 'not read'):
                shell.obey('find STOP')
            self.assertEqual((shell.obey('break'), shell.pickle.content(), shell.pickle.edits_made), ('1: at 60', data, ()))
            self.assertIn('>      50', shell.obey('where'))


class AtATerminal(unittest.TestCase):
    """Over a pseudo-terminal."""

    def test_lines_that_are_typed_at_once(self) -> None:
        """However much of a large pickle is read by then, each shows what a shell shows that opens the edited pickle."""
        data = pickle.dumps([number % 256 for number in range(120_000)], 4)
        edits = (("insert 60000 'x'", lambda session: session.insert(60000, 'SHORT_BINUNICODE', 'x')), ('set 5 to 77', lambda session: session.replace(
            9, 'BININT1', 77)), ('delete 60003', lambda session: session.delete(60003)), ('undo', lambda session: session.undo()))
        with tempfile.TemporaryDirectory() as folder, Session(data) as session:
            Path(folder, 'a.pickle').write_bytes(data)
            terminal = Terminal(['a.pickle'], folder)
            self.addCleanup(terminal.process.wait)
            self.addCleanup(terminal.process.kill)
            terminal.until('(pickle) ')
            terminal.type('goto 60000')
            for line, edit in edits:
                terminal.type(line)
                edit(session)
                with self.subTest(line), Shell(session.bytes(), '') as fresh:
                    fresh.obey('goto 60000')
                    looks = ('where', 'list 59990 60009', 'stack')
                    self.assertEqual([*map(terminal.type, looks)], [*map(fresh.obey, looks)])
            self.assertEqual((terminal.type('save b.pickle'), Path(folder, 'b.pickle').read_bytes()), ('saved b.pickle', session.bytes()))
            self.assertEqual((terminal.type('quit'), terminal.close()), ('', 0))


if __name__ == '__main__':
    unittest.main()
