"""The shell over a long pickle, of which the first part alone is opened."""

from __future__ import annotations

import contextlib
import io
import os
import pickle
import random
import tempfile
import time
import unittest
from pathlib import Path
from typing import Any, List, Tuple
from unittest import mock

from picklestep import Session
from picklestep.opcode_lines import OpcodeLines
from picklestep import first
from picklestep.shell.command import main
from picklestep.shell.opened import Opened
from picklestep.shell.shell import Shell, WordError
from dap_client import Client
from terminals import Terminal

MOST = 40
REST = '(The rest is not read: `whole` reads it.)'
# Texts, marks, a memo, and a call behind all of them.
ROWS: List[Any] = [{'id': number, 'name': f'user{number}', 'tags': ('a', number)} for number in range(60)]


class Call:
    """What is pickled as a call."""

    def __reduce__(self) -> Tuple[Any, ...]:
        return print, ('run',)


def framed(protocol: int = 4) -> bytes:
    """A pickle with many short frames: each text is so long that a frame ends before it."""
    return pickle.dumps([[number, (number, 'a'), 'b' * 70_000] for number in range(12)], protocol)


def pickles() -> List[Tuple[bytes, 'dict[str, bool]']]:
    """Pickles of all protocols, with frames, several that follow one another, and one that was cut off."""
    many = b''.join(pickle.dumps([number] * 9, number % 5) for number in range(12))
    return [*((pickle.dumps([*ROWS, Call()], protocol), {}) for protocol in range(4)), (framed(), {}), (many, {'many': True}),
            (framed()[:-9], {'unframed': True}), (pickle.dumps(ROWS, 4), {'unframed': True}), (pickle.dumps(ROWS, 2) + b'behind', {})]


class Part(unittest.TestCase):
    """Pickles of a few opcodes are taken for long ones."""

    def setUp(self) -> None:
        patch = mock.patch.object(first, 'MOST_FIRST', MOST)
        patch.start()
        self.addCleanup(patch.stop)
        folder = tempfile.TemporaryDirectory()
        self.addCleanup(folder.cleanup)
        self.folder = folder.name

    def shell(self, data: bytes, **options: Any) -> Shell:
        shell = Shell(data, '', **options)
        self.addCleanup(shell.pickle.close)
        return shell

    def test_it_is_the_beginning_of_the_whole(self) -> None:
        """Whole opcodes and whole frames, of which each word shows what it shows of the whole."""
        looks = ('goto 11', 'where', 'back 3', 'stack', 'memo', 'list 0 12', 'objects 0', 'explain 9', 'show 0', 'run back', 'step 7')
        for data, options in pickles():
            with self.subTest(data[:30]):
                part, whole = self.shell(data, **options), self.shell(data, whole=True, **options)
                count = len(part.pickle.lines)
                self.assertEqual((part.pickle.is_part, whole.pickle.is_part), (True, False))
                self.assertTrue(MOST // 2 < count <= MOST, count)
                self.assertTrue(data.startswith(part.pickle.content()))
                self.assertEqual(len(part.pickle.content()) + part.pickle.rest_size, len(data))
                self.assertEqual(*[[*map(each.pickle.lines.at, range(count))] for each in (part, whole)])
                self.assertEqual(len(part.pickle.content()), whole.pickle.lines.offset(count))
                for line in looks:
                    self.assertEqual(part.obey(line), whole.obey(line), line)
                self.assertEqual(part.obey('calls 1'), whole.obey('calls 1'))

    def test_what_is_saved_is_the_whole(self) -> None:
        """With the same edits as in a session of the whole, byte by byte, wherever they are; and `whole` goes on with them."""
        rng, path = random.Random(83), os.path.join(self.folder, 'saved')
        for data, options in pickles():
            with self.subTest(data[:30]), Session(data, **options) as session:
                shell = self.shell(data, **options)
                made = 0
                for _ in range(30):
                    made += self._edit(rng, shell, session, len(shell.pickle.lines))
                    shell.obey(f'save {path}')
                    self.assertEqual(Path(path).read_bytes(), session.bytes())
                self.assertGreater(made, 5)
                shell.obey('goto 3')
                shell.obey('undo')
                session.undo()
                edits, shown, is_unsaved = shell.pickle.edits_made, shell.obey('list 0 20'), session.bytes() != Path(path).read_bytes()
                self.assertEqual(shell.obey('whole').split('\n')[0], f'all {session.where().places:,} opcodes are read')
                self.assertEqual((shell.pickle.content(), shell.pickle.edits_made), (session.bytes(), edits))
                self.assertEqual((shell.obey('list 0 20'), shell.is_unsaved), (shown, is_unsaved))
                shell.obey('redo')
                session.redo()
                self.assertEqual((shell.pickle.content(), shell.is_unsaved), (session.bytes(), False))
                while shell.settled().edits_made:
                    shell.obey('undo')
                self.assertEqual((shell.pickle.content(), shell.obey('diff')), (data, 'as the file'))

    def _edit(self, rng: random.Random, shell: Shell, session: Session, count: int) -> int:
        """Makes an edit somewhere in both, if it is one of the whole: also before the first opcode that is not read, and where a frame ends there."""
        place = rng.choice((rng.randrange(count + 1), count, count - 1))
        line, edit = rng.choice((
            (f'insert {place} 300', lambda: session.insert(place, 'BININT2', 300)), (f'delete {place}', lambda: session.delete(place)),
            (f'replace {place} NONE', lambda: session.replace(place, 'NONE')), (f'frame {place} 2', lambda: session.frame(place, 2)),
            (f'unframe {place}', lambda: session.unframe(place))))
        try:
            shell.obey(line)
        except WordError:
            return 0
        edit()
        return 1

    def test_the_file_is_written_over(self) -> None:
        """The rest is that of the file as it was opened, however often it is saved, and whoever else writes it."""
        path, data = Path(self.folder, 'a.pickle'), pickle.dumps(ROWS, 2)
        path.write_bytes(data)
        shell = Shell(str(path), str(path))
        with shell:
            self.assertIn("BINUNICODE 'key'", shell.obey("replace 7 'key'"))
            for _ in range(2):
                self.assertEqual(shell.obey('save'), f'saved {path}')
                self.assertEqual(pickle.loads(path.read_bytes()), pickle.loads(shell.pickle.content() + data[-shell.pickle.rest_size:]))
            path.write_bytes(b'N.')
            shell.obey('undo')
            self.assertTrue(shell.is_unsaved)
            shell.obey('save')
            self.assertEqual((path.read_bytes(), shell.is_unsaved), (data, False))
            path.unlink()
            shell.obey('whole')
            self.assertEqual((shell.pickle.content(), shell.is_unsaved), (data, False))

    def test_a_save_that_fails(self) -> None:
        """The file is as it was, and the edits are still there."""
        path, data = Path(self.folder, 'a.pickle'), pickle.dumps(ROWS, 2)
        path.write_bytes(data)
        with Shell(str(path), str(path)) as shell:
            shell.obey('insert 3 NONE')
            with mock.patch.object(first.First, 'rest', side_effect=OSError(28, 'No space left on device')), self.assertRaisesRegex(WordError, 'No space'):
                shell.obey('save')
            with mock.patch('picklestep.part.LIMIT', len(data)), self.assertRaisesRegex(WordError, 'more than'):
                shell.obey('save')
            self.assertEqual((path.read_bytes(), os.listdir(self.folder), shell.is_unsaved), (data, ['a.pickle'], True))

    def test_the_end_of_the_part(self) -> None:
        shell = self.shell(pickle.dumps([*ROWS, Call()], 2))
        self.assertEqual(shell.hints(), [f'(These are the first 40 opcodes: 107 of {107 + shell.pickle.rest_size:,} bytes. `whole` reads the rest.\n'
                                         '`calls` and `save` are of the whole pickle, all other words of these opcodes.)'])
        self.assertIn(f'>      40   107: the end of what is read\n{REST}', shell.obey('run'))
        for line in ('step', 'goto 41', 'break 40', 'find user50', 'hex @107 4', 'go 90', 'who 90', 'delete 40', 'list 40', 'goto @700'):
            with self.subTest(line), self.assertRaises(WordError) as raised:
                shell.obey(line)
            self.assertTrue(str(raised.exception).endswith(f'\n{REST}'), raised.exception)
        with self.assertRaises(WordError) as raised:
            shell.obey('delete')
        self.assertNotIn(REST, str(raised.exception))
        for line in ('explain', 'list 30 39', 'find user0', 'who 0'):
            self.assertTrue(shell.obey(line).endswith(REST), line)
        shell.obey('goto 0')
        self.assertNotIn(REST, shell.obey('find user0'))
        with self.assertRaisesRegex(WordError, 'rename needs all of the pickle'):
            shell.obey('rename builtins b')
        self.assertIn('# the first 40 opcodes: the rest is not read, and the stack is\nstack = [', shell.obey('source'))

    def test_imports_and_calls_are_those_of_the_whole(self) -> None:
        """Also with edits, which are in them."""
        shell = self.shell(pickle.dumps([*ROWS, Call()], 2))
        self.assertEqual(len(shell.pickle.reaches.offsets), 0)
        self.assertIn("call 'builtins' 'print' ('run')", shell.obey('calls 1'))
        shell.obey("insert 3 GLOBAL 'os', 'getcwd'")
        self.assertEqual(shell.obey('calls 1').split('\n')[-1], '2 imports, 2 calls, stopped')
        self.assertIn("import 'os' 'getcwd'", shell.obey('calls 1'))
        shell.obey('undo')
        self.assertEqual(shell.obey('calls 1').split('\n')[-1], '1 imports, 1 calls, stopped')

    def test_what_is_edited_is_shown(self) -> None:
        data = pickle.dumps(ROWS, 2)
        shell = self.shell(data)
        self.assertEqual(shell.obey('diff'), 'as the file')
        shell.obey('insert 3 NONE')
        self.assertEqual(shell.obey('diff').split('\n'), [f'{len(data)} bytes -> {len(data) + 1} bytes', shell._row(3, -1),
                                                          '(What the results differ in is known once `whole` has read all.)'])
        shell.obey('undo')
        shell.obey("replace 7 'key'")
        shell.obey('whole')
        self.assertIn("['key']", shell.obey('diff'))

    def test_breaks_stay(self) -> None:
        shell = self.shell(pickle.dumps([*ROWS, Call()], 2))
        for line in ('break 12', 'break call *', 'insert 2 NONE', 'goto 5', 'whole'):
            shell.obey(line)
        self.assertEqual(shell.obey('break'), '1: at 13\n2: call *')
        self.assertIn('>*     13 ', shell.obey('run'))
        self.assertIn("<- call 'builtins' 'print' ('run')", shell.obey('run'))

    def test_a_frame_that_holds_most(self) -> None:
        """It cannot be cut, so all is opened."""
        self.assertFalse(self.shell(pickle.dumps(ROWS, 4)).pickle.is_part)
        self.assertTrue(self.shell(pickle.dumps(ROWS, 4), unframed=True).pickle.is_part)

    def test_texts_like_lines_of_a_frame(self) -> None:
        data = b'(' + b'K\1X\x1e\0\0\0\n    0: \\x95 FRAME      999999' * 30 + b't.'
        shell = self.shell(data)
        self.assertEqual((shell.pickle.is_part, len(shell.pickle.lines)), (True, MOST))

    def test_pickles_of_nearly_so_many(self) -> None:
        for count in range(MOST - 6, MOST + 8):
            shell = self.shell(b'N0' * count + b'N.' if count % 2 else b'N' * count + b't.')
            self.assertTrue(not shell.pickle.is_part or len(shell.pickle.lines) == MOST)
        self.assertFalse(self.shell(b'N' * (MOST - 1) + b'.' + b'N' * 99).pickle.is_part)
        self.assertFalse(self.shell(b'X\xff\0\0\0' + b'x' * 255 + b'.').pickle.is_part)

    def test_what_does_not_end_well(self) -> None:
        """Where reading the whole is interrupted or fails, the part is as it was."""
        shell = self.shell(pickle.dumps(ROWS, 2))
        for line in ('goto 9', 'insert 3 NONE', 'insert 3 NONE', 'undo', 'break 30'):
            shell.obey(line)
        shell.settled()
        shown = shell.obey('where'), shell.obey('break'), shell.pickle.content(), shell.pickle.edits_made
        session = shell.pickle.session
        for where, error in ((Opened, KeyboardInterrupt()), (Opened, MemoryError()), (OpcodeLines, KeyboardInterrupt())):
            name = '_read' if where is Opened else 'take'
            with self.subTest(name), mock.patch.object(where, name, side_effect=error), self.assertRaises((KeyboardInterrupt, WordError)):
                shell.obey('whole')
            self.assertEqual((shell.obey('where'), shell.obey('break'), shell.pickle.content(), shell.pickle.edits_made), shown)
            self.assertTrue(shell.pickle.is_part and shell.pickle.session is session)
        shell.obey('whole')
        self.assertIn('redone', shell.obey('redo'))

    def test_opened_again(self) -> None:
        shell = self.shell(pickle.dumps(ROWS, 2))
        for line in ('insert 3 NONE', 'goto 9'):
            shell.obey(line)
        for _ in range(2):
            shown = shell.obey('where'), shell.pickle.content()
            shell.pickle.session.close()
            shell.pickle.reopen()
            self.assertEqual((shell.obey('where'), shell.pickle.content()), shown)
            shell.obey('whole')

    def test_what_it_may_take_is_asked(self) -> None:
        asked: List[str] = []
        shell = self.shell(pickle.dumps(ROWS, 2), ask=lambda question: bool(asked.append(question)))
        self.assertEqual((shell.obey('whole'), shell.pickle.is_part), ('not read', True))
        self.assertRegex(asked[0], r'^It may take [0-9]+ seconds and [0-9]+ MB of memory\. Read all of it\? \(yes/no\) $')
        shell.ask = lambda question: True
        self.assertEqual((shell.obey('whole').split('\n')[0], shell.obey('whole')), (f'all {len(shell.pickle.lines)} opcodes are read', 'all of it is read'))

    def test_what_is_read_once(self) -> None:
        data = pickle.dumps(ROWS, 2)
        for given in (io.BytesIO(data), bytearray(data)):
            shell = self.shell(given)  # type: ignore[arg-type]
            self.assertTrue(shell.pickle.is_part)
            shell.obey('whole')
            self.assertEqual(shell.pickle.content(), data)

    def test_scripts(self) -> None:
        path, script = Path(self.folder, 'a.pickle'), Path(self.folder, 'script')
        path.write_bytes(pickle.dumps(ROWS, 2))
        for words, lines, status in (([], 'run\n', 0), ([], 'goto 50\n', 1), (['--whole'], 'goto 50\n', 0)):
            script.write_text(lines, encoding='ascii')
            said = io.StringIO()
            with contextlib.redirect_stdout(io.StringIO()), contextlib.redirect_stderr(said):
                self.assertEqual(main([*words, '--batch', str(script), str(path)]), status)
            self.assertEqual('picklestep: These are the first 40 opcodes: ' in said.getvalue(), not words)

    def test_in_an_editor(self) -> None:
        path = Path(self.folder, 'a.pickle')
        path.write_bytes(pickle.dumps([*ROWS, Call()], 2))
        client = Client.here()
        self.addCleanup(client.close)
        client.ask('initialize', adapterID='pickle')
        client.ask('launch', program=str(path))
        self.assertIn('`whole` reads the rest.', client.event('output')['output'])
        client.event('initialized')
        client.configured()
        self.assertEqual(client.go('continue')['description'], 'You are at the end of what is read.')
        self.assertEqual(client.type('calls 1').split('\n')[-1], '1 imports, 1 calls, stopped')
        before = client.ask('loadedSources')
        self.assertIn('opcodes: the rest is not read', client.ask('source', sourceReference=before['sources'][0]['sourceReference'])['content'])
        self.assertIn('opcodes are read', client.type('whole'))
        self.assertNotEqual(client.ask('loadedSources'), before)
        self.assertEqual(client.go('continue')['description'], 'You are at the end: stopped.')
        client.leave()
        client = Client.here()
        self.addCleanup(client.close)
        client.launch(str(path), whole=True)
        self.assertEqual(client.go('continue')['description'], 'You are at the end: stopped.')


class AtATerminal(unittest.TestCase):
    """Over a pseudo-terminal, and over a pickle that is long."""

    def test_ctrl_c_while_all_is_read(self) -> None:
        data = b'(' + b'K\1K\2M\1\2' * 900_000 + b't.'
        with tempfile.TemporaryDirectory() as folder:
            Path(folder, 'a.pickle').write_bytes(data)
            terminal = Terminal(['a.pickle'], folder)
            self.addCleanup(terminal.process.wait)
            self.addCleanup(terminal.process.kill)
            self.assertIn('(These are the first 2,000,000 opcodes: 4,666,665 of 6,300,003 bytes. `whole` reads the rest.', terminal.until('(pickle) '))
            terminal.type('replace 1 7')
            self.assertRegex(terminal.type('whole', '(yes/no) '), 'It may take [0-9]+ seconds and [0-9]+ MB of memory')
            self.assertEqual(terminal.type('no'), 'not read')
            terminal.type('whole', '(yes/no) ')
            os.write(terminal.master, b'yes\n')
            time.sleep(0.2)  # (all is read within a second where the machine is fast)
            os.write(terminal.master, b'\x03')
            shown = terminal.until('(pickle) ')
            self.assertIn('^C', shown)
            self.assertIn('BININT1 7', terminal.type('list 0 3'))
            self.assertEqual(terminal.type('save b.pickle'), 'saved b.pickle')
            self.assertEqual(Path(folder, 'b.pickle').read_bytes(), data.replace(b'(K\1', b'(K\7', 1))
            if 'are read' not in shown:
                terminal.type('whole', '(yes/no) ')
                self.assertIn('all 2,700,003 opcodes are read', terminal.type('yes'))
            self.assertEqual((terminal.type('quit'), terminal.close()), ('', 0))


if __name__ == '__main__':
    unittest.main()
