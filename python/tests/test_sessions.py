"""Sessions: each word, each refusal, edits by value, and what is saved."""

from __future__ import annotations

import errno
import os
import pickle
import pickletools
import random
import struct
import subprocess
import sys
import tempfile
import threading
import unittest
from pathlib import Path
from typing import Callable, Dict, List, Tuple
from unittest import mock

import picklestep
from picklestep import Change, End, Item, Mark, Object, Ran, Ref, Refused, Session, Shown, Where
from picklestep import saving
from picklestep.arguments import encoded
from picklestep.program import find_program
from pickles import LIST, known_opcodes, real_pickles


class Words(unittest.TestCase):
    """Each word, as the specification has it."""

    def test_moving(self) -> None:
        with Session(LIST) as session:
            self.assertEqual((session.step(), session.step(), session.back()), (1, 2, 1))
            self.assertEqual((session.goto(6), session.goto(at=11), session.goto(0), session.goto(at=17)), (6, 2, 0, 7))

    def test_breakpoints(self) -> None:
        with Session(LIST) as session:
            self.assertEqual(session.set_break(4), 4)
            self.assertEqual(session.run(), Ran(4, 'breakpoint', 'breakpoint'))
            self.assertEqual(session.run(), Ran(7, 'end', 'end, stopped'))
            self.assertEqual((session.goto(0), session.clear_break(at=13), session.run().place), (0, 4, 7))

    def test_a_run_that_is_refused(self) -> None:
        with Session(b'NN0g5\n.') as session:
            ran = session.run()
        self.assertEqual((ran, ran.refusal, ran.code), (Ran(3, 'refused', 'refused, S3 no memo entry 5'), 'S3 no memo entry 5', 'S3'))
        for data, code in ((b'N', 'F1'), (b'N.', '')):
            with Session(data) as session:
                self.assertEqual(session.run().code, code)

    def test_questions(self) -> None:
        with Session(LIST) as session:
            session.goto(6)
            self.assertEqual(session.where(), Where(6, 7, 16, 0, (), End('stopped'), 2, 1, 0, 1))
            self.assertEqual(list(session.objects()), [Object(0, 'list', None, (), (Change('append', 1),)), Object(1, 'int', 1, (), ())])
            self.assertEqual(list(session.show(0)), [Shown(0, 0, session.objects()[0]), Shown(1, 1, session.objects()[1])])
            self.assertEqual((session.stack(), session.memo()), ((Ref(0),), {0: 0}))
            session.step()
            self.assertEqual((session.where().results, session.stack()), ((0,), ()))

    def test_items(self) -> None:
        with Session(b'K\x01K\x02\x86q\x00.') as session:
            session.goto(1)
            session.set_break(3)
            self.assertEqual(list(session.items())[1:4], [
                Item(1, 2, 'BININT1', 2, True, False), Item(2, 4, 'TUPLE2', None, False, False), Item(3, 5, 'BINPUT', 0, False, True)])

    def test_the_texts_of_what_edits_leave(self) -> None:
        for many in (False, True):
            with Session(LIST + LIST, many=many) as session:
                session.goto(2)
                session.insert(2, 'GLOBAL', 'os', 'getcwd')
                session.delete(3) if many else session.undo()
                content = session.bytes()
                self.assertEqual(list(session.listing()), list(picklestep.listing(content, many=many)))
                for how in ({}, {'first': True}, {'memo_kept': True}, {'full': True}):
                    self.assertEqual(session.calls(**how).text, picklestep.calls(content, **how).text)
                self.assertEqual(session.where().place, 2)
        with self.assertRaises(ValueError):
            session.listing()

    def test_the_texts_of_a_large_pickle_after_an_edit(self) -> None:
        with Session(b'N0' * 50_000 + b'N.') as session:
            session.insert(0, 'GLOBAL', 'os', 'getcwd')
            self.assertEqual([call.text for call in session.calls()], ["import 'os' 'getcwd' as #0"])
            self.assertEqual(session.listing()[0].name, 'GLOBAL')

    def test_an_object_in_itself(self) -> None:
        with Session(b']q\x00(h\x00h\x00e.') as session:
            session.goto(6)
            made = Object(0, 'list', None, (), (Change('append', 0), Change('append', 0)))
            self.assertEqual(list(session.show(0)), [Shown(0, 0, made), Shown(1, 0, None), Shown(1, 0, None)])
            session.back()
            self.assertEqual(session.stack(), (Ref(0), Mark(2), Ref(0), Ref(0)))

    def test_many(self) -> None:
        with Session(b'Nq\x00.h\x00.', many=True) as session:
            self.assertEqual(session.run(), Ran(3, 'refused', 'refused, S3 no memo entry 0'))
            self.assertEqual((session.memo(), session.where().results, session.where().places), ({0: 0}, (0,), 5))

    def test_without_frames(self) -> None:
        cut = b'\x80\x04\x95' + (6).to_bytes(8, 'little') + b']\x94K\x01a'
        with Session(cut, unframed=True) as session:
            self.assertEqual(session.run(), Ran(6, 'end', 'end, F1 ended at 16'))
            self.assertEqual(session.objects()[0].changes, (Change('append', 1),))
            session.goto(0)
            with self.assertRaisesRegex(Refused, 'E3'):
                session.unframe(1)
            self.assertEqual(session.replace(4, 'BININT1', 2), 4)
            self.assertEqual(session.bytes(), cut[:14] + b'\x02a')
            self.assertEqual([opcode.name for opcode in session.listing()], ['PROTO', 'FRAME', 'EMPTY_LIST', 'MEMOIZE', 'BININT1', 'APPEND'])
        with Session(cut) as session:
            self.assertEqual(session.where().places, 1)
        with Session(cut[:-3] + b'cos\ngetcwd\n)R', unframed=True) as session:
            session.replace(4, 'GLOBAL', 'os', 'getpid')
            self.assertEqual([(reach.offset, reach.text) for reach in session.calls()], [(13, "import 'os' 'getpid' as #1"), (25, "call 'os' 'getpid' () as #3")])

    def test_a_window(self) -> None:
        with Session(b'N0' * 50 + b'N.', window=2) as session:
            self.assertEqual([session.goto(60), *(session.back() for _ in range(60))], list(range(60, -1, -1)))

    def test_the_programs_own_answers(self) -> None:
        with Session(LIST) as session:
            self.assertEqual(session.ask('goto 4'), 'at 4\n')
            self.assertEqual(session.ask('  objects '), '#0 list\n')
            self.assertEqual((session.ask(''), session.ask('insert @13 BININT1 07'), session.bytes()[13:15]), ('', 'edited 4\n', b'K\x07'))
            for line in ('quit', 'step\nstep'):
                with self.assertRaises(ValueError):
                    session.ask(line)
            self.assertEqual(session.where().place, 4)


class Refusals(unittest.TestCase):
    """Each refusal raises its code and its words, and changes nothing."""

    def refused(self, session: Session, code: str, action: Callable[[], object]) -> None:
        """The action is refused with this code, and the session is as before."""
        before = session.where(), session.stack(), session.bytes()
        with self.assertRaises(Refused) as caught:
            action()
        for error in (caught.exception, pickle.loads(pickle.dumps(caught.exception))):
            self.assertEqual(error.code, code)
            self.assertTrue(error.text.startswith(' '.join(filter(None, (code, error.inner))) if code in ('C9', 'X8') else f'{code} '))
            self.assertEqual(bool(error.inner), code in ('C3', 'C9', 'X8'))
            self.assertEqual(error.refusal.partition(' ')[0], error.inner if code == 'C3' else '')
        self.assertEqual((session.where(), session.stack(), session.bytes()), before)

    def test_moving(self) -> None:
        with Session(b'N.') as session:
            self.refused(session, 'C1', session.back)
            self.refused(session, 'C4', lambda: session.goto(3))
            self.refused(session, 'C4', lambda: session.set_break(2))
            self.refused(session, 'C4', lambda: session.clear_break(2))
            self.refused(session, 'V2', lambda: session.goto(at=7))
            self.refused(session, 'X3', lambda: session.goto(-1))
            session.run()
            self.refused(session, 'C2', session.step)
            self.refused(session, 'C2', session.run)
            self.refused(session, 'V1', lambda: session.show(1))
        with Session(b'0.') as session:
            self.refused(session, 'C3', session.step)
            self.refused(session, 'C3', lambda: session.goto(1))

    def test_edits(self) -> None:
        with Session(b'N0N.') as session:
            self.refused(session, 'C6', session.undo)
            self.refused(session, 'C7', session.redo)
            self.refused(session, 'C9', lambda: session.delete(3))
            self.refused(session, 'C9', lambda: session.insert(4, 'NONE'))
            self.refused(session, 'C9', lambda: session.frame(0, 9))
            self.refused(session, 'C9', lambda: session.unframe(0))
            self.refused(session, 'V2', lambda: session.delete(at=9))
            session.delete(1)
            session.goto(2)
            self.refused(session, 'C8', session.undo)
            self.refused(session, 'C5', lambda: session.delete(0))

    def test_words(self) -> None:
        with Session(b'N.') as session:
            self.refused(session, 'X4', lambda: session.insert(0, 'NOPE'))
            self.refused(session, 'X8', lambda: session.insert(0, 'BININT1', raw=b'\x01\x02'))
            self.refused(session, 'X7', lambda: session.insert(0, 'BINBYTES', b'x' * 40000))
            for line, code in (('fly', 'X1'), ('goto', 'X2'), ('goto x', 'X3'), ('insert 0 BININT1 0', 'X5'), ('step 1', 'X6'),
                               ('show', 'X2'), ('items 1', 'X2'), ('objects x 1', 'X3'), ('items 1 2 3', 'X6')):
                self.refused(session, code, lambda line=line: session.ask(line))  # type: ignore[misc]

    def test_places(self) -> None:
        with Session(b'N.') as session:
            for action in (session.goto, session.delete, session.set_break):
                with self.assertRaises(TypeError):
                    action()
                with self.assertRaises(TypeError):
                    action(0, at=0)


class Edits(unittest.TestCase):
    """Edits by value, and what is saved."""

    def test_values(self) -> None:
        for name, values, argument in (
                ('BININT', [-2], struct.pack('<i', -2)), ('BININT1', [255], b'\xff'), ('BININT2', [1], b'\1\0'), ('INT', [True], b'01\n'),
                ('INT', [-5], b'-5\n'), ('LONG', [7], b'7L\n'), ('LONG1', [0], b'\0'), ('LONG1', [255], b'\2\xff\0'),
                ('LONG4', [-1], b'\1\0\0\0\xff'), ('FLOAT', [1.5], b'1.5\n'), ('BINFLOAT', [1.0], b'?\xf0' + b'\0' * 6),
                ('STRING', ["it's"], b'"it\'s"\n'), ('STRING', [b"'a'"], b"'a'\n"), ('SHORT_BINSTRING', ['a'], b'\1a'),
                ('BINSTRING', [b'ab'], b'\2\0\0\0ab'), ('UNICODE', ['a\nb\\'], b'a\\u000ab\\u005c\n'), ('BINUNICODE', ['\u20ac'], b'\3\0\0\0\xe2\x82\xac'),
                ('SHORT_BINUNICODE', ['\ud800'], b'\3\xed\xa0\x80'), ('BINBYTES8', [b'x'], b'\1' + b'\0' * 7 + b'x'),
                ('BYTEARRAY8', [b''], b'\0' * 8), ('GLOBAL', ['os', 'getcwd'], b'os\ngetcwd\n'), ('INST', [(b'a', b'b')], b'a\nb\n'),
                ('PUT', [7], b'7\n'), ('PERSID', ['id 1'], b'id 1\n'), ('FRAME', [3], b'\3' + b'\0' * 7), ('NONE', [], b'')):
            with self.subTest(name, values=values):
                self.assertEqual(encoded(name, values), argument)  # type: ignore[arg-type]
                code = next(opcode.code for opcode in pickletools.opcodes if opcode.name == name)
                self.assertEqual(known_opcodes(code.encode('latin-1') + argument)[0].raw, argument)

    def test_values_that_do_not_fit(self) -> None:
        with Session(b'N.') as session:
            for name, values, error in (
                    ('BININT1', (256,), ValueError), ('BININT1', (), TypeError), ('NONE', (1,), TypeError), ('GLOBAL', ('os',), TypeError),
                    ('GLOBAL', ('o\ns', 'x'), ValueError), ('BININT1', ('x',), ValueError), ('BINUNICODE', (1,), TypeError),
                    ('LONG1', ('x',), TypeError), ('LONG1', (1 << 9999,), (ValueError, OverflowError)), ('NONE\nquit', (), TypeError)):
                with self.subTest(name, values=values), self.assertRaises(error):
                    session.insert(0, name, *values)
            with self.assertRaises(TypeError):
                session.insert(0, 'BININT1', 1, raw=b'\1')
            self.assertEqual(session.bytes(), b'N.')

    def test_edits_in_a_frame(self) -> None:
        with Session(LIST) as session:
            session.goto(4)
            self.assertEqual(session.replace(4, 'BININT2', 1), 4)
            self.assertEqual(session.bytes(), b'\x80\x04\x95\x07' + b'\0' * 7 + b']\x94M\x01\0a.')
            self.assertEqual((session.undo(), session.bytes(), session.redo()), (4, LIST, 4))
            self.assertEqual(session.replace('BININT1', 9, at=13), 4)
            self.assertEqual(session.bytes(), LIST.replace(b'K\x01', b'K\x09'))
            self.assertEqual(session.where().place, 4)

    def test_undone_edits_are_not_saved(self) -> None:
        with Session(b'N0N.') as session:
            session.insert(0, 'NONE')
            session.insert(1, 'POP')
            session.undo()
            session.frame(0, 4)
            with self.assertRaises(Refused):
                session.redo()
            session.undo()
            session.undo()
            session.redo()
            self.assertEqual(session.bytes(), b'NN0N.')
            self.assertEqual(session.insert(0, 'GLOBAL', 'os', 'getcwd'), 0)
            self.assertEqual(picklestep.listing(session.bytes())[0].argument, (b'os', b'getcwd'))

    def test_saving(self) -> None:
        with tempfile.TemporaryDirectory() as folder:
            path = Path(folder) / 'a pickle'
            path.write_bytes(b'N.')
            with Session(path) as session:
                session.replace(0, 'NEWTRUE')
                session.save(path)
                self.assertEqual(path.read_bytes(), b'\x88.')
                session.insert(1, 'POP')
                session.insert(2, 'NONE')
                session.save(str(path))
                self.assertEqual((path.read_bytes(), session.bytes()), (b'\x880N.', b'\x880N.'))
                other = Path(os.fsdecode(os.fsencode(folder) + b'/\xff'))
                session.save(other)
                self.assertEqual(other.read_bytes(), b'\x880N.')
                for name in ('x', os.fsdecode(b'\xff')):
                    with self.assertRaisesRegex(picklestep.ProgramError, '^cannot write'):
                        session.save(Path(folder) / 'not there' / name)
                session.where()
                self.assertEqual(sorted(os.listdir(os.fsencode(folder))), [b'a pickle', b'\xff'])

    def test_saving_into_what_is_open(self) -> None:
        """No other process has it under this path."""
        read, write = os.pipe()
        with tempfile.TemporaryDirectory() as folder, Session(b'N.') as session, open(read, 'rb') as pipe, open(write, 'wb') as end:
            link, file = Path(folder, 'link'), Path(folder, 'file')
            link.symlink_to(f'/dev/fd/{end.fileno()}')
            for path in (f'/dev/fd/{end.fileno()}', link):
                session.save(path)
                self.assertEqual(os.read(pipe.fileno(), 10), b'N.', path)
            with open(file, 'wb') as opened:
                session.save(f'/dev/fd/{opened.fileno()}')
            self.assertEqual(file.read_bytes(), b'N.')

    @unittest.skipUnless(sys.platform == 'linux', 'the system has no names for files that were removed')
    def test_saving_into_an_open_file_without_a_name(self) -> None:
        """Another file may have what the system says in place of its name."""
        with tempfile.TemporaryDirectory() as folder, Session(b'N.') as session:
            path, other = Path(folder, 'file'), Path(folder, 'file (deleted)')
            for rest in (b'', b'old and longer'):
                with open(path, 'w+b') as removed, tempfile.TemporaryFile() as nameless:
                    path.unlink()
                    other.write_bytes(b'other')
                    for opened in (removed, nameless):
                        opened.write(rest)
                        opened.flush()
                        session.save(f'/dev/fd/{opened.fileno()}')
                        opened.seek(0)
                        self.assertEqual(opened.read(), b'N.')
                self.assertEqual((os.listdir(folder), other.read_bytes()), ([other.name], b'other'))

    def test_saving_replaces_a_file_when_all_is_stored(self) -> None:
        """Also one whose name is not UTF-8, which the program is not given."""
        with tempfile.TemporaryDirectory() as folder, Session(b'N.') as session:
            for name in (b'x', b'\xff'):
                path, old = Path(folder, os.fsdecode(name)), Path(folder, 'old')
                path.write_bytes(b'old')
                path.chmod(0o640)
                os.link(path, old)
                session.save(path)
                self.assertEqual((path.read_bytes(), path.stat().st_mode & 0o777, old.read_bytes()), (b'N.', 0o640, b'old'))
                old.unlink()
            with mock.patch('os.fsync', side_effect=OSError(errno.ENOSPC, os.strerror(errno.ENOSPC))):
                session.replace(0, 'NEWTRUE')
                self.assertRaisesRegex(picklestep.ProgramError, 'cannot write: No space', session.save, path)
            self.assertEqual((path.read_bytes(), sorted(os.listdir(os.fsencode(folder)))), (b'N.', [b'x', b'\xff']))

    def test_a_new_file_is_private_until_it_has_the_mode_of_the_old_one(self) -> None:
        modes = []

        def take_after(path: Path, beside: Path) -> None:
            modes.append(beside.stat().st_mode & 0o777)
            take_after_it(path, beside)
        take_after_it = saving._take_after
        with tempfile.TemporaryDirectory() as folder, Session(b'N.') as session, mock.patch.object(saving, '_take_after', take_after):
            path = Path(folder, os.fsdecode(b'\xff'))
            path.write_bytes(b'old')
            path.chmod(0o644)
            session.save(path)
            self.assertEqual((modes, path.stat().st_mode & 0o777, path.read_bytes()), ([0o600], 0o644, b'N.'))

    def test_a_file_that_may_not_be_written_is_not_replaced(self) -> None:
        with tempfile.TemporaryDirectory() as folder, Session(b'N.') as session:
            path = Path(folder, os.fsdecode(b'\xff'))
            path.write_bytes(b'old')
            opened = mock.patch.object(saving.os, 'open', side_effect=PermissionError(errno.EACCES, os.strerror(errno.EACCES)))
            with opened as asked:
                self.assertRaisesRegex(picklestep.ProgramError, 'cannot write: Permission denied', session.save, path)
            self.assertEqual((asked.call_args[0][0], path.read_bytes()), (path, b'old'))

    def test_many_edits(self) -> None:
        with Session(b'N.') as session:
            for _ in range(1000):
                session.insert(0, 'BINUNICODE', 'x' * 100)
                session.insert(1, 'POP')
            self.assertEqual(session.bytes(), (b'X\x64\0\0\0' + b'x' * 100 + b'0') * 1000 + b'N.')


class Walks(unittest.TestCase):
    """Random walks over sessions of real pickles against the program's own text of the same lines."""

    def test_walks(self) -> None:
        pickles = real_pickles()
        for seed, name in enumerate(('sklearn_tree_protocol_4', 'several_pickles_in_one_file', 'frame_crossed', 'names_from_the_memo',
                                     'recursive_dictionary_protocol_4', 'payload_after_the_stop')):
            with self.subTest(name):
                self.walk(random.Random(seed), pickles[name], ['--many'] if seed % 2 else [])

    def walk(self, numbers: random.Random, data: bytes, words: List[str]) -> None:
        """Some hundred lines, given one by one and all at once."""
        lines = [self.line(numbers) for _ in range(400)]
        answers = []
        with Session(data, many=bool(words)) as session:
            for line in lines:
                try:
                    answers.append(session.ask(line))
                except Refused as refused:
                    answers.append(f'refused: {refused.text}\n')
            saved = session.bytes()
        with tempfile.TemporaryDirectory() as folder:
            Path(folder, 'in').write_bytes(data)
            run = subprocess.run([find_program(), 'debug', f'{folder}/in', *words, '--save', f'{folder}/out'],
                                 input=''.join(line + '\n' for line in lines).encode(), stdout=subprocess.PIPE, check=False)
            self.assertEqual(''.join(answers), run.stdout.decode('ascii'))
            self.assertEqual(saved, Path(folder, 'out').read_bytes())

    def line(self, numbers: random.Random) -> str:
        """A line, which is often one that is run."""
        place = numbers.choice([numbers.randrange(12), numbers.randrange(60), f'@{numbers.randrange(200)}'])
        opcode = numbers.choice(['NONE', 'POP', 'MARK', 'BININT1 07', 'EMPTY_LIST', 'GLOBAL 6f730a780a', 'STOP', 'NOPE', 'BININT1'])
        return numbers.choice(['step', 'step', 'step', 'back', f'goto {place}', 'run', f'break {place}', f'clear {place}', f'insert {place} {opcode}',
                               f'replace {place} {opcode}', f'delete {place}', f'frame {place} {numbers.randrange(5)}', f'unframe {place}',
                               'undo', 'undo', 'redo', 'items', 'objects', 'stack', 'memo', f'show {numbers.randrange(30)}', 'where', 'fly', ''])


class Threads(unittest.TestCase):
    """Two threads, each with a session of its own; and two with the same one."""

    def test_a_session_each(self) -> None:
        results: Dict[int, List[Tuple[int, int]]] = {}

        def walk(number: int) -> None:
            with Session(b'N0' * 20 * number + b'N.') as session:
                results[number] = [(session.run().place, session.goto(0)) for _ in range(100)]

        threads = [threading.Thread(target=walk, args=(number,)) for number in (1, 2)]
        for thread in threads:
            thread.start()
        for thread in threads:
            thread.join()
        self.assertEqual(results, {number: [(40 * number + 2, 0)] * 100 for number in (1, 2)})

    def test_one_session(self) -> None:
        with Session(b'N0' * 500 + b'N.') as session:
            threads = [threading.Thread(target=lambda: [session.step() for _ in range(500)]) for _ in range(2)]
            for thread in threads:
                thread.start()
            for thread in threads:
                thread.join()
            self.assertEqual(session.where().place, 1000)

    def test_bytes_beside_edits_of_another_thread(self) -> None:
        done = threading.Event()
        with Session(b'N.') as session:
            def edit() -> None:
                while not done.is_set():
                    session.insert(0, 'MARK')
                    session.insert(0, 'POP')
                    session.undo()
                    session.undo()

            thread = threading.Thread(target=edit)
            thread.start()
            try:
                saved = {session.bytes() for _ in range(30)}
            finally:
                done.set()
                thread.join()
        self.assertLessEqual(saved, {b'N.', b'(N.', b'0(N.'})

    def test_a_session_outlives_its_thread(self) -> None:
        opened: List[Session] = []
        thread = threading.Thread(target=lambda: opened.append(Session(b'N.')))
        thread.start()
        thread.join()
        with opened[0] as session:
            self.assertEqual(session.step(), 1)


class Notebooks(unittest.TestCase):
    """What notebooks show: texts of the pickle stay texts."""

    def test_texts_are_escaped(self) -> None:
        data = b'c<b>\n<script>alert(1)</script>\n.'
        for answer in (picklestep.listing(data), picklestep.objects(data), picklestep.calls(data)):
            shown = answer._repr_html_()
            self.assertNotIn('<b>', shown)
            self.assertNotIn('<script', shown)
            self.assertIn('&lt;script&gt;', shown)
            self.assertIn(type(answer).__name__, repr(answer))
        with Session(data) as session:
            session.run()
            self.assertIn('stack', session._repr_html_())
            self.assertIn('at 2 of 2', repr(session))
        self.assertEqual(repr(session), '<Session: closed>')

    def test_long_answers_are_cut(self) -> None:
        shown = picklestep.listing(b'N0' * 5000 + b'X\0\1\1\0' + b'x' * 65792 + b'.')._repr_html_()
        self.assertIn('lines more', shown)
        self.assertLess(len(shown), 20000)


if __name__ == '__main__':
    unittest.main()
