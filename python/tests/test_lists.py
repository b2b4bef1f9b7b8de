"""Lists of names: what a line may say, which lists one includes, and how names are added to one."""

from __future__ import annotations

import collections
import contextlib
import io
import os
import pickle
import random
import re
import shlex
import stat
import struct
import subprocess
import sys
import threading
import unittest
import unittest.mock
from pathlib import Path
from typing import Any, Iterator, Tuple

import picklestep
from picklestep import entrance
from picklestep.scan import Judge, look_at_bytes, written
from picklestep.scan.allow import names_of, read_names
from picklestep.scan.entries import refused_line
from picklestep.scan.names import Names, NoList, read_comment, read_line
from scan_support import HARMLESS, HOSTILE, ScanCase, environment, looks_in

NUMPY = b'\x80\x02cnumpy\nndarray\n.'
# What is no line of a list, each with a word that the message has.
NONSENSE: Tuple[Tuple[str, str], ...] = (
    ('import numpy', 'no entry'), ('numpy torch', 'no entry'), ('{"a": 1}', 'no entry'), ('- numpy.ndarray', 'no entry'), ('numpy..ndarray', 'no entry'),
    ('.numpy', 'no entry'), ('numpy.ndarray,', 'no entry'), ('torch.<lambda>', 'no entry'), ('numpy.2d', 'no entry'), ("'os ' 'x", 'no entry'),
    ("'os 'x'", 'no entry'), ("'os ' 'x' 'y'", 'no entry'), ('torch*', 'no entry'), ('**\'x\'', 'no entry'), (': call', 'no entry'), ('a.b: : call', 'no entry'),
    ('numpy', 'include numpy'), ('include', 'no entry'), ('include a\0b', 'no entry'), ('numpy.ndarray: cal', 'the nearest word is call'), ('numpy.ndarray: call, new', 'no entry'),
    ('numpy.ndarray: everything', 'no entry'), ('a.b: made-', 'the nearest word is made'), ('a.b: made call made-everything', 'made-everything'), ('a.b: mad', 'the nearest word is made'),
    ('persistent.', 'no entry'), ('buffers', 'no dot'), ('ext', 'no dot'), ('ext x', 'no entry'))
# What is one.
LINES = ('numpy.ndarray', '  a.b:call  ', 'a.b: call new state fill  # all', 'a.b :', 'torch.*Storage:', 'torch.**', '**', '*', '**.os.**', 'a*b.c_*2',
         'été.Ärger', "'os ' 'x'", "'os ' 'x': new  # why", '"it\'s" \'x\'', "raw '\\xff' 'x'", "'os' #5", "'os' #*: call", "'a\\'b' 'c # d'", "'**", 'ext 7',
         'ext *', 'a.b: made', 'a.b: call made-call made-new made-state made-fill  # all', 'persistent', 'persistent: call', 'buffer:', 'include numpy', 'include ./lists/our own.txt  # note', '# import numpy', '', '   ')


class Lines(unittest.TestCase):
    """What a line says."""

    def test_nonsense_is_refused(self) -> None:
        for line, why in NONSENSE:
            with self.subTest(line), self.assertRaisesRegex(NoList, re.escape(why)):
                read_line(line)

    def test_all_others_are_taken(self) -> None:
        for line in LINES:
            with self.subTest(line):
                self.assertEqual(read_line(line) is None, not line.strip() or line.startswith('#'))

    def test_what_is_said(self) -> None:
        for line, name, words, note in (('a.b', 'a.b', 'call fill new state', ''), ('a.b:', 'a.b', '', ''), ('a.b: call  # why', 'a.b', 'call', 'why'),
                                        ("'a: call' 'x #': fill # why", "'a: call' 'x #'", 'fill', 'why'), ("'a' 'b:'", "'a' 'b:'", 'call fill new state', '')):
            found = read_line(line)
            assert found is not None
            self.assertEqual((found.name, ' '.join(sorted(found.words)), found.note), (name, words, note), line)

    def test_what_is_said_of_imports(self) -> None:
        every = ('call', 'fill', 'new', 'state')
        for line, words in (('a.b', 'call fill new state'), ('a.b: call', 'call new'), ('a.b: made', ''), ('a.b: call made', 'call new'),
                            ('a.b: made-state made', ''), ('a.b: new made-call', 'new'), ('a.b: call(text) made-fill', 'call new'), ('a.b: then(text)', '')):
            names = Names([line])
            self.assertEqual(' '.join(each for each in every if names.allows_done(each, 'a.b')), words, line)

    def test_lines_for_the_gate(self) -> None:
        """They are those of the list, without names in quotes, and say the same when they are read again."""
        lines = ['a.b', 'a.b: call', 'a.*: call(text 3) then(held) made-state  # why', 'a.**: made', "'os ' 'x'", '"it\'s" \'x\'', "'**", "'os' #*", 'ext 7', 'ext *',
                 'persistent', 'buffer: fill', 'torch.*Storage:', '**', 'été.Ärger: new']
        names = Names(lines)
        entries = names.entries()
        self.assertEqual(sorted(entries), sorted(['a.b', 'a.b: call', 'a.*: call(text 3) then(held) made-state', 'a.**: made', 'ext 7', 'ext *', 'persistent', 'buffer: fill',
                                                  'torch.*Storage:', '**', 'été.Ärger: new']))
        self.assertEqual(Names(entries).entries(), entries)
        self.assertEqual(Names(entries).digest, names.digest)
        self.assertEqual([each for each in entries if each not in names.entries_for(['a.b'])], ['ext 7', 'été.Ärger: new'])

    def test_the_program_refuses_them_too(self) -> None:
        """Of a large list the program is asked, and not the library."""
        long = [f'a.b{number}: call(text)' for number in range(80_000)]
        self.assertEqual([refused_line([*long, *more]) for more in (['a.b'], ['# a.b', 'a.b: cal', 'a'])], [None, 80_001])

    def test_each_name_that_is_shown_can_stand_in_a_list(self) -> None:
        chance = random.Random(71)
        tried = 0
        for _ in range(300):
            parts = [''.join(chance.choices('ab_2.é \'"\\#*:\n', k=chance.randrange(1, 6))).encode() for _ in range(2)]
            content = b'\x80\x04' + b''.join(b'\x8c' + bytes([len(part)]) + part for part in parts) + b'\x93.'
            for found in look_at_bytes('a.pkl', content).pickles[0].imports:
                names = Names([f'{found.name}: call  # why'])
                judge = Judge(names)
                self.assertIsNone(judge.mark(found.name), found.name)
                self.assertEqual([names.allows_done(what, found.name) for what in ('call', 'state')], [True, False], found.name)
                tried += 1
        self.assertGreater(tried, 250)

    def test_a_long_line_takes_no_long_time(self) -> None:
        for line in ('a' + ' ' * 1_000_000 + 'b', 'a.' * 500_000 + 'b', "'" + 'a' * 1_000_000, "'" + '\\' * 1_000_000, ': call' * 200_000):
            try:
                read_line(line)
            except NoList as error:
                self.assertLess(len(str(error)), 300)

    def test_names_in_python_have_the_same_grammar(self) -> None:
        with self.assertRaisesRegex(NoList, 'import numpy'):
            picklestep.check(HARMLESS, names=['import numpy'])
        with self.assertRaisesRegex(NoList, 'only a file'):
            picklestep.check(HARMLESS, names=['include numpy'])


class Includes(ScanCase):
    """A list and those that it includes."""

    def test_a_set_includes_what_it_needs(self) -> None:
        for word in ('numpy', 'scipy', 'pandas', 'sklearn', 'joblib', 'xgboost', 'xarray', 'transformers'):
            self.assertEqual(picklestep.check(NUMPY, allow=word), NUMPY)
        self.file('a.pkl', NUMPY + HARMLESS)
        self.assertEqual(self.scan('a.pkl', '--allow', 'sklearn').returncode, 0)

    def test_a_list_includes_a_set_and_other_files(self) -> None:
        self.file('a.pkl', NUMPY + HOSTILE)
        self.file('lists/ours', b'# Ours.\ninclude numpy  # arrays\ninclude deeper/theirs\n')
        self.file('lists/deeper/theirs', b'include ../ours\nposix.system: call\ninclude theirs\ninclude ./theirs\n')
        run = self.scan('a.pkl', '--allow', 'lists/ours')
        self.assertEqual((run.returncode, run.stderr), (0, ''))
        self.assertEqual(self.scan('a.pkl', '--allow', 'lists/deeper/theirs').returncode, 0)

    def test_a_long_chain(self) -> None:
        for number in range(3000):
            self.file(f'{number}', b'include %d\n' % (number + 1))
        self.file('3000', b'include 0\na.b\n')
        self.assertEqual(list(read_names([str(self.folder / '0')]).names), ['a.b'])

    def test_unknown_names(self) -> None:
        self.file('a.pkl', HARMLESS)
        self.file('ours', b'\n# Ours.\ninclude nump\n')
        self.file('folder/ours', b'include ../folder\n')
        for words, said in ((['ours'], 'ours, line 3: cannot include nump: No such file or directory; the nearest set is numpy'),
                            (['folder/ours'], 'folder/ours, line 1: cannot include ../folder: Is a directory'),
                            (['nump'], 'cannot open nump: No such file or directory; the nearest set is numpy'),
                            (['scikit-learn'], 'cannot open scikit-learn: No such file or directory; the nearest set is sklearn'),
                            (['torch', 'zzz'], 'cannot open zzz: No such file or directory')):
            run = self.scan('a.pkl', *(word for each in words for word in ('--allow', each)))
            self.assertEqual((run.returncode, run.stdout, run.stderr), (2, '', f'picklestep: {said}\n'))

    def test_nonsense_has_its_place(self) -> None:
        self.file('a.pkl', HARMLESS)
        self.file('ours', b'a.b\r\n# \x0c\xe2\x80\xa8c.d e\r\nimport numpy\r\n')
        self.file('more', b'include ours\n')
        self.file('binary', b'a.b\n\xff\xfe\n')
        self.file('alone', b'a.b\n# a note\rcollections.OrderedDict\n')
        for option in ('--allow', '--deny'):
            for name, said in (('ours', 'ours, line 3: no entry of a list: import numpy'),
                               ('more', 'ours, line 3: no entry of a list: import numpy'), ('binary', 'binary, line 2: no text in UTF-8'),
                               ('alone', 'alone, line 2: a carriage return without a newline')):
                run = self.scan('a.pkl', option, name)
                self.assertEqual((run.returncode, run.stdout, run.stderr), (2, '', f'picklestep: {said}\n'))
        with self.assertRaisesRegex(NoList, 'ours, line 3'):
            picklestep.check(HARMLESS, allow=[str(self.folder / 'ours')])

    def test_signs_of_an_editor_are_no_part_of_a_name(self) -> None:
        self.file('a.pkl', HARMLESS)
        self.file('ours', b'\xef\xbb\xbfcollections.OrderedDict\r\n')
        self.assertEqual(self.scan('a.pkl', '--allow', 'ours').returncode, 0)

    def test_a_set_that_is_denied_is_its_own_names(self) -> None:
        self.file('a.pkl', HARMLESS)
        self.file('b.pkl', NUMPY)
        self.file('deny', b'include numpy\n')
        for name, word, status in (('a.pkl', 'numpy', 0), ('b.pkl', 'numpy', 1), ('a.pkl', 'deny', 0), ('b.pkl', 'deny', 1), ('b.pkl', 'sklearn', 0)):
            self.assertEqual(self.scan(name, '--deny', word).returncode, status, (name, word))

    def test_what_is_not_allowed_says_in_which_set_it_is(self) -> None:
        self.file('a.pkl', NUMPY + HARMLESS + b'cours\nModel\n.')
        self.file('ours', b'a.b\n')
        self.assertEqual([line.partition(': ')[2] for line in self.scan('a.pkl', '--brief', '--allow', 'ours').stdout.splitlines()[:3]], [
            'import numpy.ndarray once, first at 2: not allowed: is in set numpy',
            'import collections.OrderedDict once, first at 20: not allowed: is in sets plain, torch', 'import ours.Model once, first at 46: not allowed'])

    def test_names_are_kept_as_long_as_files_are_the_same(self) -> None:
        self.file('lists/a.txt', b'include b.txt\nnumpy.dtype\n')
        self.file('lists/b.txt', b'numpy.ndarray\n')
        words = [str(self.folder / 'lists' / 'a.txt')]
        first = names_of(words, ['os.path'])
        self.assertIs(names_of(words, ['os.path']), first)
        self.assertIsNot(names_of(words, []), first)
        self.assertIs(names_of(['numpy'], []), names_of(['numpy'], []))
        for file, content, has in (('b.txt', b'numpy.float64\n', 'numpy.float64'), ('a.txt', b'include c.txt\n', None), ('c.txt', b'numpy.int8\n', 'numpy.int8'),
                                   ('a.txt', b'include b.txt\nnumpy.dtype\n', 'numpy.dtype')):
            self.file(f'lists/{file}', content)
            if has is None:
                with self.assertRaisesRegex(NoList, 'cannot include c.txt'):
                    names_of(words, ['os.path'])
                continue
            found = names_of(words, ['os.path'])
            self.assertEqual((found.note(has), found.note('numpy.ndarray')), ('', None), file)
        (self.folder / 'other').mkdir()
        self.file('other/a.txt', b'pandas.DataFrame\n')
        before = os.getcwd()
        try:  # (a path is that of another file in another folder, as it is behind a link)
            for folder, has in (('lists', 'numpy.dtype'), ('other', 'pandas.DataFrame')):
                os.chdir(self.folder / folder)
                self.assertEqual(names_of(['a.txt'], []).note(has), '', folder)
        finally:
            os.chdir(before)

    @unittest.skipUnless(hasattr(os, 'mkfifo'), 'there are no FIFOs')
    def test_what_is_read_once_is_read_once(self) -> None:
        path = self.folder / 'list'
        os.mkfifo(path)
        for line in ('numpy.dtype', 'numpy.ndarray', 'numpy.ndarray'):
            writer = threading.Thread(target=path.write_bytes, args=(f'{line}\n'.encode(),))
            writer.start()
            self.assertEqual(list(names_of([str(path)], []).names), [line])
            writer.join()

    def test_a_list_without_a_name_allows_none(self) -> None:
        for content in (b'', b'# Nothing yet.\n'):
            path = str(self.file('ours', content))
            self.assertEqual(self.scan(str(self.file('a.pkl', HARMLESS)), '--allow', 'ours').returncode, 1)
            with self.assertRaises(picklestep.NotAllowed):
                picklestep.check(HARMLESS, allow=path)


def _text(value: str) -> bytes:
    return b'X' + struct.pack('<I', len(value)) + value.encode()


_CTOR = b'cnumpy.random._pickle\n__randomstate_ctor\nq\x00'
_PARTS = b''.join(_text(letter) + b'q' + bytes([key]) for key, letter in enumerate('bcde', 3))
# Calls of what is only to be imported, through something that may be called: in all ways in which picklers write calls.
THROUGH = {
    'REDUCE': b'\x80\x02ccopyreg\n__newobj__\nq\x00ca\nX\nq\x01\x85q\x02Rq\x03.', 'INST': b'(ca\nX\np1\nicopyreg\n__newobj__\np2\n(dp3\nb.',
    'INST of Python 2': b'(ca\nX\np0\nicopy_reg\n__newobj__\np1\n(dp2\nb.', 'OBJ': b'(ccopyreg\n__newobj__\nq\x00ca\nX\nq\x01oq\x02}q\x03b.',
    'a text that is cut': b'\x80\x02' + _CTOR + _text('x' * 5000) + b'q\x01ca\nX\nq\x02\x86q\x03Rq\x04.',
    'bytes that are cut': b'\x80\x03' + _CTOR + b'C\xc8' + bytes(200) + b'q\x01ca\nX\nq\x02\x86q\x03Rq\x04.',
    'arguments that a call made': b'\x80\x02ccopyreg\n__newobj__\nq\x00curlparse\nSplitResult\nq\x01(ca\nX\nq\x02' + _PARTS + b'tq\x07\x81q\x08Rq\x09.',
}


class Recorder:
    """What is only to be imported."""

    made = 0

    def __new__(cls, *words: object) -> Recorder:
        cls.made += 1
        return super().__new__(cls)


class OfPython(pickle.Unpickler):
    """Python's unpickler, with what numpy has under that name."""

    def find_class(self, module: str, name: str) -> Any:
        mine = {'X': Recorder, '__randomstate_ctor': lambda word, maker: maker(word)}
        return mine[name] if name in mine else super().find_class(module, name)


class Through(unittest.TestCase):
    """What is allowed to be imported and no more is not called through something else."""

    def test_each_way(self) -> None:
        names = ['a.X:', 'copyreg.__newobj__: call', 'numpy.random._pickle.__randomstate_ctor: call', 'urllib.parse.SplitResult: new']
        for way, content in THROUGH.items():
            with self.subTest(way):
                before = Recorder.made
                OfPython(io.BytesIO(content)).load()
                self.assertEqual(Recorder.made, before + 1)
                looks = looks_in(Judge(Names(names)), content)
                told = ['odd' if 'made' in way else 'not-allowed-done'] * (2 if 'INST' in way else 1)  # (no list lets an INST pass)
                self.assertEqual([each.rule for each in looks], told, looks)


class InAnotherForm(ScanCase):
    """What no pickler writes so passes no list, whatever it imports. It is told once, by its form or by the gate."""

    JUDGE = Judge(Names(['**']))

    def test_it_is_told_once(self) -> None:
        for content in (b'\x80\x02J\1\0\0\0.', b'\x80\x04N\x85\x85\x85\x85.', b'capp\na\nNp1\n0.', b'capp\na\n.N.J\1\0\0\0.', b'capp\na\n(S"b"\ntR.'):
            looks = looks_in(self.JUDGE, content)
            self.assertEqual([each.rule for each in looks], ['unusual-form'], content)
            self.assertRaisesRegex(picklestep.NotAllowed, 'not in the form', picklestep.check, content, names=['**'])
        for content in (b'(iapp\na\n.', b'(K\1iapp\na\np0\n}p1\nb.'):
            self.assertTrue(looks_in(self.JUDGE, content), content)

    def test_what_the_gate_was_not_asked_about(self) -> None:
        look, = self.JUDGE.looks(look_at_bytes('a.pkl', b'capp\na\n.'))
        self.assertEqual(look.rule, 'not-allowed-done')
        self.assertIn('no list lets it pass: it was not asked', look.text)

    def test_imports_that_the_list_has_not(self) -> None:
        looks = looks_in(Judge(Names(['app.a'])), b'capp\na\n0capp\nb\nNp1\n0.')
        self.assertEqual([(each.rule, each.name) for each in looks], [('not-allowed', 'app.b'), ('unusual-form', '')])


class Written(ScanCase):
    """A list that is there, and to which names are added."""

    OURS = (b'# Ours, read over by A.\ninclude plain\n\nzeta.last   # stays here\nunused.*Thing:\n# torch.load: call   # struck out\nalpha.First: new\n')

    def setUp(self) -> None:
        super().setUp()
        self.file('a.pkl', HARMLESS + NUMPY)
        self.file('b.pkl', HOSTILE + b'\x80\x02calpha\nFirst\n)R.' + b'ctorch\nload\n.')

    def add(self, *words: str) -> str:
        """What stands in the list when names were added."""
        run = self.scan(*words, '--write-allow', 'ours')
        self.assertEqual(run.stderr, '')
        return (self.folder / 'ours').read_bytes().decode()

    def test_a_reviewed_list_stays(self) -> None:
        self.file('ours', self.OURS)
        text = self.add('a.pkl', '--allow', 'ours')
        self.assertTrue(text.startswith(self.OURS.decode()))
        self.assertRegex(text[len(self.OURS):], r'\A\n# Added on \d{4}-\d\d-\d\d, seen first in a\.pkl\n'
                                                r'numpy\.ndarray:  # once in 1 pickle, first in a\.pkl\n'
                                                r'# Unused on \d{4}-\d\d-\d\d: zeta\.last, unused\.\*Thing, alpha\.First\n\Z')
        self.assertEqual(self.scan('a.pkl', '--allow', 'ours').returncode, 0)

    def test_nothing_new_changes_nothing(self) -> None:
        path = self.file('ours', self.OURS)
        self.add('a.pkl', 'b.pkl')
        content, before = path.read_bytes(), path.stat()
        self.assertEqual(self.add('a.pkl', 'b.pkl').encode(), content)
        self.assertEqual((path.stat().st_mtime_ns, path.stat().st_ino), (before.st_mtime_ns, before.st_ino))

    def test_what_is_known_or_struck_out_is_not_allowed_by_it(self) -> None:
        self.file('ours', self.OURS)
        added = self.add('b.pkl', 'a.pkl')[len(self.OURS):].splitlines()
        self.assertRegex(added[1], r'seen first in 2 places, which the notes name$')
        self.assertRegex(added.pop(), r'\A# Unused on \d{4}-\d\d-\d\d: zeta\.last, unused\.\*Thing\Z')
        self.assertEqual(added[2:], ['alpha.First: call  # once in 1 pickle, first in b.pkl', 'numpy.ndarray:  # once in 1 pickle, first in a.pkl',
                                     '# posix.system: call  # runs a shell command; once in 1 pickle, first in b.pkl'])
        marked = self.scan('b.pkl', '--brief', '--allow', 'ours').stdout
        self.assertEqual(re.findall(r'import (\S+) ', marked), ['posix.system', 'torch.load'])

    def test_what_is_unused_is_told_once(self) -> None:
        self.file('ours', self.OURS)
        self.add('a.pkl')
        text = self.add('b.pkl')
        told = [line.partition(': ')[2] for line in text.splitlines() if line.startswith('# Unused on')]
        self.assertEqual(told, ['zeta.last, unused.*Thing, numpy.ndarray'])
        self.assertEqual(self.add('b.pkl'), text)

    def test_all_are_used(self) -> None:
        self.file('ours', b'numpy.ndarray\n# Unused on 2026-01-01: numpy.ndarray\ncollections.*\n')
        self.assertEqual(self.add('a.pkl'), 'numpy.ndarray\ncollections.*\n')

    def test_names_in_quotes(self) -> None:
        self.file('ours', b'a.b\n')
        self.file('c.pkl', b'cos \nx*\n.' + b'cos \ny\n.' + b"(cit's\ny\nt." + b'\x80\x04\x8c\1a\x8c\1b\x86\x8c\1c\x93.')
        self.add('c.pkl')
        names = [found.name for found in map(read_comment, (self.folder / 'ours').read_text().splitlines()) if found is not None]
        self.assertIn("'os ' 'x*'", names)
        content = (self.folder / 'ours').read_bytes()
        self.assertEqual(self.add('c.pkl').encode(), content)

    def test_ends_of_lines_stay(self) -> None:
        self.file('ours', b'a.b\r\nc.d')
        self.assertRegex(self.add('a.pkl'), r'\Aa\.b\r\nc\.d\r\n\r\n# Added [^\n]*\r\ncollections\.OrderedDict:[^\n]*\r\nnumpy\.ndarray:[^\n]*\r\n'
                                              r'# Unused on \S+: a\.b, c\.d\r\n\Z')

    def test_a_file_that_is_no_list_stays(self) -> None:
        for content, line in ((b'Dear A,\n', 1), (b'a.b\n\n<html>\n', 3), (b'\x80\x04N.', 1), (b'include nump\n', 1)):
            path = self.file('notes', content)
            before = path.stat()
            run = self.scan('a.pkl', '--write-allow', 'notes')
            self.assertEqual((run.returncode, run.stdout), (2, ''))
            self.assertRegex(run.stderr, rf'\Apicklestep: cannot write notes, which is no list: notes, line {line}: ')
            self.assertEqual((path.read_bytes(), path.stat().st_mtime_ns, path.stat().st_ino), (content, before.st_mtime_ns, before.st_ino))

    def test_a_file_with_the_name_of_a_set(self) -> None:
        self.file('numpy', b'a.b\n')
        self.assertEqual(self.scan('a.pkl', '--write-allow', 'numpy').returncode, 0)
        self.assertIn('numpy.ndarray:', (self.folder / 'numpy').read_text())

    def test_an_empty_file_gets_a_whole_list(self) -> None:
        self.file('ours', b'')
        self.assertTrue(self.add('a.pkl').startswith('collections.OrderedDict:'))

    @unittest.skipUnless(hasattr(os, 'symlink') and os.name == 'posix', 'for systems with modes')
    def test_links_and_modes_stay(self) -> None:
        self.file('kept/ours', self.OURS).chmod(0o640)
        (self.folder / 'ours').symlink_to('kept/ours')
        self.add('a.pkl')
        self.assertTrue((self.folder / 'ours').is_symlink())
        self.assertEqual(stat.S_IMODE((self.folder / 'kept' / 'ours').stat().st_mode), 0o640)
        self.assertEqual(sorted(os.listdir(self.folder / 'kept')), ['ours'])

    def test_a_fault_while_writing_loses_nothing(self) -> None:
        path = self.file('ours', self.OURS)
        used = written.Used()
        used.add(look_at_bytes('a.pkl', NUMPY))
        with unittest.mock.patch.object(os, 'fsync', side_effect=OSError(28, 'No space left on device')), self.assertRaises(OSError):
            written.write_list(str(path), used)
        self.assertEqual((path.read_bytes(), os.listdir(self.folder).count('ours')), (self.OURS, 1))
        self.assertEqual([name for name in os.listdir(self.folder) if 'unfinished' in name], [])

    def test_a_list_that_changes_meanwhile(self) -> None:
        """What somebody writes into it while files are looked at stays, too."""
        path = self.file('ours', self.OURS)
        used = written.Used()
        used.add(look_at_bytes('a.pkl', NUMPY))
        written.check_list(str(path))
        Path(path).write_bytes(self.OURS + b'numpy.**\n')
        written.write_list(str(path), used)
        self.assertTrue(path.read_bytes().startswith(self.OURS + b'numpy.**\n# Unused on '))


class Explained(ScanCase):
    """Which lines have a name: `gate --explain`."""

    OURS = b"# Our own.\ncollections.Order*: call  # sorted\ninclude theirs\ncollections.deque\nexample.**.Job:\n"

    def setUp(self) -> None:
        super().setUp()
        self.file('ours', self.OURS)
        self.file('theirs', b'collections.OrderedDict: call made-fill\next 300\npersistent\n')

    def gate(self, *words: str) -> Tuple[int, str]:
        run = subprocess.run([sys.executable, '-m', 'picklestep', 'gate', *words], cwd=self.folder, env=environment(), timeout=600, capture_output=True, text=True)
        return run.returncode, run.stdout

    def explain(self, *words: str) -> Tuple[int, str]:
        return self.gate('--explain', *words)

    def test_each_line_that_has_the_name(self) -> None:
        status, output = self.explain('collections.OrderedDict', 'ours')
        self.assertEqual(output.splitlines()[:2], ['ours, line 2: collections.Order*: call  # sorted', 'theirs, line 1: collections.OrderedDict: call made-fill'])
        self.assertTrue(all(line.startswith('the set ') for line in output.splitlines()[2:]), output)
        self.assertIn('the set plain, ', output)
        self.assertEqual(status, 0)

    def test_a_name_that_no_list_has(self) -> None:
        self.assertEqual(self.explain('example.Jobs', 'ours', 'numpy'), (1, 'no line of these lists has example.Jobs\n'))
        self.assertEqual(self.explain('example.Jobs'), (1, 'no line of a set has example.Jobs\n'))

    def test_a_set_that_is_given(self) -> None:
        status, output = self.gate('--explain', 'numpy.ndarray', 'numpy')
        self.assertRegex(output, r'\Anumpy, line [0-9]+: numpy\.ndarray: .*\n\Z')
        self.assertEqual(status, 0)

    def test_what_is_no_import(self) -> None:
        for name, line in (('ext 300', 2), ('persistent', 3)):
            self.assertEqual(self.explain(name, 'ours'), (0, f'theirs, line {line}: {name}\n'))
        self.assertEqual(self.explain('ext 3', 'ours'), (1, 'no line of these lists has ext 3\n'))

    def test_words_that_are_wrong(self) -> None:
        for words in ((), ('os',), ('a.b', 'none'), ('a.b', '--many')):
            self.assertEqual(self.explain(*words), (2, ''))


class PutTogether(ScanCase):
    """Sets, several lists, and lists that include others, as `gate` takes them."""

    ORDERED = pickle.dumps(collections.OrderedDict(a=1), 4)

    def setUp(self) -> None:
        super().setUp()
        self.file('call', b'collections.OrderedDict: call made\n')
        self.file('fill', b'collections.OrderedDict: made-fill\n')
        self.file('both', b'# of us\n include call # and\ninclude fill\n')
        self.file('named', b'# include call\ninclude.call: call\n')
        self.file('wrong', b'include call\n\na.b: cal\n')
        self.file('a.pkl', self.ORDERED)
        self.file('b.pkl', b'N.')
        self.file('numpy', b'a.b\n')

    def gate(self, *words: str) -> Tuple[int, str, str]:
        run = subprocess.run([sys.executable, '-m', 'picklestep', 'gate', *words], cwd=self.folder, env=environment(), timeout=600, capture_output=True, text=True)
        return run.returncode, run.stdout, run.stderr

    def test_what_lists_allow_together(self) -> None:
        for words, status, output in ((('both', 'a.pkl'), 0, 'passes\n'), (('--list', 'call', '--list=fill', 'a.pkl'), 0, 'passes\n'), (('plain', 'a.pkl'), 0, 'passes\n'),
                                      (('--list', 'fill', '--list', 'plain', 'a.pkl', 'b.pkl'), 0, "'a.pkl': passes\n'b.pkl': passes\n"),
                                      (('--list', 'call', '--', 'b.pkl'), 0, 'passes\n'), (('./numpy', 'b.pkl'), 0, 'passes\n')):
            with self.subTest(words):
                self.assertEqual(self.gate(*words)[:2], (status, output))
        for words in (('call', 'a.pkl'), ('--list', 'call', 'a.pkl'), ('./numpy', 'a.pkl'), ('torch-modules', 'a.pkl', 'b.pkl')):
            with self.subTest(words):
                status, output, _ = self.gate(*words)
                self.assertEqual((status, 'not allowed' in output), (0, False) if words[0] == 'torch-modules' else (1, True))

    def test_what_is_wrong(self) -> None:
        for words, why in ((('wrong', 'b.pkl'), 'wrong, line 3: no entry of a list: a.b: cal; the nearest word is call'), (('--list', 'none', 'b.pkl'), 'cannot read none: '),
                           (('--list', 'call'), 'it is: picklestep gate LIST FILE ..'), (('--list', 'call', '--lists', 'b.pkl'), 'gate takes no option --lists'),
                           (('b.pkl', '--list'), '--list wants a set or a file'), (('numpy',), 'it is: picklestep gate LIST FILE ..')):
            with self.subTest(words):
                status, output, said = self.gate(*words)
                self.assertEqual((status, output), (2, ''))
                self.assertTrue(said.startswith(f'picklestep: {why}'), said)

    def test_who_puts_them_together(self) -> None:
        """The starter, a script of the shell, says the same as the package."""
        package = Path(picklestep.__file__).parent
        script = f'package={shlex.quote(str(package))}; . "$package/help/start.sh"; is_told_more "$@"'
        for words, wanted in ((('call', 'b.pkl'), False), (('both', 'b.pkl'), True), (('named', 'b.pkl'), False), (('numpy', 'b.pkl'), True), (('./numpy', 'b.pkl'), False),
                              (('--list', 'call', 'b.pkl'), True), (('call', 'b.pkl', 'b.pkl'), False)):
            with self.subTest(words):
                given = ['gate', *words]
                self.assertEqual(subprocess.run(['sh', '-c', script, 'sh', *given], cwd=self.folder, timeout=600).returncode == 0, wanted)
                with _in_folder(self.folder):
                    self.assertEqual(entrance.gathers(given), wanted)


@contextlib.contextmanager
def _in_folder(folder: Path) -> Iterator[None]:
    before = os.getcwd()
    os.chdir(folder)
    try:
        yield
    finally:
        os.chdir(before)


if __name__ == '__main__':
    unittest.main()
