"""One opener for every word: addresses as `scan` prints them, and containers without one.

The bytes that the library of Python takes out of a container are given to the program alone: a word that opens the container says the same.
"""

from __future__ import annotations

import base64
import bz2
import contextlib
import dbm.dumb
import functools
import gzip
import io
import json
import lzma
import os
import pickle
import re
import sqlite3
import struct
import subprocess
import sys
import time
import unittest
import zipfile
import zlib
from pathlib import Path
from typing import Callable, Dict, Iterator, List, Sequence, Tuple
from unittest import mock

import picklestep
from examples_of_pages import blocks
from picklestep import scan
from picklestep.diff import main as diff
from picklestep.hints import OLD_TORCH, WRAPPER
from picklestep.mend import main as mend
from picklestep.opens import BEGINS, SERVERS, has_more, has_zip_behind, holds_others, may_have_arrays, split
from picklestep.place import find_program, is_module
from picklestep.python_source import main as source
from picklestep.scan.blobs import Limits
from picklestep.scan.containers import CONTAINERS, STORES
from picklestep.scan.looking import Options
from picklestep.scan.stores.address import SERVERS as READ_BY
from picklestep.shell.command import main as shell
from picklestep.unread import kind_of_long, kind_of_short
from picklestep.view.command import main as view
from pickles import LIST, REAL, chosen
from scan_support import HARMLESS, HOSTILE, MODELS, Made, environment, tarred, zip_of
from test_entrance import PACKAGE, EntranceCase, ways
from test_hints import HIDDEN, SWALLOWED, array_of
from test_stores_unread import BEGINS as BEGINS_OF_OTHERS, SURE as SURE_BEGINS

DATA = 'archive/data.pkl'
PICKLES = {'a.pkl': HOSTILE, 'b.pkl': HARMLESS}


def zipped(members: Dict[str, bytes], method: int = zipfile.ZIP_DEFLATED) -> bytes:
    """A zip archive as Python writes it."""
    held = io.BytesIO()
    with zipfile.ZipFile(held, 'w', method) as archive:
        for name, data in members.items():
            archive.writestr(name, data)
    return held.getvalue()


def array_of_objects(content: bytes) -> bytes:
    """A file of numpy whose array holds objects."""
    header = b"{'descr': '|O', 'fortran_order': False, 'shape': (1,), }".ljust(117) + b'\n'
    return b'\x93NUMPY\x01\x00' + struct.pack('<H', len(header)) + header + content


class OpenerCase(EntranceCase):
    """A test in a folder of its own, in which it stands."""

    def setUp(self) -> None:
        super().setUp()
        self.addCleanup(os.chdir, os.getcwd())
        os.chdir(self.folder)

    def say(self, word: 'functools.partial[int]') -> Tuple[int, str, str]:
        """The status of a word of the package in this process, and what it says."""
        with contextlib.redirect_stdout(io.StringIO()) as out, contextlib.redirect_stderr(io.StringIO()) as errors:
            status = word()
        return status, out.getvalue(), errors.getvalue()

    def model(self, name: str) -> Path:
        """A copy of a real file."""
        return self.file(name, (MODELS / name).read_bytes())

    def runs(self, words: Sequence[str], in_each_way: bool = False) -> 'Iterator[Tuple[str, subprocess.CompletedProcess[str]]]':
        """Runs of these words: in the way that is started soonest, or in each."""
        for way, entrance in chosen(ways().items(), 1) if in_each_way else [('-I -m', ways()['-I -m'])]:
            yield way, self.start([*entrance, *words])


class WordsOfTheProgram(OpenerCase):
    """`list`, `objects`, `calls`, `form`, `debug`: what the program says of the bytes alone."""

    def same(self, content: bytes, address: str, said: str) -> None:
        self.file('alone.pkl', content)
        for word in ('list', 'objects', 'calls', 'form', 'debug'):
            alone = self.start([find_program(), word, 'alone.pkl'])
            for way, run in self.runs([word, address], word in ('list', 'calls')):
                with self.subTest((way, word, address)):
                    self.assertEqual((run.returncode, run.stdout), (alone.returncode, alone.stdout))
                    self.assertRegex(run.stderr, said)

    def test_an_address(self) -> None:
        with zipfile.ZipFile(self.model('torch_state.pt')) as archive:
            content = archive.read(DATA)
        self.same(content, f'torch_state.pt > {DATA}', rf"^picklestep: opened 'torch_state.pt > {DATA}' \({len(content)} bytes\)\n$")

    def test_a_container_with_one_pickle(self) -> None:
        with zipfile.ZipFile(self.model('torch_state.pt')) as archive:
            content = archive.read(DATA)
        self.same(content, 'torch_state.pt', rf"^picklestep: torch_state.pt is a container \(zip\): the one pickle in it is opened, "
                                             rf"'torch_state.pt > {DATA}' \({len(content)} bytes\)\n$")

    def test_each_kind(self) -> None:
        """The address that scan prints, and the file alone."""
        made = {'a.pkl.gz': gzip.compress(HOSTILE), 'a.pkl.bz2': bz2.compress(HOSTILE), 'a.pkl.xz': lzma.compress(HOSTILE), 'a.z': zlib.compress(HOSTILE),
                'a.lzma': lzma.compress(HOSTILE, lzma.FORMAT_ALONE), 'a.tar': tarred({'x/a.pkl': HOSTILE}), 'a.zip': zipped({'a.pkl': HOSTILE}),
                'a.npy': array_of_objects(HOSTILE), 'a.npz': zipped({'x.npy': array_of_objects(HOSTILE)}), 'a.tgz': gzip.compress(tarred({'a': HOSTILE}))}
        self.file('alone.pkl', HOSTILE)
        alone = self.start([find_program(), 'objects', 'alone.pkl']).stdout
        for name, content in made.items():
            path = self.file(name, content)
            where, = (found.where for found in scan.look(name).pickles)
            for address in (name, ' > '.join([str(path), *where])):
                for way, run in self.runs(['objects', address]):
                    with self.subTest((way, address)):
                        self.assertEqual((run.returncode, run.stdout), (0, alone))
                        self.assertIn(f"{' > '.join([address.partition(' > ')[0], *where])}' (25 bytes)", run.stderr)

    def test_several_pickles(self) -> None:
        self.file('two.zip', zipped(PICKLES))
        for word in ('list', 'objects', 'calls', 'form', 'debug'):
            for way, run in self.runs([word, 'two.zip']):
                with self.subTest((way, word)):
                    self.assertEqual((run.returncode, run.stdout), (2, ''))
                    self.assertEqual(run.stderr.splitlines(), ['picklestep: two.zip is a container (zip) with 2 pickles: give the address of one',
                                                               "  'two.zip > a.pkl'  # 25 bytes", f"  'two.zip > b.pkl'  # {len(HARMLESS)} bytes"])

    @unittest.skipIf(os.name == 'nt', 'a shell of POSIX is wanted')
    def test_addresses_are_pasted(self) -> None:
        """Each line is one word of a shell."""
        self.file("it's $(x).zip", zipped({'a `b`.pkl': HOSTILE, "c'd.pkl": HARMLESS}))
        entrance = ways()['-I -m']
        lines = self.start([*entrance, 'list', "it's $(x).zip"]).stderr.splitlines()[1:]
        self.assertEqual(len(lines), 2)
        for line in lines:
            run = self.start(['/bin/sh', '-c', f'"$@" calls {line}', 'sh', *entrance])
            self.assertEqual((run.returncode, run.stdout.count('import ')), (0, 1), run.stderr)

    def test_options(self) -> None:
        self.file('two.pkl.gz', gzip.compress(LIST + HOSTILE))
        self.file('two.pkl', LIST + HOSTILE)
        for words in (['list', '--many'], ['calls', '--first'], ['calls', '--memo', 'kept', '--full'], ['calls', '--skip', '0:17'], ['calls', '--'],
                      ['objects', '--unframed', '--']):
            alone = self.start([find_program(), *words, 'two.pkl'])
            for way, run in self.runs([*words, 'two.pkl.gz']):
                with self.subTest((way, words)):
                    self.assertEqual((run.returncode, run.stdout), (alone.returncode, alone.stdout), run.stderr)

    def test_without_a_word(self) -> None:
        """It is looked at as `scan` looks at the file, and at nothing else of it."""
        self.file('two.zip', zipped(PICKLES))
        for way, run in self.runs(['two.zip > a.pkl']):
            self.assertEqual((run.returncode, run.stderr), (1, ''), way)
            self.assertEqual(re.findall('  (two.zip > .*): ', run.stdout), ['two.zip > a.pkl'])

    def test_scan(self) -> None:
        inner = zipped(PICKLES)
        self.file('outer.zip', zipped({'two.zip': inner, 'c.pkl': HOSTILE}))
        whole = [line for line in self.start([*ways()['-I -m'], 'scan', 'outer.zip']).stdout.splitlines() if line.startswith('  outer')]
        below = [line for line in whole if line.startswith('  outer.zip > two.zip > ')]
        self.assertEqual((len(whole), len(below)), (len(PICKLES) + 1, len(PICKLES)))
        for address, wanted in (('outer.zip > two.zip', below), ('outer.zip > c.pkl', [line for line in whole if line not in below])):
            run = self.start([*ways()['-I -m'], 'scan', address])
            self.assertEqual([line for line in run.stdout.splitlines() if line.startswith('  outer')], wanted, run.stderr)
        run = self.start([*ways()['-I -m'], 'scan', 'outer.zip > none'])
        self.assertEqual((run.returncode, run.stdout.split('\n')[0]), (3, "! outer.zip: cannot be read: nothing in it has the address 'none'"))

    def test_members(self) -> None:
        """The bytes at an address, whatever is in them."""
        inner = zipped(PICKLES)
        self.file('inner.zip', inner)
        self.file('outer.zip', zipped({'two.zip': inner}))
        alone = self.start([find_program(), 'members', 'inner.zip'])
        for way, run in self.runs(['members', 'outer.zip > two.zip']):
            self.assertEqual((run.returncode, run.stdout), (0, alone.stdout), run.stderr)
        found = picklestep.members('outer.zip > two.zip')
        self.assertEqual({each.name: picklestep.calls(each.address).text for each in found}, {name: picklestep.calls(data).text for name, data in PICKLES.items()})
        self.assertEqual([(each.name, each.size) for each in picklestep.members(inner)], [(name, len(data)) for name, data in PICKLES.items()])
        for wrong in ('outer.zip > none', self.file('a.pkl', HOSTILE)):
            self.assertRaises(picklestep.NotOpened, picklestep.members, wrong)

    def test_members_of_one_name(self) -> None:
        self.file('two.zip', zip_of([Made(b'in.zip', zipped(PICKLES)), Made(b'in.zip', zipped({'other.pkl': HARMLESS}))]))
        for way, run in self.runs(['members', 'two.zip > in.zip']):
            self.assertEqual((run.returncode, run.stdout), (2, ''), way)
            self.assertIn('is the address of several, and loaders differ in which they take', run.stderr)

    def test_what_is_not_opened(self) -> None:
        """Each word says what the file begins like."""
        self.file('a.7z', b'7z\xbc\xaf\x27\x1c' + bytes(40))
        self.file('names', b'builtins.eval\n')
        for words in (['calls'], ['list'], ['objects'], ['form'], ['reach'], ['debug'], ['gate', 'names'], ['source'], ['mend'], ['size']):
            for way, run in self.runs([*words, 'a.7z'], words in (['list'], ['gate', 'names'])):
                self.assertEqual(run.stderr, 'picklestep: a.7z begins like 7z, which is not opened here\n', (way, words))
                self.assertEqual(run.returncode, int(words not in (['reach'], ['debug'])), (way, words))
        self.assertIn('# a.7z begins like 7z, which is not opened here', picklestep.source('a.7z').text.splitlines())

    def test_who_asks(self) -> None:
        """What is not opened begins like no pickle, and Python looks at what may have arrays: help/start.sh finds the same files. Of others the program alone
        is asked, which starts sooner."""
        kinds = [begin for begins in (*BEGINS_OF_OTHERS.values(), [*SURE_BEGINS.values()]) for begin in begins]
        files = [str(self.file(f'kind_{number}', begin + b'\1\0' * 20)) for number, begin in enumerate(kinds)]
        self.assertEqual([path for path in files if not has_more(path) and not holds_others(path) and kind_of_long(Path(path).read_bytes()) is not None], [])
        files += [str(self.file('a.joblib', HIDDEN)), str(self.file('empty', b'')), str(self.file('zeros', bytes(1 << 20))), '/dev/null', 'none',
                  str(self.file('late.joblib', b'\x80\x04X\0\0\x10\0' + bytes(1 << 20) + HIDDEN[2:])), *map(str, MODELS.iterdir()), *map(str, REAL)]
        expected = [path for path in files if holds_others(path) or has_more(path)]
        self.assertEqual([path for path in map(str, REAL) if path in expected and Path(path).read_bytes()[:1] == b'\x80'], [])
        script = f'. "{PACKAGE}/help/start.sh"; for each in "$@"; do ! holds_others "$each" && ! has_more "$each" || printf "%s\\n" "$each"; done'
        for interpreter in filter(os.path.exists, ('/bin/bash', '/bin/dash')):
            for language in ('C', 'C.UTF-8'):
                run = subprocess.run([interpreter, '-c', script, interpreter, *files], capture_output=True, text=True, env={**os.environ, 'LC_ALL': language},
                                     timeout=600, check=True)
                self.assertEqual((run.stdout.splitlines(), run.stderr), (expected, ''), interpreter)

    def test_a_file_that_cannot_be_read(self) -> None:
        """The program says so, and nothing is said before."""
        with mock.patch('picklestep.opens.may_have_arrays', side_effect=PermissionError):
            self.assertFalse(has_more(str(self.file('a.pkl', HIDDEN))))

    def test_members_of_other_kinds(self) -> None:
        """It says what it lists, and what the file begins like."""
        for name, content, begins in (('a.bz2', bz2.compress(HOSTILE), 'like bz2'), ('a.npy', array_of_objects(HOSTILE), 'like npy'), ('a.7z', b'7z\xbc\xaf\x27\x1c', 'like 7z'),
                                      ('a.joblib', HIDDEN, 'like none of these')):
            self.file(name, content)
            for way, run in self.runs(['members', name], name == 'a.joblib'):
                self.assertEqual((run.returncode, run.stdout[:13]), (1, 'not in form: '), (way, name))
                self.assertEqual(run.stderr, f'picklestep: members reads zip, tar, gzip and zlib, and {name} begins {begins}: picklestep scan {name} looks into '
                                             'more kinds\n', (way, name))
        self.file('cut.zip', zipped(PICKLES)[:-1])
        for way, run in self.runs(['members', 'cut.zip']):
            self.assertEqual((run.returncode, run.stderr), (1, ''), way)

    def test_source_of_old_torch(self) -> None:
        number = b'\x80\x02' + OLD_TORCH + b'.'
        self.assertIn('torch before 1.6', picklestep.source(self.file('old.pt', number + HOSTILE)).text.splitlines()[-1])
        self.assertNotIn('torch before 1.6', picklestep.source(number + HOSTILE).text)

    def test_gate(self) -> None:
        """Its list comes before the file that is opened. At an archive it looks itself."""
        self.file('names.txt', b'posix.system\n')
        self.file('two.zip', zipped(PICKLES))
        self.file('alone.pkl', HOSTILE)
        alone = self.start([find_program(), 'gate', 'names.txt', 'alone.pkl'])
        for way, run in self.runs(['gate', 'names.txt', 'two.zip > a.pkl']):
            self.assertEqual((run.returncode, run.stdout), (alone.returncode, alone.stdout), run.stderr)
            self.assertEqual(run.stderr, "picklestep: opened 'two.zip > a.pkl' (25 bytes)\n", way)
        whole = self.start([find_program(), 'gate', 'names.txt', 'two.zip'])
        for way, run in self.runs(['gate', 'names.txt', 'two.zip']):
            self.assertEqual((run.returncode, run.stdout, run.stderr), (whole.returncode, whole.stdout, ''), way)

    def test_debug(self) -> None:
        """It reads standard input, and saves into another file."""
        path, before = self.model('torch_state.pt'), (MODELS / 'torch_state.pt').read_bytes()
        self.file('script', b'step\nback\ninsert 0 NONE\n')
        for number, entrance in enumerate(chosen(ways().values(), 1)):
            words = [*entrance, 'debug', 'torch_state.pt', '--save']
            with open('script', 'rb') as script:
                run = subprocess.run([*words, f'{number}.pkl'], stdin=script, capture_output=True, env=environment(), check=False)
            self.assertEqual((run.returncode, run.stdout[:5]), (0, b'at 1\n'), run.stderr)
            saved = Path(f'{number}.pkl').read_bytes()
            self.assertEqual(saved[:3], b'N\x80\x02')
            for out in ('torch_state.pt', f'torch_state.pt > {DATA}', str(path)):
                run = subprocess.run([*words, out], stdin=subprocess.DEVNULL, capture_output=True, env=environment(), check=False)
                self.assertEqual((run.returncode, run.stdout), (2, b''))
                self.assertRegex(run.stderr, b'cannot write .*: nothing is written into a container\n$')
        self.assertEqual(path.read_bytes(), before)

    def test_nothing_is_left(self) -> None:
        self.model('torch_state.pt')
        self.file('two.pkl.gz', gzip.compress(HOSTILE))
        before = sorted(os.listdir())
        for word in ('list', 'calls', 'form'):
            for name in before:
                for _, run in self.runs([word, name]):
                    self.assertNotEqual(run.returncode, 2, run.stderr)
        self.assertEqual(sorted(os.listdir()), before)


class Plain(OpenerCase):
    """What is no container: the program's answer, byte for byte, and nothing beside it."""

    def test_pickles(self) -> None:
        for number, path in enumerate(chosen([path for path in REAL if path.name != 'archive.pickle'][::2], 6)):
            for word in (('list', 'calls'), ('objects',), ('form',))[number % 3]:
                alone = self.start([find_program(), word, str(path)])
                run = self.start([*(ways().get('clone') or ways()['-I -m']), word, str(path)])
                self.assertEqual((run.returncode, run.stdout), (alone.returncode, alone.stdout), (word, path.name))
                self.assertTrue(not run.stderr or 'frame' in run.stderr, run.stderr)

    def test_what_only_begins_so(self) -> None:
        for name, data in (('a.bin', b'BZhello'), ('b.bin', b'x\x9cnothing of zlib'), ('c.bin', b'PKand no archive'), ('d.bin', b']\0\0 no stream'),
                           ('e.bin', b''), ('f.bin', b'\x1f'), ('g.pkl', b'](K\x01K\x02e.'), ('h.pkl', b'(X\x05\0\0\0ustart.'), ('i.txt', b'a\x15bc')):
            self.file(name, data)
            for word in ('list', 'calls'):
                alone = self.start([find_program(), word, name])
                for way, run in self.runs([word, name]):
                    self.assertEqual((run.returncode, run.stdout, run.stderr), (alone.returncode, alone.stdout, ''), (way, word, name))

    @unittest.skipIf(os.name == 'nt' or is_module(find_program()), 'files by descriptors are opened by the program itself')
    def test_what_is_given_open(self) -> None:
        """So the bytes of a container are read as they are."""
        self.model('torch_state.pt')
        alone = self.start([find_program(), 'calls', 'torch_state.pt'])
        self.assertIn('begins like a zip archive', alone.stdout)
        for entrance in ways().values():
            with open('torch_state.pt', 'rb') as file:
                run = subprocess.run([*entrance, 'calls', '/dev/stdin'], stdin=file, capture_output=True, text=True, env=environment(), check=False)
            self.assertEqual((run.returncode, run.stdout), (alone.returncode, alone.stdout))

    def test_a_name_with_the_sign(self) -> None:
        """A path that is there goes first, then the longest beginning that is one."""
        self.file('a > b.pkl', HOSTILE)
        self.file('a > b.zip', zipped({'c.pkl': HARMLESS}))
        self.file('a', zipped({'b.pkl': HARMLESS, 'b.zip': b''}))
        self.assertEqual([split(word) for word in ('a > b.pkl', 'a > b.zip > c.pkl', 'a > c', 'none > b')],
                         [None, ('a > b.zip', 'c.pkl'), ('a', 'c'), None])
        self.assertEqual(picklestep.calls('a > b.pkl').calls, 1)
        self.assertEqual(picklestep.calls('a > b.zip > c.pkl').imports, 1)
        for way, run in self.runs(['calls', 'a > b.pkl']):
            self.assertEqual((run.returncode, run.stderr), (0, ''), way)

    def test_the_tables(self) -> None:
        """What scan opens begins so, and help/start.sh starts Python where Python opens something."""
        for kind in (*CONTAINERS, *STORES):
            if kind.magic:
                self.assertTrue(any(kind.magic.startswith(magic) or magic.startswith(kind.magic) for offset, magic in BEGINS if not offset), kind.name)
            elif kind.modules:
                self.assertIn(kind.name, [kind_of_short(magic) for _, magic in BEGINS])
        self.assertEqual(set(SERVERS), {f'{scheme}://' for scheme in READ_BY})
        for number, (offset, magic) in enumerate(BEGINS):
            self.file(f'begins_{number}', bytes(offset) + magic + b'\x08\0\x01\xff' * 100)
        self.file('shelf.dat', HOSTILE)
        self.file('shelf.dir', b'')
        self.file('zeros', b'')
        os.truncate(self.folder / 'zeros', 1 << 30)  # (bash drops NUL bytes: it must not look behind the first bytes for others)
        files = [*sorted(str(path) for path in self.folder.iterdir()), *map(str, MODELS.iterdir()), *map(str, REAL), '/dev/null', 'none']
        expected = [path for path in files if holds_others(path)]
        self.assertEqual(sum('begins_' in path for path in expected), len(BEGINS))
        script = f'. "{PACKAGE}/help/start.sh"; for each in "$@"; do ! holds_others "$each" || printf "%s\\n" "$each"; done'
        for interpreter in filter(os.path.exists, ('/bin/bash', '/bin/sh', '/bin/dash')):
            for language in ('C', 'C.UTF-8'):
                run = subprocess.run([interpreter, '-c', script, interpreter, *files], capture_output=True, text=True, env={**os.environ, 'LC_ALL': language},
                                     timeout=600, check=True)
                found = run.stdout.splitlines()
                self.assertEqual(set(expected) - set(found), set(), interpreter)
                self.assertEqual({path for path in found if 'begins_' not in path} - set(expected), set(), interpreter)


class WordsOfThePackage(OpenerCase):
    """`source`, `diff`, `mend`, `shell`, `view`."""

    def setUp(self) -> None:
        super().setUp()
        self.file('two.zip', zipped(PICKLES))
        self.file('one.pkl.gz', gzip.compress(HOSTILE))
        self.file('alone.pkl', HOSTILE)

    def test_source(self) -> None:
        status, alone, _ = self.say(functools.partial(source, ['alone.pkl']))
        for address, said in (('two.zip > a.pkl', "opened 'two.zip > a.pkl' (25 bytes)"), ('one.pkl.gz', 'the one pickle in it is opened')):
            self.assertEqual(self.say(functools.partial(source, [address]))[:2], (status, alone))
            self.assertIn(said, self.say(functools.partial(source, [address]))[2])
        status, out, errors = self.say(functools.partial(source, ['two.zip']))
        self.assertEqual((status, out), (2, ''))
        self.assertIn("\n  'two.zip > b.pkl'  # ", errors)

    def test_source_of_what_is_not_all(self) -> None:
        """The first line does not say that running it does the same, and the last ones say why."""
        whole = pickle.dumps([1], 4)
        for name, content, said in (
                ('kept.pkl', HOSTILE + b'abc', '# 3 bytes after STOP are not read'),
                ('both.pkl', HARMLESS + zipped(PICKLES), '# a zip archive stands at the end of both.pkl, which some loaders open'),
                ('a.joblib', HIDDEN, '# a joblib file goes on at')):
            with self.subTest(name):
                self.file(name, content)
                out = self.say(functools.partial(source, [name]))[1]
                self.assertNotIn('Running this does the same', out)
                self.assertIn(said, out)
        self.assertIn('# the bytes begin like a container', picklestep.source(io.BytesIO(zipped(PICKLES))).text)
        self.assertIn('Running this does the same', picklestep.source(whole).text)
        # C's unpickler refuses a frame that does not fit.
        wrong = whole[:3] + (1000).to_bytes(8, 'little') + whole[11:]
        with self.assertRaises(pickle.UnpicklingError):
            pickle.loads(wrong)
        self.assertRegex(picklestep.source(wrong, unframed=True)[0], '^# What the opcodes would do if the lengths of frames counted for nothing')
        self.assertIn('Running this does the same', picklestep.source(HOSTILE, unframed=True)[0])

    def test_diff(self) -> None:
        self.assertEqual(self.say(functools.partial(diff, ['two.zip > a.pkl', 'one.pkl.gz']))[:2], (0, ''))
        status, out, errors = self.say(functools.partial(diff, ['two.zip > a.pkl', 'two.zip > b.pkl']))
        self.assertEqual((status, len(errors.splitlines())), (1, 2))
        self.assertIn('- call ', out)
        self.assertEqual(self.say(functools.partial(diff, ['alone.pkl', 'two.zip']))[0], 2)

    def test_mend(self) -> None:
        before = Path('two.zip').read_bytes()
        self.assertEqual(self.say(functools.partial(mend, ['two.zip > a.pkl', '--save', 'out.pkl']))[:2], (0, 'it is whole\nsaved out.pkl: the pickle alone, and no container\n'))
        self.assertEqual(Path('out.pkl').read_bytes(), HOSTILE)
        for out in ('two.zip', 'two.zip > a.pkl', 'two.zip > new.pkl'):
            self.assertEqual(self.say(functools.partial(mend, ['two.zip > a.pkl', '--save', out]))[::2],
                             (2, f"picklestep: opened 'two.zip > a.pkl' (25 bytes)\npicklestep: cannot write {out}: nothing is written into a container\n"))
        self.assertEqual(self.say(functools.partial(mend, ['alone.pkl', '--save', 'two.zip > a.pkl']))[0], 2)
        self.assertEqual(Path('two.zip').read_bytes(), before)
        self.assertEqual(sorted(os.listdir()), ['alone.pkl', 'one.pkl.gz', 'out.pkl', 'two.zip'])

    def test_shell(self) -> None:
        self.file('script', b"run\nsave\n")
        status, out, errors = self.say(functools.partial(shell, ['two.zip > a.pkl', '--batch', 'script']))
        self.assertEqual(status, 1)
        self.assertIn("the end: stopped", out)
        self.assertIn("opened 'two.zip > a.pkl'", errors)
        self.assertIn('it has no file: save FILE', errors)
        before = Path('two.zip').read_bytes()
        for line in ('save two.zip', "save 'two.zip > a.pkl'"):
            self.file('script', line.encode())
            status, _, errors = self.say(functools.partial(shell, ['two.zip > a.pkl', '--batch', 'script']))
            self.assertEqual(status, 1)
            self.assertIn('nothing is written into a container', errors)
        self.assertEqual(Path('two.zip').read_bytes(), before)

    def test_view(self) -> None:
        for number, (address, title) in enumerate((('two.zip > a.pkl', 'two.zip &gt; a.pkl'), ('one.pkl.gz', 'one.pkl.gz &gt; (gzip)'))):
            status, _, errors = self.say(functools.partial(view, [address, '--export', f'{number}.html']))
            self.assertEqual(status, 0)
            self.assertRegex(errors, 'picklestep: .*opened')
            page = Path(f'{number}.html').read_text(encoding='utf-8')
            self.assertIn(f'<h1>{title}</h1>', page)
            self.assertIn('posix', page)
            self.assertRegex(page, '<p>.*(opened &#x27;two.zip &gt; a.pkl&#x27; |the one pickle in it is opened, &#x27;one.pkl.gz &gt; ).*</p>')
        self.file('kept.pkl', HOSTILE + b'N.')
        self.file('both.pkl', HARMLESS + zipped(PICKLES))
        for name, said in (('kept.pkl', 'kept: 2 bytes after STOP'), ('both.pkl', 'a zip archive stands at the end of both.pkl')):
            status, _, errors = self.say(functools.partial(view, [name, '--export', f'{name}.html']))
            page = Path(f'{name}.html').read_text(encoding='utf-8')
            self.assertEqual(status, 1)
            self.assertIn('Not all of the file is in this report:', page)
            self.assertIn(said, page)
        self.assertEqual(self.say(functools.partial(view, ['two.zip', '--export', 'out.html']))[0], 2)
        self.assertFalse(os.path.exists('out.html'))


class FromPython(OpenerCase):
    """The functions of the module."""

    def test_functions(self) -> None:
        self.file('two.zip', zipped(PICKLES))
        address = 'two.zip > a.pkl'
        self.assertEqual(picklestep.calls(address).text, picklestep.calls(HOSTILE).text)
        self.assertEqual(picklestep.calls(Path(address)).text, picklestep.calls(HOSTILE).text)
        self.assertEqual(picklestep.listing(address).text, picklestep.listing(HOSTILE).text)
        self.assertEqual(picklestep.objects(address, timeout=600).text, picklestep.objects(HOSTILE).text)
        self.assertEqual(picklestep.form(address), picklestep.form(HOSTILE))
        self.assertEqual(picklestep.source(address).text, picklestep.source(HOSTILE).text)
        self.assertEqual(picklestep.tree(address).arguments, ('id',))
        self.assertEqual(picklestep.compare(address, HOSTILE), [])
        with picklestep.Session(address) as session:
            self.assertEqual(session.bytes(), HOSTILE)

    def test_paths_of_containers(self) -> None:
        """The one pickle in it is opened; else the error has the list. Bytes and open files are read as they are. (`gate` looks at an archive
        itself.)"""
        asks: List[Callable[[str], object]] = [picklestep.calls, picklestep.listing, picklestep.objects, picklestep.form, picklestep.source,
                                               picklestep.tree, picklestep.Session]
        for name, content in (('a.zip', zipped({'a.pkl': HOSTILE})), ('a.pkl.gz', gzip.compress(HOSTILE)), ('a.z', zlib.compress(HOSTILE))):
            path = str(self.file(name, content))
            self.assertEqual(picklestep.calls(path).text, picklestep.calls(HOSTILE).text)
            self.assertEqual(picklestep.listing(Path(path)).text, picklestep.listing(HOSTILE).text)
            self.assertEqual(picklestep.objects(path, timeout=600).text, picklestep.objects(HOSTILE).text)
            self.assertEqual(picklestep.source(path).text, picklestep.source(HOSTILE).text)
            if name != 'a.zip':
                self.assertEqual(picklestep.gate(path, names=['posix.system']).passes, picklestep.gate(HOSTILE, names=['posix.system']).passes)
            self.assertEqual(picklestep.compare(path, HOSTILE), [])
            with picklestep.Session(path) as session:
                self.assertEqual(session.bytes(), HOSTILE)
                with self.assertRaisesRegex(picklestep.PicklestepError, 'nothing is written into a container'):
                    session.save(path)
            self.assertEqual(Path(path).read_bytes(), content)
            with open(path, 'rb') as file:
                self.assertEqual(picklestep.calls(file).text, picklestep.calls(content).text)
        self.file('two.zip', zipped(PICKLES))
        self.file('none.zip', zipped({'a.txt': b'Dear all'}))
        for ask in asks:
            with self.assertRaisesRegex(picklestep.NotOpened, "^two.zip is a container .zip. with 2 pickles: give the address of one\n  'two.zip > a.pkl'  # 25"):
                ask('two.zip')
            with self.assertRaisesRegex(picklestep.NotOpened, '^none.zip is a container .zip., and no pickle is found in it$'):
                ask('none.zip')

    def test_arrays_of_a_path(self) -> None:
        """They are left out, as the word does; and where that is not wanted they are not."""
        path = self.file('a.joblib', HIDDEN)
        found, = picklestep.pickles_in(path)
        answer = picklestep.calls(path)
        self.assertEqual((answer.skipped, answer.hints), (found.skip, ()))
        self.assertIn("import 'builtins' 'eval'", answer.text)
        self.assertEqual(picklestep.calls(path, skip=[]).text, picklestep.calls(HIDDEN).text)
        self.assertEqual((picklestep.calls(HIDDEN).skipped, picklestep.calls(path, skip=[(3, 2)]).skipped), ((), ((3, 2),)))

    def test_kinds(self) -> None:
        made = {'a.pkl': (HOSTILE, ''), 'a.zip': (zipped({'a.pkl': HOSTILE}), 'zip'), 'a.pkl.gz': (gzip.compress(HOSTILE), 'gzip'),
                'a.tgz': (gzip.compress(tarred({'a': HOSTILE})), 'tar'), 'a.npz': (zipped({'x.npy': array_of_objects(HOSTILE)}), 'npy'),
                'few.bin': (b'v2:' + HOSTILE, ''), 'in.zip': (zipped({'a.pkl.gz': gzip.compress(HOSTILE)}), 'gzip')}
        for name, (content, kind) in made.items():
            self.assertEqual([each.kind for each in picklestep.pickles_in(self.file(name, content))], [kind], name)

    def test_what_is_not_there(self) -> None:
        self.file('two.zip', zipped(PICKLES))
        asks: List[Callable[[str], object]] = [picklestep.calls, picklestep.Session, picklestep.source, picklestep.tree]
        for ask in asks:
            with self.assertRaisesRegex(picklestep.NotOpened, "^nothing in two.zip has the address 'c.pkl': it has 2 pickles\n  'two.zip > a.pkl'  # 25 bytes\n"):
                ask('two.zip > c.pkl')
        asks = [picklestep.calls, picklestep.pickles_in]
        for ask in asks:
            with self.assertRaises(FileNotFoundError):
                ask('none > c.pkl')

    def test_members(self) -> None:
        """Those that scan finds, with the same imports. What is no opcode is left out."""
        for path in sorted(MODELS.iterdir()):
            found, result = picklestep.pickles_in(path), scan.look(path)
            with self.subTest(path.name):
                self.assertEqual([member.address for member in found], [' > '.join([str(path), *each.where]) for each in result.pickles])
                self.assertEqual([member.size for member in found], [each.size for each in result.pickles])
                for member, each in zip(found, result.pickles):
                    answer = picklestep.calls(member.address, skip=member.skip)
                    self.assertEqual([reach.offset for reach in answer if reach.what == 'import'][:1], [found.offset for found in each.imports][:1])
                    self.assertEqual(answer.imports, sum(found.count for found in each.imports))
                    self.assertEqual(answer.end.is_stopped, each.end.is_stopped)
                    if member.address != str(path):  # (the same by itself)
                        self.assertEqual(picklestep.calls(member.address).text, answer.text)

    def test_what_was_not_looked_at(self) -> None:
        self.file('cut.zip', zipped(PICKLES)[:-30])
        self.assertNotEqual(picklestep.pickles_in('cut.zip').missed, ())
        self.assertIn('not all was looked at', repr(picklestep.pickles_in('cut.zip')))
        self.assertEqual(repr(picklestep.pickles_in(self.file('a.pkl', HARMLESS))), '<FoundPickles: 1 pickle>')


class Arrays(OpenerCase):
    """Numbers between opcodes: `calls` leaves them out by itself."""

    def test_joblib(self) -> None:
        """What scan finds behind the array, at the same offset."""
        self.file('a.joblib', HIDDEN)
        self.file('a.joblib.gz', gzip.compress(HIDDEN))
        found, = (found for found in scan.look('a.joblib').pickles[0].imports if found.name == 'builtins.eval')
        for name in ('a.joblib', 'a.joblib.gz', 'a.joblib.gz > (gzip)'):
            for way, run in self.runs(['calls', name]):
                with self.subTest((way, name)):
                    self.assertEqual(run.returncode, 0)
                    self.assertIn(f"  {found.offset}: import 'builtins' 'eval' as #", run.stdout)
                    self.assertRegex(run.stderr, r'picklestep: [0-9]+ bytes are the numbers of arrays and no opcodes, and are left out: --skip [0-9]+:[0-9]+\n$')
                    skip = run.stderr.split()[-2:]
                    self.assertEqual(self.start([find_program(), 'calls', *skip, 'a.joblib']).stdout, run.stdout)

    def test_words_that_leave_nothing_out(self) -> None:
        """They say where they end, and the program's answer is as it was."""
        self.file('a.joblib', HIDDEN)
        self.file('a.joblib.gz', gzip.compress(HIDDEN))
        self.file('names', b'builtins.eval\n')
        end = f'picklestep: the numbers of an array begin at {array_of(HIDDEN)}, and nothing from there on is read: picklestep'
        words = [[word] for word in 'list objects form reach debug source mend size shell'.split()]
        for name, address in (('a.joblib', 'a.joblib'), ('a.joblib.gz', "'a.joblib.gz > (gzip)'")):
            for before in (*words, ['diff', name], ['optimize', '--save', 'out'], ['convert', '--protocol', '2', '--save', 'out']):
                for way, run in self.runs([*before, name], before == ['list']):
                    self.assertIn(f'{end} calls {address} reads on behind them\n', run.stderr, (way, before))
        for before in (['list'], ['gate', 'names']):
            alone = self.start([find_program(), *before, 'a.joblib'])
            for way, run in self.runs([*before, 'a.joblib'], True):
                self.assertEqual((run.returncode, run.stdout), (alone.returncode, alone.stdout), way)
        for way, run in self.runs(['gate', 'names', 'a.joblib']):
            self.assertEqual(run.stderr, f'{end} scan --allow LIST a.joblib judges the rest\n')
        self.assertFalse(Path('out').exists())

    def test_what_joblib_does_not_write(self) -> None:
        """The lines of the program, and where else to look."""
        self.file('a.joblib', SWALLOWED)
        alone = self.start([find_program(), 'calls', 'a.joblib'])
        for way, run in self.runs(['calls', 'a.joblib']):
            self.assertEqual((run.returncode, run.stdout), (alone.returncode, alone.stdout), way)
            self.assertIn('`picklestep scan FILE`', run.stderr)

    def test_holes_that_are_given(self) -> None:
        self.file('a.joblib', HIDDEN)
        alone = self.start([find_program(), 'calls', '--skip', '3:2', 'a.joblib'])
        for way, run in self.runs(['calls', '--skip', '3:2', 'a.joblib']):
            self.assertEqual((run.returncode, run.stdout), (alone.returncode, alone.stdout), way)

    def test_torch_before_archives(self) -> None:
        self.model('torch_state_legacy.pt')
        for way, run in self.runs(['calls', 'torch_state_legacy.pt']):
            self.assertEqual(run.returncode, 0, (way, run.stderr))
            self.assertIn("persistent ('storage'", run.stdout)
            self.assertIn('are left out', run.stderr)


    def test_many_arrays(self) -> None:
        """More than stand on a command line. (joblib's padding begins the numbers at multiples of 16.)"""
        filler = b'K\x01.' if len(HIDDEN) % 2 else b''
        one = HIDDEN + filler + b'N.' * (-(len(HIDDEN) + len(filler)) % 16 // 2)
        self.assertEqual(len(one) % 16, 0)
        self.file('many.joblib', one * 1100)
        for way, run in self.runs(['calls', 'many.joblib']):
            self.assertEqual((run.returncode, run.stdout.count(": import 'builtins' 'eval' as #")), (0, 1100), run.stderr)
            self.assertRegex(run.stderr, r'are left out: --skip ([0-9]+:[0-9]+ --skip ){2}[0-9]+:[0-9]+ \.\.\n$')

    def test_names_between_blocks(self) -> None:
        for at in (0, 1, (1 << 18) - 17, (1 << 18) - 16, (1 << 18) - 1, 1 << 18, (1 << 19) - 30, 700_000):
            for name, is_there in ((WRAPPER, True), (WRAPPER[:-1], False)):
                self.assertEqual(may_have_arrays(str(self.file('a.bin', b'N' * at + name + b'.'))), is_there, at)


class Stores(OpenerCase):
    """Values of stores that are files."""

    def same(self, path: str) -> None:
        """Each value that scan finds is opened by its address."""
        found = [each.where for each in scan.look(path).pickles]
        self.assertTrue(found)
        for where in found:
            address = ' > '.join([path, *where])
            with self.subTest(address):
                self.assertEqual(picklestep.calls(address).text, picklestep.calls(HOSTILE).text)
        run = self.start([*ways()['-I -m'], 'calls', ' > '.join([path, *found[-1]])])
        self.assertEqual((run.returncode, run.stdout), (0, picklestep.calls(HOSTILE).text))

    def test_sqlite(self) -> None:
        with contextlib.closing(sqlite3.connect('jobs.db')) as connection:
            connection.execute('CREATE TABLE task (data BLOB)')
            values = [HOSTILE, pickle.dumps([1]), zlib.compress(HOSTILE), base64.b64encode(HOSTILE).decode(), gzip.compress(HOSTILE)]
            connection.executemany('INSERT INTO task VALUES (?)', [(value,) for value in values])
            connection.commit()
        self.same('jobs.db')
        self.assertEqual(picklestep.calls('jobs.db > task.data row 2').text, '0 imports, 0 calls\n')
        self.assertEqual(len(picklestep.pickles_in('jobs.db')), 5)
        run = self.start([*ways()['-I -m'], 'list', 'jobs.db'])
        self.assertRegex(run.stderr, r'^picklestep: jobs.db is a container \(sqlite\) with 5 pickles: give the address of one\n')
        run = self.start([*ways()['-I -m'], 'calls', 'jobs.db > task.data row 4'])
        self.assertEqual((run.returncode, run.stdout), (0, picklestep.calls(HOSTILE).text))
        self.assertRegex(run.stderr, r"^picklestep: jobs.db > task.data row 4 is no pickle itself: the one pickle in it is opened, '.* > \(base64 at 0\)' ")

    def test_dbm(self) -> None:
        with dbm.dumb.open('shelf', 'n') as store:
            store['evil'], store['good'] = HOSTILE, pickle.dumps([1])
        self.same('shelf.dat')
        self.assertEqual([each.address for each in picklestep.pickles_in('shelf.dat')], ['shelf.dat > evil', 'shelf.dat > good'])
        run = self.start([*ways()['-I -m'], 'objects', 'shelf.dat'])
        self.assertEqual((run.returncode, run.stdout), (2, ''))
        self.assertIn('with 2 pickles', run.stderr)

    def test_other_values(self) -> None:
        """Records, a cache of Django, a text in JSON, a pickle behind a few bytes."""
        records = b''.join(len(data).to_bytes(4, 'big') + data for data in (b'nothing at all', HOSTILE))
        self.file('records.bin', records)
        self.file('a.djcache', pickle.dumps(2e9, 4) + zlib.compress(HOSTILE))
        self.file('a.json', json.dumps({'body': base64.b64encode(HOSTILE).decode()}).encode())
        self.file('few.bin', b'v2:' + HOSTILE)
        for name in ('records.bin', 'a.json', 'few.bin'):
            self.same(name)
        self.assertEqual(picklestep.calls('a.djcache > (value) > (zlib)').calls, 1)

    def test_everywhere(self) -> None:
        """What scan finds with --everywhere alone."""
        self.file('firmware.bin', bytes(5000) + HOSTILE + bytes(100))
        self.assertEqual(picklestep.calls('firmware.bin > (at 5000)').text, picklestep.calls(HOSTILE).text)
        self.file('inside.pkl', pickle.dumps({'payload': HOSTILE}, 4))
        where = next(each.where for each in scan.look('inside.pkl', Options(everywhere=True)).pickles if each.where)
        self.assertEqual(picklestep.calls(' > '.join(['inside.pkl', *where])).calls, 1)


class Hostile(OpenerCase):
    """Containers that are made to mislead."""

    def refused(self, address: str, pattern: str) -> None:
        for way, run in self.runs(['calls', address]):
            with self.subTest((way, address)):
                self.assertEqual((run.returncode, run.stdout), (2, ''), run.stderr)
                self.assertRegex(run.stderr, pattern)

    def test_two_of_one_name(self) -> None:
        self.file('twice.zip', zip_of([Made(b'a.pkl', HOSTILE), Made(b'a.pkl', HARMLESS), Made(b'b.pkl', HARMLESS)]))
        self.refused('twice.zip > a.pkl', r"^picklestep: 2 pickles have the address 'twice.zip > a.pkl' \(25 bytes\), and loaders differ in which they take: "
                                          'picklestep scan twice.zip ')
        self.refused('twice.zip', 'with 3 pickles')
        self.assertEqual(picklestep.calls('twice.zip > b.pkl').imports, 1)
        self.file('same.zip', zip_of([Made(b'a.pkl', HOSTILE), Made(b'a.pkl', HOSTILE)]))
        self.assertEqual(picklestep.calls('same.zip > a.pkl').calls, 1)
        # A name of one member is that of a member of another.
        self.file('deep.zip', zipped({'x.zip > a.pkl': HARMLESS, 'x.zip': zipped({'a.pkl': HOSTILE})}))
        self.refused('deep.zip > x.zip > a.pkl', '2 pickles have the address')

    def test_containers_in_one_another(self) -> None:
        with zipfile.ZipFile(self.model('torch_state.pt')) as archive:
            content = archive.read(DATA)
        self.file('a.zip', zipped({'b.pt': (MODELS / 'torch_state.pt').read_bytes(), 'c.pkl': HOSTILE, 'd.zip': zipped({'e.txt': b'text'})}))
        for address in (f'a.zip > b.pt > {DATA}', 'a.zip > b.pt'):
            self.assertEqual(picklestep.listing(address).text, picklestep.listing(content).text)
        self.refused('a.zip', 'with 2 pickles')
        self.refused('a.zip > d.zip', r'^picklestep: a.zip > d.zip is a container \(zip\), and no pickle is found in it\n$')
        self.refused(f'a.zip > b.pt > {DATA} > x', 'nothing in a.zip has the address')
        deep = HOSTILE
        for _ in range(6):
            deep = zipped({'a.zip': deep})
        self.file('deep.zip', deep)
        self.refused('deep.zip', 'containers are opened to a depth of 4: this one is not')

    def test_what_is_no_pickle(self) -> None:
        self.file('a.zip', zipped({'a.txt': b'Dear all', 'b.pkl': HOSTILE}))
        for way, run in self.runs(['calls', 'a.zip > a.txt']):
            self.assertEqual((run.returncode, run.stderr), (1, "picklestep: opened 'a.zip > a.txt', where scan finds no pickle\n"), way)
            self.assertIn('fault: F2', run.stdout)
        self.file('none.zip', zipped({'a.txt': b'Dear all'}))
        self.refused('none.zip', r'^picklestep: none.zip is a container \(zip\), and no pickle is found in it\n$')
        self.refused('a.zip > c.txt', "^picklestep: nothing in a.zip has the address 'c.txt': it has 1 pickle\n  'a.zip > b.pkl'  # 25 bytes\n$")
        self.file('cut.gz', gzip.compress(os.urandom(5000))[:-2000])
        self.refused('cut.gz', 'no pickle is found in it\npicklestep scan marks in it:\n')

    def test_a_bomb(self) -> None:
        """Limits of `scan`, made small here."""
        self.file('bomb.pkl.gz', gzip.compress(b'\x80\x04' + b'N0' * (2 << 20) + b'N.'))
        self.file('two.zip', zipped({'a.pkl': b'\x80\x04' + bytes(6 << 20), 'b.pkl': HOSTILE}))
        small = functools.partial(Options, limits=Limits(unpacked=3 << 20, memory=4 << 20))
        with mock.patch('picklestep.scan.finder.Options', small):
            for address in ('bomb.pkl.gz > (gzip)', 'two.zip > a.pkl'):
                with self.assertRaisesRegex(picklestep.NotOpened, 'too large to be opened|may be held|bytes are unpacked'):
                    picklestep.calls(address)
            self.assertEqual(picklestep.calls('two.zip > b.pkl').calls, 1)

    def test_pickles_that_are_archives(self) -> None:
        """The pickle at the beginning is read, and it is said that there is an archive."""
        self.file('both.pkl', HARMLESS + zipped({'a.pkl': HOSTILE}))
        self.assertTrue(has_zip_behind('both.pkl'))
        alone = self.start([find_program(), 'calls', 'both.pkl'])
        for way, run in self.runs(['calls', 'both.pkl']):
            self.assertEqual((run.returncode, run.stdout), (alone.returncode, alone.stdout), way)
            self.assertRegex(run.stderr, r'^picklestep: a zip archive stands at the end of both.pkl, .*picklestep scan both.pkl looks into both\n$')
        self.assertEqual(picklestep.calls('both.pkl > a.pkl').calls, 1)
        self.assertFalse(has_zip_behind(str(self.file('a.pkl', HARMLESS + b'PK\x05\x06' + bytes(30)))))

    def test_archives_that_are_pickles(self) -> None:
        """Nothing is opened without an address, for a loader of the file's own bytes does something else than one of the pickle in it."""
        self.file('a.tar', tarred({'cposix\nsystem\n(Vid\ntR.': HARMLESS}))  # (a name at which a loader begins)
        self.assertIn((), [each.where for each in scan.look('a.tar').pickles])
        for words in (['calls', 'a.tar'], ['list', 'a.tar']):
            for way, run in self.runs(words):
                self.assertEqual((run.returncode, run.stdout), (2, ''), (way, words))
                self.assertIn('picklestep: to a loader that opens no container its bytes are a pickle too: picklestep calls /dev/stdin <a.tar\n',
                              ''.join(line if line.startswith('picklestep: ') else f'picklestep: {line}' for line in run.stderr.splitlines(True)))
        with self.assertRaisesRegex(picklestep.PicklestepError, 'its bytes are a pickle too'):
            picklestep.calls('a.tar')
        for way, run in self.runs(['gate', 'plain', 'a.tar']):  # (the program looks at it itself)
            self.assertEqual((run.returncode, run.stdout), (1, 'not in form: 0: a name that is not plain\n'), way)
        self.assertFalse(picklestep.gate('a.tar', allow=['plain']))

    def test_names_that_a_terminal_obeys(self) -> None:
        self.file('a.zip', zip_of([Made(b'a\x1b[2J.pkl', HOSTILE), Made('б.pkl'.encode(), HARMLESS, flags=0x800)]))
        address = picklestep.pickles_in('a.zip')[0].address
        for way, run in self.runs(['list', 'a.zip']):
            self.assertNotIn('\x1b', run.stderr)
            self.assertIn(r"'a.zip > a\x1b[2J.pkl'", run.stderr)
        self.assertEqual(address, 'a.zip > a\\x1b[2J.pkl')
        self.assertEqual(picklestep.calls(address).calls, 1)
        self.assertEqual(picklestep.calls('a.zip > б.pkl').imports, 1)

    def test_many_members(self) -> None:
        """One address is found among many members without reading the others."""
        members = {f'{number}.pkl': HARMLESS for number in range(3000)}
        self.file('many.zip', zipped(members, zipfile.ZIP_STORED))
        begin = time.process_time()
        self.assertEqual(picklestep.calls('many.zip > 2999.pkl').imports, 1)
        self.assertLess(time.process_time() - begin, 5)
        lines = self.start([*ways()['-I -m'], 'calls', 'many.zip']).stderr.splitlines()
        self.assertEqual((len(lines), lines[-1]), (102, '  .. and 2,900 more: picklestep scan many.zip'))


@unittest.skipIf(os.name == 'nt', 'a shell of POSIX is wanted')
class Pages(OpenerCase):
    """The examples of docs/reference/common.md."""

    def test_using(self) -> None:
        shown = ''.join(f'{line}\n' for block in blocks('common') for line in block)
        found = re.findall(r'^\$ \./(picklestep .*)\n((?:[^$].*\n)*)', shown, re.MULTILINE)
        self.assertEqual(len(found), 4)
        command = self.file('bin/picklestep', f'#!/bin/sh\nexec {" ".join(ways()["-I -m"])} "$@"\n'.encode())
        command.chmod(0o755)
        for words, wanted in found:
            with self.subTest(words):
                run = subprocess.run(['/bin/sh', '-c', words], cwd=MODELS, env={**environment(), 'PATH': f'{command.parent}:{os.environ["PATH"]}'},
                                     stdout=subprocess.PIPE, stderr=subprocess.STDOUT, text=True, timeout=300, check=False)
                self.assertEqual(run.stdout, wanted)


class Starts(unittest.TestCase):
    """What is imported for a plain file."""

    def test_no_reader_of_containers(self) -> None:
        code = ("import sys; from picklestep import answering; status = answering.main(['calls', sys.argv[1]]); "
                "print(status, [name for name in sys.modules if name.startswith(('picklestep.scan', 'picklestep.addresses'))], file=sys.stderr)")
        run = subprocess.run([sys.executable, '-c', code, str(REAL[5])], capture_output=True, text=True, env=environment(), check=True)
        self.assertRegex(run.stderr, r'(?m)^[01] \[\]$')


if __name__ == '__main__':
    unittest.main()
