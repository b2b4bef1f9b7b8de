"""Stores that are files, written by the libraries that people use: each hostile value is found, with its place."""

from __future__ import annotations

import argparse
import base64
import bz2
import contextlib
import copyreg
import gzip
import io
import itertools
import json
import os
import pickle
import random
import shutil
import sqlite3
import struct
import subprocess
import sys
import tempfile
import time
import unittest
import zlib
from pathlib import Path
from typing import Any, Callable, Dict, List
from unittest import mock

from picklestep.scan import Limits, Options, Result, from_json, look
from picklestep.scan.stores import encodings
from scan_support import HARMLESS, HOSTILE, MODELS, ScanCase, environment, names_of, notes_of, places_of
from stores_support import StoreCase, python_with

EVERYWHERE = Options(everywhere=True)


def places(lines: List[str]) -> List[str]:
    """Where hostile imports were found, without the name of the file."""
    evil = ': import posix.system once'
    return sorted(line.partition(evil)[0].partition(' > ')[2] for line in lines if evil in line)


class Libraries(StoreCase):
    """Filled by real libraries."""

    def test_diskcache(self) -> None:
        self.fill(python_with('diskcache'), 'diskcache', 'cache')
        self.assertEqual(places(self.told('cache')), ['Cache.value row 301'])

    def test_apscheduler(self) -> None:
        self.fill(python_with('apscheduler', 'sqlalchemy'), 'apscheduler', str(self.folder / 'jobs.db'))
        self.assertIn('apscheduler_jobs.job_state row 21', places(self.told('jobs.db')))

    def test_django(self) -> None:
        python = python_with('django')
        self.fill(python, 'django', str(self.folder))
        self.assertEqual(places(self.told('files')), ['(value) > (zlib)'])
        found = places(self.told('django.db'))
        self.assertEqual([place.split(' row ')[0] for place in found], ['cache_table.value', 'django_session.session_data'])
        self.assertTrue(all(' > (base64 at ' in place for place in found), found)

    def test_caches_that_are_files(self) -> None:
        self.fill(python_with('cachelib', 'dogpile.cache', 'queuelib', 'celery', 'django'), 'file_caches', str(self.folder))
        self.assertEqual(places(self.told('cachelib')), ['(at 4)'])
        self.assertRegex(' '.join(places(self.told('dogpile'))), r'^\(at [0-9]+\)$')
        self.assertEqual(len(places(self.told('queuelib'))), 1)
        self.assertRegex(' '.join(places(self.told('celery'))), r'^\(base64 at [0-9]+\)$')
        self.assertEqual(len(places(self.told('django'))), 2)

    def test_requests_cache(self) -> None:
        self.fill(python_with('requests_cache'), 'requests_cache', str(self.folder / 'responses.sqlite'))
        self.assertEqual(places(self.told('responses.sqlite')), ['responses.value row 31'])

    def test_shelves(self) -> None:
        self.fill(python_with('dbm.gnu', 'dbm.ndbm'), 'shelves', str(self.folder))
        for name in ('gnu', 'ndbm.db', 'dumb.dat'):
            with self.subTest(name):
                self.assertEqual(places(self.told(name)), ['evil', 'large evil'])

    def test_streams(self) -> None:
        self.fill(python_with('logging'), 'streams', str(self.folder))
        self.assertTrue(places(self.told('socket_handler'))[0].startswith('(record 101 at '))
        self.assertTrue(places(self.told('connection'))[0].startswith('(record 2 at '))

    def test_hdf5(self) -> None:
        python = python_with('h5py')
        self.fill(python, 'hdf5', str(self.folder / 'a.h5'))
        self.assertEqual(places(self.told('a.h5', python=python)), ['/bytes', '/group @evil', '/opaque', '/rows > [7]', '/table > [4].state',
                                                                    '/table > [7].more.cells', '/table @row > state',
                                                                    '/texts > [1] > (base64 at 0)'])
        code = "import sys; sys.modules['h5py'] = None; from picklestep.scan import look; print(look('a.h5').notes)"
        run = subprocess.run([python, '-c', code], cwd=self.folder, env=environment(), capture_output=True, text=True, timeout=300)
        self.assertEqual(run.stdout, "(Note(where=(), text='hdf5: not opened, since h5py is not installed: pip install h5py', missed=True, odd=False),)\n", run.stderr)

    def test_names_and_ends(self) -> None:
        """A store that is named as a pickle, and bytes behind the end of one, are told. Zeros may be there."""
        python = python_with('dbm.gnu', 'dbm.ndbm', 'h5py')
        self.fill(python, 'named_as_stores', str(self.folder))
        stores = sorted(path for path in self.folder.iterdir() if path.is_file())
        self.assertEqual(len(stores), 11)
        (self.folder / 'all').mkdir()
        expected = []
        for number, path in enumerate(stores):
            content, kind = path.read_bytes(), path.name.partition(' ')[0].replace('Berkeley.db', 'Berkeley DB')
            place, end = f'! all/{number}', len(content)
            for ending, more in (('pkl', b''), ('pt', b''), ('', b''), ('zeros', bytes(4096)), ('more', HOSTILE)):
                (self.folder / 'all' / f'{number}.{ending}').write_bytes(content + more)
            expected += [f'{place}.pkl: its name says that it is a pickle, and it is {kind}',
                         f'{place}.pt: its name says that it is a pickle, and it is {kind}',
                         f'{place}.more > (bytes {end} to {end + len(HOSTILE)}): import posix.system',
                         f'{place}.more: bytes stand behind the end of {kind}, at {end}: they are looked at']
        # (What an SQLite file begins with is the opcode STRING, so by such a name it is read as a pickle, too.)
        found = [line.partition(' once')[0] for line in self.told('all', python=python) if ' at 0' not in line.replace(' once, first at 0', '')]
        self.assertEqual(sorted(found), sorted(expected))

    def test_joblib_memory(self) -> None:
        python = python_with('joblib')
        code = "import joblib\nimport fill_stores\n@joblib.Memory('memory', verbose=0).cache\ndef f(x): return [fill_stores.Hostile()]\nf(1)"
        self.file('made.py', code.encode())
        subprocess.run([python, 'made.py'], cwd=self.folder, check=True, capture_output=True,
                       env={**environment(), 'PYTHONPATH': os.path.dirname(__file__)})
        found = [line for line in self.told('memory') if 'import posix.system once' in line]
        self.assertEqual(len(found), 1)
        self.assertIn('output.pkl', found[0])

    def test_many_rows(self) -> None:
        """As Huey has its queue."""
        python = python_with('sqlite3')
        self.fill(python, 'sqlite_rows', 'queue.db', '100000')
        self.assertEqual(places(self.told('queue.db')), ['task.data row 66668'])


class SqliteFiles(ScanCase):
    """SQLite files that are not as a library leaves them."""

    def made(self, name: str = 'a.db', rows: int = 400) -> str:
        path = str(self.folder / name)
        connection = sqlite3.connect(path)
        connection.execute('CREATE TABLE t (id INTEGER PRIMARY KEY, value BLOB)')
        connection.executemany('INSERT INTO t (value) VALUES (?)', ((HOSTILE if number == 50 else HARMLESS * 20,) for number in range(rows)))
        connection.commit()
        connection.close()
        return path

    def test_damaged(self) -> None:
        path = self.made()
        with open(path, 'r+b') as file:
            file.seek(os.path.getsize(path) * 3 // 4)
            file.write(b'\xff' * 9000)
        content = Path(path).read_bytes()
        result = self.look('b.db', content)
        self.assertIn('posix.system', names_of(result))
        self.assertIn('! : sqlite: ', notes_of(result))
        for cut in (100, 5000, len(content) // 2):
            result = self.look('c.db', content[:cut])
            self.assertIsNone(result.error)
            self.assertIn('! : sqlite: ', notes_of(result))

    def test_write_ahead_log(self) -> None:
        path = self.made()
        connection = sqlite3.connect(path)
        connection.execute('PRAGMA journal_mode=WAL')
        connection.execute('INSERT INTO t (value) VALUES (?)', (HOSTILE,))
        connection.commit()
        for name in ('a.db', 'a.db-wal'):
            shutil.copy(self.folder / name, self.folder / f'copied{name[4:]}' if name != 'a.db' else self.folder / 'copied')
        connection.close()
        before = sorted(os.listdir(self.folder))
        run = self.scan('--json', 'copied')
        self.assertEqual(sorted(os.listdir(self.folder)), before)
        result = from_json(json.loads(run.stdout))
        found = [pickle.where for pickle in result.pickles if any(each.name == 'posix.system' for each in pickle.imports)]
        self.assertEqual(found, [('t.value row 51',), ('t.value row 401',)])

    def test_in_an_archive_and_without_numbers_of_rows(self) -> None:
        path = str(self.folder / 'b.db')
        connection = sqlite3.connect(path)
        connection.execute('CREATE TABLE "a ""t" (key TEXT PRIMARY KEY, value BLOB) WITHOUT ROWID')
        connection.execute('INSERT INTO "a ""t" VALUES (?, ?)', ('k', HOSTILE))
        connection.execute('CREATE TABLE c (rowid TEXT, v TEXT, w AS (length(v)))')
        connection.execute('INSERT INTO c (rowid, v) VALUES (?, ?)', ('x', base64.b64encode(HOSTILE).decode()))
        connection.execute('CREATE VIEW v AS SELECT v FROM c')
        connection.execute('CREATE TRIGGER review AFTER INSERT ON c BEGIN SELECT 1; END')
        connection.commit()
        connection.close()
        shutil.make_archive(str(self.folder / 'packed'), 'zip', self.folder, 'b.db')
        for name, first in (('b.db', ''), ('packed.zip', 'b.db > ')):
            result = self.look(name, (self.folder / name).read_bytes())
            self.assertEqual(places_of(result), [f'{first}a "t.value row 1', f'{first}c.v row 1 > (base64 at 0)'])
            place = first[:-3]
            self.assertEqual(notes_of(result).splitlines(), [f'! {place}: sqlite: views are not looked at (1, such as v)',
                                                             f'! {place}: sqlite: computed columns are not looked at (1, such as c.w)'])

    def test_copies_have_no_names(self) -> None:
        """They go with the process, whatever ends it."""
        shutil.make_archive(self.made()[:-3], 'zip', self.folder, 'a.db')
        folders: List[str] = []
        seen: List[str] = []
        made = tempfile.TemporaryDirectory

        def make(**words: Any) -> 'tempfile.TemporaryDirectory[str]':
            held = made(**words)
            folders.append(held.name)
            return held
        with mock.patch('picklestep.scan.stores.sqlite.tempfile.TemporaryDirectory', make), \
                mock.patch('picklestep.scan.stores.sqlite.Values.add', side_effect=lambda *_: seen.extend(os.listdir(folders[-1]))) as add:
            look(str(self.folder / 'a.zip'))
        self.assertTrue(add.called and folders)
        self.assertEqual(seen, [])

    def test_a_rollback_journal(self) -> None:
        path = self.made()
        connection = sqlite3.connect(path, isolation_level=None)
        connection.execute('PRAGMA cache_size=1')
        connection.execute('BEGIN')
        connection.execute('UPDATE t SET value = zeroblob(3000)')
        for name in ('a.db', 'a.db-journal'):
            shutil.copy(self.folder / name, self.folder / name.replace('a', 'b', 1))
        connection.execute('ROLLBACK')
        connection.close()
        self.assertIn('the rollback journal beside it is not looked at', notes_of(look(str(self.folder / 'b.db'))))
        self.assertNotIn('journal', notes_of(look(path)))

    def test_a_schema_with_other_letters(self) -> None:
        path = self.made()
        connection = sqlite3.connect(path)
        connection.execute('PRAGMA writable_schema=ON')
        connection.execute("UPDATE sqlite_master SET type = 'Table', sql = replace(sql, 'CREATE TABLE', 'create/**/table')")
        connection.commit()
        connection.close()
        self.assertIn('t.value row 51', places_of(look(path)))

    @unittest.skipIf(sys.version_info < (3, 11), 'Python 3.11 reads values piece by piece')
    def test_a_large_text_with_zeros(self) -> None:
        path = self.folder / 'a.db'
        connection = sqlite3.connect(path)
        connection.execute('CREATE TABLE t (value TEXT)')
        connection.execute('INSERT INTO t VALUES (CAST(? AS TEXT))', (bytes(9 << 20) + HOSTILE,))
        connection.commit()
        connection.close()
        with mock.patch('picklestep.scan.stores.sqlite.Values.add') as add:
            look(str(path))
        self.assertFalse(add.called)

    def test_large_values(self) -> None:
        path = str(self.folder / 'a.db')
        connection = sqlite3.connect(path)
        connection.execute('CREATE TABLE t (value BLOB)')
        connection.execute('INSERT INTO t VALUES (zeroblob(30000000))')
        connection.execute('INSERT INTO t VALUES (?)', (b'\x80\x04B' + struct.pack('<I', 20 << 20) + b'x' * (20 << 20) + HOSTILE,))
        connection.commit()
        connection.close()
        found = self.scan('--brief', '--allow', 'numpy', 'a.db').stdout
        self.assertIn('t.value row 2', found)


# Without PROTO, which would be found inside.
OLD = b'cposix\nsystem\n(X\x60\x00\x00\x00' + b'id; ' * 24 + b'tR.'


class _Watched(pickle._Unpickler):  # type: ignore[name-defined,misc]
    """A loader that only keeps which names are called."""

    def __init__(self, content: bytes) -> None:
        super().__init__(io.BytesIO(content))
        self.called: List[str] = []

    def find_class(self, module: str, name: str) -> object:
        outer = self

        class Named:
            def __new__(cls, *words: object) -> Any:
                outer.called.append(f'{module}.{name}')
                return object.__new__(cls)
        return Named


def _called(content: bytes) -> List[str]:
    """What Python's own loader calls."""
    loader = _Watched(content)
    copyreg.clear_extension_cache()
    with contextlib.suppress(EOFError):
        loader.load()
    return loader.called


class Bytes(ScanCase):
    """Bytes made one by one: encodings, lengths, and files that lie."""

    def look_in_value(self, value: bytes, options: Options = Options()) -> Result:
        """What is found in a value of a table."""
        return self.look('copy.db', self.table_with(value).read_bytes(), options)

    def test_encodings(self) -> None:
        encoded = base64.b64encode(HOSTILE)
        gz = subprocess.run(['gzip', '-nc'], input=HOSTILE, capture_output=True, check=True).stdout
        cases = {
            'plain': HOSTILE, 'zlib': zlib.compress(HOSTILE), 'gzip': gz, 'base64': encoded, 'urlsafe': base64.urlsafe_b64encode(HOSTILE).rstrip(b'='),
            'lines': base64.encodebytes(HOSTILE * 3), 'hexadecimal': HOSTILE.hex().encode(), 'packed in text': base64.b64encode(zlib.compress(HOSTILE)),
            'JSON': json.dumps({'n': 1, 'body': encoded.decode()}).encode(), 'JSON with escapes': b'{"b": "%b"}' % encoded.replace(b'/', b'\\/'),
            'twice': base64.b64encode(encoded), 'checksum': base64.b64encode(b'0' * 40 + b':' + HOSTILE), 'sign': b'!' + HOSTILE,
            'signed': base64.urlsafe_b64encode(HOSTILE).rstrip(b'=') + b':1sIgNa:TuRe_of_it', 'packed and signed': b'.' + base64.urlsafe_b64encode(
                zlib.compress(HOSTILE)).rstrip(b'=') + b':1sIgNa:TuRe_of_it',
        }
        # Over several lines, as MIME, PEM, YAML, LDIF and `xxd -p` write it, and beside bytes that are no text.
        for ends, before in (('\n', ''), ('\r\n', 'Content-Transfer-Encoding: base64\r\n\r\n'), ('\n    ', 'key: !!binary |\n    '), ('\n ', 'dn: x\nvalue:: '),
                             ('\n', '-----BEGIN PICKLE-----\n'), ('\\n', '{"body": "')):
            for width in (20, 64, 76):
                for how, text in (('base64', base64.b64encode(OLD * 2).decode()), ('hexadecimal', OLD.hex())):
                    lines = ends.join(text[at:at + width] for at in range(0, len(text), width))
                    cases[f'{how} in lines of {width} behind {before}'] = f'{before}{lines}\n'.encode()
        noise = random.Random(3).randbytes(500)
        for text in (base64.b64encode(OLD), OLD.hex().encode()):
            for around in ('sch\xf6n: '.encode(), noise + b'\xff', b'\xd9\x28'):
                cases[f'{text[:8]!r} behind {around[:8]!r}'] = around + text + around[::-1]
        for width, order in ((4, 'big'), (4, 'little'), (8, 'big'), (8, 'little')):
            one = len(HOSTILE).to_bytes(width, order) + HOSTILE  # type: ignore[arg-type]
            other = len(HARMLESS).to_bytes(width, order) + HARMLESS  # type: ignore[arg-type]
            cases[f'length of {width} {order}'] = one
            cases[f'lengths of {width} {order}'] = other * 20 + one + other
        for name, value in cases.items():
            with self.subTest(name):
                self.assertIn('posix.system', names_of(self.look_in_value(value)))

    def test_long_texts(self) -> None:
        """What is larger than one window, alone and inside other text, is decoded to its end."""
        large = b'cposix\nsystem\n(X' + struct.pack('<I', 7_000_000) + b'x' * 7_000_000 + b'tR.'
        encoded = base64.b64encode(large)
        for how, value in (('base64 at 0', encoded), ('base64 at 2', b'["' + base64.urlsafe_b64encode(large).rstrip(b'=') + b'"]'),
                           ('base64 at 0', base64.encodebytes(large)), ('hexadecimal at 1', b"'" + large.hex().encode() + b"'"),
                           ('base64 at 9000000', b'-- ' * 3_000_000 + base64.b64encode(HOSTILE))):
            with self.subTest(how):
                result = self.look_in_value(value)
                self.assertEqual((names_of(result), places_of(result)), (['posix.system'], [f't.v row 1 > ({how})']))

    def test_many_places_inside_are_told(self) -> None:
        """Texts that are made to be slow are read to an end, or told."""
        for text in (b'gAI' * 400_000, b'eJw' * 400_000, base64.b64encode(b'\x78\x01\x00\xff\xff\x00\x00\x00\x00') * 40_000):
            with self.subTest(text[:12]):
                self.assertIn('too many places', notes_of(self.look_in_value(text)))

    def test_runs_of_one_length_are_read_as_one_alone(self) -> None:
        """All of one length are asked at once: what is among them is found as if each were asked for itself."""
        chosen = random.Random(5)
        held = [HOSTILE, zlib.compress(HOSTILE), b'\x80\x04N.123456', b'\0\0\0\5K\1K\2.', b'\x8c\2os\x8c\6system\x93)R', b'LZIP\1\2345678', b'BZh9abcdef',
                b'7z\xbc\xaf\x27\x1c12345', base64.b64encode(HOSTILE), b'PK\3\4abcdefg']
        words = [made for each in held for made in (each.hex().encode(), base64.b64encode(each).rstrip(b'='), b'x' + each.hex().encode(),
                                                    b'key-' + base64.urlsafe_b64encode(each).rstrip(b'='))]
        words += [chosen.randbytes(size).hex().encode() for size in (8, 16, 20, 32) for _ in range(200)]
        words += [base64.b64encode(chosen.randbytes(size)).rstrip(b'=') for size in range(9, 30) for _ in range(30)]
        words += [bytes(chosen.choices(b'abcdefghijklmnopqrstuvwxyz_-0', k=size)) for size in range(12, 40) for _ in range(20)]
        words *= 2  # (so that each has others of its length)
        chosen.shuffle(words)
        for between in (b' ', b'\n\n', b'", "', b'\r\n\t. '):
            text = between.join(words)
            alone = []
            at = 0
            for word in words:
                alone += [(at + offset, how, inner) for offset, how, inner in encodings.decoded(word)]
                at += len(word) + len(between)
            self.assertEqual(list(encodings.decoded(text)), alone)
            self.assertGreater(len(alone), 60)

    def test_pickles_in_lists_of_checksums(self) -> None:
        """Lines that are written alike are taken at once: a pickle in any of them is found, also in one that is broken in two."""
        chosen = random.Random(3)
        forms: Dict[str, Callable[[bytes], bytes]] = {
            'base64': base64.b64encode, 'digits': lambda each: each.hex().encode(),
            'base64 in JSON': lambda each: b'{"id": 7, "sum": "' + base64.urlsafe_b64encode(each).rstrip(b'=') + b'"},',
            'base64 with a name': lambda each: base64.b64encode(each) + b'  ./folder/file7.txt',
            'digits with a name': lambda each: each.hex().encode() + b' */folder/one/file7.txt',
            'a name with digits': lambda each: b'a-long-name-of-a-file = ' + each.hex().encode() + b' .'}
        planted = {*range(10), 100, 101, 199, *range(300, 310), 398, 399}
        before = {3: [b'short'], 100: [b'', b'a line that is none of them: '], 300: [b'12'], 305: [b'12', b'34', b'56', b'78'], 307: [b'# 1', b'']}
        for (name, form), end in itertools.product(forms.items(), (b'\n', b'\r\n')):
            lines = []
            for number in range(400):
                line = form(HOSTILE + struct.pack('>I', number) + bytes(3) if number in planted else chosen.randbytes(32))
                at = line.index(form(HOSTILE)[:20]) + 16 if number in planted else 0
                is_broken = number in (5, 101, 309) and name in ('base64', 'digits', 'base64 in JSON')
                lines += [*before.get(number, []), *([line[:at], line[at:]] if is_broken else [line])]
            for last in (b'', end):
                with self.subTest(name, end=end, last=last):
                    inner = [each[2] for each in encodings.decoded(end.join(lines) + last)]
                    found = {number for number in planted for each in inner if HOSTILE + struct.pack('>I', number) in each}
                    self.assertEqual(found, planted)
            result = self.look('a.txt', end.join(lines), EVERYWHERE)
            self.assertGreaterEqual(names_of(result).count('posix.system'), len(planted), name)
            self.assertEqual(notes_of(result), '')
        large = b'cposix\nsystem\n(X' + struct.pack('<I', 9_000) + chosen.randbytes(9_000) + b'tR.'
        for text in (base64.encodebytes(large), b'text:\n' + base64.encodebytes(large), b'\r\n\t'.join(base64.encodebytes(large).split())):
            self.assertIn(large, [each[2] for each in encodings.decoded(text)])

    def test_a_checksum_that_begins_as_a_stream_leaves_no_note(self) -> None:
        begun = zlib.compress(bytes(range(200)), 0)[:32]
        result = self.look('a.json', b'{"sum": "' + begun.hex().encode() + b'"}', EVERYWHERE)
        self.assertEqual((notes_of(result), result.pickles), ('', ()))
        begun = zlib.compress(HOSTILE + bytes(range(200)), 0)[:60]
        self.assertIn('are cut short', notes_of(self.look('b.json', b'{"sum": "' + begun.hex().encode() + b'"}', EVERYWHERE)))

    def test_depth_is_limited(self) -> None:
        value = HOSTILE
        for _ in range(6):
            value = zlib.compress(value)
        result = self.look_in_value(value)
        self.assertEqual(names_of(result), [])
        self.assertIn('containers are opened to a depth of 4', notes_of(result))

    def test_everywhere(self) -> None:
        # (A byte that happens to be an opcode just before a pickle belongs to it: the last one is none.)
        noise = random.Random(1).randbytes(2999) + b'\xff'
        # (as the oldest and the newest protocols, INST, OBJ, and without PROTO)
        class Evil:
            def __reduce__(self) -> object:
                return os.system, ('id',)
        cases = [HOSTILE, b"(S'id'\nios\nsystem\n.", b"(cos\nsystem\nS'id'\no.", b'\x8c\x02os\x8c\x06system\x93\x8c\x02id\x85R.',
                 *(pickle.dumps(Evil(), protocol) for protocol in range(6))]
        for name, around in (('noise', noise), ('text', b'Some text, and more of it.\n' * 50), ('zeros', bytes(3000))):
            for case in cases:
                with self.subTest(name, case=case):
                    result = self.look('a.bin', around + case + around, EVERYWHERE)
                    self.assertIn(f'(at {len(around)})', places_of(result))
                    self.assertTrue({'posix.system', 'os.system'} & set(names_of(result)))
        self.assertEqual(self.look('b.bin', b'x' * 100 + HOSTILE).pickles, ())

    def test_everywhere_in_pickles(self) -> None:
        """Bytes and texts of a pickle, as each protocol writes them; also packed, as text, and in a database or an archive."""
        inner = {'': HOSTILE, '(zlib)': zlib.compress(HOSTILE), '(gzip)': gzip.compress(HOSTILE), '(base64 at 0)': base64.b64encode(HOSTILE * 2),
                 '(at 5)': b'abcd ' + pickle.dumps(['x' * 300]) + HOSTILE}
        for protocol, (how, held) in itertools.product(range(6), inner.items()):
            content = pickle.dumps({'key': 'of some text', 'payload': held, 'next': [1.5, None]}, protocol)
            with self.subTest(protocol=protocol, how=how):
                self.assertNotIn('posix.system', names_of(self.look('a.pkl', content)))
                result = self.look('a.pkl', content, EVERYWHERE)
                self.assertIn('posix.system', names_of(result))
                self.assertEqual((result.others, result.error), (0, None))
                found = [place for place in places_of(result) if place.startswith('(held at ')]
                self.assertTrue(any(place.endswith(how) for place in found) or how == '(at 5)', places_of(result))
        self.assertIn('posix.system', names_of(self.look('a.pkl', b"]S'cposix\\nsystem\\n(I1\\ntR.'\na.", EVERYWHERE)))
        with sqlite3.connect(self.folder / 'a.db') as database:
            database.execute('CREATE TABLE queue (value)')
            database.execute('INSERT INTO queue VALUES (?)', (pickle.dumps({'payload': zlib.compress(HOSTILE)}),))
        database.close()
        self.assertEqual(names_of(look(str(self.folder / 'a.db'))), [])
        self.assertEqual(places_of(look(str(self.folder / 'a.db'), EVERYWHERE)), ['queue.value row 1 > (held at 23) > (zlib)'])
        large = pickle.dumps([b'x' * 9_000_000, HOSTILE, bytes(9_000_000) + HOSTILE])
        self.assertEqual(sorted(places_of(self.look('b.pkl', large, EVERYWHERE)))[1:],
                         [f'(held at {large.index(HOSTILE) - 2})', f'(held at {large.rindex(bytes(9_000_000)) - 5}) > (at 9000000)'])

    def test_everywhere_in_pickles_has_a_depth(self) -> None:
        value = HOSTILE
        for depth in range(1, 6):
            value = pickle.dumps({'payload': value})
            result = self.look('a.pkl', value, EVERYWHERE)
            self.assertEqual(names_of(result), ['posix.system'] * (depth < 5))
            self.assertEqual('pickles in others are looked at to a depth of 4: this one is not' in notes_of(result), depth == 5)

    def test_everywhere_in_honest_pickles(self) -> None:
        chosen = random.Random(5)
        value = {'words': ['word', 'N.', 'a sentence that ends in a list of (one.', 'hello world.'] * 900, 'sums': [chosen.randbytes(32) for _ in range(900)],
                 'hex': [chosen.randbytes(16).hex() for _ in range(900)], 'plain': [pickle.dumps([1, 'x']), b'\x80\x04N.', bytes(100_000)]}
        for protocol in range(6):
            result = self.look('a.pkl', pickle.dumps(value, protocol), EVERYWHERE)
            self.assertEqual((notes_of(result), set(names_of(result)) - {'_codecs.encode'}), ('', set()))

    def test_everywhere_without_signs(self) -> None:
        """Names with escapes, out of the memo, with a length in eight bytes; a call by INST before the end; a number of copyreg. Python's own
        loader comes to the call in each."""
        eight = b''.join(b'\x8d' + struct.pack('<Q', len(name)) + name for name in (b'os', b'system'))
        cases = [b"Vo\\u0073\nV\\u0073ystem\n\x93(S'id'\ntR.", b"S'\\157s'\nS's\\x79stem'\n\x93(S'id'\ntR.",
                 b"S'os'\np0\n0S'system'\np1\n0g0\ng1\n\x93(S'id'\ntR.", b'\x8c\x02osq\0\x8c\x06systemq\x0100h\0h\x01\x93)R.',
                 b'\x8c\x02os\x940\x8c\x06system\x940h\0j\x01\0\0\0\x93)R.', eight + b'\x93)R.', b"(S'id'\nios\nsystem\n",
                 b'\x82\x05)R.', b'\x83\x05\0(\x8c\x02idtR.', b'\x84\x05\0\0\0\x8c\x02id\x85\x81.']
        copyreg.add_extension('os', 'system', 5)
        self.addCleanup(copyreg.remove_extension, 'os', 'system', 5)
        noise = random.Random(7).randbytes(100_000)
        for number, case in enumerate(cases):
            expected = 'ext 5' if case[0] in b'\x82\x83\x84' else 'os.system'
            with self.subTest(case=case):
                self.assertEqual(_called(case), ['os.system'])
                # (A window ends at a number of bytes that is a power of two.)
                for before in (noise, (noise * 42)[-(4 << 20) + 5:]) if number % 3 == 0 else (noise,):
                    for content in (before + case, before + case + noise):
                        result = self.look('a.bin', content, EVERYWHERE)
                        found = [each for each in result.pickles if each.where == (f'(at {len(before)})',)]
                        self.assertEqual([(each.imports[0].name, each.calls[0].name) for each in found], [(expected, expected)])

    def test_everywhere_finds_nothing_by_chance(self) -> None:
        chosen = random.Random(11)
        # (This file itself has pickles as `repr` shows them, which are found.)
        text = Path(argparse.__file__).read_bytes() * 12
        data = json.dumps([{'id': number, 'sum': chosen.randbytes(20).hex(), 'key': base64.b64encode(chosen.randbytes(24)).decode()}
                           for number in range(20_000)], indent=1).encode()
        for content in (chosen.randbytes(16 << 20), text, data):
            self.assertEqual(self.look('a.bin', content, EVERYWHERE).pickles, ())

    def test_everywhere_finds_nothing_in_text_and_models(self) -> None:
        for path in (MODELS.parent.parent / 'test_scan.py', MODELS / 'numpy_objects.npy'):
            before = self.look('a', path.read_bytes())
            after = self.look('a', path.read_bytes(), EVERYWHERE)
            self.assertEqual(places_of(before), places_of(after))

    def test_everywhere_is_linear(self) -> None:
        """Files that are made to be slow are read to an end, or told."""
        for name, content in (('marks', b'(' * 300_000), ('names', b'cos\nsystem\n' * 30_000), ('protos', b'\x80\x04' * 150_000),
                              ('words', b'cat\nice\nRabbit\n' * 30_000), ('texts', b'\x8c\x02os\x93' * 40_000)):
            with self.subTest(name):
                result = self.look('a.bin', b' ' + content, EVERYWHERE)
                self.assertIsNone(result.error)

    def test_behind_a_few_bytes(self) -> None:
        """In files and in values: signs of libraries, times, lengths and keys, before a pickle of any protocol, packed bytes or base64."""
        class Evil:
            def __reduce__(self) -> object:
                return os.system, ('id',)
        begins = [b'!', b'\0\0\0\0', struct.pack('I', 1_700_000_000), b'12345678', b'gz:', b'{"ct": 1700000000.5, "v": 1}|', b'\0\0\0\x24' + b'k' * 36]
        plain = [pickle.dumps(Evil(), protocol) for protocol in range(6)]
        gz = subprocess.run(['gzip', '-nc'], input=plain[0], capture_output=True, check=True).stdout
        for begin in begins:
            for inner in (*plain, zlib.compress(plain[4]), zlib.compress(plain[0], 0), gz, bz2.compress(plain[2])):
                with self.subTest(begin, inner=inner):
                    self.assertIn('posix.system', names_of(self.look('a.bin', begin + inner)))
                    self.assertIn('posix.system', names_of(self.look_in_value(begin + inner)))
        text = base64.b64encode(plain[4])
        for value in (text, b'b64:' + text, b'.' + text + b':sign', json.dumps({'body': base64.b64encode(plain[0]).decode()}).encode(), plain[4].hex().encode()):
            with self.subTest(value):
                self.assertIn('posix.system', names_of(self.look('a.bin', value)))

    def test_behind_arguments_of_megabytes(self) -> None:
        """The import and the call are in another window than PROTO; names come from the memo."""
        text = b'B' + struct.pack('<I', 5_000_000) + bytes(5_000_000)
        held = b'\x80\x04\x8c\x05posix\x94\x8c\x06system\x94' + text + b'h\x00h\x01\x93\x8c\x02id\x85R.'
        for content in (bytes(100) + held, b'x' * 100 + b'\x80\x02(' + text + text + HOSTILE):
            self.assertIn('posix.system', names_of(self.look('a.bin', content, EVERYWHERE)))

    def test_stores_in_values(self) -> None:
        """A database in a value, and several pickles behind a few bytes."""
        path = self.folder / 'inner.db'
        connection = sqlite3.connect(path)
        connection.execute('CREATE TABLE inside (v BLOB)')
        connection.execute('INSERT INTO inside VALUES (?)', (HOSTILE,))
        connection.commit()
        connection.close()
        self.assertEqual(places_of(self.look_in_value(path.read_bytes())), ['t.v row 1 > inside.v row 1'])
        queue = b'\0\0\0\2' + b''.join(each + struct.pack('>I', len(each)) for each in (pickle.dumps([1], 4), HOSTILE))
        self.assertIn('posix.system', names_of(self.look_in_value(queue)))

    def test_lines_of_a_few_signs(self) -> None:
        text = base64.b64encode(OLD * 2).decode()
        for width in (4, 7, 8, 10):
            for ends in ('\n', '\r\n'):
                lines = ends.join(text[at:at + width] for at in range(0, len(text), width))
                for value in (lines, f'-- some words\n\n{lines}\nand more\n'):
                    with self.subTest(width, value=value[:20]):
                        self.assertIn('posix.system', names_of(self.look_in_value(value.encode())))

    def test_checksums_are_no_pickles(self) -> None:
        """Lines of hexadecimal and base64 have opcodes and newlines enough for imports and calls."""
        chosen = random.Random(3)
        lines = b'\n'.join(chosen.randbytes(20).hex().encode() for _ in range(20_000))
        self.assertEqual(self.look('a.txt', lines, EVERYWHERE).pickles, ())
        self.assertIn('posix.system', names_of(self.look('b.txt', lines + b'\n' + HOSTILE + lines, EVERYWHERE)))

    def test_records_that_are_cut(self) -> None:
        record = len(HARMLESS).to_bytes(4, 'big') + HARMLESS
        result = self.look('a.bin', record * 3 + (900).to_bytes(4, 'big') + HOSTILE)
        self.assertIn('is cut short', notes_of(result))
        self.assertIn('posix.system', names_of(result))

    def test_no_pickle_hides_another(self) -> None:
        """A value that takes in what comes after it, where several are asked about at once."""
        path = self.folder / 'a.db'
        connection = sqlite3.connect(path)
        connection.execute('CREATE TABLE t (v BLOB)')
        swallow = [b'B\x40\x00\x00\x00.', b'N\x80\x04\x95\x50\x00\x00\x00\x00\x00\x00\x00.', b'(.', b'N0.', b'K.', b"cos\n.", b'\x80\x04\x95\x10\0\0\0\0\0\0\0N.']
        rows = [value for each in swallow for value in (HARMLESS, each, HOSTILE, HARMLESS)]
        connection.executemany('INSERT INTO t VALUES (?)', ((row,) for row in rows))
        connection.commit()
        connection.close()
        result = self.look('b.db', path.read_bytes())
        found = [' > '.join(each.where) for each in result.pickles if 'posix.system' in {name.name for name in each.imports}]
        self.assertEqual(found, [f't.v row {number}' for number, row in enumerate(rows, 1) if row == HOSTILE])
        alone = self.look('c.pkl', HOSTILE).pickles[0]
        for each in result.pickles:
            if ' > '.join(each.where) in found:
                self.assertEqual((each.imports, each.calls, each.end), (alone.imports, alone.calls, alone.end))

    def test_values_that_only_begin_and_end_as_pickles(self) -> None:
        """They are looked at as all others, and so are those behind them."""
        odd = [b'\x80\x02\xff' + HOSTILE, b'\x80\x04K\x05.' + zlib.compress(HOSTILE) + b'.', b'\x80\x02X\x40\0\0\0.', b'\x80\x05.', b'\x80\x04.']
        rows = [value for each in odd for value in (HARMLESS, each, HOSTILE)] * 3
        path = self.folder / 'a.db'
        connection = sqlite3.connect(path)
        connection.execute('CREATE TABLE t (v BLOB)')
        connection.executemany('INSERT INTO t VALUES (?)', ((row,) for row in rows))
        connection.commit()
        connection.close()
        result = look(str(path))
        found = {' > '.join(each.where): each for each in result.pickles}
        hostile = [place for place, each in found.items() if 'posix.system' in {name.name for name in each.imports}]
        self.assertEqual(sorted(hostile), sorted(f't.v row {number}' for number, row in enumerate(rows, 1) if row == HOSTILE))
        for number, row in enumerate(rows, 1):
            answer = found.get(f't.v row {number}')
            assert answer is not None
            self.assertEqual(answer.end.is_stopped, row not in odd)
            if row != odd[1]:  # (which is a file of Django's cache where it is alone)
                alone = self.look('alone.pkl', row).pickles[0]
                self.assertEqual((answer.imports, answer.end), (alone.imports, alone.end), number)

    def test_limits_are_those_of_the_file(self) -> None:
        path = self.folder / 'a.db'
        connection = sqlite3.connect(path)
        connection.execute('CREATE TABLE t (id INTEGER PRIMARY KEY, v BLOB)')
        long = gzip.compress(HOSTILE[:-1] + b'(' + b'N' * 1_500_000 + b'l.')
        connection.executemany('INSERT INTO t (v) VALUES (?)', [(long,)] * 100)
        connection.commit()
        connection.close()
        begin = time.process_time()
        result = look(str(path), Options(Limits(seconds=0.5)))
        self.assertLess(time.process_time() - begin, 10)
        self.assertRegex(notes_of(result), '! t.v row [0-9]+.*: it took 0.5 seconds of processor time')
        self.assertLess(len(result.notes), 20)  # and not one for each row
        connection = sqlite3.connect(path)
        connection.execute('UPDATE t SET v = ?', (HOSTILE,))
        connection.commit()
        connection.close()
        result = look(str(path), Options(Limits(lines=20)))
        self.assertIn('the answers about the file have more than 20 lines', notes_of(result))
        self.assertIn('posix.system', names_of(result))
        self.assertIsNone(result.error)

    def test_damaged_dbm(self) -> None:
        python = python_with('dbm.gnu', 'dbm.ndbm')
        subprocess.run([python, os.path.join(os.path.dirname(__file__), 'fill_stores.py'), 'shelves', str(self.folder)], check=True)
        for name in ('gnu', 'ndbm.db'):
            content = bytearray((self.folder / name).read_bytes())
            for begin in (16, 5000, 20_000, len(content) // 2):
                broken = content[:]
                broken[begin:begin + 900] = b'\xff' * 900
                with self.subTest(name, begin=begin):
                    result = self.look('a.db', bytes(broken))
                    self.assertIsNone(result.error)
                    self.assertIn('posix.system', names_of(result))

    def look_at_dumb(self, index: bytes, values: bytes) -> Result:
        """What is found in a file of `dbm.dumb` with this index."""
        self.file('a.dir', index)
        return self.look('a.dat', values)

    def test_an_index_that_another_program_wrote(self) -> None:
        """Python's `dbm.dumb` reads these, too."""
        values = HARMLESS.ljust(512, b'\0') + HOSTILE
        for line in ("'evil',(512,%d)", "'ev' 'il' , (512, %d)", "('evil', [0x200, %d])", " 'evil', (512, %d)\t",
                     "{'evil': 1, (512, %d): 2}", "\f'evil', (512, %d)"):
            with self.subTest(line):
                index = (line % len(HOSTILE)).encode()
                for lines in (index + b'\n', b"'a', (0, 10)\r" + index):
                    self.assertIn('evil', places_of(self.look_at_dumb(lines, values)))
        result = self.look_at_dumb(b"'evil', (512, -1)\n", values)
        self.assertIn('! : dbm.dumb: its index cannot be read to its end', notes_of(result))

    def test_an_index_that_is_one_long_text(self) -> None:
        begin = time.process_time()
        result = self.look_at_dumb(b"'a', (0, 10)\n" + b'\\"' * 500_000, HARMLESS)
        self.assertIn('! : dbm.dumb: its index cannot be read to its end', notes_of(result))
        self.assertLess(time.process_time() - begin, 20)

    def test_several_values_of_a_key(self) -> None:
        """Berkeley DB keeps them in an item of another kind. dbm.ndbm writes none."""
        values = b'\x02' + (len(HOSTILE).to_bytes(2, 'little')) + HOSTILE + len(HOSTILE).to_bytes(2, 'little')
        end = 512 - len(b'\x01k')
        page = struct.pack('<20xHHBBHH', 2, end - len(values), 0, 13, end, end - len(values)).ljust(end - len(values), b'\0') + values + b'\x01k'
        head = struct.pack('<12xIIIB', 0x061561, 9, 512, 0).ljust(512, b'\0')
        result = self.look('a.db', head + page)
        self.assertIn('! : Berkeley DB: the values of 1 keys are of a kind that is not read', notes_of(result))
        self.assertEqual(names_of(result), ['posix.system'])
        self.assertGreaterEqual(result.others, 0)


if __name__ == '__main__':
    unittest.main()
