"""Stores that are files, byte by byte: which bytes are taken for one, and what is told of one that is not whole."""

from __future__ import annotations

import dbm.dumb
import pickle
import random
import resource
import shutil
import sqlite3
import subprocess
import sys
import types
import unittest
import zipfile
import zlib
from unittest import mock

from picklestep.scan import Limits, Options, look, look_at_bytes
from scan_support import HARMLESS, HOSTILE, ScanCase, names_of, notes_of, places_of, python_with


class DjangoCache(ScanCase):
    """A pickle with a time, and then zlib."""

    def test_what_django_writes(self) -> None:
        for expiry in (None, 7, 1700000000.5, 1700000000, 1 << 40):
            for protocol in range(6):
                with self.subTest(expiry, protocol=protocol):
                    result = self.look('a.djcache', pickle.dumps(expiry, protocol) + zlib.compress(HOSTILE))
                    self.assertIn('(value) > (zlib)', places_of(result))
                    self.assertIn('posix.system', names_of(result))
                    self.assertEqual(notes_of(result), '')

    def test_all_else_is_read_as_pickles(self) -> None:
        """Opcodes that begin as zlib may begin, or behind something else than a time, hide nothing."""
        opens = b"(S'x.so'\nI2\nilib-dynload._ctypes\ndlopen\n."
        for begin in (b'N.', b'K\x05.', b'I5\n.', b'\x80\x04K\x05.'):
            with self.subTest(begin):
                for content in (begin + opens, begin + b'N.' + opens):
                    result = self.look('a.bin', content)
                    self.assertIn("'lib-dynload._ctypes' 'dlopen'", names_of(result))
                    self.assertIn('not in the form that picklers write', notes_of(result))
                path = self.folder / f'{len(begin)}.db'
                path.unlink(missing_ok=True)
                connection = sqlite3.connect(path)
                connection.execute('CREATE TABLE t (v BLOB)')
                connection.execute('INSERT INTO t VALUES (?)', (begin + opens,))
                connection.commit()
                connection.close()
                result = look(str(path))
                self.assertEqual((places_of(result), names_of(result)), (['t.v row 1'], ["'lib-dynload._ctypes' 'dlopen'"]))
                self.assertIn('not in the form that picklers write', notes_of(result))
        result = self.look('a.bin', HOSTILE[:-1] + b'0N.' + zlib.compress(HOSTILE))
        self.assertIn('posix.system', names_of(result))
        self.assertEqual(result.pickles[0].where, ())

    def test_what_does_not_unpack(self) -> None:
        result = self.look('a.pkl', b'K\x05.x\x9c' + b'\xff' * 20)
        self.assertEqual((places_of(result), result.pickles[0].end.how), ([''], 'fault'))


class Dumb(ScanCase):
    """The files of `dbm.dumb` as members of an archive."""

    def test_in_archives(self) -> None:
        database = dbm.dumb.open(str(self.folder / 'shelf'), 'c')
        for number in range(20):
            database[f'key {number}'] = pickle.dumps(['text' * number]) if number != 13 else HOSTILE
        database.close()
        values, index = ((self.folder / f'shelf{end}').read_bytes() for end in ('.dat', '.dir'))
        for method in (zipfile.ZIP_STORED, zipfile.ZIP_DEFLATED):
            with zipfile.ZipFile(self.folder / 'a.zip', 'w', method) as archive:
                archive.writestr('shelf.dat', values)
                archive.writestr('shelf.dir', index)
            result = look(str(self.folder / 'a.zip'))
            self.assertEqual(names_of(result).count('posix.system'), 1)
            self.assertIn(f'shelf.dat > (at {values.index(HOSTILE)})', places_of(result))


class Hdf5(ScanCase):
    """Where an HDF5 file may begin."""

    def test_behind_a_block_of_its_author(self) -> None:
        for at in (0, 512, 8192, 16384, 1 << 20):
            with mock.patch.dict(sys.modules, {'h5py': None}):
                result = self.look('a.bin', bytes(at) + b'\x89HDF\r\n\x1a\n' + bytes(100))
            self.assertIn('! : hdf5: not opened', notes_of(result), at)
        self.assertEqual(notes_of(self.look('a.bin', bytes(1000) + b'\x89HDF\r\n\x1a\n' + bytes(100))), '')


    def test_memory_is_bounded(self) -> None:
        """A library that asks for more than it may gets none."""
        def opened(*words: object) -> None:
            bytearray(1 << 30)
            raise AssertionError('it got the memory')
        before = resource.getrlimit(resource.RLIMIT_DATA)
        with mock.patch.dict(sys.modules, {'h5py': types.SimpleNamespace(File=opened)}):
            result = self.look('a.h5', b'\x89HDF\r\n\x1a\n' + bytes(100) + HOSTILE, Options(Limits(memory=300 << 20)))
        self.assertEqual(resource.getrlimit(resource.RLIMIT_DATA), before)
        self.assertIn('! : hdf5: it takes more memory than it may: its bytes are searched', notes_of(result))
        self.assertEqual(names_of(result), ['posix.system'])


class Zstd(ScanCase):
    """Streams of zstd, by the package where it is installed, else by the library itself."""

    def packed(self, content: bytes, *words: str) -> bytes:
        return subprocess.run(['zstd', '-q', '-c', *words], input=content, capture_output=True, check=True).stdout

    def setUp(self) -> None:
        super().setUp()
        if shutil.which('zstd') is None:
            self.skipTest('zstd is not installed')
        try:
            import zstandard
        except ImportError:
            try:
                import zstandard_double as zstandard
            except OSError:
                self.skipTest('there is no library of zstd')
        held = mock.patch.dict(sys.modules, {'zstandard': zstandard, 'compression': None})
        held.start()
        self.addCleanup(held.stop)

    def test_is_opened(self) -> None:
        large = pickle.dumps([b'x' * 3_000_000, *range(100_000)])
        for content, names in ((HOSTILE, ['posix.system']), (HARMLESS, ['collections.OrderedDict']), (large, [])):
            for words in ((), ('-19',), ('--no-check',)):
                result = self.look('a.pkl.zst', self.packed(content, *words))
                self.assertEqual((names_of(result), places_of(result), notes_of(result)), (names, ['(zstd)'], ''))
                self.assertTrue(result.pickles[0].end.is_stopped)

    def test_what_is_not_in_the_form(self) -> None:
        one = self.packed(HARMLESS)
        for content, told in ((one + self.packed(HOSTILE), 'bytes stand behind the end'), (one + HOSTILE, 'bytes stand behind the end'),
                              (one[:-3], 'cut short'), (one[:9] + b'\xff' * 9, 'the compressed data')):
            result = self.look('a.pkl.zst', content)
            self.assertIn('not in the form that zstd and pandas write', notes_of(result))
            self.assertIn(told, notes_of(result))
            self.assertIsNone(result.error)
            self.assertEqual('posix.system' in names_of(result), len(content) > len(one))

    def test_bomb(self) -> None:
        result = self.look('a.zst', self.packed(bytes(200 << 20), '-19'), Options(Limits(unpacked=50 << 20)))
        self.assertIn('! ', notes_of(result))

    def test_is_told_where_nothing_opens_it(self) -> None:
        with mock.patch.dict(sys.modules, {'zstandard': None}):
            result = self.look('a.pkl.zst', self.packed(HOSTILE))
        self.assertIn('! : zstd: this kind of container is not opened', notes_of(result))


# What numcodecs 0.11.0 (`Blosc().encode`) and lz4 4.0.2 (`frame.compress`) write of a hostile pickle, nine times, and once; and of three numbers.
BLOSC = (b'\x02\x01!\x01\xe1\0\0\0\xe1\0\0\0<\0\0\0\x14\0\0\0$\0\0\0\xff\ncposix\nsystem\n(X\x02\0\0\0idtR.\x19\0\xb0PidtR.')
NUMBERS = bytes.fromhex('02013308180000001800000028000000' '0000000000000000' '000000000000f03f' '0000000000000040')
LZ4 = b'\x04"M\x18h@\x19\0\0\0\0\0\0\0z\x19\0\0\x80cposix\nsystem\n(X\x02\0\0\0idtR.\0\0\0\0'


class Lz4AndBlosc(ScanCase):
    """What joblib and zarr pack by packages: it is opened where these are installed."""

    def scanned(self, module: str, name: str, content: bytes) -> str:
        """What is told of a file where a module is installed."""
        python = python_with(module)
        if python is None:
            self.skipTest(f'{module} is not installed')
        self.file(name, content)
        return str(self.scan('--brief', name, python=python).stdout)

    def test_lz4(self) -> None:
        for content, told in ((LZ4, 'a.pkl.lz4 > (lz4): import posix.system'), (LZ4[:-3], 'the compressed data are cut short'),
                              (LZ4 + b'x', 'bytes stand behind the end'), (LZ4[:5] + b'\xff' + LZ4[6:], 'a size of blocks that no writer sets')):
            self.assertIn(told, self.scanned('lz4.frame', 'a.pkl.lz4', content))

    def test_lz4_that_is_not_opened(self) -> None:
        with mock.patch.dict(sys.modules, {'lz4': None, 'lz4.frame': None}):
            self.assertIn('! : lz4: this kind of container is not opened', notes_of(self.look('a.pkl.lz4', LZ4)))

    def test_chunks_of_lz4(self) -> None:
        """`numcodecs.LZ4` writes the size and one block, which is the one that Blosc has. Python needs no package for it."""
        chunk = (225).to_bytes(4, 'little') + BLOSC[24:]
        result = self.look('0', chunk)
        self.assertEqual((names_of(result), places_of(result), result.pickles[0].imports[0].count), (['posix.system'], ['(lz4 chunk)'], 9))
        large = b'cposix\nsystem\n0' + bytes(range(256)) * 4096
        length, last = divmod(len(large) - 271 - 5 - 19, 255)
        packed = b'\xff\xff\x01' + large[:271] + b'\0\x01' + b'\xff' * length + bytes([last]) + b'\x50' + large[-5:]
        self.assertEqual(self.look('0', len(large).to_bytes(4, 'little') + packed).pickles[0].where, ('(lz4 chunk)',))
        for odd in (chunk[:-1], b'\xe0' + chunk[1:], chunk + b'N', chunk[:31] + b'\xff' + chunk[32:]):
            self.assertNotIn(('(lz4 chunk)',), [pickle.where for pickle in self.look('0', odd).pickles])

    def test_what_is_no_chunk_of_lz4(self) -> None:
        chance = random.Random(75)
        for _ in range(3000):
            content = chance.choice((b'', bytes([chance.randrange(60), 0, 0, 0]))) + bytes(chance.choices(range(256), k=chance.randrange(40, 300)))
            self.assertEqual(look_at_bytes('0', content).kinds, (), content)

    def test_blosc(self) -> None:
        self.assertIn('! 0 > (blosc chunk): import posix.system 9 times', self.scanned('numcodecs.blosc', '0', BLOSC))

    def test_blosc_by_a_stand_in(self) -> None:
        module = mock.Mock(decompress={BLOSC: HOSTILE * 9, NUMBERS: NUMBERS[16:]}.__getitem__)
        with mock.patch.dict(sys.modules, {'blosc': module}):
            result = self.look('0', BLOSC)
            self.assertEqual((names_of(result), places_of(result)), (['posix.system'], ['(blosc chunk)']))
            self.assertEqual(self.look('0', NUMBERS).notes, ())
            self.assertIn('the compressed data cannot be unpacked', notes_of(self.look('0', BLOSC[:-1] + b'x')))
            large = BLOSC[:4] + (1 << 31).to_bytes(4, 'little') + BLOSC[8:]
            self.assertIn('it unpacks to 2,147,483,648 bytes at once', notes_of(self.look('0', large)))

    def test_blosc_that_is_not_opened(self) -> None:
        """Most chunks hold numbers, so none is told: the metadata of zarr say which are pickles."""
        with mock.patch.dict(sys.modules, {'blosc': None, 'numcodecs': None, 'numcodecs.blosc': None}):
            self.assertEqual(self.look('0', NUMBERS).notes, ())


if __name__ == '__main__':
    unittest.main()
