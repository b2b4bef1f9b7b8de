"""The gate that cannot be talked round: what is hostile is told whatever form it has, and what is honest passes."""

from __future__ import annotations

import gzip
import io
import lzma
import os
import pickle
import struct
import subprocess
import sys
import tarfile
import time
import unittest
import unittest.mock
import zlib

from evasions import LOADERS, framed, short, tries, wrapper
from picklestep.scan import Limits, Options, Result, look
from picklestep.scan.allow import SETS, read_names
from scan_support import HARMLESS, HOSTILE, Made, ScanCase, names_of, notes_of, zip_of

# What loads a try: Debian's Python, which has the libraries of Debian; elsewhere that of the tests.
DEBIAN = '/usr/bin/python3' if os.path.exists('/usr/bin/python3') else sys.executable
BEGIN = '''import bz2, gzip, io, lzma, os, pickle, sys, tarfile, warnings, zipfile
warnings.simplefilter("ignore")
def tried(load):
    try:
        load()
    except Exception:
        pass
for line in sys.stdin.read().split("\\0"):
    path, loader = line.split("\\1")
    os.chdir(os.path.dirname(path))
    tried(lambda: exec(loader, {**globals(), "path": path}))
'''
NEEDS = {'torch': 'torch', 'joblib': 'joblib', 'mapped': 'joblib', 'numpy': 'numpy', 'numpy twice': 'numpy', 'pandas': 'pandas'}


def has(module: str) -> bool:
    """Whether Debian's Python has a module."""
    code = f'import {module}; {module}.__file__.strip()'  # (a folder of this name alone has no file)
    return subprocess.run([DEBIAN, '-c', code], capture_output=True, check=False).returncode == 0


def is_told(result: Result) -> bool:
    """Whether something in a file gets a line with `!` whatever it may import."""
    return result.error is not None or any(note.is_marked for note in result.notes) or not all(each.end.is_stopped for each in result.pickles)


class Evasions(ScanCase):
    """Each try, looked at and loaded."""

    def setUp(self) -> None:
        super().setUp()
        self.tries = [(each, self.file(f'{index}/{each.file}', each.content)) for index, each in enumerate(tries('mark'))]

    def test_each_is_told(self) -> None:
        allowed = read_names(SETS)
        for each, path in self.tries:
            with self.subTest(each.name):
                result = look(str(path))
                if each.is_plain:
                    self.assertTrue(any(allowed.note(name) is None for name in names_of(result)), notes_of(result))
                else:
                    self.assertTrue(is_told(result), (names_of(result), notes_of(result)))

    def test_real_loaders_run_them(self) -> None:
        missing = {loader for loader, module in NEEDS.items() if not has(module)}
        chosen = [(each, path) for each, path in self.tries if each.loader not in missing | {'none'}]
        lines = '\0'.join(f'{path}\1{LOADERS[each.loader]}' for each, path in chosen)
        subprocess.run([DEBIAN, '-c', BEGIN], input=lines, text=True, capture_output=True, timeout=900, check=False)
        for each, path in chosen:
            with self.subTest(each.name):
                mark = path.parent / 'mark'
                self.assertTrue(mark.is_file(), 'its payload did not run')
                self.assertEqual(mark.stat().st_size, 0)
        if missing:
            self.skipTest(f'{DEBIAN} has no {", ".join(sorted({NEEDS[loader] for loader in missing}))}: their tries were not loaded')


class Whole(ScanCase):
    """Pickles with raw numbers between their opcodes."""

    def content(self, arrays: int) -> bytes:
        """joblib's arrays in a tuple, and a call behind them. A frame ends before each array."""
        pieces = [b'('] + [wrapper(b'u1', 5)[2:]] * arrays
        pieces[:2] = [b''.join(pieces[:2])]
        call = short(b'posix') + short(b'system') + b'\x93' + short(b'id') + b'\x85Rt.'
        raw = b''.join(self.framed(piece) + b'.\x80\x04N.' for piece in pieces)
        return b'\x80\x04' + raw + self.framed(call)

    def framed(self, piece: bytes) -> bytes:
        return b'\x95' + struct.pack('<Q', len(piece)) + piece

    def test_a_call_behind_an_array_is_shown_where_it_is(self) -> None:
        content = self.content(3)
        result = self.look('model.joblib', content)
        self.assertFalse(is_told(result), notes_of(result))
        found = [(each.name, each.offset) for each in result.pickles[0].imports if each.name.startswith('posix')]
        self.assertEqual(found, [('posix.system', content.rindex(b'\x93'))])
        result = self.look('model.joblib', content, Options(lines=True))
        self.assertIn(f"{content.rindex(b'R'):>5}: call 'posix' 'system' ('id') as ", result.pickles[0].lines[-1])

    def test_a_size_that_is_not_plain_is_told(self) -> None:
        content = self.content(1)
        for one, other in ((b'K\x05\x85', b'K\x05)'), (short(b'u1'), short(b'x1')), (short(b'C'), short(b'X')), (b'K\x03', b'K\x04K\x03')):
            self.assertIn(one, content)
            with self.subTest(other):
                self.assertTrue(is_told(self.look('model.joblib', content.replace(one, other, 1))))

    def test_an_array_that_is_not_made_directly_is_told(self) -> None:
        made = short(b'joblib.numpy_pickle') + short(b'NumpyArrayWrapper') + b'\x93'
        alias = short(b'joblib') + short(b'numpy_pickle.NumpyArrayWrapper') + b'\x93'
        maker = short(b'copyreg') + short(b'_reconstructor') + b'\x93'
        base = short(b'builtins') + short(b'object') + b'\x93N\x87R'
        state = wrapper(b'u1', 5).partition(made + b')\x81')[2]
        # joblib takes the first five bytes for the array, and goes on with the pickle that these five bytes hide.
        hidden = b'B' + len(HOSTILE).to_bytes(4, 'little') + HOSTILE + b'\x86.'
        copied = short(b'copy') + short(b'copy') + b'\x93' + made + b')\x81\x85R'
        through_memo = made + b')\x81\x94' + short(b'copy') + short(b'copy') + b'\x93h\0\x85R'
        for other in (copied, through_memo, alias + b')\x81', maker + made + base, maker + alias + base, maker + made + b'\x94' + base):
            with self.subTest(other):
                result = self.look('model.joblib', b'\x80\x04' + other + state + hidden)
                self.assertIn("joblib's class of arrays", notes_of(result))

    def test_flags_that_do_not_fit_are_told(self) -> None:
        content = self.content(1)
        flags = b'J\xff\xff\xff\xffK\0t'
        self.assertIn(flags, content)
        result = self.look('model.joblib', content.replace(flags, flags[:-2] + b'?t'))
        self.assertIn('flags of a numpy.dtype that do not fit its fields', notes_of(result))

    def test_numbers_that_are_opcodes_are_told_where_they_import(self) -> None:
        imports = short(b'posix') + short(b'system') + b'\x93'
        for raw, told in ((b'N0' * 10_000, False), (b'N' * 2000, False), (b'N0' * 10_000 + imports + b'0', True), (b'N0' * 30 + imports, True)):
            content = framed(b'\x80\x04', wrapper(b'u1', len(raw))[2:]) + raw + b'.'
            with self.subTest(raw[-9:]):
                self.assertEqual(is_told(self.look('model.joblib', content)), told)

    def test_another_form_is_told_with_its_place(self) -> None:
        odd = b'\x80\x03(t.'
        for before, content in ((b'', odd), (b'N.', odd), (b'N.' * 40_000, odd), (b'N.', b'\x80\x03(' + b'N' * 70_000 + b'(tt.')):
            place = len(before) + content.index(b't')
            with self.subTest(len(before), size=len(content)):
                self.assertIn('not in the form that picklers write', notes_of(self.look('a.pkl', before + content)))
                self.assertIn(f', at {place}', notes_of(self.look('a.pkl', before + content)))
        content = self.content(3)
        place = content.rindex(b'\x85Rt.')
        result = self.look('model.joblib', content[:place] + b'0' + content[place + 1:])
        self.assertIn('! : not in the form that picklers write: ', notes_of(result))

    def test_a_thousand_arrays(self) -> None:
        begin = time.process_time()
        self.assertFalse(is_told(self.look('model.joblib', self.content(1000))))
        self.assertLess(time.process_time() - begin, 10)


class Tars(ScanCase):
    """Archives whose numbers are spelled as no writer spells them."""

    def content(self, spelling: bytes) -> bytes:
        """An archive with a hostile member, whose sum is spelled so."""
        told = tarfile.TarInfo('model.bin')
        told.size = len(HOSTILE)
        header = bytearray(told.tobuf(tarfile.USTAR_FORMAT))
        header[257:265] = bytes(8)
        header[148:156] = b' ' * 8
        header[148:156] = (spelling % sum(header)).ljust(8, b'\0')
        return bytes(header) + HOSTILE.ljust(512, b'\0') + bytes(1024)

    def test_each_spelling_of_a_sum_is_told(self) -> None:
        for spelling in (b'0o%05o', b'0O%05o', b'0o_%05o', b'+%06o', b'0_%05o', b'\t%06o', b'\x1c%06o'):
            with self.subTest(spelling):
                content = self.content(spelling)
                with tarfile.open(fileobj=io.BytesIO(content)) as archive:
                    self.assertEqual(archive.getnames(), ['model.bin'])
                self.assertTrue(is_told(self.look('a.bin', content)))


class Streams(ScanCase):
    """Compressed files that do not show at once that they are some."""

    def contents(self) -> 'dict[str, bytes]':
        packed = zlib.compress(HOSTILE)
        alone = lzma.compress(HOSTILE, lzma.FORMAT_ALONE)
        chain = [{'id': lzma.FILTER_LZMA1, 'lc': 0, 'lp': 0, 'pb': 2}]
        empty = lzma.compress(b'', lzma.FORMAT_ALONE, filters=chain)
        return {'zlib': packed[:2] + b'\0\0\0\xff\xff' * 4000 + packed[2:], 'large': alone[:1] + (3 << 30).to_bytes(4, 'little') + alone[5:],
                'empty': empty + alone, 'zeros': bytes(18 * 300) + alone, 'zeros and xz': bytes(36) + lzma.compress(HOSTILE)}

    def test_each_is_told(self) -> None:
        for name, content in self.contents().items():
            unpacked = zlib.decompress(content) if name == 'zlib' else lzma.decompress(content)
            self.assertEqual(unpacked, HOSTILE, name)
            for packed in (content, zip_of([Made(b'weights.bin', content, 8)])):
                with self.subTest(name, in_zip=packed is not content):
                    result = self.look('a.sav', packed)
                    self.assertTrue(is_told(result) or names_of(result) == ['posix.system'], notes_of(result))

    def test_pickles_that_are_cut_off(self) -> None:
        for begin in (b'', b'N0' * 9000, b'(X\x00\x50\x00\x00' + b'a' * 0x5000 + b'l0'):
            content = begin + b'cantigravity\nflyX'  # (the last line has no end, and Python's unpickler takes it)
            for packed in (content, zip_of([Made(b'weights.bin', content, 8)]), gzip.compress(content)):
                with self.subTest(begin[:4], packed=packed[:2]):
                    self.assertTrue(is_told(self.look('a.bin', packed)))

    def test_zeros_and_numbers_are_not(self) -> None:
        for content in (bytes(18 * 300_000), bytes(70_000) + b'\1\0\0\0' * 20_000):
            self.assertFalse(is_told(self.look('a.bin', content)))


    def test_lists_of_protocol_1_are_not(self) -> None:
        for value in ([True, False, 0, 1], [0] * 300, [[1, 2, 0], [3]], [None, 'text', (1, 2.5)]):
            content = pickle.dumps(value, 1)
            with self.assertRaises(lzma.LZMAError):
                lzma.open(io.BytesIO(content)).read(1)
            with self.subTest(value):
                self.assertFalse(is_told(self.look('a.pkl', content)))


class LimitsOfAFile(ScanCase):
    """Processor time and memory of a file."""

    def test_processor_time(self) -> None:
        result = self.look('a.pkl.gz', gzip.compress(HOSTILE[:-1] + b'(' + b'N' * 3_000_000 + b'l.'), Options(Limits(seconds=0.02)))
        self.assertRegex(notes_of(result), '! .*(0.02 seconds|time or memory)')

    def test_small_files_ask_for_the_processor_time_now_and_then(self) -> None:
        asked, begin = 0, time.monotonic()
        real = time.process_time

        def process_time() -> float:
            nonlocal asked
            asked += 1
            return real()
        with unittest.mock.patch('time.process_time', process_time):
            for _ in range(100):
                self.look('a.pkl', HARMLESS)
        self.assertLessEqual(asked, (time.monotonic() - begin) / 0.01 + 1)

    def test_what_unpacks_to_too_much(self) -> None:
        data = gzip.compress(HOSTILE + bytes(6_000_000))
        result = self.look('a.pkl.gz', data, Options(Limits(memory=8 << 20)))
        self.assertIn('it unpacks to more than the 2,097,152 bytes that may be held at once', notes_of(result))
        self.assertEqual(names_of(result), ['posix.system'])

    def test_a_log_and_the_time_of_change_of_the_inode(self) -> None:
        path = self.file('a.pkl', HARMLESS)
        self.file('log', self.scan('a.pkl', '--json').stdout.encode())
        self.assertEqual(self.scan('a.pkl', '--json', '--resume', 'log').stdout, '')
        state = path.stat()
        path.write_bytes(HARMLESS)
        os.utime(path, ns=(state.st_atime_ns, state.st_mtime_ns))
        self.assertIn('a.pkl', self.scan('a.pkl', '--json', '--resume', 'log').stdout)

    def test_a_folder_without_files(self) -> None:
        (self.folder / 'links').mkdir()
        self.assertEqual(self.scan('links').returncode, 3)
        os.symlink('/tmp', self.folder / 'links' / 'models')
        run = self.scan('links')
        self.assertEqual(run.returncode, 3)
        self.assertIn('! links: no file in it is looked at', run.stdout)

    def test_what_may_be_done_with_a_name(self) -> None:
        self.file('allowed.txt', b'collections.OrderedDict:\n')
        self.file('a.pkl', HARMLESS)
        self.assertEqual(self.scan('--allow', 'allowed.txt', 'a.pkl').returncode, 0)
        self.file('b.pkl', HARMLESS[:-1] + b')R.')
        run = self.scan('--brief', '--allow', 'allowed.txt', 'b.pkl')
        self.assertEqual(run.returncode, 1)
        self.assertIn('! b.pkl: call collections.OrderedDict once', run.stdout)
        self.file('allowed.txt', b'collections.OrderedDict: call\n')
        self.assertEqual(self.scan('--allow', 'allowed.txt', 'b.pkl').returncode, 0)


if __name__ == '__main__':
    unittest.main()
