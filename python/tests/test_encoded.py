"""Pickles in bytes that stand for others: `repr`, JSON with escapes, raw deflate; and in arrays of zarr and whole numbers of HDF5."""

from __future__ import annotations

import json
import os
import random
import subprocess
import unittest
import zipfile
import zlib
from typing import Dict, List

from picklestep.scan import Judge, Options, Result, look, look_at_bytes
from scan_support import HOSTILE, ScanCase, python_with

FRAMED = b'\x80\x04\x95\x16\0\0\0\0\0\0\0\x8c\x05posix\x94\x8c\x06system\x94\x93\x94)R.'
EVERYWHERE = Options(everywhere=True)


def deflated(content: bytes) -> bytes:
    packer = zlib.compressobj(9, zlib.DEFLATED, -15)
    return packer.compress(content) + packer.flush()


def named(result: Result) -> List[str]:
    """The names that are marked."""
    return [each.name for each in Judge().looks(result) if each.name]


class Texts(ScanCase):
    """What texts and packed bytes stand for."""

    def test_each_is_found(self) -> None:
        for pickle in (HOSTILE, FRAMED):
            text = pickle.decode('latin-1')
            ways: Dict[str, bytes] = {
                'repr': repr(pickle).encode(), 'repr in a line': f'value = {pickle!r}\n'.encode(), 'repr in a list': repr([1, pickle, 2]).encode(),
                'with quotes': repr(b"'" + pickle)[:2].encode() + repr(pickle)[2:].encode(), 'JSON': json.dumps({'a': [text]}).encode(),
                'JSON in UTF-8': json.dumps([text], ensure_ascii=False).encode(), 'JSON behind others': json.dumps(['a\n', '"', text]).encode(),
                'raw deflate': deflated(pickle), 'in a long text': b'line\n' * 20_000 + repr(pickle).encode() + b'\nline' * 20_000}
            for name, content in ways.items():
                with self.subTest(name, pickle=pickle):
                    self.assertIn('posix.system', named(look_at_bytes('value.txt', content, EVERYWHERE)))

    def test_all_escapes_of_json(self) -> None:
        """A name of eight letters has the length `\\b`, and one of twelve `\\f`."""
        made = b'\x80\x04\x8c\x08builtins\x8c\x04eval\x93\x8c\x0c"a string 1"\x85R.'
        text = json.dumps(made.decode('latin-1'))
        self.assertTrue('\\b' in text and '\\f' in text)
        self.assertIn('builtins.eval', named(look_at_bytes('value.txt', text.encode(), EVERYWHERE)))

    def test_raw_deflate_with_a_backslash(self) -> None:
        """Most that are longer than this have the byte of one."""
        chance = random.Random(1)
        for _ in range(20):
            packed = deflated(b'\x80\x04cposix\nsystem\nC\xc8' + chance.randbytes(200) + b'\x85R.')
            with self.subTest(has_backslash=b'\\' in packed):
                self.assertIn('posix.system', named(look_at_bytes('value.txt', packed, EVERYWHERE)))

    def test_what_is_none(self) -> None:
        chance = random.Random(75)
        texts = [json.dumps({'a': 'two\nlines\t"quoted" \\ é', 'path': 'C:\\new\\table'}), repr([b'\x00\x01\xff', b"it's", 'a\n']), 'b\'' + '\\' * 99, '"' * 999 + '\\', "b'\\" * 999]
        values = [*(text.encode() for text in texts), *(chance.randbytes(400) for _ in range(200)), *(deflated(chance.randbytes(200)) for _ in range(50)), deflated(b'a text ' * 900)]
        for value in values:
            self.assertEqual(look_at_bytes('value.txt', value, EVERYWHERE).pickles, (), value[:30])

    def test_escapes_without_an_end_take_no_long_time(self) -> None:
        for content in (b"b'\\" * 400_000, b'"\\x' * 400_000, b"b'" + b"\\'b'" * 300_000, b'"a' * 500_000 + b'\\'):
            self.assertEqual(look_at_bytes('value.txt', content, EVERYWHERE).pickles, ())


class Zarr(ScanCase):
    """Arrays whose items are pickles."""

    PICKLED = {'chunks': [3], 'compressor': {'blocksize': 0, 'clevel': 5, 'cname': 'lz4', 'id': 'blosc', 'shuffle': 1}, 'dtype': '|O', 'fill_value': None,
               'filters': [{'id': 'pickle', 'protocol': 5}], 'order': 'C', 'shape': [3], 'zarr_format': 2}
    PLAIN = {**PICKLED, 'dtype': '<f8', 'filters': None}

    def notes(self, name: str, content: bytes) -> List[str]:
        return [note.text for note in look_at_bytes(name, content).notes if note.is_marked]

    def test_metadata(self) -> None:
        new = {'zarr_format': 3, 'codecs': [{'name': 'numcodecs.pickle', 'configuration': {'protocol': 5}}]}
        for name, made, is_told in (('a/.zarray', self.PICKLED, True), ('.zarray', self.PLAIN, False), ('.zmetadata', {'metadata': {'a/.zarray': self.PICKLED}}, True),
                                    ('zarr.json', new, True), ('a.json', self.PICKLED, False), ('.zarray', [], False)):
            self.assertEqual(bool(self.notes(name, json.dumps(made).encode())), is_told, (name, made))
        self.assertTrue(self.notes('.zarray', json.dumps(self.PICKLED).replace('pickle', '\\u0070ickle').encode()))
        self.assertTrue(self.notes('.zarray', json.dumps(self.PICKLED).replace('"chunks": [3]', f'"chunks": [{"1" * 2_000_000}]').encode()))
        path = self.folder / 'store.zip'
        with zipfile.ZipFile(path, 'w') as archive:
            archive.writestr('a/.zarray', json.dumps(self.PICKLED))
        self.assertTrue([note for note in look(str(path)).notes if note.missed and note.where == ('a/.zarray',)])

    def test_what_zarr_writes(self) -> None:
        python = python_with('zarr')
        if python is None:
            self.skipTest('zarr is not installed')
        code = ('import sys, numpy, zarr, numcodecs; zarr.array(numpy.array([1, "a", None], dtype=object), object_codec=numcodecs.Pickle(), store=sys.argv[1]); '
                'zarr.array(numpy.arange(3.0), store=sys.argv[2])')
        subprocess.run([python, '-c', code, str(self.folder / 'told'), str(self.folder / 'plain')], check=True, timeout=600)
        for name, status in (('told', 3), ('plain', 0)):
            run = self.scan('--brief', name)
            self.assertEqual(run.returncode, status, run.stdout)
        self.assertIn('.zarray: an array of zarr whose items are pickles', self.scan('--brief', 'told').stdout)


@unittest.skipIf(os.name == 'nt', 'the writer is of Linux')
class WholeNumbers(ScanCase):
    """Bytes in datasets of whole numbers of more than one byte."""

    def test_each_size(self) -> None:
        python = python_with('h5py')
        if python is None:
            self.skipTest('h5py is not installed')
        code = ('import sys, h5py, numpy\nfor kind in ("i1", "u2", "i4", "u4", "i8", "u8", ">i8", "plain"):\n content = bytes.fromhex(sys.argv[2])\n'
                ' content += bytes(-len(content) % 8)\n with h5py.File(sys.argv[1] + "/" + kind.strip(">") + str(len(kind)) + ".h5", "w") as file:\n'
                '  file["a"] = numpy.arange(50) if kind == "plain" else numpy.frombuffer(content, dtype=kind)')
        subprocess.run([python, '-c', code, str(self.folder), HOSTILE.hex()], check=True, timeout=600)
        files = sorted(self.folder.glob('*.h5'))
        self.assertEqual(len(files), 8)
        for file in files:
            run = self.scan('--brief', file.name, python=python)
            self.assertEqual((run.returncode, 'posix.system' in run.stdout), (0, False) if file.name.startswith('plain') else (1, True), (file.name, run.stdout))


if __name__ == '__main__':
    unittest.main()
