"""`scan` on files of the real libraries and on each kind of container."""

from __future__ import annotations

import bz2
import contextlib
import doctest
import gzip
import importlib
import io
import itertools
import json
import lzma
import os
import pickle
import pkgutil
import random
import struct
import subprocess
import sys
import tarfile
import types
import unittest
import unittest.mock
import warnings
import zipfile
import zlib
from typing import Any, Dict, List, Set, Type

import picklestep.scan
from picklestep.scan import Judge, Options, look
from picklestep.scan.blobs import BytesBlob
from picklestep.scan.canonical.standard import STANDARD_MODULES
from picklestep.scan.containers import CONTAINERS, STORES
from picklestep.scan.names import Names
from picklestep.scan.reach import leads_of
from picklestep.scan.results import from_json, to_json
from scan_support import HARMLESS, HOSTILE, MODELS, ScanCase, names_of, notes_of, places_of

# An array of objects is a pickle between the opcodes. `pickletools` ends before it.
WITHIN = {name: {'collections.OrderedDict'} for name in ('joblib_arrays.joblib', 'joblib_arrays_zlib.joblib')}


def written_by() -> Dict[str, Set[str]]:
    """The names that `pickletools` found in each file when the libraries wrote it."""
    names: Dict[str, Set[str]] = {}
    for line in (MODELS / 'WRITTEN_BY.txt').read_text().splitlines()[3:]:
        if line.startswith('    '):
            names[file].add(line.strip())
        else:
            file = line.partition(':')[0]
            names[file] = set()
    return names


def numpy_file(items: str, content: bytes) -> bytes:
    """A file in numpy's own layout whose header describes the items of its array by these words."""
    header = f"{{'descr': {items}, 'fortran_order': False, 'shape': (1,), }}\n".encode()
    return b'\x93NUMPY\x01\x00' + len(header).to_bytes(2, 'little') + header + content


class RealFiles(ScanCase):
    """Files that torch, numpy, joblib, scikit-learn and pandas wrote."""

    def test_imports_are_those_that_pickletools_finds(self) -> None:
        for file, names in written_by().items():
            imported = {name.replace('__builtin__.', 'builtins.') for name in names}
            with self.subTest(file):
                self.assertEqual(set(names_of(look(str(MODELS / file)))), imported | WITHIN.get(file, set()))

    def test_all_is_read(self) -> None:
        for file in written_by():
            with self.subTest(file):
                result = look(str(MODELS / file))
                self.assertIsNone(result.error)
                self.assertTrue(all(pickle.end.is_stopped for pickle in result.pickles))
                self.assertEqual(notes_of(result), '')

    def test_storages_are_no_pickles(self) -> None:
        with zipfile.ZipFile(MODELS / 'torch_checkpoint.pth') as archive:
            others = [name for name in archive.namelist() if not name.endswith('data.pkl')]
        result = look(MODELS / 'torch_checkpoint.pth')
        self.assertEqual(result, look(str(MODELS / 'torch_checkpoint.pth')))
        self.assertEqual(places_of(result), ['archive/data.pkl'])
        self.assertEqual(result.others, len(others))


def asked_for(unpickler: Type[Any], content: bytes) -> List[str]:
    """The names that an unpickler imports, which are those of a harmless stand-in here."""
    names: List[str] = []

    class Unpickler(unpickler):  # type: ignore[misc]
        def find_class(self, module: str, name: str) -> Any:
            names.append(name)
            return str

        def persistent_load(self, pid: Any) -> Any:
            return pid

    with contextlib.suppress(Exception), warnings.catch_warnings():
        warnings.simplefilter('ignore')  # (of escapes that are none)
        Unpickler(io.BytesIO(content)).load()
    return names


class Containers(ScanCase):
    """Each kind of container, made by the standard library."""

    def zipped(self, method: int, **members: bytes) -> bytes:
        held = io.BytesIO()
        with zipfile.ZipFile(held, 'w', method) as archive:
            for name, data in members.items():
                archive.writestr(name, data)
        return held.getvalue()

    def tarred(self, format: int, **members: bytes) -> bytes:
        held = io.BytesIO()
        with tarfile.open(fileobj=held, mode='w', format=format) as archive:
            for name, data in members.items():
                told = tarfile.TarInfo(name)
                told.size = len(data)
                archive.addfile(told, io.BytesIO(data))
        return held.getvalue()

    def test_each_method_of_zip(self) -> None:
        for method in (zipfile.ZIP_STORED, zipfile.ZIP_DEFLATED, zipfile.ZIP_BZIP2, zipfile.ZIP_LZMA):
            with self.subTest(method):
                result = self.look('a.zip', self.zipped(method, plain=HOSTILE, text=b'{"a": 1}'))
                self.assertEqual((places_of(result), names_of(result), result.others), (['plain'], ['posix.system'], 1))
                # (The program has no such method: what a reader without it finds is not known of these.)
                self.assertEqual('packed neither by none nor by deflate' in notes_of(result), method in (zipfile.ZIP_BZIP2, zipfile.ZIP_LZMA))
                self.assertEqual(len(result.notes), method in (zipfile.ZIP_BZIP2, zipfile.ZIP_LZMA))

    def test_a_zip_that_was_written_as_a_stream(self) -> None:
        class Stream(io.RawIOBase):
            held = bytearray()

            def writable(self) -> bool:
                return True

            def write(self, data: bytes) -> int:  # type: ignore[override]
                self.held += data
                return len(data)

        stream = Stream()
        with zipfile.ZipFile(stream, 'w', zipfile.ZIP_DEFLATED) as archive:  # type: ignore[arg-type]
            archive.writestr('a', HOSTILE)
            archive.writestr('b.pkl', HARMLESS)
        result = self.look('a.zip', bytes(stream.held))
        self.assertEqual((names_of(result), notes_of(result)), (['posix.system', 'collections.OrderedDict'], ''))

    def test_each_format_of_tar(self) -> None:
        for format in (tarfile.USTAR_FORMAT, tarfile.GNU_FORMAT, tarfile.PAX_FORMAT):
            with self.subTest(format):
                name = 'folder/' * (20 if format != tarfile.USTAR_FORMAT else 2) + 'model'
                result = self.look('a.tar', self.tarred(format, **{name: HOSTILE, 'text': b'text'}))
                self.assertEqual((places_of(result), names_of(result), result.others), ([name], ['posix.system'], 1))
                self.assertEqual(notes_of(result), '')

    def test_compressed_files(self) -> None:
        for packed in (gzip.compress(HOSTILE), bz2.compress(HOSTILE), lzma.compress(HOSTILE), zlib.compress(HOSTILE), zlib.compress(HOSTILE, 0),
                       lzma.compress(HOSTILE, lzma.FORMAT_ALONE)):
            result = self.look('file', packed)
            self.assertEqual((names_of(result), notes_of(result)), (['posix.system'], ''))
        result = self.look('file', gzip.compress(HOSTILE[:9]) + gzip.compress(HOSTILE[9:]))
        self.assertEqual(names_of(result), ['posix.system'])
        self.assertIn('bytes stand behind the end of the stream', notes_of(result))

    def test_each_kind_has_what_opens_it(self) -> None:
        kinds = [*CONTAINERS, *STORES]
        self.assertEqual(len({kind.name for kind in kinds}), len(kinds))
        for entry in [*(kind.opener for kind in kinds), *(kind.opener_at_end for kind in kinds if kind.opener_at_end)]:
            module, _, name = entry.partition(':')
            self.assertTrue(callable(getattr(importlib.import_module(f'picklestep.scan.{module}'), name)), entry)

    def test_the_layout_of_old_joblib(self) -> None:
        result = self.look('old.joblib', b'ZF' + hex(len(HOSTILE)).ljust(19).encode() + zlib.compress(HOSTILE))
        self.assertEqual((places_of(result), names_of(result)), (['(zfile)'], ['posix.system']))

    def test_compressed_files_that_joblib_reads(self) -> None:
        # joblib 1.2 takes what begins with ZF or with 5d 00, reads any hexadecimal length, and skips a blank after it.
        for length in (b'0x19', b'19', b' 19', b'0X19'):
            for blank in (b'', b' '):
                result = self.look('old.bin', b'ZF' + length.ljust(19) + blank + zlib.compress(HOSTILE))
                self.assertEqual((places_of(result), names_of(result)), (['(zfile)'], ['posix.system']))
        packed = lzma.compress(HOSTILE, lzma.FORMAT_ALONE, filters=[{'id': lzma.FILTER_LZMA1, 'dict_size': 0x18000}])
        self.assertEqual((packed[:3], lzma.decompress(packed)), (b'\x5d\x00\x80', HOSTILE))
        self.assertEqual(names_of(self.look('model.bin', packed)), ['posix.system'])
        for text in (b'ZF means something else\n', b'\x5d\x00\x01text'):
            result = self.look('text', text)
            self.assertEqual((result.pickles, result.others, result.notes), ((), 1, ()))

    def test_one_in_another(self) -> None:
        inner = self.zipped(zipfile.ZIP_DEFLATED, data=HOSTILE)
        result = self.look('a.tar.gz', gzip.compress(self.tarred(tarfile.PAX_FORMAT, **{'in.zip': inner})))
        self.assertEqual((places_of(result), names_of(result)), (['(gzip) > in.zip > data'], ['posix.system']))

    def test_several_pickles_in_a_row(self) -> None:
        result = self.look('log.pkl', HARMLESS + HOSTILE + b'N.')
        self.assertEqual(names_of(result), ['collections.OrderedDict', 'posix.system'])
        self.assertTrue(result.pickles[0].end.is_stopped)
        self.assertEqual([(found.what, found.name, found.count, found.offset) for found in result.pickles[0].calls],
                         [('call', 'posix.system', 1, len(HARMLESS) + 23)])

    def test_counts_and_first_offsets(self) -> None:
        result = self.look('a.pkl', b'(' + b'cos\ngetcwd\n0' * 3 + b'cos\nname\n' + b'l.')
        self.assertEqual([(found.name, found.count, found.offset) for found in result.pickles[0].imports],
                         [('os.getcwd', 3, 1), ('os.name', 1, 37)])

    def test_lines_are_summed_up_by_name(self) -> None:
        content = b'(\x82\x07)R\x83\x07\x00)R\x82\x08)Rcos\na.b\n)Rcos.a\nb\n)R(ios\na.b\nl.'
        result = self.look('a.pkl', content)
        self.assertEqual([(found.name, found.count) for found in result.pickles[0].imports], [('ext 7', 2), ('ext 8', 1), ('os.a.b', 3)])
        self.assertEqual({(found.what, found.name): found.count for found in result.pickles[0].calls},
                         {('call', 'ext 7'): 2, ('call', 'ext 8'): 1, ('call', 'os.a.b'): 2, ('inst', 'os.a.b'): 1})

    def test_what_counts_as_a_pickle(self) -> None:
        for content, is_pickle in (
                (b'', False), (b'N.', True), (b'\x80\x04', True), (b'{"json": 1}', False), (b'class A:\n    pass\n', False),
                (b'count,mean\n1,2\n', False), (b'import os\nimport sys\n', False), (b'PyTorch\nmodel\n', False), (b'MIT License\n', False),
                (bytes(1000), False), (HOSTILE[:-1], True), (HOSTILE + b'rest', True), (b'N0' + HOSTILE, True), (b'].\xff\xff\xff', False),
                (pickle.dumps([1, 2], 0), True), (pickle.dumps('text', 1), True), (b'\x82\x07.', True), (b'#!/bin/sh\n', False)):
            with self.subTest(content[:20]):
                self.assertEqual(len(self.look('weights.bin', content).pickles), int(is_pickle))
                self.assertEqual(len(self.look('named.pkl', content).pickles), 1)

    def test_pickles_that_cpython_goes_on_with(self) -> None:
        # The program ends before the import in each of these, and CPython makes the call. Their name says nothing.
        frame = b'\x95' + (11).to_bytes(8, 'little') + b'N\x95' + bytes(8) + b'0'
        blanks = b'Np' + b' ' * 20_000 + b'1\n0'
        by_text = b'\x8c\x05posix\x8c\x06getcwd\x93)R.'
        for begin in (b'Np+1\n0', b'Np 1\n0', b'Np1_0\n0', b'Np1\0x\n0', blanks, frame, b'N0' * 9000 + b'Np+1\n0'):
            for end in (b'cposix\ngetcwd\n(tR.', b'(iposix\ngetcwd\n.', by_text):
                with self.subTest((begin[:20], end)):
                    self.assertEqual(pickle.loads(begin + end), os.getcwd())
                    result = self.look('model.bin', begin + end)
                    self.assertEqual(len(result.pickles), 1)
                    self.assertFalse(result.pickles[0].end.is_stopped)
        # The rest of a line is read from behind the frame, and what the frame has of it is dropped.
        content = b'\x95' + (7).to_bytes(8, 'little') + b'I a b c' + b'1\n0cposix\ngetcwd\n(tR.'
        self.assertEqual(pickle.load(io.BytesIO(content)), os.getcwd())
        self.assertEqual(len(self.look('model.bin', content).pickles), 1)
        content = b'I\x00 and so on\n0cposix\ngetcwd\n(tR.'
        self.assertEqual(pickle.loads(content), os.getcwd())
        self.assertEqual(len(self.look('model.bin', content).pickles), 1)

    def test_modules_that_are_imported_for_odd_members(self) -> None:
        """Both unpicklers import the module first, and look then for what cannot be there."""
        for content in (b'ccolorsys\n \n', b'ccolorsys\n \n\xff', b'N0ccolorsys\n\x01\n', b'(icolorsys\n \n', b'Vcolorsys\nV \n\x93.', b'ccolorsys. x\ny\n',
                        b'\x8c\x08colorsys\x8c\x03\xed\xa0\x80\x93.', b'\x8c\x08colorsysX' + (1201).to_bytes(4, 'little') + b'a' + '\xe9'.encode() * 600 + b'\x93.'):
            for load in (pickle.loads, pickle._loads):  # type: ignore[attr-defined]
                sys.modules.pop('colorsys', None)
                self.assertRaises((AttributeError, ImportError), load, content)
                self.assertIn('colorsys', sys.modules)
            for name in ('pytorch_model.bin', 'y.onnx', 'y.txt'):
                self.assertEqual(len(self.look(name, content).pickles), 1, content)
        self.assertLessEqual(getattr(sys, 'stdlib_module_names', set()), STANDARD_MODULES)
        self.assertEqual(self.look('notes', b'cword\nwords and more\n').pickles, ())

    def test_lines_as_they_may_be_spelled(self) -> None:
        """Before a call: a line of each opcode, of up to two of these letters. Each is gone over where one of Python's unpicklers goes over it."""
        letters = [bytes([code]) for code in b'10 L_-x\t\r\0.e\'"\\na\x0b\x0c\x1c\x85\xa0\xe9+i'] + ['\xa0'.encode(), '\u0661'.encode()]
        rest = b'cposix\nsystem\n(X\x04\0\0\0truetR.'
        gone_over = 0
        for begin, end in ((b'I', b'\n'), (b'L', b'\n'), (b'L', b'L\n'), (b'F', b'\n'), (b'S', b'\n'), (b"S'", b"'\n"), (b"S'", b'\n'), (b'V', b'\n'), (b'Np', b'\n'),
                           (b'Np1\n0g', b'\n'), (b'Np\xd9\xa1\n0g', b'\n'), (b'P', b'\n')):
            for count in range(3):
                for some in itertools.product(letters, repeat=count):
                    content = begin + b''.join(some) + end + b'0' + rest
                    if any('system' in asked_for(kind, content) for kind in (pickle.Unpickler, pickle._Unpickler)):  # type: ignore[attr-defined]
                        gone_over += 1
                        self.assertIsNotNone(leads_of(BytesBlob(content)).reach, content)
        self.assertGreater(gone_over, 1500)

    def test_long_lines(self) -> None:
        """Before a call: each is gone over where one of Python's unpicklers is asked for the name of the call behind it, or goes to its end."""
        lines = {'S': (b"S'", b'a', b"'\n0"), 'S"': (b'S"', b'a', b'"  \n0'), 'V': (b'V', b'a', b'\n0'), 'I': (b'I', b' ', b'1\n0'), 'L': (b'L', b' ', b'1L\n0'),
                 'F': (b'F', b'0', b'1.5\n0'), 'p': (b'Np', b' ', b'1\n0'), 'p0': (b'Np', b'0', b'1\n0'), 'g': (b'Np1\n0g', b' ', b'1\n0'),
                 'P': (b'P', b'a', b'\n0'), 'c': (b'c', b'a', b'\nb\n0'), 'c b': (b'ca\n', b'b', b'\n0'), 'i': (b'(i', b'a', b'\nb\n0'),
                 'U': (b'\x8d' + (70_000).to_bytes(8, 'little') + bytes(70_000) + b'0', b'', b'')}
        rest = b'cposix\nsystem\n(X\x04\0\0\0truetR.'
        gone_over = 0
        for name, (begin, letter, end) in lines.items():
            for count in (10, 4200, 4290, 4300, 5000, 65_520, 65_533, 65_534, 65_535, 65_536, 65_537, 70_000):
                content = begin + letter * count + end + rest
                if any('system' in asked_for(kind, content) for kind in (pickle.Unpickler, pickle._Unpickler)):  # type: ignore[attr-defined]
                    gone_over += 1
                    self.assertEqual(len(self.look('pytorch_model.bin', content).pickles), 1, (name, count))
        self.assertGreater(gone_over, 100)

    def test_names_in_latin_1(self) -> None:
        """A line of UNICODE is in Latin-1, with escapes."""
        module = types.ModuleType('mod\xe9')
        vars(module)['ma\xedn'] = os.getcwd
        for content in (b'Vmod\xe9\nVma\xedn\n\x93)R.', b'Vmod\\u00e9\nVma\xedn\n\x93)R.'):
            with unittest.mock.patch.dict(sys.modules, {module.__name__: module}):
                self.assertEqual([load(content) for load in (pickle.loads, pickle._loads)], 2 * [os.getcwd()])  # type: ignore[attr-defined]
            for name in ('x.bin', 'x.onnx', 'x.txt'):
                self.assertEqual(len(self.look(name, content).pickles), 1, content)

    def test_an_opcode_that_is_new(self) -> None:
        """A Python that knows one more: for this package it is none."""
        code = 'import pickletools, copy; new = copy.copy(pickletools.opcodes[0]); new.name, new.code = "BRAND_NEW", chr(0xf0);' \
            'pickletools.opcodes.append(new); import picklestep.scan.command, picklestep.shell.command, picklestep.view.command, picklestep.python_source'
        subprocess.run([sys.executable, '-c', code], check=True)

    def test_raw_numbers_are_no_pickles(self) -> None:
        # Numbers that begin like opcodes: an import by a number of copyreg's, an id, a frame, a text.
        chance = random.Random(33)
        for code in b'\x82\x83\x84\x95PQcgpVI\x8cN]}(':
            for _ in range(8):
                numbers = [chance.gauss(0, 0.05) for _ in range(300)]
                self.assertEqual(self.look('archive/data/0', bytes([code]) + struct.pack('<300f', *numbers)).pickles, ())

    def test_texts_are_no_pickles(self) -> None:
        for text in ('Version 1\ncat 2\ndog 3\n', 'I am a line\ncat\ndog\n', 'p 1\ng 2\nand so on\n', 'License\n=======\n', '(see below)\n',
                     "S'quoted'\ntext\n", 'float x;\n', 'configuration of it\nall\n', 'N/A,2\n', 'Persons\nsome of them\n', 'g++ -O2\n'):
            with self.subTest(text):
                self.assertEqual(self.look('notes', text.encode()).pickles, ())
        for letter in 'gpNIV':  # (of base64, a long line of which nobody is asked for a key that is there)
            self.assertEqual(self.look('notes', letter.encode() + b'AAA' * 40_000).pickles, (), letter)

    def test_where_an_opcode_is_refused(self) -> None:
        result = self.look('a.pkl', b'N0' * 1000 + b'Xabcd'.replace(b'abcd', bytes(4)) + b'0a')
        self.assertEqual((result.pickles[0].end.code, result.pickles[0].end.offset, result.pickles[0].end.item), ('S2', 2006, 2002))
        self.assertRegex(self.scan('a.pkl').stdout, '(?m)^!     end: S2 stack underflow at 2006$')

    def test_a_long_argument_hides_nothing(self) -> None:
        result = self.look('weights.bin', b'B' + (100_000).to_bytes(4, 'little') + bytes(100_000) + b'0' + HOSTILE)
        self.assertEqual(names_of(result), ['posix.system'])

    def test_objects_in_numpy_files(self) -> None:
        with open(MODELS / 'numpy_floats.npy', 'rb') as file:
            floats = file.read()
        result = self.look('a.npy', floats[:128] + HOSTILE)
        self.assertEqual(names_of(result), ['posix.system'])
        self.assertEqual(self.look('b.npy', floats).pickles, ())

    def test_items_that_numpy_takes_for_objects(self) -> None:
        # numpy 1.24 runs the pickle behind each of these headers with `allow_pickle=True` but the last, which older ones take.
        # (CPython goes on at p+1, where the program ends: nothing but the header shows that this is a pickle)
        hidden = b'Np+1\n0\x95\x00\x00' + HOSTILE
        for items in ("'O'", "'1O'", "'|O8'", "'i4,O'", "'object'", "'(2,)O'", "'O,'", "'M8[ns],O'", "[('a', '<i4'), ('b', '1O')]",
                      "[('a', [('b', 'O')])]", "[('a', 'i4,O')]", "[(('t', 'a'), 'O')]", "[('a', 'O', (2,))]", "('O', (2,))",
                      "('|V8', [('a', 'O')])"):
            with self.subTest(items):
                self.assertEqual(places_of(self.look('a.npy', numpy_file(items, hidden))), ['(objects)'])
                self.assertEqual(names_of(self.look('a.npy', numpy_file(items, HOSTILE))), ['posix.system'])
        for items in ("'<i4'", "'|b1'", "'<c16'", "'<U5'", "'|S0'", "'<M8[ns]'", "'<m8[25s]'", "'|V8'", "[('a', '<i4'), ('b', '<f8', (2, 3))]",
                      "('<i4', (2,))", "('<i4', 2)"):
            with self.subTest(items):
                self.assertEqual(self.look('a.npy', numpy_file(items, hidden)).pickles, ())

    def test_names_that_are_no_plain_words(self) -> None:
        for content, name in ((b'cos \nsystem\n.', "'os ' 'system'"), (b'c\xc3\xa9\nx\n.', '\xe9.x'), (b'\x82\x07.', 'ext 7'),
                              (b'\x80\x04cos\nx\n\x8c\x01x\x93.', "#0 'x'")):
            self.assertEqual(names_of(self.look('a.pkl', content))[-1:], [name])

    def test_results_come_back_from_json(self) -> None:
        for file in written_by():
            result = look(str(MODELS / file), Options(lines=True))
            self.assertEqual(from_json(json.loads(json.dumps(to_json(result)))), result)


class Allowing(unittest.TestCase):
    """Names and patterns."""

    def test_a_star_stays_in_its_part(self) -> None:
        allowed = Names(['torch._utils.*', 'a.**.z', '# note', '', 'os.path.join  # why'])
        for name, answer in (('torch._utils._rebuild', True), ('torch._utils.sys.modules', False), ('torch._utils', False), ('a.b.c.z', True),
                             ('os.path.join', True), ('os.path', False), ('xtorch._utils.a', False), ('torch._utils.a\nb', True), ('', False),
                             ("'torch._utils.x ' 'y'", False)):
            self.assertEqual(allowed.note(name) is not None, answer, name)

    def test_nothing_but_everything_allows_a_name_that_is_worked_out(self) -> None:
        self.assertIsNone(Names(['os.*', '*']).note("'os' #5.x"))
        self.assertIsNotNone(Names(['**']).note("'os' #5"))


class ThroughAnother(ScanCase):
    """What a module reaches that has imported it."""

    def test_a_pattern_does_not_allow_it(self) -> None:
        module = types.ModuleType('myapp')
        vars(module).update(os=os, models=module, Net=str)
        for found, name, allowing in (('myapp', 'os.getcwd', ('myapp.os.getcwd', 'myapp.os.*', '**.os.**', '**')), ('myapp.models', 'os.getcwd', ('myapp.models.os.*',)),
                                      ('myapp.models', 'Net', ('myapp.*.*', 'myapp.**', 'myapp.models.Net'))):
            data = b'\x80\x04' + b''.join(b'\x8c' + bytes([len(text)]) + text.encode() for text in (found, name)) + b'\x93)R.'
            with unittest.mock.patch.dict(sys.modules, {'myapp': module, 'myapp.models': module}):
                self.assertEqual(pickle.loads(data), '' if name == 'Net' else os.getcwd())
            named, = names_of(self.look('a.pkl', data))
            for pattern in ('myapp.**', 'myapp.*.*', 'myapp.*.*.*', '**.getcwd', *allowing):
                if Names([pattern]).note(named) is not None:
                    self.assertEqual(Judge(Names([pattern])).mark(named) is None, pattern in allowing, (named, pattern))


class Refused(ScanCase):
    """An opcode that is refused."""

    def test_its_offset(self) -> None:
        """Of few bytes it is asked in this process, and of many the program."""
        for count in (10, 200_000):
            pickle, = self.look('a.pkl', b'\x80\x02' + b'N' * count + b'a.').pickles
            self.assertEqual((pickle.end.code, pickle.end.item, pickle.end.offset), ('S5', count + 1, count + 2))


class TheCommand(ScanCase):
    """The command line, started as a user starts it."""

    def test_the_report(self) -> None:
        self.file('models/a.pkl', HOSTILE)
        self.file('models/b.txt', b'text')
        run = self.scan('models')
        self.assertEqual((run.returncode, run.stderr), (1, ''))
        self.assertEqual(run.stdout, (
            '  models/a.pkl: 25 bytes\n'
            '!     import posix.system once, first at 0: runs a shell command\n'
            "!     call posix.system once, first at 23: call 'posix' 'system' ('id') as #3\n"
            '      end: stopped\n'
            '2 files, 1 pickle in 1 of them, 1 file or member of other forms: .txt 1, 1 import to look at\n'
            '! posix.system: once, in 1 pickle, first in models/a.pkl\n'))

    def test_allowed_names(self) -> None:
        self.file('a.pkl', HARMLESS)
        self.file('b.pkl', HOSTILE)
        self.file('mine', b'posix.*\n')
        self.assertEqual(self.scan('a.pkl', '--allow', 'torch').returncode, 0)
        run = self.scan('a.pkl', 'b.pkl', '--allow', 'torch', '--brief')
        self.assertEqual(run.returncode, 1)
        self.assertEqual([line for line in run.stdout.splitlines() if line.startswith('!')],
                         ['! b.pkl: import posix.system once, first at 0: not allowed: runs a shell command',
                          "! b.pkl: call posix.system once, first at 23: call 'posix' 'system' ('id') as #3",
                          '! posix.system: once, in 1 pickle, first in b.pkl'])
        self.assertEqual(self.scan('a.pkl', 'b.pkl', '--allow', 'torch', '--allow', 'mine').returncode, 0)
        self.assertEqual(self.scan('a.pkl', '--allow', 'no_such_file').returncode, 2)

    def test_arguments_in_full(self) -> None:
        self.file('a.pkl', b'cposix\nsystem\nX' + (70).to_bytes(4, 'little') + b'a' * 70 + b'\x85R.')
        cut, full = self.scan('a.pkl', '--brief').stdout, self.scan('a.pkl', '--brief', '--full').stdout
        self.assertIn(f"call 'posix' 'system' ('{'a' * 64}'+6) as #3\n", cut)
        self.assertIn(f"call 'posix' 'system' ('{'a' * 70}') as #3\n", full)

    def test_a_pickle_without_stop(self) -> None:
        self.file('a.pkl', HARMLESS[:-1])
        run = self.scan('a.pkl')
        self.assertEqual(run.returncode, 1)
        self.assertRegex(run.stdout, r'(?m)^!     end: F1 ended at 27$')

    def test_json_and_its_page(self) -> None:
        for file in ('torch_state.pt', 'joblib_arrays.joblib'):
            self.file(file, (MODELS / file).read_bytes())
        run = self.scan('.', '--json', '--allow', 'torch')
        objects = [json.loads(line) for line in run.stdout.splitlines()]
        self.assertEqual(len(objects), 2)
        self.assertEqual({found['name']: found['allowed'] for found in objects[1]['pickles'][0]['imports']}, {
            'collections.OrderedDict': True, 'torch._utils._rebuild_tensor_v2': True, 'torch.FloatStorage': True, 'torch.LongStorage': True})
        self.assertRegex(run.stderr, '^2 files, 2 pickles in 2 of them')

    def test_names_on_standard_input(self) -> None:
        self.file('a.pkl', HARMLESS)
        self.file('b\n.pkl', HOSTILE)
        self.assertIn('collections.OrderedDict', self.scan('-', given=b'a.pkl\n').stdout)
        run = self.scan('-', '--null', given=b'a.pkl\0b\n.pkl\0')
        self.assertIn('  b\\n.pkl: 25 bytes\n', run.stdout)
        self.assertIn('2 files', run.stdout)
        run = self.scan('-', given=b'a.pkl\0b\n.pkl\0')
        self.assertEqual((run.returncode, run.stdout), (2, ''))
        self.assertRegex(run.stderr, '^picklestep: standard input has a NUL byte[^\n]*: --null is for names that end in one\n$')

    def test_paths_between_options(self) -> None:
        self.file('a.pkl', HARMLESS)
        self.file('b.pkl', HOSTILE)
        self.assertIn('2 files', self.scan('a.pkl', '--brief', 'b.pkl').stdout)
        self.assertEqual(self.scan('--brief').returncode, 2)

    def test_no_program(self) -> None:
        self.file('a.pkl', HARMLESS)
        before = os.environ.get('PICKLESTEP_PROGRAM')
        os.environ['PICKLESTEP_PROGRAM'] = '/nonexistent'
        try:
            run = self.scan('a.pkl')
        finally:
            del os.environ['PICKLESTEP_PROGRAM']
            if before is not None:
                os.environ['PICKLESTEP_PROGRAM'] = before
        self.assertEqual(run.returncode, 3)
        self.assertIn('cannot start the program', run.stdout)

    def test_limits_are_told(self) -> None:
        self.file('a.pkl.gz', gzip.compress(HARMLESS * 1000))
        run = self.scan('a.pkl.gz', '--max-bytes', '1K')
        self.assertEqual(run.returncode, 3)
        self.assertIn('more than 1,024 bytes are unpacked', run.stdout)

    def test_a_file_whose_name_begins_like_a_url(self) -> None:
        names = ['http::evil.pkl', 'simplecache::x.pkl', 'a:b', 'file:/x.pkl', 's3:/bucket/model.pkl']
        for name in names:
            self.file(name, HOSTILE)
        self.assertTrue((self.folder / 's3:' / 'bucket' / 'model.pkl').exists())
        run = self.scan(*names, 's3://bucket/model.pkl', 's3://')
        self.assertEqual(run.returncode, 1)
        self.assertIn('7 files, 7 pickles in 7 of them', run.stdout)
        self.assertRegex(self.scan('s3://bucket/none.pkl').stdout, '^! s3://bucket/none.pkl: cannot be read: ')

    def test_urls(self) -> None:
        try:
            import fsspec  # noqa: F401
        except ImportError:
            self.skipTest('fsspec is not installed')
        path = self.file('model.pt', (MODELS / 'torch_state.pt').read_bytes())
        run = self.scan(f'file://{path}', f'file://{self.folder}/no_such.pt')
        self.assertEqual(run.returncode, 3)
        self.assertIn('import torch._utils._rebuild_tensor_v2', run.stdout)
        self.assertRegex(run.stdout, r'(?m)^! file://.*no_such.pt: cannot be read: ')


def load_tests(loader: unittest.TestLoader, tests: unittest.TestSuite, pattern: str) -> unittest.TestSuite:
    """The examples in the modules count too."""
    for module in pkgutil.walk_packages(picklestep.scan.__path__, 'picklestep.scan.'):
        tests.addTests(doctest.DocTestSuite(importlib.import_module(module.name)))
    return tests


if __name__ == '__main__':
    unittest.main()
