"""`gate`, and `check` on top of it: what passes, what does not and why, and that the honest files of each set pass."""

from __future__ import annotations

import collections
import fractions
import functools
import gzip
import io
import itertools
import json
import pickle
import random
import struct
import subprocess
import sys
import tarfile
import tempfile
import unittest
import unittest.mock
import zipfile
import zlib
from pathlib import Path
from typing import Any, Dict, Iterator, List, Optional, Sequence, Tuple

import picklestep
import test_shapes
from evasions import framed, short, wrapper
from picklestep import library
from picklestep.short_records import GateAnswer
from picklestep.verdicts import gate_answer
from picklestep.scan import Judge, passing
from picklestep.scan.allow import read_lines
from picklestep.scan.blobs import Blob, Budget, PartMet
from picklestep.scan.names import Names, NoList
from pickles import real_pickles
from real_files import KEPT
from scan_support import HARMLESS, HOSTILE, MODELS, ScanCase, environment, looks_at
from test_sets import LIBRARIES, SCRIPT, set_for, write_files

ORDERED = pickle.dumps(collections.OrderedDict(a=1), 4)
NAME = 'collections.OrderedDict'


def text(value: str) -> bytes:
    return b'X' + struct.pack('<I', len(value)) + value.encode()


# A pickle that a pickler of protocol 2 writes: a call with two texts, which keeps each object in the memo.
CALL = b'\x80\x02c_codecs\nencode\nq\x00' + text('a') + b'q\x01' + text('%s') + b'q\x02\x86q\x03Rq\x04.'


class Called:
    """What a pickler writes as a call, of what and with which arguments."""

    def __init__(self, *reduced: object) -> None:
        self.reduced = reduced

    def __reduce__(self) -> Tuple[Any, ...]:
        return self.reduced


class Filled(List[int]):
    """What gets items, and then a state."""

    def __init__(self, *items: int) -> None:
        super().__init__(items)
        self.first: Tuple[object, ...] = items[:1]


# Arguments, each with some words that take it; and words for any.
GIVEN: Tuple[Tuple[object, str], ...] = (
    ('', 'text short any'), ('a', "text short any 'a'"), ('latin1', "text 'latin1' short"), ('x' * 65, 'text any'), ('3/4', 'fraction text'), ('-12', 'fraction text'),
    ('1/2/3', 'text'), ('1/', 'text'), (b'', 'bytes'), (b'ab', 'bytes short any'), (b'y' * 65, 'bytes'), (0, 'number small 0 any'), (3, 'number small 3'),
    (-5, 'number small -5'), (999999, 'small'), (-999999, 'small'), (1000000, 'number'), (2 ** 31, 'number'), (2 ** 70, 'number'), (1.5, 'number any'), (True, 'bool number'),
    (False, 'bool'), (None, 'none any'), ([], 'held any listed'), ([1], 'held listed'), ((), 'held'), ((1, 2), 'held any listed'), ({}, 'listed held'), (collections.OrderedDict, f'class any {NAME}'),
    (fractions.Fraction, 'class fractions.Fraction any'), (range(5), 'any held'), (collections.OrderedDict(), 'held any'))
WORDS = ('text', 'short', 'fraction', 'bytes', 'number', 'small', 'bool', 'none', 'held', 'listed', 'class', 'any', "'a'", "'latin1'", '0', '3', '-5', NAME, 'fractions.Fraction')


def archive(members: Dict[str, bytes], method: int = zipfile.ZIP_STORED) -> bytes:
    out = io.BytesIO()
    with zipfile.ZipFile(out, 'w', method) as made:
        for name, content in members.items():
            made.writestr(name, content)
    return out.getvalue()


def encoding(name: str) -> bytes:
    return CALL.replace(text('%s'), text(name))


class Answers(unittest.TestCase):
    """What the gate says."""

    def test_what_passes(self) -> None:
        for content in (b'N.', pickle.dumps([1, {'a': (2.5, b'x')}]), pickle.dumps({1, 2})):
            answer = picklestep.gate(content)
            self.assertEqual(answer, GateAnswer(True, 'passes', 'passes'))
            self.assertTrue(answer)

    def test_what_is_not_allowed(self) -> None:
        answer = picklestep.gate(pickle.dumps(len, 2), names=['builtins.max'])
        self.assertFalse(answer)
        self.assertEqual((answer.kind, answer.offset, answer.reason), ('not allowed', 2, "import 'builtins' 'len' for '__builtin__' 'len' as #0"))
        self.assertEqual(answer.line, f'2: not allowed: {answer.reason}')

    def test_another_form(self) -> None:
        for content, offset, reason in ((b'J\x01\0\0\0.', 0, 'a number that has a shorter form'), (b'N.N', 2, 'bytes behind STOP'), (b'N', 1, 'no opcode can be read')):
            answer = picklestep.gate(content, names=['**'])
            self.assertEqual((bool(answer), answer.kind, answer.offset, answer.reason), (False, 'other form', offset, reason))

    def test_lines(self) -> None:
        begin = b'{"kind":"verdict","how":'
        answer = gate_answer(begin + b'"refused","code":"S3","words":"no memo entry","memo":7,"item":2}\n', lambda: 'refused: S3 no memo entry 7')
        self.assertEqual((answer.passes, answer.kind, answer.reason, answer.offset), (False, 'ended', 'S3 no memo entry 7', None))
        self.assertEqual(answer.line, f'refused: {answer.reason}')
        self.assertEqual(gate_answer(begin + b'"fault","code":"F1","words":"ended","offset":3,"of_frame":false,"text":""}\n', str).offset, 3)
        for line in (b'', b'passes', begin + b'"passes"}', begin):
            with self.assertRaises(picklestep.ProgramError):
                gate_answer(line, str)

    def test_long_names(self) -> None:
        """The line for people is too long for that of JSON."""
        answer = picklestep.gate(b'\x80\x02c' + b'm' * 5000 + b'\nf\nq\0.')
        self.assertEqual((answer.kind, answer.offset, answer.line), ('not allowed', 2, f'2: not allowed: {answer.reason}'))
        self.assertGreater(len(answer.line), 5000)

    def test_uses(self) -> None:
        for line, passes in ((NAME, True), (f'{NAME}: call', True), (f'{NAME}: call made-fill', True), (f'{NAME}: call made-fill made-state  # why', True),
                             ('collections.*', True), ('*.*', True), ('**', True), ('coll**: call', True), (f'{NAME}:', False), (f'{NAME}: new', False),
                             (f'{NAME}: call made', False), (f'{NAME}: call made-call', False), (f'{NAME}: fill', False), ('*', False), ('collections.O*t*: state', False)):
            with self.subTest(line):
                self.assertEqual(bool(picklestep.gate(ORDERED, names=[line])), passes)

    def test_lines_of_one_name_grant_together(self) -> None:
        self.assertTrue(picklestep.gate(ORDERED, names=[f'{NAME}: call made', 'collections.*: made-fill']))
        self.assertFalse(picklestep.gate(ORDERED, names=[f'{NAME}: call made', 'collections.*: made-state']))

    def test_other_words(self) -> None:
        for content, name in ((b'\x80\x02K\x07Q.', 'persistent'), (b'\x80\x05\x97.', 'buffer'), (b'\x80\x02\x82\x07.', 'ext 7'), (b'\x80\x02\x82\x07.', 'ext *')):
            with self.subTest(name):
                self.assertTrue(picklestep.gate(content, names=[name]))
                self.assertFalse(picklestep.gate(content, names=['*.*', 'ext 8']))

    def test_shapes(self) -> None:
        self.assertTrue(picklestep.gate(encoding('latin1'), allow=['plain']))
        answer = picklestep.gate(encoding('punycode'), allow=['plain'])
        self.assertEqual((answer.passes, answer.kind, answer.offset), (False, 'not allowed', encoding('punycode').index(b'R')))
        self.assertIn("('a', 'punycode')", answer.line)
        self.assertTrue(picklestep.gate(encoding('punycode'), names=['_codecs.encode: call']))

    def test_what_no_pickler_writes_does_not_pass(self) -> None:
        """With the set that allows its name. `alone` is the same as `held` here, so an index may be made over a range."""
        passed = [name for name, word, made in test_shapes.HOSTILE if picklestep.gate(b'\x80\x02' + made + b'.', allow=[word])]
        self.assertEqual(passed, ['an index over a range'])

    def test_what_picklers_write_passes(self) -> None:
        for value, protocol in itertools.product(test_shapes.HONEST, range(6)):
            content = pickle._dumps(value, protocol)  # type: ignore[attr-defined]
            if picklestep.form(content) is None:
                answer = picklestep.gate(content, allow=['plain'], names=['test_shapes.*: call'])
                self.assertTrue(answer, (value, protocol, answer.line))

    def test_an_object_gets_its_state_last(self) -> None:
        """What is only imported is not called by what an unpickler looks up of an object that has it in its state."""
        job, loads, dictionary = b'\x80\x02capp\nJob\n)\x81', b'cjson\nloads\n', b'ccollections\nOrderedDict\n)R'
        names = ['app.Job: new made-new made-state made-fill', 'json.loads:', f'{NAME}: call made-fill']
        for what, content in (('state', b'N}' + text('__setstate__') + loads + b's\x86b' + text('1') + b'b'),
                              ('state', b'N}' + text('__dict__') + b'}' + text('__setstate__') + loads + b'ss\x86b' + text('1') + b'b'),
                              ('state', b'N}' + text('__class__') + loads + b's\x86b}b'), ('state', dictionary + text('__setstate__') + loads + b'sb' + text('1') + b'b'),
                              ('append', b'}' + text('append') + loads + b'sb' + text('1') + b'a'), ('append', b'}' + text('extend') + loads + b'sb(' + text('1') * 2 + b'e'),
                              ('new', b'}' + text('__new__') + loads + b'sb)\x81')):
            with self.subTest(content):
                answer = picklestep.gate(job + content + b'.', names=names)
                self.assertEqual((answer.kind, answer.offset, answer.reason.partition(' ')[0]), ('not allowed', len(job + content) - 1, what))
                self.assertFalse(picklestep.gate(job + content + b'.', names=['**']))
                self.assertTrue(picklestep.gate(job + content[:content.rindex(b'b', 0, -1) + 1] + b'.', names=names))

    def test_picklers_write_a_state_last(self) -> None:
        values: List[object] = [Filled(1, 2), [Filled(3), Filled(4)], Filled(), functools.partial(int, '1'), ValueError(Filled(5)), collections.ChainMap({1: Filled(6)})]
        values.append([Filled(7), values])
        for value, protocol in itertools.product(values, range(6)):
            content = pickle._dumps(value, protocol)  # type: ignore[attr-defined]
            self.assertIsNone(picklestep.form(content))
            self.assertTrue(picklestep.gate(content, names=['**']), (value, protocol))

    def test_a_class_needs_a_word_through_copyreg(self) -> None:
        """The set `plain` makes objects of no class that a list only imports, or of which it limits the arguments."""
        content = pickle.dumps(test_shapes.Kind([1]), 0)
        for line, passes in (('test_shapes.Kind: new', True), ('test_shapes.Kind: call', True), ('test_shapes.Kind:', False), ('test_shapes.Kind: call(held)', False),
                             ('test_shapes.Kind: state fill', False)):
            with self.subTest(line):
                self.assertEqual(bool(picklestep.gate(content, allow=['plain'], names=[line])), passes)

    def test_what_shapes_take(self) -> None:
        """Random arguments, by words that take them and by others beside these."""
        chance = random.Random(77)
        for _ in range(300):
            given = [chance.choice(GIVEN) for _ in range(chance.choice((0, 1, 1, 2, 3)))]
            words = [chance.choice(kinds.split()) for _, kinds in given]
            shape = ' '.join(word if chance.random() < 0.8 else f'{word}|{chance.choice(WORDS)}' for word in words)
            protocol = chance.choice((0, 1, 2, 3, 4, 4))
            content = pickle.dumps(Called(collections.Counter, tuple(value for value, _ in given)), protocol)
            lines = ['**: state fill', 'builtins.range: call', f'{NAME}: call', '_codecs.encode: call', 'builtins.bytes: call']
            passes = [bool(picklestep.gate(content, names=[*lines, f'collections.Counter: call({each})'])) for each in (shape, f'{shape} none', 'none ' * 4)]
            made = any(isinstance(value, (range, collections.OrderedDict)) or isinstance(value, bytes) and protocol < 3 for value, _ in given)
            self.assertEqual(passes, [passes[0] if made else True, False, False], (shape, given, protocol))

    def test_names_in_quotes_allow_nothing(self) -> None:
        content = b'\x80\x02cos \nx\nq\x00.'
        self.assertFalse(picklestep.gate(content, names=["'os ' 'x'", "'os' #*", "'**"]))

    def test_sets(self) -> None:
        content = (MODELS / 'numpy_values_4.pkl').read_bytes()
        for word in ('numpy', 'sklearn'):
            self.assertTrue(picklestep.gate(content, allow=[word]), word)
            self.assertTrue(picklestep.gate(content, allow=word), word)
        self.assertFalse(picklestep.gate(content, allow=['plain']))

    def test_what_raises(self) -> None:
        for lines in (['import numpy'], ['include numpy'], [f'{NAME}: everything']):
            with self.assertRaises(NoList):
                picklestep.gate(b'N.', names=lines)
        with self.assertRaises(FileNotFoundError):
            picklestep.gate(b'N.', allow=['no_such_set'])
        with self.assertRaises(FileNotFoundError):
            picklestep.gate('/not/there')
        with self.assertRaises(ValueError):
            picklestep.gate(b'N.', timeout=-1)

    def test_sources(self) -> None:
        for source in (bytearray(ORDERED), memoryview(ORDERED), io.BytesIO(ORDERED)):
            self.assertTrue(picklestep.gate(source, names=[NAME]))

    def test_the_program_says_the_same(self) -> None:
        """Of what is small the library is asked, of all else the program."""
        contents = [*itertools.islice(real_pickles().values(), 0, None, 9), ORDERED, HOSTILE, b'', b'N']
        for content in contents:
            for lines in ([], ['**'], ['*.*: call made', 'collections.*']):
                with self.subTest(content[:40], lines=lines):
                    here = picklestep.gate(content, names=lines)
                    self.assertEqual(picklestep.gate(content, names=lines, timeout=600), here)

    def test_large(self) -> None:
        values = [collections.OrderedDict(a=number) for number in range(9000)]
        content = pickle.dumps(values)
        self.assertGreater(len(content), library.MOST_BYTES)
        self.assertTrue(picklestep.gate(content, names=[f'{NAME}: call made-fill']))
        self.assertEqual(picklestep.gate(content, names=[f'{NAME}: call made']).kind, 'not allowed')

    def test_a_list_that_the_program_does_not_take(self) -> None:
        with unittest.mock.patch('picklestep.scan.names.Names.entries', return_value=['no entry']), self.assertRaises(picklestep.ProgramError):
            picklestep.gate(b'N.', names=[NAME])


class Archives(ScanCase):
    """What the gate says of zip archives."""

    def test_each_member_is_looked_at(self) -> None:
        path = self.file('a.zip', archive({'a.pkl': ORDERED, 'b': bytes(8), 'it\'s/\xe9': HOSTILE}))
        answer = picklestep.gate(path, names=[NAME])
        self.assertEqual((answer.passes, answer.kind, answer.member, answer.offset), (False, 'not allowed', 'it\'s/\xe9', 0))
        self.assertEqual(answer.line, f"'it\\'s/\\xc3\\xa9': {picklestep.gate(HOSTILE, names=[NAME]).line}")
        self.assertTrue(picklestep.gate(path, names=[NAME, 'posix.system']))
        self.assertEqual(picklestep.gate(path.read_bytes(), names=[NAME]), answer)
        self.assertEqual(picklestep.gate(path, names=[NAME], timeout=600), answer)
        self.assertTrue(picklestep.gate(f'{path} > a.pkl', names=[NAME]))

    def test_what_does_not_pass(self) -> None:
        deep = archive({'a.zip': archive({'a.pkl': b'N.'})})
        for content, kind, member, offset, reason in (
            (archive({'a': b'J\x01\0\0\0' + HOSTILE}, zipfile.ZIP_DEFLATED), 'other form', 'a', 0, 'a number that has a shorter form'),
            (archive({'a': b'N.'}).replace(zlib.crc32(b'N.').to_bytes(4, 'little'), b'1234'), 'broken', 'a', None, 'another checksum than is told'),
            (archive({'a': b'N.'}, zipfile.ZIP_DEFLATED).replace(b'\2\0\0\0\1', b'\3\0\0\0\1'), 'broken', 'a', None, 'fewer bytes than are told'),
            (archive({'a': b'N.', 'A': b'N.'}), 'not looked at', None, None, 'two names that differ in case alone'),
            (archive({'a': b'N.'}, zipfile.ZIP_DEFLATED).replace(b'\2\0\0\0\1', b'\2\0\0\x70\1'), 'not looked at', None, None,
             f'it unpacks to more than {1 << 30} bytes'),
            (deep, 'an archive', 'a.zip', None, 'it is not looked at'),
            (archive({'a': b'N.'}) + b'\n', 'other form', None, 81, 'no end record without a comment at the very end'),
            (archive({'a': b'J\x01\0\0\0' + HOSTILE}), 'other form', 'a', 0, 'a number that has a shorter form'),
        ):
            answer = picklestep.gate(content, names=['**'])
            self.assertEqual((answer.passes, answer.kind, answer.member, answer.offset, answer.reason), (False, kind, member, offset, reason))

    def test_a_name_that_a_loader_answers(self) -> None:
        """torch's `find_class` has an answer for the name of a storage, whatever its module is called: this loader goes on where CPython's end."""
        asked: List[str] = []

        class Loader(pickle.Unpickler):
            def find_class(self, module: str, name: str) -> Any:
                if type(name) is str and 'Storage' in name:
                    try:
                        return {'FloatStorage': float, 'LongStorage': int}[name]
                    except KeyError:
                        pass
                asked.append(f'{module}.{name}')
                return str if module == 'posix' else super().find_class(module, name)

        for begin in (b'c a\nFloatStorage\n0', b'c1,2\nLongStorage\n0', b'U\x02 aU\x0cFloatStorage\x930'):
            with self.subTest(begin):
                asked.clear()
                content = begin + HOSTILE
                Loader(io.BytesIO(content)).load()
                self.assertEqual(asked, ['posix.system'])
                self.assertTrue(picklestep.reach(content))
                answer = picklestep.gate(archive({'a/data.pkl': content}), allow=['torch'])
                self.assertEqual((answer.passes, answer.member, answer.kind), (False, 'a/data.pkl', 'other form'), answer.line)
        asked.clear()
        with self.assertRaises(ImportError):  # (a name that torch does not know is imported, and no module has this one)
            Loader(io.BytesIO(b'c a\nNoStorage\n0' + HOSTILE)).load()
        self.assertEqual(asked, [' a.NoStorage'])

    def test_arrays(self) -> None:
        """numpy loads a pickle behind the header of an array of objects."""
        try:
            import numpy
        except ImportError:
            self.skipTest('numpy is not there')
        for values, passes in ((numpy.arange(9.0), True), (numpy.zeros((3, 3)), True), (numpy.array([Called(print, (1,))]), False)):
            path = self.folder / 'a.npz'
            numpy.savez(path, a=values)
            answer = picklestep.gate(path, allow=['numpy'])
            self.assertEqual((answer.passes, answer.member), (passes, None if passes else 'a.npy'), answer.line)
            numpy.savez_compressed(path, a=values)
            self.assertEqual(picklestep.gate(path, allow=['numpy']), answer)


class PackedFiles(ScanCase):
    """What the gate says of files that gzip or zlib packed, and of arrays of numpy."""

    def test_what_they_open_to_is_looked_at(self) -> None:
        path = self.folder / 'a.pkl.gz'
        with gzip.open(path, 'wb') as file:  # (its header has the name of the file)
            file.write(ORDERED)
        self.assertEqual(path.read_bytes()[3], 8)
        for content in (path.read_bytes(), *(gzip.compress(ORDERED, level) for level in range(10)), *(zlib.compress(ORDERED, level) for level in range(10))):
            path.write_bytes(content)
            self.assertTrue(picklestep.gate(path, names=[NAME]))
            answer = picklestep.gate(path, names=[f'{NAME}:'])
            self.assertEqual((answer.kind, answer.member, answer.offset), ('not allowed', '(gzip)' if content[0] == 31 else '(zlib)', 42))
            self.assertTrue(picklestep.gate(content, names=[NAME]))

    def test_what_does_not_pass(self) -> None:
        deep, packed = gzip.compress(archive({'a.pkl': b'N.'})), gzip.compress(b'N.')
        for content, kind, member, offset, reason in (
            (deep, 'a container', '(gzip)', None, 'it is not looked at'),
            (packed * 2, 'other form', None, 22, 'bytes behind the end of the stream'),
            (packed + bytes(4), 'other form', None, 22, 'bytes behind the end of the stream'),
            (packed[:-1], 'other form', None, 21, 'the end of a packed file is cut'),
            (packed[:-1] + b'\1', 'other form', None, 18, 'another size than is told'),
            (packed[:3] + b'\4' + packed[4:], 'other form', None, 3, 'a header with more than a name'),
            (b'\x78\x9c' + b'\x07' + bytes(5), 'other form', None, 2, 'no block'),
        ):
            answer = picklestep.gate(content, names=['**'])
            self.assertEqual((answer.passes, answer.kind, answer.member, answer.offset, answer.reason), (False, kind, member, offset, reason))

    def test_mutants_open_to_no_other_bytes(self) -> None:
        """Where a changed file passes, zlib and gzip make of it what the gate looked at."""
        chosen = random.Random(79)
        honest = [pack(pickle.dumps('a' * chosen.randrange(60), 4)) for pack in (gzip.compress, zlib.compress) for _ in range(20)]
        passed = 0
        for _ in range(200):
            content = bytearray(chosen.choice(honest))
            for _ in range(chosen.randrange(3)):
                content[chosen.randrange(len(content))] ^= 1 << chosen.randrange(8)
            made = unpacked(bytes(content))
            answer = picklestep.gate(bytes(content), names=['**'])
            passed += answer.passes
            if answer.passes:
                self.assertIsNotNone(made, content)
                self.assertTrue(picklestep.gate(made or b'', names=['**']))
        self.assertGreater(passed, 20)

    def test_arrays(self) -> None:
        try:
            import numpy
        except ImportError:
            self.skipTest('numpy is not there')
        kinds = ('?', 'i1', 'u2', '>i4', 'f2', 'f8', 'c16', 'S3', 'U5', 'V4', 'M8[ns]', 'm8[s]', 'M8')
        for values in (*(numpy.zeros(shape, kind) for kind in kinds for shape in ((), (0,), (3,), (2, 1, 3))), numpy.asfortranarray(numpy.ones((3, 2)))):
            path = self.folder / 'a.npy'
            numpy.save(path, values)
            self.assertTrue(picklestep.gate(path), (values.dtype, values.shape))
            self.assertTrue(picklestep.gate(gzip.compress(path.read_bytes())))
            self.assertFalse(picklestep.gate(path.read_bytes() + b'N'))
        numpy.save(path, numpy.array([Called(print, (1,)), None]), allow_pickle=True)
        answer = picklestep.gate(path, allow=['numpy'])
        self.assertEqual((answer.passes, answer.kind, answer.is_behind_header), (False, 'not allowed', True))
        self.assertTrue(picklestep.gate(path, allow=['numpy'], names=['builtins.print']))


def unpacked(content: bytes) -> Optional[bytes]:
    """What Python's libraries make of a packed file; None where they refuse it."""
    try:
        return gzip.decompress(content) if content[0] == 31 else zlib.decompress(content)
    except (OSError, EOFError, zlib.error):
        return None


class TheWord(ScanCase):
    """The command."""

    def test_its_line_is_that_of_the_answer(self) -> None:
        self.file('pickle', ORDERED)
        for line, status in ((f'{NAME}: call', 0), (f'{NAME}:', 1)):
            self.file('list', line.encode())
            words = [sys.executable, '-m', 'picklestep', 'gate', 'list', 'pickle']
            run = subprocess.run(words, cwd=self.folder, env=environment(), capture_output=True, text=True, timeout=300, check=False)
            self.assertEqual((run.returncode, run.stdout, run.stderr), (status, f'{picklestep.gate(ORDERED, names=[line]).line}\n', ''))


class Checked(ScanCase):
    """`check` where the gate has to be passed."""

    def refused(self, content: bytes, **words: Any) -> List[str]:
        with self.assertRaises(picklestep.NotAllowed) as caught:
            picklestep.check(content, **words)
        return list(caught.exception.lines)

    def test_it_passes_only_what_the_gate_does(self) -> None:
        answer = GateAnswer(False, '7: not allowed: state #3 to #2', 'not allowed', 'state #3 to #2', 7)
        for loader in (None, 'pickle', 'torch', 'joblib', 'numpy', 'pandas'):
            self.assertEqual(picklestep.check(ORDERED, names=[NAME], loader=loader), ORDERED)
            with unittest.mock.patch.object(passing, '_ask', return_value=answer):
                self.assertEqual(self.refused(ORDERED, names=[NAME], loader=loader), [f'pickle: state {NAME}, first at 7: state #3 to #2'])
            with unittest.mock.patch.object(passing, '_refused', return_value=iter(())), unittest.mock.patch.object(passing, '_ask', return_value=answer):
                self.assertEqual(self.refused(ORDERED, names=[NAME], loader=loader), ['pickle: no list lets it pass: 7: not allowed: state #3 to #2'])
        for error, said in ((PartMet('it takes too long'), 'it takes too long'), (picklestep.ProgramError('no answer'), 'no answer')):
            with unittest.mock.patch.object(passing, '_ask', side_effect=error):
                self.assertEqual(self.refused(ORDERED, names=[NAME]), [f'pickle: whether it passes a list is not known: {said}'])

    def test_without_a_list_nothing_is_asked(self) -> None:
        with unittest.mock.patch.object(passing, '_ask', side_effect=AssertionError):
            self.assertEqual(picklestep.check(ORDERED), ORDERED)

    def test_an_empty_list_allows_no_name(self) -> None:
        for words in ({'allow': []}, {'names': ()}, {'allow': iter(()), 'names': None}):
            for content in (ORDERED, b'cmyapp\nf\n.'):
                self.assertTrue(self.refused(content, **words))
            self.assertEqual(picklestep.check(b']K\x01a.', **words), b']K\x01a.')  # type: ignore[arg-type]
        self.assertEqual(picklestep.check(b'cmyapp\nf\n.'), b'cmyapp\nf\n.')

    def test_what_a_call_made(self) -> None:
        self.assertEqual(self.refused(ORDERED, names=[f'{NAME}: call made'])[0].partition(' once')[0], f'pickle: made-fill {NAME}')
        self.assertEqual(picklestep.check(ORDERED, names=[f'{NAME}: call made-fill']), ORDERED)

    def test_pickles_in_a_row(self) -> None:
        row = ORDERED * 3
        for loader in (None, 'pickle'):
            self.assertEqual(picklestep.check(row, names=[NAME], loader=loader), row)
        self.assertEqual(self.refused(row, names=[f'{NAME}: call made']), [f'pickle: made-fill {NAME} 3 times, first at 50: set 1 in #4'])
        other = pickle.dumps(collections.OrderedDict(), 4)
        self.assertEqual(self.refused(other * 2 + ORDERED + other, names=[f'{NAME}: call made']), [f'pickle: made-fill {NAME} once, first at {2 * len(other) + 50}: set 1 in #14'])
        self.assertEqual(self.refused(other * 2 + HOSTILE + ORDERED, names=[NAME])[0], f'pickle: import posix.system once, first at {2 * len(other)}: not allowed: runs a shell command')

    def test_a_long_row(self) -> None:
        large = pickle.dumps([collections.OrderedDict(a=number) for number in range(9000)])
        row = ORDERED + large + ORDERED * 50 + large
        asked: List[bytes] = []

        ask = passing._ask

        def asking(entries: bytes, blob: Blob, budget: Budget) -> GateAnswer:
            asked.append(blob.read(0, blob.size))
            return ask(entries, blob, budget)
        with unittest.mock.patch.object(passing, '_ask', side_effect=asking):
            picklestep.check(row, names=[NAME])
        self.assertEqual(asked, [row, ORDERED, large, *[ORDERED] * 50, large])

    def test_what_other_loaders_give_meaning_to(self) -> None:
        """A persistent id: `pickle.loads` raises there, and others load it."""
        content = b'\x80\x02K\x07Q.'
        self.assertEqual(self.refused(content, names=[NAME], loader='pickle'), ['pickle: persistent id once, first at 4: persistent int 7 as #1'])
        for words in ({'names': [NAME], 'loader': 'torch'}, {'names': [NAME]}, {'names': ['persistent'], 'loader': 'pickle'}):
            self.assertEqual(picklestep.check(content, **words), content)  # type: ignore[arg-type]

    def test_another_form_is_fit_for_other_loaders(self) -> None:
        """An array of joblib: what `joblib.load` reads is no single pickle."""
        content = self.kept('joblib', 'array.joblib')
        self.assertEqual(picklestep.check(content, allow=['joblib'], loader='joblib'), content)
        self.assertIn('not in the form that picklers write', self.refused(content, allow=['joblib'], loader='pickle')[-1])

    def kept(self, library_name: str, file: str) -> bytes:
        return dict(kept_files(library_name))[file]

    def test_what_is_refused_is_said_once(self) -> None:
        self.assertEqual(len(self.refused(HARMLESS, names=['a.b'])), 1)


class Scanned(ScanCase):
    """`scan --allow` asks the gate about each pickle."""

    MADE = f'{NAME}: call made'

    def texts(self, path: Path, *lines: str) -> List[str]:
        return [each.text for each in looks_at(Judge(Names(lines)), path)]

    def test_a_value_of_a_store(self) -> None:
        path = self.table_with(ORDERED)
        self.assertEqual(self.texts(path, NAME), [])
        self.assertEqual(self.texts(path, self.MADE), [f'made-fill {NAME} once, first at 50: set 1 in #4'])

    def test_opcodes_around_arrays_have_the_places_of_the_file(self) -> None:
        array = wrapper(b'u1', 5)[2:]
        content = framed(b'\x80\x04', b'](' + array) + b'.\x80\x04N.' + framed(b'', short(b'collections') + short(b'OrderedDict') + b'\x93)RNNse.')
        names = read_lines(['joblib'])
        path = self.file('model.joblib', content)
        self.assertEqual(self.texts(path, *names), [])
        place = content.rindex(b'se.')
        more = [line for line in names if not line.startswith(NAME)]
        self.assertEqual([text.partition(':')[0] for text in self.texts(path, *more, self.MADE)], [f'made-fill {NAME} once, first at {place}'])
        with self.assertRaisesRegex(picklestep.NotAllowed, 'bytes of arrays stand between its opcodes'):
            picklestep.check(path, allow=['joblib'], loader='pickle')

    def test_an_instance_of_python_2_passes_no_list(self) -> None:
        path = self.file('a.pkl', b'(iapp\nJob\np0\n(dp1\nb.')
        self.assertIsNone(picklestep.form(path))
        self.assertFalse(picklestep.gate(path, names=['**']))
        for line in ('app.Job', 'app.Job: call', 'app.Job: call(text)', '**'):
            self.assertEqual(self.texts(path, line), ["inst app.Job once, first at 1: inst 'app' 'Job' () as #0"], line)
        with self.assertRaisesRegex(picklestep.NotAllowed, "inst 'app' 'Job'"):
            picklestep.check(path, names=['app.Job'])

    def test_each_place_is_told(self) -> None:
        """Beside imports a place for each name and use, up to twenty."""
        content = b'\x80\x02(' + b''.join(b'capp\nJob%d\n)R' % number for number in range(30)) + b't.'
        path = self.file('a.pkl', content)
        self.assertEqual([text.partition(':')[0] for text in self.texts(path, 'app.*:')][:2],
                         ['call app.Job0 once, first at 14', 'call app.Job1 once, first at 26'])
        self.assertEqual([len(self.texts(path, line)) for line in ('app.*:', 'app.*: call', 'app.Job1: call')], [20, 0, 29])

    def test_a_list_that_lacks_very_many_names(self) -> None:
        path = self.file('a.pkl', b'\x80\x02(' + b''.join(b'capp\nJob%d\n' % number for number in range(1100)) + b'ccollections\nOrderedDict\n)Rt.')
        self.assertEqual(len(self.texts(path, f'{NAME}:')), 1100)

    def test_an_earlier_run_with_another_list(self) -> None:
        self.file('a.pkl', ORDERED)
        self.file('one', NAME.encode())
        self.file('other', self.MADE.encode())
        self.file('log', self.scan('--json', '--allow', 'one', 'a.pkl').stdout.encode())
        self.assertEqual(self.scan('--json', '--allow', 'one', '--resume', 'log', 'a.pkl').stdout, '')
        run = self.scan('--json', '--allow', 'other', '--resume', 'log', 'a.pkl')
        self.assertEqual((run.returncode, json.loads(run.stdout)['looks'][0]['name']), (1, NAME))
        self.assertEqual(self.scan('--json', '--resume', 'log', 'a.pkl').stdout, '')


# --- Honest files ---

def kept_files(library_name: str) -> Iterator[Tuple[str, bytes]]:
    """The files of a library that are kept."""
    with tarfile.open(KEPT / f'{library_name}.tar.xz') as archive:
        for member in archive:
            content = archive.extractfile(member)
            assert content is not None
            yield member.name, content.read()


def pickles_in(content: bytes) -> Sequence[bytes]:
    """The pickles of a file: all of it, or those in an archive of torch."""
    if not zipfile.is_zipfile(io.BytesIO(content)):
        return [content]
    with zipfile.ZipFile(io.BytesIO(content)) as archive:
        return [archive.read(name) for name in archive.namelist() if name.endswith('.pkl')]


class Honest(unittest.TestCase):
    """What libraries write passes by the set of that library alone. What is in another form is nothing for this gate."""

    def tried(self, word: str, content: bytes, names: Sequence[str] = ()) -> int:
        """How many of the pickles in a file pass; none may be refused."""
        count = 0
        for each in pickles_in(content):
            if picklestep.form(each) is None:
                answer = picklestep.gate(each, allow=[word], names=names)
                self.assertTrue(answer, answer.line)
                count += 1
        return count

    def test_kept_files(self) -> None:
        for name in LIBRARIES:
            if name != 'plain':
                files = list(kept_files(name))
                passed = 0
                for file, content in files:
                    with self.subTest(name, file=file):
                        passed += self.tried(set_for(name, file), content, ['persistent:'])
                self.assertGreaterEqual(passed, 1 if name == 'joblib' else 10, name)

    def test_written_files(self) -> None:
        """What the libraries of this machine write, in each protocol."""
        for name in LIBRARIES:
            with tempfile.TemporaryDirectory() as folder:
                passed = 0
                if not write_files(Path(folder), name):
                    continue
                for path in sorted(Path(folder).iterdir()):
                    with self.subTest(name, file=path.name):
                        passed += self.tried(set_for(name, path.name), path.read_bytes(), ['persistent:'])
                self.assertGreaterEqual(passed, 1 if name == 'joblib' else 10, name)

    def test_model_files(self) -> None:
        passed = 0
        for file in sorted(MODELS.iterdir()):
            if file.name not in ('WRITTEN_BY.txt', SCRIPT):
                with self.subTest(file.name):
                    passed += self.tried(set_for(file.name.partition('_')[0], file.name), file.read_bytes(), ['persistent:'])
        self.assertGreater(passed, 15)


if __name__ == '__main__':
    unittest.main()
