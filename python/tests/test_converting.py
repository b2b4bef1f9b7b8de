"""`picklestep convert` and `picklestep.convert`: Python 3 makes without an encoding what it made with one, and of another protocol the same."""

from __future__ import annotations

import collections
import itertools
import pickle
import pickletools
import subprocess
import struct
import sys
import tempfile
import unittest
from pathlib import Path
from typing import List, Tuple

import picklestep
from picklestep import NotConverted
from scan_support import environment

# As Python 2 writes ['a', u'b', 'Andr\xe9', {'k': 'a'}] and a class of its own, in its three protocols.
OF_PYTHON_2 = (
    b"(lp0\nS'a'\np1\naVb\np2\naS'Andr\\xe9'\np3\na(dp4\nS'k'\np5\ng1\nsa.",
    b"]q\x00(U\x01aq\x01X\x01\x00\x00\x00bq\x02U\x05Andr\xe9q\x03}q\x04U\x01kq\x05h\x01se.",
    b"\x80\x02]q\x00(U\x01aq\x01X\x01\x00\x00\x00bq\x02U\x05Andr\xe9q\x03}q\x04U\x01kq\x05h\x01se.",
    b"\x80\x02T\x2c\x01\x00\x00" + b'x\xe9' * 150 + b'.',
    b"S\"it's\\n\\\\ \\x00\xe9\"\n.", b"\x80\x02U\x00.", b"(U\x01aU\x01\xfft.", b"\x80\x04\x95\x06\x00\x00\x00\x00\x00\x00\x00U\x03\xc3\xa9z\x94.")
# From each protocol into itself and its neighbours, and from one end to the other: each change that a protocol brings is made alone, and with all others.
PROTOCOLS = [(old, new) for old, new in itertools.product(range(6), repeat=2) if abs(old - new) in (0, 1, 5)]
_LEGACY = {'STRING', 'BINSTRING', 'SHORT_BINSTRING'}


def shape(data: bytes) -> str:
    """What a pickle is loaded as, and which parts of it are one object."""
    made = pickle.loads(data)
    parts = list(made) if isinstance(made, (list, tuple)) else []
    return f'{made!r} {[[one is other for one in parts] for other in parts]}'


def names_in(data: bytes) -> List[str]:
    return [opcode.name for opcode in picklestep.listing(data)]


class Converted(unittest.TestCase):
    """`picklestep.convert`."""

    def assert_converted(self, data: bytes, encoding: str) -> bool:
        """Answers whether it can be."""
        try:
            wanted = pickle.loads(data, encoding=encoding)
        except UnicodeDecodeError:
            with self.assertRaises(NotConverted):
                picklestep.convert(data, encoding)
            return False
        made = picklestep.convert(data, encoding)
        for load in (pickle.loads, pickle._loads):  # type: ignore[attr-defined]
            self.assertEqual(load(made), wanted)
        names, before = [opcode.name for opcode, _, _ in pickletools.genops(made)], names_in(data)
        self.assertFalse(_LEGACY.intersection(names))
        self.assertEqual([name for name in names if 'STRING' not in name and 'UNICODE' not in name and 'BYTES' not in name],
                         [name for name in before if 'STRING' not in name and 'UNICODE' not in name and 'BYTES' not in name])
        self.assertEqual(len(names), len(before))
        return True

    def test_texts_of_python_2(self) -> None:
        done = {encoding: sum(self.assert_converted(data, encoding) for data in OF_PYTHON_2) for encoding in ('latin1', 'utf-8', 'ascii', 'bytes')}
        self.assertEqual(done['latin1'], len(OF_PYTHON_2))
        self.assertEqual(done['bytes'], len(OF_PYTHON_2))
        self.assertGreater(len(OF_PYTHON_2), done['utf-8'])

    def test_what_is_refused(self) -> None:
        with self.assertRaises(NotConverted) as raised:
            picklestep.convert(OF_PYTHON_2[2], 'utf-8')
        self.assertEqual(len(raised.exception.lines), 1)
        self.assertRegex(raised.exception.lines[0], r"^19: SHORT_BINSTRING b'Andr\\xe9': 'utf-8' codec can't decode byte 0xe9 in position 4")
        for data, why in ((b'U\x01a', 'F1 ended at 3'), (b'U\x01a.\xff', 'F2'), (b'0.', 'S2'), (b'\x80\x04U\x01aU\x01b\x93.', 'not read to its end')):
            with self.subTest(data), self.assertRaisesRegex(NotConverted, why):
                picklestep.convert(data, 'bytes')
        with self.assertRaises(ValueError):
            picklestep.convert(b'N.', 'utf-16')

    def test_what_has_no_such_text(self) -> None:
        data = pickle.dumps([1, 'a', b'b'], 4)
        self.assertEqual(picklestep.convert(data), data)

    def test_the_word(self) -> None:
        with tempfile.TemporaryDirectory() as folder:
            for name, data in (('old', OF_PYTHON_2[2]), ('cut', OF_PYTHON_2[2][:-1])):
                Path(folder, name).write_bytes(data)

            def run_it(*words: str) -> Tuple[int, str, str]:
                run = subprocess.run([sys.executable, '-m', 'picklestep', 'convert', *words], cwd=folder, env=environment(), capture_output=True,
                                     text=True, timeout=600)
                return run.returncode, run.stdout, run.stderr
            self.assertEqual(run_it('old', '--python2', '--encoding', 'latin1', '--save', 'new'), (0, 'converted 3 texts\nsaved new\n', ''))
            self.assertEqual(pickle.loads(Path(folder, 'new').read_bytes()), ['a', 'b', 'Andr\xe9', {'k': 'a'}])
            for words, said in ((('old', '--python2'), "'ascii' codec can't decode"), (('cut', '--python2'), 'reading ends early: F1')):
                code, text, _ = run_it(*words, '--save', 'none')
                self.assertEqual(code, 1)
                self.assertIn(said, text)
                self.assertIn('nothing is written', text)
            self.assertEqual(run_it('old', '--python2', '--encoding', 'latin1', '--protocol', '4', '--save', 'new')[:2],
                             (0, 'converted 3 texts\nprotocol 4: 51 bytes -> 42 bytes\nsaved new\n'))
            self.assertEqual(pickle.loads(Path(folder, 'new').read_bytes()), ['a', 'b', 'Andr\xe9', {'k': 'a'}])
            for words in (('none', '--python2'), ('old',), ('old', '--python2', '--encoding', 'x'), ('old', '--protocol', '6'), ('old', '--python2', '--many')):
                self.assertEqual(run_it(*words, '--save', 'none')[0], 2)
            self.assertFalse(Path(folder, 'none').exists())


class InProtocols(unittest.TestCase):
    """`convert` with a protocol."""

    def test_as_picklers_write(self) -> None:
        """Plain values become what the pickler of the protocol writes of them, byte for byte."""
        shared, itself = ['a'], [1]
        itself.append(itself)  # type: ignore[arg-type]
        values = [None, True, [True, False], 255, 256, -1, 65_536, 2 ** 31, -2 ** 31 - 1, 2 ** 2000, 1.5, float('-inf'), -0.0, 'caf\xe9', 'x' * 300, '\ud800',
                  'a\nb\\u\0\r\x1a', (), (1,), (1, 2), (1, 2, 3), (1, 2, 3, 4), [], [1], list(range(1001)), {}, {1: 2}, {n: n for n in range(1002)},
                  [shared, shared, (shared,)], itself, collections.OrderedDict(a=[1, 2]), collections.deque([1, 2, 3]), collections.Counter('aab')]
        for value, (old, new) in itertools.product(values, PROTOCOLS):
            with self.subTest(str(value)[:40], old=old, new=new):
                self.assertEqual(picklestep.convert(pickle.dumps(value, old), protocol=new), pickle.dumps(value, new))

    def test_what_a_protocol_has_no_opcode_for(self) -> None:
        """It loads alike, has no opcode of a later protocol, and is in the usual form where it was."""
        values = [b'', b'ab', b'x' * 300, bytearray(), bytearray(b'ab'), set(), {1}, {1, 2}, frozenset(), frozenset([1]), {frozenset([(1,)]): [{2}]},
                  set(range(1500)), [b'a', b'a'], NotImplementedError('a'), complex(1, 2), ['builtins', 'set', {1}]]
        for value, (old, new) in itertools.product(values, PROTOCOLS):
            data = pickle.dumps(value, old)
            with self.subTest(str(value)[:40], old=old, new=new):
                made = picklestep.convert(data, protocol=new)
                self.assertEqual(repr(pickle.loads(made)), repr(value))
                self.assertLessEqual(max(opcode.proto for opcode, _, _ in pickletools.genops(made)), new)
                self.assertEqual(picklestep.form(data) is None, picklestep.form(made) is None)

    def test_what_stays_alike(self) -> None:
        """Lines that loaders read otherwise, names of Python 2, names with a dot, and a text that is a name and data."""
        for data, protocol, wanted in (
                (b'I010\n.', 2, b'\x80\x02I010\n.'), (b'F1_0\n.', 1, b'F1_0\n.'), (b'c__builtin__\nset\n.', 2, b'\x80\x02c__builtin__\nset\n.'),
                (b'c__builtin__\nset\n.', 3, b'\x80\x03cbuiltins\nset\n.'), (b'(S"a"\nt.', 2, b'\x80\x02S"a"\n\x85.'),
                (b'\x80\x04\x8c\x01m\x94\x8c\x01n\x93h\x00\x86.', 3, b'\x80\x03cm\nn\nX\x01\0\0\0mq\0\x86.'),
                (b'\x80\x04\x8c\x01m\x8c\x03A.B\x93.', 2, b'\x80\x02c__builtin__\ngetattr\nq\0cm\nA\nX\x01\0\0\0B\x86R.'),
                (b'\x80\x02cm\nA\n)\x81.', 0, b'ccopy_reg\n__newobj__\np0\n(cm\nA\ntR.'), (b'\x80\x02]q\x07h\x07a.', 4, b'\x80\x04\x95' + struct.pack('<Q', 6) + b']\x94h\0a.')):
            with self.subTest(data):
                self.assertEqual(picklestep.convert(data, protocol=protocol), wanted)

    def test_what_is_doubled(self) -> None:
        """Items, members and classes that DUP puts on the stack again are one object, and not another that is written before them."""
        for data in (b'\x80\x02](K\x01K\x022e.', b'\x80\x02](]22e.', b'\x80\x02}(K\x012K\x02N2Nu.', b'\x80\x02N2\x85\x86.', b'\x80\x02]2\x85\x86.',
                     b'\x80\x04\x8f(K\x012K\x02\x902\x86.', b'\x80\x04(K\x012\x91.', b'\x80\x02ccollections\nOrderedDict\n2)\x81\x86.',
                     b'\x80\x04ccollections\nOrderedDict\n2)}\x92\x86.'):
            for protocol in range(6):
                with self.subTest(data, protocol=protocol):
                    made = picklestep.convert(data, protocol=protocol)
                    self.assertEqual(shape(made), shape(data))

    def test_what_a_protocol_cannot_say(self) -> None:
        for data, protocol, why in (
                (b'\x80\x05\x97.', 4, '2: NEXT_BUFFER: its bytes are not in the pickle'), (b'\x80\x02\x82\x01.', 1, '2: EXT1: codes of extensions need protocol 2'),
                (b'K\x01Q.', 0, '2: BINPERSID: a persistent id'), (b'\x80\x03cm\n\xc3\xa9\n.', 2, '2: GLOBAL: names that are not ASCII'),
                (b'\x80\x02cm\nA.B\n.', 4, '2: GLOBAL: protocol 4 would take a name apart'), (b'G\xff\xf8' + bytes(6) + b'.', 0, 'a NaN with a sign'),
                (b'\x80\x04\x8f\x94(h\x00\x85\x90.', 3, 'taken before it is full'), (b'\x80\x04\x8c\x01m0\x8c\x01m\x8c\x01n20\x93.', 3, 'its names are no texts'),
                (b'\x8b' + struct.pack('<i', 2000) + b'\x01' * 2000 + b'.', 1, 'too many of them'), (b'\x80\x03cdbm\nopen\n.', 2, 'another one: global'),
                (b'(cm\nA\no.', 0, 'OBJ: it needs protocol 1'), (b'N.N.', 2, 'with --many'), (b'N', 2, 'F1'), (b'N.\xff', 2, 'F2'), (b'0.', 2, 'S2')):
            with self.subTest(data[:20]), self.assertRaisesRegex(NotConverted, why):
                picklestep.convert(data, protocol=protocol)
        self.assertEqual(picklestep.convert(b'I1\n.(l.', protocol=2, many=True), b'\x80\x02K\x01.\x80\x02].')
        with self.assertRaises(ValueError):
            picklestep.convert(b'N.', protocol=6)


if __name__ == '__main__':
    unittest.main()
