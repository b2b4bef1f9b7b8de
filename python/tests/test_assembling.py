"""`picklestep assemble --save`, and `picklestep.assemble`: a pickle of a text of opcodes, whole or not at all."""

from __future__ import annotations

import collections
import datetime
import math
import pickle
import pickletools
import random
import struct
import subprocess
import sys
import tempfile
import unittest
from pathlib import Path
from typing import Any, Iterable, List, Tuple

import picklestep
from alike_pickles import all_real
from harmless import opcodes_at_random
from picklestep.program import run_program
from scan_support import environment

_SHARED = ['a\n\'"\\é']
_VALUES = (None, [1, -2, 2 ** 70, -2 ** 40, 1.5, True], {'k': (_SHARED, _SHARED), b'\0\xff': {1, 2}}, 'x' * 300, collections.OrderedDict(a=datetime.date(2020, 1, 1)))


def _value(some: random.Random, depth: int = 3) -> Any:
    """A value with arguments of all kinds, and parts that are shared."""
    kind = some.randrange(10 if depth else 5)
    if kind == 0:
        return some.choice((None, True, False, _SHARED))
    if kind == 1:
        return some.choice((1, -1)) * some.getrandbits(some.choice((3, 8, 16, 31, 64, 300)))
    if kind == 2:
        return struct.unpack('>d', some.getrandbits(64).to_bytes(8, 'big'))[0]
    if kind == 3:
        return ''.join(chr(some.choice((some.randrange(0x3000), 34, 39, 92, 10, 0x1f600))) for _ in range(some.randrange(9)))
    if kind == 4:
        return some.choice((bytes, bytearray))(some.getrandbits(8) for _ in range(some.randrange(300)))
    parts = [_value(some, depth - 1) for _ in range(some.randrange(5))]
    return some.choice((parts, tuple(parts), {1.5: parts, 'k': _SHARED}, collections.OrderedDict(enumerate(parts)), {some.getrandbits(9) for _ in parts}))


def _random_pickles(seeds: Iterable[int]) -> List[bytes]:
    """Pickles of values, by both picklers in each protocol, and as many of opcodes at random."""
    found = []
    for seed in seeds:
        some = random.Random(seed)
        dumps = some.choice((pickle.dumps, pickle._dumps))  # type: ignore[attr-defined]
        found.append(dumps(_value(some), seed // 2 % 6) if seed % 2 else opcodes_at_random(seed))
    return found


def _packed(name: str, argument: bytes) -> bytes:
    """The bytes of an opcode."""
    return getattr(pickle, name) + argument  # type: ignore[no-any-return]


class Texts(unittest.TestCase):
    """`picklestep.assemble`."""

    def test_frames(self) -> None:
        """Without its FRAMEs a listing gets those of pickle again."""
        for value in _VALUES:
            for protocol in range(6):
                data = pickle.dumps(value, protocol)
                text = ''.join(f'{line}\n' for line in picklestep.listing(data).text.splitlines() if ' FRAME ' not in line)
                with self.subTest(value=value, protocol=protocol):
                    self.assertEqual(picklestep.assemble(text, frames=protocol >= 4), data)
        for text in ('', 'NONE', 'PROTO 4\nFRAME 2\nNONE\nSTOP'):
            with self.subTest(text), self.assertRaises(picklestep.NotConverted):
                picklestep.assemble(text, frames=True)

    def test_literals(self) -> None:
        """Bytes and numbers as Python prints them."""
        some = random.Random(82)
        payloads = [bytes(some.choice([some.randrange(256), 34, 39, 92]) for _ in range(some.randrange(9))) for _ in range(300)]
        floats = [struct.unpack('>d', struct.pack('>Q', some.getrandbits(64)))[0] for _ in range(300)]
        floats = [each for each in floats if not math.isnan(each)] + [0.1, -0.0, 5e-324, 1e308, math.inf, -math.inf]
        lines = [f'SHORT_BINBYTES {each!r}' for each in payloads] + [f'BINFLOAT {each!r}' for each in floats]
        wanted = [_packed('SHORT_BINBYTES', bytes([len(each)]) + each) for each in payloads] + [_packed('BINFLOAT', struct.pack('>d', each)) for each in floats]
        lines += [f'INT {-7}', f'LONG {2 ** 70}L', f'FLOAT {1e300!r}', '7: # INT 8']
        wanted += [b'I-7\n', b'L%dL\n' % 2 ** 70, b'F1e+300\n']
        self.assertEqual(picklestep.assemble('\n'.join(lines)), b''.join(wanted))

    def test_labels(self) -> None:
        """Keys count up from above those in digits, in the order in which labels come first. `pickletools` reads the keys, and Python the objects."""
        text = ('PROTO 2\nEMPTY_LIST\nBINPUT all\nMARK\nBINUNICODE \'x\'\n 3: q BINPUT _x1\t# a note\nNONE\nLONG_BINPUT 6 # a key\nGET _x1\nBINGET 6\n'
                'BINUNICODE "BINPUT other"\n9: # PUT not_this\nPUT X1\nLONG_BINGET X1\nAPPENDS\nBINGET all\nAPPEND\nSTOP')
        data = picklestep.assemble(text)
        keys = [(opcode.name, argument) for opcode, argument, _ in pickletools.genops(data) if 'GET' in opcode.name or 'PUT' in opcode.name]
        self.assertEqual(keys, [('BINPUT', 7), ('BINPUT', 8), ('LONG_BINPUT', 6), ('GET', 8), ('BINGET', 6), ('PUT', 9), ('LONG_BINGET', 9), ('BINGET', 7)])
        made = pickle.loads(data)
        self.assertEqual(made[:-1], ['x', None, 'x', None, 'BINPUT other', 'BINPUT other'])
        self.assertIs(made[-1], made)
        many = 300
        text = ''.join(f'NONE\nPUT l{number}\nPOP\n' for number in range(many)) + f'GET l{many - 1}\nSTOP\n'
        self.assertEqual(picklestep.assemble(text), b''.join(b'Np%d\n0' % number for number in range(many)) + b'g%d\n.' % (many - 1))

    def test_labels_that_are_refused(self) -> None:
        """A key that does not fit, MEMOIZE beside labels, and words that are no labels."""
        large, number = "the number does not fit into the opcode's bytes", 'the opcode wants a whole number'
        for text, line, why in (('NONE\nLONG_BINPUT 255\nBINPUT a\nSTOP', 3, large), ('NONE\nPUT 18446744073709551615\nPUT a\nSTOP', 3, number),
                                ('NIL\nMEMOIZE\nBINGET a\nMEMOIZE', 2, 'MEMOIZE counts keys by itself, and the text has labels'), ('NONE\nMEMOIZE\nGET 1a', 3, number),
                                ('GET a-b', 1, number), ('GET \xe9', 1, number), ('GET', 1, number), ('BININT1 a', 1, number), ('GET a b', 1, 'the line goes on behind the argument')):
            with self.subTest(text), self.assertRaises(picklestep.NotAssembled) as raised:
                picklestep.assemble(text)
            self.assertEqual((raised.exception.line, raised.exception.text), (line, why))

    def test_what_is_refused(self) -> None:
        """It is said which line is none, and why."""
        for line, text in (("BINUNICODE it's", 'the opcode wants a text in quotes'), ('NONE (a note', 'the line goes on behind the argument')):
            with self.subTest(line), self.assertRaises(picklestep.NotAssembled) as raised:
                picklestep.assemble(f'STOP\n{line}\n')
            self.assertEqual((raised.exception.line, raised.exception.text), (2, text))


class ThereAndBack(unittest.TestCase):
    """What `list --whole --many` prints of many pickles in one file is assembled to their bytes."""

    def assert_same(self, pickles: List[bytes]) -> None:
        with tempfile.TemporaryDirectory() as folder:
            path = Path(folder, 'all')
            path.write_bytes(b''.join(pickles))
            made = picklestep.assemble(run_program(['list', '--whole', '--many', str(path)]))
        begin = 0
        for data in pickles:
            self.assertEqual(made[begin:begin + len(data)], data)
            begin += len(data)
        self.assertEqual(len(made), begin)

    def test_real_pickles(self) -> None:
        self.assert_same([*all_real().values()])

    def test_random_pickles(self) -> None:
        self.assert_same(_random_pickles(range(1000)))


class Assembled(unittest.TestCase):
    """The command, with the texts that `list` prints."""

    def setUp(self) -> None:
        folder = tempfile.TemporaryDirectory()
        self.addCleanup(folder.cleanup)
        self.folder = Path(folder.name)

    def run_on(self, text: str, word: str, out: str = 'out.pickle', *options: str) -> Tuple[int, str]:
        (self.folder / 'text').write_text(text, 'ascii')
        done = subprocess.run([sys.executable, '-m', 'picklestep', word, *options, 'text', '--save', out], cwd=self.folder, env=environment(),
                              stdout=subprocess.PIPE, stderr=subprocess.PIPE, universal_newlines=True)
        return done.returncode, done.stdout

    def test_what_picklers_write(self) -> None:
        """Each value in another protocol. (`picklestep.assemble` is asked in all.)"""
        for value, protocol in zip(_VALUES, (0, 1, 2, 4, 5)):
            data = pickle.dumps(value, protocol)
            with self.subTest(value=value, protocol=protocol):
                self.assertEqual(self.run_on(picklestep.listing(data).text, 'assemble'), (0, ''))
                self.assertEqual((self.folder / 'out.pickle').read_bytes(), data)

    def test_in_frames(self) -> None:
        text = "PROTO 4\nBINUNICODE 'a'\nSTOP\n"
        self.assertEqual(self.run_on(text, 'assemble', 'out.pickle', '--frame'), (0, ''))
        self.assertEqual(pickle.loads((self.folder / 'out.pickle').read_bytes()), 'a')

    def test_what_is_refused(self) -> None:
        """The file that is there stays."""
        (self.folder / 'out.pickle').write_bytes(b'as it was')
        self.assertEqual(self.run_on('MARK\nBININT1 256\nSTOP\n', 'assemble'), (1, "refused: line 2: the number does not fit into the opcode's bytes\n"))
        self.assertEqual((self.folder / 'out.pickle').read_bytes(), b'as it was')
        self.assertEqual(self.run_on('STOP\n', 'assemble', 'no/folder'), (2, ''))


if __name__ == '__main__':
    unittest.main()
