"""`picklestep optimize` and `picklestep.optimize`: the same objects in fewer bytes."""

from __future__ import annotations

import collections
import itertools
import pickle
import pickletools
import subprocess
import sys
import tempfile
import unittest
from pathlib import Path

import picklestep
from cut_pickles import whole_pickles
from pickles import chosen
from picklestep import NotConverted
from picklestep.optimizing import framed, in_frames
from scan_support import environment


class Optimized(unittest.TestCase):
    """`picklestep.optimize`."""

    def assert_optimized(self, data: bytes) -> bytes:
        made = picklestep.optimize(data)
        self.assertLessEqual(len(made), len(data))
        self.assertEqual(picklestep.objects(made).text, picklestep.objects(data).text)
        try:
            again = pickletools.optimize(made)
        except (UnicodeDecodeError, ValueError):  # (it does not read all that loaders read)
            return made
        self.assertGreaterEqual(len(again), len(made))
        return made

    def test_pickles_of_picklers(self) -> None:
        shared = ['a']
        for value in ([1, shared, shared, 'a' * 300], {n: (shared, str(n)) for n in range(300)}, collections.OrderedDict(a=[collections.Counter('aab')]),
                      [b'x' * 70_000, 'y' * 70_000, list(range(40_000))], 7, [[]] * 3, [[n] * 2 for n in range(600)]):
            for protocol in range(6):
                data = pickle.dumps(value, protocol)
                with self.subTest(str(value)[:40], protocol=protocol):
                    made = self.assert_optimized(data)
                    self.assertEqual(pickle.loads(made), value)
                    if protocol:
                        self.assertLessEqual(len(made), len(pickletools.optimize(data)))

    def test_real_pickles(self) -> None:
        for name, data in chosen(whole_pickles().items(), 25):
            with self.subTest(name):
                self.assert_optimized(data)

    def test_long_spellings(self) -> None:
        for data, wanted in ((b'\x80\x02J\x05\0\0\0.', b'\x80\x02K\x05.'), (b'\x80\x02X\x01\0\0\0a.', b'\x80\x02X\x01\0\0\0a.'),
                             (b'\x80\x04X\x01\0\0\0a.', b'\x80\x04\x8c\x01a.'), (b'\x80\x02]r\x07\0\0\0j\x07\0\0\0a.', b'\x80\x02]q\x00h\x00a.'),
                             (b'\x80\x04]q\x07\x8c\x01a\x940h\x07.', b'\x80\x04]\x94\x8c\x01a0h\x00.'), (b'(lp17\ng17\na.', b'(lp0\ng0\na.'), (b'N.', b'N.'),
                             (b'\x80\x02\x8b\x01\0\0\0\x05.', b'\x80\x02\x8a\x01\x05.'), (b'\x80\x02]q\x00]q\x00h\x00a.', b'\x80\x02]q\x00]q\x00h\x00a.'),
                             (b'\x80\x02]p7\ng7\na.', b'\x80\x02]q\x00h\x00a.'), (b'\x80\x04]p7\ng7\na.', b'\x80\x04]\x94h\x00a.'),
                             (b'\x80\x02N\x940]\x94h\x01a.', b'\x80\x02N0]\x94h\x00a.')):  # (a loader takes MEMOIZE in each protocol)
            with self.subTest(data):
                self.assertEqual(self.assert_optimized(data), wanted)

    def test_frames_are_those_of_a_session(self) -> None:
        """Opcodes in frames have the bytes that the edits of a session make."""
        for count, size in itertools.product((0, 1, 40_000), (1, 65_000, 70_000)):
            data = pickle.dumps([*range(count), 'x' * size], 3)
            opcodes = list(picklestep.listing(data))
            parts = [data[opcode.offset:after] for opcode, after in zip(opcodes, [*(each.offset for each in opcodes[1:]), len(data)])]
            self.assertEqual(in_frames(parts), framed(data), (count, size))

    def test_what_is_refused(self) -> None:
        for data, why in ((b'N', 'F1'), (b'N.N.', 'several pickles'), (b'N.\xff', 'F2'), (b'0.', 'S2')):
            with self.subTest(data), self.assertRaisesRegex(NotConverted, why):
                picklestep.optimize(data)

    def test_the_word(self) -> None:
        with tempfile.TemporaryDirectory() as folder:
            data = pickle.dumps([[1], 'a'], 2)
            Path(folder, 'a').write_bytes(data)
            Path(folder, 'cut').write_bytes(data[:-1])
            for words, code, said in ((('a', '--save', 'b'), 0, 'bytes -> '), (('cut', '--save', 'c'), 1, 'nothing is written'), (('none', '--save', 'c'), 2, '')):
                run = subprocess.run([sys.executable, '-m', 'picklestep', 'optimize', *words], cwd=folder, env=environment(), capture_output=True,
                                     text=True, timeout=600)
                self.assertEqual(run.returncode, code)
                self.assertIn(said, run.stdout)
            self.assertEqual(pickle.loads(Path(folder, 'b').read_bytes()), [[1], 'a'])
            self.assertFalse(Path(folder, 'c').exists())


if __name__ == '__main__':
    unittest.main()
