"""`picklestep same` and `picklestep.same`: whether two pickles make the same objects, by what their opcodes make."""

from __future__ import annotations

import pickle
import subprocess
import sys
import tempfile
import unittest
from pathlib import Path

import picklestep
from scan_support import environment

_SAME = 'the same objects'
_ORDER = 'other calls, or in another order'
_RESULT = 'another result'
_SYSTEM = b'cposix\nsystem\n'
# Two objects that calls give.
_CALLED = b'cm\nf\n)Rq\0cm\nf\n)Rq\1'


def _other(number: int) -> str:
    return f'another object #{number}'


def _framed(rest: bytes) -> bytes:
    return b'\x80\x04\x95' + len(rest).to_bytes(8, 'little') + rest


# Two pickles, what is said of them, and whether each has several.
_CASES = (
    ('a pickle and itself', b'](K\x01K\x02e.', b'](K\x01K\x02e.', _SAME, False),
    # What makes no difference.
    ('spellings of a number', b'K\x05.', b'J\x05\0\0\0.', _SAME, False),
    ('spellings of a text', b'\x8c\x01a.', b'X\x01\0\0\0a.', _SAME, False),
    ('entries of the memo that nobody takes', b']q\0K\x01a.', b']K\x01a.', _SAME, False),
    ('keys of the memo', b']q\0h\0\x86.', b']r\x09\0\0\0j\x09\0\0\0\x86.', _SAME, False),
    ('an object from the memo, and one that is on the stack twice', b']q\0h\0\x86.', b']2\x86.', _SAME, False),
    ('frames', _framed(b'K\x01K\x02\x86.'), b'\x80\x04K\x01K\x02\x86.', _SAME, False),
    ('protocols', b'\x80\x02N.', b'\x80\x04N.', _SAME, False),
    ('items of a list that go in one by one', b'](K\x01K\x02e.', b']K\x01aK\x02a.', _SAME, False),
    # What does.
    ('another number', b'K\x05.', b'K\x06.', _other(0), False),
    ('a number in a line', b'I5\n.', b'K\x05.', _other(0), False),
    ('an object more', b'N.', b'NN0.', _other(1), False),
    ('another order of the objects', b'K\x01K\x02\x86.', b'K\x02K\x01\x86.', _other(0), False),
    ('another item of a list', b']K\x01a.', b']K\x02a.', _other(1), False),
    ('an item in another list', b']q\0]q\1K\x01a0.', b']q\0]q\1h\0K\x01a00.', _other(0), False),
    ('another name of an import', _SYSTEM + b'.', b'cposix\nspawn\n.', _other(0), False),
    ('the result', b'NK\x010.', b'N0K\x01.', _RESULT, False),
    ('the order of two states', _CALLED + b'h\1Nb0h\0Nb000N.', _CALLED + b'h\1Nh\0Nb0b000N.', _ORDER, False),
    ('items that a call\'s result gets at once', _SYSTEM + b')R(NNe.', _SYSTEM + b')RNaNa.', _ORDER, False),
    # Ends.
    ('no bytes', b'', b'N.', 'first: fault: F1 ended at 0', False),
    ('another pickle that is cut', b'N.', b'N', 'second: fault: F1 ended at 1', False),
    ('an opcode that is refused', b'0.', b'0.', 'first: refused: item 0: S2 stack underflow', False),
    ('a pickle behind the first', b'N.N.', b'N.', 'first: bytes follow behind the pickle', False),
    ('bytes behind the second', b'N.', b'N.x', 'second: bytes follow behind the pickle', False),
    ('several pickles', b'N.K\x01.', b'N.J\x01\0\0\0.', _SAME, True),
    ('one pickle more', b'N.K\x01.', b'N.', _other(1), True),
)


class Same(unittest.TestCase):
    def test_pairs(self) -> None:
        for name, one, other, text, many in _CASES:
            with self.subTest(name):
                answer = picklestep.same(one, other, many=many)
                self.assertEqual((answer.text, bool(answer)), (text, text == _SAME))

    def test_pickles_of_one_value(self) -> None:
        value = [{'a': (1, 2.5)}, 'a' * 300, {n: [n] for n in range(1100)}, b'ab', pickle.PicklingError('a')]
        made = {protocol: pickle.dumps(value, protocol) for protocol in range(6)}
        self.assertTrue(picklestep.same(made[4], made[5]))
        self.assertEqual(picklestep.same(made[0], made[1]).text, _other(2))

    def test_large_pickles(self) -> None:
        """Of these the program is asked, and not the library."""
        large = pickle.dumps([*range(40_000)], 4)
        self.assertTrue(picklestep.same(large, picklestep.optimize(large)))
        self.assertEqual(picklestep.same(large, large[:-1], timeout=600).text[:13], 'second: fault')

    def test_the_word(self) -> None:
        with tempfile.TemporaryDirectory() as folder:
            for name, data in (('a', b'K\x05.'), ('b', b'J\x05\0\0\0.'), ('c', b'N.')):
                Path(folder, name).write_bytes(data)
            for words, status, text in ((('a', 'b'), 0, f'{_SAME}\n'), (('a', 'c'), 1, f'{_other(0)}\n'), (('--many', 'b', 'a'), 0, f'{_SAME}\n'), (('a', 'none'), 2, ''),
                                        (('--json', 'a', 'b'), 0, '{"kind":"same","how":"same"}\n'), (('a', 'c', '--json'), 1, '{"kind":"same","how":"object","object":0}\n')):
                run = subprocess.run([sys.executable, '-m', 'picklestep', 'same', *words], cwd=folder, env=environment(), capture_output=True, text=True, timeout=600)
                self.assertEqual((run.returncode, run.stdout), (status, text), run.stderr)


if __name__ == '__main__':
    unittest.main()
