"""What `convert` and `optimize` write loads as before; and they write nothing that the program does not find the same."""

from __future__ import annotations

import pickle
import unittest
from unittest import mock

import picklestep
from alike_pickles import Tried, all_real, ways_for
from picklestep import NotConverted, SameAnswer
from picklestep.protocols.spelling import spelled
from pickles import chosen

_OTHER = SameAnswer(False, 'another object #0')
# One real pickle in so many is tried here. (`alike_pickles.py` tries all of them.)
_EVERY = 9


class Alike(unittest.TestCase):
    def test_real_pickles(self) -> None:
        tried = Tried()
        for name, data in chosen([*all_real().items()][::_EVERY], 5):
            for way in ways_for(data):
                tried.write(name, data, way)
        self.assertEqual(tried.faults, [])
        self.assertGreater(tried.counts['loads alike with stand-ins'], 20)


class Refused(unittest.TestCase):
    """Where the program does not find the result the same, nothing is written."""

    def test_what_changes_spellings_alone(self) -> None:
        data = pickle.dumps(['a', 5, {'b': (None, 'a' * 300)}], 5)
        for name, write in (('convert', lambda: picklestep.convert(data, protocol=4)), ('optimize', lambda: picklestep.optimize(data))):
            with self.subTest(name), mock.patch('picklestep.sameness.same_bytes', return_value=_OTHER) as asked:
                with self.assertRaisesRegex(NotConverted, 'it would not make the same objects: another object #0'):
                    write()
                self.assertEqual(asked.call_count, 1)

    def test_an_opcode_of_a_later_protocol(self) -> None:
        """The objects are the same, and a loader of the protocol would not know the opcode."""
        data = pickle.dumps(['a', 'a' * 300, [5]], 3)
        for protocol in range(4):
            with self.subTest(protocol), mock.patch('picklestep.protocols.changing.spelled', lambda ops, _: spelled(ops, 4)):
                with self.assertRaisesRegex(NotConverted, 'it would have an opcode of protocol 4'):
                    picklestep.convert(data, protocol=protocol)

    def test_what_has_other_objects(self) -> None:
        """Lines, calls that stand for opcodes, and names that a loader takes otherwise: these are not asked about."""
        for data, protocol in ((b'K\x05.', 0), (b'I5\n.', 1), (b'L5\n.', 0), (b'C\x01a.', 2), (b'\x80\x02cm\nn\n.', 3), (b'\x80\x03cm\nn\n.', 2), (b']K\x01aK\x02a.', 2)):
            with self.subTest(data, protocol=protocol), mock.patch('picklestep.sameness.same_bytes', return_value=_OTHER) as asked:
                picklestep.convert(data, protocol=protocol)
                self.assertEqual(asked.call_count, 0)


if __name__ == '__main__':
    unittest.main()
