"""What the shell says of who changed an object, beside what Python's own unpickler does."""

from __future__ import annotations

import collections
import io
import itertools
import pickle
import unittest
from typing import Any, Callable, Dict, List, Tuple

from picklestep.shell.shell import Shell


def changes_of_loading(data: bytes) -> 'Tuple[Dict[int, int], Dict[int, List[int]]]':
    """The places of opcodes that make containers, each with what tells the container, and of these the places of the opcodes that put something into
    them; as Python's own unpickler goes over them."""
    made: Dict[int, int] = {}
    changes: Dict[int, List[int]] = collections.defaultdict(list)
    kept: List[object] = []
    counter = itertools.count()

    def watched(code: int, load: Callable[[Any], None]) -> Callable[[Any], None]:
        def do(unpickler: Any) -> None:
            place, is_empty = next(counter), code in b'eu\x90' and not unpickler.stack
            load(unpickler)
            if code in b']}\x8fld':
                made[place] = id(unpickler.stack[-1])
                kept.append(unpickler.stack[-1])
            elif code in b'aesu\x90' and not is_empty:
                changes[id(unpickler.stack[-1])].append(place)
        return do

    class Watched(pickle._Unpickler):  # type: ignore[misc, name-defined]
        dispatch = {code: watched(code, load) for code, load in pickle._Unpickler.dispatch.items()}  # type: ignore[attr-defined]

    Watched(io.BytesIO(data)).load()
    return made, changes


class Who(unittest.TestCase):
    """Which opcodes changed an object."""

    def test_who_is_what_loading_does(self) -> None:
        """Also where the object comes from the memo, under other marks, and where an opcode puts nothing into it."""
        shared: List[Any] = [1]
        value = {'a': [shared, {'b': shared, 'c': {1, 2}}, list(range(2500))], 'd': [[], {}, [[]]]}
        shared.append(value)
        by_hand = [b']q\0(h\0K\1ah\0(eh\0(K\2K\3et.', b'(lp0\n(I1\n(g0\nI2\naI3\ntg0\nI4\nat.', b'(}q\0(NNNh\0NNuh\0(NNNNut.']
        for data in (*(pickle.dumps(value, protocol) for protocol in range(5)), *by_hand):
            made, changes = changes_of_loading(data)
            with self.subTest(data[:20]), Shell(data, '') as shell:
                for place, wanted in made.items():
                    self.assertEqual(shell.pickle.changers(shell.pickle.numbers_before(place)).places, changes[wanted])
                    first = shell.pickle.changers(shell.pickle.numbers_before(place), 1).places
                    self.assertEqual(first[:1], changes[wanted][:1])
                self.assertGreater(len(made), 0)


if __name__ == '__main__':
    unittest.main()
