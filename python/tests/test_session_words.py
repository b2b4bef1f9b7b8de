"""The words of a session that `debug` has with JSON alone."""

from __future__ import annotations

import contextlib
import unittest
from dataclasses import dataclass
from typing import Dict, List, Sequence, Tuple

from picklestep import Changer, Mark, Ref, Refused, Session, Step
from picklestep.conversation import Entry
from pickles import real_pickles


@dataclass
class Shown:
    """What a session shows: the stack, the memo, how many changes each object has, the count of buffers and the results."""

    stack: Sequence[Entry]
    memo: Dict[int, int]
    changes: List[int]
    buffers: int
    results: Tuple[int, ...]


def shown(session: Session) -> Shown:
    where = session.where()
    return Shown(session.stack(), session.memo(), [len(made.changes) for made in session.objects()], where.buffers, where.results)


def parted(before: Sequence[Entry], after: Sequence[Entry]) -> Tuple[Sequence[Entry], Sequence[Entry]]:
    """What is no longer on a stack, and what is newly on it. (No opcode takes an object and puts the same one there.)"""
    same = 0
    while same < min(len(before), len(after)) and before[same] == after[same]:
        same += 1
    return before[same:], after[same:]


def marks_in(entries: Sequence[Entry]) -> List[int]:
    return [each.place for each in entries if isinstance(each, Mark)]


def has_words(word: str) -> bool:
    """Whether the program has this one."""
    try:
        with Session(b'N.') as session:
            session.step()
            return (session.made(0) if word == 'made' else session.trace()).place == 0
    except Refused:
        return False


@unittest.skipUnless(has_words('trace'), 'the program has no such words')
class SessionWords(unittest.TestCase):
    def test_ranges(self) -> None:
        for name, data in real_pickles().items():
            with self.subTest(name), Session(data) as session:
                with contextlib.suppress(Refused):  # (there is no opcode, or one is refused)
                    session.set_break(0)
                    session.run()
                items, objects = list(session.items()), list(session.objects())
                for first, stop in ((0, 3), (2, 2), (5, 4), (3, len(items) + 9), (len(items), len(items) + 1)):
                    self.assertEqual(list(session.items(first, stop)), items[first:stop])
                    self.assertEqual(list(session.objects(first, stop)), objects[first:stop])
        with Session(b'N.') as session:
            self.assertRaises(TypeError, session.items, 1)
            self.assertRaises(TypeError, session.objects, None, 1)
            for line, code in (('items 1', 'X2'), ('objects 1', 'X2'), ('items x 1', 'X3'), ('breaks 1', 'X6')):
                with self.assertRaises(Refused) as caught:
                    session.ask(line)
                self.assertEqual(caught.exception.code, code, line)

    def test_breaks(self) -> None:
        with Session(b'NN0NN00.') as session:
            self.assertEqual(session.breaks(), ())
            for place in (5, 1, 3):
                session.set_break(place)
            session.insert(2, 'NONE')
            session.clear_break(4)
            self.assertEqual(session.breaks(), (1, 6))
            self.assertEqual(session.breaks(), tuple(item.place for item in session.items() if item.has_break))
            self.assertEqual(session.ask('breaks'), '{"kind":"breaks","places":[1,6]}\n')

    def test_trace(self) -> None:
        """What a step did is what the session shows before it and after it."""
        for name, data in {**real_pickles(), 'several': b'(NK\x01l.N}.q'}.items():
            with self.subTest(name), Session(data, many=name == 'several') as session:
                with self.assertRaises(Refused) as caught:
                    session.trace()
                self.assertEqual(caught.exception.code, 'V3')
                before = shown(session)
                for item in session.items(0, 200):
                    try:
                        session.step()
                    except Refused:
                        break
                    after, step = shown(session), session.trace()
                    self.assertEqual((step.place, step.offset, step.name), (item.place, item.offset, item.name))
                    self.assertEqual(repr(step.argument), repr(item.argument))
                    self.assertEqual(step.begins, item.place > 0 and session.items(item.place - 1, item.place)[0].name == 'STOP')
                    self.compare(step, (Shown((), {}, before.changes, 0, before.results) if step.begins else before), after)
                    before = after

    def compare(self, step: Step, before: Shown, after: Shown) -> None:
        removed, added = parted(before.stack, after.stack)
        self.assertEqual(list(step.took), [each.number for each in removed if isinstance(each, Ref)])
        self.assertEqual(marks_in(removed), [] if step.cut_mark is None else [step.cut_mark])
        self.assertEqual(marks_in(added), [step.place] if step.set_mark else [])
        self.assertEqual([each.number for each in added if isinstance(each, Ref)], [] if step.pushed is None else [step.pushed])
        self.assertEqual(list(range(len(before.changes), len(after.changes))), [] if step.made is None else [step.made])
        self.assertEqual([(at, new - old) for at, (old, new) in enumerate(zip(before.changes, after.changes)) if new != old],
                         [] if step.changed is None else [(step.changed.number, step.changed.changes)])
        memo = dict(before.memo)
        if step.stored is not None:
            self.assertEqual(step.stored.before, memo.get(step.stored.key))
            memo[step.stored.key] = step.stored.number
        self.assertEqual(memo, after.memo)
        self.assertEqual((step.stored is not None), step.name in ('PUT', 'BINPUT', 'LONG_BINPUT', 'MEMOIZE'))
        self.assertEqual((step.buffers, step.results), (after.buffers, after.results))

    def test_trace_in_a_window(self) -> None:
        with Session(b'NNN000N.', window=2) as session:
            session.goto(6)
            session.back()
            self.assertEqual(session.trace().took, (1,))
            session.back()
            self.assertRaises(Refused, session.trace)
            session.step()
            self.assertEqual(session.trace().place, 4)


@unittest.skipUnless(has_words('made'), 'the program has no such word')
class Makers(unittest.TestCase):
    def test_made(self) -> None:
        """Who made an object and who changed it is what each step did."""
        for name, data in {**real_pickles(), 'several': b'(NK\x01l.]Na(NNe(e.N}.q'}.items():
            with self.subTest(name), Session(data, many=name == 'several') as session:
                makers: List[Tuple[int, int]] = []
                changed: Dict[int, List[Changer]] = {}
                for item in session.items(0, 200):
                    try:
                        session.step()
                    except Refused:
                        break
                    step = session.trace()
                    if step.made is not None:
                        self.assertEqual(step.made, len(makers))
                        makers.append((item.place, item.offset))
                    if step.changed is not None:
                        changed.setdefault(step.changed.number, []).append(Changer(item.place, item.offset, step.changed.changes))
                for number, maker in enumerate(makers):
                    made = session.made(number)
                    self.assertEqual((made.number, made.place, made.offset, made.since), (number, *maker, 0))
                    self.assertEqual(made.changed, tuple(changed.get(number, ())))
                for number in (len(makers), 2 ** 64 - 1):
                    with self.assertRaises(Refused) as caught:
                        session.made(number)
                    self.assertEqual(caught.exception.code, 'V1')

    def test_made_in_a_window(self) -> None:
        """Of what is before the first record that is kept nothing is known."""
        with Session(b']NaNaNa.', window=3) as session:
            session.goto(7)
            made = session.made(0)
            self.assertEqual((made.place, made.offset, made.since), (None, None, 4))
            self.assertEqual(made.changed, (Changer(4, 4, 1), Changer(6, 6, 1)))
            self.assertEqual([session.made(number).place for number in (1, 2, 3)], [None, None, 5])
            self.assertEqual(session.ask('made 3'), '{"kind":"made","object":3,"item":5,"offset":5,"since":4,"changed":[]}\n')

    def test_after_an_edit(self) -> None:
        with Session(b']Na.') as session:
            session.goto(1)
            session.insert(1, 'BININT1', 7)
            session.insert(2, 'APPEND')
            session.goto(5)
            self.assertEqual(session.made(0).changed, (Changer(2, 3, 1), Changer(4, 5, 1)))
            self.assertEqual((session.made(1).offset, session.made(2).offset), (1, 4))


if __name__ == '__main__':
    unittest.main()
