"""`rename` of the shell: the imports have their new names, and all else in the pickle is as it was."""

from __future__ import annotations

import collections
import io
import itertools
import pickle
import pickletools
import random
import time
import unittest
from typing import Any, Callable, List, Tuple
from unittest import mock

import harmless
import picklestep
from cut_pickles import Loader, fault_of, shape, whole_pickles
from pickles import chosen
from picklestep import Global
from picklestep.shell import shell as shell_module
from picklestep.shell.opened import Opened
from picklestep.renaming.renames import Renaming, renaming
from picklestep.shell.shell import Shell, WordError

Names = Tuple[str, str]
Change = Callable[[str, str], Names]


class _Renaming(Loader):
    """Loads with stand-ins under other names."""

    def __init__(self, data: bytes, change: Change) -> None:
        super().__init__(data)
        self._change = change

    def find_class(self, module: str, name: str) -> Any:
        if name == 'getattr':  # (by which older protocols take a class within a class)
            return lambda kind, name: self._names.find(kind.name[0], f'{kind.name[1]}.{name}')
        return super().find_class(*self._change(module, name))


def of_module(old: str, new: str) -> Change:
    """The names after a module was renamed."""
    def change(module: str, name: str) -> Names:
        return (new + module[len(old):], name) if (module + '.').startswith(old + '.') else (module, name)
    return change


def of_name(old: str, new: str) -> Change:
    """The names after one name was."""
    def change(module: str, name: str) -> Names:
        found: Tuple[str, ...] = tuple(new.split(':')) if f'{module}:{name}' == old else (module, name)
        return found[0], found[1]
    return change


def renamed(data: bytes, old: str, new: str, is_undone: bool = False) -> bytes:
    """The pickle after a rename, or as it is where nothing is imported so. It may be undone and made again in between."""
    with Shell(data, '') as shell:
        try:
            shell.obey(f'rename {old} {new}')
        except WordError as error:
            if 'nothing is imported' not in str(error):
                raise
            return data
        made = shell.pickle.content()
        if is_undone:
            shell.obey('undo')
            assert shell.pickle.content() == data
            shell.obey('redo')
            assert shell.pickle.content() == made
        return made


_SHARED = [part for kind in (*harmless.KINDS, collections.OrderedDict) for part in (kind.__module__, kind.__qualname__)]


def value(chosen: random.Random, depth: int = 3) -> Any:
    """A value in which the names of modules and classes are data too: the same objects, as interned names are."""
    way = chosen.randrange(8)
    if not depth or way < 3:
        return chosen.choice([chosen.choice(_SHARED), chosen.choice(harmless.KINDS), 7, 'a'])
    if way == 3:
        return {chosen.choice(_SHARED): value(chosen, depth - 1) for _ in range(3)}
    if way == 4:
        return collections.OrderedDict((chosen.choice(_SHARED), value(chosen, depth - 1)) for _ in range(2))
    if way == 5:
        made = chosen.choice((harmless.Plain, harmless.Outer.Inner))()
        made.name, made.more = chosen.choice(_SHARED), value(chosen, depth - 1)
        return made
    made = [value(chosen, depth - 1) for _ in range(chosen.randrange(5))]
    return made if way == 6 else tuple(made)


def dumped(seed: int) -> bytes:
    """A pickle of such a value, of one of the protocols, by one of the picklers."""
    chosen = random.Random(seed)
    made = value(chosen)
    if seed % 3 == 0:
        file = io.BytesIO()
        pickle._Pickler(file, seed % 6).dump(made)  # type: ignore[attr-defined]
        return file.getvalue()
    data = pickle.dumps(made, seed % 6)
    return pickletools.optimize(data) if seed % 3 == 1 else data


_TEXTS = (b'\x8c\x03old', b'X\x07\0\0\0old.sub', b'\x8c\x01A', b'V' + b'B.C\n', b'\x8c\x03new', b"S'old'\n", b'U\x01A')


def opcodes(seed: int) -> bytes:
    """A pickle that no pickler writes: texts that are names, data, or both, by the memo and by DUP."""
    chosen = random.Random(seed)
    made: List[bytes] = [b'\x80\x04]']
    stack: List[bool] = [False]  # (whether it is a text)
    memo = 0
    for _ in range(chosen.randrange(5, 60)):
        way = chosen.randrange(10)
        if way < 3:
            made.append(chosen.choice(_TEXTS))
            stack.append(True)
        elif way == 3 and len(stack) > 1 and stack[-1]:
            made.append(b'\x94')
            memo += 1
        elif way < 6 and memo:
            made.append(b'h' + bytes([chosen.randrange(memo)]))
            stack.append(True)
        elif way == 6 and len(stack) > 1:
            made.append(b'2')
            stack.append(stack[-1])
        elif way == 7 and len(stack) > 2:
            made.append(b'0' if chosen.random() < 0.3 else b'\x86')
            stack[-2:] = stack[-2:-1] if made[-1] == b'0' else [False]
        elif stack[-2:] == [True, True]:
            made.append(b'\x93')
            stack[-2:] = [False]
        elif len(stack) == 2:
            made.append(b'a')
            stack.pop()
    return b''.join(made) + chosen.choice([b'', b'0' * (len(stack) - 1)]) + b'.'


class Renames(unittest.TestCase):
    """With harmless stand-ins the renamed pickle loads to the same, but for the names of what it imports."""

    def assert_renamed(self, data: bytes, old: str, new: str) -> bytes:
        made = renamed(data, old, new)
        wanted = shape(_Renaming(data, (of_name if ':' in old else of_module)(old, new)).load())
        self.assertEqual(shape(_Renaming(made, lambda *names: names).load()), wanted, (data, made))
        return made

    def test_texts_that_are_modules_and_data(self) -> None:
        values = (['collections', collections.OrderedDict()], [collections.OrderedDict(), 'collections'], {'OrderedDict': collections.OrderedDict},
                  [collections.OrderedDict, 'collections', collections.deque([1]), collections.OrderedDict()], ('collections',) * 3)
        for protocol, made in chosen(itertools.product(range(6), values), 6):
            data = pickle.dumps(made, protocol)
            with self.subTest(made, protocol=protocol):
                self.assert_renamed(data, 'collections', 'coll')
                self.assert_renamed(data, 'collections:OrderedDict', 'collections:Kept')
        self.assertEqual(pickle.loads(renamed(pickle.dumps(['copyreg', collections.OrderedDict()], 4), 'collections', 'typing')), ['copyreg', {}])

    def test_pickles_of_picklers(self) -> None:
        changed, seeds = 0, chosen(range(120), 6)
        for seed in seeds:
            data = dumped(seed)
            with self.subTest(seed=seed):
                changed += self.assert_renamed(data, 'harmless', 'a.b') != data
                changed += self.assert_renamed(data, *random.Random(seed).choice((
                    ('harmless:Plain', 'harmless:Plainer'), ('harmless:Outer.Inner', 'c:D'), ('collections', 'x' * 300),
                    ('collections:OrderedDict', 'b:O')))) != data
        self.assertGreater(changed, len(seeds) * 2 // 3)

    def test_opcodes_at_random(self) -> None:
        changed, seeds = 0, chosen(range(200), 15)
        for seed in seeds:
            data = opcodes(seed)
            with self.subTest(seed=seed):
                try:
                    Loader(data).load()
                except pickle.UnpicklingError:
                    continue
                names = random.Random(seed).choice((('old', 'fresh'), ('old:A', 'new:A'), ('old:A', 'old:B'), ('old.sub', 'old')))
                changed += self.assert_renamed(data, *names) != data
        self.assertGreater(changed, len(seeds) * 3 // 20)

    def test_real_pickles(self) -> None:
        tried, found = 0, chosen(whole_pickles().items(), 15)
        for name, data in found:
            with Shell(data, '') as shell:
                modules = sorted({reach.name.module.decode() for reach in shell.pickle.imports()})  # type: ignore[union-attr]
            for module in modules[:2]:
                with self.subTest(name, module=module):
                    made = renamed(data, module, 'renamed.by.test', is_undone=True)
                    with Shell(made, '') as shell:
                        self.assertNotIn(module, {reach.name.module.decode() for reach in shell.pickle.imports()})  # type: ignore[union-attr]
                    tried += 1
        self.assertGreater(tried, len(found) // 4)

    def test_inst_and_names_of_python_2(self) -> None:
        self.assertEqual(renamed(b'(iold\nA\n.', 'old', 'new'), b'(inew\nA\n.')
        for old in ('__builtin__', 'builtins'):
            self.assertIn(b'cours\n', renamed(b'\x80\x02c__builtin__\nset\n.', old, 'ours'))
        self.assertEqual(renamed(b'cold\n\xff\n.', 'old', 'new'), b'cnew\n\xff\n.')

    def test_what_is_said(self) -> None:
        with Shell(pickle.dumps(['collections', collections.OrderedDict()], 4), '') as shell:
            self.assertEqual(shell.obey('rename collections coll').split('\n'), [
                "7: SHORT_BINUNICODE 'coll' (was BINGET 1)", "5: SHORT_BINUNICODE 'collections' stays: it is data too"])
        with Shell(pickle.dumps([collections.OrderedDict(), 'collections'], 4), '') as shell:
            self.assertEqual(shell.obey('rename collections coll').split('\n'), [
                '7: POP is new', "8: SHORT_BINUNICODE 'coll' is new", "5: SHORT_BINUNICODE 'collections' stays: it is data too"])

    def test_new_names(self) -> None:
        """A name alone stays in its module, and no name may be empty."""
        data = b'\x80\x04cold.m\nA\n.'
        for line, wanted in (('old.m:A B', b'cold.m\nB\n'), ('old.m:A B.C', b'cold.m\nB.C\n'), ('old.m:A n:B', b'cn\nB\n'), ('old n', b'cn.m\nA\n')):
            with self.subTest(line):
                self.assertEqual(renamed(data, *line.split()), b'\x80\x04' + wanted + b'.')
        with Shell(data, '') as shell:
            for line in ('old.m:A x:', 'old.m:A :x', 'old.m:A :', 'old new:', 'old :new', 'old new:A', 'old :'):
                with self.subTest(line), self.assertRaisesRegex(WordError, 'is no new name'):
                    shell.obey(f'rename {line}')
            self.assertEqual(shell.pickle.content(), data)

    def test_texts_in_a_long_line(self) -> None:
        """A list of 800,000 texts is looked through once: the modules of two imports, and quoted words like their numbers."""
        texts = b'\x8c\x03old\x94\x8c\x01A\x93h\0\x8c\x01B\x93'
        data = b'\x80\x04(' + texts + b'X' + (400_000 * 3).to_bytes(4, 'little') + b' #1' * 400_000 + b'](' + b'h\0' * 800_000 + b'et.'
        began = time.process_time()
        with Shell(data, '') as shell:
            self.assertIn('stays: it is data too', shell.obey('rename old new'))
            self.assertEqual([reach.name for reach in shell.pickle.imports()], [Global(b'new', b'A'), Global(b'new', b'B')])
        self.assertLess(time.process_time() - began, 90)

    def test_interrupted_before_the_check(self) -> None:
        """What Ctrl-C leaves is checked before the next line: the rename is whole, or was not made."""
        data = pickle.dumps(['collections', collections.OrderedDict()], 4)
        real, settle = renaming, Opened.settle

        def wrong(*words: Any) -> Renaming:
            return real(*words)._replace(names=[])

        def interrupted(opened: Opened) -> None:
            settle(opened)
            if opened.edits_made:
                raise KeyboardInterrupt
        for found, is_made in ((real, True), (wrong, False)):
            with self.subTest(is_made=is_made), Shell(data, '') as shell:
                with mock.patch.object(shell_module, 'renaming', found), mock.patch.object(Opened, 'settle', interrupted):
                    with self.assertRaises(KeyboardInterrupt):
                        shell.obey('rename collections coll')
                if is_made:
                    shell.obey('where')
                else:
                    with self.assertRaisesRegex(WordError, 'not renamed'):
                        shell.obey('where')
                self.assertEqual(b'coll\x94' in shell.pickle.content() or shell.pickle.content() != data, is_made)
                self.assertEqual(shell.is_unsaved, is_made)
                shell.obey('where')

    def test_at_a_refused_opcode(self) -> None:
        """A rename is the same wherever the cursor is, also where it can go no further."""
        for data in (b'\x80\x04cold\nf\n)R00.', b'\x80\x04\x8c\x03old\x94\x8c\x01f\x93h\x000h\x07.'):
            made = []
            for lines in ((), ('run',), ('goto 2',)):
                with Shell(data, '') as shell:
                    for line in lines:
                        shell.obey(line)
                    place = shell.pickle.session.where().place
                    self.assertIn('(Reading ends early', shell.obey('rename old new'))
                    made.append(shell.pickle.content())
                    self.assertLessEqual(place, shell.pickle.session.where().place)
            with self.subTest(data):
                self.assertEqual(made, made[:1] * 3)
                self.assertEqual([reach.name for reach in picklestep.calls(made[0]) if reach.what == 'import'], [Global(b'new', b'f')])

    def test_cut_pickles_keep_their_data(self) -> None:
        """A text on the stack where the bytes end is data."""
        data = b'\x80\x04](\x8c\x03old\x94h\0\x8c\x01A\x93'
        with Shell(data, '') as shell:
            shell.obey('run')
            self.assertIn('(Reading ends early', shell.obey('rename old new'))
            made = shell.pickle.content()
        self.assertEqual(made, b'\x80\x04](\x8c\x03old\x94\x8c\x03new\x8c\x01A\x93')
        self.assertEqual(fault_of(made), '')


if __name__ == '__main__':
    unittest.main()
