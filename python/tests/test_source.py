"""Pickles as Python source: running the source gives what loading the pickle gives. Only pickles that are made here are loaded."""

from __future__ import annotations

import ast
import builtins
import collections
import collections.abc
import contextlib
import copyreg
import io
import os
import pickle
import pickletools
import random
import re
import signal
import subprocess
import sys
import tempfile
import time
import unittest
from pathlib import Path
from typing import Any, Callable, List, Tuple

import harmless
import picklestep
from harmless import Maker, OwnList, canonical, executed, opcodes_at_random
from picklestep.python_source import main, source
from picklestep.python_source.code import HEAD, HEAD_OF_CUT, HEAD_OF_PART
from picklestep.python_source.names import TAKEN
from pickles import HOSTILE, real_pickles
from scan_support import environment
from terminals import heed_ctrl_c

_CASES = 10_500
_TOGETHER = 500  # pickles in one input


def dumped(value: Any, seed: int) -> bytes:
    """A pickle of a value, of one of the protocols, by one of the picklers."""
    protocol = seed % 6
    how = random.Random(seed).randrange(4)
    if how == 0:
        file = io.BytesIO()
        pickle._Pickler(file, protocol).dump(value)  # type: ignore[attr-defined]
        return file.getvalue()
    data = pickle.dumps(value, protocol)
    return pickletools.optimize(data) if how == 1 else data


def records(rng: random.Random) -> List[Any]:
    """Records with the same keys, and some parts of them once more."""
    shared = [['x'], {'a': 1}, (1, 2), 'y' * 100, [[1], [2]]]
    keys = [f'key {number}' for number in range(rng.randrange(1, 7))]
    turn = rng.randrange(5)

    def field(at: int, number: int) -> Any:
        if rng.random() < 0.01:
            return rng.choice([*shared, 'z' * rng.randrange(60, 90), None, {'b': [at]}])
        return [at, f'text {at}', at * 0.5, ['a', str(at)], {'x': at, 'y': [at]}, (at, at), [(at, 'z'), [at]], None][(number * turn + number) % 8]

    made: List[Any] = [{key: field(at, number) for number, key in enumerate(keys)} for at in range(rng.choice((5, 60, 800)))]
    for _ in range(4):
        part = rng.choice([*rng.choice([each for each in made if isinstance(each, dict)]).values()])
        made += [part, part[-1:]] if isinstance(part, list) else [{'last': part}]
    return [*made, made[1:3]]


class Equality(unittest.TestCase):
    """What the source makes is what the pickle makes."""

    def test_generated_pickles(self) -> None:
        tried = 0
        for first in range(0, _CASES, _TOGETHER):
            pickles: List[bytes] = []
            seeds = []
            for seed in range(first, first + _TOGETHER):
                with contextlib.suppress(RecursionError):  # (no pickler can write an object that is an argument of its own call)
                    pickles.append(dumped(Maker(seed).value(), seed))
                    seeds.append(seed)
            answer = source(b''.join(pickles), many=True)
            self.assertTrue(answer.end.is_stopped)
            names = executed(answer.text)
            for number, (seed, data) in enumerate(zip(seeds, pickles), 1):
                made = names['result' if number == 1 else f'result_{number}']
                self.assertEqual(canonical(made), canonical(pickle.loads(data)), f'seed {seed}')
                tried += 1
        self.assertGreaterEqual(tried, 10_000)

    def test_records(self) -> None:
        """Many containers of one shape, some of which are others, hold long texts, or have parts that are used again."""
        for seed in range(120):
            data = dumped(records(random.Random(seed)), seed)
            self.assertEqual(canonical(executed(source(data).text)['result']), canonical(pickle.loads(data)), f'seed {seed}')

    def test_what_fills(self) -> None:
        """The methods that C's unpickler calls, or what it raises, where a type has methods of its own or lacks some."""
        whole = OwnList()
        list.append(whole, 1)
        made = [pickle.dumps(whole, protocol) for protocol in range(6)]
        items = [b'', b'K\x01', b'K\x01K\x02', b'](K\x01K\x02e', b'K\x01\x85N']
        for kind in ('OwnList', 'OwnSet', 'OnlyAdds', 'Calls', 'ManyItems', 'ManyMembers', 'ManyKeys', 'Plain'):
            thing = b'charmless\n' + kind.encode() + b'\n)R'
            made += [thing + b'(' + item + fill + b'.' for item in items for fill in (b'e', b'\x90', b'u')]
            made += [thing + b'K\x01' + item + fill for item in items[1:] for fill in (b'a.', b's.')]
        # Items of lists are replaced, byte arrays grow, or neither where there is no such place.
        items = [b'', b'K\x00K\x41', b'K\x01K\x42', b'K\x00K\x41K\x01K\x42', b'K\x07K\x42', b'K\x01N', b'NK\x41']
        for thing in (b']', b'](K\x05K\x06e', b'](K\x05](K\x06ee', b'\x96\2\0\0\0\0\0\0\0ab', b'\x96\0\0\0\0\0\0\0\0', b'}', b'\x8f'):
            made += [thing + b'q\x00(' + item + fill + more + b'h\x00\x86.' for item in items for fill in (b'e', b'u', b'\x90') for more in (b'', b'K\x43a')]
            made += [thing + item + b's.' for item in items[1:]]
        self.assert_same(made)

    def test_states(self) -> None:
        states = [b'N', b'}', b']', b')', b'K\x00', b'}X\x05\0\0\0firstK\x01s', b'NN\x86', b'N}\x86', b'}}\x86', b']]\x86',
                  b'N}X\x05\0\0\0firstK\x01s\x86', b'](X\x01\0\0\0aK\x01\x86e', b'NNN\x87', b'}K\x01K\x02s', b'N}K\x01K\x02s\x86']
        for kind in (b'Plain', b'Slotted', b'Mixed', b'WithState'):
            self.assert_same([b'charmless\n' + kind + b'\n)\x81' + state + b'b.' for state in states])

    def test_names_as_they_are_when_they_are_imported(self) -> None:
        """A part of a dotted name need be no name in Python, and what a module has under a name may change."""
        renew = b'charmless\nrenew\n'
        self.assert_same([b'\x80\x04charmless\nNamed.%b\n.' % name for name in (b'first', b'class', b'\xc3\xa9', b'none', b'class.real', b'')])
        self.assert_same([b'\x80\x04charmless\nNamed.none\n0N.', b'charmless\nnone\n0N.'])
        self.assert_same([renew + b'K\0\x85Rcharmless\nrenewed\n' + renew + b'K\5\x85Rcharmless\nrenewed\n\x87.',
                          b'\x80\x04charmless\nNamed.first\ncharmless\nNamed\nN}X\5\0\0\0firstK\5s\x86b\x86charmless\nNamed\nN}X\5\0\0\0firstK\1s\x86b\x86.'])

    def test_attributes_are_asked_for_once(self) -> None:
        """Of what is built or filled, and of a state, arguments and keywords that come from a call."""
        thing = b'charmless\nAsked\n)\x81'
        items, pairs = b'charmless\nAskedTuple\n(N}\x86tR', b'charmless\nAskedDict\n(](X\4\0\0\0lastK\1\x86etR'
        states = [b'N', b'}', b'K\1', b'}X\1\0\0\0aK\1s', b'NN\x86', b'N}X\1\0\0\0aK\1s\x86', b'K\1}\x86', thing, items, pairs, b'N' + pairs + b'\x86']
        fills = [b'K\1a', b'(K\1K\2e', b'K\1K\2s', b'(K\1K\2u', b'(K\1K\2\x90', *(state + b'b' for state in states)]
        made = [b'charmless\n' + kind + b'\n)\x81' + fill + b'.' for kind in (b'Plain', b'Asked', b'AskedEach', b'AskedAll') for fill in fills]
        made += [b'cbuiltins\nslice\n' + given + b'R.' for given in (items, thing)] + [b'(' + thing + b'o.']
        made += [b'charmless\nWithKeywords\n' + given + b'\x92.' for given in (b')' + pairs, b')' + thing, items + b'}', thing + b'}')]
        for data in made:
            with self.subTest(data):
                found = []
                for run in ways(data):
                    harmless.asked.clear()
                    how, value = outcome(run)
                    asked = [*harmless.asked]
                    found.append((how, asked, how == 'made' and (repr(value) if type(value) is slice else inside(value))))
                self.assertEqual(found[1], found[0], source(data).text)

    def test_names_that_a_call_made(self) -> None:
        """Of STACK_GLOBAL: they are texts and of no other type, dotted from protocol 4 on, and below 3 those of Python 2."""
        makers: List[Callable[[bytes], bytes]] = [
            lambda text: b'V' + text + b'\n', lambda text: b'cbuiltins\nstr\n(V' + text + b'\ntR', lambda text: b'charmless\nOwnText\n(V' + text + b'\ntR',
            lambda text: b'cbuiltins\nbytes\n(C' + bytes([len(text)]) + text + b'tR']
        names = [(b'harmless', b'Named.first'), (b'harmless', b'Named.none'), (b'harmless', b'OwnText'), (b'__builtin__', b'unichr'), (b'none', b'none'),
                 (b'harmless', b''), (b'', b'x')]
        for before in (b'', *(b'\x80' + bytes([protocol]) for protocol in range(6))):
            self.assert_same([before + of_module(module) + of_name(name) + b'\x93.' for of_module in makers for of_name in makers for module, name in names])
        found = source(b'Vos\n' + makers[1](b'getcwd') + b'\x93.' + b'\x80\4Vos\n' + makers[1](b'getcwd') + b'\x93.', many=True)
        self.assertEqual([line for line in found if ' = find_class(' in line], [
            "_5 = find_class('os', _4, protocol=0)  # 29", "_11 = find_class('os', _10, protocol=4)  # 62"])

    def test_what_is_no_tuple_and_no_value(self) -> None:
        kind = b'cbuiltins\nint\n'
        self.assert_same([kind + given + call + b'.' for given in (b')', b']', b'](K\5e', b'}', b'K\5', b'N', b'(K\5t', b'cbuiltins\ntuple\n)R',
                                                                   b'cbuiltins\nlist\n)R') for call in (b'R', b'\x81', b'}\x92')])
        self.assert_same([b'cbuiltins\ndict\n)' + given + b'\x92.' for given in (b'cbuiltins\ndict\n)R', b'cbuiltins\nlist\n)R', b'}X\1\0\0\0aNs')])
        odd = (b'X\1\0\0\0\xff', b'Iabc\n', b'U\1\xff', b'V\\u1\n')
        self.assert_same([each + b'0N.' for each in odd])
        self.assert_same([b'](' + b'(X\1\0\0\0aX\1\0\0\0bt' * before + b'(X\1\0\0\0a' + each + b't' + b'(X\1\0\0\0aX\1\0\0\0bt' * 30 + b'e0N.'
                          for each in odd for before in (0, 30)])

    def test_names_of_results_are_taken(self) -> None:
        lines = source(b'N.K\x05.ca\nresult_2\n.', many=True).text.splitlines()
        self.assertEqual([line.partition('  # ')[0] for line in lines[2:]], ['result_2 = 5', 'from a import result_2 as result_2_2', 'result_3 = result_2_2'])

    def assert_same(self, pickles: List[bytes]) -> None:
        """Each gives what it loads to, or fails as loading does."""
        for data in pickles:
            with self.subTest(data):
                if not picklestep.calls(data).end.is_stopped:
                    self.assertRaises(Exception, pickle.loads, data)
                    continue
                try:
                    wanted = pickle.loads(data)
                except Exception:
                    self.assertRaises(Exception, executed, source(data).text)
                    continue
                made = executed(source(data).text)['result']
                self.assertEqual((type(made), inside(made)), (type(wanted), inside(wanted)), source(data).text)

    def test_opcodes_at_random(self) -> None:
        pickles = [opcodes_at_random(seed) for seed in range(3000)]
        names = executed(source(b''.join(pickles), many=True).text)
        for number, data in enumerate(pickles, 1):
            made = names['result' if number == 1 else f'result_{number}']
            self.assertEqual(canonical(made), canonical(pickle.loads(data)), f'seed {number - 1}')


def ways(data: bytes) -> List[Callable[[], Any]]:
    """What loads a pickle, and what runs its source."""
    text = source(data).text
    return [lambda: pickle.loads(data), lambda: executed(text)['result']]


def outcome(run: Callable[[], Any]) -> Tuple[str, Any]:
    """What it makes, or of which type what it raises is."""
    try:
        return 'made', run()
    except Exception as error:
        return 'raised', type(error)


def inside(value: Any) -> Tuple[Any, ...]:
    """What an object holds, and its attributes."""
    slots = {name: getattr(value, name) for name in ('first', 'second') if hasattr(value, name)}
    return (sorted(map(repr, value)) if isinstance(value, collections.abc.Iterable) else None), getattr(value, '__dict__', None), slots


class Reaching(unittest.TestCase):
    """What reaches out has its offset, as `calls` has it, and its number."""

    def test_offsets_are_those_of_calls(self) -> None:
        for name, data in real_pickles().items():
            with self.subTest(name):
                calls, answer = picklestep.calls(data, many=True), source(data, many=True)
                if calls.end.how == 'unsure':  # (a frame goes on behind STOP: only `calls` ends there)
                    continue
                self.assertEqual(answer.end, calls.end)
                self.assertEqual(_offsets(answer.text), sorted({reach.offset for reach in calls}))
                self.assertEqual(_made(answer.text), sorted(reach.number for reach in calls if reach.number is not None and (
                    reach.what not in ('import', 'readonly') or isinstance(reach.name, picklestep.Extension))))

    def test_readonly(self) -> None:
        self.assertIn('_1 = memoryview(bytearray(b\'a\')).toreadonly()\nresult = _1', source(b'\x96\x01\0\0\0\0\0\0\0a\x98.').text)
        self.assertIn("result = b'a'", source(b'C\x01a\x98.').text)


class Real(unittest.TestCase):
    """Pickles of other libraries, which run where these are installed."""

    def test_libraries(self) -> None:
        python = '/usr/bin/python3'
        environment = {**os.environ, 'PYTHONPATH': os.pathsep.join([os.path.dirname(os.path.dirname(picklestep.__file__)), _HERE]),
                       'PYTHONWARNINGS': 'ignore'}
        if not os.path.exists(python):
            self.skipTest(f'there is no {python}')
        done = subprocess.run([python, os.path.join(_HERE, 'library_pickles.py')], env=environment, capture_output=True, text=True, timeout=900)
        self.assertEqual(done.returncode, 0, done.stdout + done.stderr[-500:])
        counts = dict(line.split() for line in done.stdout.splitlines())
        self.assertGreaterEqual(int(counts.pop('standard')), 70)
        if len(counts) < 10:
            self.skipTest(f'of other libraries there are only {", ".join(counts)}')
        self.assertGreaterEqual(sum(map(int, counts.values())), 300)

    def test_own_pickles_of_the_standard_library(self) -> None:
        tried = 0
        for name, data in real_pickles().items():
            calls = picklestep.calls(data)
            names = {reach.name for reach in calls if reach.what in ('import', 'inst')}
            if calls.end.is_stopped and names <= _KNOWN:
                with self.subTest(name):
                    try:
                        wanted = canonical(pickle.loads(data))
                    except Exception as error:
                        with self.assertRaises(Exception, msg=str(error)):
                            executed(source(data).text)
                        continue
                    self.assertEqual(canonical(executed(source(data).text)['result']), wanted)
                    tried += 1
        self.assertGreater(tried, 40)

    def test_buffers_and_persistent_ids(self) -> None:
        shared = [1]
        buffers: List[Any] = []
        data = pickle.dumps([pickle.PickleBuffer(b'abc'), pickle.PickleBuffer(bytearray(b'def')), shared, shared], 5,
                            buffer_callback=buffers.append)
        wanted = pickle.loads(data, buffers=buffers)
        made = executed(source(data).text, buffers=buffers)['result']
        self.assertEqual([bytes(made[0]), bytes(made[1]), made[2:]], [bytes(wanted[0]), bytes(wanted[1]), wanted[2:]])
        self.assertIs(made[2], made[3])

        class Pickler(pickle.Pickler):
            def persistent_id(self, obj: Any) -> Any:
                return ('kept', 'seven') if obj == 7 else None

        class Unpickler(pickle.Unpickler):
            def persistent_load(self, identity: Any) -> Any:
                return [identity]

        for protocol in range(1, 6):
            file = io.BytesIO()
            Pickler(file, protocol).dump([7, 8, 7])
            wanted = Unpickler(io.BytesIO(file.getvalue())).load()
            self.assertEqual(executed(source(file.getvalue()).text, lambda identity: [identity])['result'], wanted)

    def test_extensions(self) -> None:
        copyreg.add_extension('collections', 'OrderedDict', 77)
        self.addCleanup(copyreg.remove_extension, 'collections', 'OrderedDict', 77)
        data = pickle.dumps(collections.OrderedDict(a=1), 2)
        self.assertIn(b'\x82M', data)
        self.assertEqual(executed(source(data).text)['result'], collections.OrderedDict(a=1))

    def test_extensions_are_kept(self) -> None:
        """What a code was found to be stays, and a name is found as the protocol at its place finds it."""
        codes = {b'\x82\xc9': ('harmless', 'renewed'), b'\x83\xca\xca': ('harmless', 'Named.first'), b'\x84\xff\xff\xff\x7f': ('__builtin__', 'unichr')}
        for opcode, names in codes.items():
            copyreg.add_extension(*names, int.from_bytes(opcode[1:], 'little'))
            self.addCleanup(copyreg.remove_extension, *names, int.from_bytes(opcode[1:], 'little'))
        self.addCleanup(copyreg.clear_extension_cache)
        self.addCleanup(harmless.renew, 0)
        protocols = [b'', *(b'\x80' + bytes([protocol]) for protocol in range(6))]
        pickles = [before + b'(' + opcode + b'charmless\nrenew\n]\x85R' + between + opcode + b't.'
                   for before in protocols for between in protocols for opcode in (*codes, b'\x82\xcb')]
        for data in pickles:
            with self.subTest(data):
                found = []
                for run in ways(data):
                    copyreg.clear_extension_cache()
                    harmless.renew([])
                    how, made = outcome(run)
                    found.append((how, made, how == 'made' and made[0] is made[2], dict(copyreg._extension_cache)))  # type: ignore[attr-defined]
                self.assertEqual(found[1], found[0], source(data).text)
        self.assertIn('\n_2 = extension(202, protocol=0)  # 6\n', source(b'\x80\4N0N.\x83\xca\0.', many=True).text)


class Shown(unittest.TestCase):
    """How the source looks."""

    def test_hostile(self) -> None:
        self.assertEqual(list(source(HOSTILE))[1:], ['from posix import system  # 0', "_3 = system('id')  # 23", 'result = _3'])

    def test_ends_early(self) -> None:
        for data, ending in ((b'(lp0\nI1\na', '# F1 ended at 9: reading ends here, and the stack is\nstack = [[1]]\n'),
                             (b'K\x050', '# F1 ended at 3: reading ends here, and the stack is\nstack = []\n'),
                             (b'K\x01ea.', '# S1 no mark at 2: reading ends here (`calls` shows what loaders reach behind it), and the stack is\nstack = [1]\n'),
                             (b'', '# F1 ended at 0: reading ends here, and the stack is\nstack = []\n'),
                             (b'N.abc', 'result = None\n# 3 bytes after STOP are not read\n')):
            with self.subTest(data):
                self.assertTrue(source(data).text.endswith(ending), source(data).text)

    def test_a_loader_goes_on(self) -> None:
        """Where one of Python's unpicklers reads on, the source does not say that it does the same."""
        call = b'cfractions\nFraction\n)R'
        for data in (b'\x95\x02\0\0\0\0\0\0\0N' + call + b'.', call + b'\x95\xff\0\0\0\0\0\0\0.', b'Np 1\n' + call + b'.'):
            loaded = []
            for load in (pickle.loads, pickle._loads):  # type: ignore[attr-defined]
                with contextlib.suppress(pickle.UnpicklingError):
                    loaded.append(load(data))
            self.assertIn(0, loaded, data)
            self.assertIn(': reading ends here (`calls` shows what loaders reach behind it), and the stack is\nstack = [', source(data).text)

    def test_cut_within_a_frame(self) -> None:
        """Read unframed, what the source has on its stack is what Python's unpickler has there of the same bytes without the FRAME."""
        for value in ([collections.OrderedDict(a=1, b=[2, 3]), collections.Counter('hello')], {'user': 'bob', 'jobs': [1, 2.5, {'x': (1, b'y')}]}):
            for protocol in (4, 5):
                data = pickle.dumps(value, protocol)
                for cut in range(11, len(data)):
                    answer = source(data[:cut], unframed=True)
                    self.assertIn(answer.end.code, ('F1', 'F3'))
                    unpickler = Cut(io.BytesIO(data[:2] + data[11:answer.end.offset]))
                    self.assertEqual(executed(answer.text)['stack'], unpickler.built(), answer.text)
                self.assertEqual(executed(source(data, unframed=True).text)['result'], value)

    def test_names_that_clash_or_are_no_names(self) -> None:
        lines = list(source(b'(ca\nset\ncb\nset\ncb\nset\nca\n_3\nc\x01\nx y\nccl\nclass\nc__future__\ndivision\n'
                            b'ca\nunpickle\nca\nfind_class\nt.'))
        self.assertEqual([line.partition('  # ')[0] for line in lines[2:-1]], [
            'from a import set as set_0', 'from b import set as set_1', 'from b import set as set_2', 'from a import _3 as _3_3',
            "_4 = getattr(import_module('\\x01'), 'x y')", "_5 = getattr(import_module('cl'), 'class')",
            "_6 = getattr(import_module('__future__'), 'division')", 'from a import unpickle as unpickle_7', 'from a import find_class as find_class_8'])

    def test_a_long_name_that_is_called_without_arguments(self) -> None:
        name = 'n' * 500
        self.assertIn(f'_2 = {name}()  # 506', source(f'cos\n{name}\n)R.'.encode('ascii')).text)

    def test_the_names_of_this_python_are_taken(self) -> None:
        self.assertLessEqual({*dir(builtins)} - {'_'}, {name for name, (module, _) in TAKEN.items() if module == 'builtins'})

    def test_cut(self) -> None:
        data = pickle.dumps(['x' * 1000, list(range(100)), {n: n for n in range(20)}, b'y' * 70, 1 << 20000])
        text = source(data, full=False).text
        for shown in (f"'{'x' * 64}' + cut(936)", '15, *cut(84)', '15: 15, **cut(4)', f"b'{'y' * 70}'", "cut('0x1000"):
            self.assertIn(shown, ' '.join(text.split()).replace(', ]', ']'))
        for is_cut, text in ((True, text), (True, source(pickle.dumps(['x' * 1000]), full=False).text), (False, source(data).text),
                             (False, source(pickle.dumps(['cut(4)']), full=False).text)):
            self.assertEqual((text.startswith(HEAD_OF_CUT), text.startswith(HEAD)), (is_cut, not is_cut))
            with self.assertRaises(NameError) if is_cut else contextlib.nullcontext():
                executed(text)
        many = source(pickle.dumps(collections.OrderedDict.fromkeys(range(100))), full=False).text
        self.assertIn('.update(cut(84))  # ', many)

    def test_names_are_never_cut(self) -> None:
        name = 'n' * 500
        data = b'\x80\x04' + b''.join(b'X' + len(part).to_bytes(4, 'little') + part for part in (b'os', name.encode())) + b'\x93.'
        self.assertIn(f'from os import {name}  # ', source(data, full=False).text)

    def test_texts_that_no_loader_takes(self) -> None:
        for data in (b'X\x01\0\0\0\xff.', b'U\x01\xff.', b'I1x\n.', b'I08\n.', b'I0777777777777777777777777\n.', b'Fa\n.', b'Lx\n.',
                     b'V\\u12\n.', b"S'a\\'\n.", b"S'\\\\\\'\n.", b"S'\\x4'\n."):
            with self.subTest(data):
                with self.assertRaises(ValueError):
                    pickle.loads(data)
                with self.assertRaises(ValueError):
                    executed(source(data).text)


    def test_names_that_are_none_import_nothing(self) -> None:
        odd = [b'this\nx\xc7\n', b'th\xc7is\nx\n', b'this\n\n', b'\nthis\n', b'this\n\xed\xa0\x80\n', b'this\n{\xff}\n', b'this\n\xff\'"\n']
        for data in [before + b'c' + name + b'.' for name in odd for before in (b'', b'\x80\4')] + [
                b'(i' + name + b'.' for name in (*odd, b'this\nx\xc3\xa9\n', b'th\xc3\xa9\nx\n')]:
            with self.subTest(data):
                sys.modules.pop('this', None)
                text = source(data).text
                with self.assertRaises((ValueError, EOFError, pickle.UnpicklingError)) as wanted:
                    pickle.loads(data)
                with self.assertRaises((ValueError, EOFError)) as found:
                    executed(text)
                self.assertNotIn('this', sys.modules)
                if isinstance(wanted.exception, UnicodeDecodeError):
                    self.assertEqual(str(found.exception), str(wanted.exception))

    def test_floats_as_c_reads_them(self) -> None:
        """What it refuses, which Python's own reading may take, fails; all else is the same."""
        spelled = ['1', '1.', '.5', '-.5e3', '+1E5', '1e400', '-1e999', '1e-400', 'inf', '-INF', 'Infinity', '+nan', '-nan', '1_0', ' 1', '1 ', '1\r', '\t1', '1_0.5',
                   '.', '', 'e5', '1e', '1e+', '0x10', '1.5\0x', '\0', 'infinit', 'nan(1)', '1' * 400, '0.' + '0' * 400 + '1', '\u0661', '1L', '1,5', '--1']
        for text in spelled:
            data = b'F' + text.encode() + b'\n.'
            with self.subTest(text):
                try:
                    wanted = repr(pickle.loads(data))
                except (ValueError, OverflowError, pickle.UnpicklingError):
                    self.assertRaises((ValueError, OverflowError), executed, source(data).text)
                    self.assertEqual(picklestep.tree(data), text.encode())
                    continue
                self.assertEqual((repr(executed(source(data).text)['result']), repr(picklestep.tree(data))), (wanted, wanted))

    def test_numbers_as_c_reads_them(self) -> None:
        """A number of INT with a 0 before it is octal, and one ends at a NUL byte."""
        for data in (b'I010\n.', b'I-0377\n.', b'I 010\n.', b'I001\n.', b'I-0\n.', b'I+1\n.', b'I7\0x\n.', b'I0x10\n.', b'I1_0\n.', b'L7\0x\n.',
                     b'F1.5\0x\n.'):
            with self.subTest(data):
                made = executed(source(data).text)['result']
                self.assertEqual((made, type(made)), (pickle.loads(data), type(pickle.loads(data))))


class First(unittest.TestCase):
    """The first opcodes alone."""

    def test_the_stack_is_that_of_python(self) -> None:
        """After each opcode, of plain data that is not changed later; with what is below the marks."""
        for data in (pickle.dumps({'a': [1, (2, 3, 'a')], 'b': {7: 'x', None: 2.5}}, protocol) for protocol in (0, 2, 4)):
            machine: Any = pickle._Unpickler(io.BytesIO(data))  # type: ignore[attr-defined]
            machine._unframer = pickle._Unframer(machine._file_read, machine._file_readline)  # type: ignore[attr-defined]
            machine.read, machine.readinto, machine.readline = machine._unframer.read, machine._unframer.readinto, machine._unframer.readline
            machine.metastack, machine.stack, machine.proto = [], [], 0
            machine.append = machine.stack.append
            count = sum(1 for _ in pickletools.genops(data))
            for first in range(count):
                answer = source(data, first=first)
                found = executed(str(answer))
                self.assertEqual(found['stack'], [each for part in (*machine.metastack, machine.stack) for each in part])
                self.assertEqual((answer.end.how, answer.end.item, f'# the first {first} opcodes: the rest is not read, and the stack is' in answer),
                                 ('part', first, True))
                if first + 1 < count:
                    machine.dispatch[machine.read(1)[0]](machine)
            for first in (count, count + 1, None):
                self.assertEqual(str(source(data, first=first)), str(source(data)))
        with self.assertRaises(ValueError):
            source(b'N.', first=-1)

    def test_the_rest_is_not_read(self) -> None:
        data = b'](' + b'K\7' * 3_000_000 + b'e'
        begin = time.process_time()
        self.assertEqual(source(data, first=5)[-1], 'stack = [[], 7, 7, 7]')
        self.assertLess(time.process_time() - begin, 20)
        self.assertEqual(source(b'NN0000.', first=2).end.how, 'part')
        self.assertEqual(source(b'NN0000.', first=7).end.code, 'S2')


class Large(unittest.TestCase):
    """The work grows with the pickle and not faster."""

    def test_deep(self) -> None:
        depth = 100_000
        text = source(b']' * depth + b'a' * (depth - 1) + b'.').text
        made = executed(text)['result']
        for _ in range(depth - 1):
            made, = made
        self.assertEqual(made, [])

    def test_long_text_that_is_used_often(self) -> None:
        data = pickle.dumps(['x' * 100_000, ] * 1000)
        text = source(data).text
        self.assertLess(len(text), 120_000)
        self.assertEqual(executed(text)['result'], ['x' * 100_000] * 1000)

    def test_long_integers(self) -> None:
        number = 1 << 4_000_000
        self.assertEqual(executed(source(pickle.dumps(number)).text)['result'], number)

    def test_a_million_objects(self) -> None:
        values = [{'id': number, 'pair': (number, -0.5)} for number in range(200_000)]
        begun = time.process_time()
        answer = source(pickle.dumps(values))
        self.assertLess(time.process_time() - begun, 20)
        self.assertGreater(len(answer), 200_000)


class Interrupted(unittest.TestCase):
    """Ctrl-C, where something takes long."""

    def test_ctrl_c(self) -> None:
        """It ends with one line and status 130."""
        with tempfile.TemporaryDirectory() as folder:
            for name, item in (('a', b'K\7'), ('b', b'K\x08')):
                with open(os.path.join(folder, name), 'wb') as file:
                    file.write(b'](' + item * 3_000_000 + b'e.')
            for words in (['source', 'a'], ['diff', 'a', 'b']):
                run = subprocess.Popen([sys.executable, '-m', 'picklestep', *words], cwd=folder, env=environment(), stdout=subprocess.DEVNULL,
                                       stderr=subprocess.PIPE, preexec_fn=heed_ctrl_c, start_new_session=True)
                while run.poll() is None and sum(map(int, Path(f'/proc/{run.pid}/stat').read_text(encoding='ascii').rpartition(')')[2].split()[11:13])) < 120:
                    time.sleep(0.05)  # (it has begun to read once it has worked for so many hundredths of a second)
                os.killpg(run.pid, signal.SIGINT)
                self.assertEqual((run.communicate(timeout=600)[1], run.returncode), (b'picklestep: interrupted\n', 130), words)


class Words(unittest.TestCase):
    """`picklestep source`."""

    def said(self, *words: str) -> Tuple[int, str]:
        with contextlib.redirect_stdout(io.TextIOWrapper(io.BytesIO(), 'ascii')) as out, contextlib.redirect_stderr(io.StringIO()):
            status = main(list(words))
        out.seek(0)
        return status, out.read()

    def test_status(self) -> None:
        with tempfile.TemporaryDirectory() as folder:
            path = os.path.join(folder, 'a.pickle')
            for data, status in ((b'X\x03\0\0\0\xe2\x82\xac.', 0), (b'N', 1), (b'N0.', 1), (b'N.N', 0)):
                with open(path, 'wb') as file:
                    file.write(data)
                self.assertEqual(self.said(path)[0], status)
            self.assertEqual(self.said('--many', path)[0], 1)
            with open(path, 'wb') as file:
                file.write(pickle.dumps([7, 'x'], 4)[:-2])
            self.assertEqual([self.said(path)[1].splitlines()[-2], self.said('--unframed', path)], ['stack = []', (1, HEAD_OF_PART + (
                "# F1 ended at 20: reading ends here, and the stack is\nstack = [[], 7, 'x']\n"))])
            with open(path, 'wb') as file:
                file.write(b'X\x03\0\0\0\xe2\x82\xac.')
            self.assertIn("result = '\\u20ac'", self.said(path)[1])
            self.assertEqual(self.said(os.path.join(folder, 'none'))[0], 2)


class Cut(pickle._Unpickler):  # type: ignore[name-defined,misc]
    """Python's unpickler, of bytes that end before their STOP."""

    def built(self) -> List[Any]:
        """What is on its stack then."""
        with contextlib.suppress(EOFError):
            self.load()
        return [*(each for section in self.metastack for each in section), *self.stack]


_HERE = os.path.dirname(os.path.abspath(__file__))
_COMMENT = re.compile(r'  # ([0-9]+)(?:, in the pickle .*)?$', re.MULTILINE)
_KNOWN = {picklestep.Global(module.encode(), name.encode()) for module, names in {
    'collections': 'OrderedDict deque Counter defaultdict', 'datetime': 'date datetime time timedelta timezone', 'decimal': 'Decimal',
    '__builtin__': 'set frozenset complex bytearray range slice object list dict', 'builtins': 'set frozenset complex bytearray range list',
    'copy_reg': '_reconstructor', 'copyreg': '_reconstructor', 'fractions': 'Fraction', 'uuid': 'UUID', 'logging': 'LogRecord',
    '_codecs': 'encode', 'types': 'SimpleNamespace'}.items() for name in names.split()}


def _offsets(text: str) -> List[int]:
    """The offsets in the comments of a source."""
    return sorted({int(match[1]) for match in _COMMENT.finditer(text)})


def _made(text: str) -> List[int]:
    """The numbers of the objects that come from calls, persistent ids and buffers."""
    lines = text.splitlines()
    found = []
    for statement in ast.parse(text).body:
        if isinstance(statement, ast.Assign) and isinstance(statement.targets[0], ast.Name) and _COMMENT.search(lines[(statement.end_lineno or 0) - 1]):
            shown = ast.unparse(statement)
            if re.match('_[0-9]+ = ', shown) and not re.search(r'import_module\(|find_class\(|\.toreadonly\(\)$', shown):
                found.append(int(shown.partition(' ')[0][1:]))
    return sorted(found)


if __name__ == '__main__':
    unittest.main()
