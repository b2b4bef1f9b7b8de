"""Results as nested data, and what two pickles differ in."""

from __future__ import annotations

import collections
import contextlib
import datetime
import io
import itertools
import os
import pickle
import pickletools
import random
import subprocess
import sys
import tempfile
import time
import unittest
from decimal import Decimal
from typing import Any, Callable, Dict, List, Optional

import picklestep
from harmless import Maker, Plain, canonical
from picklestep.aligning import Steps, aligned
from picklestep.comparing import shown_value
from picklestep.diff import main
from pickles import HOSTILE, changed_pickles, known_opcodes, real_pickles


def _of_one_hash(count: int, value: bytes) -> bytes:
    """A dictionary whose keys all have the same hash in Python."""
    keys = (pickle.encode_long(number * (2 ** 61 - 1)) for number in range(1, count + 1))
    return b'\x80\x02}(' + b''.join(b'\x8a' + bytes([len(key)]) + key + value for key in keys) + b'u.'


def _paths(old: Any, new: Any) -> List[str]:
    return [str(difference) for difference in picklestep.compare(pickle.dumps(old), pickle.dumps(new))]


class Values(unittest.TestCase):
    """Plain values are what Python's own reader says."""

    def test_opcodes_of_real_pickles(self) -> None:
        compared = 0
        for name, data in real_pickles().items():
            known = {opcode.offset: opcode for opcode in known_opcodes(data)}
            for opcode in picklestep.listing(data):
                wanted = known.get(opcode.offset)
                if wanted is None or isinstance(wanted.value, str) and opcode.name.endswith(('STRING', 'PERSID')):
                    continue
                value = opcode.value
                if isinstance(value, tuple):
                    value = ' '.join(map(str, value))
                if wanted.value is not None:
                    with self.subTest(name, offset=opcode.offset):
                        self.assertEqual((value, repr(value)), (wanted.value, repr(wanted.value)))
                        compared += 1
        self.assertGreater(compared, 3000)

    def test_keys_of_one_hash(self) -> None:
        """Python would compare each of them with all others: what a loader does with them is its own, and no word here takes so long."""
        few, many = picklestep.tree(_of_one_hash(50, b'N')), picklestep.tree(_of_one_hash(51, b'N'))
        self.assertEqual(list(few), [number * (2 ** 61 - 1) for number in range(1, 51)])
        self.assertEqual(set(map(type, many)), {picklestep.Ref})
        self.assertEqual(list(map(str, picklestep.compare(_of_one_hash(60, b'N'), _of_one_hash(60, b'N')[:-3] + b'K\x01u.'))), [f'[{60 * (2 ** 61 - 1)}]: None -> 1'])
        begin = time.process_time()
        self.assertEqual(len(picklestep.compare(_of_one_hash(40_000, b'N'), _of_one_hash(40_000, b'K\x01'))), 40_000)
        self.assertLess(time.process_time() - begin, 15)

    def test_objects(self) -> None:
        values = [None, True, False, 7, -(1 << 70), 2.5, 'caf\xe9', b'\x00\xff', bytearray(b'a')]
        for protocol in range(6):
            for value in values[:7] if protocol < 5 else values:
                made = picklestep.objects(pickle.dumps(value, protocol))
                self.assertEqual(made[0].value, value, protocol)
        self.assertEqual(picklestep.objects(b'].')[0].value, picklestep.Ref(0))


class Tree(unittest.TestCase):
    """The result of a pickle as data."""

    def test_plain_data_is_what_loading_gives(self) -> None:
        tried = 0
        for seed in range(1500):
            with contextlib.suppress(RecursionError):
                data = pickle.dumps(Maker(seed).value(), seed % 6)
                if any(opcode.name.endswith(('GLOBAL', 'INST')) for opcode, _, _ in pickletools.genops(data)):
                    continue
                self.assertEqual(canonical(picklestep.tree(data)), canonical(pickle.loads(data)), seed)
                tried += 1
        self.assertGreater(tried, 150)

    def test_many_objects(self) -> None:
        """Lines are read many at a time, those of one kind together: what is in one place is what loading gives there."""
        chance = random.Random(84)
        texts = ('', 'a', 'caf\xe9', '\ud800', '\U0001f600', 'it"s', '\\', ']}', '"}', ',"changes":[', '{"kind":"append","value":4}', 'x' * 70, '\n')
        makers: List[Callable[[], Any]] = [
            lambda: chance.choice(texts), lambda: chance.randrange(9), lambda: chance.randrange(-2 ** 70, 2 ** 70), lambda: chance.choice((0.0, -0.0, float('nan'), float('inf'))),
            chance.random, lambda: str(chance.random()), lambda: None, lambda: True, list, dict, tuple, lambda: [1, 'a'], lambda: [chance.random()], lambda: {'a': [2.5], 'b': 1},
            lambda: {str(chance.random()): chance.randrange(300)}, lambda: (1, [2], 'c')]
        of_protocols: Dict[int, List[Callable[[], Any]]] = {3: [lambda: b'\xff'], 4: [set, lambda: {'a', 'b'}, lambda: frozenset((1, 2))], 5: [lambda: bytearray(b'x')]}
        for protocol in range(6):
            makers += of_protocols.get(protocol, [])
            for size in (10, 1023, 1024, 1025, 4000):
                made = [chance.choice(makers)() for _ in range(size)]
                made += made[:5]
                self.assertEqual(canonical(picklestep.tree(pickle.dumps(made, protocol))), canonical(made), (size, protocol))

    def test_changes(self) -> None:
        """Whatever is done to plain data, the result is what loading gives; where loading fails there may be none."""
        tried = 0
        for data in changed_pickles():
            if not picklestep.calls(data).end.is_stopped:
                continue
            with self.subTest(data):
                try:
                    loaded = pickle.loads(data)
                except Exception:
                    with contextlib.suppress(picklestep.NoResult):
                        picklestep.tree(data)
                    continue
                self.assertEqual(canonical(picklestep.tree(data)), canonical(loaded))
                self.assertEqual(picklestep.compare(data, pickle.dumps(loaded, 5)), [])
                tried += 1
        self.assertGreater(tried, 500)

    def test_items_that_are_set_at_an_unknown_place(self) -> None:
        """A call may give an index: nothing is known of the list then."""
        for data in (b'](K\x05K\x06ecbuiltins\nint\n)RNs.', b'\x96\x01\0\0\0\0\0\0\0xcbuiltins\nint\n)RK\x01s.'):
            self.assertEqual(pickle.loads(data)[0], [None, 1][data[:1] != b']'])
            with self.assertRaisesRegex(picklestep.NoResult, 'how object #0 is changed'):
                picklestep.tree(data)

    def test_calls(self) -> None:
        made = picklestep.tree(pickle.dumps(collections.OrderedDict(a=[1])))
        self.assertEqual((made.how, made.name, made.arguments, made.pairs),
                         ('call', picklestep.Global(b'collections', b'OrderedDict'), (), [('a', [1])]))
        self.assertEqual(picklestep.tree(HOSTILE).arguments, ('id',))
        self.assertEqual([value.code for value in picklestep.tree(b'\x82\x01.\x82\x02.', many=True)], [1, 2])

    def test_names_of_python_2(self) -> None:
        """They are what CPython imports, which depends on the protocol where they stand."""
        loaded = [data for data in (before + name + after for before in (b'', b'\x80\x02', b'\x80\x03', b'\x80\x04') for name, after in (
            (b'c__builtin__\nset\n', b'.'), (b'cbuiltins\nset\n', b'.'), (b'V__builtin__\nVset\n\x93', b'.'), (b'ccopy_reg\n_reconstructor\n', b'.'),
            (b'(i__builtin__\nset\n', b'.'), (b'N0\x80\x04c__builtin__\nset\n', b'.'))) if fails(data) is None]
        self.assertEqual(len(loaded), 12)
        for one, other in itertools.product(loaded, loaded):
            is_same = pickle.loads(one) == pickle.loads(other)
            self.assertEqual(picklestep.compare(one, io.BytesIO(other)) == [], is_same, (one, other))
        for data in loaded:
            self.assertEqual(*map(shown_value, (picklestep.tree(data), picklestep.tree(b'N.' + data, many=True)[1])))

    def test_keys_without_a_hash(self) -> None:
        self.assertEqual(picklestep.tree(b'}]Ns.'), {picklestep.Ref(1): None})
        deep = b'}' + b'N' + b'\x85' * 100_000 + b'Ns.'
        self.assertEqual(len(picklestep.tree(deep)), 1)

    def test_no_result(self) -> None:
        for data in (b'', b'N', b'0.', b'N.N'):
            with self.assertRaises(picklestep.NoResult):
                picklestep.tree(data, many=True)


    def test_unframed(self) -> None:
        """A frame whose length is false, read as Python's unpickler reads the bytes without it."""
        for length in (3, 1 << 40):
            data = crooked({'a': [1, 2]}, length)
            with self.assertRaisesRegex(picklestep.NoResult, 'F[78] .*unframed=True'):
                picklestep.tree(data)
            self.assertEqual(picklestep.tree(data, unframed=True), pickle.loads(data[:2] + data[11:]))


def fails(data: bytes) -> Optional[Exception]:
    """Why it does not load, if it does not."""
    try:
        pickle.loads(data)
    except Exception as error:
        return error
    return None


def crooked(value: Any, length: int) -> bytes:
    """A pickle whose FRAME says another length."""
    data = pickle.dumps(value, 4)
    return data[:3] + length.to_bytes(8, 'little') + data[11:]


_KEYS = [Decimal(1), Decimal(2), datetime.date(2020, 1, 1), datetime.date(2020, 1, 2), (Decimal(1), 'x'), (Decimal(2), 'x'), frozenset([Decimal(3)]),
         frozenset([Decimal(3), datetime.timedelta(2)]), 'a', 'b', 7, (7, 'a'), frozenset(['a', 'b'])]


def odd(chosen: random.Random) -> Any:
    """A set or dictionary of few keys, some of which are made by calls."""
    keys = chosen.sample(_KEYS, chosen.randrange(3, 6))
    return {*keys} if chosen.random() < 0.5 else {key: chosen.choice([1, [Decimal(1)], {Decimal(2): {Decimal(3), Decimal(4)}}]) for key in keys}


def again(chosen: random.Random, value: Any) -> Any:
    """The same in another order."""
    keys = chosen.sample(list(value), len(value))
    return {*keys} if isinstance(value, set) else {key: value[key] for key in keys}


class Compare(unittest.TestCase):
    """What two pickles differ in."""

    def test_equal(self) -> None:
        for name, data in real_pickles().items():
            with self.subTest(name), contextlib.suppress(picklestep.NoResult):
                self.assertEqual(picklestep.compare(data, data), [])
        ring: List[Any] = []
        ring.append(ring)
        self.assertEqual(_paths(ring, ring), [])
        self.assertEqual(_paths(float('nan'), float('nan')), [])

    def test_paths(self) -> None:
        old = {'model': {'weights': [0.5, 1.0, 1.5, 2.0]}, 'gone': 1, 'same': (1, 'x')}
        new = {'model': {'weights': [0.5, 1.0, 1.5, 2.5, 3.0]}, 'same': (1, 'x'), 'more': {1, 2}}
        self.assertEqual(_paths(old, new), ["['model']['weights'][3]: 2.0 -> 2.5", "['model']['weights'][4]: added 3.0",
                                            "['gone']: removed 1", "['more']: added set of 2"])

    def test_lists_are_aligned(self) -> None:
        """An item that is left out or put in is one difference, wherever it is; what is behind it is compared with what it stands for."""
        ten = list(range(10, 20))
        self.assertEqual(_paths(ten, ten[1:]), ['[0]: removed 10'])
        self.assertEqual(_paths(ten[1:], ten), ['[0]: added 10'])
        self.assertEqual(_paths(ten, ten[:4] + ten[5:]), ['[4]: removed 14'])
        self.assertEqual(_paths(ten, [7, *ten[:4], *ten[5:], 8]), ['[0]: added 7', '[4]: removed 14', '[10]: added 8'])
        records = [{'name': name, 'age': 7} for name in 'abcde']
        changed = [dict(record) for record in records[1:]]
        changed[2]['age'] = 8
        self.assertEqual(_paths(records, changed), ['[0]: removed dict of 2', "[3]['age']: 7 -> 8"])
        self.assertEqual(_paths(['x', {'a': 1}], [{'a': 2}]), ["[0]: removed 'x'", "[1]['a']: 1 -> 2"])
        self.assertEqual(_paths(['a', 'b', 'a', 'b'], ['b', 'a', 'b', 'a']), ["[0]: removed 'a'", "[3]: added 'a'"])
        self.assertEqual(_paths(collections.deque([1, 2, 3]), collections.deque([2, 3])), ['[0]: removed 1'])

    def test_tuples_of_one_length_are_compared_by_place(self) -> None:
        self.assertEqual(_paths((1, 2, 3), (2, 3, 4)), ['[0]: 1 -> 2', '[1]: 2 -> 3', '[2]: 3 -> 4'])
        self.assertEqual(_paths((1, 2, 3), (2, 3)), ['[0]: removed 1'])

    def test_long_lists(self) -> None:
        """In a bounded time, whatever they hold."""
        chosen = random.Random(80)
        most = 100_000
        for name, old, new, least in (('the first is left out', list(range(most)), list(range(1, most)), 1), ('of two values', *([chosen.randrange(2) for _ in range(
                9_000)] for _ in range(2)), 1), ('all others', [chosen.random() for _ in range(30_000)], [chosen.random() for _ in range(30_000)], 30_000),
                ('backwards', list(range(20_000)), list(range(20_000, 0, -1)), 1), ('many lists', [[at, 0, 1] * 9 for at in range(3_000)],
                                                                                   [[0, at, 1] * 9 for at in range(3_000)], 1)):
            with self.subTest(name):
                begun = time.process_time()
                found = picklestep.compare(pickle.dumps(old, 4), pickle.dumps(new, 4))
                self.assertGreaterEqual(len(found), least)
                self.assertLess(time.process_time() - begun, 30)

    def test_one_change_of_many_objects(self) -> None:
        """What is the same in both pickles is not read twice: whatever is changed, wherever it is, is found, and nothing else."""
        chance, count = random.Random(85), 4000
        for turn in range(10):
            old = [chance.choice((at, str(at), [at], {'a': at, 'b': [at, [at]]}, (at, [at]), 1.5)) for at in range(count)]
            at, new = chance.randrange(count), list(old)
            new[at] = chance.choice((-1, 'other', [-1], {'a': -1}, None, -0.0))
            protocol = turn % 5 + 1
            found = picklestep.compare(pickle.dumps(old, protocol), pickle.dumps(new, protocol))
            self.assertTrue(found, (turn, old[at], new[at]))
            self.assertEqual({each.path.split(']')[0] for each in found}, {f'[{at}'}, (turn, old[at], new[at]))
            self.assertEqual(picklestep.compare(pickle.dumps(new, protocol), pickle.dumps(new, 5 - protocol)), [])

    def test_there_is_a_difference_where_lists_differ(self) -> None:
        for seed in range(400):
            chosen = random.Random(seed)
            old, new = ([chosen.choice([0, 1, 'a', [1], [2], {'k': 1}, 0.0, -0.0, True]) for _ in range(chosen.randrange(6))] for _ in range(2))
            is_same = canonical(old) == canonical(new)
            with self.subTest(seed, old=old, new=new):
                self.assertEqual(_paths(old, new) == [], is_same)

    def test_long_values_are_cut(self) -> None:
        self.assertEqual(_paths(10 ** 100, 10 ** 100 + 1), ['result: 0 at 100 -> 1'])
        self.assertEqual(_paths(0, 10 ** 100), [f'result: 0 -> {10 ** 63}+37'])
        name = b'm' * 5_000
        self.assertEqual([str(each) for each in picklestep.compare(b'N.', b'c' + name + b'\nn\n.')], [f'result: None -> {"m" * 200}+4800.n'])
        self.assertLess(len(str(picklestep.compare(b'c' + name + b'x\nn\n.', b'c' + name + b'y\nn\n.')[0])), 100)
        depth = 20_000
        line = str(picklestep.compare(*(b']' * depth + end + b'a' * depth + b'.' for end in (b'K\x01', b'K\x02')))[0])
        self.assertEqual(line, '[0]' * 66 + '[0' + ' .. 59,600 letters .. ' + '0]' + '[0]' * 66 + ': 1 -> 2')

    def test_sets_in_another_order(self) -> None:
        """Python writes a set in another order in each run. What differs is the same, in the same order."""
        code = ('import pickle, sys, decimal; made = lambda *words: {*words, *map(len, words), *(decimal.Decimal(10 * len(word)) for word in words)}\n'
                'sys.stdout.buffer.write(pickle.dumps(made("one", "three", "fifteen", "hundred thousand"), 4) if sys.argv[1] == "old" else '
                'pickle.dumps(made("two", "three", "hundred", "thousand"), 4))')
        said = set()
        for seed in range(6):
            old, new = (subprocess.run([sys.executable, '-c', code, which], env={**os.environ, 'PYTHONHASHSEED': str(seed)}, capture_output=True,
                                       check=True).stdout for which in ('old', 'new'))
            said.add('\n'.join(map(str, picklestep.compare(old, new))))
        self.assertEqual(said, {'\n'.join([
            '{16}: removed 16', "{'fifteen'}: removed 'fifteen'", "{'hundred thousand'}: removed 'hundred thousand'", "{'one'}: removed 'one'",
            '{8}: added 8', "{'hundred'}: added 'hundred'", "{'thousand'}: added 'thousand'", "{'two'}: added 'two'",
            "{call decimal.Decimal}.arguments[0]: '160' -> '80'"])})

    def test_kinds(self) -> None:
        self.assertEqual(_paths(1, True), ['result: 1 -> True'])
        self.assertEqual(_paths(0.0, -0.0), ['result: 0.0 -> -0.0'])
        self.assertEqual(_paths({1, 2}, {2, 3}), ['{1}: removed 1', '{3}: added 3'])
        self.assertEqual(_paths(b'a' * 200, b'a' * 100 + b'b' + b'a' * 99), ["result: b'aaaaaaaaaaaaaaaa' at 100 -> b'baaaaaaaaaaaaaaa'"])

    def test_instances(self) -> None:
        one, other = Plain(), Plain()
        one.name, other.name = 'a', 'b'
        self.assertEqual(_paths([one], [other]), ["[0].state['name']: 'a' -> 'b'"])
        self.assertEqual(_paths(collections.OrderedDict(a=1), collections.OrderedDict(a=2)), ["['a']: 1 -> 2"])
        self.assertEqual(_paths(datetime.date(2020, 1, 1), datetime.timedelta(1))[0], 'result.name: datetime.date -> datetime.timedelta')

    def test_order_of_pairs(self) -> None:
        """It counts where a call makes what they are put into, as it does in Python for an OrderedDict, and for no dictionary."""
        make = b'ccollections\nOrderedDict\n)R'
        pairs = [b'K\x01K\x02s', b'K\x03K\x04s', b'K\x01K\x05s', b'cdecimal\nDecimal\n(U\x011tRK\x06s']
        datas = [make + b''.join(some) + b'.' for count in range(5) for some in itertools.permutations(pairs, count)]
        for one, other in itertools.combinations(datas, 2):
            if pickle.loads(one) != pickle.loads(other):
                self.assertTrue(picklestep.compare(one, other), (one, other))
        self.assertEqual([str(each) for each in picklestep.compare(make + b'K\x01K\x02sK\x03K\x04s.', make + b'K\x03K\x04sK\x01K\x02s.')],
                         ['result.pairs[0]: 1: 2 -> 3: 4'])
        self.assertEqual(_paths(collections.OrderedDict(a=1, b=2, c=3), collections.OrderedDict(b=2, c=4)), ["['a']: removed 1", "['c']: 3 -> 4"])
        self.assertEqual(_paths({1: 2, 3: 4}, {3: 4, 1: 2}), [])

    def test_what_no_loader_reads(self) -> None:
        """It is no bytes, and not the same of another opcode."""
        same = [b'C\x01\xe9.', b'U\x01\xe9.', b"S'\xe9'\n.", b'X\x01\0\0\0\xe9.', b'F\xe9\n.', b'I\xe9\n.', b'L\xe9\n.']
        for one, other in itertools.combinations(same, 2):
            self.assertEqual(len(picklestep.compare(one, other)), 1)
            self.assertEqual(picklestep.compare(b'}' + one[:-1] + b'Ns.', b'}' + one[:-1] + b'Ns.'), [])
            self.assertTrue(picklestep.compare(b'}' + one[:-1] + b'Ns.', b'}' + other[:-1] + b'Ns.'))
        self.assertEqual(str(picklestep.compare(b'U\x01\xe9.', b'C\x01\xe9.')[0]), "result: string b'\\xe9' -> b'\\xe9'")
        self.assertEqual(picklestep.tree(b'U\x01\xe9.'), pickle.loads(b'U\x01\xe9.', encoding='bytes'))

    def test_persistent_ids(self) -> None:
        class Unpickler(pickle.Unpickler):
            def persistent_load(self, pid: Any) -> Any:
                return pid

        for data in (b'P1\n.', b'Pa b\n.', b'U\x01aQ.', b'K\x01Q.'):
            wanted = Unpickler(io.BytesIO(data)).load()
            self.assertEqual(picklestep.tree(data).arguments, (wanted,))
        self.assertEqual([str(each) for each in picklestep.compare(b'Pa\n.', b'U\x01aQ.')], [])

    def test_deep(self) -> None:
        depth = 20_000
        old, new = (b']' * depth + end + b'a' * depth + b'.' for end in (b'K\x01', b'K\x02'))
        difference, = picklestep.compare(old, new)
        self.assertEqual((difference.path, difference.new), ('[0]' * depth, '2'))

    def test_words(self) -> None:
        with tempfile.TemporaryDirectory() as folder, contextlib.redirect_stderr(io.StringIO()) as errors:
            paths = [os.path.join(folder, name) for name in 'abc']
            for path, data in zip(paths, (b'K\x01.', b'K\x02.', b'K')):
                with open(path, 'wb') as file:
                    file.write(data)
            for pair, status, said in (((0, 1), 1, 'result: 1 -> 2\n'), ((0, 0), 0, ''), ((0, 2), 2, ''), ((2, 2), 2, '')):
                with contextlib.redirect_stdout(io.StringIO()) as out:
                    self.assertEqual(main([paths[place] for place in pair]), status)
                self.assertEqual(out.getvalue(), said)
            self.assertEqual(errors.getvalue(), 2 * f'picklestep: {paths[2]}: F3 truncated at 0\n')

    def test_keys_and_members_that_are_made_by_calls(self) -> None:
        """There is a difference where Python's own comparison of the values finds one, in whatever order they were written."""
        for seed in range(150):
            chosen = random.Random(seed)
            old, new = odd(chosen), odd(chosen)
            for other in (old, again(chosen, old), new):
                data = [pickle.dumps(value, 4 + seed % 2) for value in (old, other)]
                with self.subTest(seed, old=old, other=other):
                    self.assertEqual(bool(picklestep.compare(*data)), old != other)
        self.assertEqual(_paths({Decimal(1): 'a', Decimal(2): 'b'}, {Decimal(2): 'b', Decimal(1): 'c'}), ["result.values[0]: 'a' -> 'c'"])
        self.assertEqual(_paths({(1, Decimal(1))}, {(1, Decimal(2))}), ["{tuple of 2}[1].arguments[0]: '1' -> '2'"])
        self.assertEqual(_paths({Plain(): 1, Plain(): 2}, {Plain(): 2, Plain(): 1}), [])

    def test_keys_that_are_themselves_alone(self) -> None:
        self.assertEqual(_paths({float('nan'): 1, (float('nan'), 2): 3}, {float('nan'): 1, (float('nan'), 2): 3}), [])
        self.assertEqual(_paths({1: 'a'}, {True: 'a'}), ["[1]: removed 'a'", "[True]: added 'a'"])
        made = b'cos\nm\n)R'
        for key in (b'](K\x01K\x02e', b'\x96\x01\0\0\0\0\0\0\0x', b'N' + b'\x85' * 10_000, made):
            twice = b'\x80\x05' + made + b'(' + 2 * (key + b'K\x01') + b'u.'
            self.assertEqual(picklestep.compare(twice, twice), [], key[:20])

    def test_keys_that_go_deep(self) -> None:
        """Numbers of objects say nothing: each is moved by what was made before it."""
        deep = b'K\x01' + b'\x85' * 60
        for ways, is_other in ((b'}' + deep + b'Ns.', False), (b'}K\x02' + deep[2:] + b'Ns.', True), (b'K\x070}' + deep + b'Ns.', False),
                               (b'K\x070}' + deep + b'\x85Ns.', True)):
            with self.subTest(ways):
                self.assertEqual(bool(picklestep.compare(b'}' + deep + b'Ns.', ways)), is_other)
        for name in (b'str', b'repr'):  # (a name that a call gives)
            new = b'\x80\x04N0\x8c\x02oscbuiltins\n' + name + b'\n)R\x93.'
            self.assertEqual([str(each) for each in picklestep.compare(b'\x80\x04\x8c\x02oscbuiltins\nstr\n)R\x93.', new)],
                             ['result.name.name: builtins.str -> builtins.repr'] * (name == b'repr'))

    def test_keys_that_hold_themselves(self) -> None:
        old, new = ({}, {})
        for made, ages in ((old, range(30)), (new, reversed(range(30)))):
            for age in ages:
                key = Plain()
                key.holder, key.age, key.next = made, age, Plain()
                key.next.back = key
                made[key] = age
        self.assertEqual(_paths(old, new), [])
        next(iter(new)).age = 7
        self.assertTrue(_paths(old, new))

    def test_rings_of_other_lengths(self) -> None:
        """They are alike all the same, and each of one is compared with each of the other: unless it is known by then."""
        def ring(length: int, last: bytes = b'') -> bytes:
            return b']q\x00' + b']' * (length - 1) + b'h\x00a' + last + b'a' * (length - 1) + b'.'
        one, other = pickle.loads(ring(3)), pickle.loads(ring(2))
        self.assertEqual([one[0][0][0] is one, other[0][0] is other], [True, True])
        begun = time.process_time()
        self.assertEqual(picklestep.compare(ring(5_000), ring(4_999)), [])
        self.assertNotEqual(picklestep.compare(ring(5_000), ring(4_999, b'Na')), [])
        self.assertLess(time.process_time() - begun, 20)

    def test_many_and_deep_keys_in_linear_time(self) -> None:
        for name, (old, new) in {
                'many': [pickle.dumps({Decimal(number): number for number in numbers}) for numbers in (range(10_000), range(10_000, 0, -1))],
                'deep': [b'\x80\x04\x8f(' + b'N' + b'\x85' * 50_000 + last + b'\x85\x90.' for last in (b'', b'K\x01\x86')],
                'doubled': [b'}N' + b'2\x86' * 49 + last + b's.' for last in (b'K\x01', b'K\x02')],
                'a deep value': [b'N.', b'N' + b'\x85' * 50_000 + b'.']}.items():
            with self.subTest(name):
                begun = time.process_time()
                self.assertIn(len(picklestep.compare(old, new)), (1, 2))
                self.assertLess(time.process_time() - begun, 20)

    def test_unframed(self) -> None:
        old, new = (crooked({'a': datetime.date(year, 1, 1)}, 1 << 40) for year in (2020, 2021))
        self.assertEqual([str(each) for each in picklestep.compare(old, new, unframed=True)],
                         [r"['a'].arguments[0]: b'\x07\xe4\x01\x01' -> b'\x07\xe5\x01\x01'"])
        with tempfile.TemporaryDirectory() as folder, contextlib.redirect_stderr(io.StringIO()) as errors:
            paths = [os.path.join(folder, name) for name in 'ab']
            for path, data in zip(paths, (old, new + b'N')):
                with open(path, 'wb') as file:
                    file.write(data)
            self.assertEqual(main(paths), 2)
            self.assertRegex(errors.getvalue(), rf'^picklestep: {paths[0]}: F[78] frame .* \(--unframed reads that frame\)\n$')
            with contextlib.redirect_stdout(io.StringIO()) as out:
                self.assertEqual(main(['--unframed', *paths]), 1)
            self.assertEqual([line.partition(' (')[0] for line in out.getvalue().splitlines()[1:]], [
                "- call 'datetime' 'date'", "+ call 'datetime' 'date'", 'end: stopped -> F1 ended', 'behind STOP: 0 -> 1 bytes'])

    def test_words_of_what_is_not_in_the_results(self) -> None:
        call = b"cos\nsystem\n(S'id'\ntR"

        def by_number(items: bytes) -> bytes:
            return b'csubprocess\nPopen\n' + items + b'l\x85R0N.'

        lines = "{0} import 'os' 'system'\n{0} call 'os' 'system' (string 'id')\n"
        rows = ((b'N.', call + b'0N.', lines.format('+')), (call + b'0N.', b'N.', lines.format('-')),
                (b'K\x02.', call + b'0K\x03.', 'result: 2 -> 3\n' + lines.format('+')),
                (b'N.', b'N.' + call + b'.', lines.format('+') + 'behind STOP: 0 -> 21 bytes\n'),
                (b'N.', b'N.\xff', 'end: stopped -> F2 unknown opcode 0xff\nbehind STOP: 0 -> 1 bytes\n'),
                (b'N.K\x01.', b'N.K\x02.', 'behind STOP: other bytes\n'),
                (b'cos\nsystem\n0cos\nremove\n0N.', b'cos\nremove\n0cos\nsystem\n0N.', 'imports and calls: in another order\n'),
                (call.replace(b'id', b'#1') + b'0N.', b']0' + call.replace(b'id', b'#2') + b'0N.',
                 "- call 'os' 'system' (string '#1')\n+ call 'os' 'system' (string '#2')\n"),
                (by_number(b'(U\x04true'), by_number(b'(U\x04true'), ''), (by_number(b'(U\x04true'), by_number(b']0(U\x04true'), ''),
                (by_number(b'(U\x04true'), by_number(b'(U\x02rm'), "call subprocess.Popen at 27.arguments[0][0]: 'true' -> 'rm'\n"),
                (b'cx\nX\n)RK\x01K\x02s0N.', b'cx\nX\n)RK\x05K\x02s0N.', 'call x.X at 6[1]: removed 2\ncall x.X at 6[5]: added 2\n'),
                (b'cx\nX\n)RK\x01a0N.', b'cx\nX\n)RK\x02a0N.', 'call x.X at 6[0]: 1 -> 2\n'),
                (b'cx\nX\n)R}K\x01Nsb0N.', b'cx\nX\n)R}K\x01K\x02sb0N.', 'call x.X at 6.state[1]: None -> 2\n'),
                (b'cx\nX\nU\x01aNs0N.', b'cx\nX\nU\x01aK\x01s0N.', "import x.X at 0['a']: None -> 1\n"),
                (b'cx\nX\n]K\x01aN.', b'cx\nX\n]K\x02aN.', ''),
                (call + b'0N.', b']0' + call + b'0N.', ''), (b'\x80\x04N.', b'\x80\x02N.', ''), (b'N.\xff', b'N.\xff', ''))
        with tempfile.TemporaryDirectory() as folder:
            paths = [os.path.join(folder, name) for name in 'ab']
            for *pair, said in rows:
                for path, data in zip(paths, pair):
                    with open(path, 'wb') as file:
                        file.write(bytes(data))
                with self.subTest(pair), contextlib.redirect_stdout(io.StringIO()) as out:
                    self.assertEqual(main(paths), 1 if said else 0)
                    self.assertEqual(out.getvalue(), said)
                    self.assertEqual(bool(picklestep.compare(*pair)), 'result' in said)


def longest(one: List[int], other: List[int]) -> int:
    """How many items the longest sequence has that is in both, by the table that has it for all ends of both."""
    table = [[0] * (len(other) + 1) for _ in range(len(one) + 1)]
    for at, to in itertools.product(reversed(range(len(one))), reversed(range(len(other)))):
        table[at][to] = table[at + 1][to + 1] + 1 if one[at] == other[to] else max(table[at + 1][to], table[at][to + 1])
    return table[0][0]


class Aligned(unittest.TestCase):
    """Which items of two sequences stand for one another."""

    def test_they_are_equal_and_in_order(self) -> None:
        """Also where few steps may be taken. Of items that are there once each, they are as many as there can be."""
        for seed in range(600):
            chosen = random.Random(seed)
            kinds = chosen.choice([2, 3, 5, 20])
            one = [chosen.randrange(kinds) for _ in range(chosen.randrange(12))]
            other = [chosen.randrange(kinds) for _ in range(chosen.randrange(12))] if chosen.random() < 0.5 else [each for each in one if chosen.random() < 0.8]
            for steps in (0, 5, 20, 10_000):
                found = aligned(one, other, Steps(steps))
                self.assertTrue(all(one[at] == other[to] for at, to in found), (one, other, found))
                self.assertTrue(all(before[0] < after[0] and before[1] < after[1] for before, after in zip(found, found[1:])), (one, other, found))
            one, other = (chosen.sample(range(12), chosen.randrange(12)) for _ in range(2))
            self.assertEqual(len(aligned(one, other, Steps(10_000))), longest(one, other), (one, other))

    def test_the_fewest_changes(self) -> None:
        """By hand, of items that are there several times."""
        for one, other, least in (('abab', 'baba', 3), ('aabb', 'bbaa', 2), ('abcabc', 'bcabca', 5), ('aaaa', 'aa', 2), ('ab', 'cd', 0), ('', 'ab', 0)):
            self.assertEqual(len(aligned(one, other, Steps(10_000))), least, (one, other))


class Diff(unittest.TestCase):
    """The lines of `picklestep diff`."""

    def diff(self, old: bytes, new: bytes, *options: str) -> List[str]:
        """Its lines. The status is 1 just where there are some."""
        with tempfile.TemporaryDirectory() as folder:
            paths = [os.path.join(folder, name) for name in 'ab']
            for path, data in zip(paths, (old, new)):
                with open(path, 'wb') as file:
                    file.write(data)
            with contextlib.redirect_stdout(io.StringIO()) as out:
                status = main([*options, *paths])
        lines = out.getvalue().splitlines()
        self.assertEqual(status, int(bool(lines)))
        return lines

    def test_opcodes(self) -> None:
        """`[1]` in protocols 0 to 4: what is said of the opcodes, by pickletools' names and offsets."""
        of = [pickle.dumps([1], protocol) for protocol in range(5)]
        self.assertEqual(self.diff(of[2], of[3], '--opcodes'), ['opcode at 0: PROTO 2 -> 3'])
        self.assertEqual(self.diff(of[1], of[2], '--opcodes'), ['highest protocol among opcodes: 1 -> 2', '+ opcode at 0: PROTO 2'])
        self.assertEqual(self.diff(of[2], of[4], '--opcodes'),
                         ['highest protocol among opcodes: 2 -> 4', 'opcode at 0: PROTO 2 -> 4', '+ opcode at 2: FRAME 6', '- opcode at 3: BINPUT 0', '+ opcode at 12: MEMOIZE'])
        self.assertEqual(self.diff(of[1], of[2]), [])
        self.assertEqual(picklestep.opcode_differences(of[2], of[3]), ['opcode at 0: PROTO 2 -> 3'])
        self.assertEqual(picklestep.opcode_differences(of[3], of[3]), [])
        self.assertEqual(picklestep.opcode_differences(b'N.', b'N.N.'), [])
        self.assertEqual(picklestep.opcode_differences(b'N.', b'N.N.', many=True), ['+ opcode at 2: NONE', '+ opcode at 3: STOP'])
        self.assertEqual(picklestep.opcode_differences(b'K\x01K', b'K\x02.', unframed=True), ['opcode at 0: BININT1 1 -> 2', '+ opcode at 2: STOP'])
        self.assertEqual(self.diff(b'X\x01\0\0\0a.', b'X\x01\0\0\0b.', '--opcodes'), ["result: 'a' -> 'b'", "opcode at 0: BINUNICODE 'a' -> 'b'"])
        for old, new, told in ((b'I5\n.', b'I 5\n.', "INT b'5' -> b' 5'"), (b'F1.5\n.', b'F1.50\n.', "FLOAT b'1.5' -> b'1.50'"),
                               (b"S'a'\n.", b'S"a"\n.', """STRING b"'a'" -> b'"a"'""")):
            self.assertEqual(self.diff(old, new, '--opcodes')[-1:], [f'opcode at 0: {told}'])
        self.assertEqual(self.diff(b'cos\ngetcwd\n0N.', b'N.', '--opcodes')[1:], ["- opcode at 0: GLOBAL 'os' 'getcwd'", '- opcode at 11: POP'])
        self.assertEqual(self.diff(b'N.N.', b'N.N.', '--opcodes', '--many'), [])

    def test_which_of_two_large_ones_has_no_result(self) -> None:
        """The program works on the second one while the first is read: it is the first that is named, where neither has one."""
        whole, behind = pickle.dumps(list(range(300, 40_000)), 2), pickle.dumps(list(range(300, 40_001)), 2)
        with tempfile.TemporaryDirectory() as folder:
            for name, data in (('whole', whole), ('other', behind), ('cut', whole[:-1]), ('short', whole[:-1000]), ('behind', behind + b'N.')):
                with open(os.path.join(folder, name), 'wb') as file:
                    file.write(data)
            for old, new, said in (('cut', 'whole', 'cut'), ('whole', 'cut', 'cut'), ('cut', 'short', 'cut'), ('short', 'cut', 'short'), ('cut', 'gone', ''), ('gone', 'cut', '')):
                with contextlib.redirect_stderr(io.StringIO()) as errors:
                    self.assertEqual(main([os.path.join(folder, name) for name in (old, new)]), 2)
                self.assertIn(f'{folder}/{said}: F' if said else 'gone', errors.getvalue(), (old, new))
                if said:
                    with self.assertRaisesRegex(picklestep.NoResult, '^F[13] '):
                        picklestep.compare(*(os.path.join(folder, name) for name in (old, new)))
            for new, said in (('other', []), ('behind', ['behind STOP: 0 -> 2 bytes'])):
                with contextlib.redirect_stdout(io.StringIO()) as out:
                    self.assertEqual(main([os.path.join(folder, name) for name in ('whole', new)]), 1)
                self.assertEqual(out.getvalue().splitlines(), ['[39700]: added 40000', *said])
            with contextlib.redirect_stdout(io.StringIO()) as out:
                self.assertEqual(main([os.path.join(folder, 'behind')] * 2), 0)
            self.assertEqual(out.getvalue(), '')

    def test_long_lines_are_cut(self) -> None:
        """A line of a megabyte is not printed, and what differs is."""
        call = b'cm\nf\nB%s%s\x85R0N.'
        old, new = (call % ((1_000_001).to_bytes(4, 'little'), b'x' * 500_000 + letter + b'x' * 500_000) for letter in (b'a', b'b'))
        lines = self.diff(old, new)
        self.assertEqual(len(lines), 2)
        self.assertTrue(all(len(line) < 500 for line in lines))
        for line, sign, letter in zip(lines, '-+', 'ab'):
            self.assertTrue(line.startswith(f"{sign} call 'm' 'f' (bytes 'xxx"), line)
            self.assertIn(f'xx{letter}xx', line)
        whole = self.diff(old, new, '--full')
        self.assertEqual([len(line) for line in whole], [len("- call 'm' 'f' (bytes '')") + 1_000_001] * 2)

    def test_there_are_lines_just_where_the_status_says_so(self) -> None:
        """Also of pickles that were changed here and there."""
        chosen = random.Random(82)
        datas = [data for data in changed_pickles() if picklestep.calls(data).end.is_stopped]
        for _ in range(150):
            with contextlib.suppress(picklestep.NoResult):
                old, new = chosen.choices(datas, k=2)
                picklestep.compare(old, new)
                self.diff(old, new, *chosen.choice([(), ('--opcodes',), ('--full',)]))


if __name__ == '__main__':
    unittest.main()
