"""Shapes of arguments in lists: what picklers write passes with the sets, in each protocol, and what takes memory or time for ever is marked."""

from __future__ import annotations

import array
import collections
import fractions
import itertools
import json
import pickle
import random
import re
import struct
import time
import unittest
from typing import Any, List, Tuple

import picklestep
from picklestep.errors import NotAllowed
from picklestep.scan import Judge, Options, look_at_bytes
from picklestep.scan.allow import SETS, read_names
from picklestep.scan.names import Names, NoList, read_line
from picklestep.scan.results import from_json, to_json
from scan_support import ScanCase, looks_in


class Kind(List[int]):
    """A class whose objects protocols 0 and 1 make by `copyreg._reconstructor`."""


class Word(str):
    """Another."""


class Amount(float):
    """Another."""


def text(value: str) -> bytes:
    data = value.encode()
    return b'X' + struct.pack('<I', len(data)) + data


def number(value: int) -> bytes:
    data = pickle.encode_long(value)
    return b'\x8a' + bytes([len(data)]) + data


def call(name: str, *arguments: bytes) -> bytes:
    """A call, as protocol 2 has it."""
    return f'c{name}\n'.encode() + b'(' + b''.join(arguments) + b'tR'


ENDLESS = call('builtins\nrange', number(0), number(10 ** 12), number(1))
# Each has a set that allows its name. None is ever loaded.
HOSTILE: Tuple[Tuple[str, str, bytes], ...] = (
    ('a number of bytes', 'plain', call('builtins\nbytearray', number(1_500_000_000))), ('a number of zeros', 'plain', call('builtins\nbytes', number(1_500_000_000))),
    ('bytes of a range', 'plain', call('builtins\nbytearray', ENDLESS)), ('a set of a range', 'plain', call('builtins\nset', ENDLESS)),
    ('a frozen one', 'plain', call('builtins\nfrozenset', ENDLESS)), ('a frozen one by new', 'plain', b'cbuiltins\nfrozenset\n' + ENDLESS + b'\x85\x81'),
    ('one through copyreg', 'plain', call('copyreg\n__newobj__', b'cbuiltins\nfrozenset\n', ENDLESS)), ('a queue of a range', 'plain', call('collections\ndeque', ENDLESS, number(3))),
    ('counts of a range', 'plain', call('collections\nCounter', ENDLESS)), ('numbers of a range', 'plain', call('array\narray', text('d'), ENDLESS)),
    ('a base of bytes', 'plain', call('copyreg\n_reconstructor', b'cbuiltins\nbytearray\n' * 2, number(1_500_000_000))),
    ('bytes through copyreg', 'plain', call('copyreg\n__newobj__', b'cbuiltins\nbytes\n', number(1_500_000_000))),
    ('a range through copyreg', 'plain', call('builtins\nset', call('copyreg\n__newobj__', b'cbuiltins\nrange\n', number(0), number(10 ** 12), number(1)))),
    ('bytes with words', 'plain', call('copyreg\n__newobj_ex__', b'cbuiltins\nbytes\n', number(1_500_000_000) + b'\x85', b'}')),
    ('a number that a call made', 'plain', call('builtins\nbytearray', call('copyreg\n_reconstructor', b'cbuiltins\nint\n' * 2, number(1_500_000_000)))),
    ('a set of a network', 'plain', call('builtins\nset', call('ipaddress\nIPv4Network', text('0.0.0.0/0')))),
    ('a base of a range', 'plain', call('copyreg\n_reconstructor', b'cbuiltins\nset\n' * 2, ENDLESS)),
    ('an exponent', 'plain', call('fractions\nFraction', text('1e1000000000'))), ('two lines', 'plain', call('fractions\nFraction', text('1/2/3'))),
    ('another encoding', 'plain', call('_codecs\nencode', text('a' * 60_000), text('punycode'))), ('an encoding of its own', 'torch', call('_codecs\nencode', text('a'), text('idna'))),
    ('an encoding that is worked out', 'plain', call('_codecs\nencode', text('a'), call('builtins\nbytes'))),
    ('a long pattern', 'plain', call('re\n_compile', text('[a-z]' * 60_000), b'K\x20')), ('odd flags', 'plain', call('re\n_compile', text('a'), text('b'))),
    ('a time of a range', 'plain', call('time\nstruct_time', ENDLESS)), ('a size of a range', 'torch', b'cbuiltins\nlist\n0' + call('torch\nSize', number(3))),
    ('a state of a range', 'numpy', call('numpy.random._pickle\n__randomstate_ctor', ENDLESS, b'cbuiltins\nfrozenset\n')),
    ('another maker', 'numpy', call('numpy.random._pickle\n__generator_ctor', text('a'), b'cbuiltins\nfrozenset\n')),
    ('an index over a range', 'pandas', call('pandas.core.indexes.base\n_new_Index', b'cpandas.core.indexes.base\nIndex\n', b'}' + text('data') + ENDLESS + b's')),
    ('a set of an index', 'pandas', call('builtins\nset', call('pandas.core.indexes.base\n_new_Index', b'cpandas.core.indexes.range\nRangeIndex\n', b'}(' + b''.join(
        text(name) + number(value) for name, value in (('start', 0), ('stop', 10 ** 12), ('step', 1))) + b'u'))),
    ('bytes of an object', 'plain', call('copyreg\n_reconstructor', b'cbuiltins\nbytes\n' * 2, call('collections\nCounter'))),
    ('a list of a range', 'pandas', call('pandas.core.indexes.frozen\nFrozenList', ENDLESS)),
    ('a state of a long text', 'plain', call('random\nRandom') + b'(K\x02(' + text('%1500000000d') + b'tNtb'),
    ('a state of a range', 'plain', call('random\nRandom') + b'(K\x03' + ENDLESS + b'Ntb'), ('another state', 'plain', call('random\nRandom') + b'}b'),
    *((f'a {kind} without end', 'plain', call('collections\ndeque', f'ccollections\n{kind}\n'.encode() + b')\x81}' + text('data') + call(
        'collections\ndefaultdict', b'cbuiltins\nlist\n') + b'sb')) for kind in ('UserList', 'UserString', 'UserDict')),
    *((f'a {kind} of a range', 'plain', call(f'builtins\n{kind}', b'ccollections\nChainMap\n)\x81}' + text('maps') + b'(' + ENDLESS + b'lsb'))
      for kind in ('set', 'frozenset')),
    ('a file of zones', 'pandas', call('dateutil.tz.tz\ntzfile', text('/dev/zero'))),
)
HONEST: Tuple[Any, ...] = (
    b'', b'abc', b'\xff' * 3000, bytearray(b''), bytearray(b'de' * 50), {1, 2}, set(), frozenset({3}), frozenset(), collections.deque(), collections.deque([1]),
    collections.deque([1], 4), fractions.Fraction(1, 3), fractions.Fraction(-2), fractions.Fraction(10 ** 30, 7), re.compile('a+', re.I), re.compile('é'), random.Random(1), range(3), 2j,
    collections.OrderedDict(a=1), collections.Counter('aab'), array.array('d', [1, 2]), array.array('B'), array.array('u', 'ab'), time.gmtime(0), Kind([1]), Word('a'),
    Amount(2), [bytes([each]) for each in range(256)], OSError(2, 'c'), slice(1, None), [{each} for each in range(300)])


class Sets(ScanCase):
    """What the sets say of arguments."""

    def test_what_no_pickler_writes_is_marked(self) -> None:
        for name, word, made in HOSTILE:
            content = b'\x80\x02' + made + b'.'
            with self.subTest(name):
                looks = [look for look in looks_in(Judge(read_names([word])), content) if look.rule in ('not-allowed-done', 'not-allowed', 'unusual-form')]
                self.assertTrue(looks)
                with self.assertRaises(NotAllowed):
                    picklestep.check(content, allow=[word])
                if word == 'plain':  # (no shape of it has `alone`, which the program takes for `held`)
                    self.assertFalse(picklestep.gate(content, allow=[word]))

    def test_texts_in_full(self) -> None:
        """With --full no text is cut: the same is short."""
        judge = Judge(read_names(['plain']))
        for value, is_marked in (('a' * 64, False), ('\\' * 64, False), ("'" * 64, False), ('é' * 32, False), ('a' * 65, True), ("\\'" * 33, True), ('é' * 33, True)):
            content = b'\x80\x02' + call('re\n_compile', text(value), b'K\x20') + b'.'
            for is_full in (False, True):
                looks = looks_in(judge, content, Options(full=is_full))
                self.assertEqual(bool([look for look in looks if look.rule == 'not-allowed-done']), is_marked, (value, is_full))

    def test_behind_honest_calls(self) -> None:
        """Calls of one name are told apart: many honest ones hide no other."""
        honest = call('_codecs\nencode', text('a'), text('latin1')) + b'0'
        content = b'\x80\x02' + honest * 400 + call('_codecs\nencode', text('a'), text('punycode')) + b'0' + honest * 400 + b'N.'
        marked, = (look for look in looks_in(Judge(read_names(['plain'])), content) if look.rule == 'not-allowed-done')
        self.assertIn("call _codecs.encode, first at", marked.text)
        self.assertIn("('a', 'punycode')", marked.text)

    def test_what_picklers_write_passes(self) -> None:
        names = read_names(['plain', 'numpy']).names
        own = [f'{__name__}.Kind', f'{__name__}.Word', f'{__name__}.Amount']
        judge = Judge(Names([*(f'{name}: {word}' for name in own for word in ('call',)), *read_lines_of('plain')]))
        self.assertTrue(names)
        for value in HONEST:
            for protocol in range(6):
                result = look_at_bytes('a.pkl', pickle.dumps(value, protocol), Options(lists=judge.lists()))
                self.assertEqual([look.text for look in judge.looks(result)], [], (value, protocol))
                self.assertEqual(from_json(json.loads(json.dumps(to_json(result)))), result)

    def test_each_set_reads(self) -> None:
        for word in SETS:
            self.assertTrue(read_names([word]).names)


def read_lines_of(word: str) -> List[str]:
    from picklestep.scan.allow import read_lines
    return read_lines([word])


class Lines(ScanCase):
    """Shapes in a list of one's own."""

    MADE: bytes = call('app\nJob', text('mail'), b'K\x03')

    def allowed(self, *lines: str) -> bool:
        content = b'\x80\x02' + self.MADE + b'.'
        try:
            picklestep.check(content, names=lines)
        except NotAllowed:
            return False
        return True

    def test_kinds(self) -> None:
        for line, is_allowed in (
                ('app.Job: call', True), ('app.Job', True), ("app.Job: call('mail' 3)", True), ('app.Job: call(text number)', True), ('app.Job: call(  any   any )', True),
                ("app.Job: call('post'|'mail' small|none)  # why", True), ('app.*: call(short small)', True), ('app.Job: call() call(text 3)', True), ('app.Job: call(text 3) fill', True),
                ('app.Job: call(text)', False), ('app.Job: call()', False), ('app.Job: new', False), ("app.Job: call('post' number)", False), ('app.Job: call(text 4)', False),
                ('app.Job: call(text text)', False), ('app.Job: call(text number none)', False), ('app.Job: call(held number)', False), ('app.Job: call(app.Kind number)', False)):
            self.assertEqual(self.allowed(line), is_allowed, line)
        self.assertTrue(self.allowed('app.Job: call()', 'app.*: call(text 3)'))
        self.assertTrue(self.allowed('app.Job: call()', 'app.*: call'))

    def test_states(self) -> None:
        made = self.MADE
        self.addCleanup(setattr, self, 'MADE', made)
        for line, is_allowed in (('app.Job: call', True), ('app.Job: call then(text)', False), ('app.Job: call then(3 none) then(text)', True), ('app.Job: then(3 none)', False),
                                 ('app.Job: call then(3 held)', False), ('app.Job: call(text 3) then(number none)', True), ('app.*: call then()', False)):
            self.MADE = made + b'(K\x03Ntb'
            self.assertEqual(self.allowed(line), is_allowed, line)

    def test_nonsense_is_refused(self) -> None:
        for line in ('a.b: then', 'a.b: then(texts)', 'a.b: call(', 'a.b: call(texts)', 'a.b: call(text, number)', 'a.b: call(text | number)', 'a.b: call(text||number)',
                     'a.b: new(text)', 'a.b: call((text))', "a.b: call('a b')"):
            with self.subTest(line), self.assertRaises(NoList):
                read_line(line)
        with self.assertRaisesRegex(NoList, 'the nearest word is number'):
            read_line('a.b: call(numbr)')

    def test_the_command(self) -> None:
        self.file('a.pkl', b'\x80\x02' + self.MADE + b'.')
        self.file('ours', b"app.Job: call('mail' number)\n")
        self.file('others', b"app.Job: call('post' number)\n")
        self.assertEqual([self.scan('a.pkl', '--allow', name).returncode for name in ('ours', 'others')], [0, 1])

    def test_a_result_that_was_not_asked(self) -> None:
        """Where the shapes of a list were not asked about nothing has them, so a call is marked."""
        content = b'\x80\x02' + self.MADE + b'.'
        names = Names(['app.Job: call(text number)'])
        for options, count in ((Options(), 1), (Options(lists=(names,)), 0)):
            self.assertEqual(len(list(Judge(names).looks(look_at_bytes('a.pkl', content, options)))), count)

    def test_what_calls_make(self) -> None:
        """What is done with what a call made, or with what a call of that made, and so on."""
        put, get = b'q\x00', b'h\x00'
        done = {'state': b'K\x03b', 'fill': b'K\x03a', 'call': b')R', 'new': b')\x81'}
        for (what, made), words in itertools.product(done.items(), (('', 'made', *(f'made-{each}' for each in done)))):
            for again in (b'', b')R', b')\x81'):
                needed = {what} | ({'call'} if again == b')R' else {'new'} if again else set())
                granted = set(done) if not words else {words[5:], *(('new',) if words == 'made-call' else ())}
                content = b'\x80\x02' + self.MADE + put + b'0' + get + again + made + b'.'
                looks = self.looks(content, f'app.Job: call {words}')
                with self.subTest(what, words=words, again=again):
                    self.assertEqual(bool(looks), not needed <= granted, looks)
                    self.assertTrue(all(text.startswith('made-') for text in looks), looks)

    def looks(self, content: bytes, *lines: str) -> List[str]:
        judge = Judge(Names(lines))
        result = look_at_bytes('a.pkl', content, Options(lists=judge.lists()))
        self.assertEqual(from_json(json.loads(json.dumps(to_json(result)))), result)
        return [look.text for look in judge.looks(result) if look.rule == 'not-allowed-done']

    def test_what_calls_of_several_names_make(self) -> None:
        content = b'\x80\x02](' + (self.MADE + b'K\x03\x85b' + call('app\nTask', text('mail')) + b'K\x03\x85b') * 40 + b'e.'
        both = self.looks(content, 'app.Job: call made', 'app.Task: call made-state')
        self.assertEqual([each.partition(',')[0] for each in both], ['made-state app.Job 40 times'])
        self.assertEqual(self.looks(content, 'app.Job: call made', 'app.*: call made-state'), [])
        self.assertEqual(self.looks(content, 'app.Job: call made then(number)', 'app.*: call made-state'), [])
        odd = self.looks(content, 'app.Job: call made-state then(text)', 'app.Task: call')
        self.assertEqual([each.partition(',')[0] for each in odd], ['made-state app.Job 40 times'])
        self.assertEqual([each.partition(',')[0] for each in self.looks(content, 'app.Job: call made', 'app.Task: call then(text)')],
                         ['made-state app.Job 40 times', 'made-state app.Task 40 times'])

    def test_what_calls_make_that_was_not_asked(self) -> None:
        """An earlier result, of another list: nothing is allowed."""
        content = b'\x80\x02' + self.MADE + b'K\x03b.'
        for line in ('app.Job: call', 'app.Job: call made-state', 'app.Job: call made', 'app.Job: call(text number)', '**'):
            looks = [look for look in Judge(Names([line])).looks(look_at_bytes('a.pkl', content)) if look.rule == 'not-allowed-done']
            self.assertEqual(len(looks), 1, line)

    def test_the_command_with_what_calls_make(self) -> None:
        self.file('a.pkl', b'\x80\x02' + self.MADE + b'K\x03b.')
        self.file('ours', b'app.Job: call made-state\n')
        self.file('others', b'app.Job: call made-fill\n')
        self.assertEqual([self.scan('a.pkl', '--allow', name).returncode for name in ('ours', 'others')], [0, 1])
        self.assertEqual(self.scan('a.pkl', '--allow', 'others', '--allow', 'ours').returncode, 0)
        self.assertEqual(self.scan('a.pkl', '--allow', 'ours', '--jobs', '2').returncode, 0)


if __name__ == '__main__':
    unittest.main()
