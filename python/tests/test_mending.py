"""`picklestep mend`: what is kept of pickles that are cut off, and that nothing is added to what they do."""

from __future__ import annotations

import collections
import datetime
import decimal
import io
import os
import pickle
import pickletools
import random
import struct
import subprocess
import sys
import tempfile
import time
import unittest
import zlib
from collections import Counter
from concurrent.futures import ThreadPoolExecutor
from pathlib import Path
from typing import Any, Iterator, List
from unittest import mock

import cut_pickles
import picklestep
from examples_of_pages import stories
from pickles import chosen, real_pickles
from picklestep import mending
from picklestep.mending import Mended, TooCrooked, mended
from picklestep.tasks import frames
from scan_support import environment

_FILLS = ('append ', 'set ', 'add ')
_SHORT = 40  # bytes; there is little to cut

VALUES: List[Any] = [
    {'user': 'bob', 'jobs': [1, 2.5, None, True], 'more': {'a': (1, 2), 'b': (1, 2, 3, 4, 5), 'c': {1, 2, 3}}},
    [[], {}, [[1], [2, 3]], ({'k': [b'x', 'y']}, 'z'), frozenset([7])],
    collections.OrderedDict(a=1, b=[2, 3], c='d'), collections.deque([1, [2], 3]), collections.Counter('hello'),
    [datetime.date(2020, 1, 2), decimal.Decimal('1.5'), datetime.timedelta(3)], {datetime.date(2020, 1, 2): 1, (1, 'x'): 2, 3: [4]},
    collections.defaultdict(list, {'a': [1], 'b': [2]}), [1 << 70, -5, 'x' * 300, b'y' * 300, bytearray(b'z')],
]


class _Built(pickle._Unpickler):  # type: ignore[name-defined,misc]
    """What Python's unpickler has on its stack where the bytes end."""

    def built(self) -> List[Any]:
        try:
            return [self.load()]
        except (EOFError, pickle.UnpicklingError, IndexError, ValueError):
            return [*(each for section in self.metastack for each in section), *self.stack]


def leaves(value: Any) -> Iterator[Any]:
    """All plain values in containers, and in what calls made."""
    if isinstance(value, (list, tuple, set, frozenset, collections.deque)):
        for each in value:
            yield from leaves(each)
    elif isinstance(value, dict):
        for pair in value.items():
            yield from leaves(pair)
    else:
        yield repr(value)


def reaches(source: bytes) -> List[str]:
    return [reach.text for reach in picklestep.calls(source)]


def cuts_of(name: str, length: int) -> List[int]:
    """Places as far from one another, of which the first is another one in each pickle."""
    step = max(1, length // 12)
    return list(range(zlib.crc32(name.encode()) % step, length, step))


class Cuts(unittest.TestCase):
    """Pickles that are cut at each place, or at some."""

    def test_all_is_kept(self) -> None:
        """What was built is in the result, unless the lines say that it was dropped."""
        random.seed(1)
        pickles = [pickle.dumps(value, protocol) for value in VALUES for protocol in (0, 1, 2, 4, 5)]
        cuts = [data[:cut] for data in pickles for cut in random.sample(range(1, len(data)), min(4, len(data) - 1))]
        for data in chosen(cuts, 10):
            with self.subTest(data):
                self.assert_kept(data)

    def assert_kept(self, data: bytes) -> None:
        answer = mended(data)
        made = pickle.loads(answer.content)
        kept, built = Counter(leaves(made)), Counter(leaves(self.built(data)))
        if not built and answer.content.endswith(b'N.'):
            built = Counter(['None'])
        self.assertFalse(kept - built, (answer.steps, kept, built))
        if not any('dropped' in step for step in answer.steps):
            self.assertEqual(kept, built, answer.steps)

    def built(self, data: bytes) -> List[Any]:
        """What a loader has where the whole opcodes end; a frame that is cut is none."""
        if data[2:3] == b'\x95':
            data = data[:2] + data[11:]
        while True:  # (without the opcode that is cut)
            fault = picklestep.listing(data).end
            if fault.code != 'F3':
                return _Built(io.BytesIO(data)).built()
            assert fault.offset is not None
            data = data[:fault.offset]

    def test_nothing_more_is_done(self) -> None:
        """The result reads to its STOP, and imports and calls what the whole one does, up to the cut."""
        random.seed(2)
        pickles = [pickle.dumps(value, protocol) for value in VALUES for protocol in (0, 2, 4)]
        for data, cut in chosen([(data, cut) for data in pickles for cut in random.sample(range(1, len(data)), 4)], 10):
            answer = picklestep.calls(mended(data[:cut]).content)
            self.assertTrue(answer.end.is_stopped)
            found = [reach.text for reach in answer if not reach.text.startswith(_FILLS)]
            self.assertEqual(found, [text for text in reaches(data) if not text.startswith(_FILLS)][:len(found)])

    def test_loaded_is_what_was_built(self) -> None:
        """Real pickles, fifty of them cut at every third place, the others at some, are loaded with harmless stand-ins. (`cut_pickles.py` tries
        every cut of all, which takes ten minutes of a processor.)"""
        found = cut_pickles.whole_pickles()
        self.assertGreater(len(found), 100)
        short = sorted((name for name in found if len(found[name]) > _SHORT), key=lambda name: len(found[name]))[:50]
        cuts = [(name, cut) for first, name in enumerate(short) for cut in range(first % 3, len(found[name]), 3)]
        cuts += [(name, cut) for name, data in found.items() if name not in short for cut in cuts_of(name, len(data))]
        self.assertGreater(len(cuts), 3000)
        cuts = chosen(cuts, 15)
        with ThreadPoolExecutor(os.cpu_count()) as workers:
            faults = workers.map(lambda each: cut_pickles.fault_of(found[each[0]][:each[1]]), cuts)
            for (name, cut), fault in zip(cuts, faults):
                with self.subTest(name, cut=cut):
                    self.assertEqual(fault, '')

    def test_real_pickles(self) -> None:
        """The kept ones, each cut at two places."""
        random.seed(3)
        cuts = []
        for name, data in real_pickles().items():
            whole = picklestep.calls(data, first=True)
            if whole.end.is_stopped and not whole.kept and len(data) <= 100_000:
                wanted = [reach.text for reach in whole if not reach.text.startswith(_FILLS)]
                cuts += [(name, data[:cut], wanted) for cut in random.sample(range(1, len(data)), min(2, len(data) - 1))]
        self.assertGreater(len(cuts), 100)
        for name, data, wanted in chosen(cuts, 10):
            with self.subTest(name, cut=len(data)):
                answer = picklestep.calls(mended(data).content)
                found = [reach.text for reach in answer if not reach.text.startswith(_FILLS)]
                self.assertTrue(answer.end.is_stopped)
                self.assertEqual(found, wanted[:len(found)])


class Crooked(unittest.TestCase):
    """Faults by hand."""

    def test_frames_and_bytes(self) -> None:
        for data, content in ((b'\x80\x04\x95\x40\0\0\0\0\0\0\0N.', b'\x80\x04N.'), (b'N\x95\x02\0\0\0\0\0\0\0NK\x01\x86.', b'NNK\x01\x86.'),
                              (b'N\x95\x0b\0\0\0\0\0\0\0N\x95\0\0\0\0\0\0\0\0.', b'NN.'), (b'', b'N.'), (b'(', b'(1N.'), (b'K\x01\xff', b'K\x01.'),
                              (b'K\x01K\x02K\x03K\x04', b'(K\x01K\x02K\x03K\x04t.'), (b']K\x01', b']K\x01\x86.'), (b'N0h\5.', b'N0N.'),
                              (b'}(K\x01K\x02]K\x03', b'}(K\x01K\x02]K\x0300u.'), (b'N.', b'N.'), (b'NNNN((', b'(NNNN((11t.')):
            with self.subTest(data):
                answer = mended(data)
                self.assertTrue(picklestep.calls(answer.content).end.is_stopped)
                self.assertEqual(bool(answer.steps), data != content)
                if not data.startswith((b'N\x95', b'\x80')):
                    self.assertEqual(answer.content, content)

    def test_many_open_marks(self) -> None:
        """The time goes with the bytes, and what was built is there."""
        depth = 30_000
        begun = time.process_time()
        self.assertIsNone(pickle.loads(mended(b'(' * depth).content))
        made = pickle.loads(mended(b'](' * depth).content)
        for _ in range(depth - 1):
            made, = made
        self.assertEqual(made, [])
        members = mended(b'\x8f(' + b'(' * 5_000 + b't' * 5_000 + b'q\x00' + b'h\x00\x85' * 2_000)
        self.assertEqual((len(pickle.loads(members.content)), len(members.steps)), (2, 2))
        self.assertLess(time.process_time() - begun, 30)

    def test_several_pickles(self) -> None:
        """The whole ones load to what they were, the cut one to what it is alone."""
        values = [{'a': [1, 2, (3, 4)]}, 'x', [[1], {2}]]
        whole = [pickle.dumps(value, protocol) for value in values for protocol in (0, 2, 4)]
        for before in (whole[:1], whole[2:7]):
            joined = b''.join(before)
            self.assertEqual(mended(joined, True), Mended(joined, ()))
            for damage in (b'\xff', b'\xffabc', b'h\x07.'):
                self.assertEqual(mended(joined + damage, True).content, joined)
            for cut in chosen([data[:cut] for data in whole for cut in range(1, len(data), 3)], 8):
                alone, answer = mended(cut), mended(joined + cut, True)
                self.assertEqual(answer.content[:len(joined)], joined)
                self.assertEqual(answer.content[len(joined):] or b'N.', alone.content, cut)
                self.assertEqual(answer.kept, 0)

    def test_protocols_that_are_none(self) -> None:
        for data, content, step in ((b'\x80\x41N.', b'\x80\x02N.', '0: PROTO 65 replaced by PROTO 2: S6 bad protocol 65'),
                                    (b'\x80\x06]\x94.', b'\x80\x04]\x94.', '0: PROTO 6 replaced by PROTO 4: S6 bad protocol 6'),
                                    (b'N0\x80\xff\x8e\0\0\0\0\0\0\0\0.', b'N0\x80\x04\x8e\0\0\0\0\0\0\0\0.',
                                     '2: PROTO 255 replaced by PROTO 4: S6 bad protocol 255')):
            answer = mended(data)
            self.assertEqual((answer.content, answer.steps), (content, (step,)))
        cut = mended(b'\x80\x41]K\x01a')
        self.assertEqual((cut.content, len(cut.steps)), (b'\x80\x02]K\x01a.', 2))

    def test_a_first_opcode_that_is_refused(self) -> None:
        answer = mended(b'0N.')
        self.assertEqual((answer.content, answer.steps[0]), (b'N.', '0: 3 bytes cut off (30 4e 2e): refused, S2 stack underflow'))

    def test_what_is_dropped_is_said(self) -> None:
        """With its bytes: from an opcode of pickletools that builds it, or from its mark, up to the next object that is dropped or the end."""
        long = b'\xff' + bytes(range(20))
        for data, builders in ((b'}(K\x01K\x02]K\x03', [5, 4]), (b'}(](K\x01K\x02eK\x03', [1]), (b'](}(](K\x01K\x02', [3]), (b'}(X\x01\0\0\0a', [1]),
                               (b'\x8f(K\x01(K\x02tK\x05]\x94K\x03', [9, 7]), (b'}(K\x01N]\x94\x85K\x01K\x02\x86h\0', [10, 7, 4])):
            offsets = [place for _, _, place in pickletools.genops(data + b'.')]
            said = [step for step in mended(data).steps if 'dropped' in step]
            begins = [offsets[builder] for builder in builders]
            self.assertEqual(len(said), len(begins), said)
            for step, begin, end in zip(said, begins, [len(data), *begins]):
                where = f'bytes {begin} to {end - 1}' if end - begin > 1 else f'byte {begin}'
                self.assertIn(f'dropped ({where}: {data[begin:end].hex(" ")}): ', step)
        self.assertIn(f'2: 21 bytes cut off ({long[:16].hex(" ")} ..): F2', mended(b'K\x01' + long).steps[0])
        with mock.patch.object(mending, '_MOST_GONE_BACK', 1):
            steps = mended(b'}(K\x01K\x02]K\x03').steps
        self.assertIn('(bytes 7 to 8: 4b 03)', steps[1])
        self.assertIn('(among bytes 1 to 8: 28 4b 01 4b 02 5d 4b 03)', steps[2])

    def test_too_crooked(self) -> None:
        most = len(chosen(range(mending._MOST_ROUNDS), 20))
        with mock.patch.object(mending, '_MOST_ROUNDS', most), self.assertRaises(TooCrooked):
            mended(b'N' + b'\x95\xff\xff\0\0\0\0\0\0' * 300)


class Damaged(unittest.TestCase):
    """Files that were cut off, copied in text mode, or have a wrong byte: what is kept of each."""

    VALUE: Any = {'user': 'ana', 'jobs': [0, 1, 2, 3], 'size': (2.5, None), 'more': {'a': {7}, 'b': b'xyz'}}
    WHOLE = (b'\x80\x04\x95W\0\0\0\0\0\0\0}\x94(\x8c\x04user\x94\x8c\x03ana\x94\x8c\x04jobs\x94]\x94(K\0K\1K\2K\3e\x8c\x04size\x94G@\x04\0\0\0\0\0\0N\x86\x94'
             b'\x8c\x04more\x94}\x94(\x8c\x01a\x94\x8f\x94(K\x07\x90\x8c\x01b\x94C\x03xyz\x94uu.')
    # What Python 2.7 writes of a dictionary.
    OLD = b"(dp0\nS'user'\np1\nS'andr\\xe9'\np2\nsS'jobs'\np3\n(lp4\nI0\naI1\nasS'big'\np5\nL12L\ns."
    OLD_VALUE: Any = {'user': 'andr\xe9', 'jobs': [0, 1], 'big': 12}

    def test_eleven_cuts(self) -> None:
        user, jobs = {'user': 'ana'}, {'user': 'ana', 'jobs': [0, 1, 2, 3]}
        size: Any = {**jobs, 'size': (2.5, None)}
        for cut, kept in ((0, None), (10, None), (20, {}), (30, user), (40, {**user, 'jobs': [0]}), (50, jobs), (60, jobs), (70, size),
                          (80, {**size, 'more': {'a': set()}}), (90, {**size, 'more': {'a': {7}}}), (97, self.VALUE)):
            answer = mended(self.WHOLE[:cut])
            self.assertEqual((pickle.loads(answer.content), answer.tries), (kept, ()), cut)

    def test_eight_flipped_bytes(self) -> None:
        """All bits are changed: of PROTO, FRAME, a mark, a length, an opcode with a number, one with a text, EMPTY_SET and a STOP."""
        for at in (0, 2, 13, 22, 41, 46, 79, 97):
            damaged = self.with_byte(self.WHOLE, at, self.WHOLE[at] ^ 0xff)
            answer = mended(damaged)
            self.assertEqual(pickle.loads(answer.content), self.VALUE)
            if at < 97:
                self.assertEqual(answer.content, self.WHOLE)
                said = f'{at}: byte 0x{damaged[at]:02x} replaced by 0x{self.WHOLE[at]:02x}: '
                self.assertTrue(answer.steps[0].startswith(said), answer.steps)
                self.assertEqual((len(answer.steps), answer.taken), (1, 1))

    def with_byte(self, content: bytes, at: int, value: int) -> bytes:
        return content[:at] + bytes([value]) + content[at + 1:]

    def test_a_copy_in_text_mode(self) -> None:
        for protocol in range(5):
            whole = pickle.dumps([self.VALUE, 10, 'two\nlines'], protocol)
            copied = whole.replace(b'\n', b'\r\n')
            answer = mended(copied)
            self.assertEqual(answer.content, whole)
            self.assertEqual(len(answer.steps), 1)
            self.assertIn(f'{whole.count(10)} carriage returns (0x0d) taken away: ', answer.steps[0])
            self.assertEqual(pickle.loads(mended(copied[:-1]).content), pickle.loads(whole))
            self.assertEqual(mended(copied * 2, True).content, whole * 2)
        for data in (pickle.dumps('a\r\n', 4), pickle.dumps('a\r\n', 0), b'U\2\r\n.'):
            self.assertEqual(mended(data), Mended(data, ()))

    def test_a_pickle_of_python_2(self) -> None:
        for at in (0, 1, 5, 41, 45):
            self.assertEqual(mended(self.with_byte(self.OLD, at, 0xff)).content, self.OLD, at)
        self.assertEqual(mended(self.OLD.replace(b'\n', b'\r\n')).content, self.OLD)
        for cut, kept in ((10, {}), (25, ({}, 'user')), (60, {'user': 'andr\xe9', 'jobs': [0, 1]}), (len(self.OLD) - 1, self.OLD_VALUE)):
            self.assertEqual(pickle.loads(mended(self.OLD[:cut]).content, encoding='latin1'), kept, cut)

    def test_nothing_more_is_reached(self) -> None:
        """A try that imports or calls is told, and taken only where it is chosen. What is taken by itself reaches no more than the damaged one where its
        frames are ignored."""
        whole = pickle.dumps([datetime.date(2020, 1, 2), 3], 2)
        damaged = self.with_byte(whole, 2, 0xff)
        answer = mended(damaged)
        self.assertEqual((pickle.loads(answer.content), reaches(answer.content)), (None, []))
        first, cut = answer.tries
        self.assertEqual((first.content, list(first.added), answer.taken), (whole, reaches(whole), 2))
        self.assertEqual((cut.content, cut.steps), (answer.content, answer.steps))
        self.assertEqual((mended(damaged, choose=1).content, mended(damaged, choose=2)), (whole, answer))
        for number in (0, 3, -1):
            with self.assertRaisesRegex(picklestep.PicklestepError, f'there is no try {number}'):
                mended(damaged, choose=number)
        random.seed(4)
        for data in (pickle.dumps(value, protocol) for value in VALUES for protocol in (0, 2, 4)):
            for at in random.sample(range(len(data)), chosen(range(3), 1)[-1] + 1):
                damaged = self.with_byte(data, at, random.randrange(256))
                if not picklestep.listing(damaged).end.is_stopped:
                    made = mended(damaged)
                    new = [text for text in reaches(made.content) if not text.startswith(_FILLS)]
                    old = [reach.text for reach in picklestep.calls(damaged, skip=frames(damaged))]
                    self.assertFalse(Counter(new) - Counter(old), (damaged, made.steps))
                    self.assertTrue(picklestep.listing(made.content).end.is_stopped)

    def test_another_try(self) -> None:
        """Each of the tries reads to its STOP, and the best comes first."""
        damaged = self.with_byte(self.WHOLE, 71, 0xff)
        answer = mended(damaged)
        self.assertEqual((answer.content, answer.taken), (self.WHOLE, 1))
        self.assertGreater(len(answer.tries), 2)
        self.assertEqual([each.opcodes for each in answer.tries], sorted((len(picklestep.listing(each.content)) for each in answer.tries), reverse=True))
        for number, each in enumerate(answer.tries, 1):
            chosen_one = mended(damaged, choose=number)
            self.assertEqual((chosen_one.content, chosen_one.steps, chosen_one.tries), (each.content, each.steps, answer.tries))

    def test_a_length_that_fits_again(self) -> None:
        """Two bytes of a length are wrong: that of a text, of bytes or of a frame, too great or too small."""
        whole = pickle.dumps({'user': 'ana', 'text': 'z' * 300, 'jobs': [b'z' * 301, 2]}, 4)
        lengths = {info.name: (place, argument if info.name == 'FRAME' else len(argument)) for info, argument, place in pickletools.genops(whole)
                   if info.name in ('FRAME', 'BINUNICODE', 'BINBYTES')}
        self.assertEqual(len(lengths), 3)
        for name, (place, length) in lengths.items():
            for wrong in (length ^ 0xf0f0, *[7] * (name != 'FRAME')):
                damaged = whole[:place + 1] + struct.pack('<I', wrong) + whole[place + 5:]
                answer = mended(damaged)
                self.assertEqual(answer.content, whole, (name, wrong, answer.steps))
                self.assertTrue(answer.steps[0].startswith(f'{place}: length {wrong} of {name} replaced by {length}: '), answer.steps)
        cut = mended(whole[:-5])
        self.assertEqual((cut.tries, cut.steps[0]), ((), f'2: FRAME {lengths["FRAME"][1]} taken away: F7 frame past the end at 2'))

    def test_a_large_one(self) -> None:
        """A length that is wrong in a pickle of a megabyte, and a damage in its middle."""
        whole = pickle.dumps([{'id': number, 'name': f'user{number}', 'tags': ['a', 'b', number]} for number in range(20_000)], 4)
        begun = time.process_time()
        for at in (whole.index(b'user150') - 1, whole.index(b'M\x10\x27')):
            self.assertEqual(mended(self.with_byte(whole, at, 0xff)).content, whole)
        self.assertLess(time.process_time() - begun, 60)


class Words(unittest.TestCase):
    """`picklestep mend`."""

    def test_tries(self) -> None:
        """They are printed with what they keep, and `--choose` takes one."""
        whole = pickle.dumps([datetime.date(2020, 1, 2), 3], 2)
        with tempfile.TemporaryDirectory() as folder:
            def run(*words: str) -> 'subprocess.CompletedProcess[str]':
                return subprocess.run([sys.executable, '-m', 'picklestep', 'mend', *words], cwd=folder, env=environment(), capture_output=True,
                                      text=True, timeout=300)
            Path(folder, 'damaged').write_bytes(whole[:2] + b'\xff' + whole[3:])
            done = run('damaged')
            first, second, taken, *steps = done.stdout.splitlines()
            self.assertEqual((done.returncode, first), (1, f'try 1 keeps {len(picklestep.listing(whole))} opcodes, adds 4 lines of `calls`: '
                                                           '2: byte 0xff replaced by 0x5d: F2 unknown opcode 0xff at 2'))
            self.assertEqual(second, f'try 2 keeps 3 opcodes: {steps[0]}, and 2 more edits')
            self.assertRegex(taken, r'^try 2 is taken; --choose N takes another \([0-9]+ changes were tried\)$')
            done = run('damaged', '--save', 'out', '--choose', '1')
            self.assertEqual((done.returncode, Path(folder, 'out').read_bytes()), (1, whole))
            done = run('damaged', '--save', 'none', '--choose', '3')
            self.assertEqual((done.returncode, done.stderr, Path(folder, 'none').exists()), (2, 'picklestep: there is no try 3\n', False))

    def test_the_example_of_the_page(self) -> None:
        """The pickle of the story of the shell loads to what had been built."""
        cut = next(data for name, data, _, _ in stories() if name == 'cut.pickle')
        with tempfile.TemporaryDirectory() as folder:
            Path(folder, 'cut.pickle').write_bytes(cut)
            done = subprocess.run([sys.executable, '-m', 'picklestep', 'mend', 'cut.pickle', '--save', 'mended.pickle'], cwd=folder, env=environment(),
                                  capture_output=True, text=True, timeout=300, check=False)
            self.assertEqual((done.returncode, done.stderr), (1, ''))
            built = {'due': datetime.date(2026, 11, 26), 'jobs': [1, 2]}
            self.assertEqual(pickle.loads(Path(folder, 'mended.pickle').read_bytes()), built)
            self.assertEqual(pickle.loads(cut + b'eu.'), built)

    def test_status_and_files(self) -> None:
        with tempfile.TemporaryDirectory() as folder:
            def run(*words: str) -> 'subprocess.CompletedProcess[str]':
                return subprocess.run([sys.executable, '-m', 'picklestep', 'mend', *words], cwd=folder, env=environment(), capture_output=True,
                                      text=True, timeout=300)
            path = Path(folder, 'cut.pickle')
            path.write_bytes(b']K\x01a')
            done = run('cut.pickle', '--save', 'out.pickle')
            self.assertEqual((done.returncode, done.stdout), (1, '4: STOP added: F1 ended at 4\nsaved out.pickle\n'))
            self.assertEqual(Path(folder, 'out.pickle').read_bytes(), b']K\x01a.')
            done = run('cut.pickle', 'other.pickle')
            self.assertEqual((done.returncode, done.stdout, Path(folder, 'other.pickle').exists()), (2, '', False))
            self.assertIn('unrecognized arguments: other.pickle', done.stderr)
            done = run('cut.pickle', '--save', 'cut.pickle')
            self.assertEqual((done.returncode, done.stdout, path.read_bytes()), (2, '', b']K\x01a'))
            done = run('out.pickle')
            self.assertEqual((done.returncode, done.stdout), (0, 'it is whole\n'))
            whole = pickle.dumps([1], 4)
            stream = io.BytesIO(whole + whole[:-3])
            pickle._Unpickler(stream).load()  # type: ignore[attr-defined]
            Path(folder, 'two.pickle').write_bytes(stream.getvalue())
            done = run('two.pickle', '--save', 'out.pickle')
            said = f'{len(stream.read())} bytes after STOP are not read (try --many)\nsaved out.pickle\n'
            self.assertEqual((done.returncode, done.stdout), (1, said))
            self.assertEqual(Path(folder, 'out.pickle').read_bytes(), stream.getvalue())
            os.link(path, Path(folder, 'same'))
            done = run('cut.pickle', '--save', 'same')
            self.assertEqual((done.returncode, done.stdout, path.read_bytes()), (2, '', b']K\x01a'))
            done = run('none')
            self.assertEqual((done.returncode, done.stdout), (2, ''))
            self.assertNotIn('Traceback', done.stderr)


if __name__ == '__main__':
    unittest.main()
