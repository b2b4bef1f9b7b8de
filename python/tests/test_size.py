"""`picklestep size` and `picklestep.size`: where the bytes of a pickle go. What is expected comes from pickletools and from pickle."""

from __future__ import annotations

import collections
import datetime
import json
import os
import pickle
import pickletools
import subprocess
import sys
import tempfile
import threading
import unittest
from itertools import chain
from pathlib import Path
from xml.etree import ElementTree

import picklestep
from cut_pickles import whole_pickles
from pickles import chosen
from picklestep import held
from picklestep.sizing.measure import measured
from picklestep.sizing.treemap import svg
from scan_support import environment

SVG = '{http://www.w3.org/2000/svg}'
SHARED = ['shared', 300]
VALUES = [SHARED, {'a': SHARED, 'weights': (1.5, b'x' * 2000, 'y' * 70_000)}, list(range(-3, 2500)), {n: str(n) for n in range(400)}, (), [[]], 'end', None,
          True, 2**80, -2**31, [SHARED, ('two', 2)]]


def saved(answer: picklestep.Sizes, how: str) -> int:
    """How many bytes are left."""
    return next((each.left for each in answer.savings if each.how == how), answer.size)


class Sizes(unittest.TestCase):
    """`picklestep.size`."""

    def test_all_bytes_are_counted(self) -> None:
        for name, data in [*chosen(whole_pickles().items(), 30), *((f'protocol {n}', pickle.dumps(VALUES, n)) for n in range(6))]:
            with self.subTest(name):
                answer = picklestep.size(data)
                self.assertEqual(answer.objects + sum(each.size for each in answer.overhead) + answer.unread, len(data))
                try:
                    places = [(info.name, at) for info, _, at in pickletools.genops(data)]
                except (UnicodeDecodeError, ValueError):  # (it does not read all that loaders read)
                    continue
                wanted: collections.Counter[str] = collections.Counter()
                for (opcode, begin), end in zip(places, [*(at for _, at in places[1:]), places[-1][1] + 1]):
                    wanted[opcode] += end - begin
                self.assertEqual({each.what: each.size for each in answer.opcodes}, wanted)
                self.assertEqual([each.count for each in answer.opcodes], [[opcode for opcode, _ in places].count(each.what) for each in answer.opcodes])

    def test_what_would_be_saved(self) -> None:
        for protocol in range(6):
            data = pickle.dumps(VALUES[:-1], protocol)
            answer = picklestep.size(data)
            self.assertEqual(saved(answer, 'optimize'), len(picklestep.optimize(data)))
            optimized = len(pickletools.optimize(data))
            self.assertTrue(saved(answer, 'optimize') <= optimized if protocol else saved(answer, 'optimize') - optimized < 9)
            if protocol in (2, 3):  # (below 3 the bytes are a call)
                newest = len(pickle.dumps(VALUES[:-1], 5))
                self.assertLess(abs(saved(answer, 'protocol 5') - newest), 12 if protocol == 3 else 3000)
        plain = [1, 70_000, 'text' * 90, {'a': [0.5, ('b', 'c')]}, ('d',) * 4, [], datetime.date(2026, 1, 2).isoformat(), True]
        for protocol in range(4):
            self.assertEqual(saved(picklestep.size(pickle.dumps(plain, protocol)), 'protocol 5'), len(pickle.dumps(plain, 5)), protocol)
        for protocol, other in ((0, 2), (1, 2), (0, 3), (1, 3), (0, 4), (2, 4), (3, 4)):
            answer = picklestep.size(pickle.dumps(plain, protocol), protocol=other)
            self.assertEqual(saved(answer, f'protocol {other}'), len(pickle.dumps(plain, other)), (protocol, other))
        self.assertNotIn('protocol 2', [each.how for each in picklestep.size(pickle.dumps(plain, 3), protocol=2).savings])
        with self.assertRaisesRegex(ValueError, 'one from 2 to 5, and not 1'):
            picklestep.size(b'N.', protocol=1)

    @unittest.skipIf(sys.version_info < (3, 8), 'there are no buffers')
    def test_out_of_band(self) -> None:
        for buffer in (bytes(5000), bytearray(5000)):
            given = [pickle.PickleBuffer(buffer)]
            inside, outside = pickle.dumps(given, 5), pickle.dumps(given, 5, buffer_callback=[].append)
            self.assertLess(abs(saved(picklestep.size(inside), 'out of band') - len(outside)), 12)

    def test_paths(self) -> None:
        shared = 'z' * 100
        answer = picklestep.size(pickle.dumps([{'a': 'x' * 50, 'b': [shared, {'c', }]}, shared, (1, b'w' * 20)], 4), most=100)
        found = {each.path: each for each in answer.paths}
        self.assertEqual(found["[0]['b'][0]"].own, 102)
        self.assertNotIn('[1]', found)
        self.assertEqual(found["[0]['a']"].size, 52 + len(b'\x8c\x01a'))
        self.assertEqual(found["[0]['a'] (its key)"].own, 3)
        self.assertEqual({"[2][1]": 22, "[0]['b'][1]": 4, "[0]['b'][1]{'c'}": 3}, {path: found[path].size for path in ("[2][1]", "[0]['b'][1]", "[0]['b'][1]{'c'}")})
        self.assertEqual(found['result'].size, answer.objects)
        made = picklestep.size(pickle.dumps(collections.OrderedDict(a=[datetime.date(2026, 1, 2)]), 4), most=100)
        self.assertTrue({'result.name.module', "['a'][0].arguments[0]", "['a'][0].name"} <= {each.path for each in made.paths})
        loop: list[object] = []
        loop.append(loop)
        self.assertEqual([each.path for each in picklestep.size(pickle.dumps(loop, 4)).paths], ['result'])

    def test_long_keys(self) -> None:
        """Each is shown by its first letters, whatever they take in a line."""
        for letter in ('k', '"', "'", '\\', '\n', '\x7f', '\u00e9', '\u4e2d', '\U0001f600'):
            for count in (3, 64, 65, 500, 20_000):
                key = letter * count
                answer = picklestep.size(pickle.dumps({key: [1] * 20}, 4))
                self.assertEqual(answer.paths[1].path, f'[{key[:64]!r}{".." * (count > 64)}]', (letter, count))
        for number in (10**80, -2**2000, 2**3000):
            self.assertEqual(picklestep.size(pickle.dumps({number: [1] * 20}, 4)).paths[1].path, f'[{str(number)[:64]}..]')

    def test_lines_are_cut_between_letters(self) -> None:
        for text in ('k', '"', '\\', '\\ud83d', '\x00', '\u4e2d', 'k\U0001f600', '\udc80'):
            for length in (*range(950, 1100), 5_000, 3_000_000):
                data = (text * length)[:length].encode('utf-8', 'surrogatepass')
                field = {'argument_hex': data.hex()} if '\udc80' in text else {'argument': (text * length)[:length]}
                line = json.dumps({'kind': 'object', 'object': 7, 'is': 'bytearray', **field, 'parts': [1]}, separators=(',', ':')).encode('ascii')
                cut, = map(json.loads, chain.from_iterable(each.splitlines() for each in held.short_lines([line[:length // 2], line[length // 2:], b'\n'])))
                name, = field
                self.assertTrue(field[name].startswith(cut[name]) and len(cut[name]) >= min(len(field[name]), 60), (text, length))
                self.assertEqual((cut['parts'], 'more' in cut), ([1], cut[name] != field[name]))

    def test_memo_and_texts(self) -> None:
        text = b'equal'.decode
        data = pickle.dumps([text(), text(), SHARED, SHARED, b'v' * 5000, bytes(bytearray(b'v' * 5000)), b'u' * 5000], 4)
        answer = picklestep.size(data)
        names = [info.name for info, _, _ in pickletools.genops(data)]
        left = [info.name for info, _, _ in pickletools.genops(pickletools.optimize(data))].count('MEMOIZE')
        self.assertEqual((answer.memo.stored, answer.memo.taken, answer.memo.unused), (names.count('MEMOIZE'), names.count('BINGET'), names.count('MEMOIZE') - left))
        self.assertEqual([(each.count, each.size) for each in answer.again], [(2, 5005), (2, 7)])
        self.assertEqual(picklestep.size(b']q\x00]q\x00h\x00a.').memo.unused, 1)  # (the first is written over before somebody takes it)
        self.assertEqual(picklestep.size(b']q\x00.]h\x00.', many=True).memo.unused, 1)  # (the second pickle begins with an empty memo)

    def test_keys_of_the_memo(self) -> None:
        """MEMOIZE counts the entries, whatever keys they have. GET and PUT have digits."""
        for data, unused in ((b']q\x05N\x94K\x01\x94h\x01h\x05\x86\x86.', 1), (b']p007\ng007\na.', 0), (b']p0\nNp300\ng300\nj\x00\x00\x00\x00\x87.', 0),
                             (b'N\x94K\x01\x94h\x01\x87.', 1), (b'\x80\x04' + b'N\x940' * 300 + b'j\x2b\x01\x00\x00.', 299)):
            pickle.loads(data)
            self.assertEqual(picklestep.size(data).memo.unused, unused, data[:20])

    def test_kinds_and_values(self) -> None:
        """A key is shown as its opcode says it. Texts count as equal only if opcodes of one kind write them."""
        opcodes = {b'I01\n': True, b'I00\n': False, b'I5\n': 5, b'L7L\n': 7, b'F0.5\n': 0.5, b'Va\\u20ac\n': 'a\u20ac', b"S'b'\n": 'b', b'U\x01b': 'b',
                   b'T\1\0\0\0b': 'b', b'X\1\0\0\0b': 'b', b'C\1b': b'b', b'B\1\0\0\0b': b'b', b'G?\xe0' + bytes(6): 0.5, b'J\xff\xff\xff\xff': -1,
                   b'\x8a\1\xff': -1, b'K\7': 7, b'M\1\1': 257, b'N': None, b'\x88': True, b'\x89': False}
        for opcode, value in opcodes.items():
            data = b'}' + opcode + b'K\x01s.'
            self.assertEqual(pickle.loads(data), {value: 1})
            self.assertEqual([each.path for each in picklestep.size(data).paths], ['result', f'[{value!r}]', f'[{value!r}] (its key)'])
        again = picklestep.size(b'(' + b''.join(opcodes) + b't.').again
        self.assertEqual([(each.text, each.count, each.size) for each in again], [("'b'", 2, 3), ("b'b'", 2, 3)])

    @unittest.skipUnless(hasattr(os, 'mkfifo'), 'the system has no FIFOs')
    def test_a_fifo(self) -> None:
        with tempfile.TemporaryDirectory() as folder:
            path = Path(folder, 'fifo')
            os.mkfifo(path)
            with self.assertRaises(picklestep.TimedOut):
                picklestep.size(path, timeout=0.2)
            for timeout in (60, None):
                writer = threading.Thread(target=path.write_bytes, args=(pickle.dumps([1]),), daemon=True)
                writer.start()
                self.assertEqual(picklestep.size(path, timeout=timeout).size, len(pickle.dumps([1])))
                writer.join()

    def test_what_is_not_read(self) -> None:
        data = pickle.dumps(['a' * 30, [1, 2]], 2)
        for cut in range(len(data)):
            answer = picklestep.size(data[:cut])
            self.assertEqual((answer.size, answer.end.is_stopped), (cut, False))
            self.assertEqual(answer.objects + sum(each.size for each in answer.overhead) + answer.unread, cut)
        for more, many, unread in ((b'N.', False, 2), (b'N.', True, 0), (b'0.', True, 2), (b'\xff', False, 1)):
            self.assertEqual(picklestep.size(data + more, many=many).unread, unread)
        self.assertEqual([each.path for each in picklestep.size(b'NK\x01].', most=9).paths], ['result', '#0', '#1'])
        self.assertEqual([each.path for each in picklestep.size(b']N2\x86a.].', many=True).paths][0], '[0]')
        framed = pickle.dumps(['a' * 30], 4)[:-1]
        self.assertEqual((picklestep.size(framed).unread, picklestep.size(framed, unframed=True).unread), (len(framed) - 2, 0))
        views = b'\x97\x94\x98\x980h\x00\x98\x98\x86.'
        self.assertEqual(sum(each.size for each in picklestep.size(views[:-2] + b'.').opcodes), len(views) - 1)

    def test_the_drawing(self) -> None:
        """Each rectangle is as large as its bytes, says what the tables say, and names the place of the opcode that makes the object."""
        drawn = 0
        for name, data in [*chosen(whole_pickles().items(), 30), *((f'protocol {n}', pickle.dumps(VALUES, n)) for n in range(6))]:
            with self.subTest(name):
                answer = picklestep.size(data, most=100_000)
                rows = {(each.path, each.kind, each.size): each.offset for each in answer.paths}
                drawing = ElementTree.fromstring(svg(measured(data)))
                titles = {each.findtext(f'{SVG}title'): each for each in drawing.iter(f'{SVG}g')}
                overhead = sum(each.size for each in answer.overhead)
                self.assertEqual(f'overhead: {overhead:,} bytes' in titles, overhead > 0)
                try:
                    offsets = [at for _, _, at in pickletools.genops(data)]
                except (UnicodeDecodeError, ValueError):  # (it does not read all that loaders read)
                    continue
                for title, each in titles.items():
                    if 'data-place' not in each.attrib or '?' in title or ' .. ' in title:  # (a path of odd letters, or a long one)
                        continue
                    path, _, said = title.rpartition(': ')
                    kind, _, size = said.partition(', ')
                    total = int(size.replace(',', '').replace(' bytes', ''))
                    self.assertEqual(rows[path, kind, total], offsets[int(each.attrib['data-place'])], title)
                    drawn += 1
                    area = each.find(f'{SVG}rect')
                    if path == 'result':
                        share = float(area.attrib['width']) * float(area.attrib['height']) / (1200 * 800)
                        self.assertAlmostEqual(share, total / len(data), 2)
        self.assertGreater(drawn, 1000)

    def test_the_word(self) -> None:
        with tempfile.TemporaryDirectory() as folder:
            data = pickle.dumps({'<&"\u202e\x1b': ['a' * 90, b'b' * 90], ']]>': {}}, 4)
            Path(folder, 'a').write_bytes(data)
            Path(folder, 'cut').write_bytes(data[:-20])
            for words, code, said in ((('a', '--svg', 'a.svg'), 0, "['<&\"\\u202e\\x1b'][1]"), (('cut', '--unframed'), 1, 'not read'), (('none',), 2, ''), (('a', '--rows', '0'), 2, ''),
                                      (('a', '--svg', 'none/b'), 2, ''), (('a', '--rows', '2', '--json'), 0, '"kind":"end","how":"stopped","status":0')):
                run = subprocess.run([sys.executable, '-m', 'picklestep', 'size', *words], cwd=folder, env=environment(), capture_output=True, text=True, timeout=60)
                self.assertEqual((run.returncode, said in run.stdout), (code, True), run)
                self.assertTrue(all(line.isprintable() for line in run.stdout.splitlines()))
            lines = [json.loads(line) for line in run.stdout.splitlines()]
            self.assertEqual(sum(each['size'] for each in lines if each['kind'] == 'opcode'), len(data))
            drawing = ElementTree.parse(Path(folder, 'a.svg')).getroot()
            titles = [each.text or '' for each in drawing.iter(f'{SVG}title')]
            self.assertIn('result: dict, 201 bytes', titles)


if __name__ == '__main__':
    unittest.main()
