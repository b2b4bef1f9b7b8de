"""The opcodes of a document: their lines are those that `list` prints, and what is looked for is where pickletools has it."""

from __future__ import annotations

import contextlib
import pickle
import pickletools
import random
import struct
import unittest
from typing import Callable, Iterator, List, Set, Tuple

import picklestep
from picklestep.document import Document
from picklestep.lines import CUT
from picklestep.listed import text_of
from picklestep.opcode_lines import OpcodeLines
from picklestep.searching import Sought, with_key
from picklestep.tasks import Asked, modes
from pickles import real_pickles


@contextlib.contextmanager
def opened(data: bytes, many: bool = False, unframed: bool = False) -> Iterator[Document]:
    """A document, which is closed at the end."""
    document = Document(data, 'a pickle', many, unframed=unframed)
    try:
        yield document
    finally:
        document.close()


def cut(line: str) -> str:
    """A line with its beginning alone, and what comes after its texts."""
    last = line.rfind("'")
    return line if len(line) <= CUT or "'" not in line[:CUT] or last <= CUT else f'{line[:CUT]} .. {last - CUT} bytes more{line[last:]}'


def with_long_texts() -> Iterator[bytes]:
    """Pickles with texts of many lengths in each form: of one line, of two lines, and with a length."""
    for size in (*range(440, 520, 7), 4000, 4090, 4091, 4092, 4096, 5000, 20_000):
        for text in ('x' * size, "it's \\ \xff" * (size // 8), '\n' * size):
            data = text.encode('utf-8')
            line = data.replace(b'\n', b'\t')
            short, long = struct.pack('<I', len(data)) + data, struct.pack('<Q', len(data)) + data
            yield b'(' * (size % 130) + b'X' + short + b'T' + short + b'B' + short + b'\x8d' + long + b'\x8e' + long + b'\x96' + long + b'V' + line + b'\n.'
            yield b'(c' + line + b'\nname\nc' + line[:300] + b'\n' + line + b'\nP' + line + b'\n0((i' + line + b'\n' + line + b'\n.'
    yield b'\x8b\x00\x20\x00\x00' + b'\x7f' * 0x2000 + b'L' + b'9' * 5000 + b'L\n.'


class Lines(unittest.TestCase):
    def check(self, data: bytes, many: bool, unframed: bool = False) -> None:
        with Asked(data, None, None) as asked:
            text = asked.answer(['list', *modes(many, unframed)])
        wanted = [cut(line) for line in text.split('\n') if line.lstrip(' ')[:1].isdigit()]
        with opened(data, many, unframed) as document:
            lines = document.lines
            self.assertEqual([text_of(lines.at(place)) for place in range(document.listed)], wanted)
            self.assertEqual(document.first_lines(document.listed), wanted)
            self.assertEqual((bytes(lines.codes), lines.content), (bytes(data[lines.offset(place)] for place in range(len(lines))), data))
            whole = [lines.whole(place) is not None for place in range(document.listed)]
            self.assertEqual(whole, [' bytes more' not in line for line in wanted])

    def test_real_pickles(self) -> None:
        for name, data in real_pickles().items():
            for many, unframed in ((False, False), (True, False), (True, True)):
                with self.subTest(name, many=many, unframed=unframed):
                    self.check(data, many, unframed)

    def test_long_texts(self) -> None:
        for at, data in enumerate(with_long_texts()):
            with self.subTest(at):
                self.check(data, many=True)

    def test_several_that_leave_something(self) -> None:
        for data in (b'N(.(N.N.(.', b'N(N.', b'N0.N.', b'NN.R.', b'.', b'', b'K', b'(.'):
            with self.subTest(data):
                self.check(data, many=True)
                self.check(data, many=False)

    def test_blocks(self) -> None:
        """They may end anywhere."""
        rng = random.Random(37)
        for data in (pickle.dumps([('a' * 3000, n, {n: ()}) for n in range(60)], 4), b'N(.(N.' * 400 + b'(N'):
            with Asked(data, None, None) as asked:
                json = asked.lines(['list', '--json', '--many'])
            whole = vars(OpcodeLines(data, lambda first, stop: ()).read([json]))
            for _ in range(10):
                blocks, at = [], 0
                while at < len(json):
                    size = rng.choice((1, 7, 400, 9000, 100_000))
                    blocks.append(json[at:at + size])
                    at += size
                read = vars(OpcodeLines(data, lambda first, stop: ()).read(blocks))
                kept = ('codes', '_offsets', '_moves', '_marks', '_takers', '_taken', '_storers', '_keys', '_marks_at_end', 'closing', 'kept', 'is_refused')
                self.assertEqual({name: read[name] for name in kept}, {name: whole[name] for name in kept})

    def test_what_is_not_whole(self) -> None:
        with self.assertRaisesRegex(picklestep.ProgramError, 'no whole listing'):
            OpcodeLines(b'N.', lambda first, stop: ()).read([b'{"kind":"opcode","offset":0,"opcode":"NONE","marks":0}\n'])

    def test_a_first_part(self) -> None:
        """What is cut is as if nothing had been read behind it."""
        data = pickle.dumps([(n, [n], {n: n}) for n in range(20)], 2)
        opcodes = [*picklestep.listing(data)]
        for place in range(1, len(opcodes)):
            with Asked(data, None, None) as asked:
                lines = OpcodeLines(data, lambda first, stop: ()).read([asked.lines(['list', '--json'])])
            lines.cut(place)
            self.assertEqual((len(lines), lines.end(place - 1), lines.marks(place - 1)), (place, opcodes[place].offset, opcodes[place - 1].marks))
            self.assertEqual([*lines.under(1, 0, 1)], [at for at in range(place) if opcodes[at].marks])


class Marks(unittest.TestCase):
    def test_how_many_are_open(self) -> None:
        for data in (*(pickle.dumps([(n, [n, [n, {n: n}]], {n}) for n in range(30)], protocol) for protocol in (0, 2, 4)), b'(N.((N.N.'):
            marks = [opcode.marks for opcode in picklestep.listing(data, many=True)]
            with opened(data, many=True) as document:
                lines = document.lines
                self.assertEqual([*map(lines.marks, range(len(lines)))], marks)
                self.assertEqual([lines.marks_before(place) for place in range(len(marks) + 1)], [sum(marks[:place]) for place in range(len(marks) + 1)])
                for depth in range(5):
                    deep = [place for place, count in enumerate(marks) if count >= depth]
                    for place in range(len(marks)):
                        self.assertEqual([*lines.under(depth, place, 1)], [at for at in deep if at >= place])
                        self.assertEqual([*lines.under(depth, place, -1)], [at for at in deep[::-1] if at <= place])
                        wanted = next((at for at in range(place, len(marks)) if marks[at] <= depth), len(marks))
                        self.assertEqual(lines.up_to(place, depth), wanted)


class Searches(unittest.TestCase):
    """What is found is what a search of all arguments finds."""

    def check(self, lines: OpcodeLines, found: Callable[[int, int], Iterator[int]], wanted: List[int]) -> None:
        self.assertEqual([*found(0, 1)], wanted)
        self.assertEqual([*found(len(lines) - 1, -1)], wanted[::-1])
        for place in range(0, len(lines), 1 + len(lines) // 20):
            self.assertEqual([*found(place, 1)], [at for at in wanted if at >= place])
            self.assertEqual([*found(place, -1)], [at for at in wanted[::-1] if at <= place])

    @staticmethod
    def opcodes(data: bytes) -> List[Tuple[str, object]]:
        return [(opcode.name, value) for opcode, value, _ in pickletools.genops(data)]

    def test_texts_and_numbers(self) -> None:
        value = [['n', 'nn', 'an n', b'n', 'caf\xe9', "it's", '', 'x' * 5000 + 'n', -3, 70_000, 2**40, 110, 0x6e6e6e6e], {'n': 'h\x00', 'K': 'K\x05'}]
        for protocol in range(5):
            data = pickle.dumps(value, protocol)
            opcodes = self.opcodes(data)
            with opened(data) as document:
                for text in ('n', 'nn', '\xe9', "'", 'h', 'K', 'absent'):
                    def holds(argument: object, text: str = text) -> bool:
                        return isinstance(argument, str) and text in argument or isinstance(argument, bytes) and text.encode('utf-8') in argument
                    wanted = [place for place, (name, argument) in enumerate(opcodes) if holds(argument)]
                    if protocol or text in ('absent', 'nn'):  # (their lines have escapes, and quotes around them)
                        self.check(document.lines, lambda place, step: Sought(text).places(document.lines, place, step), wanted)
                for number in (-3, 70_000, 2**40, 110):
                    wanted = [place for place, (_, argument) in enumerate(opcodes) if argument == number and argument is not True]
                    if protocol > 1:
                        self.check(document.lines, lambda place, step: Sought(str(number)).places(document.lines, place, step), wanted)

    def test_as_list_writes_them(self) -> None:
        with opened(b'(cn\nnm\ncn\\\nm\nX\x02\0\0\0nmX\x01\0\0\0nX\x02\0\0\0\xff\\X\0\0\0\0\x94]\x94t.') as document:
            for text, wanted in (("'n'", [1, 4]), ("'n' 'nm'", [1]), ("'n", [1, 2, 3, 4]), ("m'", [1, 2, 3]), ("'nm'", [1, 3]), ('n\\\\', [2]), ('\\xff', [5]),
                                 ("'\\xff\\\\'", [5]), ("''", [6]), ('as 0', [7]), ('(as 1)', [9]), ('MARK at 0', [10]), ('TUPLE', [10]), ('\\b', [])):
                found = Sought(text).places(document.lines, 0, 1, in_names=True)
                self.assertEqual([*found], wanted, text)

    def test_floats_and_truth_values(self) -> None:
        with opened(b'(K\1G?\xf8\0\0\0\0\0\0F1.5\nI01\nI1\nI00\nt.') as document:
            for text, wanted in (('1.5', [2, 3]), ('True', [4]), ('False', [6]), ('1.50', []), ('nan', [])):
                self.check(document.lines, lambda place, step: Sought(text).places(document.lines, place, step), wanted)

    def test_keys(self) -> None:
        value = [[str(n)] * 2 for n in range(300)]
        for data in (*(pickle.dumps(value, protocol) for protocol in range(5)), b'Np007\n0g7\nh\x07q\x07j\x07\0\0\0r\x07\0\0\0p70\ng07\n\x94.'):
            keys: List[object] = []
            memo: Set[object] = set()
            for name, argument in self.opcodes(data):
                keys.append(len(memo) if name == 'MEMOIZE' else argument if name.endswith(('PUT', 'GET')) else None)
                memo.update(keys[-1:] if name.endswith(('PUT', 'MEMOIZE')) else ())
            with opened(data) as document:
                for key in (0, 7, 70, 255, 256, 299, 10_000):
                    wanted = [place for place, each in enumerate(keys) if each == key]
                    self.check(document.lines, lambda place, step: with_key(document.lines, key, place, step), wanted)


if __name__ == '__main__':
    unittest.main()
