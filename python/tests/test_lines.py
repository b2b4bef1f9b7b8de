"""The readers of listings and reports, on every line of the rows and of the real pickles: what was read, written again as the line's definition
says (crates: pickle_list/specs/Line, object_texts/specs/ObjectText), is the line. So nothing of a line is lost, and nothing is taken for something
else."""

from __future__ import annotations

import json
import re
import struct
import unittest
from typing import Iterable, Iterator, List

import picklestep
from picklestep import Opcode
from picklestep.listing_records import Change, Object
from picklestep.records import Argument
from picklestep.answers import Listing
from picklestep.tasks import Asked, modes
from picklestep.made import object_of
from json_texts import listed, made, of_object
from pickles import ROOT, real_pickles
from test_reaches import decimal, quoted

# Lines of these two among others.
_OPCODE = re.compile(r' *[0-9]+: (?:\\x[0-9a-f]{2}|.) +[A-Z][A-Z0-9_]*(?: .*)?')
# (a line of an object may follow its depth, as `show` prints it)
_OBJECT = re.compile(r'(?:[0-9]+ )?(#[0-9]+ [a-z].*)')
_SIGNS = {'append': '+', 'add': '&', 'state': '!'}
_ROWS = ('conversations.txt', 'texts.txt')


def code_of(code: bytes) -> str:
    """The column of an opcode's byte."""
    return chr(code[0]) if 0x21 <= code[0] <= 0x7e else f'\\x{code[0]:02x}'


def argument_of(value: Argument) -> str:
    """The text of an argument that is there."""
    if isinstance(value, tuple):
        return ' '.join(map(quoted, value))
    if isinstance(value, bytes):
        return quoted(value)
    if isinstance(value, float):
        return 'f8:' + struct.pack('>d', value).hex()
    return str(value)


def line_of_opcode(opcode: Opcode) -> str:
    """The line in a listing."""
    behind = [argument_of(opcode.argument)] if opcode.argument is not None else []
    behind += [f'({opcode.note})'] if opcode.note else []
    name = f'{opcode.name:10}' if behind else opcode.name
    return f'{opcode.offset:5}: {code_of(opcode.code):4} {"    " * opcode.marks}' + ' '.join([name, *behind])


def change_of(change: Change) -> str:
    """What was done to an object."""
    return f'[#{change.key}]=#{change.value}' if change.how == 'set' else f'{_SIGNS[change.how]}#{change.value}'


def line_of_object(made: Object) -> str:
    """The line in a report."""
    words = [f'#{made.number}', made.kind, *([argument_of(made.text)] if made.text is not None else [])]
    words += ['(' + ' '.join(f'#{part}' for part in made.parts) + ')'] if made.parts else []
    return ' '.join([*words, *map(change_of, made.changes)])


def rows() -> Iterator[str]:
    """The lines of the rows that are tried from outside."""
    for name in _ROWS:
        yield from (ROOT / 'equipment' / name).read_text('ascii').splitlines()


def _fields_of(lines: bytes) -> List[object]:
    """The fields of each line, in their order. (JSON has two spellings of a newline.)"""
    return [json.loads(line, object_pairs_hook=list) for line in lines.splitlines()]


class Lines(unittest.TestCase):
    """What is read of a line is the line."""

    def check(self, lines: Iterable[str]) -> int:
        count = 0
        for line in lines:
            self.assertEqual(line_of_object(object_of(of_object(line))), decimal(line))
            count += 1
        return count

    def check_opcodes(self, answer: Listing, text: str) -> int:
        """What is read of lines of JSON is what the text says, and its text is that."""
        lines = [line for line in text.split('\n') if _OPCODE.fullmatch(line)]
        self.assertEqual(answer.text, text)
        self.assertEqual([*map(line_of_opcode, answer)], [*map(decimal, lines)])
        self.assertEqual([answer[at] for at in range(len(answer))], [*answer])
        return len(lines)

    def test_rows(self) -> None:
        lines = [line for line in rows() if _OPCODE.fullmatch(line) and ' hex:' not in line]  # (those are of `list --whole`)
        end = 'highest protocol among opcodes = 5\n'
        self.assertGreater(sum(self.check_opcodes(Listing(listed(f'{line}\n{end}')), f'{line}\n{end}') for line in lines), 200)
        self.assertGreater(self.check(match[1] for match in map(_OBJECT.fullmatch, rows()) if match), 150)

    def test_listings_of_real_pickles(self) -> None:
        for name, data in real_pickles().items():
            for unframed in (False, True):
                with self.subTest(name, unframed=unframed), Asked(data, None, None) as asked:
                    self.check_opcodes(picklestep.listing(data, many=True, unframed=unframed), asked.answer(['list', *modes(True, unframed)]))

    def test_reports_of_real_pickles(self) -> None:
        for name, data in real_pickles().items():
            for unframed in (False, True):
                with self.subTest(name, unframed=unframed), Asked(data, None, None) as asked:
                    text, answer = asked.answer(['objects', *modes(True, unframed)]), picklestep.objects(data, many=True, unframed=unframed)
                    self.assertEqual(_fields_of(answer.json), _fields_of(made(text)))
                    self.assertEqual(answer.text, text)
                    lines = [line for line in text.splitlines() if line.startswith('#')]
                    self.check(lines)
                    self.assertEqual([*map(line_of_object, answer)], [*map(decimal, lines)])
                    self.assertEqual([answer[at] for at in range(0, len(answer), 7)], [*answer][::7])


if __name__ == '__main__':
    unittest.main()
