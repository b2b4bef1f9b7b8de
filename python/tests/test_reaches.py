"""The reader of lines of `calls`, on every line of the rows and of the real pickles: what it read, written again as the line's definition says
(crates/pickle_calls/specs: CallsLine, Brief, Naming), is the line. So nothing of a line is lost, and nothing is taken for something else."""

from __future__ import annotations

import re
import struct
import unittest
from itertools import chain
from typing import Dict, Iterator, List, Union

import picklestep
from picklestep import Brief, Briefs, Extension, Global, Reach, Ref
from picklestep.reaches import alike_by
from pickles import ROOT, real_pickles

# Kinds of values that stand for themselves; all others but texts, objects and names are a word and a value.
_CONSTANTS = ('none', 'true', 'false')
# A long number that is not cut. Its bytes may be more than it needs, which the reader does not keep.
_LONG = re.compile(r'\ble:([0-9a-f]*)(?![0-9a-f+])')


def quoted(value: bytes) -> str:
    """Bytes in quotes."""
    escapes = {0x27: "\\'", 0x5c: '\\\\'}
    return "'" + ''.join(escapes.get(byte) or (chr(byte) if 0x20 <= byte <= 0x7e else f'\\x{byte:02x}') for byte in value) + "'"


def text_of(kind: str, value: bytes, more: int) -> str:
    """A text, or a payload after its keyword."""
    words = {'text': '', 'raw string': 'string raw '}.get(kind, kind + ' ')
    return words + quoted(value) + (f'+{more}' if more else '')


def number_of(value: Union[int, float, bytes], more: int) -> str:
    """A number: a float, decimal, or the first bytes of one that is cut."""
    if isinstance(value, float):
        return 'float f8:' + struct.pack('>d', value).hex()
    if isinstance(value, bytes):
        return f'int le:{value.hex()}+{more}'
    return f'int {value}'


def decimal(line: str) -> str:
    """The line with its long numbers in decimal."""
    return _LONG.sub(lambda match: str(int.from_bytes(bytes.fromhex(match[1]), 'little', signed=True)), line)


def name_of(name: Union[Global, Ref, Extension]) -> str:
    """What is imported or called."""
    if isinstance(name, Ref):
        return f'#{name.number}'
    if isinstance(name, Extension):
        return f'ext {name.code}'
    parts = (('module', name.module), ('name', name.name))
    return ' '.join(f'#{part.number}' if isinstance(part, Ref) else ('raw ' if which in name.raw else '') + quoted(part) for which, part in parts)


def brief_of(brief: Brief) -> str:
    """A value in brief."""
    value = brief.value
    if brief.kind in _CONSTANTS:
        return brief.kind
    if isinstance(value, (Global, Ref, Extension)):
        return ('global ' if brief.kind == 'global' else '') + name_of(value)
    if brief.kind in ('int', 'float'):
        assert isinstance(value, (int, float, bytes))
        return number_of(value, brief.more)
    assert isinstance(value, bytes)
    return text_of(brief.kind, value, brief.more)


def value_of(value: Union[Brief, Briefs]) -> str:
    """A value, or the items of a tuple."""
    if isinstance(value, Brief):
        return brief_of(value)
    more = [f'+{value.more}'] if value.more else []
    return '(' + ', '.join([*map(brief_of, value.items), *more]) + ')'


def line_of(reach: Reach) -> str:
    """The line, from everything but its own text."""
    words: List[str] = [reach.what]
    if reach.name is not None:
        words.append(name_of(reach.name))
    if reach.said is not None:
        words += ['for', name_of(reach.said)]
    words += [value_of(value) for value in (reach.value, reach.keywords) if value is not None]
    words += [str(reach.count)] if reach.count is not None else []
    if reach.target is not None:
        words += [f'#{reach.target}'] if reach.what == 'readonly' else ['in' if reach.what == 'set' else 'to', f'#{reach.target}']
    words += ['as', f'#{reach.number}'] if reach.number is not None else []
    return f'{reach.offset:5d}: ' + ' '.join(words)


def given() -> Iterator[bytes]:
    """Calls with 15 to 19 arguments of each kind, cut and not."""
    kinds: Dict[str, bytes] = {
        'int': b'K\x01', 'text': b'\x8c\x01a', 'long text': b'X\x50\0\0\0' + b'a' * 80, 'bytes': b'C\x01b', 'long': b'\x8a\x12' + b'\1' * 18,
        'cut long': b'\x8b\x46\0\0\0' + b'\1' * 70, 'float': b'G?\xf0\0\0\0\0\0\0', 'line': b'I5\n', 'none': b'N', 'true': b'\x88',
        'string': b'U\x01s', 'raw': b'U\x01\xff', 'list': b']', 'global': b'cm\nn\n', 'extension': b'\x82\x07', 'array': b'\x96' + b'\1' + b'\0' * 7 + b'x'}
    for argument in kinds.values():
        for count in range(15, 20):
            yield b'\x80\x05ca\nb\n(' + argument * count + b'tR.'
    yield b'ca\nb\n(' + b''.join(kinds.values()) + b'tR.'


def rows() -> Iterator[bytes]:
    """The pickles of the rows."""
    found = re.findall(r'^pickle ([0-9a-f ]+)$', (ROOT / 'equipment' / 'calls.txt').read_text('ascii'), re.MULTILINE)
    yield from map(bytes.fromhex, found)


def spelled() -> Iterator[bytes]:
    """Calls with one argument, and persistent ids, of which some are spelled in several ways, behind fewer objects and more."""
    arguments = (b'Va\n', b'V\\u0061\n', b'\x8c\x01a', b'V\\ud800\n', b'X\x03\0\0\0\xed\xa0\x80', b'V\xe9\n', b'X\x02\0\0\0\xc3\xa9', b"S'a'\n", b"S'\\x61'\n",
                 b'U\x01a', b'U\x01\xff', b"S'\\xff'\n", b'K\x05', b'\x8a\x01\x05', b'\x8a\x11\x05' + bytes(16), b'I5\n', b'I05\n', b'L5L\n', b'G\0\0\0\0\0\0\0\0',
                 b'G\x80\0\0\0\0\0\0\0', b'G\x7f\xf8\0\0\0\0\0\0', b'F0.0\n', b'K\x01', b'\x88', b'I01\n', b'N', b']', b'}', b')', b'ca\nb\n', b'Va\nVb\n\x93',
                 b"S'\\x61'\nVb\n\x93", b'Na\x93', b'c__builtin__\nid\n', b'\x82\x07', b'\x82\x08')
    for before in (b'', b'NNN', b'\x80\x04N'):
        for argument in arguments:
            yield b'%bcm\nn\n%b\x85R.' % (before, argument)
            yield b'%b%b)R%bb.' % (before, argument, argument)
            yield b'%b%bQ.' % (before, argument)
        yield from (b'%bP%b\n.' % (before, line) for line in (b'a', b'\xff', b'\\u0061', b''))


class Lines(unittest.TestCase):
    """What is read of a line is the line."""

    def check(self, answer: picklestep.Calls) -> int:
        for reach in answer.everything():
            self.assertEqual(line_of(reach), decimal(f'{reach.offset:5d}: {reach.text}'))
        return len(answer)

    def test_rows(self) -> None:
        self.assertGreater(sum(self.check(picklestep.calls(row)) for row in rows()), 200)

    def test_real_pickles(self) -> None:
        for name, data in real_pickles().items():
            for full in (False, True):
                with self.subTest(name, full=full):
                    self.check(picklestep.calls(data, full=full))

    def test_arguments(self) -> None:
        for data in given():
            self.check(picklestep.calls(data))

    def test_long_lines(self) -> None:
        """A line that is too long for a line of JSON has its text all the same."""
        answer = picklestep.calls(b'cm\nn\n(X\x88\x13\0\0' + b'a' * 5000 + b'tR.', full=True)
        self.assertEqual(len(answer[1].text), 5000 + len("call 'm' 'n' ('') as #3"))
        self.check(answer)

    def test_what_is_alike(self) -> None:
        """Two lines are alike by their fields exactly if they are the same text but for offsets and numbers of objects. (No such number is in quotes.)"""
        by_fields: Dict[str, str] = {}
        by_text: Dict[str, str] = {}
        count = 0
        for data in (*rows(), *given(), *spelled(), *real_pickles().values()):
            answer = picklestep.calls(data, full=True)
            for fields, reach in zip(chain(answer.fields(), *(part.fields() for part in answer.parts)), answer.everything()):
                alike, text = alike_by(fields), re.sub(r"('(?:[^'\\]|\\.)*')|#[0-9]+", lambda found: found[1] or '#', reach.text)
                count += 1
                with self.subTest(reach.text):
                    self.assertEqual((by_fields.setdefault(alike, text), by_text.setdefault(text, alike)), (text, alike))
        self.assertGreater(count, 2 * len(by_text))
        self.assertGreater(len(by_text), 200)


if __name__ == '__main__':
    unittest.main()
