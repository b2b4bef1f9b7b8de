"""Looks for opcodes by what is typed: a text in their arguments, a number, a name, or what `list` notes of them. The bytes of the pickle are searched."""

from __future__ import annotations

from contextlib import suppress
from heapq import merge
from itertools import groupby
from math import isfinite
from operator import itemgetter
from typing import Iterator, List, Sequence, Tuple

from .arguments import opcode
from .listed import escaped
from .opcode_lines import ARGUMENTS, OpcodeLines, table_of
from .opcodes import TABLE

__all__ = ['Sought', 'with_key']

_HAVE_TEXTS = table_of(ARGUMENTS)
_HAVE_TWO = {each.code for each in TABLE if each.form == 'lines'}
_NEWLINE = ord('\n')
# The opcodes whose argument is a number, with those among them that have a key of the memo; and those that have one in a line.
_NUMBERS = [each.name for each in TABLE if each.form.startswith(('uint', 'int')) or each.argument.startswith('long')]
_KEYS = [name for name in _NUMBERS if name.endswith(('PUT', 'GET'))]
_IN_LINES = {each.code for each in TABLE if each.form == 'decimal'}
_MOST_DIGITS = 600
# The opcodes INT whose argument is shown as a truth value.
_TRUTHS = {'True': b'I01\n', 'False': b'I00\n'}
# The notes of `list`, before their numbers: whether that is a key.
_NOTES = {'(as ': True, '(MARK at ': False}
_IN_NOTES = '0123456789)'


class _Text:
    """A text in arguments. `begins` says that an argument begins with it, and `ends` that one ends with it."""

    def __init__(self, data: bytes, begins: bool = False, ends: bool = False) -> None:
        self._data, self._begins, self._ends = data, begins, ends

    def places(self, lines: OpcodeLines, place: int, step: int) -> Iterator[int]:
        """The places of opcodes with it, from one on, forwards or backwards."""
        texts = lines.codes.translate(_HAVE_TEXTS)
        if not self._data:
            return (at for at in (range(place, len(lines)) if step > 0 else range(place, -1, -1)) if texts[at] and self._is_in(lines, at))
        return self._forwards(lines, texts, place) if step > 0 else self._backwards(lines, texts, place)

    def _forwards(self, lines: OpcodeLines, texts: bytearray, place: int) -> Iterator[int]:
        place = texts.find(1, place)
        while place >= 0:
            at = lines.content.find(self._data, lines.text_at(place)[0])
            if at < 0:
                return
            here = lines.place_of(at)
            if here != place:  # (what is found may be no text)
                place = texts.find(1, here)
                if place != here:
                    continue
            if self._is_in(lines, place):
                yield place
            place = texts.find(1, place + 1)

    def _backwards(self, lines: OpcodeLines, texts: bytearray, place: int) -> Iterator[int]:
        place = texts.rfind(1, 0, place + 1)
        while place >= 0:
            at = lines.content.rfind(self._data, 0, lines.text_at(place)[1])
            if at < 0:
                return
            here = lines.place_of(at)
            if here != place:
                place = texts.rfind(1, 0, here + 1)
                if place != here:
                    continue
            if self._is_in(lines, place):
                yield place
            place = texts.rfind(1, 0, place)

    def _is_in(self, lines: OpcodeLines, place: int) -> bool:
        """Whether it is in the argument of an opcode. (Of two texts each begins and ends by itself.)"""
        begin, end = lines.text_at(place)
        content, size = lines.content, len(self._data)
        if not size:
            return begin == end
        edge = _NEWLINE if lines.codes[place] in _HAVE_TWO else -1
        at = content.find(self._data, begin, end)
        while at >= 0:
            is_begin, is_end = at == begin or content[at - 1] == edge, at + size == end or content[at + size] == edge
            if is_begin >= self._begins and is_end >= self._ends:
                return True
            at = content.find(self._data, at + 1, end)
        return False


class Sought:
    """What is looked for, as it is typed."""

    def __init__(self, text: str) -> None:
        self._text = text
        self._texts = [_Text(text.encode('utf-8', 'surrogatepass'))]
        digits = text[text.startswith('-'):]
        self._number = int(text) if digits.isdecimal() and len(digits) <= _MOST_DIGITS else None

    def places(self, lines: OpcodeLines, place: int, step: int, in_names: bool = False) -> Iterator[int]:
        """The places of opcodes that have it in their arguments, from one on, forwards or backwards; with `in_names` also those that have it in their names,
        and those whose arguments or notes are it as `list` writes them."""
        if not 0 <= place < len(lines):
            return iter(())
        found = [text.places(lines, place, step) for text in self._texts + (_written(self._text) if in_names else [])]
        if self._number is not None:
            found += _with_number(lines, self._number, _NUMBERS, place, step)
        found += [_beginning(lines, data, place, step) for data in _constants(self._text)]
        if in_names:
            found += [_with_note(lines, self._text, note, place, step) for note in _NOTES if not self._text.isdecimal() and self._text.strip(_IN_NOTES) in note]
        found += [lines.with_code(each.code, place, step) for each in TABLE if in_names and self._text in each.name]
        return map(itemgetter(0), groupby(merge(*found, reverse=step < 0)))


def _written(text: str) -> List[_Text]:
    """A text as `list` writes arguments: in quotes, and with backslashes. None where it is no such text, or where that is the same.

    >>> [each._data for each in (*_written("'os' 'getcwd'"), *_written('\\\\xff'), *_written('a'))]
    [b'os\\ngetcwd', b'\\xff']
    """
    begins, ends = text.startswith("'"), len(text) > 1 and text.endswith("'")
    inner = text[begins:len(text) - ends].split("' '")
    try:
        found = [each.encode('ascii').decode('unicode_escape').encode('latin-1') for each in inner]
    except UnicodeError:
        return []
    data = b'\n'.join(found)
    is_written = [*map(escaped, found)] == inner and (begins or ends or data != text.encode('ascii'))
    return [_Text(data, begins, ends)] if is_written else []


def _constants(text: str) -> List[bytes]:
    """The opcodes whose argument is a float or a truth value with this text.

    >>> _constants('1.5'), _constants('True'), _constants('15'), _constants('nan')
    ([b'G?\\xf8\\x00\\x00\\x00\\x00\\x00\\x00'], [b'I01\\n'], [], [])
    """
    if text in _TRUTHS:
        return [_TRUTHS[text]]
    try:
        value = float(text)
    except ValueError:
        return []
    return [opcode('BINFLOAT', value)] if repr(value) == text and isfinite(value) else []


def _with_note(lines: OpcodeLines, text: str, note: str, place: int, step: int) -> Iterator[int]:
    """The places of opcodes whose note has a text, from one on, forwards or backwards."""
    return (at for at, number in lines.noted(_NOTES[note], place, step) if text in f'{note}{number})')


def _with_number(lines: OpcodeLines, number: int, among: Sequence[str], place: int, step: int) -> Iterator[Iterator[int]]:
    """The places of opcodes of some names whose argument is a number, from one on, forwards or backwards."""
    yield _in_lines(lines, number, place, step)
    for name in among:
        with suppress(ValueError):  # (it may have no room for it)
            yield _beginning(lines, opcode(name, number), place, step)


def _beginning(lines: OpcodeLines, data: bytes, place: int, step: int) -> Iterator[int]:
    """The places of opcodes that begin with some bytes, from one on, forwards or backwards."""
    return (found for found, at in _found(lines, data, place, step) if at == lines.offset(found))


def _found(lines: OpcodeLines, data: bytes, place: int, step: int) -> Iterator[Tuple[int, int]]:
    """Where bytes are, from an opcode on, forwards or backwards: each with the place of the opcode there."""
    content, begin, end = lines.content, lines.offset(place), lines.end(place)
    if step > 0:
        at = content.find(data, begin)
        while at >= 0:
            yield lines.place_of(at), at
            at = content.find(data, at + 1)
    else:
        at = content.rfind(data, 0, end)
        while at >= 0:
            yield lines.place_of(at), at
            at = content.rfind(data, 0, at + len(data) - 1)


def with_key(lines: OpcodeLines, key: int, place: int, step: int) -> Iterator[int]:
    """The places of opcodes that store an object in the memo under a key, or get it from there, from one on, forwards or backwards."""
    if not 0 <= place < len(lines):
        return iter(())
    noted = (at for at, number in lines.noted(True, place, step) if number == key)
    return iter(merge(noted, *_with_number(lines, key, _KEYS, place, step), reverse=step < 0))


def _in_lines(lines: OpcodeLines, number: int, place: int, step: int) -> Iterator[int]:
    """The same of those that have the key of the memo in a line, perhaps with noughts before it."""
    for found, _ in _found(lines, b'%d\n' % number, place, step):
        digits = lines.content[lines.offset(found) + 1:lines.end(found) - 1] if lines.codes[found] in _IN_LINES else b''
        if digits.isdigit() and int(digits) == number:
            yield found
