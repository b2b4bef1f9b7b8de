"""`picklestep convert FILE --protocol N --python2 --save OUT`: a pickle of another protocol, or one of Python 2 that Python 3 loads without an encoding.
Nothing of it is run.

Python 3 asks for an encoding where Python 2 wrote a `str`. Here each opcode of such a text gives way to one opcode of what `pickle.load` would make of
it with an encoding. The edits are those of a session. What is written in another protocol is in `protocols`.
"""

from __future__ import annotations

import argparse
import sys
from itertools import zip_longest
from pathlib import Path
from typing import Dict, List, NamedTuple, Optional, Sequence, Tuple, Union

from .addresses import check_out, content_in, given, saved
from .errors import NotConverted, PicklestepError, reason
from .listing_records import Opcode
from .made import line_of
from .protocols.changing import PROTOCOLS, in_protocol
from .printing import print_text
from .saving import naming, written_whole
from .session import Session
from .sources import Source, content_of
from .tasks import listing, objects
from .values import unescaped
from .waiting import Waiting
from .wording import count_of, shown

__all__ = ['ENCODINGS', 'convert', 'main']

ENCODINGS = ('ascii', 'latin1', 'utf-8', 'bytes')
# The opcodes of Python 2 for a `str`, each with the opcode of a text of the same age.
_TEXTS: Dict[str, str] = {'STRING': 'UNICODE', 'BINSTRING': 'BINUNICODE', 'SHORT_BINSTRING': 'BINUNICODE'}
# The kinds of the objects that they make.
_KINDS = ('string', 'string-line')
_MOST_OF_SHORT = 255
_MOST_SHOWN = 20


class _Put(NamedTuple):
    """An opcode that takes the place of another, and its value."""

    offset: int
    name: str
    value: Union[str, bytes]


def convert(source: Source, encoding: Optional[str] = None, *, protocol: Optional[int] = None, many: bool = False) -> bytes:
    """The pickle in the opcodes of a protocol: it makes the same values, and has the frames and the memo of that protocol. With `many` several pickles
    may follow one another, each of which `pickle.load` loads by itself.

    With an encoding, or without a protocol, each `str` of Python 2 becomes a text first, or bytes with the encoding 'bytes': `pickle.loads` of Python 3
    makes of the result what it makes of the source with `encoding=` ('ascii' where none is given). Then several pickles may follow one another.

    Of an address or the path of a container it is the pickle alone that is opened there.

    Raises NotConverted where the protocol cannot say something, where a text is none in this encoding, and where the pickle does not read to its end.

    >>> convert(b'U\\x03abc.'), convert(b'U\\x02\\xc3\\xa9.', 'utf-8'), convert(b"S'a'\\n.", 'bytes')
    (b'X\\x03\\x00\\x00\\x00abc.', b'X\\x02\\x00\\x00\\x00\\xc3\\xa9.', b'C\\x01a.')
    >>> convert(b'(lp0\\nI5\\na.', protocol=2), convert(b'\\x80\\x02]q\\x00K\\x05a.', protocol=0)
    (b'\\x80\\x02]q\\x00K\\x05a.', b'(lp0\\nI5\\na.')
    """
    content = content_in(source)
    if encoding is not None or protocol is None:
        content = _converted(content, encoding or ENCODINGS[0])[0]
    if protocol is None:
        return content
    if protocol not in PROTOCOLS:
        raise ValueError(f'{protocol!r:.60} is no protocol: they are 0 to {PROTOCOLS[-1]}')
    return in_protocol(content, protocol, many)


def _converted(content: bytes, encoding: str) -> Tuple[bytes, int]:
    """The pickle with other texts, and how many there were."""
    if encoding not in ENCODINGS:
        raise ValueError(f'{encoding!r:.60} is none of the encodings {", ".join(ENCODINGS)}')
    answer = listing(content, many=True)
    if not answer.end.is_stopped:
        raise NotConverted([f'reading ends early: {answer.end.text}'])
    found = [opcode for opcode in answer if opcode.name in _TEXTS]
    puts, wrong = [], []
    for opcode in found:
        try:
            puts.append(_put_of(opcode, encoding))
        except ValueError as error:
            wrong.append(f'{opcode.offset}: {opcode.name} {shown(repr(opcode.argument))[:60]}: {error}')
    if wrong:
        raise NotConverted(wrong)
    if not puts:
        return content, 0
    with Session(content, many=True) as session:
        for put in reversed(puts):  # (so no edit moves what is edited next)
            session.replace(put.name, put.value, at=put.offset)
        made = session.bytes()
    _compare(content, made)
    return made, len(puts)


def _put_of(opcode: Opcode, encoding: str) -> _Put:
    """What takes the place of a text. Raises ValueError where it cannot be."""
    assert isinstance(opcode.argument, bytes)
    data = unescaped(opcode.argument) if opcode.name == 'STRING' else opcode.argument
    if encoding == 'bytes':
        return _Put(opcode.offset, 'SHORT_BINBYTES' if len(data) <= _MOST_OF_SHORT else 'BINBYTES', data)
    return _Put(opcode.offset, _TEXTS[opcode.name], data.decode(encoding))


def _compare(before: bytes, after: bytes) -> None:
    """Raises NotConverted where another object than such a text would be another one."""
    old, new = objects(before, many=True), objects(after, many=True)
    if not new.end.is_stopped or old.results != new.results:
        raise NotConverted([f'it would not read to its end: {new.end.text}'])
    for one, other in zip_longest(old.fields(), new.fields()):
        if one is None or other is None or one != other and one['is'] not in _KINDS:
            raise NotConverted([f'another object would be another one: {line_of(one or other):.60}'])


def main(arguments: List[str]) -> int:
    """Writes the pickle to OUT. The status is 1 where it cannot be converted, 2 where it cannot be read or written."""
    options = _parser().parse_args(arguments)
    if not options.python2 and options.protocol is None:
        print('picklestep: say what it is to be: --protocol N or --python2', file=sys.stderr)
        return 2
    if options.many and options.protocol is None or options.encoding and not options.python2:
        print(f'picklestep: {"--encoding belongs to --python2" if options.encoding else "--many belongs to --protocol"}', file=sys.stderr)
        return 2
    try:
        pickle, found = given(options.file)
        check_out(options.save, '' if found is None else found.path)
        with Waiting():
            content, said = _made(content_of(pickle), options)
        with naming(options.save), written_whole(Path(options.save)) as file:
            file.write(content)
        print_text(f'{said}{saved(options.save, found)}')
    except NotConverted as error:
        print_text(_report(error.lines, options))
        return 1
    except (OSError, PicklestepError) as error:
        print(f'picklestep: {reason(error)}', file=sys.stderr)
        return 2
    return 0


def _made(content: bytes, options: argparse.Namespace) -> Tuple[bytes, str]:
    """The bytes that are saved, and what is said of them."""
    said = ''
    if options.python2:
        content, count = _converted(content, options.encoding or ENCODINGS[0])
        said = f'converted {count_of(count, "text")}\n'
    if options.protocol is not None:
        before = len(content)
        content = in_protocol(content, options.protocol, options.many)
        said += f'protocol {options.protocol}: {before} bytes -> {len(content)} bytes\n'
    return content, said


def _report(lines: Sequence[str], options: argparse.Namespace) -> str:
    more = [f'.. {len(lines) - _MOST_SHOWN} more'] if len(lines) > _MOST_SHOWN else []
    ways = [f'by the encoding {options.encoding or ENCODINGS[0]}'] if options.python2 else []
    ways += [] if options.protocol is None else [f'to protocol {options.protocol}']
    return ''.join(f'{line}\n' for line in [*lines[:_MOST_SHOWN], *more, f'nothing is written: it cannot be converted {" and ".join(ways)}'])


def _parser() -> argparse.ArgumentParser:
    parser = argparse.ArgumentParser(
        prog='picklestep convert', description='Writes a pickle in the opcodes of another protocol, or makes a pickle of Python 2 into one that Python 3 loads without '
                                              'an encoding. Nothing of it is run.',
        epilog='Status: 0 if the result is saved; 1 if it cannot be converted, and nothing is written; 2 if it cannot be read or written.')
    parser.add_argument('file', metavar='FILE', help='the pickle, or its address')
    parser.add_argument('--protocol', metavar='N', type=int, choices=PROTOCOLS, help='write it in the opcodes of this protocol, from 0 to 5')
    parser.add_argument('--many', action='store_true', help='FILE may have several pickles that follow one another')
    parser.add_argument('--python2', action='store_true', help='texts that Python 2 wrote become texts of Python 3')
    parser.add_argument('--encoding', choices=ENCODINGS, help='with --python2: how to decode the texts of Python 2 (ascii); with bytes they become bytes')
    parser.add_argument('--save', metavar='OUT', required=True, help='write the result to this file')
    return parser
