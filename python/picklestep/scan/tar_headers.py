"""How a header of a tar archive is known."""

from __future__ import annotations

import re

from ..patterns import pattern

__all__ = ['BLANKS', 'BLOCK', 'NUMBERS', 'looks_like_header']

BLOCK = 512
# Where the numbers of a header stand.
NUMBERS = {'mode': (100, 108), 'uid': (108, 116), 'gid': (116, 124), 'size': (124, 136), 'mtime': (136, 148), 'major': (329, 337),
           'minor': (337, 345)}
# What `int` of Python and other readers take for octal digits, and the blanks that they leave out. Writers write none of it.
_SPELLED = pattern(rb'[+-]?(?:0[oO]_?)?([0-7][0-7_]*)(?: .*)?', re.DOTALL)
BLANKS = b' \t\n\r\v\f\x1c\x1d\x1e\x1f'
_BELOW_128 = bytes(range(128))


def looks_like_header(block: bytes) -> bool:
    """Whether some reader takes this block for a header: its sum fits in some spelling. No reader takes more."""
    if len(block) < BLOCK:
        return False
    field = block[148:156]
    text = field.partition(b'\0')[0].strip(BLANKS)
    found, is_binary = _SPELLED.fullmatch(text), field[0] in (0x80, 0xFF)
    if found is None and text and not is_binary:
        return False
    others = block[:148] + block[156:BLOCK]
    unsigned = 256 + sum(others)
    sums = {unsigned, unsigned - 256 * len(others.translate(None, _BELOW_128))}
    if is_binary and {int.from_bytes(field[1:], 'big'), int.from_bytes(field, 'big', signed=True)} & sums:
        return True
    if found is None:
        # tarfile takes no sum for zero, and the block for a header if its other numbers are some.
        return not text and 0 in sums and all(_may_be_number(block[start:end]) for start, end in NUMBERS.values())
    number = int(found[1].replace(b'_', b''), 8)
    return number in sums or -number in sums


def _may_be_number(field: bytes) -> bool:
    text = field.partition(b'\0')[0].strip(BLANKS)
    return field[0] in (0x80, 0xFF) or not text or _SPELLED.fullmatch(text) is not None
