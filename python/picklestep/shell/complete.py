"""What a line of the shell can go on with: words, opcodes, offsets, and names that the pickle imports."""

from __future__ import annotations

from typing import Dict, List

from ..opcodes import BY_NAME
from ..records import Global
from .breaks import BREAKS
from .expressions import NAMES, dotted
from .opened import Opened
from .words import OTHERS, WORDS, whole_word

__all__ = ['completions']

_MOST = 50
_MOST_NAMES = 2000
_NAMED = ('import', 'call', 'rename')
_WITH_OPCODES = ('opcode', 'replace', 'insert', 'explain')
_WITH_VALUES = ('show', 'display', 'condition')


def completions(pickle: Opened, before: str) -> List[str]:
    """What the last word of a line can be, by how it begins."""
    *words, begun = before.split(' ')
    if not words:
        return [name for name in (*WORDS, *(OTHERS if begun else ())) if name.startswith(begun)]
    if begun.startswith('@'):
        return _offsets(pickle, begun)
    found: List[str] = list(WORDS) if words[0] == 'help' else []
    if words == ['break']:
        found += BREAKS
    if whole_word(words[0])[0] in _WITH_VALUES or 'if' in words:
        found += NAMES
    if words[0] in _WITH_OPCODES or words[-1] in _WITH_OPCODES:
        found += BY_NAME
    if words[-1] in _NAMED:
        found += _names(pickle, words[0] == 'rename')
    return [name for name in found if name.startswith(begun)][:_MOST]


def _offsets(pickle: Opened, begun: str) -> List[str]:
    """The offsets near the cursor, and those that begin so."""
    if not pickle.take_read():
        return []
    here = pickle.place
    near = [f'@{pickle.lines.offset(place)}' for place in range(max(0, here - _MOST_NAMES), min(len(pickle.lines), here + _MOST_NAMES))]
    return [offset for offset in near if offset.startswith(begun)][:_MOST]


def _names(pickle: Opened, is_module: bool) -> List[str]:
    """Names that the pickle imports, or their modules."""
    found: Dict[str, None] = {}
    for number in range(min(len(pickle.reaches.offsets), _MOST_NAMES)):
        name = pickle.reaches.answer[number].name
        if isinstance(name, Global) or name is not None and not is_module:
            found[dotted(name).rpartition('.')[0] if is_module else dotted(name)] = None
    return list(found)
