"""What the page knows of opcodes and of Python source."""

from __future__ import annotations

import keyword
from typing import Any, Dict, List

from ..hints import ARRAY, FRAME
from ..listed import shown_code
from ..literals import MOST_DECIMAL_BITS
from ..opcodes import TABLE
from ..python_source.builder import KINDS, MOST_SHORT, taken_count
from ..python_source.code import BEHIND, HEAD, HEAD_OF_CUT, HEAD_OF_CUT_PART, HEAD_OF_PART
from ..python_source.helpers import HELPERS
from ..python_source.names import TAKEN
from ..python_source.writer import COLUMNS, MOST_DEPTH, MOST_ITEMS, MOST_LETTERS
from ..reaches import CALLED, CALLS, CHANGES, EVENTS, IMPORTS

__all__ = ['opcode_table', 'source_facts']


def opcode_table() -> Dict[str, Dict[str, Any]]:
    """All opcodes by their names: the code as a listing shows it, the form of the argument as `pickletools` names it ('' for none), whether
    it makes an object, what it does in a sentence, and what it takes from the stack and leaves there. What would be empty besides is left out.

    >>> opcode_table()['TUPLE2']['takes'], opcode_table()['MEMOIZE']['code']
    ('item, item', '\\\\x94')
    """
    table = {opcode.name: {'code': shown_code(opcode.letter), 'form': opcode.argument, 'makes': opcode.makes, 'says': opcode.sentence, 'takes': opcode.takes,
                           'leaves': opcode.leaves} for opcode in TABLE}
    return {name: {what: told for what, told in fields.items() if told or what == 'form'} for name, fields in table.items()}


def _kinds_of_reaches() -> Dict[str, List[str]]:
    """The kinds of lines of `calls --json` that come from an opcode, and which of these import, call and change something.

    >>> _kinds_of_reaches()['changes']
    ['state', 'append', 'set', 'add']
    """
    return {'imports': list(IMPORTS), 'called': list(CALLED), 'changes': list(CHANGES), 'calls': list(CALLS), 'events': sorted(EVENTS)}


def source_facts() -> Dict[str, Any]:
    """What the page without a server writes into the source of a pickle as `picklestep source` does: the lines at its head, the functions that
    it may define, where else to look, the names that are taken, with what they are, the opcodes that make containers, with the kind of each and how many
    objects it takes (none where it takes those above the mark), the kinds of what is reached, and the most that is written in one piece.

    >>> source_facts()['kinds']['TUPLE2'], source_facts()['taken']['len']
    (['tuple', 2], 'builtins len')
    """
    kinds = {opcode.name: [KINDS[opcode.name], taken_count(opcode)] for opcode in TABLE if opcode.name in KINDS}
    return {'heads': [HEAD, HEAD_OF_CUT], 'headsOfPart': [HEAD_OF_PART, HEAD_OF_CUT_PART], 'behind': BEHIND, 'helpers': HELPERS,
            'hints': {'array': ARRAY, 'frame': FRAME}, 'taken': {name: ' '.join(thing) for name, thing in TAKEN.items()},
            'keywords': [word for word in keyword.kwlist if word[0] != '_'], 'kinds': kinds,
            'reaches': _kinds_of_reaches(),
            'most': {'columns': COLUMNS, 'depth': MOST_DEPTH, 'items': MOST_ITEMS, 'letters': MOST_LETTERS, 'short': MOST_SHORT,
                     'decimalBits': MOST_DECIMAL_BITS}}
