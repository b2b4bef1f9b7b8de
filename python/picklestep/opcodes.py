"""The table of opcodes: the code, name and argument of each, and what it does. tools/make_opcodes.py makes the rows of what the program answers."""

from __future__ import annotations

import math
from typing import Dict, Iterable, NamedTuple, Tuple

__all__ = ['BY_CODE', 'BY_NAME', 'OpcodeInfo', 'TABLE', 'codes_of', 'of_kinds', 'of_rows', 'spellings_of']


class OpcodeInfo(NamedTuple):
    """What the table says of an opcode.

    `form` says how its argument is written, and `argument` what `pickletools` calls it ('' for none). `takes` has what it takes from the stack and
    `leaves` what it leaves there, each from the bottom to the top, with commas between: what ends in ` ..` may be any number of objects. `makes` says
    whether it makes an object of its own (READONLY_BUFFER makes one or none). `row` is what the machine does for it: opcodes of one row differ in how
    they spell their argument, in how much they take, or in what they make. `kind` is what `objects` calls the object that it makes, '' where it makes
    none or the argument decides.
    """

    name: str
    code: int
    protocol: int
    form: str
    argument: str
    takes: str
    leaves: str
    makes: bool
    row: str
    kind: str
    sentence: str

    @property
    def letter(self) -> str:
        """The code as a letter.

        >>> BY_NAME['STOP'].letter
        '.'
        """
        return chr(self.code)

    @property
    def takes_mark(self) -> bool:
        """Whether it takes a mark, and what is above it. (POP does where the mark is on top.)

        >>> BY_NAME['TUPLE'].takes_mark, BY_NAME['POP'].takes_mark
        (True, False)
        """
        return 'mark' in self.takes.split(', ')

    @property
    def taken(self) -> int:
        """How many objects and marks are named in `takes`.

        >>> BY_NAME['TUPLE2'].taken, BY_NAME['SETITEM'].taken, BY_NAME['NONE'].taken
        (2, 3, 0)
        """
        return len(self.takes.split(', ')) if self.takes else 0


TABLE = (
    OpcodeInfo('INT', 73, 0, 'line', 'decimalnl_short', '', 'int or bool', True, 'push', '',
               'Puts an integer from a line on the stack; the lines 00 and 01 are False and True.'),
    OpcodeInfo('BININT', 74, 1, 'int4', 'int4', '', 'int', True, 'push', 'int',
               'Puts an integer of four bytes, with its sign, on the stack.'),
    OpcodeInfo('BININT1', 75, 1, 'uint1', 'uint1', '', 'int', True, 'push', 'int',
               'Puts an integer from 0 to 255 on the stack.'),
    OpcodeInfo('BININT2', 77, 1, 'uint2', 'uint2', '', 'int', True, 'push', 'int',
               'Puts an integer from 0 to 65,535 on the stack.'),
    OpcodeInfo('LONG', 76, 0, 'line', 'decimalnl_long', '', 'int', True, 'push', 'long-line',
               'Puts an integer of any size, from a line that ends in L, on the stack.'),
    OpcodeInfo('LONG1', 138, 2, 'bytes1', 'long1', '', 'int', True, 'push', 'int',
               'Puts an integer of up to 255 bytes on the stack.'),
    OpcodeInfo('LONG4', 139, 2, 'bytes4_signed', 'long4', '', 'int', True, 'push', 'int',
               'Puts an integer of up to 2 GB on the stack.'),
    OpcodeInfo('STRING', 83, 0, 'quoted', 'stringnl', '', 'string', True, 'push', 'string-line',
               'Puts a string of Python 2, from a quoted line, on the stack.'),
    OpcodeInfo('BINSTRING', 84, 1, 'bytes4_signed', 'string4', '', 'string', True, 'push', 'string',
               'Puts a string of Python 2, with a length of four bytes, on the stack.'),
    OpcodeInfo('SHORT_BINSTRING', 85, 1, 'bytes1', 'string1', '', 'string', True, 'push', 'string',
               'Puts a string of Python 2, of up to 255 bytes, on the stack.'),
    OpcodeInfo('BINBYTES', 66, 3, 'bytes4', 'bytes4', '', 'bytes', True, 'push', 'bytes',
               'Puts bytes, with a length of four bytes, on the stack.'),
    OpcodeInfo('SHORT_BINBYTES', 67, 3, 'bytes1', 'bytes1', '', 'bytes', True, 'push', 'bytes',
               'Puts up to 255 bytes on the stack.'),
    OpcodeInfo('BINBYTES8', 142, 4, 'bytes8', 'bytes8', '', 'bytes', True, 'push', 'bytes',
               'Puts bytes, with a length of eight bytes, on the stack.'),
    OpcodeInfo('BYTEARRAY8', 150, 5, 'bytes8', 'bytearray8', '', 'bytearray', True, 'push', 'bytearray',
               'Puts a byte array on the stack.'),
    OpcodeInfo('NEXT_BUFFER', 151, 5, 'none', '', '', 'buffer', True, 'buffer', '',
               'Takes the next buffer that is kept outside the pickle, and puts it on the stack.'),
    OpcodeInfo('READONLY_BUFFER', 152, 5, 'none', '', 'buffer', 'read-only buffer', True, 'read_only', '',
               'Makes what is on top of the stack read-only.'),
    OpcodeInfo('NONE', 78, 0, 'none', '', '', 'None', True, 'push', 'none',
               'Puts None on the stack.'),
    OpcodeInfo('NEWTRUE', 136, 2, 'none', '', '', 'True', True, 'push', 'true',
               'Puts True on the stack.'),
    OpcodeInfo('NEWFALSE', 137, 2, 'none', '', '', 'False', True, 'push', 'false',
               'Puts False on the stack.'),
    OpcodeInfo('UNICODE', 86, 0, 'line', 'unicodestringnl', '', 'text', True, 'push', 'text-line',
               'Puts a text, from a line with escapes, on the stack.'),
    OpcodeInfo('SHORT_BINUNICODE', 140, 4, 'bytes1', 'unicodestring1', '', 'text', True, 'push', 'text',
               'Puts a text of up to 255 bytes on the stack.'),
    OpcodeInfo('BINUNICODE', 88, 1, 'bytes4', 'unicodestring4', '', 'text', True, 'push', 'text',
               'Puts a text, with a length of four bytes, on the stack.'),
    OpcodeInfo('BINUNICODE8', 141, 4, 'bytes8', 'unicodestring8', '', 'text', True, 'push', 'text',
               'Puts a text, with a length of eight bytes, on the stack.'),
    OpcodeInfo('FLOAT', 70, 0, 'line', 'floatnl', '', 'float', True, 'push', 'float-line',
               'Puts a float, from a line, on the stack.'),
    OpcodeInfo('BINFLOAT', 71, 1, 'float8', 'float8', '', 'float', True, 'push', 'float',
               'Puts a float of eight bytes on the stack.'),
    OpcodeInfo('EMPTY_LIST', 93, 1, 'none', '', '', 'list', True, 'push', 'list',
               'Puts a new empty list on the stack.'),
    OpcodeInfo('APPEND', 97, 0, 'none', '', 'list, item', 'list', False, 'change', '',
               'Takes the top of the stack and appends it to the list below.'),
    OpcodeInfo('APPENDS', 101, 1, 'none', '', 'list, mark, items ..', 'list', False, 'cut_change', '',
               'Takes all above the mark and appends it to the list below the mark.'),
    OpcodeInfo('LIST', 108, 0, 'none', '', 'mark, items ..', 'list', True, 'cut', 'list',
               'Takes all above the mark and makes a list of it.'),
    OpcodeInfo('EMPTY_TUPLE', 41, 1, 'none', '', '', 'tuple', True, 'push', 'tuple',
               'Puts the empty tuple on the stack.'),
    OpcodeInfo('TUPLE', 116, 0, 'none', '', 'mark, items ..', 'tuple', True, 'cut', 'tuple',
               'Takes all above the mark and makes a tuple of it.'),
    OpcodeInfo('TUPLE1', 133, 2, 'none', '', 'item', 'tuple', True, 'take', 'tuple',
               'Takes the top of the stack and makes a tuple of it.'),
    OpcodeInfo('TUPLE2', 134, 2, 'none', '', 'item, item', 'tuple', True, 'take', 'tuple',
               'Takes two objects and makes a tuple of them.'),
    OpcodeInfo('TUPLE3', 135, 2, 'none', '', 'item, item, item', 'tuple', True, 'take', 'tuple',
               'Takes three objects and makes a tuple of them.'),
    OpcodeInfo('EMPTY_DICT', 125, 1, 'none', '', '', 'dict', True, 'push', 'dict',
               'Puts a new empty dictionary on the stack.'),
    OpcodeInfo('DICT', 100, 0, 'none', '', 'mark, keys and values ..', 'dict', True, 'cut', 'dict',
               'Takes keys and values above the mark and makes a dictionary of them.'),
    OpcodeInfo('SETITEM', 115, 0, 'none', '', 'dict, key, value', 'dict', False, 'change', '',
               'Takes a key and a value and sets them in the dictionary below.'),
    OpcodeInfo('SETITEMS', 117, 1, 'none', '', 'dict, mark, keys and values ..', 'dict', False, 'cut_change', '',
               'Takes keys and values above the mark and sets them in the dictionary below the mark.'),
    OpcodeInfo('EMPTY_SET', 143, 4, 'none', '', '', 'set', True, 'push', 'set',
               'Puts a new empty set on the stack.'),
    OpcodeInfo('ADDITEMS', 144, 4, 'none', '', 'set, mark, items ..', 'set', False, 'cut_change', '',
               'Takes all above the mark and adds it to the set below the mark.'),
    OpcodeInfo('FROZENSET', 145, 4, 'none', '', 'mark, items ..', 'frozenset', True, 'cut', 'frozenset',
               'Takes all above the mark and makes a frozen set of it.'),
    OpcodeInfo('POP', 48, 0, 'none', '', 'object or mark', '', False, 'pop', '',
               'Throws the top of the stack away; a mark, if that is on top.'),
    OpcodeInfo('DUP', 50, 0, 'none', '', 'object', 'object, object', False, 'dup', '',
               'Puts the top of the stack on it once more.'),
    OpcodeInfo('MARK', 40, 0, 'none', '', '', 'mark', False, 'mark', '',
               'Sets a mark, which a later opcode takes with all above it.'),
    OpcodeInfo('POP_MARK', 49, 1, 'none', '', 'mark, objects ..', '', False, 'pop_mark', '',
               'Throws all above the mark away, and the mark.'),
    OpcodeInfo('GET', 103, 0, 'decimal', 'decimalnl_short', '', 'object of the memo', False, 'get', '',
               'Puts an object from the memo on the stack; the key is a line.'),
    OpcodeInfo('BINGET', 104, 1, 'uint1', 'uint1', '', 'object of the memo', False, 'get', '',
               'Puts an object from the memo on the stack; the key is a byte.'),
    OpcodeInfo('LONG_BINGET', 106, 1, 'uint4', 'uint4', '', 'object of the memo', False, 'get', '',
               'Puts an object from the memo on the stack; the key has four bytes.'),
    OpcodeInfo('PUT', 112, 0, 'decimal', 'decimalnl_short', 'object', 'object', False, 'put', '',
               'Stores the top of the stack in the memo; the key is a line.'),
    OpcodeInfo('BINPUT', 113, 1, 'uint1', 'uint1', 'object', 'object', False, 'put', '',
               'Stores the top of the stack in the memo; the key is a byte.'),
    OpcodeInfo('LONG_BINPUT', 114, 1, 'uint4', 'uint4', 'object', 'object', False, 'put', '',
               'Stores the top of the stack in the memo; the key has four bytes.'),
    OpcodeInfo('MEMOIZE', 148, 4, 'none', '', 'object', 'object', False, 'memoize', '',
               'Stores the top of the stack in the memo, under the number of entries there.'),
    OpcodeInfo('EXT1', 130, 2, 'uint1', 'uint1', '', 'what is imported', True, 'extension', 'ext',
               'Imports what an extension code of one byte stands for.'),
    OpcodeInfo('EXT2', 131, 2, 'uint2', 'uint2', '', 'what is imported', True, 'extension', 'ext',
               'Imports what an extension code of two bytes stands for.'),
    OpcodeInfo('EXT4', 132, 2, 'int4', 'int4', '', 'what is imported', True, 'extension', 'ext',
               'Imports what an extension code of four bytes stands for.'),
    OpcodeInfo('GLOBAL', 99, 0, 'lines', 'stringnl_noescape_pair', '', 'what is imported', True, 'push', 'global',
               'Imports a module and takes a member of it; both names are lines.'),
    OpcodeInfo('STACK_GLOBAL', 147, 4, 'none', '', 'module, name', 'what is imported', True, 'take', 'stack-global',
               'Takes two texts, imports the module of the first, and takes its member of the second.'),
    OpcodeInfo('REDUCE', 82, 0, 'none', '', 'function, arguments', 'what the call gives', True, 'take', 'call',
               'Takes arguments and a function, and calls it: this runs code.'),
    OpcodeInfo('BUILD', 98, 0, 'none', '', 'object, state', 'object', False, 'change', '',
               'Takes a state and gives it to the object below, by its __setstate__ if it has one: this can run code.'),
    OpcodeInfo('INST', 105, 0, 'lines', 'stringnl_noescape_pair', 'mark, arguments ..', 'object', True, 'cut', 'inst',
               'Imports a class and calls it with all above the mark: this runs code.'),
    OpcodeInfo('OBJ', 111, 1, 'none', '', 'mark, class, arguments ..', 'object', True, 'cut', 'obj',
               'Takes all above the mark, and calls the lowest of it with the rest: this runs code.'),
    OpcodeInfo('NEWOBJ', 129, 2, 'none', '', 'class, arguments', 'object', True, 'take', 'new',
               'Takes arguments and a class, and calls its __new__: this can run code.'),
    OpcodeInfo('NEWOBJ_EX', 146, 4, 'none', '', 'class, arguments, keywords', 'object', True, 'take', 'new-ex',
               'Takes keywords, arguments and a class, and calls its __new__: this can run code.'),
    OpcodeInfo('PROTO', 128, 2, 'uint1', 'uint1', '', '', False, 'protocol', '',
               'Says which protocol the pickle has.'),
    OpcodeInfo('STOP', 46, 0, 'none', '', 'result', '', False, 'stop', '',
               'Ends the pickle; the top of the stack is the result.'),
    OpcodeInfo('FRAME', 149, 4, 'uint8', 'uint8', '', '', False, 'nothing', '',
               'Says how many bytes come in one piece; it builds nothing.'),
    OpcodeInfo('PERSID', 80, 0, 'line', 'stringnl_noescape', '', 'object from elsewhere', True, 'push', 'persistent',
               'Asks the loading program for the object of a name, which is a line.'),
    OpcodeInfo('BINPERSID', 81, 1, 'none', '', 'name', 'object from elsewhere', True, 'take', 'persistent',
               'Takes the top of the stack, and asks the loading program for the object of this name.'),
)

BY_NAME: Dict[str, OpcodeInfo] = {info.name: info for info in TABLE}
BY_CODE: Dict[int, OpcodeInfo] = {info.code: info for info in TABLE}


def of_rows(*rows: str) -> Tuple[str, ...]:
    """The names of the opcodes of some rows, in the order of the table.

    >>> of_rows('put', 'memoize')
    ('PUT', 'BINPUT', 'LONG_BINPUT', 'MEMOIZE')
    """
    return tuple(info.name for info in TABLE if info.row in rows)


def of_kinds(*kinds: str) -> Tuple[str, ...]:
    """The names of the opcodes that make objects of some kinds, in the order of the table.

    >>> of_kinds('list', 'inst')
    ('EMPTY_LIST', 'LIST', 'INST')
    """
    return tuple(info.name for info in TABLE if info.kind in kinds)


def spellings_of(name: str) -> Tuple[str, ...]:
    """The names of the opcodes that mean the same as one of them with the same argument: the shortest first, and last the one whose argument is a line.
    Of an opcode without an argument there are none.

    >>> spellings_of('BINUNICODE'), spellings_of('PUT')
    (('SHORT_BINUNICODE', 'BINUNICODE', 'BINUNICODE8'), ('BINPUT', 'LONG_BINPUT', 'PUT'))
    """
    return tuple(info.name for info in sorted(TABLE, key=_width) if info.argument and _meaning(info) == _meaning(BY_NAME[name]))


def _meaning(info: OpcodeInfo) -> Tuple[str, str, bool]:
    """What opcodes with an argument have in common that mean the same with the same one. (LONG1 and LONG4 hold bytes, and BININT a number.)"""
    return info.row, info.kind, info.form.startswith('bytes')


def _width(info: OpcodeInfo) -> float:
    """How many bytes a number takes, or a length; a line takes the most."""
    return min((int(letter) for letter in info.form if letter.isdigit()), default=math.inf)


def codes_of(names: Iterable[str]) -> Tuple[bytes, ...]:
    """The codes of opcodes, each as a byte.

    >>> codes_of(('STOP', 'NONE'))
    (b'.', b'N')
    """
    return tuple(bytes((BY_NAME[name].code,)) for name in names)
