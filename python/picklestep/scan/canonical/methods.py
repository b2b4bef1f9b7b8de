"""Names of methods that loaders call of what a pickle makes, and of attributes that they believe."""

from __future__ import annotations

import struct

from ..blobs import Blob

__all__ = ['CALLED', 'CALLED_ALONE', 'CALLED_OF_ITEMS', 'OF_ARRAYS', 'REPLACING', 'names_methods']

# What loaders call under such a name of an object, with what the pickle gives: unpicklers, and `__setstate__` and makers in the sets'
# libraries, as far as they are known: docs/reference/scan_missed.md says that there may be more.
CALLED_ALONE = frozenset(('__setstate__', '__new__', '__init__', '__getinitargs__', '_build_f', '_hook_for_profile', '_simple_new', 'from_arrays',
                          'holidays', '_isdst', 'detach', 'untyped', '_untyped', 'nbunch_iter', 'copy', 'to_numpy', 'reshape'))
# Attributes that decide what all others are, methods too. No pickler gives them by a state.
REPLACING = frozenset(('__dict__', '__class__'))
# The attributes by which numpy takes an object for an array: what they say is the address of its bytes.
OF_ARRAYS = frozenset(('__array_interface__', '__array_struct__', '__array__'))
CALLED_OF_ITEMS = frozenset(('append', 'extend', 'add'))
CALLED = CALLED_OF_ITEMS | {'keys', 'values', 'items', 'pop', 'setdefault'}
# Such names, each with what picklers write right before it (of lines the sign of a text, or a quote).
_METHODS = tuple((name, (b'\x8c%c' % len(name), b'U%c' % len(name), b'X' + struct.pack('<I', len(name)), b'V', b"'", b'"'))
                 for name in map(str.encode, sorted(CALLED_ALONE | CALLED | OF_ARRAYS | REPLACING)))
_LONGEST_METHOD = 32


def names_methods(blob: Blob) -> bool:
    """Whether a pickle in the form that picklers write may have a text that is a name which loaders call or believe."""
    tail = b''
    for chunk in blob.chunks():
        content = tail + chunk
        for name, before in _METHODS:
            at = content.find(name)
            while at >= 0:
                if content.endswith(before, 0, at):
                    return True
                at = content.find(name, at + 1)
        tail = chunk[-_LONGEST_METHOD:]
    return False
