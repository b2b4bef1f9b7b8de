"""What loaders import that read some bytes otherwise than their layout says: one that keeps its memo from pickle to pickle, or that knows no raw
arrays. The program's `calls` says what they import, and its `reach` where raw bytes lead that are read as a pickle of their own.
"""

from __future__ import annotations

from typing import Optional, Set, Tuple

from ..hints import AT_FRAMES, PAST_END
from ..patterns import pattern
from ..records import End
from .blobs import Blob, Budget, JoinedBlob
from .canonical.layouts import Layout
from .canonical.standard import STANDARD_MODULES
from .reach import FRAME, may_be_opcode, reach_behind, reach_of
from .reading import Asked, Summary

__all__ = ['another_import']

# Modules that run what they are given, of Python 2 and of libraries that load pickles.
_OTHER_MODULES = {'__builtin__', 'commands', 'popen2', 'numpy', 'torch', 'pandas', 'joblib', 'dill', 'cloudpickle', 'scipy', 'sklearn',
                  'setuptools', 'pip', 'pkg_resources', 'six', 'future', 'past', 'ruamel', 'yaml', 'jinja2', 'sympy'}

# A package, and a name within it.
_WORDS = pattern(r'[A-Za-z_][A-Za-z0-9_]{1,39}(\.[A-Za-z_][A-Za-z0-9_]{1,39})*')

# So much of raw bytes is looked at first: mostly all loaders end there.
_FIRST_RAW = 1 << 14
# How reading ends where no loader goes on.
_NO_OPCODE = 'F2'


def another_import(layout: Layout, blob: Blob, budget: Budget) -> Optional[str]:
    """What another loader imports, which keeps the memo from pickle to pickle, or knows no raw arrays. None where that is the same."""
    for start, end in layout.raw:
        # (an inner pickle is looked at as one)
        reach = reach_of(blob.part(start, end - start), budget) if (start, end) not in layout.inner else None
        if reach is not None:
            return f'what its numbers at {start} lead to: {reach}'
    begin = min((start for start, _ in layout.raw), default=blob.size)
    is_read_on = bool(layout.raw) and (layout.counts or may_be_opcode(blob.read(begin, 1)))
    if not is_read_on and (layout.raw or not layout.counts):
        return None
    own = layout.imports | _asked(JoinedBlob(blob, layout.raw), budget).names
    for is_kept in (False, True) if is_read_on else (True,):
        summary = _read_on(blob, begin, is_kept, budget)
        for module, name in sorted(summary.names - own):
            if not is_kept or _is_of_another(module, name, own):
                return f'{module!a} {name!a}'
        if summary.trouble is not None:
            return f'what is not known: {summary.trouble}'
        if is_read_on and _hangs_on_frames(blob, begin, summary.end, budget):
            return f'what hangs on its frames, at {summary.end.offset}'
    return None


def _read_on(blob: Blob, begin: int, is_kept: bool, budget: Budget) -> Summary:
    """What a loader imports that knows no raw arrays, the first of which begins there."""
    if begin + _FIRST_RAW < blob.size:
        summary = _asked(blob.part(0, begin + _FIRST_RAW), budget, is_kept)
        if summary.end.code == _NO_OPCODE:
            return summary
    return _asked(blob, budget, is_kept)


def _hangs_on_frames(blob: Blob, begin: int, end: End, budget: Budget) -> bool:
    """Whether only a mix of frames shows how a loader goes on that reads raw arrays from there. Where it ends behind the last byte, as honest numbers
    do, there has to be a frame, and `reach` says whether it leads anywhere."""
    if end.code not in PAST_END or end.offset is None:
        return end.code in AT_FRAMES
    return blob.part(begin, end.offset + 1 - begin).find(FRAME) >= 0 and reach_behind(blob, begin, budget) is not None


def _asked(blob: Blob, budget: Budget, is_kept: bool = False) -> Summary:
    with Asked(blob) as asked:
        return asked.summary(budget, is_kept=is_kept)


def _is_of_another(module: str, name: str, own: Set[Tuple[str, str]]) -> bool:
    """Whether what is imported by texts of earlier pickles counts: honest pickles in a row give some, too."""
    known = {each.partition('.')[0] for each, _ in own}
    return _may_be_there(module, known) or _are_words(module, name) and all(name != each for _, each in own)


def _are_words(module: str, name: str) -> bool:
    """Whether both look as names of a package and of what is in it."""
    return all(_WORDS.fullmatch(each) is not None for each in (module, name))


def _may_be_there(module: str, known: Set[str]) -> bool:
    """Whether a text that another pickle has is a module: of a package, of Python, or beside those that are imported. (Escaped letters may be any.)"""
    return '.' in module or '\\' in module or module in known or module in _OTHER_MODULES or module in STANDARD_MODULES
