"""Which of a file's bytes are opcodes: pickles in a row, joblib's with arrays between them, torch's before 1.6 with numbers behind them.

What is left when the raw numbers are cut out are pickles that the program reads whole.
"""

from __future__ import annotations

from dataclasses import dataclass, field
from typing import TYPE_CHECKING, List, Optional, Set, Tuple

from ...hints import OLD_TORCH
from ..blobs import Blob, Budget, Limits
from .formed import BEHIND, SIGN_OF_ARRAYS, require_form
from .forms import NotCanonical

if TYPE_CHECKING:
    from .pickles import Pickle
    from .torch import Rows

__all__ = ['Layout', 'alone', 'layout_of', 'of_torch_tar']

# The magic number of torch's layout before 1.6 stands within so many bytes.
_BEGIN = 32


@dataclass
class Layout:
    """Pickles in a row.

    `raw` are the ranges that are no opcodes of them, as offset and end, and `inner` those of these that are pickles with a memo of their own.
    `counts` is set where a pickle after the first takes things from the memo by the order in which they came.
    """

    imports: Set[Tuple[str, str]] = field(default_factory=set)
    raw: List[Tuple[int, int]] = field(default_factory=list)
    inner: List[Tuple[int, int]] = field(default_factory=list)
    counts: bool = False
    pickles: int = 0

    def add(self, pickle: Pickle) -> None:
        """Adds the pickle that comes next."""
        self.counts = self.counts or pickle.counts and self.pickles > 0 or any(inner.counts for inner in pickle.inner)
        self.pickles += 1
        self.raw += pickle.raw
        self.inner += [(inner.offset, inner.end) for inner in pickle.inner]
        self.imports.update(pickle.imports, *(inner.imports for inner in pickle.inner))


def layout_of(blob: Blob, budget: Optional[Budget] = None) -> Layout:
    """The pickles of a file, to its end."""
    if OLD_TORCH in blob.read(0, _BEGIN):
        from .torch import legacy  # (most pickles have no raw numbers)
        return _of_torch(legacy(blob, budget or Budget(Limits())))
    if blob.find(SIGN_OF_ARRAYS) < 0 and _is_one(blob, budget):
        return Layout(pickles=1)
    from .joblib import on_build
    from .pickles import read_pickle
    layout = Layout()
    at = 0
    while at < blob.size or not at:
        pickle = read_pickle(blob, at, on_build, budget)
        layout.add(pickle)
        at = pickle.end
    return layout


def _is_one(blob: Blob, budget: Optional[Budget]) -> bool:
    """Whether the bytes are one pickle, and not a pickle with something behind it."""
    try:
        require_form(blob, budget)
    except NotCanonical as other:
        if other.reason != BEHIND:
            raise
        return False
    return True


def alone(blob: Blob, budget: Optional[Budget] = None) -> Layout:
    """The one pickle that all of these bytes are, for a loader that knows no raw arrays (numpy, torch)."""
    require_form(blob, budget)
    return Layout(pickles=1)


def of_torch_tar(name: str, blob: Blob, budget: Optional[Budget] = None) -> Layout:
    """The pickles of a member of torch's tar layout."""
    from .torch import tar_member
    return _of_torch(tar_member(name, blob, budget or Budget(Limits())))


def _of_torch(found: Rows) -> Layout:
    return Layout(raw=found.raw, counts=any(row.counts for row in found.pickles[1:]), pickles=len(found.pickles))
