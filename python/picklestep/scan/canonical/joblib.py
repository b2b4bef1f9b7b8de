"""joblib's arrays: raw numbers between the opcodes, exactly where and as long as the state of a NumpyArrayWrapper says.

Source: joblib/numpy_pickle.py (0.10 to 1.4). BUILD of the wrapper ends a frame. Then an array of objects is a pickle of its own, with a memo
of its own. Any other is a byte that counts padding, as many bytes 0xff, and count * itemsize bytes. The padding makes the numbers begin at
a multiple of 16; joblib before 1.2 has none.
"""

from __future__ import annotations

from typing import Any, Dict

from .forms import NotCanonical, count_of_shape
from .items import item_of_pickled
from .pickles import Reader, read_pickle
from .values import Global, Made, PDict

__all__ = ['on_build']

_WRAPPER = Global('joblib.numpy_pickle', 'NumpyArrayWrapper')
_DTYPE = Global('numpy', 'dtype')
_KEYS = {'subclass', 'shape', 'order', 'dtype', 'allow_mmap'}
_ALIGNMENT = 'numpy_array_alignment_bytes'
_SUBCLASSES = (Global('numpy', 'ndarray'), Global('numpy', 'matrix'), Global('numpy', 'memmap'),
               Global('numpy.matrixlib.defmatrix', 'matrix'), Global('numpy.core.memmap', 'memmap'), Global('numpy._core.memmap', 'memmap'))


def on_build(reader: Reader, target: Made) -> None:
    """Goes over the array that follows the state of a wrapper."""
    if target.function == _DTYPE:
        return
    if target.function != _WRAPPER:
        reader.fail('joblib before 0.10, whose arrays are in other files')
    state = _state(reader, target)
    if reader.frame_end not in (None, reader.at):
        reader.fail('an array within a frame')
    try:
        size, has_objects = item_of_pickled(state['dtype'])
        count = count_of_shape(state['shape'])
    except NotCanonical as reason:
        reader.fail(reason.reason)
    if reader.gives_kinds:
        reader.fail('a kind of items that a call may have changed')
    if has_objects and state['allow_mmap']:  # (joblib maps it, and reads on behind as many bytes)
        reader.fail('an array of objects that may be mapped')
    reader.frame_end = None
    target.state = ()  # (it has one, which is no longer needed)
    if has_objects:
        inner = read_pickle(reader.blob, reader.at, None, reader.budget)
        reader.pickle.inner.append(inner)
        reader.skip(inner.end - reader.at)
        return
    alignment = state.get(_ALIGNMENT)
    if alignment is not None:
        _padding(reader, alignment)
    reader.skip(size * count)


def _state(reader: Reader, target: Made) -> Dict[str, Any]:
    """The state of a wrapper: exactly joblib's keys, with values as joblib writes them."""
    if not isinstance(target.state, PDict) or target.arguments != ():
        reader.fail('an array whose state is no dictionary')
    state = target.state.by_text()
    has_all = _KEYS <= set(state) <= _KEYS | {_ALIGNMENT} and target.state.is_whole and len(target.state) == 2 * len(state)
    if not has_all or state['order'] not in ('C', 'F') or type(state['allow_mmap']) is not bool or state['subclass'] not in _SUBCLASSES:
        reader.fail('an array with another state than joblib gives it')
    return state


def _padding(reader: Reader, alignment: Any) -> None:
    """Goes over the padding."""
    if alignment != 16:
        reader.fail('another alignment than 16')
    start = reader.at
    padding = 16 - (start + 1) % 16
    if reader.take(1)[0] != padding or reader.take(padding).strip(b'\xff'):
        reader.fail('padding that joblib does not write')
    reader.pickle.raw.append((start, reader.at))
