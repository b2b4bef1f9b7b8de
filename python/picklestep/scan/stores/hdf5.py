"""HDF5 files: attributes, and datasets of bytes, through h5py where it is installed.

What a file names outside of itself (links to other files, data in other files, virtual datasets) is not opened.
"""

from __future__ import annotations

import io
from contextlib import contextmanager
from importlib import import_module
from typing import TYPE_CHECKING, Any, Iterator, List, Set, Tuple

from ..blobs import Blob
from ..containers import HDF5, Held
from ..results import Place
from .ends import end_of_hdf5, note_file
from .values import Values

if TYPE_CHECKING:
    from ..looking import Looker

__all__ = ['begins_late', 'look_into']

# So far on a file is found by how it begins.
_LAST_BEGIN = 8192

# What the library raises where a file is damaged, or asks for too much.
_TROUBLE = (OSError, RuntimeError, KeyError, ValueError, TypeError, MemoryError)

# Items of a dataset that are read at once, and bytes where each has many.
_ITEMS = 4_096
_MOST_BYTES = 8 << 20


def begins_late(blob: Blob) -> bool:
    """Whether an HDF5 file begins behind the first bytes of these. A reader tries 512, 1024, and so on, each twice as far as the one before."""
    at = 2 * _LAST_BEGIN
    while at < blob.size:
        if blob.read(at, len(HDF5.magic)) == HDF5.magic:
            return True
        at *= 2
    return False


def look_into(looker: 'Looker', held: Held) -> bool:
    """Looks at all attributes and all datasets of bytes."""
    _look(looker, held.blob, held.where, held.depth)
    note_file(looker, held, end_of_hdf5(held.blob))
    return True


def _look(looker: 'Looker', blob: Blob, where: Place, depth: int) -> None:
    try:
        h5py = import_module('h5py')
    except ImportError:
        looker.others += 1
        looker.note(where, 'hdf5: not opened, since h5py is not installed: pip install h5py', missed=True)
        return
    values = Values(looker)
    trouble: List[str] = []
    try:
        with _bounded(looker.budget.memory()), h5py.File(_Reader(blob), 'r') as file:
            for name, item in _objects(h5py, file, values, where):
                try:
                    _look_at_object(h5py, values, item, where + (name,), depth)
                except _TROUBLE as error:
                    trouble.append(f'{name}: {_words(error)}')
    except _TROUBLE as error:
        trouble.append(_words(error))
    for text in trouble:
        looker.note(where, f'hdf5: {text}: its bytes are searched', missed=True)
    if trouble:
        values.begin(where, blob.size)
        values.look_everywhere(blob, where)
    values.flush()


@contextmanager
def _bounded(most: int) -> Iterator[None]:
    """Lets this process take so many bytes more and no others, since a file of a kilobyte may ask the library for gigabytes."""
    try:
        import resource
    except ImportError:  # (Windows has none)
        yield
        return
    soft, hard = resource.getrlimit(resource.RLIMIT_DATA)
    try:
        with open('/proc/self/statm', encoding='ascii') as sizes:
            used = int(sizes.read().split()[5]) * resource.getpagesize()
    except OSError:  # (only Linux has it, and limits this)
        yield
        return
    limits = [limit for limit in (used + most, soft, hard) if limit != resource.RLIM_INFINITY]
    resource.setrlimit(resource.RLIMIT_DATA, (min(limits), hard))
    try:
        yield
    finally:
        resource.setrlimit(resource.RLIMIT_DATA, (soft, hard))


def _words(error: BaseException) -> str:
    return 'it takes more memory than it may' if isinstance(error, MemoryError) else str(error)


class _Reader(io.RawIOBase):
    """Bytes as a file object."""

    def __init__(self, blob: Blob) -> None:
        super().__init__()
        self.blob = blob
        self.at = 0

    def readable(self) -> bool:
        return True

    def seekable(self) -> bool:
        return True

    def tell(self) -> int:
        return self.at

    def seek(self, offset: int, whence: int = io.SEEK_SET) -> int:
        self.at = offset + (0 if whence == io.SEEK_SET else self.at if whence == io.SEEK_CUR else self.blob.size)
        return self.at

    def readinto(self, buffer: Any) -> int:
        piece = self.blob.read(self.at, len(buffer))
        buffer[:len(piece)] = piece
        self.at += len(piece)
        return len(piece)


def _objects(h5py: Any, file: Any, values: Values, where: Place) -> Iterator[Tuple[str, Any]]:
    """The groups and datasets of the file itself, each once."""
    seen: Set[int] = set()
    waiting: List[Tuple[str, Any]] = [('/', file)]
    while waiting:
        name, item = waiting.pop()
        address = h5py.h5o.get_info(item.id).addr
        if address in seen:
            continue
        seen.add(address)
        yield name, item
        for key in item if isinstance(item, h5py.Group) else ():
            inner = f'{name.rstrip("/")}/{key}'
            link = item.get(key, getlink=True)
            if isinstance(link, h5py.HardLink):
                waiting.append((inner, item[key]))
            elif isinstance(link, h5py.ExternalLink):
                values.looker.note(where + (inner,), 'a link to another file: it is not followed')


def _look_at_object(h5py: Any, values: Values, item: Any, where: Place, depth: int) -> None:
    for key in item.attrs:
        place = where[:-1] + (f'{where[-1]} @{key}',)
        kind, value = item.attrs.get_id(key).dtype, item.attrs[key]
        for name, inner, part in _fields(kind, value):
            for number, content in enumerate(_contents(h5py, inner, part)):
                values.add(content, place + ((name,) if name else ()) + ((f'[{number}]',) if number else ()), depth + 1)
    if not isinstance(item, h5py.Dataset) or not _has_bytes(h5py, item.dtype) and not _is_whole(h5py, item.dtype):
        return
    if item.is_virtual or item.external:
        values.looker.note(where, 'its data are in other files, which are not opened', missed=True)
    elif item.dtype.names is not None:
        _look_at_compound(h5py, values, item, where, depth)
    elif item.dtype.kind in 'ui':
        values.add_blob(_Bytes(item), where, depth + 1)
    elif not item.shape:
        for content in _contents(h5py, item.dtype, item[()]):
            values.add(content, where, depth + 1)
    else:
        for start in range(0, item.shape[0], _ITEMS):
            for number, content in enumerate(_contents(h5py, item.dtype, item[start:start + _ITEMS]), start):
                values.add(content, where + (f'[{number}]',), depth + 1)


def _look_at_compound(h5py: Any, values: Values, item: Any, where: Place, depth: int) -> None:
    """Looks at the fields of bytes of items that have several fields."""
    step = max(1, min(_ITEMS, _MOST_BYTES // item.dtype.itemsize))
    for start in range(0, item.shape[0] if item.shape else 1, step):
        rows = item[start:start + step] if item.shape else item[()]
        for name, kind, part in _fields(item.dtype, rows):
            if not _has_bytes(h5py, kind):
                continue
            for number, content in enumerate(_cells(h5py, kind, part) if item.shape else _contents(h5py, kind, part), start):
                values.add(content, where + (f'[{number}].{name}',), depth + 1)


def _fields(kind: Any, value: Any, name: str = '') -> Iterator[Tuple[str, Any, Any]]:
    """The fields of a type with several, and those of its fields: name, type and value. What has none is one without a name."""
    if kind.names is None:
        yield name, kind, value
        return
    for each in kind.names:
        yield from _fields(kind[each].base, value[each], f'{name}.{each}' if name else each)


def _cells(h5py: Any, kind: Any, column: Any) -> Iterator[bytes]:
    """What each row has in one field: all of it where that is an array."""
    for cell in column:
        yield b''.join(_contents(h5py, kind, cell))


def _has_bytes(h5py: Any, kind: Any) -> bool:
    """Whether items of this type are bytes, text, or opaque, or have such a field, and are no truth values."""
    if kind.names is not None:
        return any(_has_bytes(h5py, kind[each].base) for each in kind.names)
    if h5py.check_enum_dtype(kind) is not None:
        return False
    inner = h5py.check_vlen_dtype(kind)
    if inner is not None and inner not in (bytes, str):
        return getattr(inner, 'itemsize', 0) == 1
    return kind.kind in 'SV' and kind.names is None or kind.kind == 'O' or kind.kind in 'ui' and kind.itemsize == 1


def _is_whole(h5py: Any, kind: Any) -> bool:
    """Whether items of this type are whole numbers of any size: a program may keep bytes in these, several in one."""
    return kind.kind in 'ui' and kind.names is None and h5py.check_enum_dtype(kind) is None


def _contents(h5py: Any, kind: Any, value: Any) -> Iterator[bytes]:
    """The bytes in what h5py read."""
    if isinstance(value, h5py.Empty) or not _has_bytes(h5py, kind):
        return
    if isinstance(value, str):
        yield value.encode('utf-8', 'surrogateescape')
    elif isinstance(value, bytes):
        yield value
    elif getattr(value, 'dtype', None) is not None and value.dtype.kind == 'O':
        for each in value.ravel():
            yield _bytes_of(each)
    elif getattr(value, 'dtype', None) is not None and value.dtype.kind == 'S' and value.shape:
        yield from (bytes(each) for each in value.ravel())
    elif getattr(value, 'dtype', None) is not None and value.dtype.kind == 'V' and value.shape:
        yield from (each.tobytes() for each in value.ravel())
    else:
        yield _bytes_of(value)


def _bytes_of(each: Any) -> bytes:
    if isinstance(each, str):
        return each.encode('utf-8', 'surrogateescape')
    found: bytes = each if isinstance(each, bytes) else each.tobytes() if hasattr(each, 'tobytes') else b''
    return found


class _Bytes(Blob):
    """A dataset whose items are whole numbers, as the file has their bytes. One of several dimensions is read in the order in which it is written."""

    def __init__(self, item: Any) -> None:
        self.item = item
        self.size = int(item.size) * item.dtype.itemsize
        self.row = self.size // item.shape[0] if item.shape and item.shape[0] else 1

    def read(self, offset: int, count: int) -> bytes:
        if count <= 0 or not 0 <= offset < self.size:
            return b''
        if not self.item.shape:
            return bytes(self.item[()].tobytes())
        first = offset // self.row
        last = -(-min(self.size, offset + count) // self.row)
        found: bytes = self.item[first:last].tobytes()
        return found[offset - first * self.row:offset - first * self.row + count]
