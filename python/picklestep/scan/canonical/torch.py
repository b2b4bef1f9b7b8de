"""torch's layouts: zip archives (since 1.6), five pickles and numbers (0.1.12 to 1.5), and a tar archive (before).

Sources: torch/serialization.py (_save, _legacy_save, _legacy_load), caffe2/serialize/inline_container.cc (PyTorchStreamWriter).
"""

from __future__ import annotations

import os
from typing import Any, Dict, List, NamedTuple, Optional, Sequence, Tuple

from ...answers import Objects
from ...errors import PicklestepError
from ...hints import OLD_TORCH as MAGIC
from ...listing_records import Change, Object
from ...patterns import pattern
from ...reaches import Fields, plainly_in
from ...values import PLAIN_KINDS
from ..blobs import Blob, Budget
from ..reading import Asked, calls_in_form
from .formed import end_in_form, require_form
from .forms import Member, NotKnown, require, wrong

__all__ = ['MAGIC', 'TAR_MEMBERS', 'Row', 'Rows', 'Storages', 'legacy', 'storages_in', 'tar_member', 'with_numbers']

_MAGIC, _VERSION = 0x1950A86A20F9469CFC6C, 1001
_SYSTEM = ['little_endian', 'protocol_version', 'type_sizes']
TAR_MEMBERS = frozenset({'storages', 'tensors', 'pickle'})
_MOST_STORAGES = 1 << 24
# A pickle that describes something has no more bytes, and holds these. MEMOIZE is written from this protocol on.
_MOST_DESCRIBED = 1 << 24
_PLAIN = PLAIN_KINDS | {'dict', 'list', 'tuple'}
_WITH_MEMOIZE = b'\x80\x04'

_ITEMS = {
    'FloatStorage': 4, 'DoubleStorage': 8, 'HalfStorage': 2, 'BFloat16Storage': 2, 'ByteStorage': 1, 'CharStorage': 1, 'ShortStorage': 2,
    'IntStorage': 4, 'LongStorage': 8, 'BoolStorage': 1, 'ComplexFloatStorage': 8, 'ComplexDoubleStorage': 16, 'QInt8Storage': 1,
    'QUInt8Storage': 1, 'QInt32Storage': 4, 'QUInt4x2Storage': 1, 'QUInt2x4Storage': 1, 'UntypedStorage': 1, '_UntypedStorage': 1,
}
_MODULES = pattern(r'torch(\.cuda|\.storage)?')
# Texts, also those that Python 2 wrote.
_TEXTS = ('text', 'string')
# How many bytes each storage has, and an item of it.
Storages = Dict[str, Tuple[int, int]]


class Row(NamedTuple):
    """A pickle in a row: where it begins and ends. `counts` is set where it may take things from the memo by the order in which they came."""

    offset: int
    end: int
    counts: bool


class Rows(NamedTuple):
    """Pickles in a row, and the ranges between and behind them that are raw numbers, as offset and end."""

    pickles: List[Row]
    raw: List[Tuple[int, int]]


class _Described(NamedTuple):
    """The objects of a pickle that describes something, and which of them it comes to."""

    objects: Objects
    result: Object

    def number(self) -> int:
        """The number that it is, or one below zero."""
        value = self.result.value
        return value if type(value) is int else -1

    def changes(self, kind: str) -> Sequence[Change]:
        """What is in it, where it is of this kind: a 'list' or a 'dict'. Nothing in it is imported."""
        require(self.result.kind == kind and all(each.kind in _PLAIN for each in self.objects), f'a pickle that is no {kind} of texts and numbers')
        return self.result.changes

    def text(self, number: Optional[int]) -> Any:
        """The text that an object is, or another value."""
        value = None if number is None else self.objects[number].value
        return value.decode('latin-1') if isinstance(value, bytes) else value


def _row(blob: Blob, at: int, budget: Budget) -> Row:
    """The pickle that begins there, in the form that picklers write."""
    return Row(at, end_in_form(blob, at, budget), blob.read(at, 2) >= _WITH_MEMOIZE)


def _described(blob: Blob, row: Row, budget: Budget) -> _Described:
    from ...program import time_to_wait  # (few files are in these layouts)
    from ...tasks import objects
    size = row.end - row.offset
    require(size <= _MOST_DESCRIBED, f'a pickle of more than {_MOST_DESCRIBED:,} bytes that describes something', row.offset)
    try:
        answer = objects(blob.read(row.offset, size), memory=budget.memory(), timeout=time_to_wait(budget.seconds))
        return _Described(answer, answer[answer.results[0]])
    except PicklestepError as error:
        raise NotKnown(f'the program does not say what is described: {error}', row.offset) from error


def _item(kind: Object) -> int:
    """Bytes of an item of a storage."""
    module, name = map(os.fsdecode, kind.text) if kind.kind == 'global' and isinstance(kind.text, tuple) else ('', '')
    if not _MODULES.fullmatch(module) or name not in _ITEMS:
        wrong('a storage of an unknown kind')
    return _ITEMS[name]


class _Found:
    """The storages that a pickle names by persistent ids, by the lines of the program about it. Another id than torch's `is_odd`. The layout before 1.6
    (`is_old`) has a sixth part (a view), and ids of modules with their source."""

    def __init__(self, is_old: bool) -> None:
        self._is_old = is_old
        self._sizes: Storages = {}
        self._is_odd = False

    def take(self, fields: Fields) -> None:
        """Reads a line."""
        if fields['kind'] == 'persistent' and not self._is_odd:
            parts = fields.get('id')
            self._is_odd = not (isinstance(parts, list) and (self._is_module(parts) or self._is_storage(parts)))

    def _is_module(self, parts: List[Fields]) -> bool:
        if not self._is_old or len(parts) != 4:
            return False
        word, kind, source, _ = parts
        return word.get('value') == 'module' and kind['kind'] == 'global' and source['kind'] in _TEXTS

    def _is_storage(self, parts: List[Fields]) -> bool:
        if len(parts) != 5 + self._is_old or [part['kind'] for part in (parts[1], parts[4])] != ['global', 'int'] or any('more' in part for part in parts):
            return False
        word, kind, key, place, count = parts[:5]
        items, name, text = count.get('value', -1), kind.get('name', ''), key.get('value')
        is_storage = all(part['kind'] in _TEXTS for part in (word, key, place)) and word.get('value') == 'storage' and 'value' in place
        is_known = name in _ITEMS and _MODULES.fullmatch(kind.get('module', '')) is not None
        size = (items * _ITEMS.get(name, 0), _ITEMS.get(name, 0))
        return is_storage and is_known and text is not None and 0 <= items < 2 ** 48 and self._sizes.setdefault(text, size) == size

    def storages(self) -> Storages:
        """All of them. Raises NotCanonical where there is another id."""
        require(not self._is_odd, 'a persistent id that torch does not write, or two sizes for a storage')
        return self._sizes


def storages_in(pickle: Blob, budget: Budget, is_old: bool = False) -> Tuple[Optional[bytes], Storages]:
    """What the program says of a pickle, if that is kept, and the storages in that. Raises NotCanonical where it is in another form, or has others than
    torch's, and NotKnown at a limit."""
    found, calls = _Found(is_old), calls_in_form(pickle, budget)
    if calls is not None:
        for fields in plainly_in(calls)[0]:
            found.take(fields)
        return calls, found.storages()
    require_form(pickle, budget)
    with Asked(pickle) as asked:
        trouble = asked.summary(budget.of_value(pickle.size), each=lambda place, fields: found.take(fields)).trouble
    if trouble is not None:
        raise NotKnown(trouble)
    return None, found.storages()


def with_numbers(sizes: Storages, members: Sequence[Member], prefix: str) -> List[Member]:
    """The members of a zip archive, with those that are raw numbers of the exact size as such."""
    found: List[Member] = []
    for member in members:
        size = sizes.pop(member.name[len(prefix):], None) if member.name.startswith(prefix) else None
        if size is not None:
            if member.method != 0 or member.size != size[0]:
                wrong(f'{member.name!a} has another size than its tensor')
            member = member.as_numbers()
        found.append(member)
    if sizes:
        wrong(f'the numbers of {len(sizes)} tensors are missing, such as {next(iter(sizes))!a}')
    return found


def _raw(blob: Blob, at: int, item: int) -> int:
    """Where the numbers of a storage end: their count (8 bytes), and themselves."""
    require(at + 8 <= blob.size, 'the numbers are cut short', at)
    end = at + 8 + int.from_bytes(blob.read(at, 8), 'little') * item
    require(end <= blob.size, 'the numbers are cut short', at)
    return end


def legacy(blob: Blob, budget: Budget) -> Rows:
    """Five pickles, then the numbers of each storage, to the end."""
    rows: List[Row] = []
    at = 0
    for _ in range(5):
        rows.append(_row(blob, at, budget))
        at = rows[-1].end
    magic, version, system, keys = (_described(blob, rows[index], budget) for index in (0, 1, 2, 4))
    require(magic.number() == _MAGIC and version.number() == _VERSION, "no magic number and version of torch's old layout")
    require(sorted(map(str, (system.text(change.key) for change in system.changes('dict')))) == _SYSTEM, 'the third pickle does not describe a system')
    _, sizes = storages_in(blob.part(rows[3].offset, rows[3].end - rows[3].offset), budget, is_old=True)
    names = [keys.text(change.value) for change in keys.changes('list')]
    require(len(set(names)) == len(names) and set(names) == set(sizes), 'the fifth pickle does not name the storages')
    raw: List[Tuple[int, int]] = []
    for name in names:
        size, item = sizes[name]
        end = _raw(blob, at, item)
        require(end - at - 8 == size, f'the storage {name!a} has another size than its tensor', at)
        raw.append((at, end))
        at = end
    require(at == blob.size, f'{blob.size - at:,} bytes stand behind the last storage', at)
    return Rows(rows, raw)


def tar_member(name: str, blob: Blob, budget: Budget) -> Rows:
    """`storages`, `tensors` or `pickle` of torch's tar layout."""
    rows, raw = [_row(blob, 0, budget)], []
    at = rows[0].end
    if name != 'pickle':
        count = _described(blob, rows[0], budget).number()
        require(0 <= count < _MOST_STORAGES, 'the first pickle is no number')
        for _ in range(count):
            rows.append(_row(blob, at, budget))
            objects, result = _described(blob, rows[-1], budget)
            require(result.kind == 'tuple' and len(result.parts) == 3, 'a storage or tensor that is not described as torch does')
            start = rows[-1].end
            at = _raw(blob, start, _item(objects[result.parts[2]])) if name == 'storages' else _sizes_of_tensor(blob, start)
            raw.append((start, at))
    if name == 'storages':
        rows.append(_row(blob, at, budget))
        require(_described(blob, rows[-1], budget).result.kind == 'list', 'the views are no list')
        at = rows[-1].end
    require(at == blob.size, f'{blob.size - at:,} bytes stand behind the last pickle', at)
    return Rows(rows, raw)


def _sizes_of_tensor(blob: Blob, at: int) -> int:
    """Where what describes a tensor ends: the count of its dimensions (4 bytes and 4 zeros), sizes, strides, and an offset, of 8 bytes
    each."""
    dimensions = int.from_bytes(blob.read(at, 4), 'little')
    end = at + 16 + 16 * dimensions
    require(end <= blob.size and not blob.read(at + 4, 4).strip(b'\0'), 'the sizes of a tensor are cut short', at)
    return end
