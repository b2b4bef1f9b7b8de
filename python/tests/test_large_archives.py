"""Zip archives above 2 and 4 GiB, as sparse files: a few kilobytes of disk."""

from __future__ import annotations

import io
import os
import pickle
import struct
import time
import unittest
import zipfile
import zlib
from collections import OrderedDict
from pathlib import Path
from typing import Any, BinaryIO, List, NamedTuple, Tuple

from picklestep.scan import Judge, look
from picklestep.scan.blobs import BytesBlob, FileBlob
from picklestep.scan.canonical import NotCanonical, archives, zips
from scan_support import ScanCase, notes_of

LONG = 0xFFFFFFFF


class Record(NamedTuple):
    """A member of torch's. One without data is so many zeros, whose checksum nobody reads."""

    name: bytes
    data: bytes
    zeros: int = 0


class _Name:
    """What is imported: torch need not be here."""

    def __init__(self, module: str, name: str) -> None:
        self.lines = f'{module}\n{name}\n'.encode()

    def __call__(self) -> None:
        """(picklers take nothing for a function that cannot be called)"""


_REBUILD, _STORAGE = _Name('torch._utils', '_rebuild_tensor_v2'), _Name('torch', 'FloatStorage')


class _Numbers(NamedTuple):
    """The numbers of a tensor."""

    key: int
    count: int


class _Tensor:
    def __init__(self, key: int, count: int) -> None:
        self.numbers = _Numbers(key, count)

    def __reduce__(self) -> Tuple[Any, ...]:
        return _REBUILD, (self.numbers, 0, (self.numbers.count,), (1,), False, OrderedDict())


class _Pickler(pickle._Pickler):  # type: ignore[misc, name-defined]
    """Writes tensors as torch.save does."""

    dispatch = dict(pickle._Pickler.dispatch)  # type: ignore[attr-defined]

    def save_name(self, name: _Name) -> None:
        """An import."""
        self.write(b'c' + name.lines)
        self.memoize(name)

    dispatch[_Name] = save_name

    def persistent_id(self, each: Any) -> Any:
        return ('storage', _STORAGE, str(each.key), 'cpu', each.count) if isinstance(each, _Numbers) else None


def state_of(counts: List[int]) -> bytes:
    """A state_dict of tensors of these sizes."""
    held = io.BytesIO()
    _Pickler(held, 2).dump(OrderedDict((f'w{key}', _Tensor(key, count)) for key, count in enumerate(counts)))
    return held.getvalue()


def write_as_torch(path: Path, records: List[Record]) -> None:
    """The archive that torch's miniz writes: data behind a padding at multiples of 64, sizes in a record behind them, and behind 4 GB the place of
    the header in its extra field."""
    with open(path, 'wb') as file:
        rows = [_written(file, record) for record in records]
        start = file.tell()
        for name, checksum, size, at in rows:
            longs = b''.join(struct.pack('<Q', value) for value in ((size, size) if size >= LONG else ()) + ((at,) if at >= LONG else ()))
            extra = struct.pack('<HH', 1, len(longs)) + longs if longs else b''
            file.write(struct.pack('<4s6H3I5H2I', b'PK\1\2', 0, 0, 0x0808, 0, 0, 0, checksum, min(size, LONG), min(size, LONG), len(name), len(extra), 0, 0, 0, 0,
                                   min(at, LONG)) + name + extra)
        end = file.tell()
        file.write(struct.pack('<4sQHHIIQQQQ', b'PK\6\6', 44, 0x031E, 45, 0, 0, len(rows), len(rows), end - start, start))
        file.write(struct.pack('<4sIQI', b'PK\6\7', 0, end, 1))
        file.write(struct.pack('<4s4H2IH', b'PK\5\6', 0, 0, len(rows), len(rows), end - start, min(start, LONG), 0))


def _written(file: BinaryIO, record: Record) -> Tuple[bytes, int, int, int]:
    """Writes a member, and answers what its row in the directory tells."""
    at, size = file.tell(), record.zeros or len(record.data)
    longs = (struct.pack('<QQ', size, 0) if size >= LONG else b'') + (struct.pack('<Q', at) if at >= LONG else b'')
    extra = struct.pack('<HH', 1, len(longs)) + longs if longs else b''
    padding = -(at + 30 + len(record.name) + len(extra) + 4) % 64
    extra += struct.pack('<2sH', b'FB', padding) + b'Z' * padding
    file.write(struct.pack('<4s5H3I2H', b'PK\3\4', 0, 0x0808, 0, 0, 0, 0, 0, 0, len(record.name), len(extra)) + record.name + extra)
    file.write(record.data)
    file.seek(record.zeros, os.SEEK_CUR)
    checksum = zlib.crc32(record.data)
    file.write(struct.pack('<4sIQQ' if longs else '<4sIII', b'PK\7\x08', checksum, size, size))
    return record.name, checksum, size, at


class Torch(ScanCase):
    """What torch.save writes."""

    def write(self, counts: List[int]) -> Path:
        path = self.folder / 'model.pt'
        numbers = [Record(b'archive/data/%d' % key, b'', 4 * count) for key, count in enumerate(counts)]
        write_as_torch(path, [Record(b'archive/data.pkl', state_of(counts)), *numbers, Record(b'archive/version', b'3\n')])
        self.assertGreater(path.stat().st_size, 4_500_000_000)
        self.assertLess(path.stat().st_blocks * 512, 1 << 20)
        return path

    def test_each_passes_soon(self) -> None:
        """Nearly all of it is numbers, of which the first ones are read."""
        for counts in ([600_000_000, 600_000_000], [1_150_000_000, 16], [16, 1_200_000_000], [300_000_000] * 4):
            with self.subTest(counts):
                path = self.write(counts)
                start = time.process_time()
                result = look(str(path))
                self.assertLess(time.process_time() - start, 1)
                self.assertEqual(list(Judge().looks(result)), [], notes_of(result))
                self.assertIn(('numbers', len(counts)), result.forms)
                with zipfile.ZipFile(path) as archive:  # (so it is an archive for others, too)
                    self.assertEqual(archive.read('archive/version'), b'3\n')

    def test_other_places_and_sizes(self) -> None:
        """Each number of the extra fields before the data is the true one."""
        path = self.write([16, 1_200_000_000, 16])
        with open(path, 'r+b') as file:
            blob = FileBlob(file, path.stat().st_size)
            large = blob.find(b'archive/data/1') - 30
            small = large + 4_800_000_000 + blob.part(large + 4_800_000_000, 4096).find(b'archive/data/2') - 30
            self.assertEqual(len(zips.verify(blob).members), 5)
            for at, field in ((large, 0), (large, 8), (small, 0)):
                place = at + 30 + len('archive/data/1') + 4 + field
                true = blob.read(place, 8)
                with self.subTest(at=at, field=field), self.assertRaises(NotCanonical):
                    os.pwrite(file.fileno(), struct.pack('<Q', int.from_bytes(true, 'little') + 1), place)
                    zips.verify(blob)
                os.pwrite(file.fileno(), true, place)
            self.assertEqual(len(zips.verify(blob).members), 5)


class Python(ScanCase):
    """What zipfile writes."""

    def test_behind_two_gigabytes(self) -> None:
        """The directory has the version of long fields there, and the header has not."""
        path = self.folder / 'a.npz'
        with zipfile.ZipFile(path, 'w') as archive:
            archive.writestr('a.txt', b'a')
            archive.writestr('b.txt', b'b')
        content = self._with_long_offset(path.read_bytes())
        for verify in (archives.verify, zips.verify):
            self.assertEqual([member.name for member in verify(BytesBlob(content)).members], ['a.txt', 'b.txt'])

    @staticmethod
    def _with_long_offset(content: bytes) -> bytes:
        """The same archive, with the place of the second member in an extra field, as zipfile writes it behind 2 GB (so much was too slow here)."""
        end = content.index(b'PK\5\6')
        start = int.from_bytes(content[end + 16:end + 20], 'little')
        row = content.index(b'PK\1\2', start + 4)
        place = content[row + 42:row + 46]
        made = bytearray(content[row:end])
        made[6:8] = struct.pack('<H', 45)
        made[30:32] = struct.pack('<H', 12)
        made[42:46] = struct.pack('<I', LONG)
        made += struct.pack('<HHQ', 1, 8, int.from_bytes(place, 'little'))
        closing = bytearray(content[end:])
        closing[12:16] = struct.pack('<I', int.from_bytes(closing[12:16], 'little') + 12)
        return content[:row] + bytes(made) + bytes(closing)

    def test_a_header_that_tells_another_size(self) -> None:
        """Where a record follows the data, what the header tells is zero twice: else another member may stand in the data for those who read the header
        alone."""
        for told, passes in ((0, True), (22, False), (10, False)):
            with self.subTest(told):
                content = self._streamed(told)
                for verify in (archives.verify, zips.verify):
                    if passes:
                        self.assertEqual([member.name for member in verify(BytesBlob(content)).members], ['a.bin'])
                        continue
                    with self.assertRaises(NotCanonical):
                        verify(BytesBlob(content))

    @staticmethod
    def _streamed(told: int) -> bytes:
        """An archive that zipfile writes into a stream, with another size in the extra field of the header."""
        class Stream:
            """What cannot go back."""
            content = bytearray()

            def write(self, data: bytes) -> int:
                self.content += data
                return len(data)

            def flush(self) -> None:
                """Nothing is held."""
        stream = Stream()
        stream.content = bytearray()
        with zipfile.ZipFile(stream, 'w') as archive, archive.open('a.bin', 'w', force_zip64=True) as member:  # type: ignore[call-overload]
            member.write(b'0123456789, and others')
        place = stream.content.index(b'a.bin') + len('a.bin')
        stream.content[place + 4:place + 20] = struct.pack('<QQ', told, told)
        return bytes(stream.content)


if __name__ == '__main__':
    unittest.main()
