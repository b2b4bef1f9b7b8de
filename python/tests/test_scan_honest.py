"""Files that the usual writers wrote pass the gate, and a single change of one never hides what a real reader gets."""

from __future__ import annotations

import bz2
import gzip
import io
import lzma
import os
import pickle
import random
import subprocess
import tarfile
import unittest
import unittest.mock
import zipfile
import zlib
from pathlib import Path
from typing import Any, Callable, Dict, List, Sequence, Tuple, Type

from picklestep.scan import Judge, look
from picklestep.scan.allow import read_names
from picklestep.scan.blobs import BytesBlob
from picklestep.scan.canonical import NotCanonical, archives, joblib, npy, pickles, tars
from picklestep.scan.canonical.layouts import layout_of
from picklestep.scan.containers import CONTAINERS
from picklestep.scan.zips import unpacker_of
from scan_support import ScanCase, looks_at, notes_of
from test_scan_gate import DEBIAN, is_told

MAKER = Path(__file__).resolve().parent / 'honest.py'
# These hold code, so no set that comes with the package allows them.
CODE = ('functions/', 'torch/script.pt')
# Archives that the program does not know, and why. Readers find the same members in them, so they are not marked; and the gate lets them pass by no list.
ODD_ZIPS = {
    'commands/bsd.zip': 'an extra field', 'commands/seven.zip': 'an extra field', 'commands/git.zip': 'without a comment', 'zip/method_8.zip': 'a folder with content',
    'zip/method_12.zip': 'packed neither by none', 'zip/method_14.zip': 'packed neither by none',
    **{f'commands/info{how}.zip': 'a name that is not plain' for how in ('', '_0', '_x', '_links', '_pipe')}}
# What the gate lets pass by no list: arrays with fields, beside objects or with some in them; an archive in another one.
NOT_PASSED = ('numpy/all.npz', 'numpy/all_packed.npz', 'numpy/fields.npy', 'tar/inner.tar', 'zip/nested.zip')
# The set that alone allows the files of a folder; `plain` allows those of the others.
SET_OF = {'torch': 'torch-modules', 'numpy': 'numpy', 'joblib': 'joblib', 'sklearn': 'sklearn', 'pandas': 'pandas'}
# Changes in a run of the tests, some seconds. More are tried by hand: CHANGES=200000 python3 test_scan_honest.py
CHANGES = int(os.environ.get('CHANGES', '20000'))


def made(folder: Path) -> Tuple[List[Path], str]:
    """Honest files, and which writers are not here."""
    run = subprocess.run([DEBIAN, str(MAKER), str(folder)], capture_output=True, text=True, timeout=3600, check=False,
                         env={**os.environ, 'LC_ALL': 'C.UTF-8'})  # (elsewhere bsdtar says of names in what they are written)
    return sorted(path for path in folder.rglob('*') if path.is_file() and not path.is_symlink()), run.stdout + run.stderr


class Honest(ScanCase):
    """Files by torch, numpy, joblib, scikit-learn, pandas, the standard library and command lines."""

    def test_none_is_told(self) -> None:
        files, missing = made(self.folder)
        for path in files:
            name = str(path.relative_to(self.folder))
            with self.subTest(name):
                result = look(str(path))
                if name in ODD_ZIPS:
                    self.assertRegex(notes_of(result), f'(?m)^  : the gate does not know its form .*{ODD_ZIPS[name]}')
                self.assertFalse(is_told(result), notes_of(result))
                if not name.startswith(CODE):
                    word = SET_OF.get(name.partition(os.sep)[0], 'plain')
                    looks = looks_at(Judge(read_names([word])), path)
                    self.assertEqual([look.rule for look in looks], ['not-passed'] * (name in NOT_PASSED or name in ODD_ZIPS and bool(result.pickles)), word)
        # (So many are there without torch, and the lesser number is what Python's own library and the usual commands write.)
        others = [line for line in missing.splitlines() if not line.startswith('of_torch: ')]
        self.assertGreaterEqual(len(files), 100 if others else 300)
        if missing:
            self.skipTest(f'{len(files)} files, and not by all writers: {"; ".join(missing.splitlines())}')


class Anything:
    """What an unpickler gets for each name: it takes whatever is done to it."""

    def __new__(cls, *words: Any, **named: Any) -> 'Anything':
        return object.__new__(cls)

    def __setstate__(self, state: Any) -> None:
        pass

    def __setitem__(self, key: Any, value: Any) -> None:
        pass

    def __call__(self, *words: Any, **named: Any) -> 'Anything':
        return Anything()

    def __hash__(self) -> int:
        return 1

    def append(self, item: Any) -> None:
        """Takes an item."""

    def extend(self, items: Any) -> None:
        """Takes items."""

    def add(self, item: Any) -> None:
        """Takes an item."""


def imported(base: Type[Any], content: bytes) -> Tuple[List[Tuple[str, str]], bool]:
    """What an unpickler of CPython imports, and whether it comes to a STOP."""
    seen: List[Tuple[str, str]] = []

    class Loader(base):  # type: ignore[misc]
        def find_class(self, module: str, name: str) -> Any:
            seen.append((module, name))
            return type('Made', (Anything,), {})

        def persistent_load(self, key: Any) -> Any:
            return Anything()

    try:
        Loader(io.BytesIO(content)).load()
    except Exception:
        return seen, False
    return seen, True


def unpacked(kind: str, content: bytes) -> bytes:
    """What a stream unpacks to strictly."""
    blob = BytesBlob(content)
    stream = next(each.stream for each in CONTAINERS if each.name == kind)
    assert stream is not None
    stream.verify_begin(blob)
    unpacking = stream.unpacking(blob)
    held = b''.join(unpacking.pieces())
    stream.verify_end(blob, unpacking, len(held))
    return held


def members_of_zip(content: bytes) -> List[bytes]:
    """The members of an archive, read strictly."""
    blob, found = BytesBlob(content), []
    for member in archives.verify(blob).members:
        start = unpacker_of(blob, member.method, member.offset)
        assert start is not None
        unpacking = start(blob.part(member.offset, member.size))
        held = b''.join(unpacking.pieces()) if member.role != 'folder' else b''
        checksum = zlib.crc32(held)
        if unpacking.trouble or member.role != 'folder' and (unpacking.end, len(held), checksum) != (member.size, member.unpacked, member.checksum):
            raise NotCanonical('the content differs')
        found.append(held)
    return found


def members_of_tar(content: bytes) -> List[bytes]:
    """The members of an archive, read strictly."""
    return [content[member.offset:member.offset + member.size] for member in tars.verify(BytesBlob(content)).members if member.role == 'file']


def by_zipfile(content: bytes) -> List[bytes]:
    """The members as zipfile gives them."""
    archive = zipfile.ZipFile(io.BytesIO(content))
    return [archive.read(told) for told in archive.infolist()]


def by_tarfile(content: bytes) -> List[bytes]:
    """The members as tarfile gives them."""
    archive = tarfile.open(fileobj=io.BytesIO(content), mode='r:')
    found = []
    for told in archive:
        held = archive.extractfile(told) if told.isreg() else None
        if held is not None:
            found.append(held.read())
    return found


READERS: Dict[str, Tuple[Callable[[bytes], Any], Callable[[bytes], Any]]] = {
    'zip': (members_of_zip, by_zipfile), 'tar': (members_of_tar, by_tarfile),
    'gzip': (lambda content: unpacked('gzip', content), gzip.decompress), 'bz2': (lambda content: unpacked('bz2', content), bz2.decompress),
    'xz': (lambda content: unpacked('xz', content), lzma.decompress), 'lzma': (lambda content: unpacked('lzma', content), lzma.decompress),
}


def kind_of(content: bytes) -> str:
    """The kind of a file."""
    begins = (('zip', b'PK\3\4'), ('gzip', b'\x1f\x8b'), ('bz2', b'BZh'), ('xz', b'\xfd7zXZ'), ('lzma', b'\x5d\0\0'), ('npy', b'\x93NUMPY'))
    if content[257:262] == b'ustar':
        return 'tar'
    return next((kind for kind, begin in begins if content.startswith(begin)), 'pickle')


def changed(chance: random.Random, content: bytes, other: bytes) -> bytes:
    """A change: a byte, a length, a piece that is put in, taken out, doubled or appended, an opcode for another. That of a tar's header
    keeps its sum."""
    data = bytearray(content)
    at = chance.randrange(len(data))
    if chance.random() < 0.3:
        at = max(0, len(data) - 1 - chance.randrange(min(len(data), 300)))
    how = chance.randrange(8)
    if how < 3:
        data[at] = chance.choice((chance.randrange(256), data[at] ^ 1 << chance.randrange(8), 0, 255, 46, 10))
    elif how == 3:
        data[at:at] = bytes([chance.choice((0, 255, 32, 46))]) * chance.choice((1, 2, 4, 512))
    elif how == 4:
        del data[at:at + chance.choice((1, 2, 4, 30, 512))]
    elif how == 5:
        place = chance.randrange(len(other))
        data[at:at] = other[place:place + chance.choice((4, 16, 64, 512))]
    elif how == 6:
        data[at:at] = data[at:at + chance.choice((1, 4, 46, 512))]
    else:
        data += chance.choice((bytes(4), bytes(512), b'N.', other[:2000], bytes(data[:600])))
    block = at // 512 * 512
    if bytes(data[block + 257:block + 262]) == b'ustar' and len(data) >= block + 512 and not 148 <= at - block < 156:
        data[block + 148:block + 156] = b' ' * 8
        data[block + 148:block + 156] = b'%06o\0 ' % sum(data[block:block + 512])
    return bytes(data)


class Changes(ScanCase):
    """Single changes of honest files against the readers of CPython."""

    def test_real_readers_get_nothing_else(self) -> None:
        files, _ = made(self.folder)
        groups: Dict[str, List[bytes]] = {}
        for path in files:
            content = path.read_bytes()
            if 0 < len(content) < 40_000 and 'texts' not in path.parts:
                groups.setdefault(kind_of(content), []).append(content)
        chance, taken = random.Random(48), 0
        for _ in range(CHANGES):
            kind = chance.choice(sorted(groups))
            other = chance.choice(groups[chance.choice(sorted(groups))])
            content = changed(chance, chance.choice(groups[kind]), other)
            taken += self.is_taken(kind, content)
        self.assertGreater(taken, CHANGES // 50)

    def is_taken(self, kind: str, content: bytes) -> bool:
        """Whether the strict reader takes a file. What a real reader gets of it is then the same."""
        if kind == 'pickle':
            return self.is_pickle(content)
        if kind == 'npy':
            return self.passes(lambda: npy.verify(BytesBlob(content)))
        strict, real = READERS[kind]
        try:
            mine = strict(content)
        except NotCanonical:
            return False
        try:
            theirs = real(content)
        except Exception:
            return True  # (no reader gets anything)
        self.assertEqual(mine, theirs, content)
        return True

    def passes(self, work: Callable[[], Any]) -> bool:
        """Whether something is in its form."""
        try:
            work()
        except NotCanonical:
            return False
        return True

    def is_pickle(self, content: bytes) -> bool:
        """Whether the strict reader takes pickles. CPython's unpicklers then import what it has; else what they import is told."""
        bases: Sequence[Type[Any]] = (pickle.Unpickler, pickle._Unpickler)  # type: ignore[attr-defined]
        try:
            layout = layout_of(BytesBlob(content))
        except NotCanonical:
            return False
        imports = layout.imports if layout.pickles > 1 else pickles.read_pickle(BytesBlob(content), 0, joblib.on_build).imports
        for base in bases:
            seen, _ = imported(base, content)
            # (joblib's arrays are raw numbers to an unpickler that does not know them, and that is told elsewhere.)
            self.assertLessEqual(set(seen) if not layout.raw else set(), imports, content)
        return True

class CommonOpcodes(unittest.TestCase):
    """The commonest opcodes are done without a call where nothing can be said against them: that comes to what their functions come to."""

    def answer(self, content: bytes) -> Tuple[Any, ...]:
        try:
            found = pickles.read_pickle(BytesBlob(content))
        except NotCanonical as reason:
            return reason.offset, reason.reason
        return found.end, found.imports, len(found.kinds), found.counts, found.gives_methods

    def test_changed_pickles(self) -> None:
        chance = random.Random(49)
        values = [{'a': [1.5, 2, 'text', None]}, [(n, str(n)) for n in range(300)], {'x' * 300: b'y'}, ['\xe9', '\udc80'] * 3]
        seeds = [pickle.dumps(value, protocol) for value in values for protocol in range(6)]
        slow = {name: -2 for name in ('_BINGET', '_BININT1', '_MEMOIZE', '_BINPUT', '_SHORT_BINUNICODE', '_BINFLOAT')}
        taken = 0
        for _ in range(1500):
            content = changed(chance, chance.choice(seeds), chance.choice(seeds))
            at_once = self.answer(content)
            with unittest.mock.patch.multiple(pickles, **slow):
                self.assertEqual(self.answer(content), at_once, content)
            taken += len(at_once) == 5
        self.assertGreater(taken, 50)


if __name__ == '__main__':
    unittest.main()
