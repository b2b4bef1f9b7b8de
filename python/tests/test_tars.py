"""Tar archives in the gate: what tarfile and GNU tar write is in form, and whatever is changed, tarfile finds no other member than the gate saw."""

from __future__ import annotations

import io
import pickle
import random
import shutil
import subprocess
import tarfile
import tempfile
import unittest
from collections import OrderedDict
from pathlib import Path
from typing import List, Optional, Tuple

import picklestep

BLOCK = tarfile.BLOCKSIZE
FORMATS = (tarfile.USTAR_FORMAT, tarfile.GNU_FORMAT, tarfile.PAX_FORMAT)
GNU_FORMATS = ('gnu', 'ustar', 'pax')
MAIN, OTHER = b'N.', pickle.dumps(OrderedDict(a=[1, 2, 3]), 2)
HOSTILE = b"cposix\nsystem\n(S'id'\ntR."
NAMES = ('collections.OrderedDict: call made-fill',)
LONG = 'models/' * 20 + 'a.pkl'
MUTANTS = 2000

Given = Tuple[str, bytes]
Found = List[Tuple[str, bytes]]


def tarred(*members: Given, form: int = tarfile.PAX_FORMAT, **fields: object) -> bytes:
    """An archive that tarfile writes. A name that ends with a slash is that of a directory."""
    out = io.BytesIO()
    with tarfile.open(fileobj=out, mode='w', format=form) as archive:
        for name, content in members:
            info = tarfile.TarInfo(name.rstrip('/'))
            info.size, info.type = len(content), tarfile.DIRTYPE if name.endswith('/') else tarfile.REGTYPE
            for field, value in fields.items():
                setattr(info, field, value)
            archive.addfile(info, io.BytesIO(content))
    return out.getvalue()


def changed(archive: bytes, at: int, new: bytes) -> bytes:
    return archive[:at] + new + archive[at + len(new):]


def summed(archive: bytes, at: int, new: bytes, header: int = 0) -> bytes:
    """Other bytes in a header, which has the checksum of them."""
    block = bytearray(changed(archive, header + at, new)[header:header + BLOCK])
    block[148:156] = b'%06o\0 ' % (256 + sum(block) - sum(block[148:156]))
    return changed(archive, header, bytes(block))


def found_in(archive: bytes) -> Optional[Found]:
    """What tarfile finds: of each member the name, with a slash behind that of a directory, and what is in it. None where it raises."""
    try:
        with tarfile.open(fileobj=io.BytesIO(archive), mode='r:') as opened:
            return [(info.name + '/' * info.isdir(), _held(opened, info)) for info in opened]
    except (tarfile.TarError, ValueError, OverflowError, EOFError, KeyError, IndexError):
        return None


def _held(opened: tarfile.TarFile, info: tarfile.TarInfo) -> bytes:
    held = opened.extractfile(info) if info.isfile() else None
    return b'' if held is None else held.read()


def seen_in(archive: bytes) -> Optional[Found]:
    """What the program finds; None where the archive is not in form."""
    try:
        return [(each.name, archive[each.offset:each.offset + each.size]) for each in picklestep.members(archive)]
    except picklestep.PicklestepError:
        return None


def mutant(chance: random.Random, archive: bytes) -> bytes:
    """An archive with some bytes changed. A header mostly has the checksum of what it has become."""
    for _ in range(chance.randrange(1, 4)):
        header = chance.randrange(len(archive) // BLOCK) * BLOCK
        at = chance.choice((*range(0, 12), 100, 124, 128, 132, 134, 136, 148, 154, 156, 157, 257, 262, 263, 265, 297, 329, 345, 500))
        new = bytes(chance.choice((0, 32, 46, 47, 48, 49, 53, 55, 76, 103, 120, 128, 255, chance.randrange(256))) for _ in range(chance.randrange(1, 4)))
        archive = (summed(archive, at, new, header) if chance.random() < 0.8 else changed(archive, header + at, new))[:len(archive)]
    if chance.random() < 0.2:
        at = chance.randrange(len(archive))
        archive = chance.choice((archive[:at], archive + bytes(chance.randrange(1, 1100)), archive + archive, changed(archive, at, b'?')))
    return archive


class Tars(unittest.TestCase):
    """What passes, and what does not."""

    def passes(self, archive: bytes) -> bool:
        return bool(picklestep.gate(archive, names=NAMES))

    def line(self, archive: bytes) -> str:
        return picklestep.gate(archive, names=NAMES).line

    def assert_in_form(self, archive: bytes) -> None:
        self.assertEqual(seen_in(archive), found_in(archive))
        self.assertTrue(self.passes(archive), self.line(archive))

    def test_what_tarfile_writes(self) -> None:
        for form in FORMATS:
            with self.subTest(form):
                self.assert_in_form(tarred(('models/', b''), ('models/a.pkl', MAIN), ('models/b.pkl', OTHER), ('empty', b''), form=form))
                self.assert_in_form(tarred(('x' * 100, MAIN), ('\xe9.pkl', OTHER), form=form))
        for form in FORMATS[1:]:
            with self.subTest(form):
                self.assert_in_form(tarred((LONG, MAIN), ('b', OTHER), form=form))
        self.assert_in_form(tarred(('a.pkl', MAIN), mtime=1.5, uname='caf\xe9'))

    @unittest.skipUnless(shutil.which('tar'), 'tar is not there')
    def test_what_gnu_tar_writes(self) -> None:
        if b'GNU tar' not in subprocess.run(['tar', '--version'], stdout=subprocess.PIPE, check=True).stdout:
            self.skipTest('tar is another one')
        with tempfile.TemporaryDirectory() as folder:
            for name, content in (('models/a.pkl', MAIN), ('models/b.pkl', OTHER), ('x' * 90, MAIN)):
                path = Path(folder, 'given', name)
                path.parent.mkdir(parents=True, exist_ok=True)
                path.write_bytes(content)
            for form in GNU_FORMATS:
                for given in ('.', 'models'):
                    with self.subTest(form, given=given):
                        subprocess.run(['tar', f'--format={form}', '-cf', 'a.tar', '-C', 'given', given], cwd=folder, check=True)
                        self.assert_in_form(Path(folder, 'a.tar').read_bytes())

    def test_what_is_not_in_form(self) -> None:
        tar = tarred(('a.pkl', MAIN))
        for at, why, given in (
            (0, 'a header with another checksum than it tells', changed(tar, 0, b'b')),
            (BLOCK, 'a header or a content that is cut', tar[:BLOCK + 1]),
            (0, 'a header of another kind of archive', summed(tar, 257, bytes(8))),
            (0, 'a number in a header that is not in octal digits', summed(tar, 136, b'\x80')),
            (0, 'a header that names a link', tarred(('a', b''), type=tarfile.SYMTYPE, linkname='b')),
            (0, 'a header that names a device', tarred(('a', b''), type=tarfile.CHRTYPE, devmajor=1)),
            (0, 'a header whose last part is not empty', tarred((LONG, MAIN), form=tarfile.USTAR_FORMAT)),
            (0, 'a member that is neither a file nor a directory', tarred(('a', b''), type=tarfile.FIFOTYPE)),
            (BLOCK + 3, 'a record that may tell more than a name, times and owners', tarred(('a', b''), pax_headers={'comment': 'b'})),
            (BLOCK + 3, 'a record that writers of pax headers do not write', tarred(('a', b''), mtime=1.5).replace(b'mtime=', b'mtime?')),
            (0, 'a name that is not plain', tarred(('a\\b', MAIN))),
            (0, 'a directory with content or with the name of a file', summed(tar, 156, b'5')),
            (BLOCK + len(MAIN), 'a content whose last block is not filled with zeros', changed(tar, BLOCK + len(MAIN), b'?')),
            (2 * BLOCK, 'an end that is not filled with zeros as writers fill it', tar + bytes(BLOCK)),
        ):
            with self.subTest(why):
                self.assertEqual(self.line(given), f'not in form: {at}: {why}')
                self.assertIsNone(seen_in(given))

    def test_what_else_it_may_be(self) -> None:
        with_records = tarred(('a', MAIN), mtime=1.5)
        for name, given in (
            ('a first name that is imported from', tarred(('cos.x', b'N.\n\n'))),
            ('a pickle in the name of records', summed(with_records, 0, b'cos\nsystem\n.')),
            ('a zip archive', summed(with_records, 0, b'PK\3\4')),
            ('an array', summed(with_records, 0, b'\x93NUMPY')),
            ('a packed file', summed(with_records, 0, b'\x1f\x8b\x08')),
        ):
            with self.subTest(name):
                self.assertEqual(self.line(given), 'a loader may take the archive itself for something else: it is not looked at')
        tar = tarred(('0123456789', HOSTILE))
        plain = b'\x80\x03B' + (len(tar) - 7).to_bytes(4, 'little') + tar[7:] + b'q\0.'
        both = summed(summed(plain, 0, plain[:7]), 257, bytes(8))
        self.assertEqual(pickle.loads(both), both[7:-3])
        self.assertEqual([content for _, content in found_in(both) or []], [HOSTILE])
        self.assertEqual(self.line(both), 'not in form: 0: a header of another kind of archive')

    def test_names(self) -> None:
        for one, two in (('a', 'a'), ('a', './A'), ('a', 'a/'), ('b', 'a/../c'), ('b', 'a//c'), ('b', '/a'), ('b', '../a')):
            with self.subTest(one, two=two):
                self.assertEqual(self.line(tarred((one, MAIN), (two, b'' if two.endswith('/') else MAIN))), 'two names for one file, or a name with an empty part, . or ..: it is not looked at')

    def test_the_first_member_that_does_not_pass(self) -> None:
        answer = picklestep.gate(tarred(('a.pkl', MAIN), ('b.pkl', HOSTILE)), names=NAMES)
        self.assertEqual((answer.passes, answer.member, answer.kind, answer.offset), (False, 'b.pkl', 'not allowed', 0))
        self.assertEqual(self.line(tarred(('a.tar', tarred(('b', MAIN))))), "'a.tar': an archive itself: it is not looked at")

    def test_mutants(self) -> None:
        chance = random.Random(79)
        given = [tarred(('m/', b''), ('m/a.pkl', MAIN), ('b.pkl', OTHER), ('h', HOSTILE * small), form=form, mtime=time)
                 for form in FORMATS for small in (0, 1) for time in (0, 1.5 if form == tarfile.PAX_FORMAT else 1)]
        given += [tarred((LONG, MAIN), ('b.pkl', OTHER), form=form) for form in FORMATS[1:]]
        in_form = passed = 0
        for number in range(MUTANTS):
            archive = mutant(chance, chance.choice(given))
            seen, found = seen_in(archive), found_in(archive)
            if seen is not None and archive[:BLOCK].strip(b'\0'):
                in_form += 1
                self.assertEqual(seen, found, f'mutant {number}')
            if self.passes(archive):
                passed += 1
                self.assertIsNotNone(seen, f'mutant {number}')
                self.assertNotIn(HOSTILE, [content for _, content in found or []], f'mutant {number}')
        self.assertGreater(min(in_form, passed), MUTANTS // 200)


if __name__ == '__main__':
    unittest.main()
