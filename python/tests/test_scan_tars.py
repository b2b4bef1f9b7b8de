"""Tar archives stand on what the program says: which members they have, and whether a file as a whole passes a list."""

from __future__ import annotations

import gzip
import io
import os
import random
import shutil
import struct
import subprocess
import tarfile
import unittest
import unittest.mock
import zlib
from pathlib import Path
from typing import List, Optional, Tuple, Union

from picklestep import library
from picklestep.scan import Judge, Limits, Options, look
from picklestep.scan.blobs import Blob, Budget, BytesBlob, FileBlob
from picklestep.scan.canonical import Form, NotCanonical, archives, tars
from picklestep.scan.canonical.forms import Member
from picklestep.scan.names import Names
from scan_support import ScanCase, closing, entry, local, Made, looks_at, notes_of, places_of
from test_tars import BLOCK, FORMATS, GNU_FORMATS, HOSTILE, LONG, MAIN, NAMES, OTHER, changed, found_in, mutant, summed, tarred

# Changes in a run of the tests, a second or two. More are tried by hand: CHANGES=20000 python3 test_scan_tars.py
CHANGES = int(os.environ.get('CHANGES', '1000' if library.is_in_process() else '50'))
LARGE = bytes(range(256)) * 20
Answer = Union[Form, str]


def honest() -> List[bytes]:
    """Archives by tarfile in each format, with the member that is not small in each place."""
    made = [tarred(('m/', b''), ('m/a.pkl', MAIN), ('b.bin', LARGE), ('c.pkl', OTHER), form=form) for form in FORMATS]
    made += [tarred((LONG, LARGE), ('b', OTHER), ('c', LARGE[:BLOCK]), form=form) for form in FORMATS[1:]]
    return [*made, tarred(('a.pkl', LARGE), ('b', b''), mtime=1.5, uname='caf\xe9'), tarred(('x' * 100, MAIN), ('\xe9.pkl', OTHER))]


def of_other_forms() -> List[bytes]:
    """Archives that the program does not know, and that are read all the same without a mark."""
    with_link = tarred(('a.pkl', OTHER))[:2 * BLOCK] + tarred(('b', b''), type=tarfile.SYMTYPE, linkname='a.pkl')
    return [with_link, tarred((LONG, OTHER), form=tarfile.USTAR_FORMAT), tarred(('a', OTHER), pax_headers={'SCHILY.dev': '1'})]


def answer_of(content: bytes) -> Answer:
    """The members, or why the archive is in another form."""
    try:
        return tars.verify(BytesBlob(content))
    except NotCanonical as reason:
        return str(reason)


def read_here(content: bytes) -> Optional[List[Member]]:
    """The members by the reader of the package. None where it refuses the archive."""
    try:
        return tars._read(BytesBlob(content), None)
    except NotCanonical:
        return None


class Members(ScanCase):
    """The members that the program names, beside those of the reader that is asked about other forms, and those that tarfile finds."""

    def compared(self, content: bytes) -> Answer:
        """The answer. The program says the same of an outline."""
        answer = answer_of(content)
        with unittest.mock.patch.object(library, 'MOST_BYTES', 0):
            self.assertEqual(answer_of(content), answer, content)
        by_program, here = self.by_program(content), read_here(content)
        if by_program is not None and here is not None:
            self.assertEqual(by_program, here, content)
        return answer

    def by_program(self, content: bytes) -> Optional[List[Member]]:
        try:
            return tars._by_program(BytesBlob(content), None)
        except NotCanonical:
            return None

    def assert_named(self, content: bytes) -> None:
        """The program names the members, which are those that tarfile finds."""
        form = self.compared(content)
        assert isinstance(form, Form), form
        self.assertEqual(self.by_program(content), list(form.members))
        self.assertEqual([(member.name, content[member.offset:member.offset + member.size]) for member in form.members], found_in(content))

    def test_what_tarfile_writes(self) -> None:
        for content in honest():
            self.assert_named(content)

    @unittest.skipUnless(shutil.which('tar'), 'tar is not there')
    def test_what_gnu_tar_writes(self) -> None:
        if b'GNU tar' not in subprocess.run(['tar', '--version'], stdout=subprocess.PIPE, check=True).stdout:
            self.skipTest('tar is another one')
        for name, content in (('models/a.pkl', MAIN), ('models/b.bin', LARGE), ('x' * 90, MAIN)):
            path = self.folder / 'given' / name
            path.parent.mkdir(parents=True, exist_ok=True)
            path.write_bytes(content)
        for form in GNU_FORMATS:
            for given in ('.', 'models'):
                with self.subTest(form, given=given):
                    subprocess.run(['tar', f'--format={form}', '-cf', 'a.tar', '-C', 'given', given], cwd=self.folder, check=True)
                    self.assert_named((self.folder / 'a.tar').read_bytes())

    def test_other_forms(self) -> None:
        """What the program does not know is read as before, without a mark."""
        for content in of_other_forms():
            form = self.compared(content)
            assert isinstance(form, Form), form
            self.assertIsNone(self.by_program(content))
            self.assertEqual(list(form.members), read_here(content))

    def test_hostile_archives(self) -> None:
        tar = tarred(('a.pkl', MAIN), ('b.pkl', OTHER))
        for why, content in (
            ('two members are named', tarred(('a.pkl', MAIN), ('a.pkl', HOSTILE))),
            ('two members are named', tarred(('a', MAIN), ('a/', b''))),
            ('the name', tarred(('../a.pkl', MAIN))),
            ('the name', tarred(('/a.pkl', MAIN))),
            ('the sum of a header', changed(tar, 0, b'b')),
            ('no two blocks of zeros', summed(tar, 124, b'%011o\0' % (len(tar) - BLOCK))),
            ('padding that is not zeros', summed(tar, 124, b'%011o\0' % 1)),
            ('bytes stand behind its end', tar + HOSTILE.ljust(BLOCK, b'\0')),
        ):
            with self.subTest(why):
                told = self.compared(content)
                assert isinstance(told, str)
                self.assertIn(why, told)

    def test_changed_archives(self) -> None:
        chance, taken, named = random.Random(79), 0, 0
        given = honest()
        for _ in range(CHANGES):
            content = mutant(chance, chance.choice(given))
            form, found = self.compared(content), found_in(content)
            taken += not isinstance(form, str)
            if self.by_program(content) is not None:
                named += 1
                assert isinstance(form, Form)
                self.assertEqual([(member.name, content[member.offset:member.offset + member.size]) for member in form.members], found, content)
        self.assertGreater(min(taken, named), CHANGES // 100)

    def test_without_a_library(self) -> None:
        """The program is started then."""
        for content in (honest()[0], of_other_forms()[0], honest()[0] + b'x'):
            wanted = answer_of(content)
            with unittest.mock.patch.object(library, '_library', return_value=None):
                self.assertEqual(answer_of(content), wanted)

    def test_more_around_than_is_held(self) -> None:
        content = tarred(*((f'{number}.bin', bytes(500)) for number in range(100)))
        with unittest.mock.patch('picklestep.scan.canonical.outlines.MOST_AROUND', 10_000):
            self.assertIsNone(tars._by_program(BytesBlob(content), None))
            self.assertIsInstance(answer_of(content), Form)

    def test_an_archive_of_two_kinds(self) -> None:
        """The program names the members of the tar archive. zipfile finds the hostile one, and it is looked at."""
        hidden = Made(b'a.pkl', HOSTILE)
        body = local(hidden)
        directory = entry(hidden, 0)
        inner = body + directory + closing(1, len(directory), len(body))
        tar = tarred(('a', inner), mtime=1.5)
        both = summed(tar, 0, b'PK\1\2' + struct.pack('<HHHHHHIIIHHHHHII', *[0] * 9, 5, 400, 41, 0, 0, 0, 0)[:42])
        self.assertEqual(found_in(both), [('a', inner)])
        self.assertIsNone(archives._named(BytesBlob(both), None))
        result = look(str(self.file('a.zip', both)))
        self.assertIn('readers take it for zip or tar', notes_of(result))
        self.assertIn('a.pkl', places_of(result))
        zipped = local(Made(b'a.bin', bytes(257 - 35) + b'ustar' + bytes(300)))
        directory = entry(Made(b'a.bin', bytes(257 - 35) + b'ustar' + bytes(300)), 0)
        self.assertIsNone(tars._by_program(BytesBlob(zipped + directory + closing(1, len(directory), len(zipped))), None))


@unittest.skipUnless(library.is_in_process() and hasattr(os, 'pread'), 'no library reads the memory of this process')
class Large(ScanCase):
    """Archives of which the headers alone are read."""

    def test_few_bytes_are_read(self) -> None:
        path, size, count = self.folder / 'a.tar', 4_000_000, 100
        with open(path, 'wb') as file:
            for number in range(count):
                info = tarfile.TarInfo(f'{number}.bin')
                info.size = size
                file.write(info.tobuf())
                file.seek(-(-size // BLOCK) * BLOCK, os.SEEK_CUR)
            file.truncate(-(-(file.tell() + 2 * BLOCK) // tarfile.RECORDSIZE) * tarfile.RECORDSIZE)
        read, real = 0, os.pread

        def pread(descriptor: int, wanted: int, offset: int) -> bytes:
            nonlocal read
            read += wanted
            return real(descriptor, wanted, offset)
        with open(path, 'rb') as file:
            blob = FileBlob(file, path.stat().st_size)
            with unittest.mock.patch('os.pread', pread):
                members = tars._by_program(blob, Budget(Limits()))
            self.assertEqual(members, tars._read(blob, None))
        assert members is not None
        self.assertEqual([member.size for member in members], [size] * count)
        self.assertGreater(blob.size, 400_000_000)
        self.assertLess(read, 300_000)

    def test_what_a_header_tells_is_not_believed(self) -> None:
        """Zeros stand where a walk over the headers finds content. Where the program finds none there, its answer does not count."""
        content = tarred(('a', LARGE), ('b', MAIN))
        blob = BytesBlob(content)
        with unittest.mock.patch.object(library, 'MOST_BYTES', 0):
            for ranges in ([(BLOCK + 10, BLOCK + len(LARGE) + 1)], [(BLOCK - 12, 2 * BLOCK)], [(len(content) - BLOCK, len(content))]):
                with unittest.mock.patch.object(tars, '_contents', return_value=ranges):
                    try:
                        self.assertIsNone(tars._by_program(blob, None))
                    except NotCanonical as reason:
                        self.assertIn('does not say which members', str(reason))


class Whole(ScanCase):
    """The verdict of the gate about a file, beside that of its parts."""

    def judged(self, name: str, content: bytes) -> Tuple[List[str], List[str]]:
        """The marks of a file by a list: those that are put together of its parts, and what the gate says of it as a whole."""
        looks = looks_at(Judge(Names(NAMES)), self.file(name, content))
        return [look.text for look in looks if look.rule != 'not-passed'], [look.text for look in looks if look.rule == 'not-passed']

    def kinds(self, name: str, content: bytes) -> List[str]:
        result = look(str(self.file(name, content)), Options(lists=Judge(Names(NAMES)).lists()))
        return [verdict.kind for verdict in result.verdicts]

    def test_what_passes(self) -> None:
        for form in FORMATS:
            tar = tarred(('m/', b''), ('m/a.pkl', MAIN), ('b.pkl', OTHER), ('n.bin', LARGE), form=form)
            for name, content in (('a.tar', tar), ('a.tar.gz', gzip.compress(tar)), ('a.tgz', gzip.compress(tar))):
                with self.subTest(name, form=form):
                    self.assertEqual(self.judged(name, content), ([], []))
                    self.assertEqual(self.kinds(name, content), ['passes'])
        self.assertEqual(self.kinds('a', zlib.compress(tar)), ['passes'])

    def test_what_the_parts_do_not_tell(self) -> None:
        """The gate says why a file does not pass in which each pickle passes."""
        for told, tar in (
            ('two names for one file', tarred(('a.pkl', MAIN), ('A.pkl', OTHER))),
            ('two names for one file', tarred(('a.pkl', MAIN), ('./a.pkl', OTHER))),
            ('a loader may take the archive itself', tarred(('code/a.py', b'import os\n\n'), ('a.pkl', OTHER))),
            ("'notes.txt': ", tarred(('a.pkl', OTHER), ('notes.txt', b'cmyapp\nno name\n'))),
            ("'b.tar': an archive itself", tarred(('a.pkl', OTHER), ('b.tar', tarred(('b', MAIN))))),
            ("'a.pkl': not in form: ", tarred(('a.pkl', OTHER * 2))),
        ):
            for name, content in (('a.tar', tar), ('a.tar.gz', gzip.compress(tar))):
                with self.subTest(told, name=name):
                    parts, whole = self.judged(name, content)
                    self.assertEqual(parts, [])
                    self.assertEqual(len(whole), 1)
                    self.assertIn(told.lstrip("'"), whole[0])
                    self.assertEqual('(gzip)' in whole[0], name == 'a.tar.gz')

    def test_what_they_tell_is_told_once(self) -> None:
        tar = tarred(('a.pkl', MAIN), ('b.pkl', HOSTILE))
        for name, content in (('a.tar', tar), ('a.tar.gz', gzip.compress(tar))):
            parts, whole = self.judged(name, content)
            self.assertEqual((len(parts), whole), (1, []), name)

    def test_of_forms_that_it_does_not_know_the_gate_says_nothing(self) -> None:
        for tar in of_other_forms():
            for name, content in (('a.tar', tar), ('a.tar.gz', gzip.compress(tar))):
                self.assertEqual(self.kinds(name, content), [])
                self.assertEqual(self.judged(name, content), ([], []))

    def test_a_hostile_form_is_marked_as_before(self) -> None:
        tar = tarred(('a.pkl', OTHER))
        for content in (tar + HOSTILE.ljust(BLOCK, b'\0'), changed(tar, 2 * BLOCK + 8, HOSTILE)):
            parts, whole = self.judged('a.tar', content)
            self.assertTrue(any('not in the form that tarfile' in text for text in parts), parts)
            self.assertEqual(whole, [])


if __name__ == '__main__':
    unittest.main()
