"""Zip archives stand on what the program says: which members they have, and whether a file as a whole passes a list."""

from __future__ import annotations

import collections
import gzip
import io
import os
import pickle
import random
import re
import struct
import unittest
import unittest.mock
import zipfile
import zlib
from typing import Dict, List, Optional, Tuple, Union

import picklestep
from evasions import tries, with_hole, wrapper
from picklestep import library
from picklestep.scan import Judge, Limits, Options, look, passing
from picklestep.scan.blobs import Blob, Budget, BytesBlob, FileBlob
from picklestep.scan.canonical import Form, NotCanonical, archives, outlines, zips
from picklestep.scan.names import Names
from picklestep.scan.results import from_json, to_json
from picklestep.verdicts import members_of
from scan_support import HOSTILE, MODELS, Made, ScanCase, closing, entry, local, looks_at, notes_of, zip_of
from test_large_archives import Record, state_of, write_as_torch
from test_scan_honest import changed

# Changes in a run of the tests, a second or two. More are tried by hand: CHANGES=20000 python3 test_scan_members.py
CHANGES = int(os.environ.get('CHANGES', '1000' if library.is_in_process() else '50'))
# What may be written as the tests write torch's tensors.
OF_TORCH = ('collections.OrderedDict: call made-fill made-state', 'torch._utils._rebuild_tensor_v2: call made-state', 'torch.*Storage:', 'persistent')
ORDERED = pickle.dumps(collections.OrderedDict(a=1), 2)
Answer = Union[Form, str]
# Why an archive is refused that has the form: torch reads it otherwise.
OF_TORCH_ALONE = re.compile('but for case|multiple of 64|not in the folder')


def by_zipfile(method: int, members: Dict[str, bytes]) -> bytes:
    held = io.BytesIO()
    with zipfile.ZipFile(held, 'w', method) as archive:
        for name, content in members.items():
            archive.writestr(name, content)
    return held.getvalue()


def honest() -> Dict[str, bytes]:
    """Archives by usual writers, and some that the program does not know."""
    members = {'a.txt': b'text', 'sub/m.pkl': ORDERED, 'été.txt': b'x', 'empty': b'', 'large.bin': bytes(9000)}
    made = {f'method {method}': by_zipfile(method, members) for method in (0, 8, 12, 14)}
    made.update({path.name: path.read_bytes() for path in sorted(MODELS.iterdir()) if path.read_bytes()[:4] == b'PK\3\4'})
    folder = by_zipfile(0, {'folder/': b'', 'folder/a.pkl': ORDERED})
    git = by_zipfile(8, {'a.txt': b'text'})[:-2] + b'\x28\0' + b'0123456789' * 4
    return {**made, 'folder': folder, 'git': git, 'none': by_zipfile(0, {}), 'bytes': zip_of([Made(b'a', b'text'), Made(b'b', HOSTILE, 8)])}


def hostile() -> List[bytes]:
    return [each.content for each in tries('mark') if each.content.startswith((b'PK\3\4', b'PK\5\6'))]


def answer_of(verify: object, content: bytes) -> Answer:
    """The members, or why the archive is in another form, which readers may agree about all the same."""
    try:
        form: Form = verify(BytesBlob(content))  # type: ignore[operator]
        return form.agreed or form
    except NotCanonical as reason:
        return str(reason)
    except struct.error:
        return 'cut'


def with_number(chance: random.Random, content: bytes) -> bytes:
    """The archive with another number in the header of a member, in its entry or at the end, now and then."""
    made = bytearray(content)
    rows = archives._rows(BytesBlob(content))
    if rows and chance.randrange(2):
        row = chance.choice(rows)
        behind = row.place + 30 + row.length + row.packed
        end = content.rindex(b'PK\1\2')
        at = chance.choice([row.place + offset for offset in (4, 6, 8, 14, 18, 22, 26, 28, 34 + row.length)] + [behind + 4, behind + 8, behind + 12]
                           + [end + offset for offset in (6, 8, 10, 16, 20, 24, 28, 30, 32, 38, 42)] + [len(content) - back for back in (6, 10, 12, 14, 34, 42)])
        value = int.from_bytes(made[at:at + 4], 'little')
        made[at:at + 4] = chance.choice((0, 0xFFFFFFFF, value + 1, value - 1, value ^ 1 << chance.randrange(32))).to_bytes(8, 'little', signed=True)[:4]
    return bytes(made)


class Members(ScanCase):
    """The members that the program names, beside those of the reader that was asked before."""

    def compared(self, content: bytes) -> Answer:
        """The answer of the program. It says the same of an outline; and the reader of larger archives takes what it takes."""
        named, before = answer_of(archives.verify, content), answer_of(zips.verify, content)
        with unittest.mock.patch.object(library, 'MOST_BYTES', 0):
            outlined = answer_of(archives.verify, content)
        for other in (before, outlined):
            if isinstance(named, str):
                self.assertTrue(isinstance(other, str) or OF_TORCH_ALONE.search(named), content)
            else:
                self.assertEqual(other, named, content)
        return named

    def test_honest_archives(self) -> None:
        for name, content in honest().items():
            with self.subTest(name):
                named = self.compared(content)
                self.assertEqual(isinstance(named, str), name in ('method 12', 'method 14', 'git'), named)
                if not isinstance(named, str):
                    with zipfile.ZipFile(io.BytesIO(content)) as archive:
                        told = [(each.filename, each.file_size, each.compress_size, each.CRC) for each in archive.infolist()]
                    self.assertEqual([(member.name, member.unpacked, member.size, member.checksum) for member in named.members], told)

    def test_hostile_archives(self) -> None:
        contents = hostile()
        self.assertGreater(len(contents), 10)
        for content in contents:
            self.compared(content)

    def test_changed_archives(self) -> None:
        chance, taken = random.Random(79), 0
        contents = [content for content in [*honest().values(), *hostile()] if len(content) < 60_000]
        for _ in range(CHANGES):
            taken += not isinstance(self.compared(changed(chance, with_number(chance, chance.choice(contents)), chance.choice(contents))), str)
        self.assertGreater(taken, CHANGES // 50)

    def test_without_a_library(self) -> None:
        """The program is started then; of a large archive the other reader is asked."""
        for content in (by_zipfile(8, {'a.pkl': ORDERED}), by_zipfile(0, {'a.bin': bytes(70_000)}), by_zipfile(0, {'a': b'x'}) + b'y'):
            wanted = answer_of(archives.verify, content)
            with unittest.mock.patch.object(library, '_library', return_value=None):
                self.assertEqual(answer_of(archives.verify, content), wanted)
                with unittest.mock.patch.object(outlines, '_MOST_READ', 0):
                    self.assertEqual(answer_of(archives.verify, content), answer_of(zips.verify, content))

    def test_a_hole_hides_nothing(self) -> None:
        """A reader of the directory gets one member, and one in sequence another. So the program names none, and each reader here says why."""
        content = with_hole(by_zipfile(0, {'evil.pkl': HOSTILE}))
        with zipfile.ZipFile(io.BytesIO(content)) as archive:
            self.assertEqual(archive.namelist(), ['a.bin'])
            self.assertIn(HOSTILE, archive.read('a.bin'))
        path, why = self.file('hole.zip', content), 'sizes that differ'
        self.assertIn(why, self.compared(content))
        with self.assertRaisesRegex(picklestep.NotOpened, f'^not in form: 0: {why}$'):
            picklestep.members(path)
        self.assertEqual(picklestep.gate(content, names=['**']).reason, why)
        looks = looks_at(Judge(Names(['**'])), path)
        self.assertTrue(any(why in each.text for each in looks), looks)
        found = picklestep.pickles_in(path)
        self.assertTrue(any(why in line for line in found.missed), (found, found.missed))

    def test_torch_takes_two_names_for_one(self) -> None:
        for names in ((b'a/data.pkl', b'a/DATA.pkl'), (b'a/data.pkl', b'A/data.pkl')):
            told = answer_of(archives.verify, zip_of([Made(name, b'N.') for name in names]))
            self.assertIn('but for case', told)
        self.assertIsInstance(answer_of(archives.verify, zip_of([Made(b'a.txt', b'x'), Made(b'A.txt', b'y')])), Form)


@unittest.skipUnless(library.is_in_process() and hasattr(os, 'pread'), 'no library reads the memory of this process')
class Large(ScanCase):
    """Archives of which the headers alone are read."""

    def archive(self, count: int, size: int) -> FileBlob:
        path = self.folder / 'model.pt'
        numbers = [Record(b'archive/data/%d' % key, b'', size) for key in range(count)]
        write_as_torch(path, [Record(b'archive/data.pkl', state_of([size // 4] * count)), *numbers, Record(b'archive/version', b'3\n')])
        file = open(path, 'rb')
        self.addCleanup(file.close)
        return FileBlob(file, path.stat().st_size)

    def read(self, blob: Blob, budget: Optional[Budget] = None) -> Tuple[Form, int]:
        """The form, and how many bytes of the file were read."""
        count, real = 0, os.pread

        def pread(descriptor: int, size: int, offset: int) -> bytes:
            nonlocal count
            count += size
            return real(descriptor, size, offset)
        with unittest.mock.patch('os.pread', pread):
            return archives.verify(blob, budget), count

    def test_few_bytes_are_read(self) -> None:
        blob = self.archive(200, 4_000_000)
        form, count = self.read(blob, Budget(Limits()))
        self.assertGreater(blob.size, 800_000_000)
        self.assertLess(count, 300_000)
        self.assertEqual(form, zips.verify(blob))
        self.assertTrue(form.is_torch)

    def test_above_the_limit_of_the_program(self) -> None:
        blob = self.archive(3, 400_000_000)
        with unittest.mock.patch.object(library, 'members', side_effect=AssertionError):
            self.assertEqual(self.read(blob)[0], zips.verify(blob))

    def test_more_around_than_is_held(self) -> None:
        content = by_zipfile(0, {f'{number}.bin': bytes(500) for number in range(300)})
        with unittest.mock.patch.object(outlines, 'MOST_AROUND', 100_000):
            self.assertIn('are not the content of a member', answer_of(archives.verify, content))

    def test_what_a_directory_tells_is_not_believed(self) -> None:
        """Zeros stand where it says that content is. Where a header is there, the archive is none in the form; nor is one whose content begins later."""
        one, other = Made(b'a', bytes(70_000)), Made(b'b', HOSTILE)
        body = local(one) + local(other)
        for told in (Made(b'a', bytes(70_000 + len(local(other)))), Made(b'a', bytes(60_000))):
            directory = entry(told, 0) + entry(other, len(local(one)))
            content = body + directory + closing(2, len(directory), len(body))
            self.assertIsInstance(answer_of(archives.verify, content), str)
        members = library.members(zip_of([one, other]))
        assert members is not None
        for ranges, are in (([(40, 60_000)], True), ([(40, 70_031)], True), ([(40, 70_032)], False), ([(30, 60_000)], False), ([(40, 50), (60, 70)], False),
                            ([(40, 50), (70_062, 70_063)], True), ([], True)):
            self.assertEqual(outlines._are_contents(ranges, members_of(members)[0]), are, ranges)


class Whole(ScanCase):
    """The verdict of the gate about a file, beside that of its parts."""

    def judged(self, name: str, content: bytes, *lines: str) -> Tuple[List[str], List[str]]:
        """The marks of a file by a list: those that are put together of its parts, and what the gate says of it as a whole."""
        judge = Judge(Names(list(lines)))
        looks = looks_at(judge, self.file(name, content))
        return [look.text for look in looks if look.rule != 'not-passed'], [look.text for look in looks if look.rule == 'not-passed']

    def test_what_passes(self) -> None:
        for name, content in (('a.pt', (MODELS / 'torch_state.pt').read_bytes()), ('a.zip', by_zipfile(8, {'a.pkl': ORDERED, 'b.bin': bytes(90_000)})),
                              ('a.pkl.gz', gzip.compress(ORDERED)), ('a.z', zlib.compress(ORDERED))):
            with self.subTest(name):
                self.assertEqual(self.judged(name, content, *OF_TORCH), ([], []))
                result = look(str(self.folder / name), Options(lists=Judge(Names(list(OF_TORCH))).lists()))
                self.assertEqual([verdict.kind for verdict in result.verdicts], ['passes'])
                self.assertEqual(from_json(to_json(result)), result)

    def test_what_the_parts_do_not_tell(self) -> None:
        """The gate says why a file does not pass in which each pickle passes."""
        state = bytearray((MODELS / 'torch_state.pt').read_bytes())
        numbers = next(member for member in zips.verify(BytesBlob(bytes(state))).members if '/data/' in member.name and member.size > 8)
        state[numbers.offset + 4] ^= 1
        arrays = wrapper(b'u1', 5)
        cases: Dict[str, Tuple[bytes, str]] = {
            'a checksum of numbers': (bytes(state), f'{numbers.name!r}: another checksum than is told'),
            'a text that leads to an import': (by_zipfile(0, {'a.pkl': ORDERED, 'notes.txt': b'cmyapp\nno name\n'}), "'notes.txt': "),
            'an archive in it': (by_zipfile(0, {'a.pkl': ORDERED, 'b.zip': by_zipfile(0, {'b.pkl': ORDERED})}), "'b.zip': an archive itself"),
            'two names': (zip_of([Made(b'a.pkl', ORDERED), Made(b'A.pkl', ORDERED)]), 'two names that differ in case alone'),
            'pickles in a row': (by_zipfile(0, {'a.pkl': ORDERED * 2}), "'a.pkl': not in form: "),
            'arrays of joblib': (by_zipfile(0, {'a.joblib': b'\x80\x04\x95' + struct.pack('<Q', len(arrays) - 2) + arrays[2:] + b'12345.'}), "'a.joblib': not in form: "),
        }
        lines = (*OF_TORCH, 'joblib.numpy_pickle.NumpyArrayWrapper', 'numpy.**')
        for name, (content, told) in cases.items():
            with self.subTest(name):
                parts, whole = self.judged('a.zip', content, *lines)
                self.assertEqual(parts, [])
                self.assertEqual(len(whole), 1, notes_of(look(str(self.folder / 'a.zip'))))
                self.assertIn(told, whole[0])

    def test_what_they_tell_is_told_once(self) -> None:
        parts, whole = self.judged('a.zip', by_zipfile(0, {'a.pkl': HOSTILE}), 'collections.OrderedDict')
        self.assertEqual((len(parts), whole), (1, []))
        parts, whole = self.judged('a.zip', by_zipfile(0, {'a.pkl': ORDERED}) + b'more', *OF_TORCH)
        self.assertEqual((sum('form' in text for text in parts), whole), (1, []))

    def test_what_is_not_asked_as_a_whole(self) -> None:
        """Arrays of joblib in a packed file are cut out; and a file above the bound is not read whole."""
        model = (MODELS / 'joblib_arrays_zlib.joblib').read_bytes()
        for name, content, most in (('a.joblib', model, passing.MOST_GATED), ('a.pkl', ORDERED, passing.MOST_GATED), ('a.zip', by_zipfile(0, {'a.pkl': ORDERED}), 100),
                                    ('b.zip', by_zipfile(8, {'a.pkl': ORDERED, 'b.bin': bytes(10_000)}), 9_000)):
            with self.subTest(name), unittest.mock.patch('picklestep.scan.looking.MOST_GATED', most):
                result = look(str(self.file(name, content)), Options(lists=Judge(Names(['**'])).lists()))
                self.assertEqual(result.verdicts, ())
                self.assertEqual(len(result.pickles), 1)

    def test_what_unpacks_to_much_is_asked_under_limits(self) -> None:
        """In this process an answer has no limit of time."""
        content = by_zipfile(8, {'a.pkl': ORDERED, 'b.bin': bytes(1 << 20)})
        self.assertLess(len(content), library.MOST_BYTES)
        lists = Judge(Names(list(OF_TORCH))).lists()
        real, asked = library.gate, []

        def gate(entries: bytes, given: bytes, *more: object) -> object:
            asked.append(given)
            return real(entries, given, *more)  # type: ignore[arg-type]
        with unittest.mock.patch.object(library, 'gate', gate):
            result = look(str(self.file('a.zip', content)), Options(lists=lists))
        self.assertNotIn(content, asked)
        self.assertEqual([verdict.kind for verdict in result.verdicts], ['passes'])

    def test_no_answer_is_noted(self) -> None:
        content = by_zipfile(0, {'a.pkl': ORDERED})
        lists = Judge(Names(list(OF_TORCH))).lists()
        with unittest.mock.patch('picklestep.scan.looking.verdicts_of_file', side_effect=passing.NotKnown('why')):
            result = look(str(self.file('a.zip', content)), Options(lists=lists))
        self.assertIn('! : whether it passes a list is not known: why', notes_of(result))

    def test_an_address_is_judged_by_itself(self) -> None:
        self.file('list.txt', b'collections.OrderedDict: call made-fill\n')
        self.file('a.zip', by_zipfile(0, {'a.pkl': ORDERED, 'b.zip': by_zipfile(0, {'b.pkl': ORDERED})}))
        self.assertEqual(self.scan('--allow', 'list.txt', 'a.zip').returncode, 1)
        self.assertEqual(self.scan('--allow', 'list.txt', 'a.zip > a.pkl').returncode, 0)


if __name__ == '__main__':
    unittest.main()
