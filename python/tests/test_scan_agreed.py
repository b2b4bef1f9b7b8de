"""Zip archives in forms that the program does not know: no mark where readers find the same members, and a mark where one of them may find others."""

from __future__ import annotations

import io
import os
import pickle
import random
import shutil
import struct
import subprocess
import unittest
import unittest.mock
import zipfile
import zlib
from typing import Any, Callable, Dict, List, Tuple

from picklestep.scan import Judge, Limits, look
from picklestep.scan.blobs import Budget, BytesBlob, PartMet
from picklestep.scan.canonical import Form, NotCanonical, agreed, archives
from picklestep.scan.names import Names
from picklestep.scan.zips import read_archive, unpacker_of
from scan_support import HOSTILE, Made, ScanCase, Unseekable, closing, entry, local, looks_at, names_of, notes_of, places_of, zip_of
from test_scan_honest import changed
from test_scan_members import with_number

# Changes in a run of the tests, a second or two. More are tried by hand: CHANGES=20000 python3 test_scan_agreed.py
CHANGES = int(os.environ.get('CHANGES', '1500'))
PLAIN = pickle.dumps({'a': [1, 2.5]}, 2)
# Times and owners as Info-ZIP, bsdtar, git and 7-Zip write them.
UNIX = struct.pack('<HHB3I', 0x5455, 13, 7, 1, 2, 3) + struct.pack('<HHBBIBI', 0x7875, 11, 1, 4, 0, 4, 0)
GIT = struct.pack('<HHBI', 0x5455, 5, 1, 1)
NTFS = struct.pack('<HHIHH', 0x000A, 32, 0, 1, 24) + bytes(24)
WHY = 'the gate does not know its form'
MARK = 'not in the form that torch, numpy, zipfile and Info-ZIP write'


def zipped(*members: Tuple[str, bytes], method: int = 8, extra: bytes = b'', comment: bytes = b'', is_stream: bool = False) -> bytes:
    """An archive that zipfile writes."""
    held: Any = Unseekable() if is_stream else io.BytesIO()
    with zipfile.ZipFile(held, 'w') as archive:
        for name, content in members:
            info = zipfile.ZipInfo(name)
            info.extra, info.compress_type, info.external_attr = extra, method, 0o40755 << 16 | 0x10 if name.endswith('/') else 0o100644 << 16
            archive.writestr(info, content)
        archive.comment = comment
    return bytes(held.written) if is_stream else bytes(held.getvalue())


MEMBERS = (('sub/', b''), ('sub/m.pkl', PLAIN), ('a.txt', b'text' * 50), ('empty', b''))


def honest() -> Dict[str, bytes]:
    """Archives that the program does not know."""
    made = {'folder': zipped(*MEMBERS), 'bzip2': zipped(*MEMBERS, method=12), 'lzma': zipped(*MEMBERS, method=14), 'bsdtar': zipped(*MEMBERS, extra=UNIX, is_stream=True),
            '7-zip': zipped(*MEMBERS[1:], extra=NTFS), 'git': zipped(*MEMBERS[1:], extra=GIT, comment=b'0123456789abcdef' * 2 + b'01234567'),
            'info-zip': zipped(*MEMBERS[1:], ('sub/xx.txt', b'x'), method=0).replace(b'sub/xx.txt', b'sub/\xc3\xa9.txt'),
            'a name in no UTF-8': zipped(('\xe9.pkl', PLAIN)).replace(b'\xc3\xa9.pkl', b'x\x82.pkl')}
    made['a name in no UTF-8'] = flagged(made['a name in no UTF-8'], 0)
    return made


def flagged(content: bytes, flags: int) -> bytes:
    """The archive of one member with other flags in both headers."""
    made, directory = bytearray(content), content.rindex(b'PK\1\2')
    made[6:8] = made[directory + 8:directory + 10] = struct.pack('<H', flags)
    return bytes(made)


def put(content: bytes, at: int, new: bytes) -> bytes:
    return content[:at] + new + content[at + len(new):]


def hostile() -> Dict[str, bytes]:
    """Archives in which one reader finds other members, or other bytes, than another one; or might."""
    odd = zipped(('a.pkl', PLAIN), ('b.pkl', PLAIN), extra=GIT)
    end, row, second = odd.rindex(b'PK\5\6'), odd.index(b'PK\1\2'), odd.index(b'PK\3\4', 4)
    stream = zipped(('a.pkl', PLAIN), extra=GIT, is_stream=True)
    behind, directory = stream.index(b'PK\7\x08'), stream.index(b'PK\1\2')
    hidden, comment = Made(b'c.pkl', HOSTILE), zipped(('a.pkl', PLAIN), comment=b'c' * 40)
    inner = zip_of([hidden])
    one = Made(b'a.pkl', PLAIN)
    between = local(one) + local(hidden)
    stored = b'PK\7\x08' + struct.pack('<III', 1, 0, 0)
    described = Made(b'a.pkl', stored + PLAIN, flags=8, after=b'PK\7\x08' + struct.pack('<III', *Made(b'', stored + PLAIN).sums()))
    packed = zlib.compressobj(0, zlib.DEFLATED, -15)
    block = b'PK\7\x08' + struct.pack('<III', 0, 5, 0)
    data = packed.compress(block + PLAIN) + packed.flush()
    sums = (zlib.crc32(block + PLAIN), len(data), len(block + PLAIN))
    looks_described = struct.pack('<4sHHHHHIIIHH', b'PK\3\4', 20, 8, 8, 0, 0, 0, 0, 0, 5, 0) + b'a.pkl' + data + b'PK\7\x08' + struct.pack('<III', *sums)
    told = struct.pack('<4sHHHHHHIIIHHHHHII', b'PK\1\2', 20, 20, 8, 8, 0, 0, *sums, 5, 0, 0, 0, 0, 0, 0) + b'a.pkl'
    path = struct.pack('<HHBI', 0x7075, 10, 1, zlib.crc32(b'a.pkl')) + b'b.pkl'
    return {
        'bytes before': b'more' + odd, 'bytes behind': odd + b'more', 'a comment that closes another archive': comment[:-42] + struct.pack('<H', len(inner)) + inner,
        'a comment of bytes': comment[:-40] + bytes(40), 'a comment that is cut': comment[:-1], 'bytes before the directory': moved(odd, row, b'more'),
        'a hidden member': between + entry(one, 0, b'') + closing(1, 51, len(between)), 'two of one name': odd.replace(b'b.pkl', b'a.pkl'),
        'but for case': odd.replace(b'b.pkl', b'A.pkl'), 'another name before the data': put(odd, 30, b'c.pkl'), 'another method before the data': put(odd, 8, b'\0\0'),
        'another size before the data': put(odd, 18, struct.pack('<I', 5)), 'another place': put(odd, row + 42, struct.pack('<I', second)),
        'fewer entries': put(odd, end + 8, b'\1\0\1\0'), 'an attribute of folders': put(odd, row + 38, b'\x10\0\0\0'), 'encrypted': put(put(odd, 6, b'\1\0'), row + 8, b'\1\0'),
        'an extra field of another kind': odd.replace(GIT, b'XX' + GIT[2:]), 'a name in an extra field': zipped(('a.pkl', PLAIN), extra=path),
        'an extra field that is cut': odd.replace(GIT, GIT[:2] + b'\xff\0' + GIT[4:]), 'one name in two codings': codings(),
        'another record behind the data': put(stream, behind + 8, b'\1\0\0\0'), 'no record behind the data': put(stream, behind, b'PK\0\0'),
        'sizes before and behind the data': put(stream, 18, b'\1\0\0\0'), 'data whose end is not known': local(described) + entry(described, 0) + closing(1, 51, len(local(described)), b'c'),
        'data that look like their end': looks_described + told + closing(1, len(told), len(looks_described), b'c'),
        'a folder with content': zipped(('a/', b'')).replace(b'\3\0', b'\1\0'), 'a file that is named as a folder': zip_of([Made(b'a.pkl/', HOSTILE)], comment=b'c'),
        'a long record': put(directory_at(odd), end + 20, b'PK\6\7')[:end + 42], 'a cut stream': put(stream, directory + 20, struct.pack('<I', 3)),
        'up': zipped(('../a.pkl', PLAIN), extra=GIT), 'root': zipped(('/a.pkl', PLAIN), extra=GIT),
        'but for composition': zipped(('\xe9.pkl', PLAIN), ('e\u0301.pkl', HOSTILE), extra=GIT), 'but for folded case': zipped(('\u017f.pkl', PLAIN), ('s.pkl', HOSTILE), extra=GIT),
        'a file in a file': zipped(('a', PLAIN), ('a/b.pkl', HOSTILE), extra=GIT),
    }


def moved(content: bytes, at: int, more: bytes) -> bytes:
    """Bytes put in before the directory, whose place the closing record tells."""
    end = content.rindex(b'PK\5\6')
    return content[:at] + more + content[at:end + 16] + struct.pack('<I', at + len(more)) + content[end + 20:]


def directory_at(content: bytes) -> bytes:
    """The same with room before the closing record."""
    end = content.rindex(b'PK\5\6')
    return content[:end] + bytes(20) + content[end:]


def codings() -> bytes:
    """Two members whose names are one for readers that take names which are not marked for UTF-8."""
    two = [Made(b'\xc3\xa9.pkl', PLAIN), Made(b'\xc3\xa9.pkl', HOSTILE, flags=0x800)]
    return zip_of(two)


def read_strictly(content: bytes) -> List[Tuple[str, bytes]]:
    """The members, unpacked. Raises NotCanonical."""
    blob, found = BytesBlob(content), []
    for member in archives.verify(blob).members:
        start = unpacker_of(blob, member.method, member.offset)
        assert start is not None
        unpacking = start(blob.part(member.offset, member.size))
        held = b''.join(unpacking.pieces())
        if unpacking.trouble or (unpacking.end, len(held), zlib.crc32(held)) != (member.size, member.unpacked, member.checksum):
            raise NotCanonical('the content differs')
        found.append((member.name, held))
    return found


class Agreed(ScanCase):
    """What is marked, and what is not."""

    def verified(self, content: bytes) -> Form:
        return archives.verify(BytesBlob(content))

    def test_no_mark_where_readers_agree(self) -> None:
        for name, content in honest().items():
            with self.subTest(name):
                form = self.verified(content)
                self.assertTrue(form.agreed)
                with zipfile.ZipFile(io.BytesIO(content)) as archive:
                    told = [(each.filename, archive.read(each)) for each in archive.infolist()]
                self.assertEqual(read_strictly(content), told)
                result = look(str(self.file('a.zip', content)))
                self.assertIn(f'  : {WHY} (', notes_of(result))
                self.assertFalse(any(note.is_marked for note in result.notes), notes_of(result))
                self.assertEqual((len(result.pickles), list(Judge().looks(result))), (1, []))

    def test_by_a_list_it_does_not_pass(self) -> None:
        """The gate does not let it pass."""
        for name, content in honest().items():
            with self.subTest(name):
                looks = looks_at(Judge(Names(['collections.OrderedDict'])), self.file('a.zip', content))
                self.assertEqual([look.rule for look in looks], ['not-passed'])
                self.assertIn('not in form: ', looks[0].text)

    def test_a_mark_where_one_may_find_others(self) -> None:
        for name, content in hostile().items():
            with self.subTest(name):
                with self.assertRaises(NotCanonical):
                    self.verified(content)
                result = look(str(self.file('a.zip', content)))
                self.assertIn(MARK, notes_of(result))
                self.assertNotIn(WHY, notes_of(result))

    def test_hostile_members_are_found(self) -> None:
        content = zipped(('a.pkl', PLAIN), ('b.pkl', HOSTILE), method=12)
        result = look(str(self.file('a.zip', content)))
        self.assertEqual((names_of(result), places_of(result)), (['posix.system'], ['a.pkl', 'b.pkl']))

    def test_content_that_is_not_as_told(self) -> None:
        """The readers find the members, and what one of them holds is marked."""
        content = zipped(('a.pkl', PLAIN), method=0, extra=GIT)
        self.assertIn('the checksum of \'a.pkl\' is wrong', notes_of(look(str(self.file('a.zip', content.replace(PLAIN, PLAIN.replace(b'a', b'b')))))))

    def test_changed_archives(self) -> None:
        """Of each that is taken, zipfile gives these contents, or raises; and no byte of it belongs to no member."""
        chance, taken = random.Random(79), 0
        contents = list(honest().values())
        others = contents + list(hostile().values())
        for _ in range(CHANGES):
            content = with_number(chance, chance.choice(contents))
            content = changed(chance, content, chance.choice(others)) if chance.randrange(2) else content
            try:
                mine, form = read_strictly(content), self.verified(content)
            except NotCanonical:
                continue
            taken += bool(form.agreed)
            try:
                with zipfile.ZipFile(io.BytesIO(content)) as archive:
                    theirs = [(each.filename, archive.read(each)) for each in archive.infolist()]
            except Exception:
                theirs = mine  # (it gets nothing)
            self.assertEqual(mine, theirs, content)
            loose, end = read_archive(BytesBlob(content), 100), content.rindex(b'PK\5\6') + 22
            self.assertEqual(([gap for gap in loose.gaps if gap != (end, len(content))], loose.odd, [each.odd for each in loose.entries]), ([], (), [()] * len(mine)), content)
        self.assertGreater(taken, CHANGES // 50)

    @unittest.skipUnless(shutil.which('bsdtar'), 'bsdtar is not there')
    def test_a_reader_in_sequence(self) -> None:
        """bsdtar reads a pipe from header to header. It gives the same contents, or raises at one of them."""
        chance, contents, taken = random.Random(80), list(honest().values()), 0
        while taken < CHANGES // 15:
            content = chance.choice(contents)
            content = with_number(chance, changed(chance, content, chance.choice(contents)) if chance.randrange(2) else content)
            try:
                mine = b''.join(held for _, held in read_strictly(content))
            except NotCanonical:
                continue
            taken += 1
            run = subprocess.run(['bsdtar', '-xOf', '-'], input=content, stdout=subprocess.PIPE, stderr=subprocess.DEVNULL, check=False)
            self.assertEqual(run.stdout, mine[:len(run.stdout)], content)
            self.assertTrue(run.returncode or run.stdout == mine, content)

    def test_limits(self) -> None:
        """A stream that unpacks to more than is told is no bomb; and where there is too little time the archive is marked."""
        bomb = zipped(('a.bin', bytes(10_000_000)), extra=GIT, is_stream=True)
        self.assertTrue(self.verified(bomb).agreed)
        lie = bytearray(bomb)
        for at in (bomb.index(b'PK\7\x08') + 12, bomb.rindex(b'PK\1\2') + 24):
            lie[at:at + 4] = struct.pack('<I', 10)
        real, made = zlib.decompressobj, []

        def counted(bits: int) -> Any:
            inner = real(bits)
            give: Callable[..., bytes] = lambda *more: made.append(inner.decompress(*more)) or made[-1]  # type: ignore[func-returns-value]
            return unittest.mock.Mock(wraps=inner, eof=False, unused_data=b'', unconsumed_tail=b'', decompress=give)
        with unittest.mock.patch.object(agreed.zlib, 'decompressobj', counted), self.assertRaises(NotCanonical):
            self.verified(bytes(lie))
        self.assertLess(sum(map(len, made)), 1 << 20)
        budget = Budget(Limits())
        with unittest.mock.patch.object(budget, 'spend', side_effect=PartMet('too little time')), self.assertRaises(NotCanonical):
            archives.verify(BytesBlob(bomb), budget)


if __name__ == '__main__':
    unittest.main()
