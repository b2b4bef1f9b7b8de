"""Pickles behind a few bytes or as text: also in what is compressed, in values, where they are long, and behind others."""

from __future__ import annotations

import base64
import gzip
import io
import lzma
import time
import unittest
import zipfile
import zlib
from typing import Dict, List

from picklestep.scan import look
from picklestep.scan.stores.early import CUT
from scan_support import HOSTILE, ScanCase, names_of, notes_of

# The same call as `HOSTILE`, of protocol 4.
OF_FOUR = b'\x80\x04\x8c\x05posix\x8c\x06system\x93\x8c\x02id\x85R.'
LONG = b'hdr!]' + b'N0' * 11_000 + HOSTILE
SYSTEM = 'posix.system'


def in_json(content: bytes) -> bytes:
    """JSON with a text that stands for these bytes."""
    return b'{"id": 1, "body": "%b"}' % base64.b64encode(content)


HOLDING: Dict[str, bytes] = {
    'sign, protocol 0': b'hdr!' + HOSTILE, 'sign, protocol 4': b'hdr!' + OF_FOUR, 'time': b'\x12\x34\x56\x07' + OF_FOUR,
    'JSON, protocol 0': in_json(HOSTILE), 'JSON, protocol 4': in_json(OF_FOUR), 'base64': base64.b64encode(HOSTILE),
    'sign, zlib': b'gz:' + zlib.compress(HOSTILE),
}


def deflated_member(content: bytes) -> bytes:
    """An archive with one member."""
    held = io.BytesIO()
    with zipfile.ZipFile(held, 'w', zipfile.ZIP_DEFLATED) as archive:
        archive.writestr('cache.bin', content)
    return held.getvalue()


class Behind(ScanCase):
    """What is found, and what is told."""

    def of_value(self, content: bytes) -> List[str]:
        """All that a value of a table imports."""
        return names_of(look(str(self.table_with(content))))

    def test_in_compressed_files(self) -> None:
        packers = {'plain': bytes, 'gz': gzip.compress, 'xz': lzma.compress, 'zlib': zlib.compress, 'zip': deflated_member}
        for held, content in HOLDING.items():
            for name, packer in packers.items():
                with self.subTest(held, name=name):
                    self.assertEqual(names_of(self.look(f'cache.{name}', packer(content))), [SYSTEM])

    def test_in_values(self) -> None:
        for content in (gzip.compress(b'hdr!' + HOSTILE), b'hdr!' + zlib.compress(b'hdr!' + OF_FOUR), b'hdr!' + zlib.compress(b'hdr!' + HOSTILE),
                        b'\1' * 40 + zlib.compress(in_json(HOSTILE)), b'hdr!' + HOSTILE, LONG):
            with self.subTest(content[:20]):
                self.assertEqual(self.of_value(content), [SYSTEM])

    def test_numbers_of_copyreg(self) -> None:
        for content in (b'hdr!\x82\x05)R.', b'\1' * 40 + b'\x83\x05\0\x8c\x02id\x85R.', b'hdr!\x84\5\0\0\0(X\2\0\0\0idt\x81.' + b'\xff' * 90):
            with self.subTest(content):
                self.assertEqual(names_of(self.look('a.bin', content)), ['ext 5'])
                self.assertEqual(self.of_value(content), ['ext 5'])

    def test_long_ones(self) -> None:
        argument = (9 << 20).to_bytes(4, 'little') + b'a' * (9 << 20)
        for content in (LONG, b'hdr!(X' + argument + b'0' + HOSTILE, b'hdr!(V' + b'a' * (9 << 20) + b'\n0' + HOSTILE):
            with self.subTest(content[:20]):
                self.assertIn(SYSTEM, names_of(self.look('long.bin', content)))

    def test_longer_ones_are_told(self) -> None:
        for content in (b'hdr!]' + b'N0' * 500_000 + HOSTILE, b'hdr!(' + (b'X\0\0\x10\0' + b'a' * (1 << 20) + b'0') * 20 + HOSTILE):
            with self.subTest(content[:20]):
                result = self.look('long.bin', content)
                self.assertTrue(CUT in notes_of(result) or SYSTEM in names_of(result))

    def test_behind_others(self) -> None:
        for count in (4, 9, 10, 30):
            with self.subTest(count):
                content = b'\0' + b'cre\nX\n)R\xff' * count + HOSTILE
                self.assertEqual(names_of(self.look('several.bin', content)).count(SYSTEM), 1)
                self.assertEqual(self.of_value(content).count(SYSTEM), 1)

    def test_in_long_json(self) -> None:
        for between in (b'"some words of a text", ' * 400_000, b' ' * (9 << 20)):
            self.assertEqual(names_of(self.look('long.json', b'[' + between + in_json(HOSTILE) + b']')), [SYSTEM])

    def test_time(self) -> None:
        begin = time.process_time()
        self.look('marks.bin', b'\1' + b'(l' * 100_000)
        self.assertLess(time.process_time() - begin, 3)

    def test_texts_are_none(self) -> None:
        words = b'Casuarinaceae\nhylomorphic\ngranitize\nbiddably\nrepulsive\n'
        for content in (words, b'>N\n' + b'N' * 60_000, b'title: ' + b'(note) ' * 9_000, b'# a\n' * 20_000, b'{"a": [1, 2]}' * 5):
            self.assertEqual(self.look('text.txt', content).notes, ())
            self.assertEqual(self.look('text.txt.gz', gzip.compress(content, mtime=0)).notes, ())


if __name__ == '__main__':
    unittest.main()
