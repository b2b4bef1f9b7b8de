"""Containers that are not opened: each is told, as a file, as a member and as a value; and texts that begin with the same letters are not."""

from __future__ import annotations

import gzip
import io
import random
import shutil
import subprocess
import unittest
import zipfile
from pathlib import Path
from typing import Dict, List

from picklestep import unread
from picklestep.scan import look
from picklestep.scan.blobs import BytesBlob
from picklestep.scan.containers import CONTAINERS
from picklestep.unread import kind_of_file, kind_of_long, kind_of_short
from scan_support import HOSTILE, ScanCase, notes_of
from stores_support import python_with

# How each begins, as its documents and the list of `file` have it. What follows is not looked at.
BEGINS: Dict[str, List[bytes]] = {
    'zstd (an old form, or a dictionary)': [b'\x37\xa4\x30\xec'], 'lrzip': [b'LRZI\0\6'], 'rzip': [b'RZIP\2\1'],
    'zpaq': [b'7kSt\xa0\x31\x83\xd3', b'zPQ\2'],
    'bzip3': [b'BZ3v1\0'], 'lzfse': [b'bvx2\0\0'], 'pbzx': [b'pbzx\0'], 'zchunk': [b'\0ZCK1'], 'qpress': [b'qpress10'],
    'UCL': [b'\0\xe9UCL\xff\x01\x1a'],
    'SZDD or KWAJ': [b'SZDD\x88\xf0\x27\x33'], 'blosc 2': [b'\x9e\xa8b2frame\0', b'blpk\3'], 'rpm': [b'\xed\xab\xee\xdb\3'],
    'ar of AIX': [b'<bigaf>\n'],
    'cpio (binary)': [bytes.fromhex('c771') + bytes(4) + b'\xa4\x81' + bytes(12) + b'\x06\0' + bytes(4) + b'a.pkl\0',
                      bytes.fromhex('71c7') + bytes(4) + b'\x81\xa4' + bytes(12) + b'\0\x06' + bytes(4) + b'a.pkl\0'],
    'arj': [b'\x60\xea\x2b\0\x1e\x0b\1\2\0\0\2'], 'lha': [b'\x19\x2c-lh5-\0'], 'zoo': [b'ZOO 2.10 Archive.\x1a\0\0\xdc\xa7\xc4\xfd'],
    'ace': [bytes(7) + b'**ACE**'], 'arc': [b'\x1a\x08FILE.PKL\0'], 'StuffIt': [b'SIT!\0\1\0\0\0\0rLau'], 'xar': [b'xar!\0\x1c'],
    'wim': [b'MSWIM\0\0\0'],
    'asar': [b'\4\0\0\0\x20\1\0\0\x1c\1\0\0\x18\1\0\0{"files"'], 'pack of Git': [b'PACK\0\0\0\2'], 'chm': [b'ITSF\3\0\0\0'],
    'TNEF': [b'\x78\x9f\x3e\x22'], 'OLE 2': [bytes.fromhex('d0cf11e0a1b11ae1')], 'WARC': [b'WARC/1.0\r\n'], 'uuencode': [b'begin 644 a.pkl\n'],
    'encrypted': [b'Salted__\1', b'LUKS\xba\xbe\0\1', b'age-encryption.org/v1\n'], 'qcow': [b'QFI\xfb'], 'VMDK': [b'KDMV\1\0'],
    'table of partitions': [bytes(512) + b'EFI PART', b'\xeb' + bytes(445) + b'\x80' + bytes(63) + b'\x55\xaa'], 'squashfs': [b'hsqs\1\0'],
    'ext2': [bytes(1080) + b'\x53\xef\1\0\1\0'], 'xfs': [b'XFSB\0'], 'jffs2': [b'\x85\x19\1\xe0'], 'Kyoto Cabinet': [b'KC\n\0\x10'],
    'Tokyo Cabinet': [b'ToKyO CaBiNeT\n'], 'journal of systemd': [b'LPKSHHRH'], 'ESE': [bytes(4) + b'\xef\xcd\xab\x89'],
    'Access': [b'\0\1\0\0Standard ACE DB\0'],
    'H2': [b'H:2,block:5'], 'DuckDB': [bytes(8) + b'DUCK\x40\0'], 'archive of MongoDB': [b'\x6d\xe2\x99\x81'], 'WiredTiger': [b'\x41\xd8\1\0'],
    'LevelDB or RocksDB': [b'MANIFEST-000002\n'], 'bolt': [bytes(16) + b'\xed\xda\x0c\xed'], 'MySQL': [b'\xfebin', b'\xfe\xfe\7\1'],
    'COPY of PostgreSQL': [b'PGCOPY\n\xff\r\n\0'], 'ZODB': [b'FS21\0', b'FS30\0'], 'Lucene': [b'\x3f\xd7\x6c\x17'], 'RRD': [b'RRD\0000' b'3'],
    'Feather': [b'FEA1\4\0'], 'ORC': [b'ORC\n\x1d\n\x0a\x03'], 'stream of Arrow': [b'\xff\xff\xff\xff\x78\1\0\0\x10\0\0\0'],
    'SequenceFile': [b'SEQ\6!org.apache.hadoop.io.NullWritable'], 'serialized Java': [b'\xac\xed\0\5'], 'CBOR': [b'\xd9\xd9\xf7\xa1'],
    'pcap': [b'\xd4\xc3\xb2\xa1', b'\n\r\r\n\x1c\0\0\0\x4d\x3c\x2b\x1a'], 'netCDF': [b'CDF\1'], 'HDF 4': [b'\x0e\3\x13\1'],
    'FITS': [b'SIMPLE  = ' + b' ' * 19 + b'T'],
    'bundle of Mercurial': [b'HG10BZ', b'HG20\0'], 'dump of Subversion': [b'SVN-fs-dump-format-version: 2\n'], 'MPQ': [b'MPQ\x1a'],
    'FreeArc': [b'ArC\1'], 'InstallShield': [b'ISc(\0', b'\x13\x5d\x65\x8c'], 'AppleSingle or AppleDouble': [b'\0\5\x16\0\0', b'\0\5\x16\7\0'],
    'backup of Android': [b'ANDROID BACKUP\n'], 'yEnc': [b'=ybegin line=128'], 'BinHex': [b'(This file must be converted with BinHex 4.0)'],
    'partimage': [b'PaRtImAgE-VoLuMe'], 'dump of a file system': [b'\1' * 24 + b'\x6c\xea\0\0', b'xFSdump0'], 'EnCase': [b'EVF\t\r\n\xff\0'],
    'PAR2': [b'PAR2\0PKT'], 'VirtualBox disk': [bytes(64) + b'\x7f\x10\xda\xbe'], 'VHD': [b'conectix', b'vhdxfile'],
    'cramfs': [b'\x45\x3d\xcd\x28'], 'romfs': [b'-rom1fs-'], 'erofs': [bytes(1024) + b'\xe2\xe1\xf5\xe0'],
    'f2fs': [bytes(1024) + b'\x10\x20\xf5\xf2'], 'HFS+': [bytes(1024) + b'H+\0\4', bytes(1024) + b'HX\0\5'], 'APFS': [bytes(32) + b'NXSB\0'],
    'UBI': [b'UBI#\1\0\0\0', b'\x31\x18\x10\6'], 'LVM': [bytes(512) + b'LABELONE'], 'firmware of U-Boot': [b'\x27\5\x19\x56'],
    'boot image of Android': [b'ANDROID!', b'\x3a\xff\x26\xed'], 'QDBM': [b'[depot]\n'], 'cdb of NetBSD': [b'NBCDB\n\0'], 'GVariant': [b'GVariant'],
    'registry of Windows': [b'regf\1'], 'SQLite 2': [b'** This file contains an SQLite 2.1 database **'], 'Realm': [bytes(16) + b'T-DB'],
    'KeePass': [b'\3\xd9\xa2\x9a'], 'Java keys': [b'\xfe\xed\xfe\xed', b'\xce\xce\xce\xce\0\0\0'], 'mail of Outlook': [b'!BDN', b'\xcf\xad\x12\xfe'],
    'R': [b'RDX3\n', b'RDA2\n'], 'ROOT': [b'root\0'], 'ADF': [b'@(#)ADF Database'], 'Perl': [b'pst0\4'],
    'MATLAB': [b'MATLAB 5.0 MAT-file, Platform'], 'ASDF': [b'#ASDF 1.0.0\n'], 'pack, freeze or LZH': [b'\x1f\x1e\0\0'],
}
# The surest, which short values tell as well.
SURE = {
    'zstd': b'\x28\xb5\x2f\xfd', 'lz4': b'\x04\x22\x4d\x18', 'lz4 of another kind': b'\x02\x21\x4c\x18', '7z': b'7z\xbc\xaf\x27\x1c', 'rar': b'Rar!\x1a\x07',
    'lzip': b'LZIP\1', 'lzop': b'\x89LZO\0\r\n\x1a\n', 'snappy': b'\xff\x06\0\0sNaPpY',
    'Arrow': b'ARROW1\0\0', 'Parquet': b'PAR1\x15\4', 'Avro': b'Obj\1', 'pg_dump': b'PGDMP\1', 'dump of Redis': b'REDIS0011\xfa',
    'tdb': b'TDB file\n\0', 'LMDB': bytes(16) + b'\xde\xc0\xef\xbe',
    'append-only file of Redis': b'#TS:1628217470\r\n*2\r\n$6\r\nSELECT', 'Berkeley DB of another kind': bytes(12) + b'\x62\x31\5\0',
    'ar': b'!<thin>\n', 'cab': b'MSCF\0\0\0\0',
    'write-ahead log of SQLite': b'\x37\x7f\x06\x82', 'rollback journal of SQLite': b'\xd9\xd5\x05\xf9\x20\xa1\x63\xd7',
    'cpio': b'07070100000000', 'zstd or lz4 (a frame that is skipped)': b'\x50\x2a\x4d\x18', 'blosc': b'BLOSC\0', 'dbm of BSD': b'\x61\x15\6\0',
}
# How texts begin, and are none.
TEXTS = [b'ORC is a file format.\nORC\n', b'ORC', b'FEA1 and FEA2\n', b'FEA12B0C9D\n' * 100, b'PAR1 is how Parquet begins\n',
         b'LZIP is a program\n', b'BLOSC\n', b'REDIS is a server', b'root\n', b'KC\n', b'SIT!\n', b'PACK\n', b'hsqs\n', b'drpm\n', b'regf\n',
         b'CDF\n', b'Obj\n', b'Salted__ words\n', b'begin\n', b'begin 2 words\n', b'70707\n', b'070701 is a number\n', b'SEQ\n',
         b'a,b -lh5- c\n', b'MANIFEST-000002 is a file\n', b'* 1\n$ 2\n', b'bvx2\n', b'DUCKDUCKDUCK\n']


class Unread(ScanCase):
    """What is told, and what is not."""

    def check(self, content: bytes, kind: str, name: str = 'a.bin') -> None:
        """Whether this is told once, as something that is missed."""
        result = self.look(name, content)
        self.assertEqual([note.text for note in result.notes if note.missed][-1:], [f'{kind}: this kind of container is not opened'], content[:20])

    def value(self, content: bytes) -> str:
        """What is told of a value of a table."""
        return notes_of(look(str(self.table_with(content))))

    def test_each_is_told(self) -> None:
        opened = {each.name for each in CONTAINERS}
        for kind, begins in [*BEGINS.items(), *((kind, [begin]) for kind, begin in SURE.items() if kind not in opened)]:
            for begin in begins:
                with self.subTest(kind):
                    content = begin + bytes(300)
                    self.check(content, kind)
                    if kind in SURE:
                        self.assertEqual(kind_of_short(begin), kind)
                    elif kind != 'pack, freeze or LZH':
                        self.assertEqual(kind_of_long(content), kind)
                        self.assertIn(f'{kind}: this kind of container is not opened', self.value(content))

    def test_members_of_archives_and_streams_are_told(self) -> None:
        held = io.BytesIO()
        with zipfile.ZipFile(held, 'w', zipfile.ZIP_DEFLATED) as archive:
            archive.writestr('table.feather', b'FEA1' + bytes(300))
            archive.writestr('000005.ldb', b'\1' * 90_000 + b'\x57\xfb\x80\x8b\x24\x75\x47\xdb')
        told = [(note.where, note.text.partition(':')[0]) for note in self.look('a.zip', held.getvalue()).notes]
        self.assertEqual(told, [(('table.feather',), 'Feather'), (('000005.ldb',), 'LevelDB or RocksDB')])
        self.check(gzip.compress(b'ORC' + bytes(300), mtime=0), 'ORC', 'a.gz')

    def test_what_is_known_by_its_end(self) -> None:
        orc = b'ORC' + b'text' * 100 + b'\x82\xf4\x03\x03ORC\x17'
        for content, kind in ((orc, 'ORC'), (b'x' * 900 + b'\xf7\xcf\xf4\x85\xb6\x41\xe2\x88', 'LevelDB or RocksDB'),
                              (b'x' * 900 + b'koly\0\0\0\4' + b'x' * 504, 'dmg'), (b'x' * 900 + b'conectix' + b'x' * 504, 'VHD'),
                              (bytes(32_768) + b'\1CD001\1' + bytes(2041), 'ISO 9660'), (b'\1' * 65_600 + b'_BHRfS_M' + bytes(99), 'btrfs')):
            with self.subTest(kind):
                self.check(content, kind)

    def test_texts_are_none(self) -> None:
        for text in TEXTS:
            with self.subTest(text):
                self.assertEqual(self.look('a.bin', text).notes, ())
                self.assertEqual(self.value(text), '')

    def test_bytes_by_chance_are_none(self) -> None:
        """Of short values and of numbers fewer are told than of files."""
        chosen = random.Random(7)
        told = [kind_of_short(chosen.randbytes(20)) for _ in range(200_000)]
        self.assertEqual(set(told), {None})
        self.assertEqual(self.value(b'\xd9\xd9\xf7\xa1' + bytes(20)), '')
        # (the first code of `compress` is a byte, and no code is used before it is made)
        packed = b'\x1f\x9d\x90' + chosen.randbytes(99)
        self.assertNotEqual(kind_of_file(BytesBlob(packed), packed), 'compress')

    def test_every_kind_is_in_a_table(self) -> None:
        begins = {*unread._SURE, *unread._LONG, *unread._FILES}
        self.assertEqual(begins, {*BEGINS, *SURE})

    def written_by(self, program: str) -> None:
        """Whether what a real program writes is told."""
        if shutil.which(program) is None:
            self.skipTest(f'{program} is not installed')
        for content in (HOSTILE, HOSTILE * 100, random.Random(1).randbytes(5_000)):
            packed = subprocess.run([program, '-c'], input=content, capture_output=True).stdout
            if packed:
                with self.subTest(len(content)):
                    self.check(packed, program)

    def test_compress(self) -> None:
        self.written_by('compress')

    def test_lzop(self) -> None:
        self.written_by('lzop')

    def test_leveldb(self) -> None:
        python = python_with('plyvel')
        code = "import plyvel, sys; held = plyvel.DB('level', create_if_missing=True); held.put(b'a', bytes.fromhex(sys.argv[1])); held.close()"
        subprocess.run([python, '-c', code, HOSTILE.hex()], cwd=self.folder, check=True)
        self.assertIn('LevelDB or RocksDB', notes_of(look(str(Path(self.folder, 'level', 'CURRENT')))))


if __name__ == '__main__':
    unittest.main()
