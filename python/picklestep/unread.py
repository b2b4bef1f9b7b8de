"""Containers that this package does not open: archives, packed files, databases, file systems. Each is noted, since a loader may open it.

They are known by how they begin, some by how they end. What begins with letters alone may be a text: it counts where a byte follows that no
text has. Of short values, and of what texts stand for, the surest signs alone are noted.

Source: the list of `file` (archives, packed data, databases, file systems), and the documents of these forms.
"""

from __future__ import annotations

import re
from functools import lru_cache
from itertools import chain
from typing import TYPE_CHECKING, Dict, Iterable, List, Optional, Pattern, Tuple

from .patterns import pattern

if TYPE_CHECKING:
    from .scan.blobs import Blob

__all__ = ['SURE', 'TAIL', 'kind_by_end', 'kind_of_file', 'kind_of_long', 'kind_of_short']

# Such a byte comes soon, which no text has.
_SOON = rb'(?=[^\0-\x08\x0e-\x1a\x1c-\x1f\x7f]{0,400}[\0-\x08\x0e-\x1a\x1c-\x1f\x7f])'

# Noted of all bytes that begin so.
_SURE: Dict[str, bytes] = {
    'zstd': rb'\x28\xb5\x2f\xfd',
    'zstd or lz4 (a frame that is skipped)': rb'[\x50-\x5f]\x2a\x4d\x18',
    'lz4': rb'\x04\x22\x4d\x18',
    'lz4 of another kind': rb'[\x02\x03]\x21\x4c\x18|mozLz40\0',
    '7z': rb'7z\xbc\xaf\x27\x1c',
    'rar': rb'Rar!\x1a\x07',
    'lzip': rb'LZIP[\0\1]',
    'lzop': rb'\x89LZO\0\r\n\x1a\n',
    'blosc': rb'BLOSC' + _SOON,
    'snappy': rb'\xff\x06\0\0sNaPpY',
    'Arrow': rb'ARROW1\0',
    'Parquet': rb'PAR[1E]' + _SOON,
    'Avro': rb'Obj\x01',
    'pg_dump': rb'PGDMP\x01',
    'dump of Redis': rb'REDIS[0-9]{4}',
    'append-only file of Redis': rb'\*[1-9][0-9]{0,6}\r\n\$[1-9][0-9]{0,8}\r\n[A-Za-z]|#TS:[0-9]{1,20}\r\n\*[1-9][0-9]{0,6}\r\n\$[1-9][0-9]{0,8}\r\n[A-Za-z]',
    'tdb': rb'TDB file\n',
    'LMDB': rb'.{16}\xde\xc0\xef\xbe',
    'dbm of BSD': rb'\x61\x15\x06\0|\0\x06\x15\x61',
    'Berkeley DB of another kind': rb'.{12}\x62\x31\x05\0|.{12}\0\x05\x31\x62|.{12}\x53\x22\x04\0|.{12}\0\x04\x22\x53',
    'write-ahead log of SQLite': rb'\x37\x7f\x06[\x82\x83]',
    'rollback journal of SQLite': rb'\xd9\xd5\x05\xf9\x20\xa1\x63\xd7',
    'ar': rb'!<(?:arch|thin)>\n',
    'cpio': rb'07070[12][0-9A-Fa-f]{8}|070707[0-7]{12}',
    'cab': rb'MSCF\0\0\0\0',
}

# Noted of files, members and long values.
_LONG: Dict[str, bytes] = {
    # Packed files
    'zstd (an old form, or a dictionary)': rb'[\x22-\x27]\xb5\x2f\xfd|\x37\xa4\x30\xec',
    'lrzip': rb'LRZI\0[\x06-\x0f]',
    'rzip': rb'RZIP\x02[\0-\x0f]',
    'zpaq': rb'7kSt\xa0\x31\x83\xd3|zPQ[\x01\x02]',
    'bzip3': rb'BZ3v1' + _SOON,
    'lzfse': rb'bvx[12n-]' + _SOON,
    'pbzx': rb'pbzx\0',
    'zchunk': rb'\0ZCK1',
    'qpress': rb'qpress10',
    'UCL': rb'\0\xe9UCL\xff\x01\x1a',
    'SZDD or KWAJ': rb'SZDD\x88\xf0|KWAJ\x88\xf0|SZ \x88\xf0',
    'blosc 2': rb'\x9e\xa8b2frame\0|blpk' + _SOON,
    # Archives
    'rpm': rb'\xed\xab\xee\xdb|drpm' + _SOON,
    'ar of AIX': rb'<(?:bigaf|aiaff)>\n',
    'cpio (binary)': rb'\xc7\x71.{5}[\x10-\xcf].{12}.[\0-\x03].{4}[^\0]{1,1000}\0|\x71\xc7.{4}[\x10-\xcf].{13}[\0-\x03].{5}[^\0]{1,1000}\0',
    'arj': rb'\x60\xea.[\0-\x0a][\x1e-\x50].{5}\x02',
    'lha': rb'.{2}-(?:lh[0-9a-ex]|lz[2-8s]|pm[0-2])-' + _SOON,
    'zoo': rb'.{20}\xdc\xa7\xc4\xfd',
    'ace': rb'.{7}\*\*ACE\*\*',
    'arc': rb'\x1a[\x01-\x0a][!-~]{2,12}\0',
    'StuffIt': rb'SIT!.{6}rLau|StuffIt \(c\)',
    'xar': rb'xar!\0',
    'wim': rb'MSWIM\0\0\0',
    'asar': rb'\x04\0\0\0.{3}\0.{3}\0.{3}\0\{"',
    'pack of Git': rb'PACK\0\0\0[\x02-\x04]|# v[23] git bundle\n',
    'bundle of Mercurial': rb'HG10(?:UN|BZ|GZ)|HG20\0',
    'dump of Subversion': rb'SVN-fs-dump-format-version: ',
    'chm': rb'ITSF\x03\0\0\0',
    'MPQ': rb'MPQ[\x1a\x1b]',
    'FreeArc': rb'ArC\x01',
    'InstallShield': rb'ISc\(' + _SOON + rb'|\x13\x5d\x65\x8c',
    'AppleSingle or AppleDouble': rb'\0\x05\x16[\0\x07]\0',
    'TNEF': rb'\x78\x9f\x3e\x22',
    'OLE 2': rb'\xd0\xcf\x11\xe0\xa1\xb1\x1a\xe1',
    'WARC': rb'WARC/[01]\.[0-9]{1,2}\r?\n|filedesc://',
    'backup of Android': rb'ANDROID BACKUP\n',
    'uuencode': rb'begin(?:-base64)? [0-7]{3,4} [^\r\n]+\r?\n',
    'yEnc': rb'=ybegin ',
    'BinHex': rb'\(This file must be converted with BinHex',
    'partimage': rb'PaRtImAgE-VoLuMe',
    'dump of a file system': rb'.{24}[\x6b\x6c]\xea\0\0|.{24}\0\0\xea[\x6b\x6c]|.{24}\x19\x01\x54\x19|.{24}\x19\x54\x01\x19|xFSdump0',
    'EnCase': rb'[EL]VF\x09\r\n\xff\0',
    'PAR2': rb'PAR2\0PKT',
    'encrypted': rb'age-encryption\.org/v1\n|-----BEGIN (?:AGE ENCRYPTED FILE|PGP MESSAGE)-----|Salted__' + _SOON + rb'|LUKS\xba\xbe|\$ANSIBLE_VAULT;',
    # Disks and file systems
    'qcow': rb'QFI\xfb',
    'VMDK': rb'KDMV[\x01-\x03]\0|COWD\x01\0',
    'VirtualBox disk': rb'.{64}\x7f\x10\xda\xbe',
    'VHD': rb'conectix|vhdxfile',
    'table of partitions': rb'.{512}EFI PART|[\0\x31\x33\xe9-\xeb\xfa\xfc].{445}(?:[\0\x80].{15}){4}\x55\xaa',
    'squashfs': rb'hsqs' + _SOON + rb'|sqsh' + _SOON,
    'cramfs': rb'\x45\x3d\xcd\x28|\x28\xcd\x3d\x45',
    'romfs': rb'-rom1fs-',
    'erofs': rb'.{1024}\xe2\xe1\xf5\xe0',
    'f2fs': rb'.{1024}\x10\x20\xf5\xf2',
    'ext2': rb'.{1080}\x53\xef[\0-\x07]\0[\x01-\x03]\0',
    'xfs': rb'XFSB\0',
    'HFS+': rb'.{1024}H(?:\+\0\x04|X\0\x05)',
    'APFS': rb'.{32}NXSB\0',
    'UBI': rb'UBI#\x01\0\0\0|\x31\x18\x10\x06',
    'jffs2': rb'\x85\x19[\x01-\x03]\xe0|\x19\x85\xe0[\x01-\x03]',
    'LVM': rb'.{512}LABELONE',
    'firmware of U-Boot': rb'\x27\x05\x19\x56',
    'boot image of Android': rb'ANDROID!|\x3a\xff\x26\xed',
    # Databases
    'Kyoto Cabinet': rb'KC\n' + _SOON,
    'Tokyo Cabinet': rb'ToKyO CaBiNeT\n',
    'QDBM': rb'\[(?:depot|DEPOT)\]\n',
    'cdb of NetBSD': rb'NBCDB\n\0',
    'GVariant': rb'GVariant|raVGtnai',
    'journal of systemd': rb'LPKSHHRH',
    'registry of Windows': rb'regf' + _SOON,
    'ESE': rb'.{4}\xef\xcd\xab\x89',
    'Access': rb'.{4}Standard (?:Jet|ACE) DB',
    'H2': rb'-- H2 0\.5/B --|H:[23],block:',
    'DuckDB': rb'.{8}DUCK' + _SOON,
    'SQLite 2': rb'\*\* This file contains an SQLite 2',
    'archive of MongoDB': rb'\x6d\xe2\x99\x81',
    'WiredTiger': rb'\x41\xd8\x01\0',
    'LevelDB or RocksDB': rb'MANIFEST-[0-9]{6,}\n',
    'bolt': rb'.{16}\xed\xda\x0c\xed',
    'Realm': rb'.{16}T-DB',
    'MySQL': rb'\xfebin|\xfe\xfe[\x03-\x0b][\0-\x0f]',
    'COPY of PostgreSQL': rb'PGCOPY\n\xff\r\n\0',
    'ZODB': rb'FS(?:21|30)' + _SOON + rb'|ZEC3' + _SOON,
    'Lucene': rb'\x3f\xd7\x6c\x17',
    'KeePass': rb'\x03\xd9\xa2\x9a',
    'Java keys': rb'\xfe\xed\xfe\xed|\xce\xce\xce\xce\0\0\0',
    'RRD': rb'RRD\0000',
    'mail of Outlook': rb'!BDN|\xcf\xad\x12\xfe',
    # Tables and other data
    'Feather': rb'FEA1' + _SOON,
    'ORC': rb'ORC' + _SOON,
    'stream of Arrow': rb'\xff\xff\xff\xff..[\0-\x0f]\0\x10\0\0\0',
    'SequenceFile': rb'SEQ[\x04-\x06]|RCF\x01',
    'serialized Java': rb'\xac\xed\0\x05',
    'CBOR': rb'\xd9\xd9\xf7',
    'pcap': rb'\xd4\xc3\xb2\xa1|\xa1\xb2\xc3\xd4|\x4d\x3c\xb2\xa1|\xa1\xb2\x3c\x4d|\n\r\r\n.{4}(?:\x1a\x2b\x3c\x4d|\x4d\x3c\x2b\x1a)|snoop\0\0\0',
    'netCDF': rb'CDF[\x01\x02\x05]',
    'HDF 4': rb'\x0e\x03\x13\x01',
    'FITS': rb'SIMPLE  = {20}[TF]',
    'MATLAB': rb'MATLAB [0-9]\.[0-9] MAT-file',
    'R': rb'RD[AX][23]\n',
    'ROOT': rb'root\0',
    'ASDF': rb'#ASDF [0-9]',
    'ADF': rb'@\(#\)ADF Database',
    'Perl': rb'pst0' + _SOON,
}

# Noted of files and members alone: they are known by few bytes.
_FILES: Dict[str, bytes] = {'pack, freeze or LZH': rb'\x1f[\x1e\x1f\x9e-\xa1]'}

# Some bytes before the end, or at a place behind what is looked at first.
_ENDS: Dict[str, bytes] = {
    'ORC': rb'\x82\xf4\x03\x03ORC.\Z',
    'LevelDB or RocksDB': rb'\x57\xfb\x80\x8b\x24\x75\x47\xdb\Z|\xf7\xcf\xf4\x85\xb6\x41\xe2\x88\Z|\x64\x95\xbf\x63\x96\x22\x42\x82\Z',
    'dmg': rb'koly\0\0\0\x04.{504}\Z',
    'VHD': rb'conectix.{504}\Z',
}
_LATE = ((32_768, 'ISO 9660', pattern(rb'[\0-\xff]CD001', re.DOTALL)), (65_600, 'btrfs', pattern(rb'_BHRfS_M')))
_FIRST_LATE = min(at for at, _, _ in _LATE)
# So many bytes show how it ends.
_SIZES_OF_ENDS = (512, 8)
TAIL = max(_SIZES_OF_ENDS)


# What a sign begins with: any bytes, so many of them, and then one of some.
_ANY = pattern(rb'((?:\.(?:\{[0-9]+\})?)*)(\[[^\]]*\]|\\x..|\\.|[^.(\[\\])', re.DOTALL)
_COUNT = pattern(rb'\.(?:\{([0-9]+)\})?')
_RANGE = pattern(rb'(\\x..|\\.|.)(?:-(\\x..|\\.|.))?', re.DOTALL)
# The parts of a sign that have none of its alternatives in them, and what stands between these.
_PIECE = pattern(rb'\\.|\[[^\]]*\]|\((?:[^()\\\[]|\\.|\[[^\]]*\])*\)|[^|]', re.DOTALL)
_Sign = Tuple[int, str, bytes]


class _Signs:
    """The signs of some tables, by a byte that each has at a place. Nearly all bytes have the bytes of few of them there, and only these signs are
    compiled."""

    def __init__(self, *tables: Dict[str, bytes]) -> None:
        self._tables = tables
        self._at: Dict[int, Dict[int, List[_Sign]]] = {}

    def first(self, content: bytes, begin: int = 0) -> Optional[str]:
        """The first kind, in the order of the tables, one of whose signs fits what begins at a place."""
        if not self._at:
            self._sort()
        found = [sign for at, by_byte in self._at.items() if begin + at < len(content) for sign in by_byte.get(content[begin + at], ())]
        return next((kind for _, kind, sign in sorted(found) if _compiled(sign).match(content, begin) is not None), None)

    def _sort(self) -> None:
        at: Dict[int, Dict[int, List[_Sign]]] = {}
        for number, (kind, signs) in enumerate((kind, signs) for table in self._tables for kind, signs in table.items()):
            for sign in _alternatives(signs):
                place, firsts = _begins_with(sign)
                for byte in firsts:
                    at.setdefault(place, {}).setdefault(byte, []).append((number, kind, sign))
        self._at = at


@lru_cache(maxsize=None)
def _compiled(sign: bytes) -> Pattern[bytes]:
    return re.compile(sign, re.DOTALL)


def _alternatives(signs: bytes) -> List[bytes]:
    """Those of which a sign is one.

    >>> _alternatives(rb'a(?:b|c)[|]|d\\|e')
    [b'a(?:b|c)[|]', b'd\\\\|e']
    """
    if b'|' not in signs:
        return [signs]
    parts: List[bytes] = [b'']
    at = 0
    while at < len(signs):
        piece = _PIECE.match(signs, at)
        if piece is None:
            parts.append(b'')
        else:
            parts[-1] += piece[0]
        at = at + 1 if piece is None else piece.end()
    return parts


def _begins_with(sign: bytes) -> Tuple[int, Iterable[int]]:
    """The first place at which not any byte fits a sign, and the bytes that fit it there.

    >>> [(place, bytes(firsts)) for place, firsts in map(_begins_with, (rb'.{4}..\\x41', b'[a-cx]d', rb'\\0b'))]
    [(6, b'A'), (0, b'abcx'), (0, b'\\x00')]
    """
    found = _ANY.match(sign)
    assert found is not None, sign
    place, one = sum(int(count or 1) for count in _COUNT.findall(found[1])), found[2]
    ranges = _RANGE.findall(one[1:-1]) if one[:1] == b'[' else [(one, b'')]
    return place, chain.from_iterable(range(_byte(first), _byte(last or first) + 1) for first, last in ranges)


def _byte(spelled: bytes) -> int:
    """The byte that a pattern spells so."""
    if spelled[:2] == b'\\x':
        return int(spelled[2:], 16)
    return spelled[0] if len(spelled) == 1 else _ESCAPED.get(spelled[1], spelled[1])


_ESCAPED = {ord('n'): 10, ord('r'): 13, ord('0'): 0, ord('1'): 1}


SURE = b'|'.join(_SURE.values())
_OF_SHORT, _OF_LONG, _OF_FILES, _OF_ENDS = _Signs(_SURE), _Signs(_SURE, _LONG), _Signs(_FILES), _Signs(_ENDS)


def kind_of_short(head: bytes) -> Optional[str]:
    """What begins so, of bytes that may be anything.

    >>> kind_of_short(b'LZIP' + bytes(9)), kind_of_short(b'LZIP is a program'), kind_of_short(b'\\x50\\x2a\\x4d\\x18')
    ('lzip', None, 'zstd or lz4 (a frame that is skipped)')
    """
    return _OF_SHORT.first(head)


def kind_of_long(head: bytes) -> Optional[str]:
    """What begins so, of bytes that are long enough to be a container.

    >>> kind_of_long(b'FEA1\\4\\0'), kind_of_long(b'FEA1 is a form of files'), kind_of_long(b'ORC')
    ('Feather', None, None)
    """
    return _OF_LONG.first(head) or ('compress' if _is_compress(head) else None)


def kind_by_end(tail: bytes) -> Optional[str]:
    """What ends so."""
    for size in _SIZES_OF_ENDS:
        begin = len(tail) - size
        found = _OF_ENDS.first(tail, begin) if begin >= 0 else None
        if found is not None:
            return found
    return None


def kind_of_file(blob: Blob, head: bytes) -> Optional[str]:
    """What a file or a member begins or ends like."""
    found = kind_of_long(head) or _OF_FILES.first(head)
    if found is None and blob.size > _FIRST_LATE:
        found = next((kind for at, kind, sign in _LATE if blob.size > at and sign.match(blob.read(at, 8))), None)
    return found or kind_by_end(blob.read(max(0, blob.size - TAIL), TAIL))


def _is_compress(head: bytes) -> bool:
    """Whether `compress` packed what begins so: the first code is a byte, and each other one is of those that were made by then."""
    if head[:2] != b'\x1f\x9d' or len(head) < 5 or not 9 <= head[2] & 31 <= 16 or head[2] & 96:
        return False
    bits = int.from_bytes(head[3:203], 'little')
    free = 257 if head[2] & 128 else 256
    for number in range((len(head[3:203]) * 8) // 9):
        code = bits >> 9 * number & 511
        if number and code == 256 and head[2] & 128:
            return True
        if code > (255 if not number else free):
            return False
        free += number > 0
    return True
