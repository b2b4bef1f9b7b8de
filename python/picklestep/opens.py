"""Which words are opened: the address of a pickle in a container or on a server, as `scan` prints it, a file that begins like a container, and one
that has arrays between its opcodes.

This imports only what an interpreter has loaded when it starts, since the entrance uses it.
"""

import os

__all__ = ['BEGINS', 'BETWEEN', 'ENOUGH', 'SERVERS', 'begins_gated', 'begins_like_one', 'begins_unlike_pickle', 'has_index', 'has_more', 'has_zip_behind',
           'holds_others', 'is_archive', 'is_at_server', 'is_gated_whole', 'is_taken_apart', 'lists_members', 'may_have_arrays', 'split']

# What stands between the names of an address.
BETWEEN = ' > '
# The servers whose values have addresses, as their URLs begin. (`scan` has the table of what reads them.)
SERVERS = tuple(f'{scheme}://' for scheme in ('redis', 'rediss', 'memcached', 'memcacheds', 'postgresql', 'postgres', 'mysql', 'mariadb'))
# How files begin that hold others: at which offset, and with which bytes. (`scan` has the table of what it opens, and looks closer. help/start.sh
# asks the same.)
BEGINS = (
    *((0, b'PK' + sign) for sign in (b'\x03\x04', b'\x05\x06', b'\x06\x06', b'\x01\x02', b'\x07\x08')),
    (0, b'\x1f\x8b\x08'), (0, b'BZh'), (0, b'\xfd7zXZ\0'), (0, b'\x5d\0\0'), (0, b'\x28\xb5\x2f\xfd'), (0, b'\x04\x22\x4d\x18'), (0, b'ZF0x'),
    *((0, b'x' + level) for level in (b'\x01', b'\x5e', b'\x9c', b'\xda')),
    (0, b'\x93NUMPY'), (257, b'ustar'), (0, b'SQLite format 3\0'), (0, b'\x89HDF\r\n\x1a\n'),
    *((0, b'\x13\x57\x9a' + bytes([last])) for last in range(0xcd, 0xd2)), *((0, bytes([first]) + b'\x9a\x57\x13') for first in range(0xcd, 0xd2)),
    (12, b'\x61\x15\x06\0'), (12, b'\0\x06\x15\x61'),
)
_AT_FIRST = tuple(magic for offset, magic in BEGINS if not offset)
_BEHIND = tuple((offset, magic) for offset, magic in BEGINS if offset)
# How zip archives begin, and the others that `gate` looks at itself: gzip, zlib, arrays of numpy, and tar archives, whose sign stands in a header.
_ARCHIVES = (b'PK\x03\x04', b'PK\x05\x06')
_LISTED = (*_ARCHIVES, b'\x1f\x8b', b'x\x01', b'x\x5e', b'x\x9c', b'x\xda')
_GATED = (*_LISTED, b'\x93NUMPY')
_TAR, _TAR_AT = b'ustar', 257
# How pickles begin, but for a few of those of a number alone; and what begins so, and is known by more bytes (help/start.sh asks the same).
_PICKLES = (b'\x80', b"S'", b'S"', *(bytes([first]) for first in b'()]}cKNTUVX'), *(bytes([first, sign]) for first in b'FIL' for sign in b'-0123456789'))
_NO_PICKLES = (b'(This file must', b'conectix', b'KC\n', b'KDMV', b'NBCDB', b'TDB file', b'ToKyO', b'UBI#', b'XFSB')
# So many bytes show that.
ENOUGH = max(offset + len(magic) for offset, magic in BEGINS)
# The record that closes a zip archive has so many bytes, and then a comment, whose length its last two bytes say.
_CLOSING, _RECORD, _MOST_OF_COMMENT = b'PK\x05\x06', 22, 0xffff
# Where a file is searched for the name of joblib's arrays, and where for what torch wrote first before 1.6.
_BLOCK, _MOST_SEARCHED, _BEGIN_OF_TORCH = 1 << 18, 64 << 20, 32


def split(word: str) -> 'tuple[str, str] | None':
    """The file of an address, and the names behind it: the longest beginning that names a file, or the URL of a server. None where the word is no
    address: a file has this name, or none has that of a beginning.

    >>> split('no file > a') is None, split('model.pt') is None, split('redis://host/0 > key')
    (True, True, ('redis://host/0', 'key'))
    """
    if BETWEEN not in word or os.path.lexists(word):
        return None
    if is_at_server(word):
        url, _, address = word.partition(BETWEEN)
        return url, address
    at = word.rfind(BETWEEN)
    while at > 0:
        if os.path.isfile(word[:at]):
            return word[:at], word[at + len(BETWEEN):]
        at = word.rfind(BETWEEN, 0, at)
    return None


def holds_others(path: str) -> bool:
    """Whether a file begins like a container, or has the values of `dbm.dumb`. What this process was given open is taken as it is, and is not read
    here.

    >>> holds_others('no file'), holds_others('/dev/stdin')
    (False, False)
    """
    if path.startswith(('/dev/', '/proc/')) or not os.path.isfile(path):
        return False
    return has_index(path) or begins_like_one(_head(path))


def has_index(path: str) -> bool:
    """Whether a file has the values of `dbm.dumb`: its index is beside it.

    >>> has_index('no file.dat')
    False
    """
    return path.endswith('.dat') and os.path.isfile(path[:-4] + '.dir')


def is_archive(path: str) -> bool:
    """Whether a file begins as a zip archive does.

    >>> is_archive('no file')
    False
    """
    return _is_read_here(path) and _head(path).startswith(_ARCHIVES)


def is_gated_whole(path: str) -> bool:
    """Whether a file begins as what `gate` looks at itself: a zip archive or a tar archive, whose members it judges, a file of gzip or zlib, or an
    array of numpy.

    >>> is_gated_whole('no file')
    False
    """
    return _is_read_here(path) and begins_gated(_head(path))


def begins_gated(head: bytes) -> bool:
    """Whether bytes begin as what `gate` looks at itself.

    >>> begins_gated(b'PK\\x03\\x04'), begins_gated(bytes(257) + b'ustar'), begins_gated(b'BZh9')
    (True, True, False)
    """
    return head.startswith(_GATED) or head.startswith(_TAR, _TAR_AT)


def lists_members(path: str) -> bool:
    """Whether a file begins as what `members` lists: a zip archive or a tar archive, or a file of gzip or zlib. What this process was given open is not
    read here: it may be one.

    >>> lists_members('/dev/stdin')
    True
    """
    if not _is_read_here(path):
        return True
    head = _head(path)
    return head.startswith(_LISTED) or head.startswith(_TAR, _TAR_AT)


def has_more(path: str) -> bool:
    """Whether a file that is read as it is may be of another kind, or have bytes that are no opcodes: then a word has something to say of it.

    >>> has_more('no file'), has_more('/dev/stdin')
    (False, False)
    """
    try:
        return begins_unlike_pickle(path) or may_have_arrays(path)
    except OSError:
        return False  # (whoever reads it says so)


def begins_unlike_pickle(path: str) -> bool:
    """Whether a file does not begin as most pickles do.

    >>> begins_unlike_pickle('no file')
    False
    """
    head = _head(path) if _is_read_here(path) else b''
    return head != b'' and (not head.startswith(_PICKLES) or head.startswith(_NO_PICKLES))


def _is_read_here(path: str) -> bool:
    return os.path.isfile(path) and not path.startswith(('/dev/', '/proc/'))


def _head(path: str) -> bytes:
    try:
        with open(path, 'rb', buffering=0) as file:
            return file.read(ENOUGH)
    except OSError:
        return b''  # (whoever opens it says so)


def begins_like_one(head: bytes) -> bool:
    """Whether bytes begin like a container.

    >>> begins_like_one(b'PK\\x03\\x04'), begins_like_one(b'N.')
    (True, False)
    """
    return head.startswith(_AT_FIRST) or any(head.startswith(magic, offset) for offset, magic in _BEHIND)


def is_at_server(word: str) -> bool:
    """Whether a word begins as the URL of a server whose values are opened, and no file has this name.

    >>> is_at_server('redis://host/0 > key'), is_at_server('Rediss://host'), is_at_server('https://host/model.pt')
    (True, True, False)
    """
    return word.lower().startswith(SERVERS) and not os.path.lexists(word)


def is_taken_apart(word: str) -> bool:
    """Whether a word is opened, rather than read as it is."""
    return split(word) is not None or is_at_server(word) or holds_others(word)


def may_have_arrays(path: str) -> bool:
    """Whether a file has the name of joblib's arrays near its beginning, or begins as torch wrote before 1.6. (Behind the first array that comes
    later a hint leads to `scan`.)"""
    if path.startswith(('/dev/', '/proc/')) or not os.path.isfile(path):
        return False
    from .hints import OLD_TORCH, WRAPPER
    room, kept, left = bytearray(_BLOCK), 0, _MOST_SEARCHED
    view = memoryview(room)
    with open(path, 'rb', buffering=0) as file:
        while left > 0 and (count := file.readinto(view[kept:])):
            end = kept + count
            if room.find(WRAPPER, 0, end) >= 0 or left == _MOST_SEARCHED and room.find(OLD_TORCH, 0, _BEGIN_OF_TORCH) >= 0:
                return True
            kept = min(len(WRAPPER) - 1, end)
            room[:kept] = room[end - kept:end]
            left -= count
    return False


def has_zip_behind(path: str) -> bool:
    """Whether a file that begins like something else ends with the record that closes a zip archive: then some loaders open it as one."""
    if path.startswith(('/dev/', '/proc/')) or not os.path.isfile(path):
        return False
    try:
        with open(path, 'rb', buffering=0) as file:
            size = file.seek(0, os.SEEK_END)
            file.seek(max(0, size - _RECORD - _MOST_OF_COMMENT))
            tail = file.read(_RECORD + _MOST_OF_COMMENT)
    except OSError:
        return False
    at = tail.rfind(_CLOSING)
    while at >= 0:
        if at + _RECORD + int.from_bytes(tail[at + _RECORD - 2:at + _RECORD], 'little') == len(tail):
            return True
        at = tail.rfind(_CLOSING, 0, at)
    return False
