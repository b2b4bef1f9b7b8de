"""The table of containers: for each kind its name, how it is known, how it is unpacked, who writes its strict form, and what opens it.

Whoever asks for a kind asks here, and compares rows and not names: a new kind is a row of `CONTAINERS` or `STORES`. What opens a kind is
imported when there is something to open, since it uses the rest of this package, which asks here.
"""

from __future__ import annotations

import re
from dataclasses import dataclass
from functools import cached_property, lru_cache
from importlib import import_module
from typing import TYPE_CHECKING, Any, Callable, List, NamedTuple, Optional, Tuple

from .begins import NAMES_WITHOUT_TAR
from .blobs import Blob
from .canonical import streams
from .canonical.streams import Stream
from .packed import LZ4_MODULES, ZSTD_MODULES, module_of
from .results import Place
from .tar_headers import BLOCK, looks_like_header
from ..patterns import pattern
from ..unread import SURE

if TYPE_CHECKING:
    from .looking import Looker

__all__ = ['CONTAINERS', 'Container', 'HDF5', 'Held', 'LOADERS', 'MAY_BE_KNOWN', 'MAY_BE_PACKED', 'MAY_BE_STORE', 'PACKED', 'STORES', 'TAR', 'ZIP',
           'ZIP_TAIL', 'ZLIB', 'kind_by_sign', 'kind_of', 'named', 'store_of']


# The loaders that `check` is told of. The first opens no container.
LOADERS = ('pickle', 'torch', 'joblib', 'numpy', 'pandas')


@dataclass(frozen=True, eq=False)
class Container:
    """A kind of container, or of store that is a file.

    `name` is how lines name it, and `opener` the function that opens it, as an entry point names it: none does where the kind is only noted.
    A kind begins with `magic`, or else as the pattern `sign` says; where that does not settle it, `known_by` does. `writers` says who writes
    the strict form. `endings` are those of names by which loaders choose it, `tar_ending` that of a tar archive which is packed so, and
    `other_endings` those by which none chooses. A kind that packs one file has a `stream`.
    """

    name: str
    opener: str = ''
    writers: str = ''
    magic: bytes = b''
    sign: bytes = b''
    known_by: Optional[Callable[[bytes], bool]] = None
    endings: Tuple[str, ...] = ()
    tar_ending: str = ''
    other_endings: Tuple[str, ...] = ()
    stream: Optional[Stream] = None
    # What opens it of the loaders that `check` knows.
    loaders: Tuple[str, ...] = ()
    # Pickles of these names are of other kinds: what opens files that are named so does not open this one.
    odd_names: Optional['re.Pattern[str]'] = None
    # Whether it may begin otherwise than its sign says. (Then so many bytes are asked for as show it.)
    may_have_no_sign: bool = False
    # What readers take for it, where that is not what begins so; and what is an empty one.
    takes: Optional[Callable[[bytes], bool]] = None
    is_empty: Optional[Callable[[Blob], bool]] = None
    # The program says of what begins so that it begins like this kind, also where it is of none.
    begun: bytes = b''
    # What looks for it at the end of something else, where readers do.
    opener_at_end: str = ''
    may_be_at_end: Optional[Callable[[Blob], bool]] = None
    # Whether its values are looked at as pickles where it is a value itself: a loader of pickles reads it.
    is_pickles: bool = False
    # What unpacks it, where that is no part of Python: where none of these modules is installed it is one of those that are noted.
    modules: Tuple[str, ...] = ()

    def __str__(self) -> str:
        return self.name if self.opener else f'unread {self.name}'

    @property
    def pattern(self) -> bytes:
        """What may be one begins so."""
        return self.sign or re.escape(self.magic)

    @cached_property
    def _begins(self) -> 're.Pattern[bytes]':
        return re.compile(self.pattern, re.DOTALL)

    def begins(self, head: bytes) -> bool:
        """Whether bytes begin so."""
        return self._begins.match(head) is not None if self.known_by is None else self.known_by(head)

    def is_odd_as(self, name: str) -> bool:
        """Whether a file of this name is no such container, but a pickle."""
        return self.odd_names is not None and self.odd_names.fullmatch(name) is not None

    def look_into(self, looker: 'Looker', held: 'Held') -> bool:
        """Looks into bytes of this kind. False where they only begin like it."""
        is_one: bool = _function(self.opener)(looker, held)
        return is_one

    def look_at_end(self, looker: 'Looker', held: 'Held', head: bytes) -> bool:
        """Looks for one at the end of bytes that are something else. False where there is none."""
        if self.may_be_at_end is not None and not self.may_be_at_end(held.blob):
            return False
        is_there: bool = _function(self.opener_at_end)(looker, held, head)
        return is_there


class Held(NamedTuple):
    """Bytes that are opened as a kind: where they are, the names that they go by, and how deep they are in others.

    `spans` gets the ranges in which a member is stored that may be a zip archive.
    """

    kind: Container
    blob: Blob
    where: Place
    names: Tuple[str, ...]
    depth: int
    spans: List[Tuple[int, int]]


@lru_cache(maxsize=None)
def _function(entry: str) -> Any:
    module, _, name = entry.partition(':')
    return getattr(import_module(f'{__package__}.{module}'), name)


# --- How kinds are known whose signs do not settle it ---

_ZLIB_METHOD = 8


def _is_zip(head: bytes) -> bool:
    return head[:4] in (b'PK\x03\x04', b'PK\x05\x06', b'PK\x06\x06', b'PK\x01\x02', b'PK\x07\x08')


# How the record begins that closes a zip archive, and in so many bytes at the end readers look for it: zipfile in 65,558, miniz (torch) by steps of 4 kB
# in up to 69,580.
_ZIP_END, ZIP_TAIL = b'PK\x05\x06', 22 + 65_536 + 8_192


def _may_end_as_zip(blob: Blob) -> bool:
    return _ZIP_END in blob.read(max(0, blob.size - ZIP_TAIL), ZIP_TAIL)


def _is_bz2(head: bytes) -> bool:
    return head[:3] == b'BZh' and head[3:4] in b'123456789'


def _is_tar(head: bytes) -> bool:
    return head[257:262] == b'ustar' or looks_like_header(head[:BLOCK])


def _is_empty_tar(blob: Blob) -> bool:
    return blob.size >= 2 * BLOCK and blob.is_zeros(0, blob.size)


def _is_zfile(head: bytes) -> bool:
    """Whether `int` takes what stands behind the magic for a number, as joblib does."""
    try:
        return head[:2] == b'ZF' and int(head[2:21], 16) >= 0
    except ValueError:
        return False


def _is_zlib(head: bytes) -> bool:
    return (len(head) > 2 and head[0] & 15 == _ZLIB_METHOD and head[0] >> 4 <= 7 and not head[1] & 32
            and (head[0] << 8 | head[1]) % 31 == 0)


def _is_django_cache(head: bytes) -> bool:
    return _function('stores.django_cache:end_of_expiry')(head) is not None


# --- The table ---

ZIP = Container(
    'zip', 'opening.zips:look_into', 'torch, numpy, zipfile and Info-ZIP write', b'PK', known_by=_is_zip, endings=('zip', 'npz', 'whl', 'keras'),
    opener_at_end='opening.zips:look_at_end', may_be_at_end=_may_end_as_zip, loaders=('torch', 'numpy', 'pandas'))
TAR = Container('tar', 'opening.tars:look_into', 'tarfile, GNU tar and bsdtar write', sign=rb'.{257}ustar', known_by=_is_tar, may_have_no_sign=True,
                endings=('tar',), takes=_is_tar, is_empty=_is_empty_tar, odd_names=NAMES_WITHOUT_TAR, loaders=('torch', 'pandas'))
ZLIB = Container('zlib', 'opening.packed:look_into', 'zlib.compress writes', sign=rb'[\x08\x18(8HXhx]', known_by=_is_zlib,
                 other_endings=('z', 'zlib'), stream=streams.ZLIB, loaders=('joblib',))
HDF5 = Container('hdf5', 'stores.hdf5:look_into', magic=b'\x89HDF\r\n\x1a\n', sign=rb'(?:.{512}|.{1024}|.{2048}|.{4096}|.{8192})?\x89HDF\r\n\x1a\n')

# In the order in which they are asked for.
CONTAINERS: Tuple[Container, ...] = (
    ZIP,
    Container('npy', 'opening.arrays:look_into', 'numpy.save writes', b'\x93NUMPY', endings=('npy',), loaders=('numpy',)),
    Container('gzip', 'opening.packed:look_into', 'gzip and Python write', b'\x1f\x8b\x08', endings=('gz', 'gzip'), tar_ending='tgz',
              stream=streams.GZIP, begun=b'\x1f\x8b', loaders=('joblib', 'pandas')),
    Container('bz2', 'opening.packed:look_into', 'bzip2 and Python write', b'BZh', known_by=_is_bz2, endings=('bz2',), tar_ending='tbz2',
              stream=streams.BZ2, begun=b'BZh', loaders=('joblib', 'pandas')),
    Container('xz', 'opening.packed:look_into', 'xz and Python write', b'\xfd7zXZ\0', endings=('xz',), tar_ending='txz', stream=streams.XZ,
              loaders=('joblib', 'pandas')),
    Container('lzma', 'opening.packed:look_into', 'xz and Python write', b'\x5d\0', endings=('lzma',), stream=streams.LZMA, loaders=('joblib',)),
    TAR,
    Container('zfile', 'opening.packed:look_into', 'joblib before 0.10 writes', b'ZF', known_by=_is_zfile, stream=streams.ZFILE, loaders=('joblib',)),
    ZLIB,
    # (these two begin as `unread` has it)
    Container('zstd', 'opening.packed:look_into', 'zstd and pandas write', other_endings=('zst',), stream=streams.ZSTD, modules=ZSTD_MODULES,
              loaders=('pandas',)),
    Container('lz4', 'opening.packed:look_into', 'lz4 and joblib write', other_endings=('lz4',), stream=streams.LZ4, modules=LZ4_MODULES,
              loaders=('joblib',)),
    Container('blosc chunk', 'opening.packed:look_into', 'Blosc and zarr write', stream=streams.BLOSC),
    Container('lz4 chunk', 'opening.packed:look_into', 'numcodecs writes', stream=streams.LZ4_CHUNK),
)

# Stores that are files.
STORES: Tuple[Container, ...] = (
    Container('sqlite', 'stores.sqlite:look_into', magic=b'SQLite format 3\0'),
    Container('gdbm', 'stores.dbm_files:look_into_gnu', sign=rb'\x13\x57\x9a[\xcd-\xd1]|[\xcd-\xd1]\x9a\x57\x13'),
    Container('Berkeley DB', 'stores.dbm_files:look_into_berkeley', sign=rb'.{12}(?:\x61\x15\x06\0|\0\x06\x15\x61)'),
    HDF5,
    Container('Django cache', 'stores.django_cache:look_into', sign=rb'[\x80FINGJKML].{0,126}?\.x', known_by=_is_django_cache,
              is_pickles=True),
)
# (what is said of a file that has such an ending or beginning, and is of another kind, ends with who writes this one)
assert all(each.writers for each in (*CONTAINERS, *STORES) if each.endings or each.tar_ending or each.begun)

# --- What is asked of all of them ---

PACKED = tuple(each for each in CONTAINERS if each.stream is not None)
_WITH_SIGN = tuple(each for each in CONTAINERS if each.pattern)
_WITHOUT_SIGN = tuple(each for each in _WITH_SIGN if each.may_have_no_sign)
# Containers that are opened, in bytes that are too few for the sum in the header of a tar archive; and with those that are not.
_SIGNS = b'|'.join(each.pattern for each in _WITH_SIGN)
_MAY_BE_OPENED = pattern(_SIGNS, re.DOTALL)
MAY_BE_KNOWN = pattern(_SIGNS + b'|' + SURE, re.DOTALL)
# (all but zlib, which has two first bytes of which the sum is to fit)
MAY_BE_PACKED = pattern(b'|'.join(each.pattern for each in _WITH_SIGN if each is not ZLIB) + b'|' + SURE, re.DOTALL)
MAY_BE_STORE = pattern(b'|'.join(each.pattern for each in STORES if not each.is_pickles), re.DOTALL)
# (A pickle and a few bytes: to ask what knows it is faster than its sign.)
_IN_PICKLES = tuple(each for each in STORES if each.is_pickles)

_BY_NAME = {each.name: each for each in (*CONTAINERS, *STORES)}


def kind_of(head: bytes) -> Optional[Container]:
    """The container that begins so.

    >>> [str(kind_of(head)) for head in (b'PK\\x03\\x04', b'BZh9', b'N.')]
    ['zip', 'bz2', 'None']
    """
    for each in _WITH_SIGN if _MAY_BE_OPENED.match(head) is not None else _WITHOUT_SIGN:
        if each.begins(head):
            return each
    return None


def kind_by_sign(head: bytes) -> Optional[Container]:
    """The same where one of the signs is there; None where a container can only be known otherwise.

    >>> str(kind_by_sign(b'BZh9')), kind_by_sign(b'N.')
    ('bz2', None)
    """
    return kind_of(head) if _MAY_BE_OPENED.match(head) is not None else None


def store_of(head: bytes) -> Optional[Container]:
    """The store that is a file and begins so.

    >>> [str(store_of(head)) for head in (b'SQLite format 3\\0', b'PK\\3\\4')]
    ['sqlite', 'None']
    """
    for each in STORES if MAY_BE_STORE.match(head) is not None else _IN_PICKLES:
        if each.begins(head):
            return each
    return None


def named(name: str) -> Container:
    """The kind of a name. One that is not opened, or not here, has no more than its name.

    >>> str(named('gzip')), str(named('rar'))
    ('gzip', 'unread rar')
    """
    found = _BY_NAME.get(name)
    return found if found is not None and (not found.modules or module_of(found.modules) is not None) else _unread(name)


@lru_cache(maxsize=None)
def _unread(name: str) -> Container:
    return Container(name)
