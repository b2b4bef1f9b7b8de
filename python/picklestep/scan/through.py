"""Members that go through something that is no class, such as a module: `inspect.os.system` is `os.system`, under a name that no list has.

Picklers write a point in a member only for what is in a class (`Outer.Inner`, `Kind.method`). A loader follows the points of a member to
whatever a module has, and most modules have others: `sklearn.base` alone has `np`, `os` and `warnings`. So this is a rule and no list.
"""

from __future__ import annotations

from typing import FrozenSet, Optional

from .allow import sets_with

__all__ = ['MODULES', 'why_through', 'part_through']

# What modules are called where others import them, but for those that have the name of a class or a function (`array`, `copy`, `Image`). A few
# begin with an upper-case letter, as classes do.
MODULES: FrozenSet[str] = frozenset((
    'ast asyncio atexit base64 bdb bltns binascii builtins bz2 cPickle cgi cloudpickle codecs codeop collections concurrent configparser contextlib '
    'copyreg copy_reg csv ctypes curses dataclasses dbm difflib dill dis distutils doctest encodings errno faulthandler fcntl fnmatch ftplib functools gc gettext '
    'gzip hashlib heapq hmac imp importlib inspect io itertools joblib json linecache lzma marshal math matplotlib mimetypes multiprocessing '
    'netrc nn np nt ntpath numpy operator optparse os pandas pathlib pd pdb pickle pickletools pipes pkgutil plistlib plt posix posixpath '
    'pty pwd pydoc pyplot re readline reprlib requests rlcompleter runpy scipy selectors setuptools shelve shutil sklearn smtplib '
    'socket socketserver sqlite3 ssl subprocess symtable sys sysconfig tarfile tempfile termios textwrap tf threading tkinter tokenize '
    'torch traceback tracemalloc types typing unicodedata unittest urllib venv warnings weakref webbrowser winreg wsgiref xml xmlrpc yaml '
    'zipapp zipfile zipimport zlib ET Cython IPython PIL').split())


def part_through(name: str, member: str) -> Optional[str]:
    """The part of a member that is no class as picklers write one, and that others stand behind; or its last part where that is a module. None
    where there is none, or a set of the package has the name.

    >>> part_through('sklearn.base.np.load', 'np.load'), part_through('a.Outer.Inner.method', 'Outer.Inner.method'), part_through('inspect.os', 'os')
    ('np', None, 'os')

    A method may have the name of a module, and a function may have the name of its own module.

    >>> part_through('requests.Response.json', 'Response.json'), part_through('gettext.gettext', 'gettext')
    (None, None)
    """
    *before, last = member.split('.')
    part = next((part for part in before if not _may_be_class(part)), None)
    module = name[:-len(member) - 1].rpartition('.')[2]
    if part is None and not before and last.lstrip('_') in MODULES and last != module:
        part = last
    return None if part is None or sets_with(name) else part


def _may_be_class(part: str) -> bool:
    letters = part.lstrip('_')
    return letters != '' and not letters[0].islower() and letters not in MODULES


def why_through(name: str, member: str) -> Optional[str]:
    """Why a name is marked whose member goes through a module, or is one. None where it is a usual one.

    >>> why_through('sklearn.base.np.load', 'np.load'), why_through('inspect._os', '_os')
    ('goes through np, which is no class', 'the module os, through another')
    """
    part = part_through(name, member)
    if part is None:
        return None
    return f'the module {part.lstrip("_")}, through another' if member.rpartition('.')[2] == part else f'goes through {part}, which is no class'
