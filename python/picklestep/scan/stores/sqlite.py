"""SQLite files: each value of each table, read through the standard library.

The file is opened read-only and as one that nobody changes, so nothing is written beside it and nothing waits. What its schema would run
(views, triggers, computed columns, virtual tables) is not touched; views and computed columns are noted. Where a write-ahead log is beside it,
both are copied into memory.
"""

from __future__ import annotations

import os
import re
import shutil
import sqlite3
import tempfile
import urllib.parse
from contextlib import closing, contextmanager, suppress
from typing import TYPE_CHECKING, Any, Dict, Iterator, List, Optional, Tuple

from ...patterns import pattern
from ..blobs import Blob, FileBlob
from ..containers import Held
from ..results import Place
from .ends import end_of_sqlite, note_file
from . import SMALL
from .values import Values, not_looked_at

if TYPE_CHECKING:
    from ..looking import Looker

__all__ = ['look_into']

# How a rollback journal begins that has not been put back or ended.
_JOURNAL = b'\xd9\xd5\x05\xf9\x20\xa1\x63\xd7'

# What a statement of the schema makes, and what of it has no values of its own (those of virtual tables are in others).
_STATEMENT = pattern(rb'create(?:\s|/\*(?:[^*]|\*(?!/))*\*/|--[^\n]*\n)+(table|view|trigger|index|unique|virtual)\b', re.IGNORECASE)
_WITHOUT_VALUES = ('trigger', 'index', 'unique', 'virtual')

# Stands for a value that is larger than SMALL.
_LARGE = -1

_BUSY_SECONDS = 1.0

# What `table_xinfo` says of computed columns: worked out as they are read, or stored.
_COMPUTED = (2, 3)


def look_into(looker: 'Looker', held: Held) -> bool:
    """Looks at all values. Where the file is damaged, its bytes are searched too."""
    _look(looker, held.blob, held.where, held.depth)
    note_file(looker, held, end_of_sqlite(held.blob))
    return True


def _look(looker: 'Looker', blob: Blob, where: Place, depth: int) -> None:
    values = Values(looker)
    trouble: List[str] = []
    try:
        with _opened(blob, looker, where) as connection:
            computed: List[str] = []
            made = _made_by(connection)
            for table in made.pop('table', []):
                try:
                    opened = _Table(connection, table, blob.size)
                    computed.extend(opened.computed)
                    opened.look(values, where, depth)
                except (sqlite3.Error, OverflowError, UnicodeError) as error:
                    trouble.append(f'{table}: {error}')
            _tell_computed(looker, where, 'views', made.pop('view', []))
            _tell_computed(looker, where, 'unknown statements', [name for kind in made if kind not in _WITHOUT_VALUES for name in made[kind]])
            _tell_computed(looker, where, 'computed columns', computed)
    except (sqlite3.Error, UnicodeError) as error:
        trouble.append(str(error))
    for text in trouble:
        looker.note(where, f'sqlite: {text}: the rest of it is searched as bytes', missed=True)
    if trouble:
        values.look_everywhere(blob, where)
    values.flush()


def _tell_computed(looker: 'Looker', where: Place, what: str, names: List[str]) -> None:
    """Notes what is worked out as it is read."""
    if names:
        looker.note(where, f'sqlite: {not_looked_at(what, names)}', missed=True)


def _tell_journal(looker: 'Looker', where: Place, path: str) -> None:
    """Notes a rollback journal that another reader would put back into the file."""
    with suppress(OSError), open(f'{path}-journal', 'rb') as journal:
        if journal.read(len(_JOURNAL)) == _JOURNAL:
            looker.note(where, 'sqlite: the rollback journal beside it is not looked at with it', missed=True)


@contextmanager
def _opened(blob: Blob, looker: 'Looker', where: Place) -> Iterator[sqlite3.Connection]:
    """A connection that reads the file."""
    path = _path(blob)
    log = None if path is None else f'{path}-wal'
    if path is not None:
        _tell_journal(looker, where, path)
    if path is not None and not (log is not None and os.path.exists(log) and os.path.getsize(log)):
        with closing(_connected(path, 'mode=ro&immutable=1')) as connection:
            yield connection
        return
    memory = '/dev/shm' if os.path.isdir('/dev/shm') else None
    with tempfile.TemporaryDirectory(prefix='picklestep-scan-', dir=memory) as folder:
        copy = os.path.join(folder, 'copy')
        looker.budget.unpack(blob.size)
        with open(copy, 'wb') as out:
            for piece in blob.chunks():
                out.write(piece)
        if log is not None and path is not None:
            looker.budget.unpack(os.path.getsize(log))
            shutil.copyfile(log, f'{copy}-wal')
            looker.note(where, 'its write-ahead log is looked at with it')
        with closing(_connected(copy, 'mode=rw')) as connection:
            _forget(connection, folder)
            yield connection


def _forget(connection: sqlite3.Connection, folder: str) -> None:
    """Removes the names of copies that are open from now on, so that nothing of them stays where this process is ended."""
    connection.execute('PRAGMA locking_mode=EXCLUSIVE')  # (the log needs no file for others then)
    with suppress(sqlite3.Error):
        connection.execute('SELECT 1 FROM sqlite_master').fetchall()
    for name in os.listdir(folder):
        with suppress(OSError):  # (Windows keeps the name of an open file)
            os.unlink(os.path.join(folder, name))


def _path(blob: Blob) -> Optional[str]:
    """The path of a file that is still the one that is open, since SQLite opens files by their names."""
    return blob.opened_name() if isinstance(blob, FileBlob) else None


def _connected(path: str, how: str) -> sqlite3.Connection:
    name = f'file:{urllib.parse.quote(os.fsencode(path))}?{how}'
    connection = sqlite3.connect(name, uri=True, timeout=_BUSY_SECONDS, isolation_level=None)
    connection.text_factory = bytes
    for pragma in ('trusted_schema=OFF', 'query_only=ON', 'cell_size_check=ON', 'mmap_size=0', 'cache_size=-8000'):
        connection.execute(f'PRAGMA {pragma}')
    return connection


def _quoted(name: str) -> str:
    return '"' + name.replace('"', '""') + '"'


def _made_by(connection: sqlite3.Connection) -> Dict[str, List[str]]:
    """What the schema names, by the kinds that its statements make. SQLite goes by these: the column `type` may say anything."""
    made: Dict[str, List[str]] = {}
    rows = connection.execute('SELECT CAST(name AS TEXT), CAST(substr(sql, 1, 1000) AS TEXT) FROM sqlite_master '
                              'WHERE name IS NOT NULL AND sql IS NOT NULL').fetchall()
    for name, statement in rows:
        match = _STATEMENT.match(statement)
        made.setdefault(match[1].decode().lower() if match is not None else '', []).append(name.decode('utf-8'))
    return made


class _Table:
    """A table, and how much of its values has been read. A damaged file may show the same bytes as the values of endless rows."""

    def __init__(self, connection: sqlite3.Connection, name: str, size: int) -> None:
        self.connection = connection
        self.name = name
        self.size = size
        columns = [(row[1].decode('utf-8'), row[6]) for row in connection.execute(f'PRAGMA table_xinfo({_quoted(name)})')]
        self.columns = [column for column, hidden in columns if not hidden]
        self.computed = [f'{name}.{column}' for column, hidden in columns if hidden in _COMPUTED]
        taken = {column.lower() for column, _ in columns}
        self.number = next((word for word in ('rowid', '_rowid_', 'oid') if word not in taken and self._has(word)), None)

    def _has(self, number: str) -> bool:
        try:
            self.connection.execute(f'SELECT {number} FROM {_quoted(self.name)} LIMIT 0')
        except sqlite3.Error:
            return False
        return True

    def look(self, values: Values, where: Place, depth: int) -> None:
        """Looks at each value that is bytes or text."""
        read = 0
        names = [f'{self.name}.{column} row ' for column in self.columns]
        for count, row in enumerate(self._rows(), 1):
            number = count if self.number is None else row[0]
            for name, column, value in zip(names, self.columns, row[1:]):
                if value is None:
                    continue
                place = (*where, name + str(number))
                if isinstance(value, bytes):
                    read += len(value)
                    values.add(value, place, depth + 1)
                else:
                    read += self._look_at_large(values, column, number, place, depth)
            read += 1
            if read > 2 * self.size + SMALL:
                raise sqlite3.DatabaseError('its rows have more bytes than the file')

    def _rows(self) -> Iterator[Tuple[Any, ...]]:
        """The rows: their number, and the values that are bytes or text. `_LARGE` stands for one that is too large.

        (The length of a text is that up to its first NUL.)
        """
        def asked(column: str) -> str:
            name = _quoted(column)
            return (f"CASE typeof({name}) WHEN 'blob' THEN CASE WHEN length({name}) > {SMALL} THEN {_LARGE} ELSE {name} END "
                    f"WHEN 'text' THEN CASE WHEN length(CAST({name} AS BLOB)) > {SMALL} THEN {_LARGE} ELSE {name} END END")
        words = ', '.join([self.number or 'NULL', *map(asked, self.columns)])
        return iter(self.connection.execute(f'SELECT {words} FROM {_quoted(self.name)}'))

    def _look_at_large(self, values: Values, column: str, number: int, place: Place, depth: int) -> int:
        """Looks at a large value, piece by piece where Python can read one so (from 3.11 on)."""
        if self.number is None or not hasattr(self.connection, 'blobopen'):
            values.looker.note(place, 'it is too large to be read in this Python, or its table has no numbers of rows', missed=True)
            return 0
        with self.connection.blobopen(self.name, column, number, readonly=True) as opened:
            blob = _Opened(opened)
            values.add_blob(blob, place, depth + 1)
            return blob.size


class _Opened(Blob):
    """A value that SQLite reads piece by piece."""

    def __init__(self, opened: Any) -> None:
        self.opened = opened
        self.size = len(opened)

    def read(self, offset: int, count: int) -> bytes:
        if count <= 0 or offset >= self.size:
            return b''
        self.opened.seek(offset)
        return bytes(self.opened.read(count))
