"""What SQL servers have in common: tables, rows in tasks, and values that are read in parts where they are large.

A kind of server says how it is asked. All is read in transactions that cannot write.
"""

from __future__ import annotations

from contextlib import closing, contextmanager, nullcontext, suppress
from dataclasses import dataclass, replace
from fnmatch import fnmatchcase
from typing import Any, Callable, ContextManager, Dict, Iterator, List, Optional, Tuple, Type
from weakref import finalize

from ...patterns import pattern
from ..blobs import Blob
from ..results import Place
from .address import Address
from .server import IsSilent, NoServer, Server, Wanted
from .values import Values, not_looked_at

__all__ = ['Column', 'Rows', 'SqlServer', 'Table']

# Values up to this size come with their rows, and so many rows come at once.
FIRST = 64 << 10
ROWS = 200

CONNECT_SECONDS = 10
ANSWER_SECONDS = 600

# What libraries say where the time for an answer has passed.
_TIMED_OUT = pattern(r'timed out|timeout expired')


@dataclass(frozen=True)
class Column:
    """A column of bytes or text, or of arrays of these."""

    name: str
    is_text: bool
    is_array: bool = False


@dataclass(frozen=True)
class Table:
    """A table with its columns of bytes or text, and those by which a row is named. `size` is in the server's own measure.

    `order` is a column by whose values its rows can be handed out in parts, each with about so many `rows`, where there is one. `within` names
    the tables of which this one is a part. `unread` says as what (in the plural) it, its columns or so many `rows` are counted where they are not
    looked at.
    """

    schema: str
    name: str
    columns: Tuple[Column, ...]
    keys: Tuple[str, ...]
    size: int
    order: Optional[Column] = None
    rows: int = 0
    within: Tuple[str, ...] = ()
    unread: str = ''

    @property
    def place(self) -> str:
        """Its name, and that of its schema."""
        return f'{self.schema}.{self.name}'


@dataclass(frozen=True)
class Rows:
    """Some rows of a table: from one place (or value of its `order`) on up to another, or all."""

    table: Table
    begin: Any = None
    end: Any = None


class SqlServer(Server):
    """A database on a server. What is abstract here is how a kind of server is asked."""

    def __init__(self, address: Address) -> None:
        super().__init__(address)
        self.seconds = address.seconds(ANSWER_SECONDS)
        with self.named():
            self.connection: Any = self.connect()
        # (psycopg 3 complains of what is open when Python ends)
        finalize(self, _close, self.connection)

    # --- Of each kind ---

    def connect(self) -> Any:
        """A connection that reads only."""
        raise NotImplementedError

    def errors(self) -> Tuple[Type[BaseException], ...]:
        """The exceptions of the library."""
        raise NotImplementedError

    def tables(self) -> List[Table]:
        """All tables that have columns of bytes or text."""
        raise NotImplementedError

    def rows_of(self, table: Table) -> Iterator[Rows]:
        """The rows of a table in parts."""
        yield Rows(table)

    def query(self, rows: Rows) -> Tuple[str, List[Any]]:
        """What gives the rows: the place, its name, and for each column its value (where it is not large) and its length."""
        raise NotImplementedError

    def part_query(self, table: Table, column: Column) -> str:
        """What gives a part of a value, by offset (from 1 on), count, and place."""
        raise NotImplementedError

    def cursor(self) -> Any:
        """A cursor that does not fetch all rows at once."""
        raise NotImplementedError

    def waiting(self) -> ContextManager[None]:
        """Within it an answer is waited for, and no longer than it may take."""
        return nullcontext()

    # --- Of all ---

    @contextmanager
    def named(self) -> Iterator[None]:
        """Errors of the library as NoServer."""
        kinds: Tuple[Type[BaseException], ...] = (*self.errors(), OSError)
        try:
            yield
        except NoServer:
            raise
        except kinds as error:
            kind = IsSilent if _TIMED_OUT.search(str(error)) else NoServer
            raise kind(f'{type(error).__name__}: {error}') from None

    def all_of(self, query: str, words: Any = ()) -> List[Tuple[Any, ...]]:
        """All rows of a small answer."""
        with closing(self.connection.cursor()) as cursor, self.waiting():
            cursor.execute(query, words)
            found: List[Tuple[Any, ...]] = list(cursor.fetchall())
            return found

    def parts(self, wanted: Wanted) -> Iterator[Tuple[Any, ...]]:
        with self.named():
            found = self.tables()
        asked = [table for table in map(self._asked, found) if table is not None]
        if not asked and self.address.asked:
            raise NoServer('there is no such table with such a column of bytes or text')
        matching = [table for table in asked if _matches(table, wanted.match)]
        notes = _left_out(matching)
        for table in matching:
            for rows in self.rows_of(table) if not table.unread else ():
                yield rows, wanted.sample, notes
                notes = ()
        if notes:
            yield None, wanted.sample, notes

    def _asked(self, table: Table) -> Optional[Table]:
        """What the URL asks for of a table. None where that is nothing."""
        asked = self.address.asked
        columns = tuple(column for column in table.columns if asked.get('column') in (None, column.name))
        is_asked = asked.get('table') in (None, table.name, table.place, *table.within)
        return replace(table, columns=columns) if is_asked and columns else None

    def narrowed(self, keys: Tuple[Any, ...], wants: Callable[[Place], bool]) -> Optional[Tuple[Any, ...]]:
        rows, most, notes = keys
        if rows is None:
            return keys
        columns = tuple(column for column in rows.table.columns if wants((_place_of(rows.table, column),)))
        return (replace(rows, table=replace(rows.table, columns=columns)), most, notes) if columns or notes else None

    def look(self, values: Values, keys: Tuple[Any, ...]) -> int:
        rows, most, notes = keys
        for text in notes:
            values.looker.note((), text, missed=True)
        return self._look_at_rows(values, rows, most) if rows is not None else 0

    def _look_at_rows(self, values: Values, rows: Rows, most: Optional[int]) -> int:
        count = 0
        with self.named(), closing(self.cursor()) as cursor:
            with self.waiting():
                cursor.execute(*self.query(rows))
            while most is None or count < most:
                with self.waiting():
                    fetched = cursor.fetchmany(ROWS)
                for row in fetched[:None if most is None else most - count]:
                    count += 1
                    self._look_at_row(values, rows.table, row)
                if not fetched:
                    break
        self._end()
        return count

    def _end(self) -> None:
        """Ends the transaction, so that the server keeps nothing for it."""
        with self.named(), self.waiting():
            self.connection.rollback()

    def _look_at_row(self, values: Values, table: Table, row: Tuple[Any, ...]) -> None:
        place, name = row[0], row[1]
        for column, value, length in zip(table.columns, row[2::2], row[3::2]):
            where = (_place_of(table, column), f'row {_bytes_of(name).decode("utf-8", "backslashreplace")[:200]}')
            if value is not None:
                values.add(_bytes_of(value), where)
            elif length:
                values.add_blob(_Value(self, self.part_query(table, column), place, int(length)), where)


def _place_of(table: Table, column: Column) -> str:
    """The name of a column, as places have it."""
    return f'{table.place}.{column.name}'


def _matches(table: Table, match: Optional[str]) -> bool:
    """Whether a pattern takes a table, by its name or that of one of which it is a part."""
    return match is None or any(fnmatchcase(name, match) for name in (table.name, *table.within))


def _left_out(tables: List[Table]) -> Tuple[str, ...]:
    """What is said of those that are not looked at."""
    names: Dict[str, List[str]] = {}
    for table in tables:
        if table.unread:
            columns = [f'{table.place}.{column.name}' for column in table.columns]
            names.setdefault(table.unread, []).extend(columns if table.unread.startswith('columns') else [table.place] * max(1, table.rows))
    return tuple(not_looked_at(what, each) for what, each in names.items())


def _close(connection: Any) -> None:
    with suppress(Exception):  # (it may be gone)
        connection.close()


def _bytes_of(value: Any) -> bytes:
    return value.encode('utf-8', 'surrogateescape') if isinstance(value, str) else bytes(value)


class _Value(Blob):
    """A large value, which the server hands out in parts."""

    def __init__(self, server: SqlServer, query: str, place: Any, size: int) -> None:
        self.server = server
        self.query = query
        self.place = place
        self.size = size

    def read(self, offset: int, count: int) -> bytes:
        if count <= 0 or offset >= self.size:
            return b''
        found = self.server.all_of(self.query, (offset + 1, min(count, self.size - offset), self.place))
        return _bytes_of(found[0][0]) if found and found[0][0] is not None else b''  # (the row may be gone)
