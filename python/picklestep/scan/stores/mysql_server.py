"""MySQL and MariaDB: all tables of a database, through PyMySQL. The password is that of the URL, or MYSQL_PWD; `?ssl=true` asks for TLS.

What a view would run is not run: views are noted, as are earlier rows, which some tables keep.
"""

from __future__ import annotations

import os
import ssl
from dataclasses import dataclass, field
from typing import Any, Dict, Iterator, List, Tuple, Type
from urllib.parse import parse_qsl, unquote

from .server import library
from .sql import CONNECT_SECONDS, FIRST, Column, Rows, SqlServer, Table

__all__ = ['SERVER', 'MysqlServer']

_BYTES = ('tinyblob', 'blob', 'mediumblob', 'longblob', 'binary', 'varbinary')
_TEXTS = ('tinytext', 'text', 'mediumtext', 'longtext', 'char', 'varchar', 'json')

# By a column of one of these that has an index, the rows of a table are handed out in parts. A task has rows of about so many bytes, and a
# table so many tasks at most.
_NUMBERS = ('tinyint', 'smallint', 'mediumint', 'int', 'bigint')
_OTHERS = ('char', 'varchar', 'binary', 'varbinary', 'decimal', 'date', 'datetime', 'timestamp')
_BYTES_OF_TASK = 16 << 20
_MOST_TASKS = 10_000

_COLUMNS = """
    SELECT c.table_schema, c.table_name, c.column_name, c.data_type, c.column_key, t.data_length, t.table_rows,
           EXISTS (SELECT * FROM information_schema.statistics s WHERE s.table_schema = c.table_schema AND s.table_name = c.table_name
                   AND s.column_name = c.column_name AND s.seq_in_index = 1 AND s.sub_part IS NULL AND s.index_type = 'BTREE'
                   AND c.is_nullable = 'NO'), t.table_type
    FROM information_schema.columns c JOIN information_schema.tables t ON t.table_schema = c.table_schema AND t.table_name = c.table_name
    WHERE c.table_schema = COALESCE(DATABASE(), c.table_schema)
      AND (DATABASE() IS NOT NULL OR c.table_schema NOT IN ('information_schema', 'performance_schema')
           AND (c.table_schema NOT IN ('mysql', 'sys') OR t.table_type = 'BASE TABLE'))
    ORDER BY 1, 2, c.ordinal_position"""

# What has rows of its own. (A sequence has numbers alone.)
_VERSIONED = 'SYSTEM VERSIONED'
_TABLES = ('BASE TABLE', _VERSIONED)
_UNREAD = {'VIEW': 'views', 'SYSTEM VIEW': 'views of the server'}


@dataclass
class _Found:
    """What is known of a table: how many bytes and rows it has, by what the server reckons, and by which columns its rows can be handed out."""

    size: int
    rows: int
    kind: str
    columns: List[Column] = field(default_factory=list)
    keys: List[str] = field(default_factory=list)
    orders: Dict[str, str] = field(default_factory=dict)  # (their types)

    def tables(self, schema: str, name: str) -> Iterator[Table]:
        """The table of this name, if it is one, and what is not read of it."""
        if not self.columns:
            return
        if self.kind in _TABLES:
            yield self._table(schema, name)
        if self.kind != 'BASE TABLE':
            what = 'earlier rows of tables' if self.kind == _VERSIONED else _UNREAD.get(self.kind, 'tables of other kinds')
            yield Table(schema, name, tuple(self.columns), (), 0, unread=what)

    def _table(self, schema: str, name: str) -> Table:
        """The table. Its own key is the best order: the rows lie so."""
        orders = sorted(self.orders, key=lambda each: each not in self.keys)
        tasks = min(_MOST_TASKS, 1 + self.size // _BYTES_OF_TASK)
        is_number = bool(orders) and self.keys == orders[:1] and self.orders[orders[0]] in _NUMBERS
        # (values of one number are spread evenly enough; with others it is asked where so many rows end)
        rows = 0 if is_number or tasks < 2 else max(1, self.rows // tasks)
        order = Column(orders[0], self.orders[orders[0]] in _TEXTS) if orders and tasks > 1 else None
        return Table(schema, name, tuple(self.columns), tuple(self.keys), self.size, order, rows)


class MysqlServer(SqlServer):
    """A database of MySQL, or all of its databases where the URL names none (but those whose tables the server makes up)."""

    def connect(self) -> Any:
        self.library = library('pymysql')
        split = self.address.split
        query = dict(parse_qsl(split.query))
        words: Dict[str, Any] = {'ssl': ssl.create_default_context()} if query.get('ssl') in ('true', '1') else {}
        if 'unix_socket' in query:
            words['unix_socket'] = query['unix_socket']
        connection = self.library.connect(
            host=split.hostname or '127.0.0.1', port=split.port or 3306, user=unquote(split.username or '') or None,
            password=self.address.password or os.environ.get('MYSQL_PWD', ''), database=split.path.strip('/') or None, use_unicode=False,
            charset='utf8mb4', connect_timeout=min(self.seconds, CONNECT_SECONDS), read_timeout=self.seconds, **words)
        with connection.cursor() as cursor:
            cursor.execute('SET SESSION TRANSACTION READ ONLY')
        return connection

    def errors(self) -> Tuple[Type[BaseException], ...]:
        return (library('pymysql').MySQLError,)

    def tables(self) -> List[Table]:
        found: Dict[Tuple[str, str], _Found] = {}
        for row in self.all_of(_COLUMNS):
            schema, name, column, kind, key = (_text(each) for each in row[:5])
            each = found.setdefault((schema, name), _Found(int(row[5] or 0), int(row[6] or 0), _text(row[8])))
            if kind in _BYTES + _TEXTS:
                each.columns.append(Column(column, kind in _TEXTS))
            if key == 'PRI':
                each.keys.append(column)
            if row[7] and kind in _NUMBERS + _OTHERS:
                each.orders[column] = kind
        return [table for name, each in found.items() for table in each.tables(*name)]

    def rows_of(self, table: Table) -> Iterator[Rows]:
        """The rows in ranges of a column that has an index. A table without such a column is one task."""
        begin = None
        if table.order is not None:
            # (the first and the last task have what came meanwhile, too)
            for end in self._steps(table, table.order) if table.rows else self._numbers(table, table.order):
                yield Rows(table, begin, end)
                begin = end
        yield Rows(table, begin)

    def _numbers(self, table: Table, order: Column) -> Iterator[int]:
        """Numbers at which ranges of the key end."""
        count = min(_MOST_TASKS, 1 + table.size // _BYTES_OF_TASK)
        with self.named():
            (least, most), = self.all_of(f'SELECT MIN({_quoted(order.name)}), MAX({_quoted(order.name)}) FROM {_place_of(table)}')
        if least is not None and most is not None:
            yield from sorted({int(least) + (int(most) - int(least)) * number // count for number in range(1, count)})

    def _steps(self, table: Table, order: Column) -> Iterator[Any]:
        """Values at which so many rows end, by the index."""
        name = _quoted(order.name)
        value: Any = None
        while True:
            where = f'WHERE {name} > %s ' if value is not None else ''
            with self.named():
                found = super().all_of(f'SELECT {name} FROM {_place_of(table)} {where}ORDER BY {name} LIMIT 1 OFFSET {table.rows}',
                                       [] if value is None else [value])
            if not found:
                return
            # (as bytes a text would be compared in another order than that of the index)
            value = found[0][0].decode('utf-8', 'surrogateescape') if order.is_text and isinstance(found[0][0], bytes) else found[0][0]
            yield value

    def query(self, rows: Rows) -> Tuple[str, List[Any]]:
        table = rows.table
        name = f"CONCAT_WS(',', {', '.join(map(_quoted, table.keys))})" if table.keys else "'-'"
        words = [_quoted(table.keys[0]) if len(table.keys) == 1 else 'NULL', name]
        # (a row of a table without a key, or with one of several columns, cannot be asked for again)
        most = FIRST if len(table.keys) == 1 else 1 << 62
        for column in table.columns:
            value = _quoted(column.name)
            words += [f'CASE WHEN LENGTH({value}) <= {most} THEN {value} END', f'LENGTH({value})']
        bounds = [(sign, bound) for sign, bound in (('>=', rows.begin), ('<', rows.end)) if bound is not None]
        order = _quoted(table.order.name) if table.order is not None else ''
        where = ' AND '.join(f'{order} {sign} %s' for sign, _ in bounds)
        return f'SELECT {", ".join(words)} FROM {_place_of(table)}{" WHERE " if where else ""}{where}', [bound for _, bound in bounds]

    def part_query(self, table: Table, column: Column) -> str:
        value = f'CAST({_quoted(column.name)} AS BINARY)'
        return f'SELECT SUBSTRING({value}, %s, %s) FROM {_place_of(table)} WHERE {_quoted(table.keys[0])} = %s'

    def cursor(self) -> Any:
        return self.connection.cursor(library('pymysql.cursors').SSCursor)

    def all_of(self, query: str, words: Any = ()) -> List[Tuple[Any, ...]]:
        # (while rows come, their connection answers nothing else)
        if words:
            if not hasattr(self, 'second'):
                self.second = self.connect()
            with self.second.cursor() as cursor:
                cursor.execute(query, words)
                return list(cursor.fetchall())
        return super().all_of(query, words)


def _text(value: Any) -> str:
    return value.decode('utf-8', 'replace') if isinstance(value, bytes) else str(value)


def _quoted(name: str) -> str:
    return '`' + name.replace('`', '``').replace('%', '%%') + '`'


def _place_of(table: Table) -> str:
    return f'{_quoted(table.schema)}.{_quoted(table.name)}'


SERVER = MysqlServer
