"""PostgreSQL: all tables and large objects, through psycopg (3 or 2). Passwords and TLS are those of libpq: the URL, PGPASSWORD, PGSSLMODE and
the like.

What a view or a foreign table would run is not run: these are noted, as are columns of types that are not read.
"""

from __future__ import annotations

import os
import socket
import threading
from contextlib import contextmanager, suppress
from dataclasses import dataclass, field, replace
from typing import Any, Dict, Iterator, List, Tuple, Type

from .postgresql_types import QUERY as TYPES
from .postgresql_types import Types
from .server import IsSilent, library
from .sql import CONNECT_SECONDS, FIRST, Column, Rows, SqlServer, Table

__all__ = ['SERVER', 'PostgresqlServer']

# A silent server is left so long after it should have given a statement up.
_GRACE_SECONDS = 2.0

# A task has the rows of so many pages, or so many large objects.
_PAGES = 2_000
_OBJECTS = 500

# What has columns, with each of them. Numbers of objects that every database has are lower.
_COLUMNS = """
    SELECT c.oid::bigint, n.nspname::text, c.relname::text, c.relkind::text, c.relpersistence = 't',
           COALESCE(pg_relation_size(c.oid) / current_setting('block_size')::bigint, 0),
           ARRAY(SELECT k.attname::text FROM pg_index i JOIN pg_attribute k ON k.attrelid = i.indrelid AND k.attnum = ANY(i.indkey)
                 WHERE i.indrelid = c.oid AND i.indisprimary), a.attname::text, a.atttypid::bigint
    FROM pg_class c JOIN pg_namespace n ON n.oid = c.relnamespace JOIN pg_attribute a ON a.attrelid = c.oid
    WHERE c.relkind IN ('r', 'm', 'p', 'v', 'f', 'c') AND a.attnum > 0 AND NOT a.attisdropped AND c.oid >= 16384
    ORDER BY 2, 3, a.attnum"""
# Which tables are parts of others.
_PARENTS = 'SELECT inhrelid::bigint, inhparent::bigint FROM pg_inherits'

_TABLES, _IN_PARTS = ('r', 'm'), 'p'
_UNREAD = {'v': 'views', 'f': 'foreign tables'}
_TEMPORARY = 'temporary tables of other sessions'

# Large objects, and those of them that this user may read.
_LARGE = Table('pg_catalog', 'pg_largeobject', (Column('data', False),), ('loid',), 0)
_MAY_READ = """(pg_has_role(lomowner, 'USAGE') OR EXISTS (
    SELECT FROM aclexplode(lomacl) a WHERE a.privilege_type = 'SELECT' AND (a.grantee = 0 OR pg_has_role(a.grantee, 'USAGE'))))"""
_TO_READ = 0x40000


@dataclass
class _Relation:
    """What is known of something with columns."""

    schema: str
    name: str
    kind: str
    is_temporary: bool
    pages: int
    keys: Tuple[str, ...]
    columns: List[Tuple[str, int]] = field(default_factory=list)  # (their names, and the numbers of their types)


class PostgresqlServer(SqlServer):
    """A database of PostgreSQL."""

    def connect(self) -> Any:
        self.library = library('psycopg', 'psycopg2')
        url = self.address.plain
        # (libpq takes a second or less for no limit)
        seconds = max(2, int(min(self.seconds, CONNECT_SECONDS)))
        options = f'-c default_transaction_read_only=on -c statement_timeout={int(self.seconds * 1000)}'
        # (of a database of the encoding SQL_ASCII texts would come as bytes, or with ASCII alone)
        return self.library.connect(url, connect_timeout=seconds, options=options, application_name='picklestep-scan', client_encoding='UTF8')

    @contextmanager
    def waiting(self) -> Iterator[None]:
        """libpq waits for ever where a server is silent: the connection is cut then, a little after the server itself gives a slow statement
        up."""
        cut = threading.Event()

        def end() -> None:
            cut.set()
            with suppress(OSError, *self.errors()), socket.socket(fileno=os.dup(self.connection.fileno())) as link:
                link.shutdown(socket.SHUT_RDWR)
        timer = threading.Timer(self.seconds + _GRACE_SECONDS, end)
        timer.daemon = True
        timer.start()
        try:
            yield
        except self.errors():
            if cut.is_set():
                raise IsSilent(f'timed out: no answer within {self.seconds:g} seconds') from None
            raise
        finally:
            timer.cancel()

    def errors(self) -> Tuple[Type[BaseException], ...]:
        return (library('psycopg', 'psycopg2').Error,)

    # --- What there is ---

    def tables(self) -> List[Table]:
        relations: Dict[int, _Relation] = {}
        for number, schema, name, kind, is_temporary, pages, keys, column, of in self.all_of(_COLUMNS):
            each = relations.setdefault(number, _Relation(schema, name, kind, is_temporary, int(pages), tuple(keys)))
            each.columns.append((column, of))
        types = Types(self.all_of(TYPES), {number: [kind for _, kind in each.columns] for number, each in relations.items()})
        parents: Dict[int, List[int]] = {}
        for number, parent in self.all_of(_PARENTS):
            parents.setdefault(number, []).append(parent)
        found: List[Table] = []
        whole = {parent for several in parents.values() for parent in several}
        for number, each in relations.items():
            if each.kind == _IN_PARTS and number not in whole:
                each.kind = _TABLES[0]  # (it has no parts, and so no rows)
            found += _tables_of(each, types, tuple(_within(number, parents, relations)))
        found += self._large_objects()
        self._end()
        return found

    def _large_objects(self) -> Iterator[Table]:
        (readable, others), = self.all_of(f'SELECT count(*) FILTER (WHERE {_MAY_READ}), count(*) FILTER (WHERE NOT {_MAY_READ}) '
                                          'FROM pg_largeobject_metadata')
        if readable:
            yield _LARGE
        if others:
            yield Table(_LARGE.schema, _LARGE.name, _LARGE.columns, (), 0, rows=others, unread='large objects that this user may not read')

    def rows_of(self, table: Table) -> Iterator[Rows]:
        if _is_of_objects(table):
            with self.named():
                ends = self.all_of('SELECT oid::bigint FROM (SELECT oid, row_number() OVER (ORDER BY oid) AS number '
                                   f'FROM pg_largeobject_metadata) objects WHERE mod(number, {_OBJECTS}) = 0')
            self._end()
            bounds = [None, *(end for end, in ends), None]
            yield from (Rows(table, *pair) for pair in zip(bounds, bounds[1:]))
            return
        for begin in range(0, max(1, table.size), _PAGES):
            # (the last task has what came meanwhile, too)
            yield Rows(table, begin, begin + _PAGES if begin + _PAGES < table.size else None)

    # --- How it is asked ---

    def query(self, rows: Rows) -> Tuple[str, List[Any]]:
        table = rows.table
        if _is_of_objects(table):
            return _query_of_objects(rows), []
        column = table.columns[0]
        place, name = 'ctid::text', " || ',' || ".join(f'{_quoted(key)}::text' for key in table.keys) or 'ctid::text'
        words = [place, name]
        if column.is_array:
            words = [f"{place} || ' ' || number", f"{name} || ' [' || number || ']'", *_value(_cast('element', column))]
        else:
            for column in table.columns:
                words += _value(_cast(_quoted(column.name), column))
        places = f"ctid >= '({rows.begin or 0},0)'" + ('' if rows.end is None else f" AND ctid < '({rows.end},0)'")
        elements = f', {_elements(column)}' if column.is_array else ''
        return f'SELECT {", ".join(words)} FROM ONLY {_place_of(table)}{elements} WHERE {places}', []

    def part_query(self, table: Table, column: Column) -> str:
        if _is_of_objects(table):
            return 'SELECT lo_get(oid, %s::bigint - 1, %s::int) FROM pg_largeobject_metadata WHERE oid = %s::oid'
        value = _cast('element' if column.is_array else _quoted(column.name), column)
        value = f"convert_to({value}, 'UTF8')" if column.is_text else value
        if not column.is_array:
            return f'SELECT substring({value} from %s for %s) FROM ONLY {_place_of(table)} WHERE ctid = %s::tid'
        return (f"SELECT substring({value} from %s for %s) FROM (SELECT string_to_array(%s, ' ') AS parts) place JOIN ONLY {_place_of(table)} "
                f'ON ctid = parts[1]::tid, {_elements(column)} WHERE number = parts[2]::bigint')

    def cursor(self) -> Any:
        return self.connection.cursor(name='picklestep_scan')


def _within(number: int, parents: Dict[int, List[int]], relations: Dict[int, _Relation]) -> Iterator[str]:
    """The names of all tables of which a table is a part."""
    for parent in parents.get(number, ()):
        if parent in relations:
            yield from (relations[parent].name, f'{relations[parent].schema}.{relations[parent].name}')
            yield from _within(parent, parents, relations)


def _tables_of(each: _Relation, types: Types, within: Tuple[str, ...]) -> Iterator[Table]:
    """The columns of a relation that are read together, each column of arrays, and what is not read."""
    whole = Table(each.schema, each.name, (), each.keys, each.pages, within=within)
    together: List[Column] = []
    columns = [types.column(*column) for column in each.columns]
    unread = _TEMPORARY if each.is_temporary else _UNREAD.get(each.kind, '')
    for column, why in columns:
        if column is None:
            continue
        if unread or not why and not column.is_array:
            together.append(column)
        elif each.kind in _TABLES:
            yield replace(whole, columns=(column,), unread=why)
    if together and (unread or each.kind in _TABLES):
        yield replace(whole, columns=tuple(together), unread=unread)


def _is_of_objects(table: Table) -> bool:
    return table.place == _LARGE.place


def _query_of_objects(rows: Rows) -> str:
    """What gives large objects. (Those that are open are closed where the transaction ends.)"""
    bounds = [f'oid {sign} {bound}' for sign, bound in (('>=', rows.begin), ('<', rows.end)) if bound is not None]
    where = ' AND '.join([_MAY_READ, *bounds])
    return (f'SELECT oid::text, oid::text, CASE WHEN octet_length(data) < {FIRST} THEN data END, CASE WHEN octet_length(data) < {FIRST} '
            f'THEN octet_length(data) ELSE lo_lseek64(lo_open(oid, {_TO_READ}), 0, 2) END '
            f'FROM (SELECT oid, lo_get(oid, 0, {FIRST}) AS data FROM pg_largeobject_metadata WHERE {where} ORDER BY oid OFFSET 0) objects')


def _cast(value: str, column: Column) -> str:
    """A value as bytes or text, whatever domain it is of."""
    return f'{value}::{"text" if column.is_text else "bytea"}'


def _value(value: str) -> List[str]:
    """What gives a value where it is not large, and its length."""
    return [f'CASE WHEN octet_length({value}) <= {FIRST} THEN {value} END', f'octet_length({value})']


def _elements(column: Column) -> str:
    return f'unnest({_quoted(column.name)}) WITH ORDINALITY elements (element, number)'


def _quoted(name: str) -> str:
    return '"' + name.replace('"', '""').replace('%', '%%') + '"'


def _place_of(table: Table) -> str:
    return f'{_quoted(table.schema)}.{_quoted(table.name)}'


SERVER = PostgresqlServer
