"""Fills stores by the libraries that people use, in an interpreter that has them: `fill_stores.py NAME WORD..`.

Each store gets harmless values, and one hostile one in the midst of them. Nothing here is ever loaded.
"""

from __future__ import annotations

import base64
import json
import logging.handlers
import multiprocessing.connection
import os
import pickle
import shelve
import socket
import sqlite3
import sys
from pathlib import Path
from typing import Any, Iterator, List, Tuple


class Hostile:
    """Would run a command where it is loaded."""

    def __reduce__(self) -> Any:
        return os.system, ('id',)


def harmless(number: int) -> bytes:
    """A value of about a kilobyte."""
    return pickle.dumps({'number': number, 'text': 'x' * 900, 'tags': ['a', 'b', number]}, 4)


def values(count: int) -> Iterator[Tuple[int, bytes]]:
    """So many harmless values, with a hostile one after two thirds of them."""
    for number in range(count):
        yield number, harmless(number)
        if number == count * 2 // 3:
            yield count, pickle.dumps(Hostile())


# --- Files ---

def diskcache(folder: str) -> None:
    import diskcache
    with diskcache.Cache(folder) as cache:
        for number in range(300):
            cache[f'key {number}'] = {'number': number}
        cache['evil'] = [Hostile()]


def apscheduler(path: str) -> None:
    from apscheduler.schedulers.background import BackgroundScheduler
    scheduler = BackgroundScheduler()
    scheduler.add_jobstore('sqlalchemy', url=f'sqlite:///{path}')
    scheduler.start(paused=True)
    for number in range(20):
        scheduler.add_job(os.getcwd, 'interval', hours=1, id=f'job {number}')
    scheduler.add_job(print, 'interval', hours=1, id='evil', args=[Hostile()])
    scheduler.shutdown()


def django(folder: str) -> None:
    import django
    from django.conf import settings
    caches = {'default': {'BACKEND': 'django.core.cache.backends.filebased.FileBasedCache', 'LOCATION': f'{folder}/files'},
              'table': {'BACKEND': 'django.core.cache.backends.db.DatabaseCache', 'LOCATION': 'cache_table'}}
    settings.configure(CACHES=caches, DATABASES={'default': {'ENGINE': 'django.db.backends.sqlite3', 'NAME': f'{folder}/django.db'}},
                       INSTALLED_APPS=['django.contrib.sessions'], SECRET_KEY='key of a test', USE_TZ=True,
                       SESSION_SERIALIZER='django.contrib.sessions.serializers.PickleSerializer', DEFAULT_AUTO_FIELD='django.db.models.AutoField')
    django.setup()
    from django.contrib.sessions.backends.db import SessionStore
    from django.core.cache import caches as made
    from django.core.management import call_command
    call_command('createcachetable', verbosity=0)
    call_command('migrate', verbosity=0)
    for name in ('default', 'table'):
        for number in range(30):
            made[name].set(f'key {number}', {'number': number})
        made[name].set('evil', Hostile())
    session = SessionStore()
    session['evil'] = Hostile()
    session.save()


def file_caches(folder: str) -> None:
    """Caches and queues that are folders with files: cachelib (Flask), dogpile, queuelib (Scrapy), Celery's files, Django's sessions."""
    import celery
    import django
    from cachelib import FileSystemCache
    from django.conf import settings
    from dogpile.cache import make_region
    from dogpile.cache.api import CachedValue
    from queuelib import LifoDiskQueue
    cache = FileSystemCache(f'{folder}/cachelib')
    cache.set('harmless', {'number': 1})
    cache.set('evil', Hostile())

    # (as dogpile gives it to whatever keeps bytes)
    os.mkdir(f'{folder}/dogpile')
    region = make_region(serializer=pickle.dumps, deserializer=pickle.loads)
    Path(folder, 'dogpile', 'value').write_bytes(region._serialized_cached_value(CachedValue(Hostile(), {'ct': 1700000000.5, 'v': 1})))

    os.mkdir(f'{folder}/queuelib')
    queue = LifoDiskQueue(f'{folder}/queuelib/p0')
    for number in range(5):
        queue.push(pickle.dumps({'number': number} if number != 3 else Hostile(), 4))
    queue.close()

    os.mkdir(f'{folder}/celery')
    app = celery.Celery(broker='filesystem://')
    folders = {name: f'{folder}/celery' for name in ('data_folder_in', 'data_folder_out', 'control_folder')}
    app.conf.update(task_serializer='pickle', accept_content=['pickle'], broker_transport_options=folders)
    app.send_task('module.task', args=(Hostile(),))

    os.mkdir(f'{folder}/django')
    settings.configure(SECRET_KEY='key of a test', SESSION_FILE_PATH=f'{folder}/django',
                       SESSION_SERIALIZER='django.contrib.sessions.serializers.PickleSerializer')
    django.setup()
    from django.contrib.sessions.backends.file import SessionStore
    for held in (Hostile(), ['x' * 5000, Hostile()]):
        session = SessionStore()
        session['evil'] = held
        session.save()


def requests_cache(path: str) -> None:
    from requests_cache.backends.sqlite import SQLitePickleDict
    cache = SQLitePickleDict(path, 'responses')
    for number in range(30):
        cache[f'key {number}'] = {'number': number}
    cache['evil'] = Hostile()


def shelves(folder: str) -> None:
    from importlib import import_module
    for kind in ('gnu', 'ndbm', 'dumb'):
        with shelve.Shelf(import_module(f'dbm.{kind}').open(f'{folder}/{kind}', 'n')) as shelf:
            for number in range(1000):
                shelf[f'key {number}'] = {'number': number, 'text': 'x' * number}
            shelf['evil'] = Hostile()
            shelf['large evil'] = ['x' * 100_000, Hostile()]


def streams(folder: str) -> None:
    handler = logging.handlers.SocketHandler('127.0.0.1', 1)
    lines = [handler.makePickle(logging.makeLogRecord({'msg': f'line {number}'})) for number in range(100)]
    # (a hostile sender writes what it likes behind the length)
    evil = pickle.dumps(Hostile(), 1)
    Path(folder, 'socket_handler').write_bytes(b''.join([*lines, len(evil).to_bytes(4, 'big'), evil, *lines]))
    near, far = socket.socketpair()
    sender = multiprocessing.connection.Connection(near.detach())
    for item in ({'a': 1}, Hostile(), [1, 2]):
        sender.send(item)
    sender.close()
    with far, far.makefile('rb') as received:
        Path(folder, 'connection').write_bytes(received.read())


def named_as_stores(folder: str) -> None:
    """A store of each kind that is a file, after values have been taken out of it again; for HDF5 several."""
    import dbm.gnu
    import dbm.ndbm
    import h5py
    for name, module in (('gdbm', dbm.gnu), ('Berkeley', dbm.ndbm)):
        with module.open(f'{folder}/{name}', 'n') as store:  # type: ignore[attr-defined]
            for number in range(500):
                store[f'key {number}'] = b'v' * (number * 7 % 3_000)
            for number in range(0, 500, 3):
                del store[f'key {number}']
    for version in ('earliest', 'latest'):
        for block in (0, 512, 2048):
            with h5py.File(f'{folder}/hdf5 {version} {block}', 'w', libver=version, userblock_size=block) as file:
                file['numbers'] = list(range(1_000))
                file.attrs['name'] = b'value'
                del file['numbers']
    with h5py.File(f'{folder}/hdf5 of pages', 'w', fs_strategy='page', fs_page_size=4096) as file:
        file['numbers'] = list(range(3_000))
    for mode in ('delete', 'wal'):
        connection = sqlite3.connect(f'{folder}/sqlite {mode}')
        connection.execute(f'PRAGMA journal_mode={mode}')
        connection.execute('CREATE TABLE t (value BLOB)')
        connection.executemany('INSERT INTO t VALUES (?)', [(b'x' * 900,)] * 500)
        connection.commit()
        connection.execute('DELETE FROM t WHERE rowid > 20')
        connection.commit()
        connection.execute('VACUUM')
        connection.close()


def hdf5(path: str) -> None:
    import h5py
    import numpy
    evil = pickle.dumps(Hostile())
    with h5py.File(path, 'w') as file:
        group = file.create_group('group')
        group.attrs['evil'] = numpy.void(evil)
        group.attrs['title'] = 'harmless'
        file['numbers'] = numpy.arange(10_000.0)
        file['image'] = numpy.zeros((50, 50), 'u1')
        file['bytes'] = numpy.frombuffer(pickle.dumps(['x' * 5000, Hostile()]), 'u1')
        file['opaque'] = numpy.void(evil)
        rows = file.create_dataset('rows', (20,), dtype=h5py.vlen_dtype(numpy.dtype('u1')))
        rows[7] = numpy.frombuffer(evil, 'u1')
        file['texts'] = numpy.array([b'harmless', base64.b64encode(evil)])
        # (as PyTables writes tables: a row has fields, some of them arrays or with fields of their own)
        kind = numpy.dtype([('number', 'i4'), ('state', f'V{len(evil)}'), ('more', [('cells', 'u1', (len(evil),)), ('flag', 'u1')])])
        table = numpy.zeros(10, kind)
        table['state'][4] = numpy.void(evil)
        table['more']['cells'][7] = numpy.frombuffer(evil, 'u1')
        file['table'] = table
        file['table'].attrs['row'] = table[4]


def sqlite_rows(path: str, count: str) -> None:
    """Harmless rows, and a hostile one: as Huey has its queue."""
    connection = sqlite3.connect(path)
    connection.execute('CREATE TABLE task (id INTEGER NOT NULL PRIMARY KEY, queue TEXT NOT NULL, data BLOB NOT NULL, priority REAL)')
    connection.executemany('INSERT INTO task (queue, data) VALUES (?, ?)', (('huey', value) for _, value in values(int(count))))
    connection.commit()
    connection.close()


# --- Servers ---

def redis_server(port: str, password: str, count: str) -> None:
    """Harmless strings, and hostile values in each type, as libraries write them."""
    import redis
    client = redis.Redis(port=int(port), password=password)
    pipe = client.pipeline(transaction=False)
    for number, value in values(int(count)):
        pipe.set(f'key {number}', value)
        if number % 1000 == 999:
            pipe.execute()
    pipe.execute()
    evil = pickle.dumps(Hostile())
    client.rpush('list', b'harmless', evil)
    client.sadd('set', b'harmless', evil)
    client.zadd('sorted set', {evil: 1.5})
    client.xadd('stream', {'harmless': 'x', 'field': evil})
    client.hset('dramatiq:default.msgs', 'message', pickle.dumps({'queue_name': 'default', 'args': (Hostile(),)}))
    client.set('flask_cache', b'!' + evil)
    client.set(b'long \x1b[2J' + b'k' * 1_000_000, evil)
    # (that is no pickle: 512 MB where there are many values, else more than what is read at once)
    client.setrange('large', (512 << 20 if int(count) > 10_000 else 16 << 20) - 1, b'x')


def redis_names(url: str) -> None:
    """Names that are hostile, in each place that has one, and harmless ones."""
    import redis
    client = redis.Redis.from_url(url)
    evil, text = pickle.dumps(Hostile()), pickle.dumps(Hostile(), 0)
    for number, name in enumerate((evil, text, b'harmless.', pickle.dumps(1))):
        client.set(name, b'harmless')
        client.hset('hash', name, b'harmless')
        client.xadd('stream', {name: b'harmless'}, id=f'{number + 1}-1')


def redis_values(url: str) -> None:
    """A thousand harmless values, one that is hostile, one that is large, and a list."""
    import redis
    client = redis.Redis.from_url(url)
    client.mset({f'key {number:03}': harmless(number) for number in range(1_000)})
    client.set('evil', pickle.dumps(Hostile()))
    client.set('large', bytes(9 << 20))
    client.rpush('values', *map(harmless, range(100)))


def redis_jobs(url: str) -> None:
    """Jobs of RQ."""
    import redis
    import rq
    client = redis.Redis.from_url(url)
    rq.Queue('work', connection=client).enqueue_call('module.function', args=(1,), job_id='harmless')
    rq.Queue('work', connection=client).enqueue_call('module.function', args=(Hostile(),), job_id='evil')


def memcached_values(url: str) -> None:
    """A thousand harmless values, and one that is hostile."""
    from urllib.parse import urlsplit
    from pymemcache.client.base import Client
    client = Client((urlsplit(url).hostname, urlsplit(url).port))
    client.set_many({f'key{number}': harmless(number) for number in range(1_000)})
    client.set('evil', pickle.dumps(Hostile()))


def redis_caches(url: str) -> None:
    """A cache of Django, sessions of Flask, and jobs of APScheduler."""
    import django
    import flask
    import flask_session
    import redis
    from apscheduler.jobstores.redis import RedisJobStore
    from apscheduler.schedulers.background import BackgroundScheduler
    from django.conf import settings
    settings.configure(CACHES={'default': {'BACKEND': 'django_redis.cache.RedisCache', 'LOCATION': url}})
    django.setup()
    from django.core.cache import cache
    cache.set('harmless', {'a': 1})
    cache.set('evil', Hostile())

    app = flask.Flask('app')
    app.config.update(SESSION_TYPE='redis', SESSION_REDIS=redis.Redis.from_url(url))
    flask_session.Session(app)

    @app.route('/<word>')
    def keep(word: str) -> str:
        flask.session['word'] = Hostile() if word == 'evil' else word
        return word
    for word in ('evil', 'harmless'):
        app.test_client().get(f'/{word}')

    store = RedisJobStore()
    store.redis = redis.Redis.from_url(url)
    scheduler = BackgroundScheduler()
    scheduler.add_jobstore(store)
    scheduler.start(paused=True)
    scheduler.add_job(os.getcwd, 'interval', hours=1, id='harmless')
    scheduler.add_job(print, 'interval', hours=1, id='evil', args=[Hostile()])
    scheduler.shutdown()


def memcached_django(place: str) -> None:
    """A cache of Django."""
    import django
    from django.conf import settings
    settings.configure(CACHES={'default': {'BACKEND': 'django.core.cache.backends.memcached.PyMemcacheCache', 'LOCATION': place}})
    django.setup()
    from django.core.cache import cache
    cache.set('harmless', {'a': 1})
    cache.set('evil', Hostile())


def redis_queues(port: str, password: str) -> None:
    """Jobs of RQ and Celery."""
    import celery
    redis_jobs(f'redis://:{password}@127.0.0.1:{port}/0')
    app = celery.Celery(broker=f'redis://:{password}@127.0.0.1:{port}/0')
    app.conf.update(task_serializer='pickle', accept_content=['pickle'])
    app.send_task('module.task', args=(1,))
    app.send_task('module.task', args=(Hostile(),))


def memcached_server(port: str, count: str) -> None:
    from pymemcache.client.base import Client
    client = Client(('127.0.0.1', int(port)))
    waiting = {}
    for number, value in values(int(count)):
        waiting[f'key{number}'] = value
        if len(waiting) == 1000:
            client.set_many(waiting)
            waiting = {}
    client.set_many(waiting)
    client.set('large', pickle.dumps(['x' * 3_000_000, Hostile()]))


def sql(cursor: Any, many: Any, count: str, bytes_type: str) -> None:
    cursor.execute(f'CREATE TABLE jobs (id INTEGER PRIMARY KEY, state {bytes_type}, note TEXT)')
    rows: List[Tuple[Any, ...]] = [(number, value, 'harmless') for number, value in values(int(count))]
    many(cursor, 'INSERT INTO jobs (id, state, note) VALUES', rows)
    cursor.execute('INSERT INTO jobs (id, state, note) VALUES (%s, %s, %s)', (-1, None, json.dumps(
        {'body': base64.b64encode(pickle.dumps(Hostile())).decode(), 'content-type': 'application/x-python-serialize'})))
    cursor.execute(f'CREATE TABLE large (name VARCHAR(20) PRIMARY KEY, content {bytes_type})')
    cursor.execute('INSERT INTO large VALUES (%s, %s)', ('evil', pickle.dumps(['x' * (20 << 20), Hostile()])))


def postgresql_server(url: str, count: str) -> None:
    import psycopg2
    import psycopg2.extras
    with psycopg2.connect(url) as connection:
        sql(connection.cursor(), lambda cursor, words, rows: psycopg2.extras.execute_values(cursor, f'{words} %s', rows, page_size=1000), count,
            'bytea')
    connection.close()


def postgresql_large(url: str) -> None:
    """A table with a hostile value alone."""
    import psycopg2
    with psycopg2.connect(url) as connection:
        connection.cursor().execute('CREATE TABLE large (name VARCHAR(20) PRIMARY KEY, content bytea)')
        connection.cursor().execute('INSERT INTO large VALUES (%s, %s)', ('evil', pickle.dumps(Hostile())))
    connection.close()


# What holds a hostile value in each of its columns, `small` and `large` ones. The last ones are not looked at.
POSTGRESQL_TYPES = """
    CREATE DOMAIN blob AS bytea; CREATE DOMAIN inner_text AS text; CREATE DOMAIN outer_text AS inner_text CHECK (value <> '');
    CREATE DOMAIN blobs AS blob[]; CREATE TYPE job AS (number int, state bytea); CREATE TYPE point_of AS (x int, y int);
    CREATE TYPE texts AS RANGE (subtype = text);
    CREATE TABLE domains (id int PRIMARY KEY, state blob, note outer_text);
    CREATE TABLE arrays (id int PRIMARY KEY, states bytea[], notes varchar[], more blobs);
    CREATE TABLE parts (id int, state bytea) PARTITION BY RANGE (id);
    CREATE TABLE parts_low PARTITION OF parts FOR VALUES FROM (0) TO (100);
    CREATE TABLE parts_high PARTITION OF parts FOR VALUES FROM (100) TO (200) PARTITION BY RANGE (id);
    CREATE TABLE parts_top PARTITION OF parts_high FOR VALUES FROM (150) TO (200);
    CREATE TABLE base (id int, state bytea); CREATE TABLE child (other int) INHERITS (base);
    CREATE TABLE unread (id int PRIMARY KEY, state job, states job[], span texts, words tsvector, bits varbit, place point_of, years int4range);
    CREATE VIEW seen AS SELECT state FROM domains; CREATE VIEW numbers AS SELECT id FROM domains;
    CREATE FOREIGN DATA WRAPPER nothing; CREATE SERVER elsewhere FOREIGN DATA WRAPPER nothing;
    CREATE FOREIGN TABLE far (state bytea) SERVER elsewhere;
    CREATE USER reader PASSWORD 'a-secret'"""


def postgresql_types(url: str) -> None:
    """Hostile values in columns of many types."""
    import psycopg2
    evil, note = pickle.dumps(Hostile()), pickle.dumps(Hostile(), 0).decode()
    large = pickle.dumps(['x' * (1 << 20), Hostile()])
    with psycopg2.connect(url) as connection:
        cursor = connection.cursor()
        cursor.execute(POSTGRESQL_TYPES)
        for words, rows in (('domains VALUES (%s, %s, %s)', [(1, evil, 'harmless'), (2, harmless(2), note), (3, large, None)]),
                            ('arrays VALUES (%s, %s::bytea[], %s, %s::blob[])', [
                                (1, [harmless(1), None, evil], ['harmless'], [evil]), (2, [], ['harmless', note], None), (3, [b'', large], [], [])]),
                            ('parts VALUES (%s, %s)', [(1, evil), (160, evil), (161, harmless(1))]),
                            ('base VALUES (%s, %s)', [(1, evil)]), ('child VALUES (%s, %s, 0)', [(1, evil)])):
            for row in rows:
                cursor.execute(f'INSERT INTO {words}', row)
        for number in range(1_200):
            connection.lobject(0, 'wb').write(harmless(number))
        for value in (evil, large):
            made = connection.lobject(0, 'wb')
            made.write(value)
            print(made.oid)
        cursor.execute('GRANT SELECT ON ALL TABLES IN SCHEMA public TO reader; GRANT SELECT ON LARGE OBJECT %s TO reader', (made.oid,))
    connection.close()


def mysql_server(path: str, count: str) -> None:
    """Also makes a user who may read alone."""
    import pymysql
    connection = pymysql.connect(unix_socket=path, user='root')
    cursor = connection.cursor()
    for words in ('CREATE DATABASE stores', "CREATE USER tester@'%%' IDENTIFIED BY 'a-secret'", "GRANT SELECT ON stores.* TO tester@'%%'",
                  'USE stores'):
        cursor.execute(words, ())
    sql(cursor, lambda cursor, words, rows: cursor.executemany(f'{words} (%s, %s, %s)', rows), count, 'LONGBLOB')
    # A table whose key is a text and a number, and one without a key.
    cursor.execute('CREATE TABLE pairs (owner VARCHAR(40), part INT, content LONGBLOB, PRIMARY KEY (owner, part))')
    cursor.execute('CREATE TABLE loose (moment DATETIME NOT NULL, content LONGBLOB, INDEX (moment))')
    rows = [(f'Owner {number % 700}\xe9', number, b'x' * 500) for number in range(2_000)] + [('M', -1, pickle.dumps(Hostile()))]
    cursor.executemany('INSERT INTO pairs VALUES (%s, %s, %s)', rows)
    cursor.executemany('INSERT INTO loose VALUES (%s, %s)', [(f'2026-01-{1 + number % 28:02} 10:00:00', each[2]) for number, each in enumerate(rows)])
    connection.commit()
    cursor.execute('ANALYZE TABLE jobs, pairs, loose')  # (by which the server reckons how large they are)
    connection.close()


def mysql_schemas(path: str) -> None:
    """Hostile values in databases of the server itself, too, which the user may read."""
    import pymysql
    connection = pymysql.connect(unix_socket=path, user='root')
    cursor = connection.cursor()
    for words in ('CREATE DATABASE stores', "CREATE USER tester@'%' IDENTIFIED BY 'a-secret'", "GRANT SELECT ON *.* TO tester@'%'"):
        cursor.execute(words)
    for place, more in (('stores.jobs', ''), ('stores.kept', 'WITH SYSTEM VERSIONING'), ('sys.evil', ''), ('mysql.evil', '')):
        cursor.execute(f'CREATE TABLE {place} (id INT PRIMARY KEY, state LONGBLOB) {more}')
        cursor.execute(f'INSERT INTO {place} VALUES (%s, %s)', (1, pickle.dumps(Hostile())))
    cursor.execute('CREATE VIEW stores.seen AS SELECT state FROM stores.jobs')
    cursor.execute('CREATE VIEW stores.numbers AS SELECT id FROM stores.jobs')
    cursor.execute('CREATE SEQUENCE stores.counter')
    connection.commit()
    connection.close()


if __name__ == '__main__':
    globals()[sys.argv[1]](*sys.argv[2:])
