"""Files for the measurements, made here. They are the same each time, but for the random bytes of the largest."""

from __future__ import annotations

import collections
import datetime
import io
import itertools
import os
import pickle
import random
import sqlite3
import struct
import sys
import types
import zipfile
from pathlib import Path
from typing import Any, Callable, Dict, List

MEGABYTE = 1_000_000
ROOT = Path(__file__).resolve().parent.parent


# --- One pickle ---

def records(count: int) -> List[Dict[str, object]]:
    """Dictionaries with a number, a text, a float, a list of texts and a truth value, as a cache or a queue has them."""
    draw = random.Random(7)
    return [{'id': at, 'name': f'user{draw.randrange(100_000)}', 'score': draw.random() * 100, 'tags': ['a', 'b', str(at % 50)], 'active': at % 2 == 0}
            for at in range(count)]


def pickled(value: object) -> bytes:
    return pickle.dumps(value, 4)


# how many records have so many megabytes
RECORDS = {0.1: 1_960, 1: 19_340, 10: 188_700, 100: 1_865_000}


def numbers(size: int) -> bytes:
    """Integers and floats in turn."""
    draw = random.Random(5)
    return pickled([draw.random() if at % 2 else draw.randrange(-300, 70_000) for at in range(size * 33 // 200)])


def texts(size: int) -> bytes:
    """Texts of 20 letters, each another."""
    return pickled([f'{at:020}' for at in range(size // 23)])


def dates(size: int) -> bytes:
    """Dates, each of them made by a call."""
    draw = random.Random(3)
    return pickled([datetime.date(2000 + draw.randrange(30), 1 + draw.randrange(12), 1 + draw.randrange(28)) for _ in range(size // 13)])


def nested(size: int) -> bytes:
    """Lists in one another."""
    return b'\x80\x02' + b']' * (size // 2) + b'a' * (size // 2 - 1) + b'.'


def short_opcodes(size: int) -> bytes:
    """NONE and POP in turn: each byte is an opcode, and none needs room on the stack for long."""
    return b'\x80\x02' + b'N0' * (size // 2 - 1) + b'N.'


# A record of eleven opcodes. The memo has its keys.
RECORD = b'}(h\x01K\x07h\x02X\x06\x00\x00\x00user42h\x03M\x10\x27h\x04\x88u'
IN_A_BATCH = 1000


def long_list(opcodes: int) -> bytes:
    """A list of the same record again and again, in so many opcodes. As protocol 2 has it, without frames."""
    keys = b''.join(b'X%c\x00\x00\x00%sq%c0' % (len(key), key, at) for at, key in enumerate((b'id', b'name', b'score', b'active'), 1))
    batch = b'(' + IN_A_BATCH * RECORD + b'e'
    return b'\x80\x02' + keys + b']' + batch * (opcodes // (11 * IN_A_BATCH + 2)) + b'.'


def array(size: int) -> bytes:
    """One object of bytes."""
    return b'\x80\x04\x8e' + struct.pack('<Q', size) + bytes(size) + b'.'


def under_marks(count: int) -> bytes:
    """NONE and POP in turn above open marks: each line of a listing begins with four blanks for each mark."""
    return b'(' * count + b'N0' * count + b'N.'


def inserts(count: int, places: int) -> bytes:
    """Lines for `debug` that insert opcodes at random places."""
    draw = random.Random(2)
    return b''.join(b'insert %d NONE\n' % draw.randrange(places) for _ in range(count))


Maker = Callable[[int], bytes]
# what the page calls each, and who makes it
CONTENTS: Dict[str, Maker] = {
    'integers and floats': numbers,
    'texts of 20 letters': texts,
    'dates, each made by a call': dates,
    'one object of bytes': array,
    'empty lists in one another': nested,
    'NONE and POP in turn': short_opcodes,
}


# --- Many files ---

def plain_values() -> List[object]:
    """Values whose pickles have some kilobytes."""
    draw = random.Random(11)
    return [[{'id': at, 'name': f'user{at}', 'date': datetime.date(2020, 1, 1 + at % 28)} for at in range(100)],
            collections.OrderedDict((str(at), draw.random()) for at in range(200)),
            [collections.Counter(str(draw.random())) for _ in range(40)]]


# what these call, as a list of names says it
NAMES_OF_PLAIN = "datetime.date: call\n_codecs.encode: call(text 'latin1')\ncollections.OrderedDict: call made-fill\ncollections.Counter: call\n"


def make_plain(folder: Path, count: int) -> None:
    """Pickles of some kilobytes."""
    folder.mkdir()
    made = plain_values()
    for at in range(count):
        (folder / f'{at}.pkl').write_bytes(pickle.dumps(made[at % 3], at % 4 + 2))


def make_tiny(folder: Path, count: int) -> None:
    """Pickles of 20 bytes."""
    folder.mkdir()
    for at in range(count):
        (folder / f'{at}.pkl').write_bytes(pickle.dumps((f'{at:06}', None), 2))


def make_mixed(folder: Path, count: int) -> None:
    """The same, but each fourth is a file that torch, numpy, pandas or scikit-learn wrote."""
    make_plain(folder, count)
    models = [path for path in sorted((ROOT / 'python/tests/data/models').glob('*_*')) if 1000 < path.stat().st_size < 9000]
    for at in range(0, count, 4):
        model = models[at // 4 % len(models)]
        (folder / f'{at}.pkl').unlink()
        (folder / f'{at}_{model.name}').write_bytes(model.read_bytes())


def make_database(path: Path, count: int) -> None:
    """A table of SQLite with pickles of a kilobyte."""
    connection = sqlite3.connect(path)
    connection.execute('CREATE TABLE task (id INTEGER NOT NULL PRIMARY KEY, data BLOB NOT NULL)')
    rows = ((pickle.dumps({'number': at, 'text': 'x' * 900, 'tags': ['a', 'b', at]}, 4),) for at in range(count))
    connection.executemany('INSERT INTO task (data) VALUES (?)', rows)
    connection.commit()
    connection.close()


# --- Archives ---

class Numbers:
    """The numbers of a tensor, which a pickle only names."""


class Pickler(pickle.Pickler):
    """Names them as torch does, which need not be installed."""

    kind = type('FloatStorage', (), {'__module__': 'torch'})
    size = 0

    def persistent_id(self, value: Any) -> Any:
        return ('storage', self.kind, '0', 'cpu', self.size // 4) if isinstance(value, Numbers) else None


def make_model(path: Path, size: int) -> None:
    """A zip archive as torch writes it: a pickle of a megabyte, and numbers of this size. The data begin at multiples of 64."""
    sys.modules['torch'] = types.ModuleType('torch')
    setattr(sys.modules['torch'], 'FloatStorage', Pickler.kind)
    made = io.BytesIO()
    pickler = Pickler(made, 2)
    pickler.size = size
    pickler.dump([Numbers(), [{'name': f'layer{at}', 'shape': (at, at + 1)} for at in range(25_000)]])
    contents = itertools.repeat(os.urandom(1 << 10) * (1 << 10), size >> 20)
    with open(path, 'wb') as file, zipfile.ZipFile(file, 'w') as archive:
        for name, pieces in (('data.pkl', iter([made.getvalue()])), ('data/0', contents), ('version', iter([b'3\n']))):
            member = zipfile.ZipInfo(f'archive/{name}', (1980, 1, 1, 0, 0, 0))
            is_long = name == 'data/0' and size > 1 << 31
            fill = -(file.tell() + 34 + 20 * is_long + len(member.filename)) % 64
            member.extra = b'FB' + fill.to_bytes(2, 'little') + b'Z' * fill
            with archive.open(member, 'w', force_zip64=is_long) as out:
                for piece in pieces:
                    out.write(piece)
            member.extra = b''  # (the directory has none)


def make_bomb(path: Path, size: int) -> None:
    """A zip archive of a thousandth of this size, with a pickle of this size."""
    with zipfile.ZipFile(path, 'w', zipfile.ZIP_DEFLATED) as archive, archive.open('data.pkl', 'w') as out:
        out.write(b'\x80\x04\x8e' + struct.pack('<Q', size))
        for _ in range(size // MEGABYTE):
            out.write(bytes(MEGABYTE))
        out.write(b'.')
