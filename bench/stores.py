#!/usr/bin/env python3
"""Measures `scan` on stores against its bars: PYTHONPATH=python bench/stores.py FOLDER [MB]

FOLDER is for the files, and is made. MB is how large a file of each kind is (1000: then it needs 2 GB); the seconds are of a processor, for a
GB. Redis is measured where redis-server and redis-py are installed (with another interpreter than this: PYTHON=/usr/bin/python3).
"""

from __future__ import annotations

import base64
import json
import os
import pickle
import random
import shutil
import sqlite3
import subprocess
import sys
import time
from collections.abc import Iterator
from pathlib import Path

from processes import family, memory

PIECE = 1 << 20
VALUES = 100_000
PORT = 16_379
PYTHON = os.environ.get('PYTHON', sys.executable)


def measured(words: list[str]) -> tuple[float, float, int, str]:
    """Seconds of the wall and of a processor, the most memory of all processes together, and the last line of the summary."""
    start, before = time.perf_counter(), os.times()
    run = subprocess.Popen([PYTHON, '-m', 'picklestep', 'scan', '--max-seconds', '1000', '--json', *words], stdout=subprocess.DEVNULL,
                           stderr=subprocess.PIPE, text=True)
    most = 0
    while run.poll() is None:
        most = max(most, memory(family(run.pid)))
        time.sleep(0.05)
    seconds, after = time.perf_counter() - start, os.times()
    assert run.stderr is not None
    lines = run.stderr.read().splitlines()
    used = after.children_user + after.children_system - before.children_user - before.children_system
    return seconds, used, most, lines[0] if lines else ''


def show(name: str, bar: str, taken: tuple[float, float, int, str], share: float = 1) -> None:
    seconds, used, most, summary = taken
    print(f'{name:42} {seconds / share:6.1f} s, {used / share:6.1f} s of a processor ({bar}), {most / 1e6:4.0f} MB: {summary}', flush=True)


def sources() -> bytes:
    """Python source, about a piece of it."""
    found = b''
    for path in sorted(Path(os.__file__).parent.glob('*.py')):
        found += path.read_bytes()
        if len(found) > 8 * PIECE:
            break
    return found


def pieces(kind: str) -> Iterator[bytes]:
    """Pieces of a file of this kind, without end."""
    chosen = random.Random(kind)
    text = sources() if kind == 'text' else b''
    number = 0
    while True:
        if kind == 'random bytes':
            yield chosen.randbytes(PIECE)
        elif kind == 'text':
            yield text
        elif kind == 'base64 in lines of 76':
            yield base64.encodebytes(chosen.randbytes(57 * 13_000))
        elif kind == 'JSON with hashes':
            yield b'\n'.join(json.dumps({'id': number + each, 'sum': chosen.randbytes(20).hex(), 'name': f'file{each}'}).encode()
                             for each in range(12_000)) + b'\n'
            number += 12_000
        elif kind == 'hashes of 40 digits alone':
            yield b'\n'.join(chosen.randbytes(20).hex().encode() for _ in range(25_000)) + b'\n'
        elif kind == 'hashes with names':
            yield b''.join(chosen.randbytes(32).hex().encode() + b'  ./folder/file%d.txt\n' % each for each in range(11_000))
        else:
            yield b'\n'.join(base64.b64encode(chosen.randbytes(32)) for _ in range(22_000)) + b'\n'


def everywhere(folder: Path, size: int) -> None:
    """Each kind of input for `--everywhere`."""
    for kind in ('random bytes', 'text', 'base64 in lines of 76', 'JSON with hashes', 'hashes of 40 digits alone', 'hashes with names',
                 'hashes as base64 alone'):
        path = folder / 'input'
        with open(path, 'wb') as file:
            for piece in pieces(kind):
                if file.tell() >= size:
                    break
                file.write(piece)
        show(f'--everywhere, {kind}', 'bar for a GB: 60', measured(['--everywhere', str(path)]), path.stat().st_size / 1e9)
        path.unlink()


def sqlite(folder: Path, size: int) -> None:
    """A table of pickles of a kilobyte."""
    path = folder / 'queue.db'
    connection = sqlite3.connect(path)
    connection.execute('CREATE TABLE task (id INTEGER NOT NULL PRIMARY KEY, data BLOB NOT NULL)')
    rows = ((pickle.dumps({'number': number, 'text': 'x' * 900, 'tags': ['a', 'b', number]}, 4),) for number in range(size // 1000))
    connection.executemany('INSERT INTO task (data) VALUES (?)', rows)
    connection.commit()
    connection.close()
    show('an SQLite file', 'bar for a GB: 30', measured([str(path)]), path.stat().st_size / 1e9)
    path.unlink()


def redis(folder: Path) -> None:
    """Values of a kilobyte on a server of our own."""
    if shutil.which('redis-server') is None:
        print('Redis: there is no redis-server')
        return
    fill = ('import pickle, redis; c = redis.Redis(port={port}); p = c.pipeline(transaction=False)\nfor n in range({count}):\n'
            '    p.set(f"key {{n}}", pickle.dumps({{"number": n, "text": "x" * 900, "tags": ["a", "b", n]}}, 4))\n'
            '    n % 1000 == 999 and p.execute()\np.execute()').format(port=PORT, count=VALUES)
    server = subprocess.Popen(['redis-server', '--port', str(PORT), '--bind', '127.0.0.1', '--dir', str(folder), '--save', ''],
                              stdout=subprocess.DEVNULL)
    try:
        time.sleep(2)
        if subprocess.run([PYTHON, '-c', fill], check=False).returncode:
            print('Redis: there is no redis-py (PYTHON is the interpreter that has it)')
            return
        show(f'{VALUES:,} Redis values of 1 KB, --jobs 4', 'bar: 20 of the wall, 200 MB', measured(['--jobs', '4', f'redis://127.0.0.1:{PORT}/0']))
    finally:
        server.terminate()
        server.wait()


def main() -> None:
    folder = Path(sys.argv[1])
    size = int(sys.argv[2] if len(sys.argv) > 2 else 1000) * 1_000_000
    folder.mkdir(parents=True)
    try:
        redis(folder)
        sqlite(folder, size)
        everywhere(folder, size)
    finally:
        shutil.rmtree(folder)


if __name__ == '__main__':
    main()
