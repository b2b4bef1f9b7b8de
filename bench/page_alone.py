#!/usr/bin/env python3
"""Measures dist/picklestep.html in a headless Chromium: PYTHONPATH=python:python/tests bench/page_alone.py

How long the page takes until it can be used, and pickles of 50 MB until their first opcodes are there and until all are, by the wall; and how
much memory the browser takes by then.
"""

from __future__ import annotations

import pickle
import tempfile
import time
from pathlib import Path
from typing import Dict

from chromium import Browser
from processes import family, memory

PAGE = Path(__file__).resolve().parent.parent / 'dist' / 'picklestep.html'
SIZE = 50_000_000


def pickles() -> Dict[str, bytes]:
    """Pickles of 50 MB, by what is in them."""
    records = [{'id': at, 'name': f'user{at}', 'score': at * 0.5, 'tags': ['a', 'b', str(at)]} for at in range(50_000)]
    return {'one array': pickle.dumps(bytes(SIZE), 4), 'texts of 60 letters': pickle.dumps([f'{at:060}' for at in range(SIZE // 63)], 4),
            'records': pickle.dumps([dict(each, at=at) for at in range(21) for each in records], 4),
            'small integers': b'(' + b'K\x01' * (SIZE // 2) + b't.'}


def main() -> None:
    """Prints a line for each measurement."""
    with tempfile.TemporaryDirectory() as folder:
        path = Path(folder, 'a.pickle')
        for name, data in pickles().items():
            path.write_bytes(data)
            browser = Browser()
            try:
                start = time.perf_counter()
                browser.go(PAGE.as_uri())
                browser.wait("document.querySelector('#opening')?.dataset.ready === 'yes'")
                ready, start = time.perf_counter() - start, time.perf_counter()
                browser.choose('#file', path)
                browser.wait("view.state && document.querySelector('.row .name')?.textContent.length > 2")
                first = time.perf_counter() - start
                browser.wait("document.querySelector('#rest').textContent.includes('alone') || !view.state.part", 300)
                taken = time.perf_counter() - start
                said = browser.js("document.querySelector('#rest').textContent")
                print(f'{name}: {len(data):,} bytes: ready after {ready:.2f} s, first opcodes after {first:.1f} s, all after {taken:.1f} s '
                      f'{said}, {memory(family(browser.process)) / 1e6:.0f} MB', flush=True)
            finally:
                browser.close()


if __name__ == '__main__':
    main()
