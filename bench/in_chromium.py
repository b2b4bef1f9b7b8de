#!/usr/bin/env python3
"""Measures the module of the library in a headless Chromium, beside the library itself: PYTHONPATH=python:python/tests bench/in_chromium.py

Times are of processors, of all processes of the browser together; the shortest of some runs counts. The bars: `list` in four times the time of
the library, `calls` in twice, and a start within 0.3 s (of the wall: loading, compiling and the first answer).
"""

from __future__ import annotations

import ctypes
import functools
import http.server
import os
import pickle
import random
import sys
import threading
import time
from pathlib import Path
from typing import Any, Callable, Dict, List, Tuple

import chromium
from processes import family

ROOT = Path(__file__).resolve().parent.parent
ITEMS = 2_000_000
RUNS = 5
_PAGE = b'<!doctype html><title>.</title>'
_START = '''(async () => {
    const begun = performance.now();
    const { instance } = await WebAssembly.instantiateStreaming(fetch('/libpicklestep.wasm'), {});
    window.library = instance.exports;
    window.ask = (name, bytes, room) => {
        const given = library.take(BigInt(bytes.length + 1)), out = library.take(BigInt(room)), written = library.take(16n);
        new Uint8Array(library.memory.buffer).set(bytes, Number(given));
        const modes = name === 'picklestep_list' ? [0] : [];
        const answer = library[name](...modes, given, BigInt(bytes.length), out, BigInt(room), written);
        const size = Number(new DataView(library.memory.buffer).getBigUint64(Number(written), true));
        for (const each of [given, out, written]) library.give(each);
        return [answer, size];
    };
    const first = ask('picklestep_calls', new Uint8Array([78, 46]), 4096);
    return [performance.now() - begun, first];
})()'''
_LOAD = "(async () => { window.data = new Uint8Array(await (await fetch('/data')).arrayBuffer()); return data.length; })()"


def used(process: int) -> float:
    """Processor seconds of a process and of all that it started."""
    total = 0
    for each in family(process):
        try:
            fields = Path(f'/proc/{each}/stat').read_text().rpartition(')')[2].split()
        except OSError:
            continue
        total += int(fields[11]) + int(fields[12])
    return total / os.sysconf('SC_CLK_TCK')


def shortest(clock: Callable[[], float], work: Callable[[], Any]) -> float:
    times: List[float] = []
    for _ in range(RUNS):
        begun = clock()
        work()
        times.append(clock() - begun)
    return min(times)


def of_library(content: bytes, name: str, room: int) -> Tuple[float, int]:
    """What the library takes, and how long the text is."""
    function: Any = getattr(ctypes.CDLL(str(ROOT / 'dist/linux-x86_64-library/lib/libpicklestep.so')), name)
    out, written = ctypes.create_string_buffer(room), (ctypes.c_uint64 * 2)()
    modes = [ctypes.c_bool(False)] if name == 'picklestep_list' else []
    given = [*modes, content, ctypes.c_size_t(len(content)), out, ctypes.c_size_t(room), written]
    taken = shortest(time.process_time, lambda: function(*given))
    return taken, int(written[0])


class Files(http.server.BaseHTTPRequestHandler):
    """Serves what the page asks for."""

    files: Dict[str, bytes] = {}

    def do_GET(self) -> None:
        content = self.files.get(self.path, _PAGE)
        self.send_response(200)
        self.send_header('Content-Type', 'application/wasm' if self.path.endswith('.wasm') else 'text/html' if content is _PAGE else 'application/octet-stream')
        self.send_header('Content-Length', str(len(content)))
        self.end_headers()
        self.wfile.write(content)

    def log_message(self, *words: Any) -> None:
        """Says nothing."""


def main(module: Path) -> None:
    draw = random.Random(7)
    content = pickle.dumps([draw.randrange(-300, 70000) if n % 2 else f's{draw.randrange(100000)}' for n in range(ITEMS)], 4)
    Files.files = {'/libpicklestep.wasm': module.read_bytes(), '/data': content}
    server = http.server.ThreadingHTTPServer(('127.0.0.1', 0), Files)
    threading.Thread(target=server.serve_forever, daemon=True).start()
    browser = chromium.Browser()
    try:
        browser.go(f'http://127.0.0.1:{server.server_address[1]}/')
        browser.wait('document.title === "."')
        started, first = browser.js(_START)
        print(f'start and first answer {first}: {started / 1000:.2f} s of the wall (bar 0.3); again {browser.js(_START)[0] / 1000:.2f} s')
        print(f'{browser.js(_LOAD):,} bytes, {ITEMS:,} items')
        clock = functools.partial(used, browser._process.pid)
        for name, room, bar in (('picklestep_list', 200 << 20, 4), ('picklestep_calls', 1 << 20, 2)):
            there = shortest(clock, lambda: browser.js(f"ask('{name}', data, {room})"))
            here, size = of_library(content, name, room)
            assert browser.js(f"ask('{name}', data, {room})") == [0, size]
            print(f'{name}: {there:.2f} s of a processor, the library {here:.2f} s: {there / here:.1f} times (bar {bar})')
    finally:
        browser.close()


if __name__ == '__main__':
    main(Path(sys.argv[1]) if len(sys.argv) > 1 else ROOT / 'dist/libpicklestep.wasm')
