"""The page without a server writes Python source as `picklestep source` does: byte for byte the same, of real pickles, of pickles that are made
at random, and of what is at the edges."""

from __future__ import annotations

import base64
import contextlib
import json
import pickle
import struct
import unittest
from typing import Dict, Iterable, List

from chromium import PROGRAM, READY, Browser
from harmless import Maker, opcodes_at_random
from picklestep.python_source import source
from pickles import real_pickles
from test_source import dumped
from test_view_alone import MODELS, PAGE

_TOGETHER = 25  # pickles in one input, so that its source is shown whole
_GENERATED = 250
# Gives pickles to the worker, one after another, and answers the lines of their sources. It shows none of them.
_WRITTEN = '''(async () => {
    const written = [];
    for (const [packed, many] of %s) {
        const loaded = await host.ask('load', { bytes: Uint8Array.from(atob(packed), (sign) => sign.charCodeAt(0)), name: 'a pickle', isPickle: true });
        if (!loaded.failed && many) await host.ask('again', { many });
        written.push(loaded.failed ? loaded : await host.ask('source'));
    }
    return written; })()'''


def _counted(code: bytes, width: int, texts: Iterable[bytes]) -> bytes:
    """A tuple of what an opcode makes of texts, whose length is before them."""
    return b'(' + b''.join(code + len(text).to_bytes(width, 'little') + text for text in texts) + b't.'


def _lines(code: bytes, lines: Iterable[bytes]) -> bytes:
    """A tuple of what an opcode makes of lines."""
    return b'(' + b''.join(code + line + b'\n' for line in lines) + b't.'


_TEXTS = [b'', b"it's", b'a"b', b"'\"", '\u05d0\u202e'.encode(), '\U0001f600'.encode() * 50, '\U0001f600'.encode() * 90, b'\xed\xa0\xbd\xed\xb8\x80', b'\xff',
          b'x' * 78, b'x' * 79, b'y' * 84, b"y'" * 40, b'y"' * 40, b'x' * 65537, "e'\"\u00e9".encode() * 20000, b'a\xff' * 40000, b"'\xff" * 40000,
          b'\xed\xa0\x80' * 30000, b'\\n\n\t\r\x00\x7f', '\x80\xa0\xad\u2028\ufeff\U000e0001'.encode()]
_WHOLE = [b'0', b'00', b'01', b'1', b'007', b'-0377', b' 010', b'+1', b'-0', b'7\0x', b'\0', b'0x10', b'1_0', b'0o17', b'0b101', b'1x', b'08', b'0x', b'0x_f',
          b'9223372036854775807', b'9223372036854775808', b'0x7fffffffffffffff', b'0x8000000000000000', b'1' * 4300, b'1' * 4301, b' 5 ', b'0_0', b'00_',
          b'1__0', b'0xff' + b'f' * 4000, b'\xff', b'--1', b'0X1F', b'5\x1c', b'7L']
_FLOATS = [b'1', b'1.5', b'-0.0', b'1e16', b'1e-5', b'inf', b'-inf', b'nan', b'-nan', b'Infinity', b'1_0.5', b'1.', b'.5', b'5e-324', b'a', b' 1 ',
           b'1\0x', b'0x10', b'1._5', b'', b'1e', b'.', b'123456789012345678', b'infinit', b'1e400', b'-1e400', b'1E5', b'+NAN', b'1\r']
_STRINGS = [b"'a'", b'"a"', b"'it\\'s'", b"'\\x41'", b"'\\X41'", b"'\\x4'", b"'\\101'", b"'\\777'", b"'\\q'", b"'\\\\'", b"'\\n\\t\\b'", b"'\\xff'", b"'\xff'",
            b"''", b"'a\\'", b"'\\08'", b"'" + b'z' * 200 + b"'"]
_UNICODES = [b'a', b'\\u1234', b'\\U0001f600', b'\\U00110000', b'\\u12', b'\\\\u1234', b'\\\\\\u1234', b'\\', b'\xe9', b'\\ud83d\\ude00', b'\\x41', b'\\u00E9',
             b"'", b'z' * 300, b'']
_NAMES = [b'os\nsystem\n', b'__builtin__\neval\n', b'copy_reg\n_reconstructor\n', b'\xff\n\xe2\x82x\n', b'a.b\nc.d\n', b'os\n\n', b'class\nx\n',
          b'__future__\ndivision\n', b'x\n_5\n', b'y\nresult\n', b'y\nlen\n', b'z\nlen\n', b'm\n' + b'n' * 500 + b'\n', '\u00e9\n\u00fc\n'.encode(),
          b'exceptions\nValueError\n', b"it's\na\"b\n", b'x\n__class__\n', b'x\n_IncompleteInputError\n',
          b'__builtin__\nfroz\xc7nset\n', b'\n\xff\n', b'\xff\n\n', b'{}\n"\'{\xff}\n', b'\xef\xbb\xbfx\ny\n', b'\xed\xa0\x80\nx\n',
          b'x\n' + b'\xe9' * 300 + b'\n', '\U0001f600\nx\n'.encode()]
_INTEGERS = [0, -1, 255, 1 << 63, -1 << 63, 10 ** 30, -10 ** 4200, 1 << 13999, 1 << 14000, -1 << 14000, (1 << 14000) - 1, 1 << 20000]
_DOUBLES = [0.0, -0.0, 1.5, 1e16, 1e15, 1e-4, 1e-5, float('inf'), float('-inf'), float('nan'), -float('nan'), 5e-324, 0.1 + 0.2]
_MARKED = [b'(K\x01K\x02t', b'(K\x01K\x02l', b'(K\x01K\x02d', b'(K\x01(K\x02t\x91', b'(K\x01]\x91', b'(]K\x01d', b'}(cos\nx\nK\x01u',
           b'\x8f(K\x01K\x02]K\x03\x90']
_ENDS = [b'(lp0\nI1\na', b'K\x050', b'K\x01ea.', b'', b'N.abc', b'N.K\x01R.', b'NN.N.N', b'(](K\x01(']
_EDGES = [
    *(_counted(code, width, [text for text in _TEXTS if len(text) < 256 or width > 1]) for code, width in (
        (b'X', 4), (b'B', 4), (b'T', 4), (b'U', 1), (b'C', 1), (b'\x8c', 1), (b'\x8d', 8), (b'\x8e', 8), (b'\x96', 8))),
    _lines(b'I', _WHOLE), _lines(b'L', _WHOLE), _lines(b'F', _FLOATS), _lines(b'S', _STRINGS), _lines(b'V', _UNICODES), _lines(b'P', [b'a', b'\xff']),
    pickle.dumps(_INTEGERS, 2), b''.join(b'G' + struct.pack('>d', value) + b'.' for value in _DOUBLES),
    *(before + b'(' + b''.join(b'c' + name for name in _NAMES) + b't.' +
      b''.join(before + b'c' + name + b')R.' + before + b'(i' + name + b'.' for name in _NAMES) for before in (b'', b'\x80\x02', b'\x80\x03', b'\x80\x04')),
    b'\x80\x04(' + b''.join(_counted(b'X', 4, name.split(b'\n')[:2])[1:-2] + b'\x93' for name in _NAMES) + b't.\x80\x04K\x01K\x02\x93.',
    b'(\x82\x05\x83\x00\x01\x84\x00\x00\x00\x7fK\x01Qt.', b'(\x97\x97\x98B\x01\0\0\0a\x98\x96\x01\0\0\0\0\0\0\0aq\x00\x98h\x00\x98\x98ca\nb\n\x98\x98t.',
    b']p0\ng0\na(lp5\nI1\nag5\nag0\nat.', b'Np18446744073709551615\n0K\x01p18446744073709551614\ng18446744073709551615\n\x86.',
    b''.join(each + b'.' for each in _MARKED), pickle.dumps([list(range(100)), {n: n for n in range(40)}, {*range(30)}, (*range(50),)], 4),
    b'ca\nb\n(K\x01K\x02e(K\x01K\x02u(K\x01K\x02\x90K\x05a(K\x06e(K\x07\x90(' + b'K\x01' * 40 + b'e(' + b'K\x01' * 80 + b'u(' +
    b'K\x01' * 40 + b'\x90.',
    b'\x80\x04ca\nb\n)}(X\x01\0\0\0aK\x01X\x02\0\0\0ifK\x02u\x92.' + b'\x80\x04ca\nb\n)}X\x01\0\0\0aK\x01s\x92.',
    b']' * 300 + b'a' * 299 + b'.', b'N' + b'\x85' * 100 + b'.',
    b'(ca\nb\no.(ca\nb\nK\x01o.ca\nb\n}X\x01\0\0\0aK\x01sb.',
    *(b'ca\nb\n' + given + call + b'.' for given in (b']', b'K\x01', b'}', b'N', b')2\x86', b'ca\nb\n)R') for call in (b'R', b'\x81', b'}\x92')),
    b'Va\nca\nb\n)R\x93.\x80\x04Va\nca\nb\n)R\x93\x82\x05\x86.',
    b'ca\nb\n)ca\nb\n)R\x92.', b'\x80\x04ca\nb.c\nca\nb\nca\nb.class\nca.b\nb.\xc3\xa9.c\n(t.', b'N.ca\nresult_2\n.ca\nresult_2\n.ca\nb\nca\nb\n\x86.',
    b'X\x01\0\0\0\xff0N.', b'Iabc\n0}X\x01\0\0\0\xffNs.', *_ENDS]


@unittest.skipIf(PROGRAM is None, "there is no Chromium: Debian's chromium has it")
class SameSource(unittest.TestCase):
    """Each pickle, alone and read on to the end of the file."""

    browser: Browser

    @classmethod
    def setUpClass(cls) -> None:
        cls.browser = Browser()
        cls.addClassCleanup(cls.browser.close)

    def compare(self, pickles: Dict[str, bytes], many: Iterable[bool] = (False, True)) -> int:
        """Compares the sources, and answers how many lines of them were compared."""
        asked = [(name, data, reads_on) for name, data in pickles.items() for reads_on in many]
        self.browser.go(PAGE.as_uri())
        self.browser.wait(READY)
        written: List[Dict[str, object]] = []
        for at in range(0, len(asked), 20):
            given = [(base64.b64encode(data).decode('ascii'), reads_on) for _, data, reads_on in asked[at:at + 20]]
            written += self.browser.js(_WRITTEN % json.dumps(given))
        compared = 0
        for (name, data, reads_on), found in zip(asked, written):
            lines = list(source(data, full=False, many=reads_on))
            self.assertEqual(found, {'source': lines[:1000], 'more': max(0, len(lines) - 1000), 'isLong': False}, (name, reads_on))
            compared += min(1000, len(lines))
        return compared

    def test_real_pickles(self) -> None:
        pickles = {**real_pickles(), **{path.name: path.read_bytes() for path in MODELS.iterdir() if path.is_file()}}
        self.assertGreater(self.compare(pickles, (False,)), 3000)

    def test_generated_pickles(self) -> None:
        made: Dict[str, bytes] = {}
        for first in range(0, _GENERATED, _TOGETHER):
            made[f'from {first} on'] = b''
            for seed in range(first, first + _TOGETHER):
                with contextlib.suppress(RecursionError):  # (no pickler can write an object that is an argument of its own call)
                    made[f'from {first} on'] += dumped(Maker(seed).value(), seed)
        for first in range(0, _GENERATED, _TOGETHER):
            made[f'opcodes from {first} on'] = b''.join(map(opcodes_at_random, range(first, first + _TOGETHER)))
        self.assertGreater(self.compare(made, (True,)), 5_000)

    def test_edges(self) -> None:
        self.compare({data.hex()[:60]: data for data in _EDGES})


if __name__ == '__main__':
    unittest.main()
