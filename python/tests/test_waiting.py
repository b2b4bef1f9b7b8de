"""What somebody at a terminal is told while a word takes long."""

from __future__ import annotations

import os
import pickle
import re
import tempfile
import unittest
from concurrent.futures import ThreadPoolExecutor
from pathlib import Path
from typing import List

from picklestep.place import find_program
from terminals import shown_at

_TOLD = re.compile(r'\r\x1b\[K([^\r\n]*) \.\. ([0-9]+) s \(Ctrl-C ends it\)')
_WORDS = (
    ['convert', 'a.pickle', '--protocol', '2', '--save', 'converted'], ['convert', 'a.pickle', '--python2', '--save', 'texts'],
    ['optimize', 'a.pickle', '--save', 'smaller'], ['mend', 'cut.pickle', '--save', 'mended'], ['source', 'a.pickle'], ['size', 'a.pickle'],
    ['diff', 'a.pickle', 'b.pickle'], ['view', '--export', 'report.html', 'a.pickle'], ['rename', 'oldapp', 'newapp', 'a.pickle', '--save', 'renamed'],
    ['rename', 'oldapp', 'newapp', 'a.pickle', 'b.pickle', '--jobs', '2', '--dry-run'], ['scan', 'a.pickle'], ['calls', 'a.pickle'],
    ['assemble', 'a.txt', '--save', 'assembled'])


@unittest.skipIf(os.name == 'nt', 'Windows has no such terminal')
class Waiting(unittest.TestCase):
    """The program that these words ask waits three seconds at its first start."""

    def setUp(self) -> None:
        folder = tempfile.TemporaryDirectory()
        self.addCleanup(folder.cleanup)
        self.folder = Path(folder.name)

    def shown(self, words: List[str]) -> str:
        """What a terminal gets."""
        folder = Path(tempfile.mkdtemp(dir=self.folder))
        whole = pickle.dumps([1, 'a'], 4)
        for name, data in (('a.pickle', whole), ('b.pickle', pickle.dumps([2], 4)), ('cut.pickle', whole[:-2]), ('a.txt', b'NONE\nSTOP\n')):
            (folder / name).write_bytes(data)
        program = folder / 'program'
        program.write_text(f'#!/bin/sh\nmkdir asked 2>/dev/null && sleep 3\nexec "{find_program()}" "$@"\n', encoding='utf-8')
        program.chmod(0o700)
        status, text = shown_at(words, str(folder), PICKLESTEP_PROGRAM=str(program), TERM='xterm')
        self.assertIn(status, (0, 1), text)
        return text

    def test_each_word(self) -> None:
        with ThreadPoolExecutor(4) as workers:
            for words, text in zip(_WORDS, workers.map(self.shown, _WORDS)):
                with self.subTest(' '.join(words)):
                    told = _TOLD.findall(text)
                    self.assertTrue(any(int(seconds) >= 2 for _, seconds in told), text)
                    self.assertIn('\r\x1b[K', text[text.rindex('(Ctrl-C ends it)'):], text)  # (it is wiped out)

    def test_files_are_counted(self) -> None:
        self.assertTrue(any(what.endswith(' of 2 files') for what, _ in _TOLD.findall(self.shown(_WORDS[9]))))


if __name__ == '__main__':
    unittest.main()
