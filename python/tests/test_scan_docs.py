"""The examples of the pages of docs/reference about scan, lists and policies."""

from __future__ import annotations

import os
import shutil
import subprocess
import sys
import unittest
from pathlib import Path
from typing import Iterator, List, Tuple

from scan_support import HARMLESS, HOSTILE, MODELS, ScanCase, environment

PAGES = Path(__file__).resolve().parents[2] / 'docs' / 'reference'


def examples(page: str) -> Iterator[Tuple[str, str]]:
    """The commands of a page, each with what it writes."""
    command, wanted = '', ''
    for line in [*(PAGES / page).read_text(encoding='utf-8').splitlines(), '']:
        if line.startswith('    $ ') or not line.startswith('    '):
            if command:
                yield command, wanted
            command, wanted = line[6:] if line.startswith('    $ ') else '', ''
        elif command:
            wanted += line[4:] + '\n'


class Examples(ScanCase):
    """Run one after another in one folder, as a reader would."""

    def setUp(self) -> None:
        super().setUp()
        for name in ('torch_state.pt', 'torch_script.pt', 'sklearn_forest.pkl', 'numpy_objects.npy', 'joblib_arrays.joblib'):
            shutil.copy(MODELS / name, self.folder)
        self.file('hostile.pkl', HOSTILE)
        self.file('models/a.pt', (MODELS / 'torch_state.pt').read_bytes())
        self.file('models/b.pkl', HARMLESS)
        self.file('models/c.pkl', HOSTILE)
        command = self.file('bin/picklestep', f'#!/bin/sh\nexec {sys.executable} -m picklestep "$@"\n'.encode())
        command.chmod(0o755)

    def test_each_example(self) -> None:
        self.assert_examples('scan.md')

    def test_each_example_of_lists(self) -> None:
        self.assert_examples('lists.md')

    def test_each_example_of_the_rule(self) -> None:
        self.assert_examples('scan_rule.md')

    def test_each_example_of_what_is_missed(self) -> None:
        self.assert_examples('scan_missed.md')

    def test_each_example_of_policies(self) -> None:
        try:
            import tomllib  # noqa: F401
        except ImportError:
            self.skipTest('this Python reads no TOML')
        shutil.rmtree(self.folder / 'models')
        self.file('models/old/forest.pkl', (MODELS / 'sklearn_forest.pkl').read_bytes())
        self.file('models/torch_state.pt', (MODELS / 'torch_state.pt').read_bytes())
        self.file('models/tool.pkl', HOSTILE)
        self.assert_examples('policy.md')

    def assert_examples(self, page: str) -> None:
        found: List[Tuple[str, str]] = list(examples(page))
        self.assertGreater(len(found), 5)
        path = os.pathsep.join([str(self.folder / 'bin'), os.environ['PATH']])
        before = ''
        for command, wanted in found:
            with self.subTest(command):
                # `$?` is the status of the command before.
                line = f'{before} >/dev/null 2>&1; {command}' if '$?' in command else command
                run = subprocess.run(['bash', '-c', line], cwd=self.folder, env={**environment(), 'PATH': path}, stdout=subprocess.PIPE,
                                     stderr=subprocess.STDOUT, text=True, timeout=600)
                self.assertEqual(run.stdout, wanted)
            before = command


if __name__ == '__main__':
    unittest.main()
