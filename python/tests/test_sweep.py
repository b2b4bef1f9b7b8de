"""The tool that looks for names which the list of known names lacks: that it runs, and what it finds in a module that is made here."""

from __future__ import annotations

import subprocess
import sys
import unittest
from pathlib import Path

from scan_support import ScanCase

TOOL = Path(__file__).resolve().parents[2] / 'tools' / 'sweep_names.py'
MADE = '''
import os
import subprocess as _run
from functools import reduce as again

class Job:
    def start(self, words):
        return _run.Popen(words)

    def keep(self, path):
        return open(path, 'w')

if True:
    def load(path):
        def inner():
            exec(open(path).read())
        return inner()

def nothing(a):
    return len(a)

def without():
    return eval('1')
'''


@unittest.skipUnless(TOOL.exists(), 'the tool is in the repository, and not in the wheel')
class Tool(ScanCase):
    """Runs of the tool."""

    def swept(self, *modules: str) -> 'list[str]':
        run = subprocess.run([sys.executable, '-B', '-W', 'ignore', '-c', f'import sys; sys.path.insert(0, {str(self.folder)!r}); sys.argv[1:] = {list(modules)!r}; '
                              f'import runpy; runpy.run_path({str(TOOL)!r}, run_name="__main__")'], capture_output=True, text=True, timeout=300, check=True)
        self.assertIn(f'{len(modules)} modules of Python', run.stderr)
        return run.stdout.splitlines()

    def test_two_modules(self) -> None:
        self.file('made_here.py', MADE.encode())
        self.assertEqual(self.swept('made_here', 'fractions'), [
            'made_here.Job.keep: open (self, path)', 'made_here.Job.start: subprocess.Popen (self, words)', 'made_here.again = _functools.reduce', 'made_here.load: exec, open (path)'])


if __name__ == '__main__':
    unittest.main()
