"""Which modules read by patterns what the program prints for people. There are to be fewer, never more."""

from __future__ import annotations

import ast
import re
import unittest
from pathlib import Path
from typing import Dict, Iterator, Tuple

import picklestep
from pickles import ROOT

PACKAGE = Path(picklestep.__file__).parent
# (A wheel has the page that is made of the scripts, and not these.)
SCRIPTS = ROOT / 'python' / 'picklestep'
DECISIONS = ROOT / 'docs' / 'DECISIONS.md'
# How many patterns each of them has: the page of decisions says why. No script of the page has one.
OF_TEXTS = {'scan/hash_steps.py': 5}
OF_SCRIPTS: Dict[str, int] = {}
# Others of `scan`. They read files of other forms: names of files and of members, headers, and what begins or holds a pickle. Five modules read names and
# entries of lists (`allow`, `names`, `policy`), and `reading` and `severity` what the package itself says.
OF_SCAN = {'allow': 1, 'arrays': 1, 'begins': 3, 'canonical/agreed': 2, 'canonical/items': 2, 'canonical/kinds': 2, 'canonical/npy': 1,
           'canonical/pickles': 1, 'canonical/streams': 3, 'canonical/tars': 7, 'canonical/torch': 1, 'canonical/zips': 5, 'command': 1, 'containers': 5,
           'costs': 1, 'fingerprints': 1, 'like_imports': 1, 'looking': 1, 'names': 6, 'other_forms': 1, 'other_loaders': 1, 'policy/index': 3,
           'policy/patterns': 3, 'policy/reader': 2, 'reading': 4, 'reports/markdown': 2, 'severity': 2, 'stores/anywhere': 6, 'stores/dbm_files': 3,
           'stores/early': 1, 'stores/encodings': 9, 'stores/long_texts': 1, 'stores/memcached_server': 3, 'stores/sql': 1, 'stores/sqlite': 1,
           'stores/telling': 17, 'tar_headers': 1, 'tars': 1, 'walk': 1, 'zips': 1}
# Others, whose patterns read something else: words that are typed, names, numbers of a pickle, letters of opcodes, files of other forms.
OTHERS = {'dap/console.py': 1, 'dap/target.py': 3, 'dap/wire.py': 1, 'protocols/reading.py': 3, 'python_source/names.py': 2, 'python_source/shapes.py': 2,
          'edits.py': 1, 'question.py': 1, 'shell/expressions.py': 2, 'shell/shell.py': 4, 'shell/words.py': 4, 'sources.py': 1, 'unread.py': 7,
          'values.py': 2, 'view/server.py': 2}
OTHER_SCRIPTS = {'alone/containers.js': 1, 'alone/literals.js': 9, 'alone/opening.js': 8, 'alone/source.js': 2,
                 'alone/source_builder.js': 1, 'alone/source_names.js': 4, 'bytes.js': 1, 'script.js': 2, 'shown.js': 1, 'slow.js': 2,
                 'values.js': 13, 'words.js': 8}
_IN_SCRIPT = re.compile(r'RegExp\(|[(=!|&,?] ?/(?![/*])')


def patterns() -> Iterator[Tuple[str, int]]:
    """How many patterns each module has: those that it compiles, or has `pattern` compile when they are first used."""
    for path in sorted(PACKAGE.rglob('*.py')):
        calls = [node.func for node in ast.walk(ast.parse(path.read_text(encoding='utf-8'))) if isinstance(node, ast.Call)]
        used = [each for each in calls if isinstance(each, ast.Attribute) and isinstance(each.value, ast.Name) and each.value.id == 're']
        later = sum(isinstance(each, ast.Name) and each.id == 'pattern' for each in calls)
        if path != PACKAGE / 'patterns.py':
            yield path.relative_to(PACKAGE).as_posix(), sum(each.attr != 'escape' for each in used) + later


def in_scripts() -> Dict[str, int]:
    """How many each script of the page has."""
    counts = {path: len(_IN_SCRIPT.findall(path.read_text(encoding='utf-8'))) for path in (SCRIPTS / 'view').rglob('*.js')}
    return {path.relative_to(SCRIPTS).as_posix(): count for path, count in counts.items() if count}


class Patterns(unittest.TestCase):
    """A pattern more is one that somebody has to look at: where it reads what the program prints, ask for lines of JSON in its place."""

    maxDiff = None

    def test_modules(self) -> None:
        found: Dict[str, int] = {name: count for name, count in patterns() if count}
        self.assertEqual(found, {**OF_TEXTS, **OTHERS, **{f'scan/{name}.py': count for name, count in OF_SCAN.items()}})

    def test_scripts(self) -> None:
        self.assertEqual(in_scripts(), {**OF_SCRIPTS, **{f'view/{name}': count for name, count in OTHER_SCRIPTS.items()}})

    def test_reasons(self) -> None:
        """The page of decisions has a row for each file that reads the program's text, with the number of its patterns."""
        rows = re.findall(r'^\| `([^`]+)` \| ([0-9]+) \|', DECISIONS.read_text(encoding='utf-8'), re.MULTILINE)
        self.assertEqual({name: int(count) for name, count in rows}, {**OF_TEXTS, **OF_SCRIPTS})


if __name__ == '__main__':
    unittest.main()
