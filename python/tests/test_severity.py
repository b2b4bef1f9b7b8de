"""How bad what is marked may be, and the statuses of a run."""

from __future__ import annotations

import gzip
import json
import os
import re
import unittest
from pathlib import Path

from picklestep.scan import severity
from picklestep.scan.known import known_names
from picklestep.scan.looks import RULES
from scan_support import HARMLESS, HOSTILE, ScanCase

PAGE = Path(__file__).resolve().parents[2] / 'docs' / 'reference' / 'scan.md'
READS = b'\x80\x02clinecache\ngetline\n.'
UNKNOWN = b'\x80\x02capp\nJob\n.'


class Steps(ScanCase):
    """The severity of what is marked."""

    def severity(self, name: str, content: bytes, *words: str) -> object:
        line = self.scan('--json', *words, str(self.file(name, content))).stdout
        return json.loads(line)['severity']

    def test_each_step(self) -> None:
        for name, content, words, wanted in (
                ('a.pkl', HOSTILE, (), 'critical'), ('a.pkl', READS, (), 'high'), ('a.pkl', UNKNOWN, ('--allow', 'plain'), 'medium'),
                ('a.pkl', HOSTILE, ('--allow', 'plain'), 'critical'), ('a.pkl', READS, ('--allow', 'plain'), 'high'), ('a.pkl', UNKNOWN, (), None),
                ('a.pkl', HOSTILE, ('--allow', 'plain', '--no-known'), 'medium'), ('a.pkl', b'N0', (), 'medium'), ('a.pkl', b'\x80\x03(t.', (), 'medium'),
                ('a.7z', b'7z\xbc\xaf\x27\x1c' + bytes(40), (), 'unread'), ('a.pkl', b'cposix\nsystem\n', (), 'critical'),
                ('a.pkl', b'\x80\x02cbuiltins\nstr\n)RVsystem\n\x93.', ('--allow', 'plain'), 'critical'),
                ('a.pkl', b'csklearn.base\nnp.load\n.', ('--allow', 'plain'), 'high')):
            with self.subTest(content=content, words=words):
                self.assertEqual(self.severity(name, content, *words), wanted)

    def test_the_tables_have_each_rule_and_each_name(self) -> None:
        self.assertEqual({severity.severity_of(rule) for rule in RULES}, set(severity.STEPS))
        notes = {*known_names().names.values(), *(note for _, _, note in known_names().patterns)}
        found = {note: severity.severity_of('known', note) for note in notes}
        for note, step in found.items():
            with self.subTest(note):
                self.assertIn(step, ('critical', 'high'))
                if re.search(r'\b(runs?|calls?|starts?|loads?|compiles|evaluates)\b', note):
                    self.assertEqual(step, 'critical')
        for note in ('reads files', 'opens any file', 'connects', 'imports any module', 'deletes folders', 'writes files, connects', 'fetches files'):
            self.assertEqual(found[note], 'high', note)

    def test_the_page_has_the_table(self) -> None:
        section = PAGE.read_text(encoding='utf-8').partition('## Severity')[2].partition('\n#')[0]
        rows = re.findall(r'^\| `(\w+)` \| ([^|]*) \|', section, re.MULTILINE)
        self.assertEqual(rows, [(step.name, step.means) for step in severity.STEPS.values()])
        self.assertNotIn('safe', {*severity.STEPS, *(step.means for step in severity.STEPS.values())})


class Statuses(ScanCase):
    """0, 1, 3 and 2."""

    def test_each(self) -> None:
        self.file('good.pkl', HARMLESS)
        self.file('bad.pkl', HOSTILE)
        self.file('reads.pkl', READS)
        self.file('large.pkl.gz', gzip.compress(HARMLESS * 1000))
        self.file('other.7z', b'7z\xbc\xaf\x27\x1c' + bytes(40))
        (self.folder / 'empty').mkdir()
        os.mkfifo(self.folder / 'fifo')
        for number, (words, status) in enumerate((
                (['good.pkl'], 0), (['bad.pkl'], 1), (['none.pkl'], 3), (['good.pkl', 'none.pkl'], 3), (['bad.pkl', 'none.pkl'], 1),
                (['large.pkl.gz', '--max-bytes', '1K'], 3), (['other.7z'], 3), (['empty'], 3), (['fifo'], 3), (['s3://bucket/a.pkl'], 3),
                (['reads.pkl'], 1), (['reads.pkl', '--fail-on', 'high'], 1), (['reads.pkl', '--fail-on', 'critical'], 0),
                (['reads.pkl', 'none.pkl', '--fail-on', 'critical'], 3), (['bad.pkl', '--fail-on', 'critical'], 1),
                (['good.pkl', '--fail-on', 'unread'], 2), (['good.pkl', '--allow', 'none.txt'], 2), ([], 2))):
            with self.subTest(words):
                self.assertEqual(self.scan(*words, *([], ['--json'], ['--brief'])[number % 3]).returncode, status)

    def test_the_summary_says_which(self) -> None:
        self.file('odd.pkl', b'\x80\x03(t.')
        self.file('other.7z', b'7z\xbc\xaf\x27\x1c' + bytes(40))
        self.assertIn('1 file in an unusual form', self.scan('--brief', 'odd.pkl').stdout)
        self.assertNotIn('not looked at whole', self.scan('--brief', 'odd.pkl').stdout)
        self.assertIn('1 file not looked at whole', self.scan('--brief', 'other.7z').stdout)
        self.assertIn(', 1 server that cannot be read\n', self.scan('--brief', 'redis://127.0.0.1:1/0').stdout)


if __name__ == '__main__':
    unittest.main()
