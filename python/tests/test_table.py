"""What a terminal shows of a run over several files."""

from __future__ import annotations

import re
import unittest
from pathlib import Path
from typing import Any, List

from scan_support import HARMLESS, HOSTILE, MODELS, Made, ScanCase, zip_of
from terminals import shown_at

_COUNT = re.compile(r'\r\x1b\[K(?:\d+ of \d+ files \.\. \d+ s \(Ctrl-C ends it\))?')  # (the line that counts, which is wiped out)


class AtATerminal(ScanCase):
    def setUp(self) -> None:
        super().setUp()
        self.file('files/bad.pkl', HOSTILE)
        self.file('files/good.pkl', HARMLESS)
        self.file('files/in.zip', zip_of([Made(b'a.pkl', HOSTILE), Made(b'b.pkl', HOSTILE)]))
        self.file('files/other.7z', b'7z\xbc\xaf\x27\x1c' + bytes(40))

    def shown(self, *words: str, **environment: str) -> List[str]:
        known: Any = {'COLUMNS': '100', 'TERM': 'xterm', 'NO_COLOR': '1', **environment}
        self.status, text = shown_at(['scan', *words], str(self.folder), **known)
        return _COUNT.sub('', text).splitlines()

    def test_a_line_for_each_file(self) -> None:
        lines = self.shown('files')
        self.assertEqual(self.status, 1)
        self.assertEqual(lines[:6], [
            'severity  marks  file            worst mark',
            'critical      1  files/bad.pkl   posix.system: runs a shell command',
            'critical      2  files/in.zip    posix.system: runs a shell command',
            'unread        1  files/other.7z  7z: this kind of container is not opened',
            'no mark          files/good.pkl', ''])

    def test_the_table_of_the_page(self) -> None:
        """docs/reference/scan.md shows what these files give, which it tells its readers to make."""
        (self.folder / 'models').mkdir()
        (self.folder / 'models/a.pt').write_bytes((MODELS / 'torch_state.pt').read_bytes())
        self.file('models/b.pkl', HARMLESS)
        self.file('models/c.pkl', HOSTILE)
        page = (Path(__file__).resolve().parents[2] / 'docs' / 'reference' / 'scan.md').read_text(encoding='utf-8')
        shown = re.findall(r'(?m)^    (.*)$', page.partition('This is the table of')[2].partition('\n## ')[0])
        self.assertEqual(self.shown('models', COLUMNS='80')[:4], shown)

    def test_eighty_columns(self) -> None:
        """The name of a file and its worst mark can be read whole: what does not fit goes on below."""
        self.file('files/a-checkpoint-with-a-long-name.pkl', b'cbuiltins\ngetattr\n.')
        lines = self.shown('--brief', 'files', COLUMNS='80')
        self.assertEqual(lines[:8], [
            'severity  marks  file            worst mark',
            'critical      1  files/a-checkpoint-with-a-long-name.pkl',
            '                                 builtins.getattr: gets any attribute by name',
            'critical      1  files/bad.pkl   posix.system: runs a shell command',
            'critical      2  files/in.zip    posix.system: runs a shell command',
            'unread        1  files/other.7z  7z: this kind of container is not opened', '',
            lines[7]])
        wide = self.shown('--brief', 'files', COLUMNS='120')
        self.assertEqual(wide[1], 'critical      1  files/a-checkpoint-with-a-long-name.pkl  builtins.getattr: gets any attribute by name')

    def test_a_long_mark_is_cut(self) -> None:
        self.file('files/long.pkl', b'c' + b'm' * 500 + b'-x\nname\n.')
        lines = self.shown('--brief', 'files', COLUMNS='80')
        at = next(number for number, line in enumerate(lines) if 'long.pkl' in line)
        self.assertEqual([line[33:] for line in lines[at:at + 3]], ["'" + 'm' * 46, 'm' * 47, 'm' * 45 + '..'])
        self.assertTrue(all(len(line) <= 80 for line in lines[:8]))

    def test_marks_stand_below(self) -> None:
        text = '\n'.join(self.shown('files'))
        for part in ('! files/bad.pkl: import posix.system once, first at 0: runs a shell command\n! files/bad.pkl: call posix.system once',
                     '! files/in.zip > b.pkl: import posix.system', '! files/other.7z: 7z', '\n\n4 files, 4 pickles in 3 of them'):
            self.assertIn(part, text)

    def test_colours(self) -> None:
        self.assertTrue(self.shown('files', NO_COLOR='')[1].startswith('\x1b[1;31mcritical\x1b[0m      1  files/bad.pkl'))
        self.assertNotIn('\x1b', ''.join(self.shown('files', NO_COLOR='', TERM='dumb')))
        self.assertNotIn('\x1b', ''.join(self.shown('files')))

    def test_names_cannot_steer_the_terminal(self) -> None:
        self.file('files/\x1b[2J\n.pkl', HOSTILE)
        self.assertNotIn('\x1b', ''.join(self.shown('files')))

    def test_many_files_without_a_mark(self) -> None:
        for number in range(30):
            self.file(f'more/{number:02}.pkl', HARMLESS)
        lines = self.shown('more')
        self.assertEqual(self.status, 0)
        self.assertEqual((lines[20], lines[21].strip()), ('no mark          more/19.pkl', 'and 10 more files without a mark'))

    def test_one_file_has_its_lines(self) -> None:
        self.assertEqual(self.shown('files/good.pkl')[0], f'  files/good.pkl: {len(HARMLESS)} bytes')

    def test_in_brief(self) -> None:
        lines = self.shown('--brief', 'files')
        self.assertEqual([line.split()[2:3] for line in lines[:5]], [['file'], ['files/bad.pkl'], ['files/in.zip'], ['files/other.7z'], []])
        self.assertTrue(lines[5].startswith('4 files, 4 pickles'))
        self.assertTrue(self.shown('--brief', 'files/good.pkl', 'files/good.pkl')[0].startswith('2 files'))

    def test_other_options_have_lines(self) -> None:
        self.assertTrue(self.shown('--full', 'files')[0].startswith('  files/'))


if __name__ == '__main__':
    unittest.main()
