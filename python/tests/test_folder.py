"""A folder from Python: what is found as it comes, with a policy, progress, and as a table."""

from __future__ import annotations

import html.parser
import unittest
from typing import List, Tuple

from picklestep.scan import Found, Look, Result, folder, to_dataframe
from scan_support import HARMLESS, HOSTILE, ScanCase


class Folders(ScanCase):
    """Looked at from Python."""

    def setUp(self) -> None:
        super().setUp()
        self.file('models/a.pkl', HOSTILE)
        self.file('models/b.pkl', HARMLESS)
        self.file('models/c/d.7z', b'7z\xbc\xaf\x27\x1c' + bytes(40))

    def test_what_is_found(self) -> None:
        for jobs in (1, 2):
            scan = folder(self.folder / 'models', jobs=jobs)
            found = {each.path.rpartition('/')[2]: each.severity for each in scan}
            self.assertEqual(found, {'a.pkl': 'critical', 'b.pkl': None, 'd.7z': 'unread'})
            self.assertEqual((scan.files, scan.status, scan.summary()), (3, 1, '3 files, 1 critical, 1 unread'))
        self.assertEqual([each.severity for each in folder(self.folder / 'none')], ['unread'])

    def test_lists_and_a_policy(self) -> None:
        self.assertEqual({each.severity for each in folder(self.folder / 'models', allow=['torch'], deny=['numpy'])}, {'critical', None, 'unread'})
        policy = self.file('picklestep.toml', b'[[exceptions]]\npath = "a.pkl"\nreason = "r"\nowner = "o"\nuntil = 2099-12-31\n')
        try:
            import tomllib  # noqa: F401
        except ImportError:
            self.skipTest('this Python reads no TOML')
        found = {each.path.rpartition('/')[2]: each for each in folder(self.folder / 'models', policy=policy)}
        self.assertEqual((found['a.pkl'].severity, len(found['a.pkl'].taken)), (None, 1))
        self.assertEqual(next(iter(folder(self.folder / 'models' / 'a.pkl'))).severity, 'critical')

    def test_progress(self) -> None:
        told: List[Tuple[int, int]] = []
        list(folder(self.folder / 'models', progress=lambda done, total: told.append((done, total))))
        self.assertEqual(told, [(1, 3), (2, 3), (3, 3)])

    def test_it_may_be_left(self) -> None:
        for _ in folder(self.folder / 'models', jobs=2):
            break

    def test_a_table(self) -> None:
        try:
            import pandas  # noqa: F401
        except ImportError:
            with self.assertRaises(ImportError):
                to_dataframe([])
            self.skipTest('there is no pandas')
        table = folder(self.folder / 'models').to_dataframe()
        self.assertEqual(len(table), 3)
        self.assertEqual(list(table[table.severity == 'critical'].name), ['posix.system'])

    def test_notebooks(self) -> None:
        evil = '<script>"\u202e'
        text = Found(Result(evil), (Look((evil,), 'known', evil, evil, 0, (evil,), 'critical'),))._repr_html_()
        tags: List[str] = []
        parser = html.parser.HTMLParser()
        parser.handle_starttag = lambda tag, attrs: tags.append(tag)  # type: ignore[method-assign]
        parser.feed(text)
        self.assertEqual(tags, ['details', 'summary', 'b', 'table', *['tr', *['th'] * 3], *['tr', 'td', 'b', 'td', 'td', 'br']])
        self.assertNotIn('\u202e', text)
        self.assertEqual(Found(Result('a.pkl'), ())._repr_html_(), '<p>a.pkl: no mark</p>')

    def test_a_notebook_shows_marks_in_a_table(self) -> None:
        found = next(iter(folder(self.folder / 'models' / 'a.pkl')))
        for text in (found._repr_html_(), found.result._repr_html_()):
            self.assertRegex(text, r'^<details><summary><b style="color:#fff;background:#9b1c1c;padding:0 .4em">critical</b> \S*a.pkl: '
                                   'posix.system: runs a shell command</summary><table>')
            self.assertIn("import posix.system once, first at 0: runs a shell command<br>call posix.system once", text)
        self.assertIn('end: stopped</pre>', found.result._repr_html_())


if __name__ == '__main__':
    unittest.main()
