"""Reports for others: the page, the text, and the forms of CI servers."""

from __future__ import annotations

import html
import html.parser
import json
import re
import shutil
import unittest
import xml.etree.ElementTree
from typing import Any, Dict, List, Optional, Tuple

from picklestep.scan import Look, Options, Result
from picklestep.scan.looks import RULES
from picklestep.scan.advice import ADVICE, advice_for
from picklestep.scan.reports import About, Findings
from picklestep.scan.reports.markdown import markdown_report
from picklestep.scan.reports.page import html_report
from picklestep.scan.reports.servers import code_quality, junit
from scan_support import HARMLESS, HOSTILE, MODELS, Made, ScanCase, zip_of

# Texts that mean something to the readers of a form, all of which a file chooses.
EVIL = '<script>alert(1)</script>"\'&]]>`|[a](javascript:b)![c](http://d)\n# e\u202e\x1b[2J\udcff'


class _Page(html.parser.HTMLParser):
    """The elements of a page, and its text."""

    def __init__(self) -> None:
        super().__init__()
        self.elements: List[Tuple[str, Dict[str, Optional[str]]]] = []
        self.text = ''

    def handle_starttag(self, tag: str, attrs: List[Tuple[str, Optional[str]]]) -> None:
        self.elements.append((tag, dict(attrs)))

    def handle_data(self, data: str) -> None:
        self.text += data


def page_of(text: str) -> _Page:
    page = _Page()
    page.feed(text)
    return page


class Reports(ScanCase):
    """Written by the command."""

    def setUp(self) -> None:
        super().setUp()
        self.file('models/bad.pkl', HOSTILE)
        self.file('models/good.pkl', HARMLESS)
        self.file('models/in.zip', zip_of([Made(b'a.pkl', HOSTILE)]))
        self.file('models/other.7z', b'7z\xbc\xaf\x27\x1c' + bytes(40))
        self.file('models/<b>.pkl', HOSTILE)
        shutil.copy(MODELS / 'torch_state.pt', self.folder / 'models')

    def written(self, option: str, name: str) -> str:
        run = self.scan('--brief', option, name, 'models', 'none.pkl')
        self.assertEqual((run.returncode, run.stderr), (1, ''))
        return (self.folder / name).read_text(encoding='utf-8')

    def test_the_page(self) -> None:
        text = self.written('--report', 'out.html')
        page = page_of(text)
        order = [re.split('[: ]', line)[-2] for line in re.findall(r'(?:critical|high|medium|unread) models/[^:]*:', page.text)]
        self.assertEqual([re.sub('.*/', '', each) for each in order][-1], 'other.7z')
        for part in ('7 files', "call posix.system once, first at 23: call 'posix' 'system' ('id') as #3", "_3 = system('id')  # 23",
                     'picklestep calls models/bad.pkl', "picklestep calls 'models/in.zip > a.pkl'", 'a.pkl', '7z', 'without a policy', 'scan --everywhere does that',
                     'torch_state.pt', ADVICE['known']):
            self.assertIn(part, page.text)
        self.assertRegex(page.text, r'SHA-256[0-9a-f]{64}')
        self.assertIn('models/<b>.pkl', page.text)
        self.assert_quiet(page)

    def test_what_was_not_looked_at_is_told(self) -> None:
        """A pickle within a text of another one is found by --everywhere alone. A report says that this was not given."""
        self.file('models/nested.pkl', b'\x80\x04C' + bytes([len(HOSTILE)]) + HOSTILE + b'.')
        for path in ('out.html', 'out.md'):
            self.scan('models/nested.pkl', '--report', path)
            self.assertIn('--everywhere does that', (self.folder / path).read_text())
            self.scan('models/nested.pkl', '--everywhere', '--report', path)
            text = (self.folder / path).read_text()
            self.assertNotIn('--everywhere does that', text)
            self.assertIn('posix.system', text)

    def test_the_worst_call_stands_in_full(self) -> None:
        """In the lines of scan a text has 64 signs. What runs may stand behind these."""
        command = 'echo ' + 'x' * 300 + '; rm -rf /'
        hostile = b'cposix\nsystem\n(X' + len(command).to_bytes(4, 'little') + command.encode() + b'tR.'
        self.file('models/bad.pkl', hostile)
        self.file('models/in.zip', zip_of([Made(b'a.pkl', hostile)]))
        self.assertNotIn('rm -rf', self.scan('models').stdout)
        for option, name in (('--report', 'out.html'), ('--report', 'out.md')):
            text = html.unescape(self.written(option, name))
            for place in ('models/bad.pkl', 'models/in.zip > a.pkl'):
                self.assertIn(f"{place}: call posix.system once, first at {14 + 1 + 5 + len(command) + 1}: call 'posix' 'system' ('{command}') as #3", text)

    def test_two_reports(self) -> None:
        """Each file that is named is written. What a policy takes stands in both, with its reason."""
        self.file('our.toml', b'[[exceptions]]\npath = "models/bad.pkl"\nnames = ["posix.system"]\nreason = "our own tool"\nowner = "a"\nuntil = 2999-01-31\n')
        run = self.scan('--brief', '--policy', 'our.toml', '--report', 'a.html', '--report', 'b.md', 'models')
        self.assertEqual((run.returncode, run.stderr), (1, ''))
        pages = [(self.folder / name).read_text(encoding='utf-8') for name in ('a.html', 'b.md')]
        for text in pages:
            self.assertIn('Marks that the policy takes: 1', text)
            self.assertRegex(text, r'models/bad\.pkl: import posix\.system .*\[.*our own tool')
        self.assert_quiet(page_of(pages[0]))

    def assert_quiet(self, page: _Page) -> None:
        """It has no script, and asks for nothing."""
        self.assertFalse({tag for tag, _ in page.elements} & {'script', 'img', 'link', 'iframe', 'a', 'object', 'form', 'svg'})
        for tag, attributes in page.elements:
            self.assertFalse([name for name in attributes if name.startswith('on') or name in ('src', 'href')], tag)
        self.assertIn(('meta', {'http-equiv': 'Content-Security-Policy', 'content': "default-src 'none'; style-src 'unsafe-inline'"}), page.elements)

    def test_the_text(self) -> None:
        text = self.written('--report', 'out.md')
        for part in ('| critical | `models/<b>.pkl` |', '## critical: `models/bad.pkl`', "system('id')  # 23", '| unread |'):
            self.assertIn(part, text)

    def test_junit(self) -> None:
        tree = xml.etree.ElementTree.fromstring(self.written('--junit', 'out.xml'))
        suite = tree[0]
        self.assertEqual({name: suite.get(name) for name in ('tests', 'failures', 'errors', 'skipped')},
                         {'tests': '7', 'failures': '3', 'errors': '2', 'skipped': '0'})
        found = {each.get('name'): [inner.tag for inner in each] for each in suite}
        self.assertEqual(found['models/bad.pkl'], ['failure'])
        self.assertEqual((found['models/good.pkl'], found['none.pkl'], found['models/other.7z']), ([], ['error'], ['error']))

    def test_code_quality(self) -> None:
        entries = json.loads(self.written('--code-quality', 'out.json'))
        self.assertEqual(len({each['fingerprint'] for each in entries}), len(entries))
        bad = next(each for each in entries if each['location']['path'] == 'models/bad.pkl')
        self.assertEqual((bad['severity'], bad['check_name'], bad['location']['lines']), ('blocker', 'picklestep/known', {'begin': 1}))
        for each in entries:
            self.assertEqual(set(each), {'description', 'check_name', 'fingerprint', 'severity', 'location'})
            self.assertIn(each['severity'], ('info', 'minor', 'major', 'critical', 'blocker'))

    def test_wrong_names(self) -> None:
        for words in (('--report', 'out.txt'), ('--report', 'none/out.html'), ('--junit', 'models')):
            run = self.scan('models', *words)
            self.assertEqual((run.returncode, run.stdout), (2, ''), words)
            self.assertEqual(len(run.stderr.splitlines()), 1)


class Hostile(unittest.TestCase):
    """Names and texts that files choose."""

    def findings(self, count: int = 1) -> Findings:
        findings = Findings(Options())
        for number in range(count):
            look = Look((EVIL,), 'known', f'import {EVIL} once', EVIL, 7, (EVIL,), 'critical')
            findings.add(Result(f'{EVIL}{number}', 25, digest='0' * 64, kinds=(EVIL,)), [look])
        return findings

    def test_each_form_takes_them_as_texts(self) -> None:
        about = About('1.0', 'now', EVIL)
        page = page_of(html_report(self.findings(), about))
        self.assertNotIn('script', [tag for tag, _ in page.elements])
        self.assertFalse([name for _, attributes in page.elements for name in attributes if name.startswith('on')])
        self.assertIn('<script>alert(1)', page.text)
        for sign in '\u202e\x1b\udcff':
            self.assertNotIn(sign, page.text)
        text = markdown_report(self.findings(), about)
        self.assertNotIn('\n# e', text)
        text.encode()
        suite = xml.etree.ElementTree.fromstring(junit(self.findings(), about))[0]
        self.assertIn('<script>alert(1)</script>', suite[0].get('name') or '')
        entries: List[Dict[str, Any]] = json.loads(code_quality(self.findings(2), about))
        self.assertEqual(len({each['fingerprint'] for each in entries}), 2)

    def test_no_file_makes_a_report_large(self) -> None:
        """Neither many marks of long texts, nor marks that a policy takes, nor long names of members."""
        look = Look(('<' * 60_000,), 'known', '<' * 100_000, 'a.b', 7, ('<' * 100_000,) * 30, 'critical')
        findings = Findings(Options())
        for number in range(100):
            result = Result(f'{number}.zip', 25, digest='0' * 64)
            findings.add(result, [look] * 30)
            findings.add_taken(result, [look] * 30)
        for report in (html_report, markdown_report):
            text = report(findings, About('1.0', 'now'))
            self.assertLess(len(text), 3_500_000)
            self.assertIn('lines more', text)
            self.assertIn('99.zip', text)

    def test_code_in_markdown_is_not_left(self) -> None:
        for line in markdown_report(self.findings(), About('1.0', 'now')).splitlines():
            if 'alert(1)' in line and not line.startswith('critical: '):
                before = line.partition('<script>')[0]
                self.assertRegex(before, '``(?!`)')

    def test_five_thousand_files(self) -> None:
        about = About('1.0', 'now')
        for marked in (False, True):
            findings = Findings(Options())
            for number in range(5000):
                look = Look((), 'known', 'import posix.system once, first at 0: runs a shell command', '', 0, ('call posix.system' + 'x' * 500,), 'critical')
                findings.add(Result(f'models/{number % 50}/checkpoint-{number:05}.pt', 10**9, digest='0' * 64, kinds=('zip',)), [look] if marked else [])
            for report in (html_report, markdown_report):
                text = report(findings, about)
                self.assertLess(len(text.encode()), 5_000_000)
                self.assertIn('5000 files', text)

    def test_each_rule_has_its_advice(self) -> None:
        self.assertEqual(list(ADVICE), list(RULES))


class Advice(ScanCase):
    """What a reader of a report is told to do."""

    def test_no_dangerous_name_is_to_be_allowed(self) -> None:
        """Whichever rule marks it: as a known name, as one that no list has, also where known names are not marked, or as one that goes through
        a module, or stands in no file."""
        for name, content in (('known', HOSTILE), ('through', b'csklearn.base\nnp.load\n.'), ('dash', b'clib-dynload._ctypes\ndlopen\n.'),
                              ('computed', b'\x80\x02cbuiltins\nstr\n)RVsystem\n\x93.')):
            self.file(f'{name}.pkl', content)
        for words in ((), ('--allow', 'plain'), ('--allow', 'plain', '--no-known')):
            for name in ('known', 'through', 'dash', 'computed'):
                if words[-1:] == ('--no-known',) and name in ('through', 'dash'):
                    continue  # (nothing is known of what these lead to)
                with self.subTest(words=words, name=name):
                    self.scan(*words, '--report', 'out.html', '--report', 'out.md', f'{name}.pkl')
                    for path in ('out.html', 'out.md'):
                        text = (self.folder / path).read_text(encoding='utf-8')
                        self.assertRegex(text, 'Do not load the file')
                        self.assertNotRegex(text, 'write it into a list|write the name into a')

    def test_what_may_be_allowed(self) -> None:
        self.assertIn('write it into a list for --allow', advice_for(Look((), 'not-allowed', 'import app.Job', 'app.Job')))
        self.assertEqual(advice_for(Look((), 'not-allowed', 'import', 'pandas.core.frame.DataFrame')),
                         'The set pandas has this name. If you expect files of this library, give --allow pandas.')


if __name__ == '__main__':
    unittest.main()
