"""A policy: what it says for which files, what it takes, and what one does that nobody named."""

from __future__ import annotations

import datetime
import hashlib
import json
import os
import random
import subprocess
import sys
import time
import unittest
from pathlib import Path
from typing import Any, Dict, List

from json_schema import assert_fit, faults as schema_faults
from pickles import ROOT
from picklestep.scan import look
from picklestep.scan.judges import Given
from picklestep.scan.policy.judging import PolicyJudges
from picklestep.scan.policy.index import RuleIndex
from picklestep.scan.policy.model import Rule, Target
from picklestep.scan.policy.patterns import PathPattern, PathPatterns
from picklestep.scan.policy.reader import read_policy
from scan_support import HARMLESS, HOSTILE, ScanCase, environment

try:
    import tomllib
except ImportError:  # before Python 3.11
    tomllib = None  # type: ignore[assignment]

NUMPY = b'\x80\x02cnumpy\nndarray\n.'
JOB = b'\x80\x02capp\nJob\n.'
SHARE = ROOT / 'share'


class Patterns(ScanCase):
    """Paths by patterns, as git has them."""

    def test_each_sign(self) -> None:
        for pattern, covered, others in (
                ('*.pkl', ('a.pkl', 'b/c.pkl', 'b.pkl/c'), ('a.pk', 'apkl')), ('/a', ('a', 'a/b'), ('b/a', 'ab')), ('a/b', ('a/b', 'a/b/c'), ('c/a/b',)),
                ('a/', ('a/b', 'c/a/b'), ('a', 'c/a')), ('a/**', ('a/b', 'a/b/c'), ('a', 'b/a/c')), ('**/a', ('a', 'b/a', 'b/a/c'), ('ba',)),
                ('a/**/b', ('a/b', 'a/c/b', 'a/c/d/b'), ('a/c', 'ab')), ('?.pt', ('a.pt',), ('ab.pt', '/.pt')), ('[ab].pt', ('a.pt', 'b.pt'), ('c.pt',)),
                ('[!ab].pt', ('c.pt',), ('a.pt',)), ('[^ab].pt', ('c.pt',), ('a.pt',)), ('a*b', ('ab', 'axxb'), ('a/b',)), ('\\*', ('*',), ('a',)), ('a[b', ('a[b',), ('ab',))):
            for path in covered:
                self.assertTrue(PathPattern(pattern).covers(path), (pattern, path))
            for path in others:
                self.assertFalse(PathPattern(pattern).covers(path), (pattern, path))

    def test_the_last_one_decides(self) -> None:
        patterns = PathPatterns(['*.pkl', '!models/*', 'models/bad.pkl'])
        self.assertEqual([patterns.covers(path) for path in ('a.pkl', 'models/a.pkl', 'models/bad.pkl')], [True, False, True])

    def test_git_says_the_same(self) -> None:
        """Of random patterns and paths. (Git goes into no folder that it leaves out, so patterns with `!` are compared by hand.)"""
        if subprocess.run(['git', '--version'], capture_output=True, check=False).returncode:
            self.skipTest('there is no git')
        subprocess.run(['git', 'init', '-q', '.'], cwd=self.folder, check=True)
        chance = random.Random(81)
        paths = ['/'.join(chance.choices(['a', 'b', 'ab', 'a.b', 'abc'], k=chance.randrange(1, 5))) for _ in range(60)]
        for _ in range(60):
            pattern = ''.join(chance.choices(['a', 'b', '.', '*', '**', '/', '?', '[ab]', '/**/'], k=chance.randrange(1, 6)))
            if not pattern.strip('/') or '//' in pattern or '***' in pattern or pattern.startswith('#'):
                continue
            self.file('.gitignore', (pattern + '\n').encode())
            given = '\n'.join(paths)
            run = subprocess.run(['git', 'check-ignore', '--no-index', '--stdin'], cwd=self.folder, input=given, capture_output=True, text=True, check=False)
            with self.subTest(pattern):
                self.assertEqual({path for path in paths if PathPattern(pattern).covers(path)}, set(run.stdout.splitlines()))

    def test_the_index_finds_the_same_rule(self) -> None:
        chance = random.Random(82)
        words = ['a', 'b', 'ab', '*', '*.b', 'a*', '**', '?', '[ab]*', 'a.b', '\\*', '*a*']
        paths = ['/'.join(chance.choices(['a', 'b', 'ab', 'a.b', 'c.b', '*'], k=chance.randrange(1, 5))) for _ in range(80)]
        for _ in range(60):
            rules = []
            for number in range(8):
                texts = tuple(('!' if chance.random() < 0.2 else '') + chance.choice(['', '/']) + '/'.join(chance.choices(words, k=chance.randrange(1, 4)))
                              for _ in range(chance.randrange(1, 4)))
                rules.append(Rule(str(number), Target(texts, (), PathPatterns(texts))))
            index = RuleIndex(rules)
            for path in paths:
                wanted = next((rule for rule in reversed(rules) if rule.target.patterns.covers(path)), None)
                self.assertIs(index.rule_for(path), wanted, (path, [rule.target.paths for rule in rules]))

    def test_no_pattern_takes_long(self) -> None:
        begin = time.process_time()
        for pattern, path in (('*a' * 400 + 'b', 'a' * 4000), ('**/' * 60 + 'b', 'a/' * 2000 + 'a'), ('**/*a*a*a*a*b/' * 10 + 'c', ('a' * 200 + '/') * 20)):
            self.assertFalse(PathPattern(pattern).covers(path))
        self.assertLess(time.process_time() - begin, 5)


@unittest.skipIf(tomllib is None, 'this Python reads no TOML')
class PolicyCase(ScanCase):
    """A test with a policy in its folder."""

    def setUp(self) -> None:
        super().setUp()
        self.file('models/bad.pkl', HOSTILE)
        self.file('models/good.pkl', HARMLESS)
        self.file('models/job.pkl', JOB)
        self.file('models/old/array.pkl', NUMPY)

    def policy(self, *lines: str, name: str = 'picklestep.toml') -> Path:
        return self.file(name, ('\n'.join(lines) + '\n').encode())

    def marked(self, *words: str) -> List[str]:
        """The names of files with marks, by `scan`."""
        lines = map(json.loads, self.scan('--json', *words).stdout.splitlines())
        return sorted(line['path'] for line in lines if line['looks'])


class Named(PolicyCase):
    """What a policy does that is named."""

    def test_rules(self) -> None:
        self.policy('allow = ["plain"]', '[[rules]]', 'paths = ["old/"]', 'allow = ["numpy"]', '[[rules]]', 'paths = ["job.*"]', 'allow = ["ours.txt"]')
        self.file('ours.txt', b'app.Job\n')
        self.assertEqual(self.marked('--policy', 'picklestep.toml', 'models'), ['models/bad.pkl'])
        self.assertEqual(self.marked('--policy', 'picklestep.toml', str(self.folder / 'models')), [f'{self.folder}/models/bad.pkl'])
        self.assertEqual(self.marked('--no-policy', '--allow', 'plain', 'models'), ['models/bad.pkl', 'models/job.pkl', 'models/old/array.pkl'])
        self.policy('allow = ["plain"]', 'deny = ["denied.txt"]', '[[rules]]', 'paths = ["old/"]', 'allow = ["numpy"]', 'deny = []')
        self.file('denied.txt', b'numpy.ndarray\n')
        self.assertEqual(self.marked('--policy', 'picklestep.toml', 'models/old'), ['models/old/array.pkl'])

    def test_the_command_line_is_added(self) -> None:
        self.policy('allow = ["plain"]')
        self.assertEqual(self.marked('--policy', 'picklestep.toml', '--allow', 'numpy', 'models/old'), [])
        self.file('denied.txt', b'collections.OrderedDict\n')
        self.assertEqual(self.marked('--policy', 'picklestep.toml', '--deny', 'denied.txt', 'models/good.pkl'), ['models/good.pkl'])

    def test_limits_and_failures(self) -> None:
        self.policy('fail-on = "critical"', 'known = true', '[limits]', 'bytes = "1M"', '[[rules]]', 'paths = ["large.*"]', 'limits = {lines = 1}')
        self.file('models/large.pkl', HARMLESS + HARMLESS)
        self.file('reads.pkl', b'clinecache\ngetline\n.')
        for jobs in ('1', '2'):
            self.assertEqual(self.marked('--policy', 'picklestep.toml', '--jobs', jobs, 'models'), ['models/bad.pkl', 'models/large.pkl'])
        self.assertEqual(self.marked('--policy', 'picklestep.toml', '--max-lines', '100', 'models/large.pkl'), [])
        self.assertEqual(self.scan('--policy', 'picklestep.toml', 'reads.pkl').returncode, 0)
        self.assertEqual(self.scan('--policy', 'picklestep.toml', '--fail-on', 'high', 'reads.pkl').returncode, 1)

    def exception(self, *lines: str, until: str = '2099-12-31') -> None:
        self.policy('[[exceptions]]', 'reason = "read by us"', 'owner = "ana"', f'until = {until}', *lines)

    def test_exceptions(self) -> None:
        digest = hashlib.sha256(HOSTILE).hexdigest()
        for lines, taken in ((('path = "bad.pkl"',), True), (('path = "models/"', 'names = ["posix.*"]'), True), ((f'sha256 = "{digest}"',), True),
                             (('path = "bad.pkl"', 'rules = ["known"]'), True), (('path = "bad.pkl"', 'names = ["nt.*"]'), False),
                             (('path = "bad.pkl"', 'rules = ["not-read"]'), False), (('path = "/bad.pkl"',), False), ((f'sha256 = "{"0" * 64}"',), False),
                             (('address = "redis://*"',), False)):
            with self.subTest(lines):
                self.exception(*lines)
                run = self.scan('--policy', 'picklestep.toml', 'models/bad.pkl')
                self.assertEqual(run.returncode, 0 if taken else 1)
                self.assertEqual('[excepted until 2099-12-31: read by us]' in run.stdout, taken)
                self.assertEqual(', 1 mark that the policy takes' in run.stdout, taken)

    def test_an_exception_that_has_ended(self) -> None:
        self.exception('path = "bad.pkl"', until='2020-01-31')
        run = self.scan('--brief', '--policy', 'picklestep.toml', 'models/bad.pkl')
        self.assertEqual(run.returncode, 1)
        self.assertIn('runs a shell command [its exception ended on 2020-01-31]', run.stdout)
        self.exception('path = "bad.pkl"', until='2026-11-29')
        policy, result = read_policy(self.folder / 'picklestep.toml'), look(self.folder / 'models/bad.pkl')
        for day, taken in ((29, True), (30, False)):
            found = PolicyJudges(policy, Given(), datetime.date(2026, 11, day)).looks(result)
            self.assertEqual([each.is_taken for each in found], [taken])

    def test_what_cannot_be_looked_at(self) -> None:
        self.file('a.7z', b'7z\xbc\xaf\x27\x1c' + bytes(40))
        self.exception('path = "a.7z"', 'rules = ["not-looked-at"]')
        self.assertEqual(self.scan('--policy', 'picklestep.toml', 'a.7z').returncode, 0)
        self.assertEqual(self.scan('--no-policy', 'a.7z').returncode, 3)

    def test_lines_and_reports_leave_out_what_is_taken(self) -> None:
        self.exception('path = "bad.pkl"')
        words = ('--policy', 'picklestep.toml', 'models/bad.pkl', '--sarif', 'out.sarif', '--junit', 'out.xml', '--report', 'out.html')
        line = json.loads(self.scan('--json', *words).stdout)
        self.assertEqual((line['looks'], line['severity'], line['status']), ([], None, 0))
        self.assertEqual([each['remark'] for each in line['taken']], ['excepted until 2099-12-31: read by us'])
        self.assertEqual(json.loads((self.folder / 'out.sarif').read_text())['runs'][0]['results'], [])
        self.assertIn('failures="0"', (self.folder / 'out.xml').read_text())
        self.assertIn('with the policy picklestep.toml', (self.folder / 'out.html').read_text())

    def test_includes(self) -> None:
        self.policy('allow = ["plain"]', 'fail-on = "critical"', '[[rules]]', 'paths = ["*.pkl"]', 'allow = ["numpy"]', name='company/all.toml')
        self.policy('include = ["company/all.toml"]', '[[rules]]', 'paths = ["job.pkl"]', 'allow = ["ours.txt"]')
        self.file('ours.txt', b'app.Job\n')
        self.assertEqual(self.marked('--policy', 'picklestep.toml', 'models'), ['models/bad.pkl'])
        self.policy('include = ["picklestep.toml"]')
        self.assertIn('includes itself', self.scan('--policy', 'picklestep.toml', 'models').stderr)

    def test_a_baseline(self) -> None:
        run = self.scan('--write-baseline', 'base.json', 'models')
        self.assertEqual(run.returncode, 1)
        self.assertEqual(self.scan('--baseline', 'base.json', 'models').returncode, 0)
        os.rename(self.folder / 'models/bad.pkl', self.folder / 'models/moved.pkl')
        self.assertEqual(self.scan('--baseline', 'base.json', 'models').returncode, 0)
        self.file('models/moved.pkl', HOSTILE + HOSTILE)
        self.assertEqual(self.marked('--baseline', 'base.json', 'models'), ['models/moved.pkl'])
        self.policy('baseline = "base.json"')
        self.assertEqual(self.marked('--policy', 'picklestep.toml', 'models'), ['models/moved.pkl'])
        self.scan('--policy', 'picklestep.toml', '--write-baseline', 'base.json', 'models')
        self.file('models/bad.pkl', HOSTILE)
        self.assertEqual(self.marked('--policy', 'picklestep.toml', 'models'), ['models/bad.pkl'])
        for content in (b'', b'[]', b'{}', b'{"picklestep-baseline": 1, "marks": [{}]}', b'{"picklestep-baseline": 2, "marks": []}'):
            self.file('base.json', content)
            self.assertEqual(self.scan('--baseline', 'base.json', 'models').returncode, 2)

    def test_a_baseline_that_a_policy_names_is_written_first(self) -> None:
        self.policy('baseline = "base.json"')
        run = self.scan('--policy', 'picklestep.toml', 'models')
        self.assertEqual(run.returncode, 2)
        self.assertIn('base.json: No such file or directory; --write-baseline writes it', run.stderr)
        self.assertEqual(self.scan('--policy', 'picklestep.toml', '--write-baseline', 'base.json', 'models').returncode, 1)
        before = (self.folder / 'base.json').read_text()
        self.assertEqual(self.scan('--policy', 'picklestep.toml', '--write-baseline', 'base.json', 'models').returncode, 0)
        self.assertEqual((self.folder / 'base.json').read_text(), before)


class Found(PolicyCase):
    """What a policy does that nobody named: it may be from whoever made the files."""

    LOOSE = ('allow = ["all.txt"]', 'known = false', 'fail-on = "critical"', 'baseline = "base.json"', '[limits]', 'lines = 1', '[[exceptions]]', 'path = "*"',
             'reason = "trust me"', 'owner = "x"', 'until = 2099-12-31', '[[rules]]', 'paths = ["*"]', 'allow = ["all.txt"]', 'limits = {members = 1}')

    def test_it_takes_no_mark_away(self) -> None:
        self.file('models/cut.pkl', b'N')
        self.file('models/odd.pkl', b'\x80\x03(t.')
        self.file('models/a.7z', b'7z\xbc\xaf\x27\x1c' + bytes(40))
        self.file('models/kind.pkl', b'\x80\x02cnumpy\ndtype\nq\0X\x02\0\0\0S8q\1\x89\x88\x87q\2Rq\3(K\3X\1\0\0\0|q\4NNNK\x08K\1K?tq\5b.')
        self.file('models/all.txt', b'**\n')
        self.scan('--no-policy', '--write-baseline', 'models/base.json', 'models')
        for given in ((), ('--allow', 'torch'), ('--no-known',), ('--deny', 'numpy')):
            before = self.lines('--no-policy', *given)
            self.policy(*self.LOOSE, name='models/picklestep.toml')
            after = self.lines(*given)
            (self.folder / 'models/picklestep.toml').unlink()
            with self.subTest(given):
                for path, line in before.items():
                    kept = [(each['where'], each['name'], each['severity'], each['offset']) for each in after[path]['looks']]
                    for each in line['looks']:
                        self.assertIn((each['where'], each['name'], each['severity'], each['offset']), kept, path)
                    self.assertNotIn('taken', after[path])
                    self.assertEqual(line['status'], after[path]['status'])

    def lines(self, *words: str) -> Dict[str, Any]:
        run = self.scan('--json', *words, 'models')
        return {line['path']: line for line in map(json.loads, run.stdout.splitlines())}

    def test_it_adds_marks(self) -> None:
        for place, folder in (('models/picklestep.toml', 'models'), ('picklestep.toml', 'models'), ('picklestep.toml', 'models/old')):
            self.policy('allow = ["plain"]', 'deny = ["denied.txt"]', name=place)
            self.file(f'{os.path.dirname(place)}/denied.txt'.lstrip('/'), b'collections.OrderedDict\n')
            self.assertIn(f'{folder}/good.pkl' if folder == 'models' else 'models/old/array.pkl', self.marked(folder))
            (self.folder / place).unlink()

    def test_it_is_told(self) -> None:
        self.policy('[[exceptions]]', 'path = "*"', 'reason = "r"', 'owner = "o"', 'until = 2099-12-31')
        run = self.scan('--brief', 'models/bad.pkl')
        self.assertEqual(run.returncode, 1)
        self.assertIn('[the policy would take it]', run.stdout)
        self.assertIn('policy: picklestep.toml, which was found: it only adds marks, and would take 1 mark (--policy picklestep.toml follows all of it)', run.stdout)
        self.assertNotIn('policy', self.scan('--brief', '--no-policy', 'models/bad.pkl').stdout)

    def test_its_words_stay_in_its_folder(self) -> None:
        self.file('secret', b'password\n')
        os.symlink('../secret', self.folder / 'models/link')
        for word in ('../secret', '/etc/hostname', 'link', '/dev/zero'):
            for line in (f'allow = ["{word}"]', f'deny = ["{word}"]', f'include = ["{word}"]', f'baseline = "{word}"'):
                self.policy(line, name='models/picklestep.toml')
                run = self.scan('models')
                self.assertEqual((run.returncode, run.stdout), (2, ''), line)
                self.assertNotIn('password', run.stderr)
                self.assertIn('(--no-policy goes without it)', run.stderr)

    def test_its_lists_include_no_file(self) -> None:
        self.file('secret', b'password\n')
        os.mkfifo(self.folder / 'models/waits')
        self.policy('allow = ["names"]', name='models/picklestep.toml')
        for word in ('../secret', '/etc/hostname', 'waits', '/dev/zero'):
            self.file('models/names', f'include {word}\n'.encode())
            run = self.scan('models')
            self.assertEqual((run.returncode, run.stdout), (2, ''), word)
            self.assertNotIn('password', run.stderr)
        self.file('models/names', b'include plain\n')
        self.assertEqual(self.scan('models').returncode, 1)

    def test_where_it_is_looked_for(self) -> None:
        self.policy('allow = ["plain"]', name='models/old/picklestep.toml')
        self.assertEqual(self.marked('models/old'), ['models/old/array.pkl'])
        self.assertEqual(self.marked('models'), ['models/bad.pkl'])
        self.assertEqual(self.marked('models/old/array.pkl', 'models/good.pkl'), [])


class Reading(PolicyCase):
    """What a policy may say."""

    WRONG = (('allow = "torch"', 'a list'), ('allow = ["toch"]', 'the nearest set is torch'), ('alow = []', 'the nearest key is allow'), ('known = 1', 'true or false'),
             ('fail-on = "low"', 'none of'), ('[limits]\nbytes = 0', 'above 0'), ('[limits]\nsecond = 1', 'the nearest key is seconds'), ('rules = 1', '[[rules]]'),
             ('[[rules]]\nallow = []', 'which files'), ('[[rules]]\npaths = []', 'which files'), ('[[rules]]\npaths = [""]', 'text'), ('[[rules]]\npaths = ["/"]', 'not empty'),
             ('[[exceptions]]\npath = "a"', 'an exception has a reason'), ('[[exceptions]]\nreason = "r"\nowner = "o"\nuntil = 2027-01-31', 'one of sha256'),
             ('[[exceptions]]\nreason = "r"\nowner = "o"\nuntil = "2027-01-31"\npath = "a"', 'a day'), ('a', 'line 1'), ('allow = ["a\\u0000b"]', 'no file'), ('baseline = "a\\u0000b"', 'no file'),
             ('x = ' + '1' * 900_000, ''), ('a' + '.a' * 300 + ' = 1', '200 dots'),
             ('[[exceptions]]\nreason = "r"\nowner = "o"\nuntil = 2027-01-31\nsha256 = "ab"', '64'), ('x = ' + '[' * 3000, ''),
             ('[[exceptions]]\nreason = "r"\nowner = "o"\nuntil = 2027-01-31\npath = "a"\nnames = ["import os"]', 'no entry'),
             ('[[exceptions]]\nreason = "r"\nowner = "o"\nuntil = 2027-01-31\npath = "a"\nrules = ["knwn"]', 'the nearest rule is known'))

    def test_what_is_wrong_is_said(self) -> None:
        for text, why in self.WRONG:
            with self.subTest(text[:60]):
                self.policy(text)
                run = self.scan('--policy', 'picklestep.toml', 'models')
                self.assertEqual((run.returncode, run.stdout), (2, ''), run.stderr[-300:])
                self.assertEqual(len(run.stderr.splitlines()), 1, run.stderr[-300:])
                self.assertIn(why, run.stderr)
        run = self.scan('--policy', 'none.toml', 'models')
        self.assertEqual((run.returncode, run.stderr), (2, f'picklestep: {os.path.realpath(self.folder)}/none.toml: there is no such file\n'))
        self.assertEqual(self.scan('--policy', 'models', 'models').returncode, 2)

    def test_the_schema_says_the_same(self) -> None:
        schema = json.loads((SHARE / 'picklestep.schema.json').read_text())
        good = ('allow = ["torch"]\ndeny = []\nknown = true\nfail-on = "high"\ninclude = []\n[limits]\nbytes = "1G"\nseconds = 5\n[[rules]]\npaths = ["a"]\n'
                'servers = ["redis://*"]\nallow = []\nlimits = {depth = 2}\n[[exceptions]]\nsha256 = "' + '0' * 64 + '"\nreason = "r"\nowner = "o"\n'
                'until = 2027-01-31\nnames = ["a.b"]\nrules = ["known"]\n')
        self.policy(good)
        read_policy(self.folder / 'picklestep.toml')
        for text, _ in self.WRONG:
            try:
                made = self.plain(text)
            except (ValueError, RecursionError):
                continue
            if 'toch' in text or 'u0000' in text or '"2027' in text or 'import os' in text or '"/"' in text:
                continue  # (a schema does not know which files there are, nor the grammar of names)
            with self.subTest(text[:60]):
                self.assertTrue(list(schema_faults(schema, made)) or 'paths = []' in text)
        assert_fit(self, SHARE / 'picklestep.schema.json', [json.dumps(self.plain(good))])

    def plain(self, text: str) -> Any:
        """The policy as JSON has it."""
        return json.loads(json.dumps(tomllib.loads(text), default=str))

    def test_the_schema_has_each_key_of_the_page(self) -> None:
        schema = json.loads((SHARE / 'picklestep.schema.json').read_text())
        page = (ROOT / 'docs' / 'reference' / 'policy.md').read_text(encoding='utf-8').partition('## All keys')[2]
        keys = {*schema['properties'], *(key for name in ('rule', 'exception') for key in schema['definitions'][name]['properties'])}
        for key in keys - {'rules', 'exceptions'}:
            self.assertRegex(page, rf'(?m)^    .*\b{key}\b')

    def test_without_a_reader_of_toml(self) -> None:
        self.policy('allow = []')
        (self.folder / 'lib').mkdir()
        for name in ('tomllib', 'tomli'):
            self.file(f'lib/{name}.py', b'raise ImportError\n')
        code = ("import sys, pathlib; sys.path.insert(0, 'lib'); from picklestep.scan.policy.reader import read_policy\n"
                "try: read_policy(pathlib.Path('picklestep.toml'))\nexcept Exception as error: print(type(error).__name__, error)")
        run = subprocess.run([sys.executable, '-c', code], cwd=self.folder, env=environment(), capture_output=True, text=True, check=False)
        self.assertIn('BadPolicy', run.stdout, run.stderr)
        self.assertIn('pip install tomli', run.stdout)


class Checks(PolicyCase):
    """`picklestep policy check`."""

    def check(self, *words: str) -> 'subprocess.CompletedProcess[str]':
        return subprocess.run([sys.executable, '-m', 'picklestep', 'policy', 'check', *words], cwd=self.folder, env=environment(), capture_output=True, text=True,
                              timeout=300, check=False)

    def test_what_is_odd(self) -> None:
        soon = datetime.date.today() + datetime.timedelta(days=3)
        self.policy('[[rules]]', 'paths = ["*.pkl"]', '[[rules]]', 'paths = ["none/"]', '[[rules]]', 'paths = ["models/"]', '[[exceptions]]', 'path = "bad.pkl"',
                    'reason = "r"', 'owner = "ana"', 'until = 2020-01-31', '[[exceptions]]', f'sha256 = "{"0" * 64}"', 'reason = "r"', 'owner = "ben"', f'until = {soon}',
                    '[[exceptions]]', 'path = "bad.pkl"', 'names = ["a.b"]', 'reason = "r"', 'owner = "o"', 'until = 2099-12-31')
        run = self.check('models')
        self.assertEqual((run.returncode, run.stderr), (1, ''))
        for line in ('picklestep.toml: rules[1] (*.pkl): later rules hide it', 'picklestep.toml: rules[2] (none/): no file has it',
                     'picklestep.toml: exceptions[1] (bad.pkl): it ended on 2020-01-31', 'picklestep.toml: exceptions[1] (bad.pkl): it takes whatever is marked there',
                     f'picklestep.toml: exceptions[2] (sha256 0000000000000000..): it ends on {soon}. Its owner is ben', 'exceptions[2] (sha256 0000000000000000..): no file has it',
                     'picklestep.toml: exceptions[3] (bad.pkl): nothing is marked there that it takes'):
            self.assertIn(line, run.stdout)

    def exceptions(self, *said: str, until: str = '2099-12-31') -> Path:
        """A policy with these exceptions, each said in a few words of TOML."""
        return self.policy(*(f'[[exceptions]]\n{each}\nreason = "r"\nowner = "o"\nuntil = {until}' for each in said))

    def said(self, *words: str) -> List[str]:
        """What the check says, without the counts at its end and what stands before an exception."""
        run = self.check(*words)
        lines = run.stdout.splitlines()
        self.assertEqual((run.stderr, run.returncode), ('', int(len(lines) > 1)))
        return [line.replace('picklestep.toml: ', '') for line in lines[:-1]]

    def test_exceptions_that_take_nothing(self) -> None:
        """It is a mark that uses an exception, and not a file alone."""
        self.exceptions('path = "bad.pkl"\nnames = ["posix.*"]', 'path = "good.pkl"\nnames = ["posix.*"]', 'path = "models/"\nrules = ["not-read"]',
                        f'sha256 = "{hashlib.sha256(HOSTILE).hexdigest()}"', f'sha256 = "{hashlib.sha256(HARMLESS).hexdigest()}"')
        digest, harmless = (hashlib.sha256(each).hexdigest()[:16] for each in (HOSTILE, HARMLESS))
        self.assertEqual(self.said('models'), [
            'exceptions[2] (good.pkl): nothing is marked there that it takes', 'exceptions[3] (models/): nothing is marked there that it takes',
            f'exceptions[4] (sha256 {digest}..): exceptions[1] hides it, which takes all of its marks',
            f'exceptions[5] (sha256 {harmless}..): nothing is marked there that it takes'])
        self.assertEqual(self.said(), [])

    def test_an_exception_that_has_ended_hides_none(self) -> None:
        self.exceptions('path = "bad.pkl"\nnames = ["posix.*"]', until='2020-01-31')
        whole = (self.folder / 'picklestep.toml').read_text()
        self.exceptions('path = "bad.pkl"\nrules = ["known"]')
        self.policy(whole, (self.folder / 'picklestep.toml').read_text())
        self.assertEqual(self.said('models'), ['exceptions[1] (bad.pkl): it ended on 2020-01-31, and takes nothing'])

    def test_a_baseline_may_hide_an_exception(self) -> None:
        self.scan('--write-baseline', 'base.json', 'models')
        self.exceptions('path = "bad.pkl"\nnames = ["posix.*"]')
        self.policy('baseline = "base.json"', (self.folder / 'picklestep.toml').read_text())
        self.assertEqual(self.said('models'), ['exceptions[1] (bad.pkl): the baseline hides it, which takes all of its marks'])

    def test_lists_that_nothing_uses(self) -> None:
        """Of a set it is said as a whole, of a file each entry. What a set needs is its own."""
        self.file('ours.txt', b'app.Old: call\nposix.*\ninclude plain\n')
        self.file('none.txt', b'app.Older:\n')
        self.policy('allow = ["xgboost", "ours.txt", "none.txt"]', '[[rules]]', 'paths = ["old/"]', 'allow = ["networkx", "numpy"]', '[[rules]]', 'paths = ["later/"]',
                    'allow = ["numpy"]')
        no_file = 'no file uses a name of its own'
        self.assertEqual(self.said('models'), [
            'rules[2] (later/): no file has it', f'allow: xgboost: {no_file}', 'allow: ours.txt: no file uses app.Old', 'allow: none.txt: no file uses a name of it',
            f'rules[1] (old/): allow: networkx: {no_file}'])
        self.assertEqual(self.said(), [])
        # (what was not looked at may use all of them)
        self.file('models/a.7z', b'7z\xbc\xaf\x27\x1c' + bytes(40))
        self.assertEqual(self.said('models'), ['rules[2] (later/): no file has it', f'rules[1] (old/): allow: networkx: {no_file}'])

    def test_marks_of_a_baseline_that_are_gone(self) -> None:
        self.scan('--no-known', '--allow', 'torch', '--write-baseline', 'base.json', 'models/bad.pkl', 'models/job.pkl')
        count = len(json.loads((self.folder / 'base.json').read_text())['marks'])
        self.file('ours.txt', b'posix.system\n')
        self.policy('baseline = "base.json"', 'allow = ["ours.txt"]')
        self.assertEqual(self.said('models/bad.pkl', 'models/job.pkl'), ['baseline: models/bad.pkl: 1 mark of it is no longer there'])
        (self.folder / 'models/job.pkl').unlink()
        self.assertEqual(self.said('models'), ['baseline: 1 file of it is no longer there', 'baseline: models/bad.pkl: 1 mark of it is no longer there'])
        self.assertGreaterEqual(count, 2)

    def test_addresses(self) -> None:
        """Of servers and URLs: those that are given are looked at, and a pattern that none of them has is named."""
        url, other = f'file://{self.folder}/models/bad.pkl', f'file://{self.folder}/models/good.pkl'
        self.exceptions(f'address = "{url}"\nnames = ["posix.*"]', 'address = "redis://cache:6379/*"\nnames = ["posix.*"]', f'address = "{other}"\nnames = ["a.b"]')
        self.policy((self.folder / 'picklestep.toml').read_text(), '[[rules]]', 'servers = ["mysql://*"]', 'allow = ["plain"]')
        nobody = 'no server and no URL has it that you gave'
        of_redis, of_rule = f'exceptions[2] (redis://cache:6379/*): {nobody}', f'rules[1] (mysql://*): {nobody}'
        self.assertEqual(self.said('models'), [of_rule, f'exceptions[1] ({url}): {nobody}', of_redis, f'exceptions[3] ({other}): {nobody}'])
        self.assertEqual(self.said(url, other), [of_rule, of_redis, f'exceptions[3] ({other}): nothing is marked there that it takes'])

    def test_a_server_that_does_not_answer(self) -> None:
        """What it would use is not known, so its exception is not called unused."""
        self.exceptions('address = "redis://127.0.0.1:1/*"\nnames = ["posix.*"]')
        lines = self.said('redis://127.0.0.1:1/0')
        self.assertEqual(len(lines), 1)
        self.assertIn('redis://127.0.0.1:1/0: cannot be read, so nothing is said of what it would use: ', lines[0])

    def test_what_was_not_looked_at(self) -> None:
        self.file('models/a.7z', b'7z\xbc\xaf\x27\x1c' + bytes(40))
        self.exceptions('path = "a.7z"\nnames = ["posix.*"]')
        self.assertEqual(self.said('models'), [])

    def test_nothing_is_odd(self) -> None:
        self.policy('allow = ["plain"]', '[[rules]]', 'paths = ["old/"]', 'allow = ["numpy"]')
        run = self.check('models')
        self.assertEqual((run.returncode, len(run.stdout.splitlines())), (0, 1))
        for words in (('--policy', 'picklestep.toml'), ('--policy', 'picklestep.toml', 'models'), ('models', '--policy', 'picklestep.toml', 'models')):
            self.assertEqual(self.check(*words).returncode, 0, words)

    def test_errors(self) -> None:
        self.assertEqual(self.check('models').returncode, 2)
        self.policy('allow = ["none"]')
        self.assertEqual(self.check('models').returncode, 2)


class Lines(ScanCase):
    """The lines of JSON, by their schema."""

    def test_each_line_fits(self) -> None:
        self.file('a.pkl', HOSTILE)
        self.file('cut.pkl', b'N')
        self.file('a.7z', b'7z\xbc\xaf\x27\x1c' + bytes(40))
        os.mkfifo(self.folder / 'fifo')
        models = Path(__file__).resolve().parent / 'data' / 'models'
        found = [line for words in ((), ('--lines', '--allow', 'numpy')) for line in self.scan('--json', *words, '.', 'none', str(models)).stdout.splitlines()]
        self.assertGreater(len(found), 16)
        assert_fit(self, SHARE / 'picklestep-scan.schema.json', found)


if __name__ == '__main__':
    unittest.main()
