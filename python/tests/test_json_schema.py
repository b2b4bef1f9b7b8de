"""The schema of the lines of JSON: what is printed fits it, and nothing else does; it has the kinds and fields of docs/reference/json.md."""

from __future__ import annotations

import gzip
import io
import json
import random
import re
import subprocess
import tempfile
import textwrap
import unittest
import zipfile
from pathlib import Path
from typing import Any, Dict, Iterator, Set

from json_schema import assert_fit, faults
from picklestep.place import find_program, is_module
from picklestep.program import run_program
from picklestep.scan.entries import said
from picklestep.tasks import Asked
from pickles import HOSTILE, ROOT, chosen, real_pickles
from scan_support import python_with
from test_tars import tarred

FILE = ROOT / 'share' / 'picklestep-lines.schema.json'
SCHEMA = json.loads(FILE.read_text('ascii'))
PAGE = (ROOT / 'docs' / 'reference' / 'json.md').read_text('utf-8')
ASKED = ('list --many', 'list --unframed', 'objects --many', 'objects --unframed', 'form', 'reach', 'reach --extensions --persistent-ids --buffers', 'calls --full', 'calls --first', 'calls --memo kept',
         'calls --skip 3:9')


def pickles() -> Iterator[bytes]:
    """The real ones, those of the rows of `calls`, and such with other bytes at random places."""
    rows = re.findall(r'^pickle (.*)$', (ROOT / 'equipment' / 'calls.txt').read_text('ascii'), re.MULTILINE)
    found, chance = [*real_pickles().values(), *map(bytes.fromhex, rows)], random.Random(85)
    yield from found
    for _ in range(200):
        data, at = chance.choice(found)[:500], chance.randrange(100)
        yield data[:at] + bytes(chance.randrange(256) for _ in range(chance.randrange(1, 9))) + data[at + chance.randrange(3):]


def values_in(given: Any) -> Iterator[Dict[str, Any]]:
    """The objects within."""
    for each in given.values() if isinstance(given, dict) else given if isinstance(given, list) else ():
        yield from [each] if isinstance(each, dict) else []
        yield from values_in(each)


def may_lack(name: str, given: Dict[str, Any]) -> bool:
    return (name in ('mark', 'more', 'keywords', 'text', 'changes', 'file', 'archive', 'member', 'behind_header') or (name, given.get('how')) == ('offset', 'broken') or name == 'parts' and given['is'] in ('tuple', 'list', 'frozenset', 'dict', 'inst') or name.endswith('_more') or (name, given['kind']) == ('memo', 'opcode')
            or given['kind'] == 'made' and name == 'since' and 'item' in given
            or given['kind'] == 'step' and name in ('begins', 'made', 'pushed', 'cut_mark', 'set_mark', 'changed', 'memo')
            or name == 'protocol' and given.get('how') == 'fault')


def named() -> Set[str]:
    """The kinds that the page names, each behind its word."""
    found = {f'{word}-{kind}' for word, text in re.findall(r'^## (list|objects|form|reach|gate|members|same|opcodes)\b(.*?)(?=^## )', PAGE, re.MULTILINE | re.DOTALL)
             for kind in re.findall(r'`{"kind":"(\w+)",\.\.}`', text)}
    calls = PAGE.partition('\n## calls\n')[2].partition('\n## ')[0]
    debug = PAGE.partition('\n## debug\n')[2].partition('\n### ')[0]
    for word, text in (('calls', calls.partition('**Texts.**')[0]), ('value', calls.partition('**Operands.**')[2]), ('debug', debug)):
        found |= {f'{word}-{kind.replace("_", "-")}' for row in re.findall(r'^\| (`.*?) \|', text, re.MULTILINE) for kind in re.findall('`([a-z_-]+)`', row)}
    return found


def verdicts() -> Iterator[str]:
    """Lines of `gate`: about a list that is none, pickles, archives, an array and packed files, and about several files."""
    array = b"\x93NUMPY\1\0v\0" + b"{'descr': '|O', 'fortran_order': False, 'shape': (), }".ljust(117) + b'\n'
    contents = [b'N.', HOSTILE, b'J\1\0\0\0.', b'PK\3\4', array + HOSTILE, gzip.compress(HOSTILE), gzip.compress(gzip.compress(b'N.')), b'',
                *map(archive, (HOSTILE, b'J\1\0\0\0' + HOSTILE, archive(b'N.'), array + HOSTILE)), archive(b'N.').replace(b'N.', b'K.'), *tars()]
    for listed, content in (*((b'os.path.*', content) for content in contents), (b'a b', b'N.')):
        yield said(listed, content).decode('ascii').rstrip('\n')
    with tempfile.TemporaryDirectory() as folder:
        given = [Path(folder, name) for name in ('list', *(f'{number}' for number in range(len(contents))))]
        for path, content in zip(given, (b'os.path.*', *contents)):
            path.write_bytes(content)
        yield from run_program(['gate', '--json', *map(str, given)]).decode('ascii').splitlines()


def tars() -> Iterator[bytes]:
    """Tar archives, plain and packed: each passes, has a member that does not, has one name twice, may be a pickle too, or is not as writers write it."""
    for tar in (tarred(('a', b'N.')), tarred(('a', HOSTILE)), tarred(('a', b'N.'), ('a', b'N.')), tarred(('cos.x', b'N.')), tarred(('a', b'N.')) + bytes(512)):
        yield from (tar, gzip.compress(tar))


def listings() -> Iterator[str]:
    """Lines of `members`: of archives, packed files, and a file that is neither."""
    packed = io.BytesIO()
    with zipfile.ZipFile(packed, 'w', zipfile.ZIP_DEFLATED) as made:
        made.writestr('a.pkl', b'N.' * 50)
    for content in (archive(b'N.'), packed.getvalue(), gzip.compress(b'N.'), b'N.'):
        with Asked(content, None, None, is_opened=False) as asked:
            yield from asked.answer(['members', '--json']).splitlines()
    yield '{"kind":"end","how":"too_large"}'  # (of a packed file that unpacks to more than 1 GiB)


def pairs() -> Iterator[str]:
    """Lines of `same`, of each kind."""
    with tempfile.TemporaryDirectory() as folder:
        paths = Path(folder, 'one'), Path(folder, 'other')
        for given in ((b'N.', b'N.'), (b'K\5.', b'K\6.'), (b'NK\x010.', b'N0K\x01.'), (b'cm\nf\n)R(NNe.', b'cm\nf\n)RNaNa.'), (b'', b'N.'), (b'N.', b'0.'),
                      (b'\xff', b'N.'), (b'N.N.', b'N.'), (b'N.', b'N.x')):
            for path, content in zip(paths, given):
                path.write_bytes(content)
            yield run_program(['same', '--json', *map(str, paths)]).decode('ascii').rstrip('\n')


def conversations() -> Iterator[str]:
    """Lines of `debug`: to scripts of the rows of conversations, and to questions after them."""
    rows = (ROOT / 'equipment' / 'conversations.txt').read_text('ascii')
    with tempfile.TemporaryDirectory() as folder:
        path = Path(folder, 'a.pickle')
        for data, text in re.findall(r'^pickle (.*)\n((?:.*\n)*?)(?=\n[A-Z]|\Z)', rows, re.MULTILINE):
            path.write_bytes(bytes.fromhex(data))
            script = ''.join(f'{line}\nwhere\nstack\nmemo\nitems\nobjects\nbreaks\nitems 1 3\nobjects 1 3\ntrace\nmade 0\nmade 1\nshow 0\nshow 99\n'
                             for line in re.findall(r'^debug> (.*)$', text, re.MULTILINE))
            yield from run_program(['debug', '--json', str(path)], script=f'{script}\ngoto @999\nquit\n'.encode()).decode('ascii').splitlines()


def archive(content: bytes) -> bytes:
    out = io.BytesIO()
    with zipfile.ZipFile(out, 'w') as made:
        made.writestr('a.pkl', content)
    return out.getvalue()


def form_of(line: str) -> str:
    """What is the same in lines that differ in texts and digits alone."""
    short = re.sub('[0-9]', '0', re.sub(r'("(?:argument|module|name|for_module|for_name|line|value)": ?)"(?:[^"\\\\]|\\\\.)*"', r'\1""', line))
    return re.sub(r'(0+|\{[^{}]*\})(?:,(?:0+|\1))+(?=\])', r'\1', short)


class Lines(unittest.TestCase):
    """Of lines of one form one is tried."""

    printed: Dict[str, Dict[str, str]]

    @classmethod
    def setUpClass(cls) -> None:
        cls.printed = {'list': {}, 'objects': {}, 'form': {}, 'reach': {}, 'gate': {form_of(line): line for line in verdicts()}, 'members': {form_of(line): line for line in listings()},
                       'same': {form_of(line): line for line in pairs()}, 'opcodes': {form_of(line): line for line in run_program(['opcodes', '--json']).decode('ascii').splitlines()},
                       'debug': {form_of(line): line for line in conversations()}, 'calls': {}, 'value': {}}
        for data in chosen(pickles(), 30):
            with Asked(data, None, None, is_opened=False) as asked:
                for words in ASKED:
                    word, *options = words.split()
                    for line in asked.answer([word, '--json', *options]).splitlines():
                        cls.printed[word].setdefault(form_of(line), line)
        for line in cls.printed['calls'].values():
            cls.printed['value'].update((form_of(text), text) for text in map(json.dumps, values_in(json.loads(line))))

    def test_each_line_fits(self) -> None:
        for word, lines in self.printed.items():
            assert_fit(self, FILE, list(lines.values()), f'#/definitions/{word}')

    def test_no_other_line_fits(self) -> None:
        for word, lines in self.printed.items():
            for line in {(given['kind'], given.get('how'), *given): line for line, given in ((line, json.loads(line)) for line in lines.values())}.values():
                given = json.loads(line)
                others = [({**given, name: other}, False) for name in given for other in (1.5, {})] + [({**given, 'other': 1}, False)]
                others += [({key: given[key] for key in given if key != name}, may_lack(name, given)) for name in given]
                for other, fits in others:
                    self.assertEqual(not any(faults({'$ref': f'#/definitions/{word}'}, other, whole=SCHEMA)), fits, (line, other))

    def test_kinds_and_fields(self) -> None:
        self.assertEqual({name for name in SCHEMA['definitions'] if re.match('(?:list|objects|form|reach|gate|members|same|opcodes|calls|value|debug)-', name)}, named())
        found = {f'{word}-{json.loads(line)["kind"].replace("_", "-")}' for word, lines in self.printed.items() for line in lines.values()}
        found.add('calls-too-many-ways')  # (no pickle of these has so many)
        self.assertEqual(found - named(), set())
        if not is_module(find_program()):  # (where it is, there are fewer pickles)
            self.assertEqual(found, named())
        for name, kind in SCHEMA['definitions'].items():
            for field, given in kind.get('properties', {}).items():
                with self.subTest(name, field=field):
                    self.assertRegex(SCHEMA['definitions'].get(given.get('$ref', '').rpartition('/')[2], given)['description'], r'^[A-Z].*\.$')
                    self.assertIn(f'`{re.sub("^(?:for_module|for_name|name|line|value)_", "module_", field).replace("_more", "")}`', PAGE)

    def test_lines_with_json_alone(self) -> None:
        """Without --json such a line is refused; with it if a number is missing or none, or if a word is one too many."""
        asked = {'breaks': ('X1', ''), 'items 1 2': ('X6', ''), 'objects 1 2': ('X6', ''), 'breaks 1': ('X1', 'X6'), 'items 1': ('X6', 'X2'), 'items x': ('X6', 'X3'), 'items 1 x': ('X6', 'X3'),
                 'items 1 2 3': ('X6', 'X6'), 'objects 1': ('X6', 'X2'), 'objects @1 2': ('X6', 'X3'), f'items 1 {2 ** 64}': ('X6', 'X3'), f'objects 0 {2 ** 64 - 1}': ('X6', ''),
                 'trace': ('X1', 'V3'), 'trace 1': ('X1', 'X6'), 'made': ('X1', 'X2'), 'made x': ('X1', 'X3'), 'made 1 2': ('X1', 'X6'), 'made 0': ('X1', 'V1')}
        with tempfile.TemporaryDirectory() as folder:
            path, script = Path(folder, 'a.pickle'), ''.join(f'{line}\n' for line in asked).encode()
            path.write_bytes(b'N.')
            text, lines = (run_program(['debug', *options, str(path)], script=script).decode('ascii').splitlines() for options in ((), ('--json',)))
        self.assertEqual(re.findall(r'^refused: (X\d)', '\n'.join(text), re.MULTILINE), [code for code, _ in asked.values()])
        self.assertEqual([json.loads(line).get('code', '') for line in lines], [code for _, code in asked.values()])

    def test_example(self) -> None:
        """The lines of Python on the page."""
        code = re.findall(r'(?:^    .*\n)+', PAGE.partition('\n## The schema\n')[2], re.MULTILINE)[0]
        python, lines = python_with('jsonschema'), list(self.printed['calls'].values())[:50]
        if python is None:
            self.skipTest('there is no jsonschema (python3-jsonschema)')
        for given, status in ((lines, 0), ([*lines, '{"kind":"end","status":"0"}'], 1)):
            run = subprocess.run([python, '-c', textwrap.dedent(code)], cwd=ROOT, input='\n'.join(given), text=True, capture_output=True, check=False)
            self.assertEqual(run.returncode, status, run.stderr)


if __name__ == '__main__':
    unittest.main()
