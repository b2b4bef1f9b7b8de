"""What a team has in its CI: SARIF, lines of JSON, the pre-commit hook, the image, and the workflows of docs/reference/scan_ci.md."""

from __future__ import annotations

import json
import os
import re
import shlex
import shutil
import subprocess
import unittest
from pathlib import Path
from typing import Any, Dict, List, Set, Tuple

import picklestep
from json_schema import assert_fit, faults
from pickles import ROOT
from scan_support import HARMLESS, HOSTILE, MODELS, ScanCase, python_with

SCHEMA = Path(__file__).resolve().parent / 'data' / 'sarif-2.1.0-parts.json'
PAGE = (ROOT / 'docs' / 'reference' / 'scan_ci.md').read_text(encoding='utf-8')

# The class of each object that is written, in a package that was made from the whole schema: what it may have, and what it must have.
_RESULTS, _DRIVER = ('runs', 'results'), ('runs', 'tool', 'driver')
_PLACE = (*_RESULTS, 'locations', 'physicalLocation')
CLASSES: Dict[Tuple[str, ...], str] = {
    (): 'SarifLog', ('runs',): 'Run', ('runs', 'tool'): 'Tool', _DRIVER: 'ToolComponent', (*_DRIVER, 'rules'): 'ReportingDescriptor',
    **{(*_DRIVER, 'rules', name): 'MultiformatMessageString' for name in ('shortDescription', 'fullDescription', 'help')}, (*_DRIVER, 'rules', 'defaultConfiguration'): 'ReportingConfiguration',
    ('runs', 'invocations'): 'Invocation', _RESULTS: 'Result', (*_RESULTS, 'message'): 'Message', (*_RESULTS, 'locations'): 'Location',
    _PLACE: 'PhysicalLocation', (*_PLACE, 'artifactLocation'): 'ArtifactLocation', (*_PLACE, 'region'): 'Region',
    (*_RESULTS, 'locations', 'logicalLocations'): 'LogicalLocation',
}
FIELDS = ("import json, sys, attr, sarif_om; print(json.dumps({name: [[each.metadata['schema_property_name'], each.default is attr.NOTHING] "
          "for each in attr.fields(getattr(sarif_om, name))] for name in sys.argv[1:]}))")


def part_of(schema: Dict[str, Any], path: Tuple[str, ...]) -> Dict[str, Any]:
    """The schema of an object within others."""
    for name in path:
        inner: Dict[str, Any] = schema['properties'][name]
        schema = inner['items'] if inner['type'] == 'array' else inner
    return schema


class Findings(ScanCase):
    """What is marked, in the forms that other tools read."""

    def setUp(self) -> None:
        super().setUp()
        self.file('a dir/b%.pkl', HOSTILE)
        self.file('cut.pkl', HARMLESS[:-1])
        self.file('good.pkl', HARMLESS)
        shutil.copy(MODELS / 'torch_module.pt', self.folder)

    def sarif(self, *words: str) -> Dict[str, Any]:
        run = self.scan('.', 'none.pkl', '--sarif', 'out.sarif', *words)
        self.assertEqual(run.returncode, 1)
        made: Dict[str, Any] = json.loads((self.folder / 'out.sarif').read_text())
        return made

    def test_sarif(self) -> None:
        results = self.sarif()['runs'][0]['results']
        self.assertEqual(sorted((each['ruleId'], each['locations'][0]['physicalLocation']['artifactLocation']['uri']) for each in results),
                         [('cannot-be-read', 'none.pkl'), ('known', './a%20dir/b%25.pkl'), ('not-read', './cut.pkl'), ('unusual-form', './cut.pkl')])
        known = next(each for each in results if each['ruleId'] == 'known')
        self.assertEqual(known['locations'][0]['physicalLocation']['region'], {'startLine': 1, 'byteOffset': 0, 'byteLength': 1})
        self.assertIn("call 'posix' 'system' ('id')", known['message']['text'])
        inner = [each for each in self.sarif('--allow', 'torch')['runs'][0]['results'] if 'torch_module' in each['message']['text']]
        self.assertTrue(inner)
        self.assertEqual({each['ruleId'] for each in inner}, {'not-allowed'})

    def test_sarif_fits_its_schema(self) -> None:
        assert_fit(self, SCHEMA, [json.dumps(self.sarif(*words)) for words in ((), ('--allow', 'torch'))])

    def test_the_parts_ask_for_what_the_whole_schema_does(self) -> None:
        """They take no name that it does not have, and leave out none that it requires."""
        python = python_with('sarif_om')
        if python is None:
            self.skipTest('there is no sarif_om (python3-sarif-python-om)')
        run = subprocess.run([python, '-c', FIELDS, *CLASSES.values()], capture_output=True, text=True, check=True)
        fields = json.loads(run.stdout)
        schema = json.loads(SCHEMA.read_text())
        for path, name in CLASSES.items():
            with self.subTest(name):
                part = part_of(schema, path)
                self.assertIs(part['additionalProperties'], False)
                self.assertEqual(set(part['properties']) - {each for each, _ in fields[name]}, set())
                self.assertEqual(set(part.get('required', ())), {each for each, is_required in fields[name] if is_required})
        self.assertEqual(self.objects_of(self.sarif()), set(CLASSES))

    def objects_of(self, value: Any, path: Tuple[str, ...] = ()) -> Set[Tuple[str, ...]]:
        """The places of all objects, but for those whose names are free."""
        if isinstance(value, list):
            return {found for each in value for found in self.objects_of(each, path)}
        if not isinstance(value, dict) or path[-1:] in (('partialFingerprints',), ('properties',)):
            return set()
        return {path, *(found for name, each in value.items() for found in self.objects_of(each, (*path, name)))}

    def test_what_code_hosts_ask_for(self) -> None:
        """A version, a help and a number for each rule, and the same sign for the same mark where bytes are put before it."""
        run = self.sarif()['runs'][0]
        self.assertEqual(run['tool']['driver']['version'], picklestep.__version__)
        for rule in run['tool']['driver']['rules']:
            self.assertTrue(rule['help']['text'] and rule['fullDescription']['text'], rule['id'])
            self.assertGreater(float(rule['properties']['security-severity']), 0)
        before = {each['ruleId']: each['partialFingerprints'] for each in run['results']}
        self.assertEqual(len({each['look/v2'] for each in before.values()}), len(before))
        self.file('a dir/b%.pkl', b'N0' + HOSTILE)
        after = next(each for each in self.sarif()['runs'][0]['results'] if each['ruleId'] == 'known')
        self.assertEqual(after['locations'][0]['physicalLocation']['region']['byteOffset'], 2)
        self.assertEqual(after['partialFingerprints'], before['known'])

    def test_other_files_do_not_fit_it(self) -> None:
        schema, made = json.loads(SCHEMA.read_text()), self.sarif()
        self.assertTrue(list(faults(schema, {'version': '2.1.0', 'runs': [{'results': []}]})))
        changes: Tuple[Tuple[str, object], ...] = (('level', 'bad'), ('ruleIndex', -2), ('ruleId', 1), ('message', {}), ('other', 1), ('locations', {}))
        for name, value in changes:
            other = json.loads(json.dumps(made))
            other['runs'][0]['results'][0][name] = value
            self.assertTrue(list(faults(schema, other)), name)

    def test_lines_of_json(self) -> None:
        lines = {each['path']: each for each in map(json.loads, self.scan('.', '--json').stdout.splitlines())}
        self.assertEqual({path: each['status'] for path, each in lines.items()},
                         {'./a dir/b%.pkl': 1, './cut.pkl': 1, './good.pkl': 0, './torch_module.pt': 0})
        look, = lines['./a dir/b%.pkl']['looks']
        self.assertEqual((look['rule'], look['name'], look['offset']), ('known', 'posix.system', 0))
        self.assertEqual(look['calls'], ["call posix.system once, first at 23: call 'posix' 'system' ('id') as #3"])
        self.assertEqual([each['rule'] for each in lines['./cut.pkl']['looks']], ['not-read', 'unusual-form'])


@unittest.skipUnless((ROOT / 'picklestep').is_file(), 'this is no clone')
class Files(ScanCase):
    """The files that other tools take from a clone, by their own lines."""

    def run_lines(self, lines: List[str], **environment: str) -> 'subprocess.CompletedProcess[str]':
        settings = {'HOME': str(self.folder), 'PICKLESTEP': str(ROOT), 'PYTHONDONTWRITEBYTECODE': '1', **environment}
        # (the owner of the clone may be another than the one who runs the tests)
        git = {'GIT_CONFIG_COUNT': '1', 'GIT_CONFIG_KEY_0': 'safe.directory', 'GIT_CONFIG_VALUE_0': '*'}
        return subprocess.run(['bash', '-e', '-c', '\n'.join(lines)], cwd=self.folder, env={**os.environ, **git, **settings},
                              capture_output=True, text=True, timeout=600)

    def repository(self) -> str:
        """The repository with a tag, as a CI server clones it."""
        where = self.folder / 'origin'
        done = self.run_lines([f'git clone --quiet --bare {ROOT} {where}', f'git -C {where} tag -f v1.1.0'])
        self.assertEqual(done.returncode, 0, done.stderr)
        return str(where)

    def assert_gate(self, lines: List[str], first: List[str], **environment: str) -> None:
        """The lines pass while there is nothing hostile, and fail then. `first` are those that are run once."""
        self.file('allowed.txt', b'collections.OrderedDict\n')
        self.file('models/a.pkl', HARMLESS)
        (self.folder / 'models' / 'b.pkl').unlink(missing_ok=True)
        run = self.run_lines([*first, *lines], **environment)
        self.assertEqual(run.returncode, 0, run.stdout + run.stderr)
        self.file('models/b.pkl', HOSTILE)
        run = self.run_lines(lines, **environment)
        self.assertEqual(run.returncode, 1)
        self.assertTrue(run.stdout.startswith('! models/b.pkl: import posix.system'), run.stdout + run.stderr)

    def test_lines_for_any_server(self) -> None:
        clone, scan = re.findall(r'^    (.*)$', PAGE.partition('## Anywhere else')[2].partition('## pre-commit')[0], re.MULTILINE)
        self.assert_gate([scan], [clone], PICKLESTEP=self.repository())

    def test_the_action(self) -> None:
        """The step of the action, with the inputs of the page; each comes through the environment."""
        text = (ROOT / 'action.yml').read_text(encoding='utf-8')
        inputs = {name: default for name, default in re.findall(r"^  ([\w-]+):\n(?:    .*\n)*?    default: '?([^'\n]*)'?$", text.partition('outputs:')[0], re.MULTILINE)}
        inputs.update(each.split(': ') for each in re.findall(r'with: {(.*)}', PAGE.partition('picklestep@')[2])[0].split(', '))
        given = {name: inputs[word] for name, word in re.findall(r'^ +(\w+): \${{ inputs\.([\w-]+) }}$', text, re.MULTILINE)}
        self.assertEqual(set(given), {'PATHS', 'POLICY', 'ALLOW', 'FAIL_ON', 'SARIF', 'REPORT'})
        command = re.findall(r"^      run: '(.*)'$", text, re.MULTILINE)
        self.assertNotIn('${{', ''.join(command))
        out, summary = self.folder / 'output', self.folder / 'summary'
        self.assert_gate(command, [], ACTION=str(ROOT), GITHUB_OUTPUT=str(out), GITHUB_STEP_SUMMARY=str(summary), **given)
        self.assertEqual(out.read_text(), 'status=0\nstatus=1\n')
        self.assertIn('critical: `models/b.pkl`', summary.read_text())
        self.assertEqual(len(json.loads((self.folder / given['SARIF']).read_text())['runs'][0]['results']), 1)
        self.file('-x $(touch hit).pkl', HARMLESS)
        run = self.run_lines(command, ACTION=str(ROOT), **{**given, 'PATHS': 'models/a.pkl\n-x $(touch hit).pkl', 'ALLOW': 'plain\nnumpy'})
        self.assertEqual((run.returncode, (self.folder / 'hit').exists()), (0, False), run.stdout + run.stderr)

    def test_the_template(self) -> None:
        text = (ROOT / 'share' / 'ci' / 'gitlab.yml').read_text(encoding='utf-8')
        said = re.findall(r'^ {8}(\w+): (.*)$', PAGE.partition('## GitLab')[2].partition('## Anywhere else')[0], re.MULTILINE)
        given = {**dict(re.findall(r'^    (REPORT|JUNIT|QUALITY): (.*)$', text, re.MULTILINE)), **dict(said)}
        clone, scan = re.findall(r'^    - (\S* .*|~.*)$', text.partition('script:')[2].partition('artifacts:')[0], re.MULTILINE)
        self.assert_gate([scan], [clone], **{**given, 'PICKLESTEP': self.repository()})
        for name in re.findall(r'(?:junit|codequality|-) ?:? (picklestep\.\w+)', text.partition('artifacts:')[2]):
            self.assertTrue((self.folder / name).is_file(), name)
        self.assertEqual(len(json.loads((self.folder / 'picklestep.json').read_text())), 1)

    def test_hook(self) -> None:
        text = (ROOT / '.pre-commit-hooks.yaml').read_text()
        fields = dict(re.findall(r'^[- ] (\w+): (.*)$', text, re.MULTILINE))
        self.assertEqual((fields['id'], fields['language']), ('picklestep', 'script'))
        entry, *words = shlex.split(fields['entry']) + re.findall(r"'(.*?)'", fields['args'])
        # (By default pre-commit hands over what `files` and `types` have: all files, since a pickle may have any name.)
        self.assertNotIn('files', fields)
        self.assertEqual(fields['types'], '[file]')
        self.file('a.pkl', HARMLESS)
        self.file('b.pkl', HOSTILE)
        self.file('--write-allow=c.pkl', HARMLESS)
        for name, status in (('a.pkl', 0), ('b.pkl', 1), ('--write-allow=c.pkl', 0)):
            run = subprocess.run([str(ROOT / entry), *words, name], cwd=self.folder, capture_output=True, text=True, timeout=300)
            self.assertEqual(run.returncode, status, run.stderr)
        self.assertFalse((self.folder / 'c.pkl').exists())

    def test_image(self) -> None:
        # No base image can be had here: its own lines are run.
        lines = re.findall(r'^RUN (.*)$', (ROOT / 'Dockerfile').read_text(), re.MULTILINE)
        self.assertEqual(lines, ['/source/install /usr/local && rm -rf /source'])
        prefix = self.folder / 'usr'
        done = self.run_lines([lines[0].partition(' && ')[0].replace('/source', str(ROOT)).replace('/usr/local', str(prefix))])
        self.assertEqual(done.returncode, 0, done.stderr)
        self.file('b.pkl', HOSTILE)
        run = self.run_lines([f'PATH={prefix}/bin:$PATH picklestep scan . --brief'])
        self.assertIn('! ./b.pkl: import posix.system', run.stdout)


if __name__ == '__main__':
    unittest.main()
