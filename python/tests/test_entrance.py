"""The one entrance, in each way in which it is started."""

from __future__ import annotations

import importlib
import os
import pickle
import re
import shutil
import signal
import subprocess
import sys
import tempfile
import unittest
import unittest.mock
import venv
from pathlib import Path
from typing import Dict, List, Set

import picklestep
from picklestep.place import find_program, is_module, on_path
from pickles import ROOT, chosen
from scan_support import HARMLESS, HOSTILE, PYTHON, ScanCase, environment
from terminals import heed_ctrl_c

PACKAGE = Path(picklestep.__file__).resolve().parent
WORDS = ('list', 'objects', 'calls', 'form', 'gate', 'reach', 'members', 'opcodes', 'debug', 'scan', 'view', 'shell', 'dap', 'source', 'size', 'diff', 'mend', 'rename', 'convert', 'optimize')
# A file for each module of the standard library says in this file that it was imported.
MARK = "open(__file__.rpartition('/')[0] + '/imported', 'a').write(__name__ + '\\n')\nraise ImportError('this folder is not searched')\n"


def ways() -> Dict[str, List[str]]:
    """How it is started: by `python -m`, as pip's command, and as in a clone (which starts the program of this machine, and no module)."""
    found = {'-m': [sys.executable, '-m', 'picklestep'], '-I -m': [sys.executable, '-I', str(PACKAGE / 'entrance.py')]}
    of_pip = Path(sys.executable).with_name('picklestep')
    if of_pip.is_file():
        found['pip'] = [str(of_pip)]
    if (ROOT / 'picklestep').is_file() and not is_module(find_program()):
        found['clone'] = [str(ROOT / 'picklestep')]
    return found


class EntranceCase(ScanCase):
    """A test of the command line as a whole."""

    def start(self, words: List[str]) -> 'subprocess.CompletedProcess[str]':
        settings = {**environment(), 'PYTHONDONTWRITEBYTECODE': '1'}
        return subprocess.run(words, cwd=self.folder, env=settings, stdin=subprocess.DEVNULL, capture_output=True, text=True, timeout=600)


class Words(EntranceCase):
    """Each word, in each way."""

    def test_words_of_the_program(self) -> None:
        self.file('a.pkl', HOSTILE)
        for words in (['list', 'a.pkl'], ['objects', '--many', 'a.pkl'], ['calls', 'a.pkl'], ['calls'], ['debug', '--window', '0', 'a.pkl']):
            alone = self.start([find_program(), *words])
            for way, entrance in chosen(ways().items(), 1):
                run = self.start([*entrance, *words])
                self.assertEqual((run.returncode, run.stdout, run.stderr), (alone.returncode, alone.stdout, alone.stderr), (way, words))

    def test_a_file_is_scanned(self) -> None:
        self.file('a.pkl', HOSTILE)
        self.file('list', HARMLESS)
        for way, entrance in chosen(ways().items(), 1):
            run, scan = self.start([*entrance, 'a.pkl', '--brief']), self.start([*entrance, 'scan', 'a.pkl', '--brief'])
            self.assertEqual((run.returncode, run.stdout, run.stderr), (1, scan.stdout, ''), way)
            self.assertIn("! a.pkl: call posix.system once, first at 23: call 'posix' 'system' ('id') as #3\n", run.stdout)
            self.assertEqual(self.start([*entrance, './list']).returncode, 0)

    def test_names_that_look_like_options(self) -> None:
        for name in ('-a.pkl', '--no-known', '-'):
            self.file(name, HOSTILE)
        self.file('b.pkl', HARMLESS)
        # (the other ways read words as the first does)
        for way, entrance in chosen(((way, entrance) for way, entrance in ways().items() if way in ('-m', 'clone')), 1):
            for words in (['scan', '--brief', '--', 'b.pkl', '-a.pkl'], ['scan', '--brief', '--', '-a.pkl', '--no-known'],
                          ['--', '--no-known'], ['--no-known'], ['-a.pkl', 'b.pkl', '--brief'], ['scan', '--', '-'],
                          ['scan', '--write-allow', 'used', 'b.pkl', '--', '-a.pkl'], ['diff', '--', '-a.pkl', 'b.pkl'],
                          ['diff', 'b.pkl', '--', '--no-known']):
                run = self.start([*entrance, *words])
                self.assertEqual((run.returncode, run.stderr), (1, ''), (way, words))
                self.assertIn('posix', run.stdout)
            for words in (['source', '--', '-a.pkl'], ['mend', '--', '--no-known'], ['calls', '--', '--no-known']):
                self.assertEqual(self.start([*entrance, *words]).returncode, 0, (way, words))
            for words in (['scan', '--'], ['scan', '--brief'], ['scan', '--sarif', '--', 'b.pkl']):
                self.assertEqual(self.start([*entrance, *words]).returncode, 2, (way, words))
        self.assertEqual(self.start([*entrance, 'scan', '--brief', '--', 'b.pkl', '--write-allow', 'c']).returncode, 3)
        self.assertEqual(sorted(path.name for path in self.folder.iterdir()), sorted(['-', '--no-known', '-a.pkl', 'b.pkl', 'used']))

    def test_help(self) -> None:
        for way, entrance in chosen(ways().items(), 1):
            pages = WORDS if way == '-m' else ('scan', 'calls')
            for words in (['--help'], ['-h'], ['help'], ['help', 'help'], ['calls', '-h'], *([word, '--help'] for word in pages)):
                run = self.start([*entrance, *words])
                self.assertEqual((run.returncode, run.stderr), (0, ''), words)
                if words[-1] == '--help' and len(words) > 1:
                    self.assertEqual(self.start([*entrance, 'help', words[0]]).stdout, run.stdout)
                self.assertTrue(run.stdout.startswith('usage: picklestep'), run.stdout[:60])
            whole = self.start([*entrance, '--help']).stdout
            self.assertLessEqual(len(whole.splitlines()), 24)
            for word in WORDS:
                self.assertRegex(whole, rf'(?m)^  {word} ')
            run = self.start(entrance)
            self.assertEqual((run.returncode, run.stdout, run.stderr), (2, '', whole))

    def test_statuses(self) -> None:
        """The help of a word has the statuses that its manual explains."""
        for word in sorted(WORDS):
            name = f'picklestep-{word}' if word in ('scan', 'view') else 'picklestep'
            page = (ROOT / 'share' / 'man' / 'man1' / f'{name}.1').read_text().partition('.Sh EXIT STATUS')[2].partition('.Sh')[0]
            explained = set(re.findall(r'(?m)^(?:\.It )?([0-9]+)\b|; ([0-9]+) ', page))
            said = self.start([*ways()['-m'], word, '--help']).stdout.partition('\nStatus: ')[2]
            found = set(re.findall(r'\b(0|1|2|1[0-9]{2})\b', said))
            self.assertLessEqual({'0', '2'}, found, word)
            self.assertLessEqual(found, {number for pair in explained for number in pair}, word)

    def test_version(self) -> None:
        for entrance in ways().values():
            run = self.start([*entrance, '--version'])
            self.assertEqual((run.returncode, run.stderr), (0, ''))
            self.assertRegex(run.stdout, rf'^picklestep {picklestep.__version__}( \(commit [0-9a-f]+\))?\ntoolchain .+\nprogram sha256 [0-9a-f]{{64}} ')

    def test_version_has_the_commit(self) -> None:
        """A clone has that of git. A copy in another project's repository has none."""
        git = on_path('git')
        if git is None or not (ROOT / '.git').exists():
            self.skipTest('this is no clone, or there is no git')
        commit = self.start([git, '-C', str(ROOT), 'rev-parse', '--short', 'HEAD']).stdout.strip()
        self.start([git, 'init', '-q'])
        shutil.copytree(ROOT / 'python' / 'picklestep', self.folder / 'copy' / 'picklestep', ignore=shutil.ignore_patterns('__pycache__', 'bin'))
        for folder, of in ((ROOT / 'python', f' (commit {commit})'), (self.folder / 'copy', '')):
            words = [sys.executable, '-I', '-B', str(folder / 'picklestep' / 'entrance.py'), '--version']
            run = subprocess.run(words, env={**os.environ, 'PICKLESTEP_PROGRAM': find_program()}, capture_output=True, text=True, timeout=600)
            self.assertEqual(run.stdout.partition('\n')[0], f'picklestep {picklestep.__version__}{of}', run.stderr)

    def test_what_is_public(self) -> None:
        """Each name comes from its module, which has it among its own, and brings only what that needs."""
        self.assertEqual(sorted(name for names in picklestep._MODULES.values() for name in names), sorted(picklestep.__all__))
        for module, names in picklestep._MODULES.items():
            self.assertLessEqual(set(names), set(importlib.import_module(f'picklestep.{module}').__all__))
        code = 'import sys, picklestep; picklestep.calls(b"N."); print([name for name in sys.modules if name.startswith("picklestep.scan")])'
        self.assertEqual(self.start([sys.executable, '-c', code]).stdout, '[]\n')

    def test_an_older_python(self) -> None:
        """The package says what it needs. (The proved program's own words work with an older one.)"""
        with unittest.mock.patch('sys.version_info', (3, 7, 16)), self.assertRaisesRegex(ImportError, 'needs Python 3.8 or later'):
            picklestep.check_python()

    def test_what_is_no_word(self) -> None:
        for entrance in ways().values():
            for word in ('frobnicate', 'none.pkl', '../help/list', ''):
                run = self.start([*entrance, word])
                self.assertEqual((run.returncode, run.stdout, len(run.stderr.splitlines())), (2, '', 1), word)
                self.assertTrue(run.stderr.startswith('picklestep: '), run.stderr)

    def test_what_cannot_be_read(self) -> None:
        entrance = ways()['-m']
        self.assertIn('! none.pkl: cannot be read: No such file or directory', self.start([*entrance, 'scan', 'none.pkl']).stdout)
        self.assertEqual(self.start([*entrance, 'view', 'none.pkl']).stderr, 'picklestep: cannot read none.pkl: No such file or directory\n')
        self.file('a.pkl', HARMLESS)
        self.assertEqual(self.start([*entrance, 'a.pkl', '--allow', 'none']).stderr, 'picklestep: cannot open none: No such file or directory\n')

    def test_which_file_cannot_be_read(self) -> None:
        """Behind the program's own line, which is fixed."""
        self.file('a.pkl', HARMLESS)
        self.file('folder/b.pkl', HARMLESS)
        for words, said in ((['list', 'none.pkl'], 'none.pkl: No such file or directory'), (['calls', '--memo', 'kept', 'none.pkl'], 'none.pkl: No such'),
                            (['objects', '--many', 'folder'], 'folder: Is a directory'), (['debug', '--window', '5', 'a\x1b'], r'a\x1b: No such'),
                            (['calls', '--skip', '@holes', 'a.pkl'], 'holes: No such file'), (['form', '--', '-none'], '-none: No such file')):
            alone = self.start([find_program(), *words])
            self.assertEqual((alone.returncode, alone.stderr), (2, 'picklestep: cannot read\n'))
            for way, entrance in chosen(ways().items(), 1):
                with self.subTest((way, words)):
                    run = self.start([*entrance, *words])
                    self.assertEqual((run.returncode, run.stdout, len(run.stderr.splitlines())), (2, alone.stdout, 2), run.stderr)
                    self.assertTrue(run.stderr.startswith(alone.stderr + f'picklestep: cannot read {said}'), run.stderr)

    def test_a_word_that_is_misspelt(self) -> None:
        entrance = ways()['-m']
        for word, meant in (('clals', 'calls'), ('lits', 'list'), ('lst', 'list'), ('objcts', 'objects'), ('scann', 'scan'), ('Diff', 'diff'), ('hepl', 'help'),
                            ('frobnicate', ''), ('none.pkl', ''), ('x', '')):
            for words in ([word], ['help', word]):
                run = self.start([*entrance, *words])
                self.assertEqual((run.returncode, run.stdout, len(run.stderr.splitlines())), (2, '', 1), words)
                self.assertEqual(re.findall(r'is it (\w+)\?', run.stderr), [meant] if meant else [], run.stderr)

    def test_names_that_a_terminal_obeys(self) -> None:
        entrance, name = ways()['-m'], 'a\x1b[2J\n.pkl'
        for words in (['source', name], ['diff', name, name], ['shell', name], ['view', name], ['scan', 'a.pkl', '--allow', name]):
            with self.subTest(words):
                run = self.start([*entrance, *words])
                self.assertEqual(run.returncode, 2)
                self.assertRegex(run.stderr, r'^picklestep: cannot (read|open) a\\x1b\[2J\\n\.pkl: No such file or directory\n$')

    def test_no_program_for_this_machine(self) -> None:
        with tempfile.TemporaryDirectory() as folder:
            code = (f'import os; from picklestep import place, entrance; place._HERE = {folder!r}; os.environ.pop("PICKLESTEP_PROGRAM", 0); '
                    'raise SystemExit(entrance.main(["list", os.devnull]))')
            run = self.start([sys.executable, '-c', code])
        self.assertEqual((run.returncode, run.stdout, len(run.stderr.splitlines())), (2, '', 1), run.stderr)
        self.assertIn('there is no program for this machine', run.stderr)

    def test_it_imports_nothing(self) -> None:
        code = 'import sys; before = set(sys.modules); import picklestep.entrance, picklestep.place; print(*sorted(set(sys.modules) - before))'
        run = self.start([sys.executable, '-c', code])
        self.assertEqual(run.stdout.split(), ['picklestep', 'picklestep.entrance', 'picklestep.place'])


@unittest.skipIf(os.name == 'nt', 'a shell of POSIX is wanted')
class Streams(EntranceCase):
    """Output that cannot be written, and descriptors that are closed."""

    def in_shell(self, way: str, words: str) -> 'tuple[int, str, str]':
        run = self.start(['/bin/sh', '-c', f'"$@" {words}', 'sh', *ways()[way]])
        return run.returncode, run.stdout, run.stderr

    def setUp(self) -> None:
        super().setUp()
        self.file('a.pkl', HARMLESS)
        self.file('b.pkl', HOSTILE)
        self.file('cut.pkl', b']K\x01a')
        self.file('script', b'where\nquit\n')

    def test_output_that_cannot_be_written(self) -> None:
        for words in ('diff a.pkl b.pkl', 'source a.pkl', 'mend cut.pkl', 'mend a.pkl --save out.pkl', 'shell a.pkl <script',
                      'shell --batch script a.pkl', 'scan a.pkl', 'scan --json a.pkl', '--help', 'scan --help', '--version', 'view --no-browser a.pkl'):
            for end, why in ((' >&-', 'Bad file descriptor'), (' >/dev/full', 'No space left on device')):
                if end == ' >&-' or os.path.exists('/dev/full'):
                    with self.subTest(words + end):
                        self.assertEqual(self.in_shell('-m', words + end), (2, '', f'picklestep: cannot write: {why}\n'))

    def test_closed_descriptors(self) -> None:
        for way in chosen(ways(), 1):
            with self.subTest(way):
                for words in ('shell a.pkl <&-', 'scan - <&-'):
                    self.assertEqual(self.in_shell(way, words), (2, '', 'picklestep: cannot read standard input: Bad file descriptor\n'))
                self.assertEqual(self.in_shell(way, 'shell a.pkl <script >&- 2>&-'), (2, '', ''))
                self.assertEqual(self.in_shell(way, 'mend cut.pkl <&- >&- 2>&-'), (2, '', ''))
                self.assertEqual(self.in_shell(way, 'source none <&- 2>&-'), (2, '', ''))
                self.assertEqual(self.in_shell(way, 'mend a.pkl <&- 2>&-'), (0, 'it is whole\n', ''))
                for words in ('source /dev/stdin', 'mend /dev/fd/0', 'diff a.pkl /dev/stdin'):
                    unread = f'picklestep: cannot read {words.split()[-1]}: Bad file descriptor\n'
                    self.assertEqual(self.in_shell(way, f'{words} <&-'), (2, '', unread), words)

    @unittest.skipUnless(sys.platform == 'linux', 'the limit is that of a shell of Linux')
    def test_too_little_memory(self) -> None:
        self.file('a.pkl', pickle.dumps([{'name': f'user{n}', 'jobs': [n, str(n)]} for n in range(120_000)], 4))
        for words in (['size', 'a.pkl'], ['optimize', 'a.pkl', '--save', 'less.pkl']):
            run = self.start(['sh', '-c', 'ulimit -v 60000; exec "$@"', 'sh', sys.executable, '-I', str(PACKAGE / 'entrance.py'), *words])
            self.assertEqual((run.returncode, run.stdout, run.stderr), (2, '', 'picklestep: out of memory\n'), words)
        self.assertFalse((self.folder / 'less.pkl').exists())

    def test_an_interrupted_word(self) -> None:
        """Ctrl-C while a word waits for what it reads ends it without a traceback."""
        for words in (['diff', 'a.pkl', 'pipe'], ['source', 'pipe'], ['mend', 'pipe']):
            with self.subTest(words):
                os.mkfifo(self.folder / 'pipe')
                with subprocess.Popen([*ways()['-m'], *words], cwd=self.folder, env=environment(), stdin=subprocess.DEVNULL, stdout=subprocess.DEVNULL,
                                      stderr=subprocess.PIPE, text=True, preexec_fn=heed_ctrl_c, start_new_session=True) as run:
                    assert run.stderr is not None
                    with open(self.folder / 'pipe', 'wb'):  # (this waits until the word reads)
                        os.killpg(run.pid, signal.SIGINT)
                        self.assertEqual((run.wait(300), run.stderr.read()), (130, 'picklestep: interrupted\n'))
                os.unlink(self.folder / 'pipe')


class HostileFolders(EntranceCase):
    """A folder from elsewhere, with a file for each module of the standard library."""

    def setUp(self) -> None:
        super().setUp()
        if not hasattr(sys, 'stdlib_module_names'):
            self.skipTest('this Python does not list the modules of its library')
        self.file('model.pkl', HARMLESS)
        self.file('other.pkl', HARMLESS)

    def fill(self, left_out: Set[str]) -> None:
        """A file for each module but these, and for what the package imports where it is there."""
        for name in {*sys.stdlib_module_names, 'rich', 'fsspec', 'distributed', 'picklestep'} - left_out:
            self.file(f'{name}.py', MARK.encode())

    def seen(self) -> str:
        path = self.folder / 'imported'
        return path.read_text() if path.exists() else ''

    def test_nothing_of_it_is_imported(self) -> None:
        self.fill(set())
        found = {way: words for way, words in ways().items() if way != '-m'}
        found['-I -m'] = [sys.executable, '-I', '-m', 'picklestep'] if 'site-packages' in str(PYTHON) else found['-I -m']
        for way, entrance in found.items():
            for words in (['model.pkl'], ['scan', '--json', '--jobs', '2', 'model.pkl', 'other.pkl'], ['list', 'model.pkl'], ['--version'],
                          ['view', '--export', 'out.html', '--force', 'model.pkl'], ['scan', '--sarif', 'out.sarif', '--help']):
                run = self.start([*entrance, *words])
                self.assertEqual((run.returncode, run.stderr if '--json' not in words else '', self.seen()), (0, '', ''), (way, words))

    def test_minus_m_imports_only_what_python_does_before(self) -> None:
        # Python itself looks for these in the current folder, before it reads a line of the package.
        self.file('empty/__init__.py', b'')
        self.file('empty/__main__.py', b'import sys\nprint(*sys.modules)\n')
        before = set(self.start([sys.executable, '-m', 'empty']).stdout.split())
        self.fill({*before, 'picklestep'})
        for words in (['model.pkl'], ['scan', '--jobs', '2', 'model.pkl', 'other.pkl'], ['view', '--export', 'out.html', '--force', 'model.pkl'],
                      ['--version']):
            run = self.start([sys.executable, '-m', 'picklestep', *words])
            self.assertEqual((run.returncode, run.stderr, self.seen()), (0, '', ''), words)

    def test_a_path_of_modules_that_names_the_folder(self) -> None:
        self.fill(set())
        for path in (f':{PYTHON}', f'.:{PYTHON}', f'{self.folder}:{PYTHON}'):
            settings = {**os.environ, 'PYTHONPATH': path, 'PYTHONDONTWRITEBYTECODE': '1'}
            for way, entrance in ways().items():
                if way in ('clone', '-I -m'):
                    run = subprocess.run([*entrance, 'model.pkl'], cwd=self.folder, env=settings, capture_output=True, text=True, timeout=300)
                    self.assertEqual((run.returncode, run.stderr, self.seen()), (0, '', ''), way)


@unittest.skipUnless(sys.platform == 'linux' and os.uname().machine == 'x86_64' and 'clone' in ways(), 'a clone with a program for this machine is wanted')
class Sources(EntranceCase):
    """In a clone a released program starts while no source is newer than its comparison with them. Python begins meanwhile."""

    def setUp(self) -> None:
        super().setUp()
        self.file('a.pkl', HARMLESS)
        self.root = self.folder / 'clone'
        for name in ('python/picklestep', 'equipment', 'targets', 'crates/picklestep/src', 'dist/linux-x86_64-static', 'out'):
            (self.root / name).mkdir(parents=True)
        shutil.copytree(PACKAGE, self.root / 'python' / 'picklestep', dirs_exist_ok=True, ignore=shutil.ignore_patterns('bin', '__pycache__'))
        for name in ('picklestep', 'equipment/program.sh'):
            shutil.copy(ROOT / name, self.root / name)
        (self.root / 'crates.txt').write_text('picklestep:\n')
        self.source = self.root / 'crates/picklestep/src/main.rt'
        self.source.write_text('')
        program = self.root / 'dist/linux-x86_64-static/picklestep'
        program.symlink_to(find_program())
        for path in (*self.root.rglob('*'), self.root):
            os.utime(path, (1_000_000_000, 1_000_000_000), follow_symlinks=False)
        self.compared = self.root / 'out/released'
        self.compared.write_text(f'{program}\n')

    def begun(self, *before: str) -> 'subprocess.CompletedProcess[str]':
        settings = {name: value for name, value in environment().items() if name != 'PICKLESTEP_PROGRAM'}
        return subprocess.run([*before, str(self.root / 'picklestep'), 'scan', 'a.pkl'], cwd=self.folder, env={**settings, 'PYTHONDONTWRITEBYTECODE': '1'},
                              stdin=subprocess.DEVNULL, capture_output=True, text=True, timeout=600)

    def test_no_source_is_newer(self) -> None:
        run = self.begun()
        self.assertEqual((run.returncode, run.stderr), (0, ''))
        self.assertIn('1 pickle', run.stdout)

    def test_a_source_is_newer(self) -> None:
        said = self.compared.read_text()
        for path in (self.source, self.source.parent, self.root / 'dist' / 'linux-x86_64-static', self.root / 'targets'):
            with self.subTest(path.name):
                self.compared.write_text(said)  # (it is taken away where the sources are others)
                os.utime(self.compared, (1_100_000_000, 1_100_000_000))
                os.utime(path)
                run = self.begun()
                self.assertEqual((run.returncode, run.stdout), (2, ''))
                self.assertIn('no program is of the sources as they are', run.stderr)
                os.utime(path, (1_000_000_000, 1_000_000_000))

    def test_nobody_says_it(self) -> None:
        """A process that takes no heed of those that it has started does not learn how they ended: it begins anew, and looks first."""
        run = self.begun('sh', '-c', 'trap "" CHLD; exec "$@"', 'sh')
        self.assertEqual((run.returncode, run.stderr), (0, ''))
        run = self.begun('env', 'PICKLESTEP_LOOKING=1')
        self.assertEqual((run.returncode, run.stderr), (0, ''))


@unittest.skipIf(os.name == 'nt', 'a shell of POSIX is wanted')
class Packages(EntranceCase):
    """Python begins without `site` in a clone and where ./install has put the entrance: packages are found once one is asked for."""

    def setUp(self) -> None:
        super().setUp()
        self.file('a.h5', b'\x89HDF\r\n\x1a\n'.ljust(600, b'\0'))
        self.file('a.pkl', HARMLESS)
        self.package = self.folder / 'packages'
        self.file('packages/h5py.py', b"raise ImportError('it is found')\n")

    def in_place(self, python: str, named: str = '') -> str:
        """What a process that begins so finds, which prints the places of its modules at its end."""
        code = ("import runpy, sys; sys.argv = sys.argv[1:]\ntry: runpy.run_path(sys.argv[0], run_name='__main__')\n"
                "except SystemExit: print('site' in sys.modules, *sys.path, sep='\\n')")
        settings = {**os.environ, 'PYTHONPATH': named, 'PICKLESTEP_PROGRAM': find_program()}
        words = [python, '-I', '-S', '-B', '-c', code, str(PACKAGE / 'entrance.py'), 'a.h5']
        run = subprocess.run(words, cwd=self.folder, env=settings, capture_output=True, text=True, timeout=600)
        self.assertEqual((run.returncode, run.stderr), (0, ''))
        self.assertIn('True', run.stdout.split('\n'))  # (a package was asked for, whether there is one or not)
        return run.stdout

    def test_it_begins_without_site(self) -> None:
        script = f'package={PACKAGE}; choose_program() {{ chosen=/bin/true; }}; . "$package/help/start.sh"; enter scan a.pkl'
        self.file('bin/python3', b'#!/bin/sh\necho "$@"\n')
        (self.folder / 'bin/python3').chmod(0o755)
        run = subprocess.run(['/bin/sh', '-c', script], env={**os.environ, 'PATH': f'{self.folder}/bin:{os.environ["PATH"]}'}, capture_output=True, text=True, timeout=600)
        self.assertEqual(run.stdout.split()[:2], ['-I', '-S'], run.stderr)

    def test_places_that_the_environment_names(self) -> None:
        self.assertIn(f'\n{self.package}\n', self.in_place(sys.executable, f'{self.package}{os.pathsep}{self.folder}'))
        self.assertNotIn(f'\n{self.folder}\n', self.in_place(sys.executable, str(self.folder)))  # (it is the current one)

    def test_places_of_an_environment(self) -> None:
        """What pip installs so that it can be edited is named by a file there."""
        venv.create(self.folder / 'venv', symlinks=True)
        (places,) = self.folder.glob('venv/lib/python*/site-packages')
        (places / 'named.pth').write_text(f'{self.package}\n')
        self.assertEqual({str(places), str(self.package)} - set(self.in_place(str(self.folder / 'venv/bin/python3')).split('\n')), set())

    def test_words_that_need_none(self) -> None:
        """The standard library asks for modules that are not there, and none of these is taken for a package."""
        code = ("import sys; sys.argv = sys.argv[1:]; sys.path.insert(0, sys.argv.pop(0)); from picklestep import entrance, further\n"
                "further.search_when_asked(sys.argv)\nif sys.argv: entrance.main(sys.argv)\nelse: further.search()\n"
                "print('site' in sys.modules, file=sys.stderr)")
        self.file('b.pkl', HOSTILE)
        self.file('script', b'quit\n')
        told = (['a.pkl'], ['scan', '--json', '--jobs', '2', 'a.pkl', 'b.pkl'], ['calls', 'a.pkl'], ['diff', 'a.pkl', 'b.pkl'], ['mend', 'a.pkl'], ['size', 'a.pkl'],
                ['source', 'a.pkl'], ['rename', 'a', 'b', 'a.pkl', '--dry-run'], ['optimize', 'a.pkl', '--save', 'out'], ['view', '--export', 'out.html', '--force', 'a.pkl'],
                ['shell', '--batch', 'script', 'a.pkl'])
        for words, found in (*((words, 'False') for words in told), (['scan', 'redis+no://a'], 'True'), ([], 'True')):
            run = subprocess.run([sys.executable, '-I', '-S', '-B', '-c', code, str(PACKAGE.parent), *words], cwd=self.folder,
                                 env={**os.environ, 'PICKLESTEP_PROGRAM': find_program()}, capture_output=True, text=True, timeout=600)
            self.assertEqual(run.stderr.split()[-1:], [found], (words, run.stderr))

    def test_a_package_that_site_imports(self) -> None:
        """It is loaded once, also where it is the first one that is asked for, and one without a spec is no error."""
        made = self.folder / 'early'
        made.mkdir()
        (made / 'loaded_early.py').write_text("print('runs')\n")
        code = ("import sys, site, types; sys.path.insert(0, sys.argv[1]); from picklestep import further\n"
                "def main():\n    sys.path.append(sys.argv[2]); import loaded_early; sys.modules['bare_early'] = types.ModuleType('bare_early')\n"
                "site.main = main; further.search_when_asked([])\n"
                "import {}\nprint(getattr({}.__spec__, 'origin', None))")
        for name, said in (('loaded_early', ['runs', str(made / 'loaded_early.py')]), ('bare_early', ['runs', 'None'])):
            run = subprocess.run([sys.executable, '-I', '-S', '-B', '-c', code.format(name, name), str(PACKAGE.parent), str(made)],
                                 cwd=self.folder, capture_output=True, text=True, timeout=600)
            self.assertEqual((run.stdout.splitlines(), run.stderr), (said, ''))


if __name__ == '__main__':
    unittest.main()
