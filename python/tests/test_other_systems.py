"""The package where the system has less than Linux: it can be imported, and asks the program."""

import hashlib
import json
import ntpath
import os
import shlex
import shutil
import subprocess
import sys
import tempfile
import unittest
from pathlib import Path
from typing import Any, Tuple
from unittest import mock

from picklestep import place
from picklestep.errors import ProgramError

TESTS = Path(__file__).resolve().parent
PACKAGE = Path(place.__file__).resolve().parent.parent
MODULE = next((path for path in (PACKAGE / 'picklestep/bin/picklestep.mjs', TESTS.parents[1] / 'dist/picklestep.mjs') if path.is_file()), None)
ASK = """\
import picklestep, sys
from picklestep import place
hostile = b'cposix\\nsystem\\n(X\\x02\\0\\0\\0idtR.'
print(picklestep.calls(hostile, timeout=600).calls, picklestep.objects(b'N.'), picklestep.listing(hostile)[0].argument, sep='|')
with picklestep.Session(b'N.') as session:
    session.insert(0, 'NONE')
    print(session.bytes(), session.run().why)
# The package starts nothing, the module does not start, and it answers by itself: what it has room for, and what not.
small, large = b'N' * 100_000 + b'.', b'](' + b'\\x8c\\x03abc\\x94' * 1_000_000 + b'e.'
for data, memory in ((small, 1 << 20), (small, (1 << 20) + 1), (small, 16 << 20), (large, 16 << 20)):
    try:
        print(picklestep.objects(data, memory=memory))
    except picklestep.OutOfMemory as error:
        print(error, error.status)
"""
SAID = """\
1|<Objects: 1 objects, stopped>|(b'posix', b'system')
b'NN.' end
out of memory None
out of memory 2
<Objects: 100000 objects, stopped>
out of memory 2
"""
SAVE = """\
import os, picklestep, sys
os.umask(0o002)
for name, mode in (('private', 0o600), ('of a group', 0o640), ('new', None)):
    path = os.path.join(sys.argv[1], name)
    if mode is not None:
        os.close(os.open(path, os.O_CREAT, mode))
    with picklestep.Session(b'N.') as session:
        session.insert(0, 'NONE')
        session.save(path)
    with open(path, 'rb') as file:
        print(f'{name}: {os.stat(path).st_mode & 0o7777:o} {file.read()}')
"""
SAVED = """\
private: 600 b'NN.'
of a group: 640 b'NN.'
new: 664 b'NN.'
"""


# A Python that has an opcode more than those that are known here.
LATER = """\
import pickletools
pickletools.opcodes.append(pickletools.OpcodeInfo('NEWER', '\\x9a', None, [], [pickletools.anyobject], 5, 'Is not known.'))
from picklestep import source
from picklestep.scan.blobs import BytesBlob
from picklestep.scan.reach import reach_of
from picklestep.shell.shell import Shell
from picklestep.view.opcodes import opcode_table
for begin in (b'', b'\\x9a'):
    print(reach_of(BytesBlob(begin + b'cposix\\nsystem\\n(X\\x02\\0\\0\\0idtR.')) is None)
print(source(b'N.').text.splitlines()[-1], *(name in opcode_table() for name in ('NONE', 'NEWER')))
"""


def asked(*words: str, **environment: str) -> str:
    """What an interpreter says that has nothing of this one's environment."""
    done = subprocess.run([sys.executable, *words], capture_output=True, text=True, check=False, timeout=600, cwd='/', stdin=subprocess.DEVNULL,
                          env={'PYTHONPATH': str(PACKAGE), 'PYTHONDONTWRITEBYTECODE': '1', **environment})
    return done.stdout + done.stderr


@unittest.skipUnless(MODULE and shutil.which('node'), 'the module or Node is not there')
class OtherSystems(unittest.TestCase):
    def lesser(self, system: str) -> str:
        """What the package says over the module, in an interpreter that hides what another system has not."""
        with tempfile.TemporaryDirectory() as folder:
            Path(folder, 'node.exe').symlink_to(str(shutil.which('node')))
            path = f'{folder}{os.pathsep}{os.path.dirname(str(shutil.which("node")))}'
            return asked('-c', f'import sys; sys.path.insert(0, {str(TESTS / "lesser")!r}); import lesser_system\n{ASK}', PATH=path,
                         PICKLESTEP_LESSER=system, PICKLESTEP_PROGRAM=str(MODULE))

    def test_windows_has_less(self) -> None:
        self.assertEqual(self.lesser('windows'), SAID)

    def test_macos_has_less(self) -> None:
        self.assertEqual(self.lesser('macos'), SAID)

    def test_a_saved_file_keeps_its_mode(self) -> None:
        with tempfile.TemporaryDirectory() as folder:
            self.assertEqual(asked('-c', SAVE, folder, PATH=os.environ['PATH'], PICKLESTEP_PROGRAM=str(MODULE)), SAVED)

    @unittest.skipUnless(sys.platform == 'linux', 'names are not bytes')
    def test_no_name_is_taken_for_another(self) -> None:
        """Node has a character for what is not UTF-8 in a word and in the path of the current folder."""
        with tempfile.TemporaryDirectory() as folder:
            for name in (b'\xff', '\ufffd'.encode()):
                Path(folder, os.fsdecode(name)).mkdir()
                Path(folder, os.fsdecode(name), 'a.pickle').write_bytes(b'N.')

            def answer(word: bytes, current: bytes = b'') -> Tuple[int, bytes]:
                done = subprocess.run([str(shutil.which('node')), str(MODULE), 'objects', word], capture_output=True, check=False, timeout=600,
                                      cwd=os.path.join(os.fsencode(folder), current))
                return done.returncode, done.stdout + done.stderr

            unread, read = (2, b'picklestep: cannot read\n'), (0, b'#0 none\nresult #0\n')
            self.assertEqual(answer(b'\xff/a.pickle'), unread)
            self.assertEqual(answer('\ufffd/a.pickle'.encode()), read)
            self.assertEqual(answer(b'a.pickle', b'\xff'), unread)
            self.assertEqual(answer(os.fsencode(folder) + '/\ufffd/a.pickle'.encode(), b'\xff'), read)

    def test_options_of_node_are_not_for_the_module(self) -> None:
        settings = {'PATH': os.environ['PATH'], 'PICKLESTEP_PROGRAM': str(MODULE), 'NODE_OPTIONS': '--require ./gone.js'}
        self.assertEqual(asked('-c', ASK, **settings), SAID)
        said = 'picklestep: cannot read\npicklestep: cannot read /not/there: No such file or directory\n'
        self.assertEqual(asked('-m', 'picklestep', 'list', '/not/there', **settings), said)

    def test_the_version_sums_up_the_module(self) -> None:
        said = asked('-m', 'picklestep', '--version', PATH=os.environ['PATH'], PICKLESTEP_PROGRAM=str(MODULE)).splitlines()
        files = [str(MODULE), str(MODULE)[:-3] + 'wasm']
        self.assertEqual(said[2:], [f'program sha256 {hashlib.sha256(Path(file).read_bytes()).hexdigest()} {file}' for file in files])

    def test_an_older_node_is_told(self) -> None:
        with tempfile.TemporaryDirectory() as folder:
            Path(folder, 'older.cjs').write_text("Object.defineProperty(process, 'versions', { value: { ...process.versions, node: '18.20.4' } });\n")
            node = Path(folder, 'node')
            node.write_text(f'#!/bin/sh\nexec {shlex.quote(str(shutil.which("node")))} --require {shlex.quote(folder)}/older.cjs "$@"\n')
            node.chmod(0o755)
            said = 'the program is a module, which runs with Node 20 or later on the path (https://nodejs.org), and this is Node 18.20.4'
            done = subprocess.run([node, MODULE, 'list', 'none.pickle'], capture_output=True, text=True, check=False, timeout=600)
            self.assertEqual((done.returncode, done.stdout, done.stderr), (2, '', f'picklestep: {said}\n'))
            ask = 'import picklestep\ntry:\n    picklestep.calls(b"N.", timeout=600)\nexcept picklestep.ProgramError as error:\n    print(error)'
            self.assertEqual(asked('-c', ask, PATH=folder, PICKLESTEP_PROGRAM=str(MODULE)), f'{said}\n')


# A current folder of Windows, words, and what the module is given for them.
HERE = 'C:\\Users\\me'
WORDS = (
    (('list', '--many', 'a\\b.pickle'), ('list', '--many', 'a/b.pickle'), 'C:'),
    (('list', 'C:\\a\\b c.pickle'), ('list', '/C:/a/b c.pickle'), 'C:'),
    (('list', 'c:near.pickle'), ('list', 'near.pickle'), 'C:'),
    (('form', '\\a\\b.pickle'), ('form', '/C:/a/b.pickle'), 'C:'),
    (('objects', 'd:/b.pickle'), ('objects', '/D:/b.pickle'), 'C: D:'),
    (('debug', 'D:\\b.pickle', '--window', '3', '--save', 'E:\\out'), ('debug', '/D:/b.pickle', '--window', '3', '--save', '/E:/out'), 'C: D: E:'),
    (('debug', '--save=D:\\out', '..\\b.pickle'), ('debug', '--save=/D:/out', '../b.pickle'), 'C: D:'),
    (('calls', 'b.pickle', '--skip', '3:2', '--skip', '@D:\\a\\holes'), ('calls', 'b.pickle', '--skip', '3:2', '--skip', '@/D:/a/holes'), 'C: D:'),
    (('calls', '@D\\b.pickle', '--skip', '@holes'), ('calls', '@D/b.pickle', '--skip', '@holes'), 'C:'),
)
ON_NO_DRIVE = ('\\\\server\\share\\a.pickle', '//server/share/a.pickle', '\\\\?\\C:\\a.pickle', 'D:a.pickle')
IN_NODE = """\
import { onDrives } from 'MODULE?parts';
const said = JSON.parse(process.argv[1]).map(([words, folder]) => {
    try {
        const { args, home, drives } = onDrives(words, folder);
        return [args, home, drives];
    } catch (error) {
        return error.message;
    }
});
console.log(JSON.stringify(said));
"""
# The module in Node, with a folder for each drive that is there.
DRIVES = """\
import { existsSync, readFileSync } from 'node:fs';
import { WASI } from 'node:wasi';
import { onDrives } from 'MODULE?parts';
const [folder, here, ...words] = process.argv.slice(1);
const { args, home, drives } = onDrives(words, here);
const roots = drives.map((drive) => [`/${drive}`, `${folder}/${drive[0]}`]).filter(([, root]) => existsSync(root));
const preopens = Object.fromEntries(roots);
const wasi = new WASI({ version: 'preview1', args: ['picklestep', ...args], env: { PWD: home }, preopens, returnOnExit: true });
const module = new WebAssembly.Module(readFileSync(new URL('picklestep.wasm', 'MODULE')));
process.exitCode = wasi.start(new WebAssembly.Instance(module, wasi.getImportObject()));
"""


class Drives(unittest.TestCase):
    """The paths of Windows, as the module is given them."""

    def in_node(self, script: str, *words: str, given: str = '') -> str:
        """What a script says in Node, which has the parts of the module's start."""
        if MODULE is None or shutil.which('node') is None:
            self.skipTest('the module or Node is not there')
        flags = ('--no-warnings', '--no-turbo-fast-api-calls', '--input-type=module')
        command = ['node', *flags, '-e', script.replace('MODULE', MODULE.as_uri()), *words]
        done = subprocess.run(command, input=given, capture_output=True, text=True, check=False, timeout=600)
        return done.stdout + done.stderr

    def over_node(self, *asked_of: 'tuple[tuple[str, ...], str]') -> Any:
        return json.loads(self.in_node(IN_NODE, json.dumps(asked_of)))

    def test_each_is_on_its_drive(self) -> None:
        wanted = [[list(args), '/C:/Users/me', drives.split()] for _, args, drives in WORDS]
        self.assertEqual(self.over_node(*((words, HERE) for words, *_ in WORDS)), wanted)

    def test_each_is_the_file_that_windows_takes(self) -> None:
        """(By Python's own rules for its paths.)"""
        def whole(path: str) -> str:
            return ntpath.normcase(ntpath.normpath(ntpath.join(HERE, path)))
        for words, args, _ in WORDS:
            for word, placed in zip(words, args):
                for before in ('@/', '--save=/'):
                    if placed.startswith(before):
                        word, placed = word[len(before) - 1:], placed[len(before) - 1:]
                self.assertEqual(whole(placed[1:] if placed.startswith('/') else placed), whole(word))

    def test_what_is_on_no_drive_is_refused(self) -> None:
        """Also where the current folder is there."""
        asked_of = [(('list', path), HERE) for path in ON_NO_DRIVE] + [(('list', 'a.pickle'), path) for path in ON_NO_DRIVE[:-1]]
        said = [f'{path} does not begin at the root of a drive' for path in (*ON_NO_DRIVE, *ON_NO_DRIVE[:-1])]
        self.assertEqual(self.over_node(*asked_of), said)

    def test_the_module_finds_them(self) -> None:
        """A pickle and holes on another drive than the current folder, and a file that is saved to a third."""
        with tempfile.TemporaryDirectory() as folder:
            for name in ('C/here', 'D/in', 'E'):
                Path(folder, name).mkdir(parents=True)
            Path(folder, 'D/in/a.pickle').write_bytes(b'NNNN.')
            Path(folder, 'D/holes').write_text('1:2\n')
            Path(folder, 'C/here/near.pickle').write_bytes(b'N.')
            here = (folder, 'C:\\here')
            self.assertEqual(self.in_node(DRIVES, *here, 'objects', 'near.pickle'), '#0 none\nresult #0\n')
            self.assertEqual(self.in_node(DRIVES, *here, 'calls', 'D:\\in\\a.pickle', '--skip', '@D:\\holes'), '0 imports, 0 calls\n')
            self.assertEqual(self.in_node(DRIVES, *here, 'debug', '\\here\\near.pickle', '--save', 'E:\\out', given='insert 0 NONE\n'), 'edited 0\n')
            self.assertEqual(Path(folder, 'E/out').read_bytes(), b'NN.')
            self.assertEqual(self.in_node(DRIVES, *here, 'list', 'F:\\a.pickle'), 'picklestep: cannot read\n')


class ALaterPython(unittest.TestCase):
    def test_an_opcode_that_is_not_known_ends_what_is_read(self) -> None:
        self.assertEqual(asked('-c', LATER, PICKLESTEP_PROGRAM=place.find_program()), 'False\nTrue\nresult = None True False\n')


class ASmallerPython(unittest.TestCase):
    def test_without_ctypes_the_program_is_asked(self) -> None:
        ask = ('import sys\nsys.modules["_ctypes"] = None\nimport picklestep\nfrom picklestep import library\n'
               'print(library.answer(["list"], b"N."), len(picklestep.listing(b"N.")))')
        self.assertEqual(asked('-c', ask, PICKLESTEP_PROGRAM=place.find_program()), 'None 2\n')


class WhichProgram(unittest.TestCase):
    """Of a source tree, by the machine."""

    def setUp(self) -> None:
        held = tempfile.TemporaryDirectory()
        self.addCleanup(held.cleanup)
        self.dist = Path(held.name, 'dist')
        for name in ('linux-x86_64/picklestep', 'linux-x86_64-static/picklestep', 'linux-aarch64/picklestep', 'picklestep.mjs'):
            (self.dist / name).parent.mkdir(parents=True, exist_ok=True)
            (self.dist / name).touch()
        for patch in (mock.patch('picklestep.place._HERE', f'{held.name}/python/picklestep'), mock.patch.dict(os.environ)):
            patch.start()
            self.addCleanup(patch.stop)
        os.environ.pop('PICKLESTEP_PROGRAM', None)

    def found(self, system: str, machine: str) -> str:
        with mock.patch('picklestep.place._machine', return_value=(system, machine)):
            return str(Path(place.find_program()).relative_to(self.dist))

    def test_it_is_that_of_the_machine(self) -> None:
        self.assertEqual(self.found('Linux', 'x86_64'), 'linux-x86_64-static/picklestep')
        self.assertEqual(self.found('Linux', 'aarch64'), 'linux-aarch64/picklestep')

    def test_the_toolchain_of_each_is_known(self) -> None:
        (self.dist / 'linux-x86_64/TOOLCHAIN').write_text('a toolchain\n')
        for name in ('linux-x86_64/picklestep', 'linux-x86_64-static/picklestep', 'linux-aarch64/picklestep', 'picklestep.mjs'):
            self.assertEqual(place.toolchain_of(str(self.dist / name)), 'a toolchain', name)
        self.assertEqual(place.toolchain_of(str(self.dist / 'a/b/picklestep')), 'not known')

    def test_elsewhere_it_is_the_module_if_node_is_there(self) -> None:
        with mock.patch('picklestep.place.node_path', return_value='/bin/node'):
            self.assertEqual(self.found('Darwin', 'arm64'), 'picklestep.mjs')
            self.assertEqual(place.program_words('picklestep.mjs'), ['/bin/node', 'picklestep.mjs'])
        with mock.patch('picklestep.place.node_path', return_value=None), self.assertRaises(ProgramError) as caught:
            self.found('Windows', 'AMD64')
        self.assertEqual(str(caught.exception), 'there is no program for this machine (Windows AMD64): its module runs with Node 20 or later on '
                         'the path (https://nodejs.org)')


if __name__ == '__main__':
    unittest.main()
