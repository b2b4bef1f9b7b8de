"""Each word and each function opens an address, and says the same of it as of the bytes there. Nothing is saved over a container, nor to an address."""

from __future__ import annotations

import bz2
import collections
import functools
import gzip
import inspect
import lzma
import os
import pickle
import subprocess
import unittest
import zipfile
from pathlib import Path
from typing import Any, Callable, Dict, List, Tuple

import picklestep
from picklestep.entrance import _OWN, _PAGES
from picklestep.optimizing import main as optimize
from picklestep.sizing import main as size
from picklestep.view.command import main as view
from scan_support import HOSTILE, environment, tarred
from test_entrance import ways
from test_opener import OpenerCase, zipped

HONEST = pickle.dumps(collections.OrderedDict(a=1000, b=1000), 2)
NAMES = ['collections.OrderedDict: call made-fill']
ADDRESSES = ('two.zip > a.pkl', 'one.pkl.gz > (gzip)', 'outer.zip > two.zip > a.pkl', 'one.pkl.bz2 > (bz2)', 'one.tar > a.pkl')
TEXT = b'EMPTY_LIST\nSTOP\n'


def of_session(source: Any) -> bytes:
    with picklestep.Session(source) as session:
        return session.bytes()


# Functions that read a source, as they are asked.
ASKS: Dict[str, Callable[[Any], Any]] = {
    'Session': of_session, 'calls': lambda source: picklestep.calls(source).text, 'check': functools.partial(picklestep.check, names=NAMES, loader='pickle'),
    'compare': lambda source: picklestep.compare(source, b'N.'), 'convert': functools.partial(picklestep.convert, protocol=0), 'form': picklestep.form,
    'gate': lambda source: bool(picklestep.gate(source, names=NAMES)), 'listing': lambda source: picklestep.listing(source).text,
    'mended': lambda source: picklestep.mended(source).content, 'objects': lambda source: picklestep.objects(source).text, 'optimize': picklestep.optimize, 'reach': picklestep.reach,
    'opcode_differences': lambda source: picklestep.opcode_differences(source, b'N.'), 'same': lambda source: picklestep.same(source, b'N.').text,
    'rename': functools.partial(picklestep.rename, pairs={'collections': 'other'}), 'size': picklestep.size, 'source': lambda source: picklestep.source(source).text,
    'tree': lambda source: repr(picklestep.tree(source))}
# Those that are about a container, or about no file.
OF_OTHERS = {'assemble', 'members', 'pickles_in'}
# Words, with what stands behind the file.
WORDS: Dict[str, List[str]] = {
    'calls': [], 'convert': ['--protocol', '0', '--save', 'out'], 'debug': [], 'diff': ['none.pkl'], 'form': [], 'list': [], 'mend': ['--save', 'out'], 'objects': [],
    'optimize': ['--save', 'out'], 'reach': [], 'same': ['none.pkl'], 'shell': ['--batch', 'script'], 'size': [], 'source': [], 'view': ['--export', 'out', '--force']}
# Those that print the name, that are asked in another way, here and in test_opener.py, or that have no file.
WORDS_OF_OTHERS = {'assemble', 'dap', 'gate', 'members', 'opcodes', 'policy', 'rename', 'scan'}


class EverywhereCase(OpenerCase):
    def setUp(self) -> None:
        super().setUp()
        two = zipped({'a.pkl': HONEST, 'b.pkl': HOSTILE, 'c.txt': TEXT})
        for name, content in (('two.zip', two), ('one.pkl.gz', gzip.compress(HONEST)), ('outer.zip', zipped({'two.zip': two})), ('one.pkl.bz2', bz2.compress(HONEST)),
                              ('one.tar', tarred({'a.pkl': HONEST})), ('alone.pkl', HONEST), ('none.pkl', b'N.'), ('script', b'run\n'), ('names.txt', f'{NAMES[0]}\n'.encode())):
            self.file(name, content)

    def word(self, *words: str) -> Tuple[int, str, str]:
        """The status of a run, and what it says."""
        run = self.start([*ways()['-I -m'], *words])
        return run.returncode, run.stdout, run.stderr


class Everywhere(EverywhereCase):
    def test_functions(self) -> None:
        given = {name for name in picklestep.__all__ if inspect.isfunction(getattr(picklestep, name))}
        self.assertEqual(given | {'Session'}, set(ASKS) | OF_OTHERS)
        for name, ask in ASKS.items():
            wanted = ask(HONEST)
            for address in ADDRESSES:
                with self.subTest((name, address)):
                    self.assertEqual(ask(address), wanted)
            self.assertEqual(ask(Path(ADDRESSES[0])), wanted, name)
            with open('alone.pkl', 'rb') as file:
                self.assertEqual(ask(file), wanted, name)

    def test_words(self) -> None:
        known = {*_OWN, *(name[:-4] for name in os.listdir(_PAGES) if name.endswith('.txt'))} - {'picklestep'}
        self.assertEqual(known, set(WORDS) | WORDS_OF_OTHERS)
        for word, rest in WORDS.items():
            status, alone, _ = self.word(word, 'alone.pkl', *rest)
            saved = Path('out').read_bytes() if 'out' in rest and word != 'view' else b''
            for address in ADDRESSES[:2]:
                with self.subTest((word, address)):
                    again, out, errors = self.word(word, address, *rest)
                    self.assertEqual((again, out.replace(': the pickle alone, and no container', '')), (status, alone), errors)
                    self.assertIn(f"picklestep: opened '{address}' ({len(HONEST)} bytes)\n", errors)
                    self.assertEqual(Path('out').read_bytes() if saved else b'', saved)

    def test_paths_of_containers(self) -> None:
        """The one pickle in it is what is given. `rename` wants its address, for its word writes archives; `check` gives the whole file."""
        self.assertEqual(picklestep.optimize('one.pkl.gz'), picklestep.optimize(HONEST))
        self.assertEqual(picklestep.convert('one.pkl.bz2', protocol=0), picklestep.convert(HONEST, protocol=0))
        with self.assertRaisesRegex(picklestep.NotRenamed, r'container.*one.pkl.gz > \(gzip\)$'):
            picklestep.rename('one.pkl.gz', {'collections': 'other'})
        self.assertEqual(picklestep.check('one.pkl.gz', names=NAMES, loader='joblib'), Path('one.pkl.gz').read_bytes())
        asks: List[Callable[[str], object]] = [picklestep.optimize, functools.partial(picklestep.convert, protocol=0)]
        for ask in asks:
            with self.assertRaisesRegex(picklestep.NotOpened, "^two.zip is a container .zip. with 2 pickles"):
                ask('two.zip')

    def test_what_answers_say(self) -> None:
        """What the word says on standard error."""
        self.file('more.pkl.bz2', bz2.compress(HONEST) + b'more')
        asks: Dict[str, Callable[[str], Any]] = {'calls': picklestep.calls, 'list': picklestep.listing, 'objects': picklestep.objects, 'source': picklestep.source}
        for word, ask in asks.items():
            for name in ('two.zip > a.pkl', 'more.pkl.bz2'):
                said = self.word(word, name)[2].splitlines()
                self.assertEqual([line if line.startswith('  ') else f'picklestep: {line}' for line in ask(name).said], said)
            self.assertEqual((ask('alone.pkl').said, picklestep.calls(HONEST).said), ((), ()))

    def test_check(self) -> None:
        """The bytes at the address, and a line that has it. Nothing else there is looked at."""
        with self.assertRaises(picklestep.NotAllowed) as caught:
            picklestep.check('two.zip > b.pkl', names=NAMES)
        self.assertRegex(caught.exception.lines[0], '^two.zip > b.pkl: import posix.system')
        self.assertEqual(picklestep.check('outer.zip > two.zip > a.pkl', names=NAMES), HONEST)
        for wrong in ('two.zip > none', 'outer.zip > two.zip > none'):
            self.assertRaises(picklestep.NotOpened, picklestep.check, wrong)

    def test_addresses_of_nothing(self) -> None:
        for ask in (picklestep.pickles_in, *ASKS.values()):
            with self.assertRaisesRegex(picklestep.NotOpened, "^nothing in two.zip has the address 'none'"):
                ask('two.zip > none')
            with self.assertRaises(FileNotFoundError):
                ask('none > a.pkl')
            with self.assertRaises((IsADirectoryError, PermissionError)):
                ask(str(self.folder))
        self.assertEqual(len(picklestep.pickles_in('two.zip > c.txt')), 0)
        self.assertEqual([each.address for each in picklestep.pickles_in('outer.zip > two.zip')], ['outer.zip > two.zip > a.pkl', 'outer.zip > two.zip > b.pkl'])


class Gate(EverywhereCase):
    def test_several(self) -> None:
        status, out, errors = self.word('gate', 'names.txt', 'two.zip > a.pkl', 'alone.pkl', "outer.zip > two.zip > b.pkl")
        self.assertEqual((status, out.splitlines()), (1, ["'two.zip > a.pkl': passes", "'alone.pkl': passes",
                                                          "'outer.zip > two.zip > b.pkl': 0: not allowed: import 'posix' 'system' as #0"]), errors)
        self.assertEqual(len(errors.splitlines()), 2)
        self.file("it's é.zip", zipped({'a.pkl': HONEST}))
        for address in ("it's é.zip > a.pkl", 'one.pkl.gz > (gzip)'):
            os.makedirs('copies', exist_ok=True)
            self.file(f'copies/{address}', HONEST)  # (the program prints the name of a file in the same way)
            wanted = self.word('gate', 'names.txt', 'alone.pkl', f'copies/{address}')[1].replace('copies/', '')
            self.assertEqual(self.word('gate', '--list', 'names.txt', 'alone.pkl', address)[:2], (0, wanted))
            wanted = self.word('gate', '--json', 'names.txt', 'alone.pkl', f'copies/{address}')[1].replace('copies/', '')
            self.assertEqual(self.word('gate', '--json', '--list', 'names.txt', 'alone.pkl', address)[:2], (0, wanted))
        status, out, errors = self.word('gate', 'names.txt', 'alone.pkl', 'two.zip > none')
        self.assertEqual((status, out), (2, ''))
        self.assertIn("nothing in two.zip has the address 'none'", errors)

    def test_what_the_program_opens(self) -> None:
        """At an address it is given whole too."""
        status, out, _ = self.word('gate', 'names.txt', 'outer.zip > two.zip')
        self.assertEqual((status, out), self.word('gate', 'names.txt', 'two.zip')[:2])
        self.assertEqual(out, "'b.pkl': 0: not allowed: import 'posix' 'system' as #0\n")
        answer = picklestep.gate('outer.zip > two.zip', names=NAMES)
        self.assertEqual((answer.member, answer.address), ('b.pkl', 'outer.zip > two.zip'))
        self.file('in.zip', zipped({'a.pkl.gz': gzip.compress(HONEST)}))
        self.assertTrue(picklestep.gate('in.zip > a.pkl.gz', names=NAMES))

    def test_what_python_opens(self) -> None:
        """It says what it is about. Where scan marks something there is no answer, but for an address."""
        for name, content in (('one.pkl.bz2', bz2.compress(HONEST)), ('one.pkl.xz', lzma.compress(HONEST))):
            self.file(name, content)
            status, out, errors = self.word('gate', 'names.txt', name)
            self.assertEqual((status, out), (0, 'passes\n'))
            self.assertRegex(errors, f"the one pickle in it is opened, '{name} > ")
            self.assertRegex(picklestep.gate(name, names=NAMES).address, f'^{name} > ')
            self.assertEqual(self.word('gate', 'names.txt', name, 'alone.pkl')[0], 1)
        self.file('more.pkl.bz2', bz2.compress(HONEST) + b'more')
        status, out, errors = self.word('gate', 'names.txt', 'more.pkl.bz2')
        self.assertEqual((status, out), (2, ''))
        self.assertRegex(errors, r"^picklestep: scan marks something in the container more.pkl.bz2, so gate does not open it; .* 'more.pkl.bz2 > \(bz2\)'\n")
        self.assertRaises(picklestep.NotOpened, picklestep.gate, 'more.pkl.bz2', names=NAMES)
        self.assertEqual(self.word('gate', 'names.txt', 'more.pkl.bz2 > (bz2)')[:2], (0, 'passes\n'))
        self.assertEqual(picklestep.gate('alone.pkl', names=NAMES).address, '')


class Saves(EverywhereCase):
    def test_to_an_address(self) -> None:
        """A file of that name would be opened in its place from then on."""
        self.file('text', TEXT)
        before = sorted(os.listdir())
        for file in ('alone.pkl', 'one.pkl.gz', 'two.zip > a.pkl'):
            for words in (['debug', file, '--save', 'X'], ['mend', file, '--save', 'X'], ['optimize', file, '--save', 'X'], ['convert', file, '--protocol', '0', '--save', 'X'],
                          ['size', file, '--svg', 'X'], ['view', file, '--export', 'X'], ['assemble', 'text', '--save', 'X']):
                with self.subTest(words):
                    status, _, errors = self.word(*('two.zip > b.pkl' if word == 'X' else word for word in words))
                    self.assertEqual(status, 2)
                    self.assertIn('cannot write two.zip > b.pkl: nothing is written into a container', errors)
            with picklestep.Session(file) as session, self.assertRaisesRegex(picklestep.PicklestepError, 'nothing is written into a container'):
                session.save('two.zip > b.pkl')
        self.assertEqual(sorted(os.listdir()), before)

    def test_over_the_container(self) -> None:
        before = Path('one.pkl.gz').read_bytes()
        os.link('one.pkl.gz', 'linked')
        mains: List[Tuple[Callable[[List[str]], int], List[str]]] = [(view, ['--force', '--export']), (optimize, ['--save']), (size, ['--svg'])]
        for file in ('one.pkl.gz', 'one.pkl.gz > (gzip)'):
            for out in ('one.pkl.gz', 'linked'):
                for main, words in mains:
                    self.assertEqual(self.say(functools.partial(main, [file, *words, out]))[0], 2, (file, out))
        self.assertEqual((Path('one.pkl.gz').read_bytes(), Path('alone.pkl').read_bytes()), (before, HONEST))
        self.assertEqual(self.say(functools.partial(view, ['alone.pkl', '--force', '--export', 'alone.pkl']))[0], 2)
        self.assertEqual(Path('alone.pkl').read_bytes(), HONEST)

    def test_what_is_saved(self) -> None:
        for words in (['optimize', 'one.pkl.gz', '--save', 'out.gz'], ['convert', 'one.pkl.gz', '--protocol', '2', '--save', 'out.gz'], ['mend', 'one.pkl.gz', '--save', 'out.gz']):
            status, out, _ = self.word(*words)
            self.assertEqual((status, out.splitlines()[-1]), (0, 'saved out.gz: the pickle alone, and no container'))
        status, _, errors = self.word('debug', 'one.pkl.gz', '--save', 'out.gz')
        self.assertIn('picklestep: the pickle alone, and no container, is saved to out.gz\n', errors)
        self.assertEqual((status, Path('out.gz').read_bytes()), (0, HONEST))

    def test_assemble(self) -> None:
        """A text at an address, also where something is saved."""
        for option in ('--', '--frame'):
            status, _, errors = self.word('assemble', '--save', 'out', option, 'two.zip > c.txt')
            self.assertEqual((status, errors), (0, "picklestep: opened 'two.zip > c.txt'\n"))
            self.assertEqual(pickle.loads(Path('out').read_bytes()), [])
        self.assertEqual(self.word('assemble', 'two.zip > c.txt', '--save', 'two.zip')[0], 2)
        self.assertEqual(zipfile.ZipFile('two.zip').namelist(), ['a.pkl', 'b.pkl', 'c.txt'])


class Launched(EverywhereCase):
    def test_what_is_said(self) -> None:
        """An editor shows it: standard error may be nowhere."""
        self.file('both.pkl', HONEST + zipped({'a.pkl': HOSTILE}))
        for name, said in (('two.zip > a.pkl', "opened 'two.zip > a.pkl'"), ('both.pkl', 'a zip archive stands at the end of both.pkl')):
            requests = b''.join(b'Content-Length: %d\r\n\r\n%b' % (len(text), text) for text in (
                b'{"seq":1,"type":"request","command":"initialize","arguments":{}}',
                b'{"seq":2,"type":"request","command":"launch","arguments":{"program":"%b"}}' % name.encode(),
                b'{"seq":3,"type":"request","command":"disconnect","arguments":{}}'))
            run = subprocess.run([*ways()['-I -m'], 'dap'], input=requests, capture_output=True, env=environment(), timeout=600, check=False)
            self.assertIn(said, run.stdout.decode())


if __name__ == '__main__':
    unittest.main()
