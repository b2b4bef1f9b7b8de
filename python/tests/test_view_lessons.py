"""The page for teaching: what is there before a pickle is open, steps by themselves, lessons, links, printing; and what it offers."""

from __future__ import annotations

import json
import pickle
import pickletools
import tempfile
import threading
import unittest
import urllib.parse
from pathlib import Path
from typing import List

from chromium import ACCESSIBILITY, PROGRAM, READY, SETTLED, Browser
from pickles import ROOT
from picklestep.plain import PLAIN
from picklestep.view.command import _parser, _served
from picklestep.view.server import Viewer

PAGE = ROOT / 'dist' / 'picklestep.html'
DATA = pickle.dumps({'a': [1, 2]}, 4)
NAMES = [opcode.name for opcode, _, _ in pickletools.genops(DATA)]
CUT = b'\x80\x04\x95\xff\0\0\0\0\0\0\0cos\ngetcwd\n)R\x95\x01\0\0\0\0\0\0\0cos\ngetpid\n0.'
LESSON = '0: A list.\n\n5: Its name\ncomes now.\r\n\n3: A mark.\n'


@unittest.skipIf(PROGRAM is None, "there is no Chromium: Debian's chromium has it")
class Lessons(unittest.TestCase):
    """In a browser, which all tests use one after another."""

    browser: Browser

    @classmethod
    def setUpClass(cls) -> None:
        cls.browser = Browser()
        cls.addClassCleanup(cls.browser.close)

    def setUp(self) -> None:
        folder = tempfile.TemporaryDirectory()
        self.addCleanup(folder.cleanup)
        self.folder = Path(folder.name)
        self.browser.told.clear()
        self.addCleanup(lambda: self.assertEqual(self.browser.errors(), []))

    def load(self, behind: str = '') -> None:
        self.browser.go('about:blank')
        self.browser.wait("location.href === 'about:blank'")
        self.browser.go(PAGE.as_uri() + behind)
        self.browser.wait("location.href !== 'about:blank' && document.readyState === 'complete'")
        self.browser.wait(READY)

    def choose(self, *files: Path) -> None:
        """Chooses files together."""
        field = self.browser.call('Runtime.evaluate', expression="document.querySelector('#file')")['result']['objectId']
        self.browser.call('DOM.setFileInputFiles', files=[str(path) for path in files], objectId=field)

    def file(self, name: str, data: bytes) -> Path:
        path = self.folder / name
        path.write_bytes(data)
        return path

    def at(self, place: int) -> None:
        self.browser.wait(f"document.querySelector('#where').textContent.startsWith('at {place} of ')")
        self.browser.js(SETTLED)

    def text(self, selector: str) -> str:
        found: str = self.browser.js(f'document.querySelector({json.dumps(selector)}).textContent')
        return found

    def seen(self, *ids: str) -> List[str]:
        """Those of some elements that are seen."""
        found: List[str] = self.browser.js(f'{json.dumps(ids)}.filter((id) => document.getElementById(id).checkVisibility())')
        return found

    def press(self, key: str) -> None:
        self.browser.js("document.querySelector('#listing').focus()")
        self.browser.key(key)
        self.browser.js(SETTLED)

    def serve(self, *words: str) -> None:
        """Opens the page with a server, of a file."""
        viewer = Viewer(_served(_parser().parse_args(words)))
        thread = threading.Thread(target=viewer.serve, daemon=True)
        thread.start()
        for end in (lambda: viewer.__exit__(), thread.join, viewer.stop):
            self.addCleanup(end)
        self.browser.go(viewer.address)
        self.browser.wait("document.querySelector('#where')?.textContent.startsWith('at ')")
        self.browser.js(SETTLED)

    def test_before_a_pickle_is_open(self) -> None:
        """Nothing is there that does nothing."""
        self.load()
        live = ['step', 'run', 'play', 'edit', 'save', 'bar', 'listing', 'stack', 'memo', 'objects', 'opcode', 'link']
        self.assertEqual(self.seen(*live, 'open', 'paste', 'example', 'watch', 'primer'), ['open', 'paste', 'example', 'watch', 'primer'])
        self.assertEqual(self.browser.js(ACCESSIBILITY), [])
        for key in ('ArrowRight', 'End', 'e', 's', 'u', 'a', 'n'):
            self.browser.key(key)
        self.assertEqual(self.browser.js("document.querySelectorAll('dialog[open]').length"), 0)
        self.choose(self.file('a.pickle', DATA))
        self.at(0)
        self.assertEqual(self.seen(*live), live)

    def test_an_example_that_steps_by_itself(self) -> None:
        self.load()
        self.browser.click('#watch')
        self.at(0)
        self.assertIn('This pickle makes', self.text('#story'))
        self.assertEqual(self.text('#play'), 'Pause')
        self.at(1)
        self.assertIn('PROTO only says', self.text('#story'))
        self.browser.key('b')
        self.assertEqual((self.text('#play'), self.browser.js('isPlaying()')), ('Play', False))
        self.press('End')
        self.browser.key('a')
        self.at(0)  # (from the end it begins anew)
        self.browser.click('#play')
        self.assertEqual(self.text('#play'), 'Play')
        self.browser.js("void (view.story = { text: [] }, go(8))")
        self.at(8)
        self.browser.key('a')
        self.at(9)
        self.browser.wait("document.querySelector('#play').textContent === 'Play'")

    def test_a_lesson_beside_the_pickle(self) -> None:
        """In both pages."""
        path, lesson = self.file('a.pickle', DATA), self.file('a.pickle.lesson.txt', LESSON.encode())
        self.load()
        self.choose(lesson, path)
        for serve in (False, True):
            if serve:
                self.serve(str(path))
            self.at(0)
            told = [self.text('#story')]
            for _ in range(6):
                self.press('ArrowRight')
                told.append(self.text('#story'))
            self.assertEqual(told, ['A list.'] * 3 + ['A mark.'] * 2 + ['Its name\ncomes now.'] * 2)
        self.load()
        self.choose(path)
        self.at(0)
        self.assertEqual(self.seen('story'), [])
        self.choose(lesson)
        self.browser.wait("document.querySelector('#story').textContent === 'A list.'")
        self.assertEqual(self.text('#said'), 'lesson a.pickle.lesson.txt')

    def test_links(self) -> None:
        """The pickle and the place are in the fragment, which no browser sends."""
        self.load()
        self.choose(self.file('a lesson & more.pickle', DATA), self.file('x.lesson.txt', LESSON.encode()))
        self.at(0)
        self.press('ArrowRight')
        self.press('ArrowRight')
        self.browser.click('#link')
        self.browser.wait("location.hash !== ''")
        fragment = self.browser.js('location.hash')
        fields = dict(urllib.parse.parse_qsl(fragment[1:]))
        self.assertEqual((bytes.fromhex(fields['pickle']), fields['name'], fields['at']), (DATA, 'a lesson & more.pickle', '2'))
        self.load(fragment)
        self.at(2)
        self.assertEqual((self.text('#name'), self.text('#story')), ('a lesson & more.pickle', 'A list.'))
        self.load(f'#pickle={DATA.hex()}')
        self.at(0)
        for bad, said in (('#pickle=%25', 'not opened: this is neither hexadecimal nor base64'), ('#other=1', 'Open a pickle, or choose an example.')):
            self.load(bad)
            self.browser.wait(f"document.querySelector('#said').textContent === {json.dumps(said)}")
        self.choose(self.file('long.pickle', pickle.dumps('x' * 20_000)))
        self.at(0)
        self.browser.click('#link')
        self.browser.wait("document.querySelector('#said').textContent.startsWith('too long for a link')")

    def test_codes_have_sentences(self) -> None:
        """In both pages, in the words of the shell."""
        path = self.file('a.pickle', b'NN000.')
        self.load()
        self.choose(path)
        for serve in (False, True):
            if serve:
                self.serve(str(path))
            self.at(0)
            for key, code in (('ArrowLeft', 'C1'), ('u', 'C6'), (' ', 'S2')):
                self.press(key)
                self.assertTrue(self.text('#said').endswith(f'({PLAIN[code]})'), self.text('#said'))

    def test_what_edits_are_offered(self) -> None:
        self.load()
        self.choose(self.file('a.pickle', DATA))
        self.at(0)
        frame, stop = NAMES.index('FRAME'), len(NAMES) - 1
        for place, never, chosen in ((0, ['unframe'], 'replace'), (frame, ['replace', 'delete'], 'unframe'), (stop, ['replace', 'delete', 'unframe'], 'insert')):
            self.browser.js(f"(document.querySelector('#listing').focus(), select({place}))")
            self.browser.js(SETTLED)
            self.browser.key('e')
            self.browser.js(SETTLED)
            options = "[...document.querySelectorAll('#edit-what option')].filter((option) => option.disabled).map((option) => option.value)"
            self.assertEqual((self.browser.js(options), self.browser.js("document.querySelector('#edit-what').value")), (never, chosen), place)
            self.browser.click('#edit-dialog .close')

    def test_read_unframed(self) -> None:
        """Where the length of a frame ends the reading, both pages offer to go on without these."""
        path = self.file('cut.pickle', CUT)
        self.load()
        self.choose(path)
        for serve in (False, True):
            if serve:
                self.serve(str(path))
            self.at(0)
            self.assertIn('F7', self.text('#where'))
            self.browser.click('#unframe-all')
            self.browser.wait("document.querySelector('#where').textContent.includes('end stopped')")
            self.browser.js(SETTLED)
            self.assertEqual(self.text('#reached'), 'imports 0 of 2, calls 0 of 1')
            self.assertEqual(self.seen('unframe-all'), [])
            self.press('End')
            self.assertIn("os.getcwd()", self.text('#result'))
            self.browser.js('void go(7)')
            self.at(7)
            self.press('Delete')
            self.browser.wait("document.querySelector('#where').textContent.startsWith('at 7 of 8')")
            self.assertEqual(self.text('#reached'), 'imports 2 of 2, calls 1 of 1')
        self.serve('--unframed', str(path))
        self.assertEqual(self.text('#reached'), 'imports 0 of 2, calls 0 of 1')

    def test_printing(self) -> None:
        """What is seen without its buttons."""
        self.load()
        self.choose(self.file('a.pickle', DATA))
        self.at(0)
        self.browser.call('Emulation.setEmulatedMedia', media='print')
        try:
            self.assertEqual(self.seen('step', 'bar', 'rail', 'open', 'listing', 'stack', 'memo', 'objects', 'opcode'),
                             ['listing', 'stack', 'memo', 'objects', 'opcode'])
        finally:
            self.browser.call('Emulation.setEmulatedMedia', media='')


if __name__ == '__main__':
    unittest.main()
