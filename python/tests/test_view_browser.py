"""The page of a pickle in a real browser: steps, breakpoints, edits, and a million opcodes.

It is the page of test_view_alone, which looks at what it shows; here it comes from a server.
With PICKLESTEP_LARGE set, a pickle of 200 MB is opened and edited too.
"""

from __future__ import annotations

import json
import os
import pickle
import pickletools
import tempfile
import threading
import time
import unittest
from pathlib import Path
from typing import Any, List

import picklestep
from chromium import ACCESSIBILITY, CONTRASTS, FILLED, PROGRAM, Browser
from picklestep import Ref, Session
from picklestep.view.command import _leading_to, main
from picklestep.view.server import Served, Viewer

REAL = Path(__file__).resolve().parent / 'data' / 'models' / 'sklearn_tree.pkl'
SYSTEM = b'cposix\nsystem\n(X\x02\x00\x00\x00idtR.'
HOSTILE_NAME = '</script><img src=x onerror="document.title=1">'
HOSTILE = b'c' + HOSTILE_NAME.encode('ascii') + b'\n<b>&amp;\n\x8c\x1c<img src=x onerror=alert(1)>\x85R.'
READY = "document.querySelector('#where')?.textContent.startsWith('at ')"


@unittest.skipIf(PROGRAM is None, 'there is no chromium')
class InBrowser(unittest.TestCase):
    """A page in a browser, which all tests of this class use one after another."""

    browser: Browser

    @classmethod
    def setUpClass(cls) -> None:
        cls.browser = Browser()
        cls.addClassCleanup(cls.browser.close)

    def open(self, source: Any) -> Viewer:
        """Opens the page of a pickle, and waits until it is shown."""
        viewer = Viewer(Served(source, 'a pickle'))
        thread = threading.Thread(target=viewer.serve, daemon=True)
        thread.start()
        self.addCleanup(self._end, viewer, thread)
        self.browser.told.clear()
        self.browser.size(1280, 800)
        self.browser.go(viewer.address)
        self.browser.wait(READY)
        self.browser.wait("document.querySelector('.row .name')?.textContent.length > 2")
        return viewer

    def _end(self, viewer: Viewer, thread: threading.Thread) -> None:
        errors = self.browser.errors()
        self.browser.go('about:blank')
        viewer.stop()
        thread.join()
        viewer.__exit__()
        self.assertEqual(errors, [])

    def press(self, key: str, place: int) -> None:
        """Presses a key, and waits until the cursor is at a place."""
        self.browser.key(key)
        self.at(place)

    def at(self, place: int) -> None:
        """Waits until the cursor is at a place."""
        self.browser.wait(f"document.querySelector('#where').textContent.startsWith('at {place} of ')")

    def said(self, text: str) -> None:
        """Waits until the last answer begins so."""
        self.browser.wait(f"document.querySelector('#said').textContent.startsWith({json.dumps(text)})")

    def texts(self, selector: str) -> List[str]:
        """The texts of elements."""
        found: List[str] = self.browser.js(f'[...document.querySelectorAll({json.dumps(selector)})].map((each) => each.textContent)')
        return found

    def test_steps_on_a_real_pickle(self) -> None:
        opcodes = list(pickletools.genops(REAL.read_bytes()))
        calls = [at for at, (opcode, _, _) in enumerate(opcodes) if opcode.name in ('REDUCE', 'NEWOBJ', 'BUILD')]
        self.open(REAL)
        shown = [name for name in self.texts('.row:not([hidden]) .name') if name]
        self.assertEqual(shown[:20], [opcode.name for opcode, _, _ in opcodes[:20]])
        self.press('ArrowRight', 1)
        self.press('ArrowRight', 2)
        self.press('ArrowLeft', 1)
        self.press('n', calls[0])
        self.press('n', calls[1])
        self.press('p', calls[0])
        self.press('End', len(opcodes))
        self.press('ArrowLeft', len(opcodes) - 1)
        self.browser.wait("document.querySelectorAll('#stack .thing').length === 1")
        self.press('Home', 0)

    def test_breakpoint_by_click_and_run(self) -> None:
        with Session(REAL) as session:
            session.goto(9)
            stack = [f'#{thing.number}' for thing in reversed(session.stack()) if isinstance(thing, Ref)]
            places = session.where().places
        self.open(REAL)
        self.browser.click('.row[data-place="9"] .gutter')
        self.browser.wait("document.querySelector('.row[data-place=\"9\"]').classList.contains('broken')")
        self.press(' ', 9)
        self.said('at 9: breakpoint')
        self.browser.wait("document.querySelectorAll('#stack .thing').length === 2")
        self.assertEqual(self.texts('#stack .number'), stack)
        self.assertEqual(self.browser.js("document.querySelector('.row.call .name').textContent"), 'NEWOBJ')
        self.browser.click('.row[data-place="9"] .gutter')
        self.browser.wait("!document.querySelector('.row.broken')")
        self.press(' ', places)

    def test_an_object_opens_and_tells_its_maker(self) -> None:
        self.open(pickle.dumps([('a', 'b'), 7], 2))
        self.browser.key('End')
        self.browser.wait("document.querySelectorAll('#objects > .node').length === 5")
        self.browser.js("document.querySelector('#objects > .node > .thing').click()")
        self.browser.wait("document.querySelectorAll('#objects .inner .node').length === 2")
        self.assertEqual(self.texts('#objects .inner .thing'), ['append #3 tuple (#1 #2)', 'append #4 int 7'])
        box = self.browser.js("(() => { const r = document.querySelectorAll('#objects > .node > .thing')[1].getBoundingClientRect();"
                              'return [r.left + 40, r.top + 5]; })()')
        self.browser.pointer(*box)
        self.browser.wait("document.querySelector('#about').textContent.includes('#1 was made')")
        about = self.browser.js("document.querySelector('#about').textContent")
        self.assertRegex(about, "BINUNICODE 'a'.*It stands in the memo under 1; in #3")

    def edit(self, what: str, place: int, name: str = '', argument: str = '', count: int = 1) -> None:
        """Fills in the form of edits, and sends it."""
        self.browser.key('e')
        self.browser.wait("document.querySelector('#edit-dialog').open && document.activeElement.id === 'edit-name'")
        for field, value in (('what', what), ('place', place), ('name', name), ('argument', argument), ('count', count)):
            self.browser.wait(FILLED)
            self.browser.js(f"(() => {{ const field = document.querySelector('#edit-{field}'); field.value = {json.dumps(value)};"
                            "field.dispatchEvent(new Event('change')); })()")
        self.browser.click('#edit-form button[type=submit]')

    def edited(self, text: str) -> None:
        """Waits until an edit was made, with this answer."""
        self.said(text)
        self.browser.wait("!document.querySelector('#edit-dialog').open")

    def saved(self) -> bytes:
        """What is saved under a name."""
        with tempfile.TemporaryDirectory() as folder:
            path = Path(folder) / 'saved.pickle'
            self.browser.key('s')
            self.browser.wait("document.querySelector('#save-dialog').open")
            self.browser.type(str(path))
            self.browser.key('Enter')
            self.said('saved ')
            return path.read_bytes()

    def test_edit_undo_redo_and_save(self) -> None:
        self.open(REAL)
        for _ in range(4):
            self.browser.key('ArrowDown')
        self.browser.key('e')
        self.browser.wait(f"document.querySelector('#edit-dialog').open && document.activeElement.id === 'edit-name' && {FILLED}")
        fields = "['what', 'place', 'name', 'as', 'argument'].map((name) => document.querySelector('#edit-' + name).value)"
        self.assertEqual(self.browser.js(fields), ['replace', '4', 'SHORT_BINUNICODE', 'value', "'DecisionTreeClassifier'"])
        self.browser.js("document.querySelector('#edit-argument').select()")
        self.browser.type('ExtraTreeClassifier')
        self.browser.key('Enter')
        self.browser.wait("document.querySelector('#edit-error').textContent.startsWith('this is no value as Python writes it')")
        self.browser.js("document.querySelector('#edit-argument').select()")
        self.browser.type("'ExtraTreeClassifier'")
        self.browser.key('Enter')
        self.edited('edited 4')
        argument = "document.querySelector('.row[data-place=\"4\"] .argument').textContent"
        self.browser.wait(f"{argument} === \"'ExtraTreeClassifier'\"")
        self.assertEqual(self.browser.js("document.querySelectorAll('.row.edited').length"), 1)
        self.browser.key('u')
        self.said('undone 4: replace SHORT_BINUNICODE at 4')
        self.browser.wait(f"{argument} === \"'DecisionTreeClassifier'\"")
        self.assertEqual(self.saved(), REAL.read_bytes())
        self.browser.key('r')
        self.said('redone 4')
        with Session(REAL) as session:
            session.replace(4, 'SHORT_BINUNICODE', 'ExtraTreeClassifier')
            self.assertEqual(self.saved(), session.bytes())

    def test_insert_delete_unframe_and_frame(self) -> None:
        self.open(REAL)
        self.edit('insert', 2, 'GLOBAL', "'builtins'")
        self.browser.wait("document.querySelector('#edit-error').textContent === \"two texts are wanted: 'module', 'name'\"")
        self.browser.js("document.querySelector('#edit-argument').focus()")
        self.browser.key('End')
        self.browser.type(", 'len'")
        self.browser.key('Enter')
        self.edited('edited 2')
        self.browser.wait("document.querySelector('.row.edited.import .argument')?.textContent === \"'builtins' 'len'→ builtins.len\"")
        with Session(REAL) as session:
            session.insert(2, 'GLOBAL', 'builtins', 'len')
            self.assertEqual(self.saved(), session.bytes())
            places = session.where().places
        self.edit('delete', 2)
        self.edited('edited 2')
        self.edit('unframe', 1)
        self.edited('edited 1')
        self.browser.wait("![...document.querySelectorAll('.row .name')].some((each) => each.textContent === 'FRAME')")
        self.edit('frame', 1, count=places - 3)
        self.edited('edited 1')
        self.browser.wait("document.querySelector('.row[data-place=\"1\"] .name').textContent === 'FRAME'")
        self.assertEqual(self.saved(), REAL.read_bytes())
        self.browser.key('ArrowDown')
        self.browser.key('e')
        self.browser.js('new Promise((done) => requestAnimationFrame(() => requestAnimationFrame(done)))')
        self.browser.key('Enter')  # (the field that has the focus is seen: what is hidden loses it at the next frame)
        self.edited('edited 1')
        self.browser.wait("![...document.querySelectorAll('.row .name')].some((each) => each.textContent === 'FRAME')")

    def test_edits_behind_the_cursor_are_refused_in_words(self) -> None:
        self.open(b'NN0.')
        self.press('End', 4)
        self.browser.key('Home')
        self.at(0)
        self.press('ArrowRight', 1)
        self.browser.key('ArrowUp')
        self.browser.key('Delete')
        self.said('refused: ')
        self.assertTrue(self.browser.js("document.querySelector('#said').classList.contains('failed')"))

    def test_the_page_that_leads_to_the_address(self) -> None:
        viewer = self.open(b'N.')
        self.browser.go('about:blank')
        with _leading_to(viewer.address) as path:
            self.assertEqual(path.parent.stat().st_mode & 0o077, 0)
            self.browser.go(path.as_uri())
            self.browser.wait(READY)
            self.assertEqual(self.browser.js('location.href'), viewer.address)
        self.assertFalse(path.parent.exists())

    def test_the_bar_is_dragged(self) -> None:
        self.open(REAL)
        left, width, y = self.browser.js("(() => { const r = document.querySelector('#bar').getBoundingClientRect();"
                                         'return [r.left, r.width, r.top + r.height / 2]; })()')
        self.browser.mouse('mousePressed', left + 8, y)
        for part in (0.25, 0.5):
            self.browser.mouse('mouseMoved', left + part * width, y)
            self.browser.wait(f"Math.abs(parseInt(document.querySelector('#where').textContent.slice(3)) - {part * 353}) < 9")
        self.browser.mouse('mouseReleased', left + width / 2, y)
        place = int(self.browser.js("document.querySelector('#bar').value"))
        self.press('ArrowLeft', place - 1)
        self.browser.wait(f"document.querySelector('.row[data-place=\"{place - 1}\"]')?.classList.contains('selected')")

    def test_light_and_dark_colours(self) -> None:
        self.addCleanup(self.browser.scheme, 'light')
        self.open(REAL)
        self.press('n', 9)
        self.press('ArrowRight', 10)
        backgrounds = []
        for scheme in ('light', 'dark'):
            self.browser.scheme(scheme)
            contrasts = self.browser.js(CONTRASTS)
            self.assertGreater(len(contrasts), 60)
            self.assertEqual([each for each in contrasts if each[1] < 4.5], [])
            backgrounds.append(self.browser.js('getComputedStyle(document.body).backgroundColor'))
        self.assertEqual(backgrounds, ['rgb(255, 255, 255)', 'rgb(20, 24, 31)'])

    def test_bytes_after_stop_are_read_on(self) -> None:
        self.open(b'N.' + SYSTEM)
        self.assertIn(f'kept: {len(SYSTEM)} bytes after STOP', self.texts('#closing')[0])
        self.browser.click('#read-on')
        self.browser.wait("document.querySelector('#where').textContent.startsWith('at 0 of 8')")
        self.assertNotIn('kept', self.texts('#closing')[0])
        self.assertTrue(self.browser.js("document.querySelector('#read-on').hidden"))
        self.press('n', 6)

    def test_the_keyboard_and_a_screen_reader(self) -> None:
        self.open(REAL)
        self.browser.key('?')
        self.browser.wait("document.querySelector('#help-dialog').open")
        self.browser.js("document.querySelector('#help-dialog').close()")
        unnamed = self.browser.js('''[...document.querySelectorAll('button, input, select')].filter((each) => !each.textContent.trim() &&
            !each.labels?.length && !each.getAttribute('aria-label') && !each.getAttribute('aria-labelledby')).map((each) => each.id)''')
        self.assertEqual(unnamed, [])
        self.browser.js("document.querySelector('#listing').focus()")
        self.browser.key('ArrowDown')
        self.browser.wait("document.querySelector('#' + document.querySelector('#listing').getAttribute('aria-activedescendant'))"
                          ".dataset.place === '1'")
        self.press('Enter', 1)
        nodes = self.browser.call('Accessibility.getFullAXTree')['nodes']
        roles = {node['role']['value']: node.get('name', {}).get('value', '') for node in nodes if not node['ignored']}
        for role in ('listbox', 'option', 'toolbar', 'slider', 'searchbox', 'tree', 'status', 'heading', 'main'):
            self.assertIn(role, roles)
        self.assertEqual((roles['listbox'], roles['tree'], roles['slider']), ('Opcodes', 'Objects', 'Place in the pickle'))

    def test_where_the_bytes_go(self) -> None:
        """A rectangle of each object, which keys and a click reach, and which leads to the opcode."""
        self.addCleanup(self.browser.scheme, 'light')
        self.open(REAL)
        offsets = [at for _, _, at in pickletools.genops(REAL.read_bytes())]
        said = {f'{each.path}: {each.kind}, {each.size:,} bytes': offsets.index(each.offset) for each in picklestep.size(REAL, most=1000).paths}
        self.browser.key('z')
        self.browser.wait("document.activeElement.getAttribute('role') === 'treeitem'")
        titles = self.texts('#sizes [data-place] > title')
        self.assertEqual([title for title in titles if title not in said], [])
        self.assertGreater(len(titles), 30)
        label = "document.activeElement.getAttribute('aria-label')"
        self.browser.key('End')
        self.browser.key('Home')
        self.assertEqual(self.browser.js(label), titles[0])
        self.browser.key('ArrowRight')
        self.assertEqual(self.browser.js(label), titles[1])
        self.browser.key('ArrowLeft')
        self.assertEqual(self.browser.js(label), titles[0])
        for scheme in ('light', 'dark'):
            self.browser.scheme(scheme)
            self.assertEqual([self.browser.js(ACCESSIBILITY), [each for each in self.browser.js(CONTRASTS) if each[1] < 4.5]], [[], []])
        self.browser.key('ArrowRight')
        self.browser.key('Enter')
        self.browser.wait(f"document.querySelector('.row.selected')?.dataset.place === '{said[titles[1]]}'")
        self.assertEqual(self.browser.js("[document.querySelector('#sizes-dialog').open, document.activeElement.id]"), [False, 'listing'])
        self.browser.click('#measure')
        self.browser.wait("document.activeElement.getAttribute('role') === 'treeitem'")
        leaf = self.texts('#sizes [data-place]:not(:has(g)) > title')[0]
        self.browser.click('#sizes [data-place]:not(:has(g)) > rect')
        self.browser.wait(f"document.querySelector('.row.selected')?.dataset.place === '{said[leaf]}'")

    def test_sizes_of_what_is_hostile_or_long(self) -> None:
        self.open(pickle.dumps({HOSTILE_NAME: ['</title><script>document.title=1</script>' * 9, b'x' * 900]}, 4))
        self.browser.key('z')
        self.browser.wait("document.querySelectorAll('#sizes rect').length > 3")
        self.assertIn(HOSTILE_NAME, self.browser.js("document.querySelector('#sizes').textContent"))
        self.assertEqual(self.browser.js("document.querySelectorAll('#sizes :not(svg, g, title, rect, text)').length"), 0)
        self.browser.key('Escape')
        self.browser.js('void (view.state.places = 1_000_001)')
        self.browser.key('z')
        self.browser.wait("document.querySelector('#sizes-said').textContent.startsWith('Too long')")
        self.browser.key('Escape')

    def test_the_page_of_its_own(self) -> None:
        with tempfile.TemporaryDirectory() as folder:
            source, out = Path(folder) / 'a.pickle', Path(folder) / 'out.html'
            source.write_bytes(HOSTILE)
            self.assertEqual(main([str(source), '--export', str(out)]), 0)
            self.browser.told.clear()
            self.browser.go(out.as_uri())
            self.browser.wait("document.querySelectorAll('#objects tbody tr').length === 4")
            self.assertEqual(self.browser.js("document.querySelectorAll('img, b, script').length"), 0)
            self.assertIn(f"'{HOSTILE_NAME}' '<b>&amp;'", self.texts('#listing td'))
            self.assertNotEqual(self.browser.js("getComputedStyle(document.querySelector('tr.call')).backgroundColor"), 'rgba(0, 0, 0, 0)')
            self.assertEqual(self.browser.errors(), [])

    def edit_and_undo(self) -> None:
        """Puts an opcode at the start, and takes the edit back."""
        self.press('Home', 0)
        self.edit('insert', 0, 'MARK')
        self.edited('edited 0')
        self.browser.wait("document.querySelector('.row.edited .name')?.textContent === 'MARK'")
        self.browser.key('u')
        self.said('undone 0')
        self.browser.wait("!document.querySelector('.row.edited')")

    def page_seconds(self) -> float:
        """How long the page kept a processor busy until now."""
        metrics = self.browser.call('Performance.getMetrics')['metrics']
        return float(next(metric['value'] for metric in metrics if metric['name'] == 'ThreadTime'))

    def test_a_million_opcodes(self) -> None:
        self.open(b'\x80\x04](' + b'K\x01' * 1_000_000 + b'e.')
        self.browser.wait('!view.state.part')
        self.assertLess(self.browser.js("document.querySelectorAll('.row').length"), 60)
        self.browser.call('Performance.enable', timeDomain='threadTicks')
        before = self.page_seconds()
        # (the tenth fastest of a hundred frames: other work on the machine makes many of them slow, and much work all)
        fastest = self.browser.js('''(async () => {
            const times = [];
            for (let turn = 0; turn < 100; turn += 1) {
                const begun = performance.now();
                document.querySelector('#listing').dispatchEvent(new WheelEvent('wheel', { deltaY: 3000, cancelable: true }));
                await new Promise(requestAnimationFrame);
                times.push(performance.now() - begun);
            }
            return times.sort((left, right) => left - right)[10]; })()''')
        self.assertLess(fastest, 50 if os.getloadavg()[0] < (os.cpu_count() or 1) / 2 else 250)
        self.assertLess((self.page_seconds() - before) / 100, 0.03)
        self.browser.wait("Number(document.querySelector('.row').dataset.place) >= 14000")
        self.browser.wait("![...document.querySelectorAll('.row:not([hidden]) .name')].some((each) => each.textContent === '..')")
        self.browser.js("(() => { const rail = document.querySelector('#rail'); rail.scrollTop = rail.scrollHeight; })()")
        self.browser.wait("[...document.querySelectorAll('.row:not([hidden]) .name')].some((each) => each.textContent === 'STOP')")
        self.press('End', 1_000_006 - 1)
        self.press('ArrowLeft', 1_000_004)
        self.browser.js("""(() => { window.told = []; const said = document.querySelector('#said');
            new MutationObserver(() => window.told.push(said.textContent)).observe(said, { childList: true }); })()""")
        self.edit_and_undo()
        told = self.browser.js('window.told')
        done = [told.index(text) for text in ('edited 0', 'undone 0: insert MARK at 0')]
        self.assertEqual(['working ..' in told[:done[0]], 'working ..' in told[done[0]:done[1]]], [True, True])

    @unittest.skipUnless(os.environ.get('PICKLESTEP_LARGE'), 'PICKLESTEP_LARGE is not set')
    def test_200_megabytes(self) -> None:
        begun = time.monotonic()
        self.open(pickle.dumps([os.urandom(100_000_000), 'x' * 100_000_000, list(range(1000))], 4))
        print(f'the first page of 200 MB came after {time.monotonic() - begun:.1f} s')
        begun = time.monotonic()
        self.press('ArrowRight', 1)
        self.press('End', 1015)
        self.press('ArrowLeft', 1014)
        print(f'three moves took {time.monotonic() - begun:.1f} s')
        begun = time.monotonic()
        self.edit_and_undo()
        print(f'an edit and its undo took {time.monotonic() - begun:.1f} s')


if __name__ == '__main__':
    unittest.main()
