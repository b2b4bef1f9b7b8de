"""The page without a server, dist/picklestep.html: it shows what a session says, opens what people have, and asks nobody."""

from __future__ import annotations

import ast
import base64
import contextlib
import gzip
import hashlib
import io
import json
import pickle
import pickletools
import subprocess
import sys
import tarfile
import tempfile
import threading
import time
import unittest
import zipfile
from pathlib import Path
from typing import Any, Dict, Iterator, List, Tuple, Union

import firefox
from chromium import ACCESSIBILITY, CONTRASTS, FILLED, FOCUS_LINE, PROGRAM, READY, SEEN, SETTLED, Browser
from pickles import REAL, ROOT, known_opcodes, real_pickles
from picklestep.python_source import source
from picklestep import Ref, Session
from picklestep.view.server import Served, Viewer

PAGE = ROOT / 'dist' / 'picklestep.html'
MODELS = Path(__file__).resolve().parent / 'data' / 'models'
SYSTEM = b'cposix\nsystem\n(X\x02\x00\x00\x00idtR.'
# Of all real pickles of the repository every so many, with those of libraries: twenty.
SHOWN = [*REAL[::max(1, len(REAL) // 15)][:15], *sorted(MODELS.glob('sklearn_*.pkl'))[:5]]
HOSTILE = ['</script><img src=x onerror="document.title=1">', '<b>bold</b>', '\u202eevil', '\u05d0\u05d1', '\x1b[31m\r\n', '\u200b\ufeff\u2028', '\0']
HOSTILE_NAMES = b''.join(b'c%s\n%s\n0' % (text.encode('utf-8').replace(b'\n', b' '), b'<i>x</i>') for text in HOSTILE)
UNKNOWN = 'what the rest imports and calls is not known'
# What begins with a sharp is clicked, with an equals sign in it it is written there; a key behind `>` is pressed where the focus is, the others in the
# listing.
KEYS = ['n', '#tab-result', 'ArrowRight', 'p', 'ArrowDown', 'b', ' ', 'End', '#objects .thing', '#result .thing', 'Home', 'Delete', 'u', 'r',
        '#read-on:not([hidden])']
OTHER_KEYS = ['PageDown', 'PageDown', 'PageUp', 'ArrowUp', 'Enter', 'ArrowLeft', '#bar=3', '#there', 'w', 'w', '/', '#sought=MARK', '>Enter', '>Enter',
              '>Escape', '?', '#help-dialog .close', 's', '#save-dialog .close', 'Home', 'ArrowDown', 'e', '>Enter', 'u', 'e', '#edit-what=insert',
              '#edit-name=EMPTY_LIST', '>Enter', 'u', 'e', '#edit-what=frame', '#edit-count=2', '>Enter', '#edit-dialog .close', 'e', '#edit-what=unframe',
              '#edit-place=1', '>Enter', '#edit-dialog .close', 'e', '#edit-as=hex', '#edit-argument=zz', '>Enter', '#edit-dialog .close', 'r']


def with_memory(module: bytes, pages: int) -> bytes:
    """A module whose memory cannot grow beyond so many pages."""
    at = 8
    while module[at] != _MEMORY:
        size, at = _number_at(module, at + 1)
        at += size
    size, body = _number_at(module, at + 1)
    least, _ = _number_at(module, body + 2)
    limits = b'\1\1' + _number(least) + _number(max(least, pages))
    return module[:at] + bytes([_MEMORY, len(limits)]) + limits + module[body + size:]


_MEMORY = 5  # (the section of a module that says how much memory it has)


def _number_at(module: bytes, at: int) -> Tuple[int, int]:
    """A number of seven bits a byte, the lowest first, and where it ends."""
    number = shift = 0
    while module[at] > 127:
        number |= (module[at] & 127) << shift
        at, shift = at + 1, shift + 7
    return number | module[at] << shift, at + 1


def _number(number: int) -> bytes:
    return b''.join(bytes([number >> shift & 127 | (128 if number >> shift > 127 else 0)]) for shift in range(0, max(1, number.bit_length()), 7))


class Driven(unittest.TestCase):
    """The page from a file, in a browser that all tests of a class use one after another."""

    browser: Union[Browser, firefox.Firefox]

    def setUp(self) -> None:
        held = tempfile.TemporaryDirectory()
        self.addCleanup(held.cleanup)
        self.folder = Path(held.name)

    def load(self) -> None:
        """Opens the page, without a pickle."""
        self.browser.told.clear()
        self.browser.size(1200, 800)
        self.browser.go(PAGE.as_uri())
        self.browser.wait(READY)

    def choose(self, path: Path) -> None:
        """Chooses a file, as the button does."""
        self.browser.choose('#file', path)

    def give(self, path: Path) -> None:
        """Chooses a file, and waits until it is shown."""
        self.browser.js("void (showPane('objects'), view.state = null)")
        self.choose(path)
        self.browser.wait('view.state !== null')
        self.browser.js(SETTLED)

    def file(self, name: str, data: bytes) -> Path:
        path = self.folder / name
        path.write_bytes(data)
        return path

    def texts(self, selector: str) -> List[str]:
        found: List[str] = self.browser.js(f'[...document.querySelectorAll({json.dumps(selector)})].map((each) => each.textContent)')
        return found

    def said(self, text: str) -> None:
        self.browser.wait(f"document.querySelector('#said').textContent.startsWith({json.dumps(text)})")

    def requests(self) -> List[str]:
        """What the browser asked for: the page itself and its worker are not counted."""
        return [url for url in self.browser.requested() if url != PAGE.as_uri() and not url.startswith(('blob:null/', 'data:image/svg+xml;base64,'))]

    def drive(self, keys: List[str]) -> List[Dict[str, Any]]:
        """What is seen after each key. No frame of the screen is waited for."""
        self.browser.js('void (window.requestAnimationFrame = (draw) => setTimeout(draw))')
        seen = [self.browser.js(f'{SETTLED}.then(() => {SEEN})')]
        for key in keys:
            if key[0] == '#' and '=' in key:
                field, _, value = key.partition('=')
                self.browser.js(f'(() => {{ const field = document.querySelector({json.dumps(field)}); field.value = {json.dumps(value)};'
                                "for (const name of ['input', 'change']) field.dispatchEvent(new Event(name)); field.focus(); })()")
            elif key[0] == '#':
                self.browser.js(f'document.querySelector({json.dumps(key)})?.click()')
            else:
                if key[0] != '>':
                    self.browser.js("document.querySelector('#listing').focus()")
                self.browser.key(key.lstrip('>'))
            seen.append(self.browser.js(f'{SETTLED}.then(() => {SEEN})'))
        return seen

    @contextlib.contextmanager
    def served(self, path: Path) -> Iterator[None]:
        """Opens a pickle in the page with a server."""
        viewer = Viewer(Served(path, path.name))
        thread = threading.Thread(target=viewer.serve, daemon=True)
        thread.start()
        try:
            self.browser.go(viewer.address)
            self.browser.wait("document.querySelector('#where')?.textContent.startsWith('at ')")
            self.browser.js(SETTLED)
            yield
        finally:
            self.browser.go('about:blank')
            viewer.stop()
            thread.join()
            viewer.__exit__()

    def compare(self, paths: List[Path]) -> None:
        """Drives the page over pickles, in a small window: fewer rows are drawn. Every fourth gets all keys. What is seen is what a session says."""
        self.load()
        for at, path in enumerate(paths):
            self.browser.size(900, 500)
            self.give(path)
            opcodes = [(offset, opcode.name) for opcode, _, offset in known(path.read_bytes())]
            keys = KEYS if at % 4 else KEYS + OTHER_KEYS
            with Session(path) as session:
                for pressed, seen in enumerate(self.drive(keys)):
                    if pressed <= KEYS.index('Delete'):
                        self.same(seen, session, opcodes, f'{path.name} after {keys[:pressed]}')
        self.assertEqual((self.requests(), self.browser.errors()), ([], []))

    def same(self, seen: Dict[str, Any], session: Session, opcodes: List[Tuple[int, str]], what: str) -> None:
        """Compares what is seen with the session at the place, and the rows with the opcodes as far as these are known."""
        place = int(seen['#where'][0].split()[1])
        session.goto(place)
        where = session.where()
        results = ''.join(f' #{number}' for number in where.results)
        self.assertEqual(seen['#where'], [f'at {place} of {where.places}, offset {where.offset}, end {where.end.text}{results and ", result" + results}'], what)
        stack = [f'#{each.number}' if isinstance(each, Ref) else f'mark, set by the opcode at place {each.place}' for each in reversed(session.stack())]
        shown = [text if text.startswith('mark') else text.partition(' ')[0] for text in seen['#stack li']]
        self.assertEqual(shown, stack[:500] + ([f'{len(stack) - 500}'] if len(stack) > 500 else []) if stack else ['empty'], what)
        memo = [f'{key} = #{number}' for key, number in session.memo().items()]
        self.assertEqual([' '.join(text.split()[:3]) for text in seen['#memo li']][-500:], memo[-500:] if memo else ['empty'], what)
        self.assertEqual(len(seen['#objects .thing']) - len(seen['#objects .inner .thing']), min(200, len(session.objects())), what)
        for row, (_, label, _) in seen['rows'].items():
            if int(row) < min(len(opcodes), where.places):
                self.assertIn('{}, {}'.format(*opcodes[int(row)]), label, f'{what}: row {row}')


def known(data: bytes) -> Iterator[Tuple[Any, Any, int]]:
    """The opcodes of a pickle, as far as pickletools reads them."""
    with contextlib.suppress(ValueError):
        yield from pickletools.genops(data)


@unittest.skipIf(PROGRAM is None, "there is no Chromium: Debian's chromium has it")
class InChromium(Driven):
    """The page in Chromium, which says what it asks for."""

    browser: Browser

    @classmethod
    def setUpClass(cls) -> None:
        cls.browser = Browser(1200, 800)
        cls.browser.call('Network.enable')
        cls.addClassCleanup(cls.browser.close)


@unittest.skipIf(firefox.PROGRAM is None, "there is no Firefox: Debian's firefox-esr has it")
class InFirefox(Driven):
    """The real pickles in another browser."""

    @classmethod
    def setUpClass(cls) -> None:
        cls.browser = firefox.Firefox(1200, 800)
        cls.addClassCleanup(cls.browser.close)

    def test_real_pickles(self) -> None:
        self.compare(SHOWN)


class Alone(InChromium):
    """What is opened, shown, taught, edited and saved."""

    def test_twenty_real_pickles(self) -> None:
        self.assertEqual(len(SHOWN), 20)
        self.compare(SHOWN)

    def test_several_pickles_and_objects_of_buffers(self) -> None:
        self.compare([self.file('two.pickle', b'NN(N.' + SYSTEM), self.file('views.pickle', b'C\x01a\x98\x97\x98\x98N\x87.')])

    # --- What is opened ---

    def paste(self, text: str) -> None:
        self.browser.key('v')
        self.browser.wait("document.querySelector('#paste-dialog').open")
        self.browser.js("document.querySelector('#pasted').select()")
        self.browser.type(text)
        self.browser.click('#paste-form button[type=submit]')

    def pasted(self, text: str, places: int) -> None:
        self.browser.js('void (view.state = null)')
        self.paste(text)
        self.browser.wait(f"document.querySelector('#where').textContent.startsWith('at 0 of {places},')")
        self.browser.js(SETTLED)

    def test_pasting(self) -> None:
        self.load()
        texts = [SYSTEM.hex(), SYSTEM.hex().upper(), ' '.join(f'0x{byte:02x},' for byte in SYSTEM), ''.join(f'\\x{byte:02x}' for byte in SYSTEM),
                 base64.b64encode(SYSTEM).decode('ascii'), base64.urlsafe_b64encode(SYSTEM + b'\xff\xfe').decode('ascii')]
        for text in texts:
            self.pasted(text, 6)
            self.assertEqual(self.texts('.row .reach')[:5], ['→ posix.system', '', '', '', "→ posix.system('id')"])
        self.paste('no pickle!')
        self.browser.wait("document.querySelector('#paste-error').textContent === 'this is neither hexadecimal nor base64'")
        self.assertEqual(self.browser.errors(), [])

    def test_dropping(self) -> None:
        self.load()
        path = self.file('dropped.pickle', SYSTEM)
        data = {'items': [], 'files': [str(path)], 'dragOperationsMask': 1}
        for kind in ('dragEnter', 'dragOver', 'drop'):
            self.browser.call('Input.dispatchDragEvent', type=kind, x=300, y=300, data=data)
        self.browser.wait("document.querySelector('#where').textContent.startsWith('at 0 of 6,')")
        self.assertEqual(self.texts('#name'), ['dropped.pickle'])

    def members(self, path: Path) -> List[str]:
        """Chooses an archive, and answers what its members are."""
        self.load()
        self.choose(path)
        self.browser.wait("document.querySelector('#members-dialog').open")
        return self.texts('#members .thing')

    def test_containers(self) -> None:
        packed = io.BytesIO()
        with zipfile.ZipFile(packed, 'w') as archive:
            archive.writestr('model/data.pkl', SYSTEM, zipfile.ZIP_STORED)
            archive.writestr('model/', b'')
            archive.writestr('a \u202e name', SYSTEM * 9, zipfile.ZIP_DEFLATED)
            archive.writestr('inner.gz', gzip.compress(SYSTEM))
        path, behind = self.file('model.pt', packed.getvalue()), self.file('behind.zip', packed.getvalue() + b'more')
        shown = self.members(path)
        self.assertEqual(shown, ['model/data.pkl  25 bytes', 'a \\u202e name  225 bytes', f'inner.gz  {len(gzip.compress(SYSTEM))} bytes'])
        for number, name in ((0, 'model/data.pkl'), (1, 'a \\u202e name'), (2, 'inner')):
            if number:
                self.members(path)
            self.browser.js(f"document.querySelectorAll('#members .thing')[{number}].click()")
            self.browser.wait("document.querySelector('#where').textContent.startsWith('at 0 of 6,')")
            self.browser.js(SETTLED)
            self.assertEqual(self.texts('#name'), [name])
        self.members(path)
        self.browser.click('#as-pickle')
        self.browser.wait("document.querySelector('#closing').textContent.includes('begins like a container: a zip archive')")
        self.give(self.file('a.pickle.gz', gzip.compress(gzip.compress(SYSTEM))))
        self.assertEqual((self.texts('#name'), self.texts('#where')[0][:9]), (['a.pickle'], 'at 0 of 6'))
        packed = io.BytesIO()
        with tarfile.open(fileobj=packed, mode='w') as tar:
            member = tarfile.TarInfo('data.pkl')
            member.size = len(SYSTEM)
            tar.addfile(member, io.BytesIO(SYSTEM))
        path = self.file('b.tar', packed.getvalue())
        self.assertEqual(self.members(path), ['data.pkl  25 bytes'])
        self.browser.js("document.querySelector('#members .thing').click()")
        self.browser.wait("document.querySelector('#where').textContent.startsWith('at 0 of 6,')")
        self.browser.js(SETTLED)
        self.assertEqual(self.texts('#name'), ['data.pkl'])
        self.members(path)
        self.browser.click('#as-pickle')
        self.browser.wait("document.querySelector('#closing').textContent.includes('begins like a container: a tar archive')")
        # The checksum of this header is not right, and bytes stand behind this archive, so there is no member to show.
        self.assertEqual(self.members(behind), [])
        self.assertIn('picklestep scan looks at all of them (not in form: ', self.texts('#members-note')[0])
        self.assertEqual(self.members(self.file('c.tar', b'a'.ljust(257, b'\0') + b'ustar\x0000'.ljust(255, b'\0') + bytes(1024))), [])
        self.browser.click('#as-pickle')
        self.browser.wait("document.querySelector('#closing').textContent.includes('begins like a container: a tar archive')")
        self.assertEqual((self.requests(), self.browser.errors()), ([], []))

    def test_what_cannot_be_opened_is_said(self) -> None:
        self.load()
        self.choose(self.file('cut.gz', gzip.compress(SYSTEM)[:-12]))
        self.said('not done: a packed file that is not in form: ')
        self.give(self.file('empty.pickle', b''))
        self.assertIn('F1 ended at 0', self.texts('#where')[0])
        self.give(self.file('a.pickle', SYSTEM))
        self.choose(self.file('cut.gz', gzip.compress(SYSTEM)[:-12]))
        self.said('not done: ')
        self.browser.key('ArrowRight')  # (the pickle that was there is still there)
        self.browser.wait("document.querySelector('#where').textContent.startsWith('at 1 of 6')")
        self.assertEqual(self.browser.errors(), [])

    def test_a_key_that_is_held(self) -> None:
        self.load()
        self.pasted((b'N' * 50 + b'.').hex(), 51)
        self.browser.js('''{ const list = document.querySelector('#listing'); list.focus(); const key = 'ArrowRight';
            for (let at = 0; at < 30; at += 1) list.dispatchEvent(new KeyboardEvent('keydown', { key, repeat: at > 0, bubbles: true })); }''')
        self.browser.js(SETTLED)
        self.assertEqual(self.texts('#where')[0][:8], 'at 1 of ')

    def test_edit_and_save(self) -> None:
        self.browser.call('Browser.setDownloadBehavior', behavior='allow', downloadPath=str(self.folder))
        self.load()
        self.give(self.file('a.pickle', SYSTEM))
        self.browser.js('select(2)')
        self.browser.key('e')
        self.browser.wait(FILLED)
        self.assertEqual(self.browser.js("document.querySelector('#edit-argument').value"), "'id'")
        self.browser.js("document.querySelector('#edit-argument').select()")
        self.browser.type("'caf\\xe9'")
        self.browser.key('Enter')
        self.said('edited 2')
        self.browser.wait("!document.querySelector('#edit-dialog').open")
        self.browser.key('s')
        self.browser.wait("document.querySelector('#save-dialog').open")
        self.assertEqual(self.browser.js("document.querySelector('#save-name').value"), 'a.edited.pickle')
        self.browser.key('Enter')
        self.said('saved a.edited.pickle among your downloads')
        saved = self.folder / 'a.edited.pickle'
        for _ in range(200):
            if saved.exists() and saved.stat().st_size:
                break
            time.sleep(0.05)
        self.assertEqual(saved.read_bytes(), SYSTEM.replace(b'\x02\0\0\0id', b'\x05\0\0\0caf\xc3\xa9'))
        self.browser.key('u')
        self.said('undone 2: replace BINUNICODE at 2')
        self.assertEqual(self.requests(), [])

    def test_a_session_without_memory(self) -> None:
        """What the page shows stays as it was."""
        self.load()
        self.give(self.file('small.pickle', SYSTEM))
        self.limit_memory('library', 0)
        shown = self.browser.js(SEEN)['rows']
        self.choose(self.file('other.pickle', b'NN0.'))
        self.said('not done: out of memory')
        self.assertEqual(self.browser.js(SEEN)['rows'], shown)

    def test_worked_examples(self) -> None:
        self.load()
        examples = self.browser.js('EXAMPLES')
        self.assertEqual(len(examples), 6)
        for at, example in enumerate(examples):
            data = bytes.fromhex(example['hex'])
            places = len(list(pickletools.genops(data)))
            told = dict(example['text'])
            self.assertLessEqual(max(told), places)
            self.browser.js(f"{{ view.state = null; const list = document.querySelector('#example'); list.value = {at};"
                            "list.dispatchEvent(new Event('change')); }")
            self.browser.wait(f"document.querySelector('#where').textContent.startsWith('at 0 of {places},')")
            self.browser.js("document.querySelector('#listing').focus()")
            for place in range(places):
                self.browser.js(SETTLED)
                self.assertEqual(self.texts('#story'), [told[max(key for key in told if key <= place)]])
                self.browser.key('ArrowRight')
            self.browser.wait(f"document.querySelector('#where').textContent.startsWith('at {places} of ')")
        self.assertEqual(self.browser.errors(), [])

    def test_about_says_what_stands_on_the_stack_before_and_after(self) -> None:
        self.load()
        self.pasted((SYSTEM[:-1] + b']K\x07aq\x04h\x05.').hex(), 11)
        here = ['nothing → #0 posix.system', 'nothing → mark', "nothing → #1 text 'id'", "mark, #1 text 'id' → #2 tuple (#1)",
                "#0 posix.system, #2 tuple (#1) → #3 posix.system('id')", 'nothing → #4 list', 'nothing → #5 int 7', '#4 list, #5 int 7 → #4 list +#5',
                '#4 list +#5 → #4 list +#5, in the memo under 4', 'refused, C3 item 9: S3 no memo entry 5']
        for place, wanted in enumerate(here):
            self.browser.js(f'void go({place})')
            self.browser.js(SETTLED)
            self.assertEqual(self.texts('#opcode .effect')[1:], [f'here: {wanted}'])
        self.browser.js('void select(0)')
        self.browser.js(SETTLED)
        self.assertEqual(self.texts('#opcode .effect'), ['stack: nothing → what is imported'])
        self.assertEqual(self.browser.errors(), [])

    # --- Values ---

    def test_values_are_those_of_python(self) -> None:
        """What is typed for an argument is read by Python as the value that `pickletools` reads of the bytes, and gives the same bytes."""
        self.load()
        floats = [0.0, -0.0, 0.1, 1e16, 1e15, 123456789012345680.0, 1e22, 1e-4, 1e-5, 5e-324, 1.7976931348623157e308, float('inf'), 2 / 3]
        self.assertEqual(self.browser.js(f'{json.dumps(floats[:-2])}.map(pythonFloat)'), [repr(value) for value in floats[:-2]])
        forms = {opcode.name: opcode.arg.name for opcode in pickletools.opcodes if opcode.arg is not None}
        known = {(forms[each.name], each.raw, repr(each.value)) for data in real_pickles().values() for each in known_opcodes(data)
                 if each.name in forms and len(each.raw) < 2000}
        asked = sorted(known)
        typed = self.browser.js(f'{json.dumps([(form, raw.hex()) for form, raw, _ in asked])}.map(([form, raw]) => typedOf(form, raw))')
        lines = ('stringnl', 'stringnl_noescape', 'string1', 'string4', 'unicodestringnl', 'stringnl_noescape_pair', 'decimalnl_short')
        read = 0
        for (form, raw, value), text in zip(asked, typed):
            if text is not None and form not in lines and text not in ('inf', '-inf', 'nan'):
                wanted = repr(bytes(ast.literal_eval(value[10:-1]))) if form == 'bytearray8' else value
                self.assertEqual(repr(ast.literal_eval(text)), wanted, (form, raw))
                read += 1
        self.assertGreater(read, 500)
        self.assertGreater(sum(text is not None for text in typed), 0.98 * len(typed))

    def test_numbers_are_found(self) -> None:
        """In each form in which an opcode may hold them."""
        values = [-7, 1.5, 70_000, 3, -(1 << 40), 1 << 70]
        data = pickle.dumps([*values, b'x'], 4)
        self.load()
        self.give(self.file('numbers.pickle', data))
        places = {value: place for place, (opcode, value, _) in enumerate(pickletools.genops(data)) if 'INT' in opcode.name or opcode.name in ('LONG1', 'BINFLOAT')}
        for value in values[:3] + values[4:]:
            self.browser.js(f'void find({json.dumps(str(value))})')
            self.said(f'found at place {places[value]}')

    def test_what_is_no_value_is_said(self) -> None:
        self.load()
        for form, text, said in (('uint1', '256', 'a whole number from 0 to 255 is wanted'), ('unicodestring1', 'abc', 'this is no value as Python'),
                                 ('stringnl_noescape_pair', "'os'", "two texts are wanted: 'module', 'name'"),
                                 ('bytes1', "b'" + 256 * 'a' + "'", 'at most 255 bytes'),
                                 ('stringnl_noescape', r"'a\nb'", 'a line cannot hold a newline'),
                                 ('float8', "'a'", 'a number is wanted'), ('unicodestring4', r"'\x1'", 'an escape in it is not whole')):
            answer = self.browser.js(f'(() => {{ try {{ return argumentOf({json.dumps(form)}, {json.dumps(text)}, false); }}'
                                     'catch (error) { return error.message; } })()')
            self.assertTrue(answer.startswith(said), (form, text, answer))

    # --- For everybody ---

    def test_contrast_names_and_width(self) -> None:
        self.addCleanup(self.browser.scheme, 'light')
        self.load()
        for opened in (False, True):
            if opened:
                self.give(MODELS / 'sklearn_tree.pkl')
                self.browser.key('End')
                self.browser.js(SETTLED)
                self.browser.js("document.querySelector('#result .thing').click()")
            for scheme in ('light', 'dark'):
                self.browser.scheme(scheme)
                for pane in ('objects', 'reached', 'result'):
                    self.browser.js(f"showPane('{pane}')")
                    self.assertEqual([each for each in self.browser.js(CONTRASTS) if each[1] < 4.5], [])
                    self.assertEqual(self.browser.js(ACCESSIBILITY), [])
                for dialog in ('paste', 'edit', 'save', 'help'):
                    self.browser.js(f"document.querySelector('#{dialog}-dialog').showModal()")
                    self.assertEqual([each for each in self.browser.js(CONTRASTS) if each[1] < 4.5], [])
                    self.assertEqual(self.browser.js(ACCESSIBILITY), [])
                    self.browser.js(f"document.querySelector('#{dialog}-dialog').close()")
            for width in (1200, 600, 320):
                self.browser.size(width, 800)
                self.assertLessEqual(self.browser.js('document.documentElement.scrollWidth'), width)
                self.assertEqual((self.browser.js(ACCESSIBILITY), self.browser.js('scrollY')), ([], 0))
            self.browser.size(1200, 800)

    def test_slow_steps(self) -> None:
        self.load()
        self.pasted(SYSTEM.hex(), 6)
        self.browser.js("document.querySelector('#listing').focus()")
        for key in ('ArrowRight', 'ArrowRight', 'ArrowRight', 'ArrowRight', 'w'):
            self.browser.key(key)
            self.browser.js(SETTLED)
        self.browser.key('ArrowRight')
        self.browser.wait("document.querySelectorAll('.flying').length === 2")
        self.assertEqual(self.texts('.flying .number'), ['#2', '#0'])
        self.browser.key('ArrowRight')  # (while it is shown, no other step is made)
        self.browser.wait("document.querySelectorAll('.flying').length === 0")
        self.assertEqual(self.texts('#where')[0][:9], 'at 5 of 6')

    def test_the_line_around_the_focus_is_whole(self) -> None:
        """On all sides, for all that Tab reaches, at each width."""
        self.load()
        self.pasted(SYSTEM.hex(), 6)
        self.browser.js("void go(6)")
        self.browser.js(SETTLED)
        for width in (1200, 320):
            self.browser.size(width, 800)
            for pane in ('objects', 'reached', 'result'):
                self.browser.js(f"showPane('{pane}')")
                self.browser.js(SETTLED)
                self.browser.key('Tab')
                self.browser.js("document.querySelector('#listing').focus()")
                reached = []
                for _ in range(40):
                    reached.append(self.browser.js(FOCUS_LINE))
                    self.browser.key('Tab')
                reached = [each for each in reached if not each[0].startswith('BODY ')]
                self.assertEqual([each for each in reached if each[1] < 2 or each[2] > 0.5], [], (width, pane))
                self.assertGreater(len({each[0] for each in reached}), 8)

    def test_long_stack_and_memo(self) -> None:
        self.load()
        self.pasted((b''.join(b'Nr' + at.to_bytes(4, 'little') for at in range(600)) + b'.').hex(), 1201)
        self.browser.js('void go(1200)')
        self.browser.js(SETTLED)
        stack, memo = self.texts('#stack li'), self.texts('#memo li')
        self.assertEqual((len(stack), stack[0], stack[-2:]), (501, '#599 none', ['#100 none', '100 more below']))
        self.assertEqual((len(memo), memo[:2], memo[-1]), (501, ['100 more before', '100 = #100 none'], '599 = #599 none'))

    def test_a_finger(self) -> None:
        """It selects a line, goes there, sets a breakpoint, and moves the lines."""
        self.browser.call('Emulation.setTouchEmulationEnabled', enabled=True)
        self.addCleanup(self.browser.call, 'Emulation.setTouchEmulationEnabled', enabled=False)
        self.load()
        self.browser.size(320, 800)
        self.pasted((b'N' * 50 + b'.').hex(), 51)
        self.browser.tap('.row[data-place="4"] .name')
        self.browser.wait("document.querySelector('.row.selected').dataset.place === '4'")
        self.browser.tap('#there')
        self.browser.wait("document.querySelector('#where').textContent.startsWith('at 4 of 51')")
        self.browser.tap('.row[data-place="6"] .offset')
        self.browser.wait("document.querySelector('.row[data-place=\"6\"]').classList.contains('broken')")
        self.browser.drag_finger('.row[data-place="6"] .name', -80)
        self.browser.wait('view.top > 2')

    # --- What is hostile stays text ---

    def test_hostile_texts_stay_text(self) -> None:
        """On both pages."""
        path = self.file('<img src=x>\u202e\x1b.pickle', b'\x80\x04' + HOSTILE_NAMES + pickle.dumps(HOSTILE, 4)[2:])
        self.browser.told.clear()
        with self.served(path):
            self.hostile_texts_stay_text()
            self.assertEqual(self.browser.errors(), [])
        self.load()
        self.give(path)
        self.hostile_texts_stay_text()
        self.assertEqual((self.requests(), self.browser.errors()), ([], []))

    def hostile_texts_stay_text(self) -> None:
        shown = [repr(text) if text != '\u05d0\u05d1' else r"'\u05d0\u05d1'" for text in HOSTILE]
        self.browser.key('End')
        self.browser.js(SETTLED)
        values = self.texts('.row .value')
        for text in shown:
            self.assertIn(text, values)
        objects = self.texts('#objects .thing')
        for text in shown:
            self.assertTrue(any(each.endswith(f'text {text}') for each in objects), text)
        self.browser.js("showPane('result')")
        self.browser.js(SETTLED)
        for text in shown[1:]:
            self.assertIn(text, self.texts('#source')[0])
        self.browser.click('#tab-reached')
        everything = self.browser.js('document.body.innerText + document.title + document.querySelector("#source").textContent + '
                                     '[...document.querySelectorAll("[title], [aria-label]")].map((each) => each.title + each.ariaLabel)')
        self.assertNotRegex(everything, '[\u0590-\u08ff\u200b-\u200f\u202a-\u202e\u2028\u2066-\u2069\ufeff\x1b\0]')
        self.assertEqual(self.browser.js("document.querySelectorAll('img, b, i').length"), 0)
        self.assertEqual(self.texts('#name'), ['<img src=x>\\u202e\\x1b.pickle'])

    def test_the_policy_lets_nothing_out(self) -> None:
        self.load()
        image = """new Promise((done, fail) => { const image = new Image(); image.onload = done; image.onerror = () => fail(new Error('no'));
            image.src = 'http://127.0.0.1:9/x.png'; })"""
        script = """new Promise((done, fail) => { const made = document.createElement('script'); made.textContent = 'window.ran = 1';
            document.body.append(made); fail(new Error(String(window.ran))); })"""
        for attempt in ("fetch('http://127.0.0.1:9/')", image, script):
            self.assertRegex(str(self.browser.js(f'({attempt}).then(() => "done", (error) => "refused: " + error.message)')), '^refused: ')
        self.assertEqual(self.browser.js('window.ran'), None)

    def hold_the_rest(self) -> None:
        """The page reads what is after the first opcodes no sooner than `mayRead()` is called."""
        self.browser.js("""{ const rest = readRest; const may = new Promise((go) => { window.mayRead = go; });
            readRest = async () => { await may; await rest(); }; }""")

    def test_many_opcodes(self) -> None:
        """Of a list of 5 MB the first opcodes are there at once, to step through. When all are read, the page is where it was."""
        self.load()
        self.browser.js("""{ window.said = []; const rest = document.querySelector('#rest');
            new MutationObserver(() => window.said.push(rest.textContent)).observe(rest, { childList: true }); }""")
        self.hold_the_rest()
        self.choose(self.file('large.pickle', b'\x80\x04](' + b'K\x01' * 2_500_000 + b'e.'))
        self.browser.wait("document.querySelector('#where').textContent === 'at 0 of 300000, offset 0, end not read yet'")
        self.assertEqual(self.texts('#closing'), ['the first 300,000 opcodes: the rest is not read'])
        self.assertEqual(self.texts('#reached'), [f'imports 0 of 0, calls 0 of 0 in this part: {UNKNOWN} yet'])
        self.assertEqual(self.texts('#reaches li'), [f'{UNKNOWN} yet'])
        self.browser.key('ArrowRight')
        self.browser.wait("document.querySelector('#where').textContent.startsWith('at 1 of 300000,')")
        self.browser.js("toggle(7)")
        self.browser.js("select(9)")
        self.browser.key('Delete')
        self.said('edited 9')
        self.browser.wait("document.querySelector('#where').textContent.startsWith('at 1 of 299999,')")
        self.browser.js('void mayRead()')
        self.browser.wait("document.querySelector('#where').textContent.startsWith('at 1 of 2500004,')")
        self.assertTrue(any(text.startswith('The rest is being read: list: ') for text in self.browser.js('window.said')))
        self.assertEqual((self.texts('#rest'), self.texts('#said')), ([''], ['all is read']))
        self.browser.key('u')
        self.said('undone 9: delete at 9')
        self.browser.wait("document.querySelector('#where').textContent.startsWith('at 1 of 2500005,')")
        self.browser.key(' ')
        self.browser.wait("document.querySelector('#where').textContent.startsWith('at 7 of 2500005,')")
        self.browser.key('End')
        self.browser.wait("document.querySelector('#where').textContent.startsWith('at 2500005 of 2500005,')")
        self.assertEqual((self.requests(), self.browser.errors()), ([], []))

    def test_more_opcodes_than_are_read(self) -> None:
        """It says what it shows, what all of it imports and calls, and another pickle opens as before."""
        self.load()
        self.give(self.file('larger.pickle', SYSTEM[:-1] + b'(' + b'N' * 16_100_000 + b'1' + SYSTEM))
        self.browser.wait("document.querySelector('#reached').textContent === 'imports 0 of 2, calls 0 of 2'")
        self.browser.wait("document.querySelectorAll('#reaches .thing').length === 4")
        self.assertEqual(self.texts('#reaches .thing'), ['0 import posix.system', "23 posix.system('id')", '16100026 import posix.system',
                                                         "16100049 posix.system('id')"])
        for key, said in (('n', 'at 4'), ('n', 'the next call is at offset 16100049, which is not read')):
            self.browser.key(key)
            self.said(said)
        self.browser.js("document.querySelectorAll('#reaches .thing')[2].click()")
        self.said('offset 16100026 is not read: it cannot be shown')
        self.browser.wait("document.querySelector('#rest').textContent === 'The first part is shown alone: more than 16,000,000 opcodes are not "
                          "read here (picklestep shell opens them)'")
        self.assertTrue(self.texts('#where')[0].startswith('at 4 of 300000,'))
        self.browser.js("showPane('result')")
        self.browser.js(SETTLED)
        self.assertIn('# The rest of the pickle is not read.', self.texts('#source')[0])
        self.give(self.file('a.pickle', SYSTEM))
        self.assertEqual((self.texts('#rest'), self.texts('#where')), ([''], ['at 0 of 6, offset 0, end stopped']))

    def test_what_is_typed_before_the_form_is_filled(self) -> None:
        self.load()
        self.give(self.file('a.pickle', SYSTEM))
        self.browser.js("openEdit(); document.querySelector('#edit-name').value = 'POP'")
        self.browser.wait(FILLED)
        self.assertEqual(self.browser.js("document.querySelector('#edit-name').value"), 'POP')

    def limit_memory(self, name: str, pages: int) -> None:
        """Gives the program (`module`) or the `library` no more than so many pages of 65,536 bytes."""
        file = {'module': 'picklestep.wasm', 'library': 'libpicklestep.wasm'}[name]
        module = base64.b64encode(with_memory((PAGE.parent / file).read_bytes(), pages)).decode('ascii')
        self.browser.js(f"""(async () => {{ worker.program.{name} = await WebAssembly.compile(latin(atob('{module}')));
            endThread(worker.thread); worker.thread = newThread(); }})()""")

    def insert_bytes(self, count: int) -> str:
        """Inserts an opcode with so many bytes at the cursor, and answers what the page says."""
        self.browser.js("document.querySelector('#said').textContent = ''")
        self.browser.key('e')
        self.browser.wait("document.querySelector('#edit-dialog').open")
        for field, value in (('what', 'insert'), ('place', '1'), ('name', 'BINBYTES'), ('argument', f"b'{'x' * count}'")):
            self.browser.wait(FILLED)
            self.browser.js(f"(() => {{ const field = document.querySelector('#edit-{field}'); field.value = {json.dumps(value)};"
                            "field.dispatchEvent(new Event('change')); })()")
        self.browser.click('#edit-form button[type=submit]')
        answer = "/^(edited|not done|refused).*/.exec(document.querySelector('#said').textContent || document.querySelector('#edit-error').textContent)"
        self.browser.wait(f'{answer} !== null')
        said: str = self.browser.js(f'{answer}[0]')
        if self.browser.js("document.querySelector('#edit-dialog').open"):
            self.browser.click('#edit-dialog .close')
        return said

    def test_out_of_memory(self) -> None:
        """It is said, and the page goes on: where nothing was opened, in a step, in an edit, and while the rest is read."""
        self.load()
        self.limit_memory('module', 300)  # (fewer bytes than the pickle has)
        large = b'(' + b'K\x01' * 200_000 + b't.'
        self.choose(self.file('largest.pickle', b'(' + b'K\x01' * 10_000_000 + b't.'))
        self.said('not done: out of memory')
        self.limit_memory('module', 660)
        self.give(self.file('large.pickle', large))
        self.browser.key('Delete')
        self.said('edited 0')
        self.limit_memory('library', 130)
        self.give(self.file('large.pickle', large))
        for key, said in (('End', 'refused: M out of memory'), ('ArrowRight', 'at 1')):
            self.browser.key(key)
            self.said(said)
            self.assertRegex(self.texts('#where')[0], '^at [01] of 200003, ')
        self.assertEqual(self.browser.js("document.querySelector('#undo').disabled"), True)
        # The pickle grows until an edit has no memory, which then is not made.
        made, said = 0, self.insert_bytes(30_000)
        while said.startswith('edited '):
            made, said = made + 1, self.insert_bytes(30_000)
            self.assertLess(made, 60)
        self.assertIn(said, ('refused: M out of memory', 'not done: out of memory'))
        self.assertIn(f' of {200_003 + made}, ', self.texts('#where')[0])
        self.limit_memory('library', 600)
        self.choose(self.file('largest.pickle', b'(' + b'K\x01' * 5_000_000 + b't.'))
        self.browser.wait("document.querySelector('#rest').textContent === 'The first part is shown alone: out of memory'")
        self.browser.wait(f"document.querySelector('#reached').textContent === 'imports 0 of 0, calls 0 of 0 in this part: {UNKNOWN}: out of memory'")
        self.give(self.file('a.pickle', SYSTEM))
        self.assertEqual((self.texts('#rest'), self.texts('#where')), ([''], ['at 0 of 6, offset 0, end stopped']))
        self.assertEqual(self.browser.errors(), [])

    def test_what_is_longer_than_its_square_root(self) -> None:
        """A name that is imported again and again, and marks within marks, of which the program writes as much as the pickle's size squared."""
        self.load()
        name = b'X' + (500_000).to_bytes(4, 'little') + b'n' * 500_000 + b'q\0'
        self.give(self.file('names.pickle', name + b'(' + b'h\0h\0\x93' * 1000 + b't.'))
        self.assertIn('imports and calls: the first 201 alone, long as they are (picklestep calls shows all)', self.texts('#closing')[0])
        self.assertLess(max(map(len, self.texts('.row .reach'))), 5000)
        self.browser.js("showPane('result')")
        self.browser.js(SETTLED)
        self.assertEqual(self.texts('#source')[0], '# Too long for this page: picklestep source FILE writes it.')
        one = b'\x80\x04X\2\0\0\0osX\xd0\7\0\0' + b'n' * 2000 + b'\x93q\1(' + b'h\1' * 10_000 + b't.'
        self.give(self.file('one.pickle', one))
        self.browser.js("showPane('result')")
        self.browser.js(SETTLED)
        self.assertEqual(self.texts('#source'), [source(one, full=False).text])
        self.assertLess(len(self.texts('#source')[0]), 3000)
        marks = b'(' * 300_000 + b'N' + b't' * 300_000 + b'.'
        for name, before in (('marks.pickle', b''), ('frame.pickle', b'\x80\x04\x95' + len(marks).to_bytes(8, 'little'))):
            self.give(self.file(name, before + marks))
            self.browser.wait(f"document.querySelector('#where').textContent.startsWith('at 0 of {len(marks) + 2 * bool(before)},')")
            self.browser.key('End')
            self.browser.wait("document.querySelector('#objects-shown').textContent.endsWith('of 300001')")
        self.assertEqual(self.browser.errors(), [])

    def test_many_opcodes_in_frames(self) -> None:
        """The first part ends where a frame ends. Where one frame holds all, there is none."""
        self.load()
        self.hold_the_rest()
        data = pickle.dumps([(number,) for number in range(200_000)], 4)
        self.give(self.file('frames.pickle', data))
        self.assertRegex(self.texts('#closing')[0], '^the first 2[0-9]{2},[0-9]{3} opcodes: the rest is not read$')
        self.browser.js('void mayRead()')
        places = sum(1 for _ in pickletools.genops(data))
        self.browser.wait(f"document.querySelector('#where').textContent === 'at 0 of {places}, offset 0, end stopped'")
        content = b'N' * 400_000 + b'.'
        self.give(self.file('frame.pickle', b'\x80\x04\x95' + len(content).to_bytes(8, 'little') + content))
        self.assertEqual((self.texts('#rest'), self.texts('#where')), ([''], ['at 0 of 400003, offset 0, end stopped']))


class Made(unittest.TestCase):
    """The file itself."""

    def modules(self, name: str) -> Path:
        """A folder with the modules."""
        for file in ('picklestep.wasm', 'libpicklestep.wasm'):
            (Path(name) / file).write_bytes((PAGE.parent / file).read_bytes())
        return Path(name)

    def test_it_is_made_again_byte_for_byte(self) -> None:
        with tempfile.TemporaryDirectory() as name:
            folder = self.modules(name)
            command = [sys.executable, '-I', '-B', str(ROOT / 'targets' / 'page.py')]
            for options in ([], [], ['--check']):
                self.assertEqual(subprocess.run([*command, *options, name], capture_output=True, check=False).returncode, 0)
            self.assertEqual((folder / 'picklestep.html').read_bytes(), PAGE.read_bytes())
            digest = hashlib.sha256(PAGE.read_bytes()).hexdigest()
            self.assertEqual((folder / 'SHA256SUMS').read_text(), f'{digest}  picklestep.html\n')
            self.assertIn(f'{digest}  picklestep.html\n', (PAGE.parent / 'SHA256SUMS').read_text())
            (folder / 'picklestep.wasm').write_bytes(b'other')
            self.assertEqual(subprocess.run([*command, '--check', name], capture_output=True, check=False).returncode, 1)

    def test_its_sum_stays_where_it_is(self) -> None:
        """Among other sums it has the same place, whether the page is made alone or with all that is released."""
        with tempfile.TemporaryDirectory() as name:
            folder, sums = self.modules(name), 'aa  picklestep.wasm\nbb  picklestep.html\ncc  libpicklestep.wasm\n'
            (folder / 'SHA256SUMS').write_text(sums)
            subprocess.run([sys.executable, '-I', '-B', str(ROOT / 'targets' / 'page.py'), name], check=True)
            self.assertEqual((folder / 'SHA256SUMS').read_text(), sums.replace('bb', hashlib.sha256(PAGE.read_bytes()).hexdigest()))

    def test_it_is_small_and_names_no_other_place(self) -> None:
        text = PAGE.read_text(encoding='utf-8')
        self.assertLess(len(text.encode('utf-8')), 3_000_000)
        self.assertNotRegex(text, r'https?://|src="(?!data:)|@import|url\(')
        self.assertNotIn('innerHTML', text)


if __name__ == '__main__':
    unittest.main()
