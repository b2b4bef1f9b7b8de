"""What the worker of the page answers, in Node: it is what pickletools, the package and a session say of the same bytes."""

from __future__ import annotations

import base64
import json
import pickle
import pickletools
import random
import shutil
import subprocess
import unittest
from pathlib import Path
from typing import Any, List, Optional, Tuple

from pickles import REAL, ROOT, real_pickles
from picklestep import Ref, Refused, Session, calls, listing

PAGE = ROOT / 'dist' / 'picklestep.html'
MODELS = Path(__file__).resolve().parent / 'data' / 'models'
SCRIPT = Path(__file__).resolve().parent / 'page_worker.js'
COUNTS = 'imports calls'.split()
SYSTEM = b'cposix\nsystem\n(X\x02\x00\x00\x00idtR.'


class Worker:
    """A worker in a process of its own."""

    def __init__(self) -> None:
        self._process = subprocess.Popen(['node', str(SCRIPT), str(PAGE)], stdin=subprocess.PIPE, stdout=subprocess.PIPE, text=True)

    def ask(self, word: str, **asked: Any) -> Any:
        """The answer to a question."""
        assert self._process.stdin is not None and self._process.stdout is not None
        print(json.dumps([word, asked]), file=self._process.stdin, flush=True)
        return json.loads(self._process.stdout.readline())

    def value(self, expression: str) -> Any:
        """The value of an expression over the names of the worker."""
        return self.ask(f'.{expression}')

    def load(self, data: bytes, **asked: Any) -> Any:
        """Opens a pickle."""
        return self.ask('load', packed=base64.b64encode(data).decode('ascii'), name='a.pickle', isPickle=True, **asked)

    def close(self) -> None:
        """Ends the process."""
        for stream in (self._process.stdin, self._process.stdout):
            assert stream is not None
            stream.close()
        self._process.wait()


@unittest.skipIf(shutil.which('node') is None, 'Node is not there')
class InNode(unittest.TestCase):
    """A worker that all tests use one after another."""

    maxDiff = None
    worker: Worker

    @classmethod
    def setUpClass(cls) -> None:
        cls.worker = Worker()
        cls.addClassCleanup(cls.worker.close)

    def goto(self, place: int) -> Any:
        return self.worker.ask('move', what='goto', place=place)

    def held_of(self, thing: Any) -> List[List[Any]]:
        """What an object of a session holds, as the page has it."""
        held: List[List[Any]] = [['', part] for part in thing.parts]
        for change in thing.changes:
            held += [['key', change.key], ['value', change.value]] if change.how == 'set' else [[change.how, change.value]]
        return held

    def same(self, data: bytes, places: List[int], many: bool = False) -> None:
        """Compares what the page shows at some places with a session of the same bytes."""
        with Session(data, many=many) as session:
            for place in places:
                state = self.goto(place)
                try:
                    session.goto(place)
                except Refused as error:
                    self.assertEqual((state.get('said'), state.get('failed')), (f'refused: {error.text}', True))
                    continue
                where = session.where()
                stack = [each.number if isinstance(each, Ref) else -1 - each.place for each in session.stack()]
                self.assertEqual((state['place'], state['places'], state['offset'], state['end']), (place, where.places, where.offset, where.end.text))
                self.assertEqual((state['stack']['entries'], state['stack']['more']), (stack[-500:], max(0, len(stack) - 500)))
                self.assertEqual([(each['memo'], each['object']) for each in state['memo']['entries']], [*session.memo().items()][-500:])
                wanted = [*session.objects()]
                self.assertEqual(state['made'], len(wanted))
                shown = self.worker.ask('objects', start=0, count=2000)['objects']
                self.assertEqual([(each['object'], each['is'], each['held'], each['more']) for each in shown],
                                 [(each.number, each.kind, self.held_of(each)[:100], max(0, len(self.held_of(each)) - 100)) for each in wanted[:2000]])


class Shown(InNode):
    """What is shown of a pickle."""

    def test_opcodes_are_those_of_pickletools(self) -> None:
        for path in [*REAL[::9], *sorted(MODELS.glob('sklearn_*.pkl'))]:
            data = path.read_bytes()
            with self.subTest(path.name):
                state = self.worker.load(data)
                if state['kept'] or state['end'] != 'stopped' or any(each.startswith('refused') for each in state['closing']):
                    continue
                rows = self.worker.ask('rows', start=0, count=2000)['rows']
                wanted = [(at, opcode.name) for opcode, _, at in pickletools.genops(data)][:2000]
                self.assertEqual([(row['offset'], row['opcode']) for row in rows], wanted)
                self.assertEqual([row['marks'] for row in rows], [each.marks for each in listing(data)][:2000])

    def test_each_place_is_as_in_a_session(self) -> None:
        for path in [*REAL[3::11], MODELS / 'sklearn_tree.pkl']:
            data = path.read_bytes()
            with self.subTest(path.name):
                places = self.worker.load(data)['places']
                self.same(data, sorted({0, 1, places // 3, places // 2, places - 1, places}))

    def test_opcodes_that_make_objects(self) -> None:
        """Each object is made by the opcode that the page names: a session has one object more behind it."""
        for data in ((MODELS / 'sklearn_tree.pkl').read_bytes(), b'C\x01a\x98\x97\x98\x98N\x87.'):
            places = self.worker.load(data)['places']
            made = self.goto(places)['made']
            with Session(data) as session:
                for number in range(0, made, max(1, made // 40)):
                    session.goto(self.worker.ask('about', number=number)['maker'])
                    self.assertEqual(len(session.objects()), number)
                    session.step()
                    self.assertEqual(len(session.objects()), number + 1)

    def test_moves(self) -> None:
        self.worker.load(SYSTEM)
        for what, said in (('step', 'at 1'), ('back', 'at 0'), ('next', 'at 4'), ('next', 'no call there'), ('run', 'at 6: end, stopped'), ('previous', 'at 4')):
            state = self.worker.ask('move', what=what, place=0)
            self.assertEqual(state['said'], said)
        self.assertEqual([state[name] for name in COUNTS], [[1, 1], [0, 1]])
        self.assertEqual(self.goto(7), {'said': 'refused: C4 no such place', 'code': 'C4', 'failed': True})
        self.worker.load(b'N0R.')
        ran = self.worker.ask('move', what='run', place=0)
        self.assertEqual((ran['said'], ran['code']), ('at 2: refused, S2 stack underflow', 'S2'))
        self.assertEqual(self.worker.ask('effect'), {'place': 2, 'refused': 'C3 item 2: S2 stack underflow'})

    def test_what_an_opcode_does(self) -> None:
        """What it takes, and what it leaves, with marks by their places below zero; and the key under which it stores something."""
        data = b'](K\x01K\x02eq\x05(0K\x03ah\x052(0\x94.'
        does: List[Tuple[List[int], List[int], Optional[int]]] = [
            ([], [0], None), ([], [-2], None), ([], [1], None), ([], [2], None), ([0, -2, 1, 2], [0], None), ([0], [0], 5), ([], [-7], None), ([-7], [], None),
            ([], [3], None), ([0, 3], [0], None), ([], [0], None), ([], [0], None), ([], [-13], None), ([-13], [], None), ([0], [0], 1), ([0], [], None)]
        self.worker.load(data)
        for place, (before, after, key) in enumerate(does):
            answer = self.worker.ask('effect')
            with self.subTest(place):
                self.assertEqual(([each for each, _ in answer['before']['things']], [each for each, _ in answer['after']['things']], answer.get('memo')),
                                 (before, after, key))
                self.assertEqual(self.worker.ask('move', what='step', place=0)['said'], f'at {place + 1}')

    def test_refusals_are_those_of_a_session(self) -> None:
        """In the words of the package."""
        asked = [('insert', 0, 'NONE', ''), ('replace', 1, 'BININT1', 'ff00'), ('replace', 1, 'BININT1', ''), ('replace', 1, 'NOTHING', ''),
                 ('replace', 9, 'NONE', ''), ('delete', 99, '', ''), ('frame', 0, '', '')]
        with Session(SYSTEM) as session:
            self.worker.load(SYSTEM)
            session.step(), self.goto(1)
            for what, place, name, raw in asked:
                words = ' '.join(each for each in (what, str(place), name, raw, '2' if what == 'frame' else '') if each)
                with self.assertRaises(Refused) as caught:
                    session.ask(words)
                answer = self.worker.ask('edit', what=what, place=place, name=name, raw=raw, count=2)
                self.assertEqual((answer['said'], answer['failed']), (f'refused: {caught.exception.text}', True))

    def test_how_reading_ends(self) -> None:
        """In the words of `list`, which the package has too."""
        for data in (b'', b'N', b'\xff', b'X\1', b'Tabcd\xff', b'p+1\n.', b'T\xff\xff\xff\xff.', b'\x80\x06N.', b'\x82\0.', b'h\7.', b'e.', b'0.', b'(Nd.', b')NaN.', b'NN\x93.',
                     b'N)R.', b'cos\ngetcwd\nX\0\0\0\0R.', b'cos\ngetcwd\n)N\x92.', b'\x80\x04\x95\xff\0\0\0\0\0\0\0N.', b'(K\1lN.abc', b'NN.'):
            with self.subTest(data):
                state, known = self.worker.load(data), listing(data)
                early = [f'{known.end.how}: {known.end.text}'] if known.end.how in ('refused', 'fault') else []
                self.assertEqual([each for each in state['closing'] if each.startswith(('refused', 'fault'))], early)
                with Session(data) as session:
                    self.assertEqual(state['end'], session.where().end.text)

    def test_what_is_imported_and_called(self) -> None:
        for data in (SYSTEM, pickle.dumps([len, len], 4) + b'(.', (MODELS / 'sklearn_tree.pkl').read_bytes()):
            self.worker.load(data)
            reached = self.worker.ask('reached', start=0, count=2000)['reached']
            self.assertEqual([(offset, fields['kind']) for _, offset, _, fields in reached], [(each.offset, each.what) for each in calls(data)][:2000])
            rows = self.worker.ask('rows', start=0, count=2000)['rows']
            self.assertEqual([rows[place]['offset'] for place, _, _, _ in reached if place < 2000], [offset for place, offset, _, _ in reached if place < 2000])

    def test_several_pickles(self) -> None:
        data = b'NN(N.' + SYSTEM + b'(N.' + b']K\x01a.' * 8
        state = self.worker.load(data)
        self.assertEqual(state['kept'], len(data) - 5)
        self.assertIn(f'kept: {len(data) - 5} bytes after STOP', state['closing'])
        self.assertIn('left: 2 objects, 1 marks', state['closing'])
        state = self.worker.ask('again', many=True)
        self.assertEqual(state['kept'], 0)
        rows = self.worker.ask('rows', start=0, count=99)['rows']
        self.assertEqual([(row['offset'], row['opcode'], row['marks']) for row in rows], [(each.offset, each.name, each.marks) for each in listing(data, many=True)])
        self.same(data, [0, 5, len(rows)], many=True)
        self.assertEqual((self.goto(len(rows))['results_before'], len(self.goto(len(rows))['results'])), (6, 5))

    def test_opcodes_behind_a_refused_one(self) -> None:
        data = b'N0R' + b'K\x07' * 3000 + b'X\0\x20\0\0' + b'x' * 0x2000 + b'\x8c\x01a.'
        self.worker.load(data)
        rows = self.worker.ask('rows', start=0, count=2000)['rows'] + self.worker.ask('rows', start=2000, count=2000)['rows']
        self.assertEqual([(row['offset'], row['opcode']) for row in rows], [(at, opcode.name) for opcode, _, at in pickletools.genops(data)])
        self.assertEqual((rows[-2]['argument'], rows[-3]['argument_more']), ('a', 0x2000 - 500))

    def test_long_texts_and_many_items(self) -> None:
        """Of a line of many megabytes the texts are cut, and lists come in parts."""
        data = pickle.dumps(['x' * 9_000_000, b'\0' * 3_000_000, '"\\\u20ac' * 2_000_000, 'y'], 4)
        self.worker.load(data)
        rows = self.worker.ask('rows', start=0, count=50)['rows']
        self.assertEqual([row['offset'] for row in rows], [at for _, _, at in pickletools.genops(data)])
        cut = [row for row in rows if 'argument_more' in row or 'argument_hex_more' in row]
        self.assertEqual([(len(row['argument'].encode()) + row['argument_more']) for row in cut], [9_000_000, 3_000_000, 10_000_000])
        self.goto(len(rows))
        shown = self.worker.ask('objects', start=0, count=9)['objects']
        self.assertEqual([each['argument'][:9] for each in shown[1:]], ['x' * 9, '\0' * 9, '"\\\u20ac' * 3, 'y'])
        self.assertEqual(self.worker.ask('about', number=3)['held'], [0])
        data = b']p0\n(' + b'K\x01' * 300_000 + b'e' + b'(' + b'N' * 300_000 + b't\x86.'
        places = self.worker.load(data, whole=True)['places']
        self.assertEqual(self.goto(places)['made'], 600_003)
        large, small, last = (self.worker.ask('objects', start=number, count=1)['objects'][0] for number in (0, 1, 600_002))
        self.assertEqual((large['is'], large['held'][:2], large['more'], large['isAtEnd']), ('list', [['append', 1], ['append', 2]], 299_900, True))
        self.assertEqual((small['is'], small['argument'], last['held']), ('int', 1, [['', 0], ['', 600_001]]))
        self.assertEqual([self.worker.ask('about', number=number)['held'] for number in (7, 300_009, 0)], [[0], [600_001], [600_002]])

    def test_lines_in_blocks_of_any_size(self) -> None:
        """What is read does not depend on where a block ends."""
        rng = random.Random(37)
        lines = [{'kind': 'object', 'object': at, 'is': 'text', 'argument': rng.choice(['"', '\\', 'x#', '\u20ac']) * rng.choice((1, 300, 5000))} for at in range(50)]
        lines += [{'kind': 'object', 'object': 50, 'is': 'list', 'parts': [1, 2], 'changes': [{'kind': 'append', 'value': at} for at in range(2000)]}]
        text = ''.join(json.dumps(line, separators=(',', ':')) + '\n' for line in lines)
        sizes = [[rng.choice((1, 7, 400, 9000, 100_000)) for _ in range(len(text))] for _ in range(3)]
        read = self.worker.value(f'''{json.dumps(sizes)}.map((sizes) => {{ const found = [], reading = new Reading((fields) => found.push(fields));
            const bytes = new TextEncoder().encode({json.dumps(text)});
            for (let at = 0, turn = 0; at < bytes.length; at += sizes[turn++]) reading.feed(bytes.subarray(at, at + sizes[turn]));
            return found; }})''')
        self.assertEqual(read, [lines] * 3)
        long = json.dumps({**lines[0], 'argument': '"' * 999})
        cut = self.worker.value(f'JSON.parse(ascii.decode(joined(cutTexts(new TextEncoder().encode({json.dumps(long)})))))')
        self.assertEqual(cut, {**lines[0], 'argument': '"' * 250})

    def test_lists_in_parts(self) -> None:
        """Where a line may have few bytes at a time, a list comes in parts, which together are the list."""
        rng = random.Random(41)
        lines: List[Any] = [{'kind': 'object', 'object': at, 'is': 'obj', 'argument': '},{"[' * 4, 'parts': [*range(rng.choice((1, 200, 900)))],
                             'changes': [{'kind': 'set', 'key': at, 'value': at + 1} for at in range(rng.choice((1, 90, 400)))]} for at in range(9)]
        text = ''.join(json.dumps(line, separators=(',', ':')) + '\n' for line in lines)
        for most in (120, 700, 5000):
            sizes = [rng.choice((1, 2, 9, 60, 400)) for _ in range(len(text))]
            parts = self.worker.value(f'''(() => {{ const found = [], reading = new Reading((fields) => found.push(fields), {most});
                const bytes = new TextEncoder().encode({json.dumps(text)}), sizes = {json.dumps(sizes)};
                for (let at = 0, turn = 0; at < bytes.length; at += sizes[turn++]) reading.feed(bytes.subarray(at, at + sizes[turn]));
                return found; }})()''')
            read: List[Any] = []
            for each in parts:
                if read and read[-1]['object'] == each['object']:
                    for name in ('parts', 'changes'):
                        read[-1][name] = read[-1].get(name, []) + each.get(name, [])
                else:
                    read.append(each)
            self.assertEqual(read, lines)
            self.assertGreater(len(parts), len(lines))

    def test_finding(self) -> None:
        self.worker.load(SYSTEM)
        self.assertEqual([self.worker.ask('find', text=text, after=0)['place'] for text in ('TUPLE', '16', 'absent', '')], [3, 2, None, None])
        self.assertEqual(self.worker.ask('find', text="'id'", value='id', isWhole=True, after=0)['place'], 2)
        self.assertEqual([self.worker.ask('find', text=text, after=3)['place'] for text in ('posix', 'system', '40000')], [0, 0, None])
        texts = ["it's", 'a\\b', 'x' * 700 + "need'le" + 'y' * 700, 'need', '\u20ac']
        data = pickle.dumps(texts, 3)
        places = {value: place for place, (_, value, _) in enumerate(pickletools.genops(data)) if isinstance(value, str)}
        self.worker.load(data)
        for wanted, text in (("it's", texts[0]), ('a\\b', texts[1]), ("need'le", texts[2]), ('y' * 600, texts[2]), ('\u20ac', texts[4])):
            self.assertEqual(self.worker.ask('find', text=wanted, after=0)['place'], places[text], wanted)
        self.assertEqual([self.worker.ask('find', text='need', after=places[text])['place'] for text in texts[2:4]], [places[texts[3]], places[texts[2]]])
        self.assertEqual(self.worker.ask('find', text="'need'", value='need', isWhole=True, after=0)['place'], places['need'])
        self.worker.load(b'K\x07J\xf9\xff\xff\xff\x8a\x01\xf9\x86\x86.')
        numbers = {'int4': 'f9ffffff', 'long1': '01f9'}
        self.assertEqual([self.worker.ask('find', text='-7', numbers=numbers, after=after)['place'] for after in (0, 1, 2)], [1, 2, 1])


class Edits(InNode):
    """Edits ahead of the cursor."""

    def edit(self, what: str, place: int, name: str = '', raw: str = '', count: int = 0) -> Any:
        return self.worker.ask('edit', what=what, place=place, name=name, raw=raw, count=count)

    def content(self) -> bytes:
        return base64.b64decode(self.worker.ask('bytes'))

    def marked(self) -> List[List[int]]:
        """The places that have a breakpoint, and those that were edited."""
        rows = self.worker.ask('rows', start=0, count=100)['rows']
        return [[place for place, row in enumerate(rows) if row[name]] for name in ('isBroken', 'isEdited')]

    def test_edits(self) -> None:
        self.worker.load(SYSTEM)
        self.worker.ask('break', place=4)
        self.assertEqual(self.edit('insert', 1, 'GLOBAL', b'os\ngetcwd\n'.hex())['said'], 'edited 1')
        self.assertEqual((self.marked(), self.content()), ([[5], [1]], b'cposix\nsystem\ncos\ngetcwd\n(X\x02\x00\x00\x00idtR.'))
        state = self.worker.ask('undo')
        self.assertEqual((state['said'], state['redo'], state['undo']), ('undone 1: insert GLOBAL at 1', 'insert GLOBAL at 1', ''))
        self.assertEqual((self.marked(), self.content()), ([[4], []], SYSTEM))
        self.assertEqual(self.worker.ask('redo')['said'], 'redone 1: insert GLOBAL at 1')
        for what, place, count in (('delete', 1, 0), ('frame', 0, 2), ('unframe', 0, 0)):
            self.assertEqual(self.edit(what, place, count=count)['said'], f'edited {place}')
        self.assertEqual(self.content(), SYSTEM)

    def test_a_breakpoint_comes_back_with_its_opcode(self) -> None:
        self.worker.load(SYSTEM)
        self.worker.ask('break', place=3)
        self.edit('delete', 3)
        self.assertEqual(self.marked()[0], [])
        self.worker.ask('undo')
        self.assertEqual(self.marked()[0], [3])

    def test_arguments_as_they_stand(self) -> None:
        self.worker.load(SYSTEM)
        self.assertEqual([self.worker.ask('argument', place=place)['raw'] for place in (0, 1, 2)], [b'posix\nsystem\n'.hex(), '', b'\x02\0\0\0id'.hex()])
        self.worker.load(pickle.dumps('x' * 70_000, 4))
        self.assertEqual([self.worker.ask('argument', place=place)['raw'] for place in range(4)], ['04', None, '', ''])

    def test_edits_of_the_first_part(self) -> None:
        """They are saved with the rest as it was, and what reads the whole takes them over."""
        data = b'(' + b'K\x01' * 400_000 + b't' + SYSTEM
        state = self.worker.load(data)
        self.assertEqual((state['part'], state['places'], state['end']), (True, 300_000, 'not read yet'))
        reaches = self.worker.value('(page.bytes = page.whole.bytes, Document.reachesOf(page.program, page.bytes, false, progress).counts)')
        self.assertEqual(reaches, [1, 1])
        with Session(data) as session:
            for what, place, name in (('insert', 2, 'NONE'), ('delete', 3, ''), ('insert', 9, 'MARK')):
                self.edit(what, place, name)
                session.ask(f'{what} {place} {name}'.strip())
            state = self.worker.ask('undo')
            self.assertEqual((state['undo'], state['redo'], state['closing']), ('delete at 3', 'insert MARK at 9', ['the first 300,000 opcodes: the rest is not read']))
            self.assertIn('the first part was edited', state['unknown'])
            self.worker.ask('undo'), self.worker.ask('redo')
            session.undo()
            self.assertEqual(self.content(), session.bytes())
            self.worker.ask('break', place=5)
            marks = self.worker.ask('marks')
            self.worker.value('(page.whole = { bytes: page.bytes, name: "a.pickle", many: false }, page.reaches = null)')
            state = self.worker.ask('rest')
            self.assertEqual((state['part'], state['places']), (False, 400_008))
            state = self.worker.ask('go', **{**marks, 'place': 1})
            self.assertEqual((state['place'], state['undo'], state['redo'], state['part']), (1, 'delete at 3', 'insert MARK at 9', False))
            self.assertEqual(self.content(), session.bytes())
            self.assertEqual(self.marked(), [[5], [2, 3]])
            self.worker.ask('redo')
            session.redo()
            self.assertEqual(self.content(), session.bytes())

    def test_edited_pickles_are_as_in_a_session(self) -> None:
        for name, data in [*real_pickles().items()][::29]:
            with self.subTest(name), Session(data) as session:
                self.worker.load(data)
                for what, place in (('insert', 1), ('delete', 2), ('insert', 3)):
                    try:
                        session.ask(f'{what} {place}' + (' NONE' if what == 'insert' else ''))
                    except Refused as error:
                        self.assertEqual(self.edit(what, place, 'NONE' if what == 'insert' else '')['said'], f'refused: {error.text}')
                        continue
                    self.edit(what, place, 'NONE' if what == 'insert' else '')
                self.assertEqual(self.content(), session.bytes())
                self.same(session.bytes(), [0, 3])


if __name__ == '__main__':
    unittest.main()
