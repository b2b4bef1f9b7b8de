"""What a document says of a pickle that is looked at and edited: its lines, its objects, and what it imports and calls."""

from __future__ import annotations

import collections
import contextlib
import pickle
import pickletools
import tempfile
import unittest
from pathlib import Path
from typing import Any, Iterator, List

import picklestep
from picklestep import Object, Session, lines
from picklestep.document import Document
from picklestep.lines import CUT
from picklestep.object_lines import ObjectLines, ObjectsAsked, read_objects
from picklestep.opcodes import BY_NAME
from picklestep.tasks import Asked
from pickles import real_pickles

DATA = Path(__file__).resolve().parent / 'data' / 'models'
SYSTEM = b'cposix\nsystem\n(X\x02\x00\x00\x00idtR.'


@contextlib.contextmanager
def opened(data: Any, many: bool = False) -> Iterator[Document]:
    """A document, which is closed at the end."""
    document = Document(data, 'a pickle', many)
    try:
        yield document
    finally:
        document.close()


class Documents(unittest.TestCase):
    """What is shown of a pickle."""

    def test_lines_are_those_of_pickletools(self) -> None:
        for path in sorted(DATA.glob('sklearn_*.pkl')):
            data = path.read_bytes()
            with opened(data) as document:
                wanted = [(at, opcode.name) for opcode, _, at in pickletools.genops(data)]
                rows = [document.lines.at(place) for place in range(min(2000, len(wanted)))]
                self.assertEqual([(row.offset, row.name) for row in rows], wanted[:2000], path)
                self.assertEqual(len(document.lines), len(wanted))

    def test_opcodes_that_make_objects(self) -> None:
        """Each object is made by the opcode that the document names: the session has one object more behind it."""
        for path in sorted(DATA.glob('sklearn_tree.pkl')):
            with opened(path) as document, Session(path) as session:
                for number in range(len(document.lines.makers)):
                    session.goto(document.lines.makers.place(number))
                    self.assertEqual(len(session.objects()), number)
                    session.step()
                    self.assertEqual(len(session.objects()), number + 1)

    def test_opcodes_that_make_none(self) -> None:
        """Each real pickle makes as many objects as it has opcodes that make one."""
        seen = set()
        for name, data in real_pickles().items():
            listing = picklestep.listing(data)
            names = [opcode.name for opcode in listing][:listing.end.item]
            seen |= {*names}
            self.assertEqual(sum(name not in lines.MAKE_NONE for name in names), len(picklestep.objects(data)), name)
        self.assertEqual(seen, {*BY_NAME})

    def test_views_of_what_is_only_read(self) -> None:
        """READONLY_BUFFER makes no object where its own can only be read already."""
        with opened(b'C\x01a\x98\x97\x98\x98N\x87.') as document:
            self.assertEqual([document.maker(number) for number in range(6)], [0, 2, 3, 5, 6, None])

    def test_kinds(self) -> None:
        with opened(b'(ia\nb\nPx\n\x97N(NNNe.') as document:
            offsets = [document.lines.offset(place) for place in range(5)]
            self.assertEqual([*map(document.reaches.kind_at, offsets)], ['', 'call', 'other', 'other', ''])
            self.assertEqual(document.reaches.counts, (document.reaches.answer.imports, document.reaches.answer.calls))

    def test_objects_at_the_cursor(self) -> None:
        with opened(b'(]q\x05K\x07aK\x08.') as document:
            for place, texts in ((5, ['list +#1', 'int 7', '']), (3, ['list', '', ''])):
                document.session.goto(place)
                document.place, document._heap = place, None
                self.assertEqual([document.brief(number) for number in range(3)], texts)
            self.assertEqual(document.final_brief(0), 'list +#1')

    def test_what_is_imported_and_called(self) -> None:
        with opened(pickle.dumps([len, len], 4) + b'(.') as document:
            (reach,) = document.imports()
            self.assertEqual((document.reaches.text_at(31), document.reaches.texts_at(31)), (reach.text, [reach.text]))
            self.assertEqual((reach.offset, document.reaches.text_at(30)), (31, ''))

    def test_finding(self) -> None:
        with opened(SYSTEM) as document:
            self.assertEqual([document.find(text, 0) for text in ('TUPLE', '16', "'id'", 'absent', '')], [3, 2, 2, None, None])
            self.assertEqual(document.find('posix', 3), 0)
        with opened(pickle.dumps(['a', 'caf\xe9'], 4)) as document:
            self.assertEqual(document.lines.at(document.find('f\xe9', 0) or 0).argument, r"'caf\xc3\xa9'")
        texts = ["it's", 'a\\b', 'x' * 700 + "need'le" + 'y' * 700, 'need']
        data = pickle.dumps(texts, 3)
        places = {value: place for place, (_, value, _) in enumerate(pickletools.genops(data)) if isinstance(value, str)}
        with opened(data) as document:
            for wanted, text in (("it's", texts[0]), ('a\\b', texts[1]), ("need'le", texts[2]), ('y' * 600, texts[2]), ('need', texts[2])):
                self.assertEqual(document.find(wanted, 0), places[text], wanted)
            self.assertEqual([document.find('need', places[text]) for text in texts[2:]], [places[texts[3]], places[texts[2]]])

    def test_refused_opcodes_stay_in_view(self) -> None:
        with opened(b'N0R\x8c\x01a.') as document:
            self.assertEqual([document.lines.at(place)[:4] for place in range(len(document.lines))],
                             [(0, 'N', 'NONE', ''), (1, '0', 'POP', ''), (2, 'R', 'REDUCE', ''), (3, '\\x8c', 'SHORT_BINUNICODE', "'a'"),
                              (6, '.', 'STOP', '')])

    def test_several_pickles(self) -> None:
        data = b'NN(N.' + SYSTEM + b'(N.' + b']K\x01a.' * 8
        with opened(data) as document:
            self.assertIn(f'kept: {len(data) - 5} bytes after STOP', document.lines.closing)
        with opened(data, many=True) as document, Session(data, many=True) as session:
            rows = [document.lines.at(place) for place in range(len(document.lines))]
            self.assertEqual([(row.offset, row.name, row.marks) for row in rows],
                             [(line.offset, line.name, line.marks) for line in picklestep.listing(data, many=True)])
            session.run()
            self.assertEqual(document.made_before(len(rows)), (len(session.objects()), len(session.objects())))

    def test_long_texts_are_cut(self) -> None:
        with opened(pickle.dumps(['x' * 3_000_000, b'\0' * 3_000_000, 'y'], 4)) as document:
            argument = document.lines.at(4).argument
            self.assertTrue(argument.startswith("'xxx") and argument.endswith("bytes more'"), argument[-40:])
            self.assertLess(document.lines.size - len(document.content()) + len(document._final.text), 8000)
            self.assertEqual(document.final_brief(1), f"text '{'x' * (CUT - 9)} .. {3_000_000 - CUT + 9} bytes more'")


class Objects(unittest.TestCase):
    """What is said of objects where their lines of JSON stand is what the lines say."""

    def check(self, objects: ObjectLines, answer: List[Object], texts: List[str]) -> None:
        self.assertEqual((len(objects), objects.readonly_count()), (len(answer), sum(made.kind == 'readonly' for made in answer)))
        named = [(made.number, *made.parts[:2]) for made in answer if made.kind == 'stack-global']
        self.assertEqual([*objects.named_by_texts()], named)
        for made, text in zip(answer, texts):
            number = made.number
            held = [('', part) for part in made.parts]
            for change in made.changes:
                held += [('key', change.key), ('value', change.value)] if change.key is not None else [(change.how, change.value)]
            self.assertEqual([*map(tuple, objects.held(number))], held, text)
            parts = len(made.parts) // 2 if made.kind == 'dict' else len(made.parts)
            self.assertEqual((objects.kind(number), objects.held_count(number), objects.held_count(number, apart=True)),
                             (made.kind, parts + len(made.changes), len(held)), text)
            shown = text.partition(' ')[2]
            self.assertEqual(objects.is_long(number, len(text)), False, text)
            self.assertEqual(objects.is_long(number, len(text) - 1), True, text)
            if len(text) <= CUT:
                self.assertEqual(objects.shown(number), shown)
            else:
                self.assertEqual(objects.shown(number)[:100], shown[:100])
        holders = {number for made in answer for number in (*made.parts, *self.put(made)) if made.kind != 'stack-global'}
        holders |= {number for made in answer for number in self.put(made)}
        self.assertEqual({made.number for made in answer if objects.is_data(made.number)}, holders)

    @staticmethod
    def put(made: Object) -> List[int]:
        """What was put into an object."""
        return [number for change in made.changes for number in (change.key, change.value) if number is not None]

    def test_real_pickles(self) -> None:
        data = [*real_pickles().values(), pickle.dumps([('(#1 #2)', "' #1", '[1,2]', ',"parts":[0]'), {'#0': 1}, (1, ('",1,"',))], 2)]
        for content in data:
            with Asked(content, None, None) as program, Session(content) as session:
                texts = [line for line in program.answer(['objects']).splitlines() if line.startswith('#')]
                answer = picklestep.objects(content)
                if any(len(text) > CUT and "'" in text for text in texts):
                    continue
                read = read_objects([answer.json])
                self.check(read, [*answer], texts)
                with contextlib.suppress(picklestep.Refused):
                    session.run()
                asked = ObjectsAsked(session._talk.ask, session.where().objects)
                self.assertEqual([asked.shown(made.number) for made in answer], [read.shown(made.number) for made in answer])
                self.assertEqual([[*asked.held(made.number)] for made in answer], [[*read.held(made.number)] for made in answer])
                self.assertEqual([asked.fields(made.number) for made in answer], [read.fields(made.number) for made in answer])

    def test_long_names(self) -> None:
        for module, name in ((b'm' * 5000, b'n'), (b'm', b'n' * 5000), (b'\xff' * 5000, b'n'), (b'm' * 5000, b'\xff')):
            objects = read_objects([picklestep.objects(b'c%b\n%b\n(i%b\n%b\n.' % (module, name, module, name)).json])
            for number, kind in enumerate(('global', 'inst')):
                self.assertEqual((objects.kind(number), objects.is_long(number, 400), objects.is_long(number, 20_000)), (kind, True, False))
                self.assertRegex(objects.shown(number), f"^{kind} '[mn\\\\xf' ]{{400,}} .. [0-9]+ bytes more'$")

    def test_objects_that_hold_many(self) -> None:
        for value in ([*range(3000)], {*range(3000)}, {at: at for at in range(3000)}, tuple(range(3000)), collections.OrderedDict((at, at) for at in range(3000))):
            content = pickle.dumps(value, 4)
            answer, objects = picklestep.objects(content), read_objects([picklestep.objects(content).json])
            number = max(answer, key=lambda made: len(made.parts) + len(made.changes)).number
            text = answer.text.split('\n')[number]
            self.assertEqual(objects.shown(number), f'{text[:CUT]} .. {len(text) - CUT} bytes more'.partition(' ')[2])
            self.assertEqual(len([*objects.held(number)]), objects.held_count(number, apart=True))


class Opening(unittest.TestCase):
    def test_how_far_it_is(self) -> None:
        texts: List[str] = []
        document = Document(b'(' + b'K\x01' * 300_000 + b'l.', 'a pickle', progress=texts.append)
        document.close()
        self.assertIn('list: 300,004 lines', texts)
        self.assertEqual([word for word in ('list', 'objects') if any(text.startswith(f'{word}: ') for text in texts)], ['list', 'objects'])


class Saving(unittest.TestCase):
    def test_saving(self) -> None:
        with tempfile.TemporaryDirectory() as folder, opened(SYSTEM) as document:
            path = Path(folder) / 'saved.pickle'
            for _ in range(2):
                document.session.insert(0, 'NONE')
                document.save(str(path))
                self.assertEqual(path.read_bytes(), document.session.bytes())
            self.assertRaises(ValueError, document.save, ' ')


if __name__ == '__main__':
    unittest.main()
