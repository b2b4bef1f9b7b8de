"""Listings, objects and calls: of the real pickles against `pickletools`, and of small ones against what the specification says."""

from __future__ import annotations

import json
import unittest
from typing import Any, Dict, List, Optional

import picklestep
from picklestep import (Brief, Briefs, Change, End, Extension, Global, Object, Opcode, Reach, Ref)
from picklestep.answers import Calls
from picklestep.arguments import encoded
from picklestep.took import seconds_of_programs
from pickles import HOSTILE, LIST, Known, disassembled, known_opcodes, real_pickles

# Arguments that the program prints as they are in the file, without their newline.
_LINES = ('INT', 'LONG', 'FLOAT', 'STRING', 'UNICODE', 'PERSID')
# Opcodes whose argument becomes the text of an object.
_NO_TEXT = ('PROTO', 'FRAME', 'GET', 'BINGET', 'LONG_BINGET', 'PUT', 'BINPUT', 'LONG_BINPUT')
_IMPORTS = ('GLOBAL', 'STACK_GLOBAL', 'INST', 'EXT1', 'EXT2', 'EXT4')


def value_of(known: Known) -> object:
    """The value that an opcode of `pickletools` should have here."""
    if known.name in _LINES:
        return known.raw[:-1]
    if known.name in ('GLOBAL', 'INST'):
        return tuple(known.raw.split(b'\n')[:2])
    if isinstance(known.value, str):
        return known.raw[{'BINSTRING': 4, 'BINUNICODE': 4, 'BINUNICODE8': 8}.get(known.name, 1):]
    return bytes(known.value) if isinstance(known.value, bytearray) else known.value


def is_truth(known: Known) -> bool:
    """Whether the opcode makes a truth value out of a line."""
    return known.name == 'INT' and known.raw in (b'00\n', b'01\n')


def is_whole(known: List[Known]) -> bool:
    """Whether Python read the pickle to its STOP."""
    return bool(known) and known[-1].name == 'STOP'


class RealPickles(unittest.TestCase):
    """Each real pickle of the repository."""

    pickles: Dict[str, bytes]

    @classmethod
    def setUpClass(cls) -> None:
        cls.pickles = real_pickles()

    def test_there_are_some(self) -> None:
        self.assertGreater(len(self.pickles), 150)

    def test_listings(self) -> None:
        for name, data in self.pickles.items():
            with self.subTest(name):
                answer = picklestep.listing(data)
                known = known_opcodes(data)
                pairs = list(zip(answer, known))
                self.assertEqual(len(pairs), min(len(answer), len(known)))
                if answer.end.is_stopped and is_whole(known):
                    self.assertEqual(len(answer), len(known))
                    self.assertEqual(answer.kept, len(data) - answer[-1].offset - 1)
                for opcode, wanted in pairs:
                    self.assertEqual((opcode.offset, opcode.name, opcode.argument), (wanted.offset, wanted.name, value_of(wanted)))
                    self.assertEqual(opcode.code, data[opcode.offset:opcode.offset + 1])

    def test_marks_and_notes(self) -> None:
        compared = 0
        for name, data in self.pickles.items():
            shown = disassembled(data)
            if shown is None:
                continue
            with self.subTest(name):
                answer = picklestep.listing(data)
                if answer.end.is_stopped:
                    self.assertEqual([(o.offset, o.name, o.marks, o.note) for o in answer],
                                     [(o.offset, o.name, o.marks, o.note) for o in shown])
                    compared += 1
        self.assertGreater(compared, 100)

    def test_objects(self) -> None:
        for name, data in self.pickles.items():
            with self.subTest(name):
                answer = picklestep.objects(data)
                self.assertEqual([made.number for made in answer], list(range(len(answer))))
                known = known_opcodes(data)
                if answer.end.is_stopped and is_whole(known):
                    wanted = [value_of(opcode) for opcode in known
                              if opcode.value is not None and opcode.name not in _NO_TEXT and not is_truth(opcode)]
                    self.assertEqual([made.text for made in answer if made.text is not None and made.kind != 'buffer'], wanted)
                    self.assertEqual(len(answer.results), 1)

    def test_calls(self) -> None:
        for name, data in self.pickles.items():
            with self.subTest(name):
                answer = picklestep.calls(data, first=True)
                objects = picklestep.objects(data)
                self.assertEqual((answer.end, objects.end), (picklestep.listing(data).end,) * 2)
                known = known_opcodes(data)
                if answer.end.is_stopped and is_whole(known):
                    self.assertEqual(answer.imports, sum(opcode.name in _IMPORTS for opcode in known))
                    self.assertEqual([reach.offset for reach in answer if reach.what in ('import', 'inst')],
                                     [opcode.offset for opcode in known if opcode.name in _IMPORTS])
                    self.assertEqual([reach.offset for reach in answer if reach.what == 'new'],
                                     [opcode.offset for opcode in known if opcode.name in ('NEWOBJ', 'NEWOBJ_EX')])
                for reach in answer:
                    self.check_number(reach, objects[reach.number] if reach.number is not None else None)

    def test_calls_of_all_pickles(self) -> None:
        for name, data in self.pickles.items():
            with self.subTest(name):
                answer = picklestep.calls(data)
                objects = picklestep.objects(data, many=True)
                self.assertEqual(objects.end, picklestep.listing(data, many=True).end)
                if answer.end.how != 'unsure':  # (a frame goes on behind STOP: only `calls` says so, and ends there)
                    self.assertEqual(answer.end, objects.end)
                for reach in answer:
                    self.check_number(reach, objects[reach.number] if reach.number is not None else None)

    def test_bytes_that_are_left_out(self) -> None:
        """Bytes are put before an opcode and left out again: only the offsets behind them are others."""
        junk = b'\xff' * 7
        for name, data in self.pickles.items():
            known = known_opcodes(data)
            at = known[len(known) // 2].offset if known else 0
            with self.subTest(name, at=at):
                answer = picklestep.calls(data[:at] + junk + data[at:], skip=[(at, len(junk))])
                told = picklestep.calls(data)
                self.assertEqual([(reach.offset, reach.text) for reach in answer],
                                 [(reach.offset + len(junk) * (reach.offset >= at), reach.text) for reach in told])
                self.assertEqual(answer.end.code, told.end.code)

    def test_bytes_that_cannot_be_left_out(self) -> None:
        answer = picklestep.calls(LIST, skip=[(0, len(LIST) + 1)])
        self.assertEqual((answer.end.how, answer.imports, answer.calls, list(answer), answer.kept), ('refused', 0, 0, [], 0))
        said = f'hole 0:{len(LIST) + 1} ends behind the last of {len(LIST)} bytes'
        self.assertEqual((answer.text, repr(answer)), (f'refused: {said}\n', f'<Calls: 0 imports, 0 calls, {said}>'))
        self.assertIn(f'<p>0 imports, 0 calls, {said}</p>', answer._repr_html_())
        for skip in ([(2, 1), (1, 1)], [(0, 2), (1, 1)]):
            with self.assertRaisesRegex(picklestep.ProgramError, 'is no OFFSET:LENGTH'):
                picklestep.calls(LIST, skip=skip)
        for below in ([(0, -1)], [(-1, 1)]):
            with self.assertRaises(ValueError):
                picklestep.calls(LIST, skip=below)

    def test_many_bytes_that_are_left_out(self) -> None:
        answer = picklestep.calls(b'N0\xff' * 70_000 + b'N.', skip=[(3 * at + 2, 1) for at in range(70_000)])
        self.assertTrue(answer.end.is_stopped)

    def check_number(self, reach: Reach, made: Optional[Object]) -> None:
        """The object that a line ends in is of the line's kind."""
        kinds = {'import': ('global', 'stack-global', 'ext'), 'call': ('call', 'obj'), 'new': ('new', 'new-ex'), 'inst': ('inst',),
                 'persistent': ('persistent',), 'buffer': ('buffer',), 'readonly': ('readonly',)}
        if made is not None:
            self.assertIn(made.kind, kinds[reach.what])
            if made.kind in ('global', 'inst'):
                said = reach.said or reach.name
                assert isinstance(said, Global)
                self.assertEqual(made.text, (said.module, said.name))

    def test_texts_are_the_programs_own(self) -> None:
        for name in ('words', 'hundred_marks', 'pandas_frame_protocol_4', 'frame_crossed'):
            data = self.pickles[name]
            answers = picklestep.listing(data), picklestep.objects(data), picklestep.calls(data)
            for answer in answers:
                first = answer.text.split('\n')[0]
                self.assertTrue(first)
                self.assertTrue(answer.text.endswith('\n'))

    def test_lines_are_read_by_their_columns(self) -> None:
        """Proved of all lines: an opcode's offset is before the first colon and its code in the four places behind the blank after it; an
        object's number is before the first blank."""
        for name, data in self.pickles.items():
            with self.subTest(name):
                answer = picklestep.listing(data)
                lines = [line for line in answer.text.split('\n')[:-1] if not line[0].isalpha()]
                self.assertEqual(len(lines), len(answer))
                for line, opcode in zip(lines, answer):
                    column, _, rest = line.partition(':')
                    cells = rest[1:5].rstrip()
                    code = bytes.fromhex(cells[2:]) if len(cells) == 4 else cells.encode()
                    self.assertEqual((opcode.offset, opcode.code), (int(column), code))
                objects = picklestep.objects(data)
                numbers = [int(line.partition(' ')[0][1:]) for line in objects.text.split('\n') if line.startswith('#')]
                self.assertEqual([made.number for made in objects], numbers)

    def test_arguments_can_be_given_back(self) -> None:
        for name, data in self.pickles.items():
            with self.subTest(name):
                for opcode, known in zip(picklestep.listing(data), known_opcodes(data)):
                    values = [] if opcode.argument is None else [opcode.argument]
                    if opcode.name not in ('GET', 'PUT', 'LONG1', 'LONG4'):  # (these have several spellings)
                        self.assertEqual(encoded(opcode.name, values), known.raw)


class Listings(unittest.TestCase):
    """Small listings, as the specification has them."""

    def test_a_list(self) -> None:
        answer = picklestep.listing(LIST)
        self.assertEqual(list(answer), [
            Opcode(0, b'\x80', 'PROTO', 4, '', 0), Opcode(2, b'\x95', 'FRAME', 6, '', 0), Opcode(11, b']', 'EMPTY_LIST', None, '', 0),
            Opcode(12, b'\x94', 'MEMOIZE', None, 'as 0', 0), Opcode(13, b'K', 'BININT1', 1, '', 0),
            Opcode(15, b'a', 'APPEND', None, '', 0), Opcode(16, b'.', 'STOP', None, '', 0)])
        self.assertEqual((answer.end, answer.protocol, answer.kept, answer.left), (End('stopped'), 4, 0, []))
        self.assertEqual(answer[-1], answer[6])
        self.assertEqual(answer[1:3], list(answer)[1:3])
        self.assertIn(Opcode(16, b'.', 'STOP', None, '', 0), answer)
        with self.assertRaises(IndexError):
            answer[7]

    def test_nothing(self) -> None:
        answer = picklestep.listing(b'')
        self.assertEqual((len(answer), answer.end, answer.protocol), (0, End('fault', 'F1', 'F1 ended at 0', 0), None))
        self.assertEqual(answer.text, 'fault: F1 ended at 0\n')

    def test_a_refusal(self) -> None:
        answer = picklestep.listing(b'g007\n.')
        self.assertEqual(answer.end, End('refused', 'S3', 'S3 no memo entry 7', 0, 0))
        self.assertEqual(answer[0].argument, 7)

    def test_what_is_left_and_kept(self) -> None:
        answer = picklestep.listing(b'(N.XY')
        self.assertEqual((answer.left, answer.kept, answer[1].marks), ([(0, 1)], 2, 1))

    def test_arguments(self) -> None:
        for data, argument in ((b'\x8a\x02\xff\x00.', 255), (b'\x8a\x00.', 0), (b'\x8a\x01\xff.', -1),
                               (b'\x8a\x11\x01' + b'\0' * 16 + b'.', 1), (b'G?\xf0\0\0\0\0\0\0.', 1.0), (b"U\x04'\\\nA.", b"'\\\nA"),
                               (b'U\x00.', b''), (b'ca b\n(MARK at 3)\n.', (b'a b', b'(MARK at 3)')), (b'I-5\n.', b'-5')):
            with self.subTest(data):
                self.assertEqual(picklestep.listing(data)[0].argument, argument)
                self.assertEqual(picklestep.listing(data)[0].note, '')

    def test_many(self) -> None:
        answer = picklestep.listing(b'(N.N.', many=True)
        self.assertEqual([opcode.name for opcode in answer], ['MARK', 'NONE', 'STOP', 'NONE', 'STOP'])
        self.assertEqual([opcode.marks for opcode in answer], [0, 1, 1, 0, 0])
        self.assertEqual((answer.left, answer.end.how), ([(0, 1)], 'stopped'))
        self.assertEqual(len(picklestep.listing(b'(N.N.')), 3)


    def test_without_frames(self) -> None:
        cut = b'\x80\x04\x95' + (6).to_bytes(8, 'little') + b']\x94K\x01a'
        answer = picklestep.listing(cut, unframed=True)
        self.assertEqual([opcode.name for opcode in answer], ['PROTO', 'FRAME', 'EMPTY_LIST', 'MEMOIZE', 'BININT1', 'APPEND'])
        self.assertEqual((answer.end.code, answer.end.offset), ('F1', 16))
        self.assertEqual(picklestep.objects(cut, unframed=True)[0].changes, (Change('append', 1),))
        self.assertEqual([opcode.name for opcode in picklestep.listing(cut)], ['PROTO'])
        self.assertEqual(len(picklestep.listing(cut + b'.N.', many=True, unframed=True)), 9)


class ObjectLines(unittest.TestCase):
    """Objects, as the specification has them."""

    def test_a_list_in_itself(self) -> None:
        answer = picklestep.objects(b']q\x00(h\x00h\x00e.')
        self.assertEqual(list(answer), [Object(0, 'list', None, (), (Change('append', 0), Change('append', 0)))])
        self.assertEqual((answer.results, answer.end), ((0,), End('stopped')))

    def test_an_ordered_dictionary(self) -> None:
        answer = picklestep.objects(b'ccollections\nOrderedDict\n)R(K\x01K\x02u.')
        self.assertEqual(list(answer), [
            Object(0, 'global', (b'collections', b'OrderedDict'), (), ()), Object(1, 'tuple', None, (), ()),
            Object(2, 'call', None, (0, 1), (Change('set', 4, 3),)), Object(3, 'int', 1, (), ()), Object(4, 'int', 2, (), ())])

    def test_other_kinds(self) -> None:
        for data, first in ((b'\x97\x98.', Object(0, 'buffer', 0, (), ())), (b'\x8f(N\x90.', Object(0, 'set', None, (), (Change('add', 1),))),
                            (b'}}b.', Object(0, 'dict', None, (), (Change('state', 1),))), (b'Px y\n.', Object(0, 'persistent', b'x y', (), ())),
                            (b'\x88.', Object(0, 'true', None, (), ())), (b'S"a"\n.', Object(0, 'string-line', b'"a"', (), ())),
                            (b'\x82\x07.', Object(0, 'ext', 7, (), ())), (b'G?\xf0\0\0\0\0\0\0.', Object(0, 'float', 1.0, (), ()))):
            with self.subTest(data):
                self.assertEqual(picklestep.objects(data)[0], first)

    def test_ends(self) -> None:
        self.assertEqual(picklestep.objects(b'N').end, End('fault', 'F1', 'F1 ended at 1', 1))
        self.assertEqual(picklestep.objects(b'N0.').end, End('refused', 'S2', 'S2 stack underflow', 2, 2))

    def test_many(self) -> None:
        answer = picklestep.objects(b'N.K\x01.', many=True)
        self.assertEqual((len(answer), answer.results), (2, (0, 1)))
        broken = picklestep.objects(b'N.\xff', many=True)
        self.assertEqual((broken.results, broken.end), ((0,), End('fault', 'F2', 'F2 unknown opcode 0xff at 2', 2)))


def text(value: bytes, more: int = 0) -> Brief:
    """A text in a line of `calls`."""
    return Brief('text', value, more)


class CallLines(unittest.TestCase):
    """Each line of `calls` in each of its forms."""

    def check(self, data: bytes, *wanted: Reach, many: bool = False) -> None:
        """The lines of a pickle, their texts apart, which are the program's."""
        answer = picklestep.calls(data, many=many)
        without = [Reach(r.offset, r.what, '', r.name, r.value, r.keywords, r.count, r.number, r.target) for r in answer]
        self.assertEqual(without, list(wanted))
        for reach, line in zip(answer, answer.text.split('\n')):
            self.assertEqual(line, f'{reach.offset:5d}: {reach.text}')

    def test_a_call(self) -> None:
        system = Global(b'posix', b'system')
        self.check(HOSTILE, Reach(0, 'import', '', system, number=0),
                   Reach(23, 'call', '', system, Briefs((text(b'id'),)), number=3))

    def test_a_name_from_the_stack(self) -> None:
        name = Global(b'a', b'b')
        self.check(b'\x8c\x01a\x8c\x01b\x93.', Reach(6, 'import', '', name, number=2))

    def test_a_name_of_objects(self) -> None:
        start = b'ca\nb\n'
        self.check(start + b'\x8c\x01x\x93)R.', Reach(0, 'import', '', Global(b'a', b'b'), number=0),
                   Reach(8, 'import', '', Global(Ref(0), b'x'), number=2),
                   Reach(10, 'call', '', Ref(2), Briefs(()), number=4))

    def test_a_name_of_two_objects(self) -> None:
        imported = Reach(0, 'import', '', Global(b'a', b'b'), number=0)
        both = Global(Ref(0), Ref(0))
        self.check(b'ca\nb\n2\x93)R.', imported, Reach(6, 'import', '', both, number=1), Reach(8, 'call', '', Ref(1), Briefs(()), number=3))
        self.check(b'ca\nb\n2\x93]R.', imported, Reach(6, 'import', '', both, number=1),
                   Reach(8, 'call', '', Ref(1), Brief('object', Ref(2)), number=3))

    def test_extensions(self) -> None:
        self.check(b'\x82\x07)R.', Reach(0, 'import', '', Extension(7), number=0),
                   Reach(3, 'call', '', Extension(7), Briefs(()), number=2))

    def test_a_call_of_a_call(self) -> None:
        name = Global(b'a', b'b')
        self.check(b'ca\nb\n)R]R.', Reach(0, 'import', '', name, number=0), Reach(6, 'call', '', name, Briefs(()), number=2),
                   Reach(8, 'call', '', Ref(2), Brief('object', Ref(3)), number=4))

    def test_inst_and_obj(self) -> None:
        name = Global(b'a', b'b')
        self.check(b'(K\x01ia\nb\n.', Reach(3, 'inst', '', name, Briefs((Brief('int', 1),)), number=1))
        self.check(b'(ca\nb\nNo.', Reach(1, 'import', '', name, number=0),
                   Reach(7, 'call', '', name, Briefs((Brief('none', None),)), number=2))

    def test_new(self) -> None:
        name = Global(b'a', b'b')
        imported = Reach(0, 'import', '', name, number=0)
        self.check(b'ca\nb\n)\x81.', imported, Reach(6, 'new', '', name, Briefs(()), number=2))
        self.check(b'ca\nb\n)}\x92.', imported, Reach(7, 'new', '', name, Briefs(()), Brief('object', Ref(2)), number=3))

    def test_changes(self) -> None:
        name = Global(b'a', b'b')
        start = (Reach(0, 'import', '', name, number=0),)
        self.check(b'ca\nb\n}b.', *start, Reach(6, 'state', '', value=Brief('object', Ref(1)), target=0))
        self.check(b'ca\nb\n(NNe.', *start, Reach(8, 'append', '', count=2, target=0))
        self.check(b'ca\nb\nNNs.', *start, Reach(7, 'set', '', count=1, target=0))
        self.check(b'ca\nb\n(N\x90.', *start, Reach(7, 'add', '', count=1, target=0))

    def test_persistent_ids_and_buffers(self) -> None:
        self.check(b'Pa b\n.', Reach(0, 'persistent', '', value=text(b'a b'), number=0))
        self.check(b'NQ.', Reach(1, 'persistent', '', value=Brief('none', None), number=1))
        self.check(b'\x97\x97\x86.', Reach(0, 'buffer', '', count=0, number=0), Reach(1, 'buffer', '', count=1, number=1))
        self.check(b'ca\nb\n\x98.', Reach(0, 'import', '', Global(b'a', b'b'), number=0), Reach(5, 'readonly', '', number=1, target=0))

    def test_values(self) -> None:
        long = b'\x8a\x11\x01' + b'\0' * 16
        cut = b'\x8b\x46\0\0\0' + b'\x01' * 70
        items = b'N\x88I7\nL8L\nF1.5\n' + long + cut + b'G?\xf0\0\0\0\0\0\0S"q"\nU\x01sB\x01\0\0\0bV\\u0041\nca\nb\n\x82\x03]'
        wanted: List[Brief] = [
            Brief('none', None), Brief('true', True), Brief('int-line', b'7'), Brief('long-line', b'8L'), Brief('float-line', b'1.5'),
            Brief('int', 1), Brief('int', b'\x01' * 64, 6), Brief('float', 1.0), Brief('string', b'q'), Brief('string', b's'),
            Brief('bytes', b'b'), text(b'A'), Brief('global', Global(b'a', b'b')), Brief('ext', Extension(3)),
            Brief('object', Ref(15))]
        answer = picklestep.calls(b'ca\nb\n(' + items + b'tR.')
        self.assertEqual(answer[-1].value, Briefs(tuple(wanted)))

    def test_cut_payloads(self) -> None:
        for size, more in ((64, 0), (65, 1)):
            data = b'ca\nb\nX' + size.to_bytes(4, 'little') + b'x' * size + b'\x85R.'
            self.assertEqual(picklestep.calls(data)[1].value, Briefs((text(b'x' * 64, more),)))

    def test_many_arguments(self) -> None:
        for count, more in ((16, 0), (17, 1)):
            self.assertEqual(picklestep.calls(b'ca\nb\n(' + b'N' * count + b'tR.')[1].value, Briefs((Brief('none', None),) * 16, more))

    def test_names_that_look_like_something_else(self) -> None:
        module = b" as #1', \\x00"
        data = b'c' + module + b'\n) to (\n)R.'
        name = Global(module, b') to (')
        self.check(data, Reach(0, 'import', '', name, number=0), Reach(len(data) - 2, 'call', '', name, Briefs(()), number=2))

    def test_ends(self) -> None:
        for data, end, kept in ((b'N', End('fault', 'F1', 'F1 ended at 1', 1), 0), (b'0.', End('refused', 'S2', 'S2 stack underflow', 0, 0), 0),
                                (b'N.xyz', End('stopped'), 3)):
            answer = picklestep.calls(data, first=True)
            self.assertEqual((len(answer), answer.imports, answer.calls, answer.end, answer.kept), (0, 0, 0, end, kept))

    def test_the_offset_of_a_refused_opcode(self) -> None:
        long = b'X\0\0\x30\0' + b'x' * 0x300000
        for data, many in ((b'N' * 300_000 + b'K\x01' * 300_000 + b'}R.', False), (long + b'0i' + b'a' * 3_000_000 + b'\nb\n.', False),
                           (b'NN.' * 1000 + b'0.', True), (b'R', False)):
            for ask in (picklestep.calls, picklestep.objects):
                with self.subTest(ask.__name__, data=data[-3:]):
                    self.assertEqual(ask(data, many=many, timeout=600).end, picklestep.listing(data, many=many).end)

    def test_two_pickles(self) -> None:
        answer = picklestep.calls(HOSTILE + HOSTILE, many=True)
        self.assertEqual((answer.imports, answer.calls, [reach.offset for reach in answer]), (2, 2, [0, 23, 25, 48]))


def told(*lines: Dict[str, Any]) -> bytes:
    """Lines of `calls --json`, with the last one. Here most have no text."""
    return b''.join(json.dumps({**line, 'text': line.get('text', '0: ')}, separators=(',', ':')).encode() + b'\n'
                    for line in (*lines, {'kind': 'end', 'status': 1}))


def said(kind: str, offset: int, number: int, text: str = '', **fields: Any) -> Dict[str, Any]:
    return {'kind': kind, 'offset': offset, **fields, 'object': number, 'text': f'{offset:5}: {text}'}


def counts(imports: int, calls: int) -> Dict[str, Any]:
    return {'kind': 'counts', 'imports': imports, 'calls': calls}


STOPPED = {'kind': 'ending', 'how': 'stopped', 'kept': 0}
FAULT = {'kind': 'ending', 'how': 'fault', 'code': 'F5', 'words': 'bad argument', 'offset': 12, 'of_frame': False}
UNDER = {'kind': 'heading', 'frames': 'ignored', 'text': 'a loader may go on:'}
TELLING = told(
    said('import', 0, 0, "import 'm' 'n' as #0", module='m', name='n'),
    said('inst', 5, 1, module='a', name='b', for_module='c', for_name='d', args=[{'kind': 'none'}], args_more=3),
    said('import', 9, 2, module_raw_hex='6f73ff', name='x'),
    said('call', 21, 6, callee=5, args={'kind': 'text', 'value': 'D'}),
    said('append', 22, 0, count=0),
    {'kind': 'begins', 'like': 'a zip archive'}, counts(2, 3),
    {'kind': 'ending', 'how': 'refused', 'code': 'S10', 'words': 'not arguments', 'object': 1, 'item': 2},
    UNDER, said('call', 21, 2, module='m', name='n', args={'kind': 'string', 'value_raw_hex': '6964ff'}), counts(0, 1), STOPPED,
    {'kind': 'heading', 'frames': 'buffered', 'text': 'a loader that buffers frames may go on:'},
    said('import', 29, 9, module_object=1, name='n'), counts(1, 0),
    {'kind': 'ending', 'how': 'refused', 'code': 'S2', 'words': 'stack underflow', 'item': 9})


class Parts(unittest.TestCase):
    """What loaders may reach behind an end, in lines that are made here."""

    def test_each_part_has_its_lines_counts_and_end(self) -> None:
        answer = Calls(TELLING, 21)
        self.assertEqual([reach.offset for reach in answer], [0, 5, 9, 21, 22])
        self.assertEqual((len(answer), answer.imports, answer.calls, answer.container), (5, 2, 3, 'a zip archive'))
        self.assertEqual(answer.end, End('refused', 'S10', 'S10 not arguments #1', 21, 2))
        first, second = answer.parts
        self.assertEqual((first.heading, len(first), first.imports, first.calls), ('a loader may go on', 1, 0, 1))
        self.assertEqual((first[0].value, first.end), (Brief('raw string', b'id\xff'), End('stopped')))
        self.assertEqual(second.heading, 'a loader that buffers frames may go on')
        self.assertEqual((second[0].name, second.end), (Global(Ref(1), b'n'), End('refused', 'S2', 'S2 stack underflow', None, 9)))
        self.assertEqual([reach.offset for reach in answer.everything()], [0, 5, 9, 21, 22, 21, 29])

    def test_names_say_what_is_imported_and_for_which(self) -> None:
        answer = Calls(TELLING)
        self.assertEqual((answer[1].name, answer[1].said), (Global(b'a', b'b'), Global(b'c', b'd')))
        self.assertEqual((answer[1].value, answer[1].number), (Briefs((Brief('none', None),), 3), 1))
        self.assertEqual(answer[2].name, Global(b'os\xff', b'x', ('module',)))
        self.assertEqual((answer[3].name, answer[3].value), (Ref(5), Brief('text', b'D')))
        self.assertEqual((answer[4].what, answer[4].count, answer[4].target), ('append', 0, 0))

    def test_there_is_no_part_where_nothing_is_reached(self) -> None:
        answer = picklestep.calls(b'Np+1\n.')
        self.assertEqual((answer.end.code, answer.parts), ('F5', ()))

    def test_an_end_may_be_unsure(self) -> None:
        answer = Calls(told(counts(0, 0), {'kind': 'ending', 'how': 'unsure', 'code': 'U1', 'words': 'frame goes on behind STOP', 'offset': 10}))
        self.assertEqual((answer.end, answer.parts), (End('unsure', 'U1', 'U1 frame goes on behind STOP at 10', 10), ()))

    def test_what_a_mix_may_take_is_no_part(self) -> None:
        unsure = {'kind': 'unsure', 'code': 'U3', 'words': 'frames may be mixed', 'offset': 10}
        taken = {'kind': 'taken', 'offset': 23, 'opcode': 'GLOBAL', 'text': "   23: GLOBAL 'm' 'n'"}, {'kind': 'taken', 'offset': 35, 'opcode': 'REDUCE', 'text': ''}
        answer = Calls(told(counts(0, 0), FAULT, unsure, {'kind': 'mixes'}, *taken, {'kind': 'opcodes', 'count': 2}))
        self.assertEqual((answer.mixed, answer.mixes, answer.parts), ('U3 frames may be mixed at 10', ("23: GLOBAL 'm' 'n'", '35: REDUCE'), ()))
        answer = Calls(told(counts(0, 0), FAULT, unsure, {'kind': 'too_many_ways', 'text': 'too many ways to mix frames'}))
        self.assertEqual((answer.mixed, answer.mixes), ('U3 frames may be mixed at 10', ('too many ways to mix frames',)))

    def test_kept_bytes_are_no_other_end(self) -> None:
        answer = Calls(told(counts(0, 0), {**STOPPED, 'kept': 3}))
        self.assertEqual((answer.end, answer.kept), (End('stopped'), 3))

    def test_a_warning_is_no_end(self) -> None:
        """Each section may have one, behind its last line."""
        warned = {'kind': 'warning', 'about': 'unpickler', 'object': 0, 'words': 'leads to the unpickler'}
        for closing, end in ((STOPPED, End('stopped')), (FAULT, End('fault', 'F5', 'F5 bad argument at 12', 12))):
            answer = Calls(told(said('import', 0, 0, module='gc', name='collect'), counts(1, 0), closing, warned))
            self.assertEqual((len(answer), answer.end, answer.warning), (1, end, '#0 leads to the unpickler'))
        under = UNDER, said('import', 16, 1, module='os', name='x'), counts(1, 0), STOPPED
        answer = Calls(told(counts(0, 0), FAULT, *under, warned))
        self.assertEqual((answer.warning, answer.parts[0].warning, answer.parts[0].end), (None, '#0 leads to the unpickler', End('stopped')))
        self.assertIsNone(Calls(told(counts(1, 0), FAULT, warned, *under)).parts[0].warning)

    def test_a_text_is_no_heading(self) -> None:
        answer = Calls(told(said('persistent', 0, 0, line='\n{"kind":"heading"\n{"kind":"counts"'), counts(0, 0), STOPPED))
        self.assertEqual((len(answer), answer.parts), (1, ()))

    def test_readings_are_asked_one_at_a_time(self) -> None:
        with self.assertRaises(ValueError):
            picklestep.calls(b'N.', first=True, memo_kept=True)

    def test_long_lines_that_are_shown_again_and_again(self) -> None:
        """Their ends are not searched for each time, which would take tens of seconds."""
        line = b'1' * (1 << 20)
        for argument in (b'V%s\n', b"S'%s'\n", b'L%sL\n', b'F%s\n', b'I%s\n', b'P%s\n', b'(i%s\nx\n'):
            content = b'(' + argument % line + b'tq\0cm\nn\nq\1' + b'h\1h\0R0' * 10_000 + b'N.'
            with self.subTest(argument):
                before = seconds_of_programs()
                self.assertEqual(sum(reach.text.startswith("call 'm' 'n' (") for reach in picklestep.calls(content, timeout=600)), 10_000)
                self.assertLess(seconds_of_programs() - before, 5)

    def test_arguments_in_full(self) -> None:
        content = b'cm\nn\n(' + b'X' + (70).to_bytes(4, 'little') + b'a' * 70 + b'N' * 17 + b'tR.'
        cut, full = picklestep.calls(content)[1], picklestep.calls(content, full=True)[1]
        self.assertEqual(cut.text, f"call 'm' 'n' ('{'a' * 64}'+6{', none' * 15}, +2) as #20")
        self.assertEqual(full.text, f"call 'm' 'n' ('{'a' * 70}'{', none' * 17}) as #20")


if __name__ == '__main__':
    unittest.main()
