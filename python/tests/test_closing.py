"""The readers of closing lines and headings, on all texts of the rows and of the real pickles: each line of `list`, `objects` and `calls` is that
of an opcode, an object or an event, or has one of the forms of the definitions (crates: pickle_list/specs/Line, pickle_text/specs: Closing,
ReportLine; pickle_calls/specs: Begins, CallsLine; pickle_further/specs: CallsText, Parts), and stands where they have it. What is read of it is
what it says."""

from __future__ import annotations

import re
import unittest
from dataclasses import replace
from typing import Dict, Iterator, List, NamedTuple, Optional, Sequence, Tuple, Union

import picklestep
from picklestep import End
from picklestep.answers import Calls, Listing, Objects, Reached
from picklestep.tasks import Asked, modes
from json_texts import listed, made
from pickles import ROOT, real_pickles

_NUMBER = '(?:0|[1-9][0-9]*)'
# Refusals and faults, each by its code with the words behind it.
_REFUSALS = {'S1': 'no mark', 'S2': 'stack underflow', 'S3': f'no memo entry {_NUMBER}', 'S4': 'odd number of items', 'S5': f'wrong kind #{_NUMBER}',
             'S6': f'bad protocol {_NUMBER}', 'S7': f'bad extension -?{_NUMBER}', 'S8': f'not a text #{_NUMBER}', 'S9': f'not callable #{_NUMBER}',
             'S10': f'not arguments #{_NUMBER}', 'S11': f'not keywords #{_NUMBER}', 'M': 'out of memory'}
_FAULTS = {'F1': 'ended', 'F2': 'unknown opcode 0x[0-9a-f]{2}', 'F3': 'truncated', 'F4': 'negative length', 'F5': 'bad argument',
           'F6': 'frame in a frame', 'F7': 'frame past the end', 'F8': 'frame crossed'}
_REFUSAL = '|'.join(f'{code} {words}' for code, words in _REFUSALS.items())
_FAULT = '|'.join(f'{code} {words}' for code, words in _FAULTS.items())
_READINGS = 'a loader|a loader that buffers frames|a loader that keeps its buffer'

# What bytes may begin like, by the program's own table: at which offset, with which bytes, and the name.
_CONTAINERS = [(int(offset), signs.encode('ascii').decode('unicode_escape').encode('latin-1'), name) for offset, signs, name in re.findall(
    r'^    \(([0-9]+), b"(.*)", "(.*)"\),$', (ROOT / 'crates/pickle_calls/src/begins.rt').read_text('utf-8'), re.MULTILINE)]
_NAMES = '|'.join(re.escape(name) for _, _, name in _CONTAINERS)

# The forms, each with a letter. Small ones are lines of opcodes, objects and events, large ones all others.
_OPCODE = {'o': r' *[0-9]+: (?:\\x[0-9a-f]{2}|[!-~]) +[A-Z][A-Z0-9_]*(?: .*)?'}
_OBJECT = {'o': '#[0-9]+ [a-z-]+(?: .*)?'}
_EVENT = {'o': ' *[0-9]+: (?:import|inst|call|new|state|append|set|add|persistent|buffer|readonly) .*'}
_FAULT_LINE = {'F': f'fault: (?P<fault>(?:{_FAULT}) at (?P<offset>{_NUMBER}))'}
_KEPT = {'K': f'kept: (?P<kept>{_NUMBER}) bytes after STOP'}
_REFUSED_ITEM = {'R': f'refused: item (?P<item>{_NUMBER}): (?P<refused>{_REFUSAL})'}
_FORMS: Dict[str, Dict[str, str]] = {
    'list': {**_OPCODE, **_FAULT_LINE, **_KEPT, 'R': f'refused: (?P<refused>{_REFUSAL})',
             'P': f'highest protocol among opcodes = (?P<protocol>{_NUMBER})',
             'L': f'left: (?P<objects>{_NUMBER}) objects, (?P<marks>{_NUMBER}) marks'},
    'objects': {**_OBJECT, **_FAULT_LINE, **_REFUSED_ITEM, 'T': f'result #(?P<result>{_NUMBER})'},
    'calls': {**_EVENT, **_FAULT_LINE, **_KEPT, **_REFUSED_ITEM, 'T': f'(?P<imports>{_NUMBER}) imports, (?P<calls>{_NUMBER}) calls',
              'B': f'begins like (?P<container>{_NAMES}): picklestep scan looks into it',
              'U': f'unsure: (?P<unsure>(?:U1 frame goes on behind STOP|U2 rest of a frame is lost) at (?P<offset>{_NUMBER}))',
              'M': f'unsure: (?P<mixed>U3 frames may be mixed at (?P<offset>{_NUMBER}))',
              'A': '(?P<taking>a loader that mixes frames may take):',
              'D': r' *[0-9]+: [A-Z][A-Z0-9_]*(?: .*)?',
              'N': f'(?P<taken>{_NUMBER}) opcodes',
              'X': '(?P<too_many>too many ways to mix frames)',
              'W': f'warning: (?P<warning>#{_NUMBER} (?:leads to the unpickler|is a tuple nested deeper than 100))',
              'H': f'(?P<heading>(?:{_READINGS}) may go on):',
              'E': f'it ends: (?:STOP|{_REFUSED_ITEM["R"]}|{_FAULT_LINE["F"]})'}}
# In which order they stand. A text that is refused for bytes to leave out, which are not there, is that line alone.
_ORDERS = {'list': '(?:oL?)*(?:K?|F|R)P?', 'objects': 'o*T*(?:F|R)?', 'calls': 'o*B?T(?:KW?|UW?|(?:F|R)?W?U?)(?:Ho+TEW?)*(?:M?(?:AD*N|X))?'}
_OUTSIDE = re.compile(f'refused: (?P<words>hole {_NUMBER}:{_NUMBER} ends behind the last of {_NUMBER} bytes)\n')
_PATTERNS = {what: {letter: re.compile(form) for letter, form in forms.items()} for what, forms in _FORMS.items()}

Text = Union[str, Calls]


class Form(NamedTuple):
    """A line: the letter of its form, and what it says by the words of that."""

    letter: str
    said: Dict[str, Optional[str]]
    line: str

    def number(self, word: str) -> int:
        """A number that it says."""
        return int(self.said[word] or '')


def rows() -> Iterator[Tuple[str, Text]]:
    """The texts of the rows that are tried from outside, each with its command; of `calls` the answers about their pickles."""
    for name in ('texts.txt', 'calls.txt', 'conversations.txt'):
        text = (ROOT / 'equipment' / name).read_text('ascii')
        for row in re.finditer(r'^(list)(?: [0-9a-f]+)*: (.*\n)', text, re.MULTILINE):
            yield row[1], row[2]
        for block in re.split('\n\n', text):
            for match in re.finditer(r'^\$ (list|objects)(?!.* --(?:json|whole))(?: .*)?\n((?!\$ |debug> |saved ).*\n?)*', block + '\n', re.MULTILINE):
                lines = match[0].rstrip('\n').split('\n')[1:]
                yield match[1], ''.join(f'{line}\n' for line in lines)
        for digits in re.findall(r'^pickle ([0-9a-f ]+)$', text, re.MULTILINE):
            content = bytes.fromhex(digits)
            yield from (('calls', picklestep.calls(content, first=first)) for first in (False, True))
            yield 'calls', picklestep.calls(content, memo_kept=True)
    yield 'calls', picklestep.calls(b'N.', skip=[(1, 9)])
    # frames in frames, each of which ends before the one around it
    yield 'calls', picklestep.calls(b''.join(b'\x95' + (3390 - 11 * place).to_bytes(8, 'little') + b'N' for place in range(300)) + b'N' * 400 + b'.')


def answers() -> Iterator[Tuple[str, Text]]:
    """The program's texts of the real pickles, whole, cut off, and with bytes behind them; and where numbers have several digits."""
    made = b'N' * 12 + b'(' * 123 + b'N.' + b'N' * 1000
    yield from (('list', _printed(made, False)), ('objects', picklestep.objects(made).text), ('calls', picklestep.calls(made, first=True)))
    for data in real_pickles().values():
        for content in (data, data[:len(data) // 2], data + data[:-1], b'R' + data):
            for many in (False, True):
                yield 'list', _printed(content, many)
                yield 'objects', picklestep.objects(content, many=many).text
                yield 'calls', picklestep.calls(content, first=not many)
            yield 'calls', picklestep.calls(content, memo_kept=True)


def _printed(content: bytes, many: bool) -> str:
    with Asked(content, None, None) as asked:
        return asked.answer(['list', *modes(many)])


def forms_of(what: str, text: str) -> List[Form]:
    """The lines of a text, each of which has one form."""
    forms = []
    for line in text.split('\n')[:-1]:
        found = [(letter, match) for letter, match in ((letter, pattern.fullmatch(line)) for letter, pattern in _PATTERNS[what].items()) if match]
        if len(found) != 1:
            raise AssertionError(f'{len(found)} forms: {line}')
        forms.append(Form(found[0][0], found[0][1].groupdict(), line))
    return forms


def end_in(forms: Sequence[Form], refused_at: Tuple[Optional[int], Optional[int]] = (None, None)) -> End:
    """How reading ended. What a line does not say of a refused opcode, its offset and its place, is given."""
    for form in sorted((form for form in forms if form.letter in 'RFUE'), key=lambda form: 'REFU'.index(form.letter)):
        for how in ('refused', 'fault', 'unsure'):
            words = form.said.get(how)
            if words is not None:
                item = form.number('item') if form.said.get('item') else refused_at[1]
                offset = refused_at[0] if how == 'refused' else form.number('offset')
                return End(how, words.split()[0], words, offset, item if how == 'refused' else None)
    return End('stopped')


def number_in(forms: Sequence[Form], letter: str, word: str) -> Optional[int]:
    """What the line of a form says, of which there is at most one."""
    found = [form.number(word) for form in forms if form.letter == letter]
    assert len(found) <= 1
    return found[0] if found else None


class ClosingLines(unittest.TestCase):
    """What is read of a line is what it says."""

    def check(self, what: str, answer: Text) -> str:
        """Checks a text or the answer that has it, and answers the letters of its closing lines."""
        text = answer if isinstance(answer, str) else answer.text
        outside = _OUTSIDE.fullmatch(text)
        if outside and isinstance(answer, Calls):
            self.assertEqual((answer.end, [*answer], answer.imports), (End('refused', text=outside['words']), [], 0))
            return ''
        forms = forms_of(what, text)
        self.assertRegex(''.join(form.letter for form in forms), f'^{_ORDERS[what]}$')
        if isinstance(answer, Calls):
            self.check_calls(answer, forms)
        else:
            {'list': self.check_list, 'objects': self.check_objects}[what](text, forms)
        return ''.join(form.letter for form in forms if form.letter != 'o')

    def check_list(self, text: str, forms: List[Form]) -> None:
        answer, opcodes = Listing(listed(text)), [form.line for form in forms if form.letter == 'o']
        last = int(opcodes[-1].split(':')[0]) if opcodes else None
        self.assertEqual([opcode.offset for opcode in answer], [int(line.split(':')[0]) for line in opcodes])
        self.assertEqual(answer.end, end_in(forms, (last, len(opcodes) - 1)))
        self.assertEqual(answer.text, text)
        self.assertEqual(answer.protocol, number_in(forms, 'P', 'protocol'))
        self.assertEqual(answer.kept, number_in(forms, 'K', 'kept') or 0)
        left = [(form.number('objects'), form.number('marks')) for form in forms if form.letter == 'L']
        self.assertEqual(answer.left, left)

    def check_objects(self, text: str, forms: List[Form]) -> None:
        answer, objects = Objects(made(text)), [form.line for form in forms if form.letter == 'o']
        self.assertEqual([f'#{each.number} {each.kind}' for each in answer], [' '.join(line.split(' ')[:2]) for line in objects])
        self.assertEqual(answer.end, end_in(forms))
        results = tuple(form.number('result') for form in forms if form.letter == 'T')
        self.assertEqual(answer.results, results)
        self.assertEqual(answer.text, text)

    def check_calls(self, answer: Calls, forms: List[Form]) -> None:
        begins = [at for at, form in enumerate(forms) if form.letter == 'H']
        strict, parts = forms[:begins[0] if begins else None], [forms[at:end] for at, end in zip(begins, [*begins[1:], len(forms)])]
        self.check_part(answer, strict)
        self.assertEqual(answer.kept, number_in(strict, 'K', 'kept') or 0)
        container = [form.said['container'] for form in forms if form.letter == 'B']
        self.assertEqual([answer.container], container or [None])
        self.assertEqual([answer.mixed], [form.said['mixed'] for form in forms if form.letter == 'M'] or [None])
        self.assertEqual(answer.mixes, tuple(form.line.strip() for form in forms if form.letter in 'DX') if answer.mixed else ())
        taken = [form for form in forms if form.letter == 'D']
        self.assertEqual(len(taken), number_in(forms, 'N', 'taken') or 0)
        self.assertEqual([part.heading for part in answer.parts], [part[0].said['heading'] for part in parts])
        for part, wanted in zip(answer.parts, parts):
            self.check_part(part, wanted)

    def check_part(self, answer: Reached, forms: Sequence[Form]) -> None:
        events = [form.line.lstrip() for form in forms if form.letter == 'o']
        self.assertEqual([f'{reach.offset}: {reach.text}' for reach in answer], events)
        totals = number_in(forms, 'T', 'imports'), number_in(forms, 'T', 'calls')
        self.assertEqual((answer.imports, answer.calls), totals)
        self.assertEqual(replace(answer.end, offset=None if answer.end.how == 'refused' else answer.end.offset), end_in(forms))
        self.assertEqual([answer.warning], [form.said['warning'] for form in forms if form.letter == 'W'] or [None])

    def test_rows(self) -> None:
        """There is each form in them, and of each refusal and fault a line."""
        found, texts = set(), ''
        for what, answer in rows():
            text = answer if isinstance(answer, str) else answer.text
            with self.subTest(text):
                found |= {(what, letter) for letter in self.check(what, answer)}
                texts += text
        self.assertEqual({(what, letter) for what, forms in _FORMS.items() for letter in forms if letter != 'o'} - found, set())
        self.assertEqual([words for words in (*_REFUSALS.values(), *_FAULTS.values()) if not re.search(words, texts)], ['out of memory'])

    def test_real_pickles(self) -> None:
        for what, answer in answers():
            with self.subTest(str(answer)[:200]):
                self.check(what, answer)

    def test_containers(self) -> None:
        """The program's line of each row of its table."""
        self.assertGreater(len(_CONTAINERS), 20)
        for offset, signs, name in _CONTAINERS:
            with self.subTest(name):
                answer = picklestep.calls(bytes(offset) + signs)
                self.check('calls', answer)
                self.assertEqual(answer.container, name)


if __name__ == '__main__':
    unittest.main()
