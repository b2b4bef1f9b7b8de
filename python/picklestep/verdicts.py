"""The lines of `form --json`, `reach --json`, `gate --json`, `members --json` and `same --json`, read. docs/reference/json.md has their fields."""

from __future__ import annotations

import os
from typing import TYPE_CHECKING, Callable, List, Optional, Tuple

from .errors import ProgramError
from .listed import Fields, argument_of, check_whole, content_of, fields_in, fields_of, shown_argument, words_of
from .opens import BETWEEN
from .sources import LIMIT

if TYPE_CHECKING:
    from .short_records import GateAnswer, Member, OtherForm, ReachAnswer, SameAnswer

__all__ = ['IN_FORM', 'gate_answer', 'line_refused', 'members_of', 'other_form', 'reach_answer', 'same_answer', 'why_unlisted']

# What is said of a pickle that is in the form.
IN_FORM = b'{"kind":"end","how":"in_form"}\n'
# What `gate` says, by the field `how` of its line; of what is not looked at with the reason.
_KINDS = {'passes': 'passes', 'not_allowed': 'not allowed', 'other_form': 'other form', 'not_in_form': 'other form', 'broken': 'broken'}
_UNSEEN = {'archive': ('an archive', 'it is not looked at'), 'container': ('a container', 'it is not looked at'),
           'same_names': ('not looked at', 'two names that differ in case alone'),
           'unclear_names': ('not looked at', 'two names for one file, or a name with an empty part, . or ..'),
           'two_kinds': ('not looked at', 'a loader may take the archive itself for something else'), 'too_large': ('not looked at', f'it unpacks to more than {LIMIT} bytes')}
# What `same` says, and of which file.
_COMPARED = {'same': 'the same objects', 'results': 'another result', 'order': 'other calls, or in another order'}
_FILES = {'first': 'first', 'other': 'second'}


def other_form(line: bytes) -> Optional[OtherForm]:
    """What the line of `form --json` says, or None where the pickle is in the form. Raises ProgramError where it is not whole.

    >>> other_form(b'{"kind":"end","how":"other_form","item":3,"offset":7,"reason":"no_state","words":"a state that is None"}\\n')
    OtherForm(item=3, offset=7, reason='a state that is None', rule='no_state')
    """
    if line == IN_FORM:
        return None
    from .short_records import OtherForm  # (most pickles are in the form)
    fields = fields_of(check_whole(line))
    return OtherForm(int(fields['item']), int(fields['offset']), fields['words'], fields['reason'])


def reach_answer(line: bytes) -> ReachAnswer:
    """What the line of `reach --json` says. Raises ProgramError where it is not whole.

    >>> reach_answer(b'{"kind":"end","how":"nothing","offset":1,"whatever_follows":true}\\n').text
    'nothing reached: every loader ends by 1, whatever follows'
    >>> reach_answer(b'{"kind":"end","how":"too_many_ways"}\\n').reached
    True
    """
    from .short_records import ReachAnswer
    fields = fields_of(check_whole(line))
    how = fields['how']
    if how == 'reached':
        return _reached(fields)
    if how == 'nothing':
        offset, follows = int(fields['offset']), fields['whatever_follows']
        return ReachAnswer(False, f'nothing reached: every loader ends by {offset}{", whatever follows" * follows}', offset, whatever_follows=follows)
    return ReachAnswer(True, 'too many ways to read the bytes')


def _reached(fields: Fields) -> ReachAnswer:
    from .short_records import ReachAnswer
    offset, argument = int(fields['offset']), shown_argument(fields)
    line = f'{fields["opcode"]} {argument}' if argument else fields['opcode']
    names = argument_of(fields)
    return ReachAnswer(True, f'reached at {offset}: {line}', offset, line, what=fields['reach'], names=names if isinstance(names, tuple) else None,
                       frames=fields['frames'], in_buffer=int(fields['in_buffer']))


def line_refused(line: bytes) -> Optional[int]:
    """The line of a list, from 1, that is no entry of one, where `gate --json` says that. Raises ProgramError where its line is not whole.

    >>> line_refused(b'{"kind":"verdict","how":"not_a_list","line":3}\\n'), line_refused(b'{"kind":"verdict","how":"passes"}\\n')
    (3, None)
    """
    fields = _verdict(line)
    return int(fields['line']) if fields['how'] == 'not_a_list' else None


def _verdict(line: bytes) -> Fields:
    if not (line.startswith(b'{"kind":"verdict"') and line.endswith(b'}\n')):
        raise ProgramError('the program gave no whole answer')
    return fields_of(line)


def _text_in(fields: Fields, name: str) -> Optional[str]:
    return os.fsdecode(content_of(fields, name)) if name in fields or f'{name}_hex' in fields else None


def gate_answer(line: bytes, text: Callable[[], str]) -> GateAnswer:
    """What the line of `gate --json` says of a file. `text` gives the line for people, where that is too long for the line of JSON. Raises
    ProgramError where a line of the list is no entry, and where the line of JSON is not whole.

    >>> line = b'{"kind":"verdict","member":"data.pkl","how":"not_allowed","offset":0,"words":"import a","text":"..."}\\n'
    >>> answer = gate_answer(line, str)
    >>> answer.passes, answer.member, answer.kind, answer.offset, answer.reason
    (False, 'data.pkl', 'not allowed', 0, 'import a')
    """
    from .short_records import GateAnswer
    fields = _verdict(line)
    how = fields['how']
    if how == 'not_a_list':
        raise ProgramError(f'not a list: line {fields["line"]} is no entry')
    kind, reason = _UNSEEN.get(how) or (_KINDS.get(how, 'ended'), fields.get('words', ''))
    if 'words_hex' in fields:
        reason = content_of(fields, 'words').decode('utf-8', 'backslashreplace')
    if kind == 'ended':
        reason = words_of(fields) if 'code' in fields else how
    member = _text_in(fields, 'member')
    packed = _text_in(fields, 'archive')  # (of a tar archive in a packed file)
    member = member if packed is None else f'{packed}{BETWEEN}{member}'
    offset = int(fields['offset']) if 'offset' in fields else None
    return GateAnswer(how == 'passes', fields['text'] if 'text' in fields else text(), kind, reason, offset, member, 'behind_header' in fields)


def members_of(lines: bytes) -> Tuple[List[Member], Fields]:
    """The members that the lines of `members --json` name, and the fields of the line behind them: `how` is 'whole' where they are all. Raises
    ProgramError where the lines are not whole.

    >>> line = b'{"kind":"member","name":"a.pkl","offset":35,"size":9,"method":"deflated","packed":5}\\n'
    >>> found, end = members_of(line + b'{"kind":"end","how":"whole"}\\n')
    >>> found, end['how']
    ([Member(name='a.pkl', offset=35, size=9, deflated=5, address='')], 'whole')
    """
    from .short_records import Member
    *found, end = fields_in(check_whole(lines))
    return [Member(os.fsdecode(content_of(each, 'name')), int(each['offset']), int(each['size']), int(each['packed']) if 'packed' in each else None)
            for each in found], end


def why_unlisted(end: Fields) -> str:
    """Why a file has no members that all readers find, as `members` says it, by the fields of its last line.

    >>> why_unlisted({'how': 'not_in_form', 'offset': 3, 'words': 'a name that is not plain'})
    'not in form: 3: a name that is not plain'
    """
    if end['how'] == 'too_large':
        return f'it unpacks to more than {LIMIT} bytes: it is not looked at'
    return f'not in form: {end["offset"]}: {end["words"]}'


def same_answer(line: bytes) -> SameAnswer:
    """What the line of `same --json` says. Raises ProgramError where it is not whole.

    >>> same_answer(b'{"kind":"same","how":"object","object":3}\\n').text
    'another object #3'
    >>> same_answer(b'{"kind":"same","how":"other_ends","end":{"kind":"end","how":"fault","code":"F1","words":"ended","offset":0,"of_frame":false}}\\n').text
    'second: fault: F1 ended at 0'
    """
    from .short_records import SameAnswer
    if not (line.startswith(b'{"kind":"same"') and line.endswith(b'}\n')):
        raise ProgramError('the program gave no whole answer')
    fields = fields_of(line)
    return SameAnswer(fields['how'] == 'same', _compared(fields))


def _compared(fields: Fields) -> str:
    how = fields['how']
    if how == 'object':
        return f'another object #{fields["object"]}'
    if how in _COMPARED:
        return _COMPARED[how]
    file = _FILES[how.partition('_')[0]]
    return f'{file}: {_ended(fields["end"])}' if 'end' in fields else f'{file}: bytes follow behind the pickle'


def _ended(end: Fields) -> str:
    return f'refused: item {end["item"]}: {words_of(end)}' if end['how'] == 'refused' else f'{end["how"]}: {words_of(end)}'
