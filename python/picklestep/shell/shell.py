"""The shell's words: each is run by the proved program's session, and answered with values and names."""

from __future__ import annotations

import contextlib
import re
import shlex
from bisect import bisect_right
from itertools import accumulate, chain
from typing import Callable, Dict, List, Optional, Sequence, Tuple

from ..comparing import compare
from ..diff import of_reaches
from ..document import Done
from ..edits import Edit, EditError, of_object, of_value, of_words
from ..errors import NoResult, PicklestepError, Refused, reason
from ..hints import of_array, of_frame
from ..lines import silent
from ..opcodes import BY_NAME
from ..patterns import pattern
from ..plain import plainly
from ..python_source import source
from ..records import Ref
from ..renaming.pairs import names_of, pairs_of
from ..renaming.renames import Renaming, renaming
from ..session import SHIFTS
from ..session_records import Mark
from ..sources import Source
from .between import Unknown, opcode_put
from .breaks import BREAKS, Break, BreakError, is_hit, made_break, next_break
from .displays import Display, made_display
from .explain import explained
from .expressions import Expression, ExpressionError, split_condition
from .nests import behind_mark, behind_next
from .opened import Opened
from .shown import MOST_BYTES, latest, question_of_whole, reached, said_of_part, shown_argument, shown_bytes, shown_opcode
from .words import WORDS, NotThere, WordError, help_page, help_pages, it_is, no_word, understood, whole_word

__all__ = ['Shell', 'WordError']

_AROUND = 3
_MOST_LINES = 20
_MOST_STACK = 3
# The cursor, as a place, and how other places are typed.
_CURSOR = ('', '.', '$pc')
_PLACE = pattern(r'[@*]?(?:0x[0-9a-fA-F]+|[0-9]+)')
# A name or a pattern, as `break os.system` has it.
_FUNCTION = pattern(r'[\w*?]+(?:\.[\w*?]+)+')
# Words that do nothing without what comes after them.
_NEED = frozenset('goto until go clear off on condition find who show replace insert delete set rename frame'.split())
_SHOW_OBJECTS = frozenset('step back goto until run go where explain show stack memo objects display'.split())
# Codes of lines about an opcode or an object that is not there: at the end of what is read, or behind it.
_NOT_THERE = frozenset(('C2', 'C4', 'E1', 'V1', 'V2'))
# Words that may do with what is known before the pickle is read after an edit.
_UNREAD = frozenset('where step back goto until list stack insert replace delete set undo'.split())


class Shell:
    """A pickle that is stepped, looked at and edited by lines of words. `is_over` says that there was a `quit`.

    >>> with Shell(b'K\\x07.', '') as shell:
    ...     print(shell.obey('step'))
            0     0: BININT1 7
    >       1     2: STOP
    stack: 7
    made:  #0 7
    """

    def __init__(self, pickle: Source, path: str, many: bool = False, ask: Optional[Callable[[str], bool]] = None, unframed: bool = False,
                 container: str = '', progress: Callable[[str], None] = silent, whole: bool = False) -> None:
        """`container` is the file that the pickle was opened in, which is not written over. While it is read, `progress` is given how far that is. Of a
        long pickle the first part is read, unless `whole` says that all of it is wanted."""
        self.pickle = Opened(pickle, path, many, progress, unframed=unframed, whole=whole)
        self.pickle.container = container
        self.modes: Dict[str, bool] = {'many': many, 'unframed': unframed}
        self._path = path
        self.ask = ask
        self._original = self.pickle.content()
        self._saved: Tuple[Done, ...] = ()
        self._saved_bytes = self._original
        self._breaks: List[Break] = []
        self._displays: List[Display] = []
        self._hidden: List[List[Break]] = []  # for each edit the breaks whose opcodes went with it, and the same for each that is undone
        self._hidden_back: List[List[Break]] = []
        self._moved: Tuple[List[Tuple[int, int]], List[List[Break]], List[List[Break]]] = [], [], []  # how breaks were moved last
        self._last = ''
        self._found: Tuple[str, int, int] = '', -1, -1  # what was found last, from where, and the place
        self._listed: Tuple[int, int] = -1, 0  # where the cursor was as opcodes were listed last, and the place behind them
        self._unchecked: Optional[Tuple[Renaming, Tuple[Done, ...]]] = None  # a rename until its check, and the edits before it
        self._words: Dict[str, Callable[[str], str]] = {name: getattr(self, f'_do_{name}') for name in WORDS}
        self.is_over = False

    def __enter__(self) -> Shell:
        return self

    def __exit__(self, *error: object) -> None:
        self.pickle.close()

    @property
    def is_open(self) -> bool:
        """Whether the session goes on: one that was interrupted within an answer of the program does not."""
        try:
            self.pickle.session.where()
        except (ValueError, PicklestepError):
            return False
        return True

    @property
    def is_unsaved(self) -> bool:
        """Whether there are edits that were not saved."""
        self._settle()
        return self.pickle.edits_made != self._saved and self.pickle.content() != self._saved_bytes

    def obey(self, line: str) -> str:
        """Does what a line says, and answers it. An empty line does the last one again. Raises WordError where it cannot."""
        line = line.strip() or self._last
        if not line or line.startswith('#'):
            return ''
        try:
            name, text = understood(line)
        except ValueError as error:
            raise WordError(str(error)) from error
        if name not in self._words:
            raise WordError(no_word(name))
        self._last = line if WORDS[name].is_again else ''
        if not text and name in _NEED or text and WORDS[name].usage == name:
            raise WordError(it_is(name))
        try:
            if name in _UNREAD and self.pickle.is_unread and not self.pickle.is_read and self._unchecked is None:
                with contextlib.suppress(Unknown):
                    return self._obey_unread(name, text)
            self._settle()
            self._check_names()  # (of a rename that was interrupted)
            return self._done(name, text)
        except Refused as error:
            raise WordError(self._of_part(f'refused: {plainly(error.text)}', error.code in _NOT_THERE)) from error
        except (EditError, ValueError, TypeError, OverflowError, OSError, PicklestepError) as error:
            raise WordError(self._of_part(str(error), isinstance(error, NotThere))) from error
        except Exception as error:  # (edits are not lost for what went wrong in one word)
            raise WordError(f'{name} failed: {type(error).__name__}: {error}') from error

    def _of_part(self, text: str, is_not_there: bool) -> str:
        """Why a word cannot be done; where something is not there, also that the pickle has more than is read."""
        return '\n'.join([text, *self.pickle.kept]) if self.pickle.is_part and is_not_there else text

    def _done(self, name: str, text: str) -> str:
        """What a word answers; behind one that goes somewhere, what is displayed there."""
        answer = self._words[name](text) + self._note(name)
        return '\n'.join([answer, *self._displayed()]) if WORDS[name].group == 'go' else answer

    def _note(self, name: str) -> str:
        """What is to be known of the objects that a word has shown: where there are many, they are not those at the cursor."""
        is_other = name in _SHOW_OBJECTS and self.pickle.place < len(self.pickle.lines) and not self.pickle.is_exact
        end = 'the end of what is read' if self.pickle.is_part else 'the end'
        return f'\n(What objects hold is as it is at {end}.)' if is_other else ''

    def _obey_unread(self, name: str, text: str) -> str:
        """Does what a word says by what is known before the pickle is read after an edit. Where that does not do, nothing is done."""
        listed = self._listed
        with self.pickle.unread():  # (from here on the cursor is back where it was before the edit)
            here = self.pickle.session.where().place
            try:
                return self._done(name, text)
            except Unknown:
                self._listed = listed
                self.pickle.session.goto(here)
                raise

    def settled(self) -> Opened:
        """The pickle, once it is read after an edit."""
        self._settle()
        return self.pickle

    def _settle(self) -> None:
        """Waits until the pickle is read after an edit. Where that fails, the edit was taken back, and breaks are where they were."""
        (moves, shown, hidden), self._moved = self._moved, ([], [], [])
        try:
            self.pickle.settle()
        except KeyboardInterrupt:
            self._moved = moves, shown, hidden
            raise
        except Exception:
            self._move_breaks([(at, -shift) for at, shift in reversed(moves)], hidden, shown)
            raise

    # --- Places ---

    def _place(self, text: str) -> int:
        """A place as it is typed: a number, an offset after @, or nothing for the cursor."""
        if text in _CURSOR:
            return self.pickle.session.where().place
        if _PLACE.fullmatch(text) is None:
            raise WordError(f'{text[:40]!r} is no place: give a number, or an offset after @')
        number = _number(text)
        if not _is_offset(text):
            return number
        if number == len(self.pickle.content()):
            return len(self.pickle.lines)
        place = self.pickle.lines.place_of(number)
        if not len(self.pickle.lines) or self.pickle.lines.offset(place) != number:
            raise NotThere(f'no opcode begins at offset {number}')
        return place

    @staticmethod
    def _count(text: str) -> int:
        if text and not text.isdecimal():
            raise WordError(f'{text[:40]!r} is no number')
        return int(text or 1)

    # --- What is shown ---

    def _row(self, place: int, here: int) -> str:
        """An opcode in a line, with what it imports or calls."""
        line = self.pickle.lines.at(place)
        marks = '>' if place == here else ' ', '*' if any(point.is_on and point.what == 'at' and int(point.text) == place for point in self._breaks) else ' '
        reached = ''.join(f'   <- {text}' for text in self.pickle.calls_at(place, line))
        argument = f' {shown_argument(self.pickle.lines, place, line)}' if line.argument else ''
        return f'{"".join(marks)} {place:>6} {line.offset:>5}: {"  " * line.marks}{line.name}{argument}{reached}'

    def _rows(self, first: int, last: int, here: int) -> List[str]:
        return [self._row(place, here) for place in range(max(0, first), min(len(self.pickle.lines), last))]

    def _here(self, before: Optional[Tuple[int, int]] = None, why: str = '') -> str:
        """The place with its neighbours, the top of the stack, and what was made since the command began."""
        where = self.pickle.at_cursor()
        rows = self._rows(where.place - _AROUND, where.place + _AROUND, where.place)
        if where.place == where.places:
            rows += [f'>  {where.place:>6} {where.offset:>5}: {self.pickle.end_text}', *self.pickle.kept]
        rows += self.hints(where.offset)
        rows.append(f'stack: {self._top()}')
        made = self.pickle.made_before(where.place)[0]
        if before is not None and where.place > before[0]:
            rows += self._changed(*before, where.place, made)
        if where.results:
            rows.append(f'result: {self.pickle.described(where.results[-1])}')
        return '\n'.join(([plainly(why)] if why else []) + rows)

    def hints(self, offset: Optional[int] = None) -> List[str]:
        """Where else to look for what is not read here, as far as that is known at an offset."""
        array, end = self.pickle.array_at, self.pickle.session.where().end
        part = [said_of_part(self.pickle)] if self.pickle.is_part and offset is None else []
        found = [] if array is None or offset is not None and offset < array else [of_array(array)]
        is_at_end = offset is None or end.offset is not None and offset >= end.offset
        found += [of_frame('shell')] if end.of_frame and is_at_end else []
        return [*part, *(f'({hint[:1].upper()}{hint[1:]}.)' for hint in found)]

    def _changed(self, begin: int, known: int, end: int, made: int) -> List[str]:
        """What the opcodes from a place on before another did: the objects that they made, changed and stored, the latest of each."""
        named = [f'#{number} {self.pickle.described(number)}' for number in range(max(known, made - _MOST_STACK), made)]
        rows = latest('made:  ', made - known, named)
        did = self.pickle.did(begin, end, known, _MOST_STACK)
        shown = [f'#{number} {self.pickle.described(number)}' for number in did.changed[-_MOST_STACK:]]
        rows += latest('changed: ', len(did.changed), shown) if did.is_all else [f'changed: {", ".join(["perhaps more", *shown])}']
        return rows + latest('stored: ', did.stored, [f'{key}: #{number} {self.pickle.described(number)}' for key, number in did.entries])

    def _top(self) -> str:
        """The top of the stack, the highest first."""
        stack = self.pickle.session._stack()
        top = stack.last(_MOST_STACK)
        shown = [f'mark of {entry.place}' if isinstance(entry, Mark) else self.pickle.described(entry.number) for entry in reversed(top)]
        more = [f'.. {len(stack) - len(top)} more'] if len(stack) > len(top) else []
        return ' | '.join(shown + more) or 'empty'

    def _now(self) -> Tuple[int, int]:
        """The place, and how many objects were made."""
        place = self.pickle.session.where().place
        return place, self.pickle.made_before(place)[0]

    # --- Moving ---

    def _to(self, place: int) -> str:
        before = self._now()
        if place <= before[0]:
            self.pickle.session.goto(max(0, place))
            return self._here(before)
        stopped = self.pickle.run_to(place)
        return self._here(before, stopped)

    def _do_step(self, text: str) -> str:
        place, count = self._now()[0], self._count(text)
        if place == self.pickle.session.where().places:
            self.pickle.session.step()
        return self._to(min(place + count, self.pickle.session.where().places))

    def _do_back(self, text: str) -> str:
        place = self._now()[0]
        if not place:
            self.pickle.session.back()
        return self._to(place - self._count(text))

    def _do_over(self, text: str) -> str:
        return self._on(behind_next, self._count(text))

    def _do_out(self, text: str) -> str:
        return self._on(behind_mark)

    def _on(self, behind: Callable[[Opened, int], int], count: int = 1) -> str:
        """Goes to the place that is behind something, so many times, or to a break before it."""
        before, why = self._now(), ''
        if before[0] == self.pickle.session.where().places:
            self.pickle.session.step()
        for _ in range(count):
            where = self.pickle.session.where()
            place = behind(self.pickle, where.place) if where.place < where.places else where.place
            why = self.run(place) if place > where.place else ''
            is_stopped = self.pickle.session.where().place != place or place == where.place
            if is_stopped or count > 1 and any(is_hit(self.pickle, point, place) for point in self._breaks):
                break
        return self._here(before, why)

    def _do_goto(self, text: str) -> str:
        before = self._now()
        self.pickle.session.goto(self._place(text))
        return self._here(before)

    def _do_until(self, text: str) -> str:
        place = self._place(text)
        if place <= self._now()[0]:
            raise WordError(f'{place} is not ahead; `goto` goes back')
        return self._to(place)

    def _do_run(self, text: str) -> str:
        if text not in ('', 'back'):
            raise WordError(it_is('run'))
        before = self._now()
        if text:
            return self._here(before, '' if self.run_back() else 'no break before this: the start')
        return self._here(before, self.run())

    def run(self, most: Optional[int] = None) -> str:
        """Goes on to the next break, to a place if it comes before that, to an opcode that is refused, or to the end. Answers why it did not get there,
        or nothing."""
        where = self.pickle.session.where()
        ends = [most, self._next_break(1, most), where.places]
        end = min(end for end in ends if end is not None)
        here = self.pickle.session.where().place
        if here > where.place:  # (conditions were asked up to there)
            why = '' if here == end else self.pickle.refusal()
            if here == end or why:
                return why and f'refused, {why}'
        return self.pickle.run_to(end)

    def _next_break(self, step: int, most: Optional[int] = None) -> Optional[int]:
        """The next place of a break on a way. After Ctrl-C the cursor is where it was, as far as the session goes on."""
        place = self.pickle.session.where().place
        try:
            return next_break(self.pickle, self._breaks, place, step, most)
        except KeyboardInterrupt:
            with contextlib.suppress(ValueError, PicklestepError):
                self.pickle.session.goto(place)
            raise

    def run_back(self) -> bool:
        """Goes back to the break before, or to the start. Answers whether there is one."""
        found = self._next_break(-1)
        self.pickle.session.goto(0 if found is None else found)
        return found is not None

    def _do_go(self, text: str) -> str:
        return self._to(self._maker(text))

    def _maker(self, text: str) -> int:
        number = self._count(text.lstrip('#'))
        maker = self.pickle.maker(number)
        if maker is None:
            raise NotThere(f'there is no object #{number}')
        return maker

    # --- Breaks ---

    @property
    def breaks(self) -> Sequence[Break]:
        """All breaks."""
        return tuple(self._breaks)

    def _do_break(self, text: str) -> str:
        if not text:
            return '\n'.join(map(str, self._breaks)) or 'no breaks'
        wanted, condition = split_condition(text)
        what, _, rest = wanted.partition(' ')
        if not wanted:
            what = 'each'
        elif what not in BREAKS:
            is_named = wanted not in _CURSOR and _FUNCTION.fullmatch(wanted) is not None
            what, rest = ('call', wanted) if is_named else ('at', str(self._place(wanted)))
        return str(self.set_break(what, rest.strip(), condition))

    def set_break(self, what: str, rest: str, condition: str = '') -> Break:
        """Sets a break of a kind. Raises WordError where there can be no such one."""
        known = chain(self._breaks, *self._hidden, *self._hidden_back)
        try:
            point = made_break(self.pickle, 1 + max([point.number for point in known], default=0), what, rest, condition)
        except (BreakError, ExpressionError) as error:
            raise WordError(str(error)) from error
        self._breaks.append(point)
        return point

    def _do_condition(self, text: str) -> str:
        number, _, rest = text.partition(' ')
        point = self._chosen(number)
        rest = rest.strip()
        condition = Expression(rest[3:] if rest.startswith('if ') else rest) if rest else None
        if point.what == 'each' and condition is None:
            raise WordError(f'break {number} would be at each opcode: clear {number} takes it away')
        point.condition = condition
        return str(point)

    def clear_break(self, number: int) -> None:
        """Takes a break away, wherever it is: one whose opcode was deleted does not come back with it."""
        for points in (self._breaks, *self._hidden, *self._hidden_back):
            points[:] = [point for point in points if point.number != number]

    def _chosen(self, text: str) -> Break:
        number = self._count(text)
        for point in self._breaks:
            if point.number == number:
                return point
        raise WordError(f'there is no break {number}')

    def _do_clear(self, text: str) -> str:
        point = self._chosen(text)
        self._breaks.remove(point)
        return f'cleared {point}'

    def _do_off(self, text: str) -> str:
        point = self._chosen(text)
        point.is_on = False
        return str(point)

    def _do_on(self, text: str) -> str:
        point = self._chosen(text)
        point.is_on = True
        return str(point)

    # --- What is displayed at each stop ---

    def _do_display(self, text: str) -> str:
        if not text:
            return '\n'.join(self._displayed()) or 'nothing is displayed'
        self._displays.append(made_display(1 + max([each.number for each in self._displays], default=0), text))
        return '\n'.join(self._displayed(self._displays[-1:]))

    def _do_undisplay(self, text: str) -> str:
        left = [each for each in self._displays if text and each.number != self._count(text)]
        if text and len(left) == len(self._displays):
            raise WordError(f'there is no display {text}')
        self._displays = left
        return f'display {text} is gone' if text else 'nothing is displayed'

    def _displayed(self, displays: Optional[List[Display]] = None) -> List[str]:
        """The lines of what is displayed."""
        rows = []
        if self._displays:
            self.pickle.at_cursor()
        for each in self._displays if displays is None else displays:
            try:
                rows.append(f'{each}{each.expression.shown(self.pickle)}' if each.expression else f'{each}{self._words[each.word](each.text)}')
            except (ValueError, PicklestepError) as error:
                rows.append(f'{each.number}: {error}')
        return rows

    # --- Looking ---

    def _do_where(self, text: str) -> str:
        return self._here()

    def _do_list(self, text: str) -> str:
        here = self._now()[0]
        words = text.replace(',', ' ').split()
        goes_on = not words and self._listed[0] == here and self._listed[1] < len(self.pickle.lines)
        first = self._place(words[0]) if words else self._listed[1] if goes_on else max(0, here - _MOST_LINES // 2)
        last = first + _MOST_LINES if len(words) < 2 else first + self._count(words[1][1:]) if words[1][:1] == '+' else self._place(words[1]) + 1
        if len(words) > 2:
            raise WordError(it_is('list'))
        if first >= len(self.pickle.lines):
            raise NotThere(f'there is no opcode at {first}')
        if last <= first:
            raise WordError(f'{last - 1} is before {first}')
        self._listed = here, last
        return '\n'.join([*self._rows(first, last, here), *(self.pickle.kept if last >= len(self.pickle.lines) else [])])

    def _do_calls(self, text: str) -> str:
        first = self._count(text) - 1
        if first < 0:
            raise WordError('calls counts from 1')
        return '\n'.join(reached(self.pickle, first, _MOST_LINES))

    def _do_find(self, text: str) -> str:
        here = self._now()[0]
        found = self.pickle.find(text, self._found[2] if self._found[:2] == (text, here) else here)
        if found is None:
            raise NotThere(f'{text[:40]!r} is in no opcode')
        is_again = self.pickle.is_part and found <= (self._found[2] if self._found[:2] == (text, here) else here)
        self._found = text, here, found
        return '\n'.join([*self._rows(found - 1, found + 2, here), f'at {found}', *(self.pickle.kept if is_again else [])])

    def _do_hex(self, text: str) -> str:
        words = text.split() or ['']
        if len(words) > 2:
            raise WordError(it_is('hex'))
        content = self.pickle.content()
        if len(words) > 1 and _PLACE.fullmatch(words[0]) and _is_offset(words[0]):
            if self.pickle.is_part and _number(words[0]) >= len(content):
                raise NotThere(f'only {len(content):,} bytes are read')
            return shown_bytes(content, _number(words[0]), _number(words[0]) + self._count(words[1]))
        place = self._place(words[0])
        if place >= len(self.pickle.lines):
            raise NotThere(f'there is no opcode at {place}')
        start = self.pickle.lines.offset(place)
        after = self.pickle.lines.offset(place + 1) if place + 1 < len(self.pickle.lines) else min(len(content), start + MOST_BYTES)
        return shown_bytes(content, start, start + self._count(words[1]) if len(words) > 1 else after)

    def _do_explain(self, text: str) -> str:
        if text.upper() in BY_NAME:
            return f'{text.upper()}: {BY_NAME[text.upper()].sentence}'
        place = self._place(text)
        if place >= len(self.pickle.lines):
            return '\n'.join([self.pickle.end_text, *self.pickle.kept])
        return '\n'.join(explained(self.pickle, place, self._top() if place == self._now()[0] else None))

    def _do_who(self, text: str) -> str:
        maker = self._maker(text)
        number = self._count(text.lstrip('#'))
        here = self._now()[0]
        places, left = self.pickle.changers(number, _MOST_LINES)
        rows = ['made by', *self._rows(maker, maker + 1, here)]
        if places:
            rows += ['changed by', *(self._row(place, here) for place in places[:_MOST_LINES])]
        more = [f'.. {"" if left else f"{len(places) - _MOST_LINES} "}more'] if len(places) > _MOST_LINES else []
        return '\n'.join([*rows, *more, *(self.pickle.kept if self.pickle.is_part else [])])

    def _do_show(self, text: str) -> str:
        self._here()
        if not text.lstrip('#').isdecimal():
            expression = Expression(text)
            value = expression.value(self.pickle)
            if not isinstance(value, Ref):
                return expression.shown(self.pickle)
            text = str(value.number)
        number = self._count(text.lstrip('#'))
        if number >= self._now()[1]:
            raise WordError(f'object #{number} is not made yet')
        held, more = self.pickle.first_held(number, _MOST_LINES)
        rows = [f'#{number} {self.pickle.described(number)}']
        rows += [f'    {how or "of"} #{part} {self.pickle.described(part)}' for how, part in held]
        return '\n'.join(rows + ([f'    .. {more} more'] if more > 0 else []))

    def _do_stack(self, text: str) -> str:
        self._here()
        stack = self.pickle.session._stack()
        rows = [f'#{entry.number} {self.pickle.described(entry.number)}' if isinstance(entry, Ref) else f'mark of {entry.place}'
                for entry in stack.last(_MOST_LINES)]
        return '\n'.join(([f'.. {len(stack) - _MOST_LINES} below'] if len(stack) > _MOST_LINES else []) + rows) or 'empty'

    def _do_memo(self, text: str) -> str:
        self._here()
        memo = self.pickle.session._memo()
        if text:
            found = memo.get(self._count(text))
            if found is None:
                raise WordError(f'nothing is stored under {text}')
            return f'{text}: #{found} {self.pickle.described(found)}'
        shown = memo.last(_MOST_LINES)
        before = len(memo) - len(shown)
        rows = [f'{key}: #{number} {self.pickle.described(number)}' for key, number in shown]
        return '\n'.join(([f'.. {before} before'] if before else []) + rows) or 'empty'

    def _do_objects(self, text: str) -> str:
        self._here()
        made = self._now()[1]
        first = self._count(text.lstrip('#')) if text else max(0, made - _MOST_LINES)
        return '\n'.join(f'#{number} {self.pickle.described(number)}' for number in range(first, min(made, first + _MOST_LINES))) or 'none'

    def _do_source(self, text: str) -> str:
        if text not in ('', 'full'):
            raise WordError(it_is('source'))
        return self.source(text == 'full').rstrip('\n')

    def source(self, full: bool = False) -> str:
        """The pickle as Python source; of a part, its opcodes and the stack behind them."""
        content, first = self.pickle.content(), len(self.pickle.lines) if self.pickle.is_part else None
        # (with an opcode behind those that are wanted, so that it is said of them that they are the first)
        return source(content if first is None else content + b'.', full=full, first=first, **self.modes).text

    # --- Edits ---

    def _was(self, place: int) -> str:
        return shown_opcode(self.pickle.lines, place)

    def edit(self, edits: List[Edit]) -> str:
        """Makes edits, all or none, and says what each replaced."""
        known = []
        for edit in edits:
            if edit.place > len(self.pickle.lines) or (edit.word != 'insert' and edit.place == len(self.pickle.lines)):
                raise NotThere(f'there is no opcode at {edit.place}')
            now = self.pickle.lines.name(edit.place) if edit.place < len(self.pickle.lines) else ''
            known.append(of_value(self.pickle, edit, now) if edit.word in ('replace', 'insert') else edit)
        was = ['' if edit.word in ('insert', 'frame') else self._was(edit.place) for edit in known]
        moved = []
        shift = 0
        for edit in known:
            moved.append(edit._replace(place=edit.place + shift))
            shift += SHIFTS[edit.word]
        before = self._moved[0] if self.pickle.is_unread else []
        done = self.pickle.edit_all(moved)
        moves = [(edit.place, SHIFTS[edit.word]) for edit in moved]
        self._moved = [*before, *moves], [], self._hidden
        self._move_breaks(moves, [], self._hidden)
        self._hidden_back.clear()
        return '\n'.join(self._echo(edit, place, old) for edit, place, old in zip(known, done, was))

    def _echo(self, edit: Edit, place: int, old: str) -> str:
        if SHIFTS[edit.word] < 0:
            return f'{place}: {old} is gone'
        if edit.word == 'frame':
            self._settle()
        has_argument = edit.word != 'frame' and BY_NAME[edit.name].argument
        put = shown_opcode(opcode_put(edit.name, edit.values, edit.raw), 0) if has_argument else edit.name
        now = self._was(place) if edit.word == 'frame' else put
        return f'{place}: {now}' + (f' (was {old})' if old else ' is new')

    def _move_breaks(self, moves: Sequence[Tuple[int, int]], shown: List[List[Break]], hidden: List[List[Break]]) -> None:
        """Breaks on a place stay with their opcodes, where one comes (1) or goes (-1) at each of these places. With an opcode that comes back those
        come that went with it, which are the last that are `shown`; what goes is added to what is `hidden`."""
        for at, shift in moves:
            come, gone = shown.pop() if shown else [], []
            for point in [point for point in self._breaks if point.what == 'at' and shift]:
                place = int(point.text)
                if shift < 0 and place == at:
                    self._breaks.remove(point)
                    gone.append(point)
                elif place >= at:
                    point.text = str(place + shift)
            for point in come:
                point.text = str(at)
            self._breaks = sorted(self._breaks + come, key=lambda point: point.number)
            hidden.append(gone)

    def _split(self, text: str) -> Tuple[int, str]:
        """A place, and what comes after it. Without a place it is the cursor."""
        word, _, rest = text.partition(' ')
        return (self._place(word), rest.strip()) if re.fullmatch('@?[0-9]+', word) and rest else (self._place(''), text)

    def _do_replace(self, text: str) -> str:
        place, rest = self._split(text)
        return self.edit([of_words('replace', place, rest)])

    def _do_insert(self, text: str) -> str:
        place, rest = self._split(text)
        return self.edit([of_words('insert', place, rest)])

    def _do_delete(self, text: str) -> str:
        said = self.edit([Edit('delete', self._place(text))])
        is_break = text.isdecimal() and any(point.number == int(text) for point in self._breaks)
        return said + (f'\n(`clear {text}` takes break {text} away, and `undo` brings the opcode back.)' if is_break else '')

    def _do_frame(self, text: str) -> str:
        words = text.split()
        if len(words) != 2:
            raise WordError(it_is('frame'))
        return self.edit([Edit('frame', self._place(words[0]), members=self._count(words[1]))])

    def _do_unframe(self, text: str) -> str:
        return self.edit([Edit('unframe', self._place(text))])

    def _do_set(self, text: str) -> str:
        match = re.fullmatch(r'#?([0-9]+) to (.+)', text)
        if match is None:
            raise WordError(it_is('set'))
        return self.edit([of_object(self.pickle, int(match[1]), match[2])])

    def _do_rename(self, text: str) -> str:
        words = text.split()
        if len(words) != 2:
            raise WordError(it_is('rename'))
        if self.pickle.is_part:
            raise WordError('rename needs all of the pickle: `whole` reads it. (`picklestep rename` reads all of a file.)')
        found = renaming(self.pickle, pairs_of([(words[0], words[1])]))
        end = self.pickle.reaches.answer.end
        if not found.edits:
            ended = '' if end.is_stopped else f' before {end.text}'
            raise WordError('; '.join([f'nothing is imported from {words[0][:60]!r}{ended}', *self.pickle.kept]))
        places = [edit.place for edit in found.edits]
        shifts = [0, *accumulate(SHIFTS[edit.word] for edit in found.edits)]
        stays = [f'{place + shifts[bisect_right(places, place)]}: {self._was(place)} stays: it is data too' for place in found.stays]
        self._unchecked = found, self.pickle.edits_made
        rows = [self.edit(found.edits), *stays]
        self._settle()
        self._check_names()
        where = self.pickle.session.where()
        if self.pickle.listed < where.places or not where.end.is_stopped or not end.is_stopped:
            rows.append('(Reading ends early: what is imported behind that stays.)')
        return '\n'.join(rows + self.pickle.kept)

    def _check_names(self) -> None:
        """Takes a rename back after which there are other imports than it said."""
        if self._unchecked is not None:
            found, before = self._unchecked
            is_made = self.pickle.edits_made != before
            if is_made and [names_of(reach.said or reach.name) for reach in self.pickle.imports()] != found.names:
                self._undo(is_redo=False)
                self._settle()
                self._unchecked = None
                raise WordError('not renamed: the imports would not be these alone')
            self._unchecked = None

    def _do_undo(self, text: str) -> str:
        return self._undo(is_redo=False)

    def _do_redo(self, text: str) -> str:
        return self._undo(is_redo=True)

    def _undo(self, is_redo: bool) -> str:
        unread = self._moved[0] if self.pickle.is_unread else None
        edits = self.pickle.undo_back(is_redo)
        moves = [(edit.place, SHIFTS[edit.what] * (1 if is_redo else -1)) for edit in edits]
        self._moved = (moves, self._hidden_back, self._hidden) if is_redo else (moves, self._hidden, self._hidden_back)
        self._move_breaks(*self._moved)
        if unread is not None:  # (the edits before these may have to be taken back, too)
            self._moved = unread[:-len(edits)], [], self._hidden
        rows = [f'{"redone" if is_redo else "undone"} {edit.place}: {edit}' for edit in edits[:_MOST_LINES]]
        return '\n'.join(rows + ([f'.. {len(edits) - _MOST_LINES} more'] if len(edits) > _MOST_LINES else []))

    # --- Files ---

    def _do_diff(self, text: str) -> str:
        if self.pickle.content() == self._original:
            return 'as the file'
        rest = self.pickle.rest_size
        rows = [f'{len(self._original) + rest} bytes -> {len(self.pickle.content()) + rest} bytes']
        rows += [self._row(place, -1) for place in sorted(self.pickle.edited)[:_MOST_LINES] if place < len(self.pickle.lines)]
        if self.pickle.is_part:
            return '\n'.join([*rows, '(What the results differ in is known once `whole` has read all.)'])
        try:
            differences = [*map(str, compare(self._original, self.pickle.content(), **self.modes))]
        except NoResult as error:
            rows.append(f'the results cannot be compared: {reason(error)}')
            differences = list(of_reaches(self._original, self.pickle.content(), self.modes['unframed']))
        more = [f'.. {len(differences) - _MOST_LINES} more'] if len(differences) > _MOST_LINES else []
        return '\n'.join([*rows, *differences[:_MOST_LINES], *more, *self.pickle.kept])

    def _do_whole(self, text: str) -> str:
        if not self.pickle.is_part:
            return 'all of it is read'
        if self.ask is not None and not self.ask(question_of_whole(*self.pickle.of_whole)):
            return 'not read'
        rest = self.pickle.read_whole()
        self._original += rest
        self._saved_bytes += rest
        return '\n'.join([f'all {len(self.pickle.lines):,} opcodes are read', self._here()])

    def _do_save(self, text: str) -> str:
        words = _names(text)
        if len(words) > 1:
            raise WordError(f'it is: {WORDS["save"].usage}, in quotes where it has blanks')
        path = words[0] if words else self._path
        if not path:
            raise WordError('it has no file: save FILE')
        self.pickle.save(path)
        self._saved, self._saved_bytes = self.pickle.edits_made, self.pickle.content()
        return f'saved {path}'

    def _do_quit(self, text: str) -> str:
        if self.ask is not None and self.is_open and self.is_unsaved and not self.ask('There are unsaved edits. Quit without saving? (yes/no) '):
            return 'not ended'
        self.is_over = True
        return ''

    def _do_help(self, text: str) -> str:
        if not text:
            return help_pages()
        name, _ = whole_word(text)
        if name not in WORDS and name != 'info':
            raise WordError(no_word(text))
        return help_page(name)


def _is_offset(place: str) -> bool:
    """Whether a place is typed as an offset: after @, or as gdb has addresses."""
    return place.startswith(('@', '*', '0x'))


def _number(place: str) -> int:
    """The number in a place that is typed."""
    digits = place.lstrip('@*')
    return int(digits, 16 if digits.startswith('0x') else 10)


def _names(text: str) -> List[str]:
    """Names of files, which blanks part outside of quotes. A backslash is a sign like others: Windows has it between folders."""
    words = shlex.shlex(text, posix=True)
    words.whitespace_split, words.escape, words.commenters = True, '', ''
    return list(words)
