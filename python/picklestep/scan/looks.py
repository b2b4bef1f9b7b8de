"""What to look at in a file, and why. The report, the lines of JSON, SARIF and `check` all ask here."""

from __future__ import annotations

from dataclasses import dataclass
from typing import Dict, Iterator, List, Optional, Tuple

from ..opens import BETWEEN
from ..records import End
from .allow import sets_with
from .known import known_anywhere, known_note
from .names import Names
from .reading import begun_module, is_plain_name, is_worked_out
from .results import OF_ARGUMENTS, OF_OFFSETS, ODD, OTHER_FORM, Call, FileVerdict, Import, Pickle, Place, Result, Verdict
from .severity import UNREAD, severity_of
from .through import part_through, why_through
from .wording import shown, times

__all__ = ['Judge', 'Look', 'OF_CALLS', 'RULES', 'call_text', 'calls_of', 'end_text', 'import_text']

# Each rule, and what it says.
RULES = {
    'known': 'It imports a name that is known to run, load, write or connect what it is given, or one that is no dotted name.',
    'worked-out': 'What it imports does not stand in the file: it is worked out while loading.',
    'denied': 'It imports a name of the list of --deny.',
    'not-allowed': 'It imports a name that no list of --allow has.',
    'not-allowed-done': 'It does something with an allowed name that no list of --allow says may be done with it.',
    'not-passed': 'The gate, which looks at all that a loader may find in the file, does not let it pass by a list of --allow.',
    'odd': 'It says of kinds of items or arrays what numpy believes and does not write, so that memory may be overwritten; or loaders call '
           'what it imports; or pandas makes an object where a call fails.',
    'not-read': 'It was not read to its end (STOP), and a loader may go on.',
    'unusual-form': 'It is not in the form that its usual writers write, so that two programs may read it in two ways.',
    'not-looked-at': 'Something in it was not looked at.',
    'cannot-be-read': 'The file cannot be read.',
}

# Those about one thing that is done; and those by which the gate does not let a file pass, if it says that of the pickle.
OF_CALLS = ('not-allowed-done', 'odd')
_OF_LISTS = ('not-allowed', 'not-allowed-done')
# What the gate says of a file that does something which the list does not allow.
_NOT_ALLOWED = 'not allowed'
# Calls that show what was done with an object that a marked import led to.
_OF_OBJECTS = ('call', 'new', 'inst')
# What makes objects that stand for any number of items.
_RANGES = ('builtins.range', 'ipaddress.IPv4Network', 'ipaddress.IPv6Network')
# The word for what the gate says of a pickle as a whole, and what stands there where it said nothing.
_GATE = 'gate'
_NOT_ASKED = 'it was not asked (Options(lists=..) takes the lists of a judge)'
# How a note begins about the form of a pickle.
_OTHER_FORM = 'not in the form that '
_WITHOUT_NAME = {'persistent': 'persistent id', 'call': 'call of what the pickle made', 'new': 'new of what the pickle made',
                 'inst': 'inst of what the pickle made'}


@dataclass(frozen=True)
class Look:
    """Something to look at.

    `where` is the place in the file, `rule` one of RULES, `text` says what and why, `name` is what is imported (or ''), `offset` where in the
    pickle, `calls` are the first calls of what is imported, with their arguments, and `severity` is one of the steps of `severity`.
    A policy may take a mark, which is none then (`is_taken`), and says why in the `remark`.
    """

    where: Place
    rule: str
    text: str
    name: str = ''
    offset: Optional[int] = None
    calls: Tuple[str, ...] = ()
    severity: str = 'medium'
    is_taken: bool = False
    remark: str = ''

    @property
    def lines(self) -> Tuple[str, ...]:
        """The text, with what a policy says of it, and the calls, each on a line of its own."""
        return (f'{self.text} [{self.remark}]' if self.remark else self.text, *self.calls)

    @property
    def short(self) -> str:
        """The text for a narrow place. Of an import it has the name, and why that is marked.

        >>> Look((), 'known', 'import posix.system once, first at 0: runs a shell command', 'posix.system', 0).short
        'posix.system: runs a shell command'
        """
        name = shown(self.name)
        begin = f'import {name} '
        why = self.text[len(begin):].partition(': ')[2] if name and self.text.startswith(begin) else ''
        return f'{name}: {why}' if why else self.text


def end_text(end: End) -> str:
    """How reading ended. The words of a fault have its place; those of a refusal do not."""
    return shown(end.text if end.how != 'refused' or end.offset is None else f'{end.text} at {end.offset}')


def import_text(found: Import, why: Optional[str]) -> str:
    """An import, and why it is marked if it is."""
    return f'import {shown(found.name)} {times(found.count)}, first at {found.offset}{_in_part(found.part)}{": " + why if why else ""}'


def call_text(done: Call) -> str:
    """What a pickle does with one thing, with the program's line for the first time."""
    if done.what == ODD and done.name == 'attribute':
        what = 'perhaps an import, or what a call made, as a method that loaders call'
        return f'{what}, first at {done.offset}{_in_part(done.part)}: {shown(done.text)}'
    if done.what == ODD and done.name == OF_ARGUMENTS:
        return f'a call of what the pickle works out, first at {done.offset}{_in_part(done.part)}: {shown(done.text)}'
    if done.what == ODD and done.name == OF_OFFSETS:
        return f'a call for which pandas makes a date offset if it fails, first at {done.offset}{_in_part(done.part)}: {shown(done.text)}'
    if done.what == ODD:
        return f'{done.name} as numpy never writes it, first at {done.offset}{_in_part(done.part)}: {shown(done.text)}'
    if done.what == _GATE:
        return f'no list lets it pass: {shown(done.text)}'
    what = f'{done.what} {shown(done.name)}' if done.name else _WITHOUT_NAME.get(done.what, done.what)
    count = f' {times(done.count)}' if done.count else ''
    return f'{what}{count}, first at {done.offset}{_in_part(done.part)}: {shown(done.text)}'


def _in_part(part: str) -> str:
    """The part where something stands, behind its offset."""
    return f' ({part})' if part else ''


def _of_sets(name: str) -> str:
    """In which sets of the package a name is that is not allowed."""
    sets = sets_with(name)
    return f'is in {"set" if len(sets) == 1 else "sets"} {", ".join(sets)}' if sets else ''


def calls_of(pickle: Pickle, name: str) -> List[Call]:
    """The calls of what is imported under a name."""
    return [done for done in pickle.calls if done.name == name]


_NONE = Names(())


class Judge:
    """Which names are marked, and why.

    `denied` goes before `allowed`, and that before the names that are known: a team that allows `builtins.getattr` has looked at it. Where
    there is a list of allowed names, all others are marked. What is known to be reached through another module or through the inside of an object
    is allowed by its name alone, by a pattern that says as much, or by `**`. What `least` marks is marked too.

    Whether a pickle does nothing but what the list allows the program's gate has said while it was looked at (`lists` says by which lists it is to be
    asked). A pickle in another form than picklers write is not allowed, and neither is one about which the gate was not asked.
    """

    def __init__(self, allowed: Optional[Names] = None, denied: Optional[Names] = None, with_known: bool = True,
                 least: 'Optional[Judge]' = None) -> None:
        self.allowed = allowed
        self._denied = denied or Names(())
        self._with_known = with_known
        self._least = least
        self._marks: Dict[Tuple[str, str, bool], Optional[Tuple[str, str]]] = {}

    def _known(self, name: str) -> Optional[str]:
        """What a call of a name would do that is known, where such names count."""
        return known_note(name) if self._with_known else None

    @property
    def _through(self) -> Names:
        return known_anywhere() if self._with_known else _NONE

    def lists(self) -> Tuple[Names, ...]:
        """The lists by which the gate is to be asked."""
        own = (self.allowed,) if self.allowed is not None else ()
        return own + (self._least.lists() if self._least is not None else ())

    def mark(self, name: str, member: str = '', passes: bool = False) -> Optional[Tuple[str, str]]:
        """The rule by which a name is marked and why, or None. `member` is what it names behind the module, where that has a point. `passes` is set where
        the gate lets a pickle pass that imports it.

        >>> Judge().mark('posix.system'), Judge().mark('collections.OrderedDict')
        (('known', 'runs a shell command'), None)
        >>> Judge().mark('sklearn.base.np.load', 'np.load')
        ('known', 'goes through np, which is no class')
        """
        key = name, member, passes
        if key not in self._marks:
            self._marks[key] = self._mark(name, member, passes)
        return self._marks[key]

    def _mark(self, name: str, member: str, passes: bool) -> Optional[Tuple[str, str]]:
        note = self._denied.note(name)
        if note is not None:
            return 'denied', f'denied{": " + note if note else ""}'
        if self.allowed is not None and self._is_allowed(name, member, passes):
            return None if self._least is None else self._least.mark(name, member)
        known = self._known(name)
        if known is None and self._with_known:
            known = why_through(name, member or name.rpartition('.')[2])
        if self.allowed is not None:
            why = known or _of_sets(name)
            return 'not-allowed', f'not allowed{": " + why if why else ""}'
        if known is not None:
            return 'known', known
        if self._with_known and is_worked_out(name):
            return 'worked-out', 'what it imports is worked out while loading'
        if self._with_known and not is_plain_name(name):
            begun = begun_module(name)
            why = f'Python imports {begun} before it raises' if begun else 'yet it may lead to any module'
            return 'known', f'no dotted name, so no program imports it, and {why}'
        return None

    def _severity(self, rule: str, name: str, member: str = '') -> str:
        """The severity of the mark of a name. Also where a list decides, it is that of what is known of the name."""
        if rule == 'odd' or not self._with_known:
            return severity_of(rule)
        does = self._known(name)
        if does is None and rule == 'not-allowed' and is_worked_out(name):
            return severity_of('worked-out')
        if does is None and rule == 'not-allowed' and (why_through(name, member or name.rpartition('.')[2]) or not is_plain_name(name)):
            return severity_of('known')
        return severity_of(rule, does)

    def _is_allowed(self, name: str, member: str, passes: bool) -> bool:
        """Whether the list allows a name. One that leads through a module it has to name so far, also where the gate lets it pass."""
        assert self.allowed is not None
        through = part_through(name, member or name.rpartition('.')[2]) if self._with_known else None
        is_known = self._through.note(name) is not None
        if passes and through is None and not is_known:
            return True
        return any(line in (name, '**') or (through is None or line.split('.').count(through) >= name.split('.').count(through))
                   and (not is_known or self._through.note(line) is not None) for line in self.allowed.lines_of(name))

    # --- Pickles ---

    def _verdict(self, pickle: Pickle) -> Optional[Verdict]:
        """What the gate said of a pickle by the list."""
        allowed = self.allowed
        return None if allowed is None else next((verdict for verdict in pickle.verdicts if verdict.list == allowed.digest), None)

    def mark_in(self, pickle: Pickle, found: Import) -> Optional[Tuple[str, str]]:
        """The rule by which an import of a pickle is marked and why, or None."""
        verdict = self._verdict(pickle)
        return self.mark(found.name, found.member, verdict is not None and verdict.passes)

    def not_allowed(self, pickle: Pickle) -> List[Call]:
        """What a pickle does that is not allowed, or odd, with what is imported by names that are not marked."""
        odd = [done for done in pickle.calls if done.what == ODD]
        found = [*odd, *(self._beside(pickle, self.allowed) if self.allowed is not None else ())]
        return list(dict.fromkeys([*found, *(self._least.not_allowed(pickle) if self._least is not None else ())]))

    def _beside(self, pickle: Pickle, allowed: Names) -> Iterator[Call]:
        verdict = self._verdict(pickle)
        if verdict is None:
            yield Call(_GATE, '', 0, 0, _NOT_ASKED)
        if verdict is None or not verdict.is_known:
            return
        given = (done for done in pickle.calls if done.given and not allowed.allows_done(done.what, done.name))
        found = [done for done in (*verdict.places, *given, *_with_ranges(pickle, allowed)) if not done.name or self.mark(done.name) is None]
        yield from found
        is_other = verdict.line.startswith(OTHER_FORM)
        if is_other or not verdict.passes and not found and all(self.mark_in(pickle, each) is None for each in pickle.imports):
            yield Call(_GATE, '', 0, pickle.end.offset or 0, verdict.line)

    def _of_file(self, result: Result) -> List[FileVerdict]:
        """What the gate said of a file as a whole by the lists, where it does not pass."""
        lists = [names.digest for names in self.lists()]
        found = [verdict for verdict in result.verdicts if verdict.list in lists and not verdict.passes]
        return list({verdict.line: verdict for verdict in found}.values())

    # --- Marks ---

    def looks(self, result: Result) -> Iterator[Look]:
        """All that is to be looked at in a file."""
        if result.error is not None:
            yield Look((), 'cannot-be-read', f'cannot be read: {shown(result.error)}', severity=UNREAD)
        noted = {note.where for note in result.notes if note.odd and note.text.startswith(_OTHER_FORM)}
        of_pickles = [look for pickle in result.pickles for look in self.looks_in(pickle)
                      if look.name or look.where not in noted or OTHER_FORM not in look.text]
        yield from of_pickles
        for verdict in self._of_file(result):
            if not _is_marked(verdict, of_pickles) and not (() in noted and verdict.line.startswith(OTHER_FORM)):
                yield Look((), 'not-passed', f'no list lets the file pass: {shown(verdict.line)}', severity=severity_of('not-passed'))
        for note in result.notes:
            if note.is_marked:
                rule = 'not-looked-at' if note.missed else 'unusual-form'
                yield Look(note.where, rule, shown(note.text), severity=severity_of(rule))

    def looks_in(self, pickle: Pickle) -> Iterator[Look]:
        """All that is to be looked at in one pickle. A marked import brings its calls; the last one those of what has no name, too."""
        marked = [(found, mark) for found in pickle.imports for mark in (self.mark_in(pickle, found),) if mark is not None]
        for found, (rule, why) in marked:
            calls = [done for done in calls_of(pickle, found.name) if done.part == found.part or not found.part]
            if found is marked[-1][0]:
                calls += [done for done in pickle.calls if not done.name and done.what in _OF_OBJECTS]
            yield Look(pickle.where, rule, import_text(found, why), found.name, found.offset, tuple(map(call_text, calls)),
                       self._severity(rule, found.name, found.member))
        for done in self.not_allowed(pickle):
            rule = 'odd' if done.what == ODD else 'not-allowed-done'
            yield Look(pickle.where, rule, call_text(done), done.name, done.offset, severity=self._severity(rule, done.name))
        if not pickle.end.is_stopped:
            # (of what was not read for want of time, memory or the program nobody knows the form)
            severity = UNREAD if pickle.end.how == 'unknown' else severity_of('not-read')
            yield Look(pickle.where, 'not-read', f'end: {end_text(pickle.end)}', offset=pickle.end.offset, severity=severity)


def _is_marked(verdict: FileVerdict, looks: List[Look]) -> bool:
    """Whether what the gate does not allow in a file is marked in the pickle that does it."""
    places = (BETWEEN.join(look.where[:count]) for look in looks if look.rule in _OF_LISTS for count in range(3))
    return verdict.kind == _NOT_ALLOWED and verdict.member in places


def _with_ranges(pickle: Pickle, allowed: Names) -> Iterator[Call]:
    """Calls that a list allows where the pickle has made no range (`alone` in a shape), of a pickle that may have made one before."""
    ranges = [done.offset for done in pickle.calls if done.name in _RANGES and done.what in _OF_OBJECTS]
    for done in pickle.calls if ranges else ():
        if any(offset < done.offset or done.count > 1 for offset in ranges) and allowed.wants_alone(done.name):
            yield done
