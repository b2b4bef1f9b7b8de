"""What was found, as text and as lines of JSON, with a summary over all files."""

from __future__ import annotations

import json
from collections import Counter
from typing import Any, Dict, Iterator, List, Optional, Set, TextIO, Tuple, Union

from .judges import Judges, judges_of
from .looks import OF_CALLS, Judge, Look, call_text, end_text, import_text
from .other_forms import named_forms
from .results import Pickle, Result, to_json
from .severity import FAILING, status_of, worst_of
from .wording import count_of, place_of, shown, times

__all__ = ['Report']


# The rules of what notes say.
_OF_NOTES = ('not-looked-at', 'unusual-form')


def _mark(look: Optional[Look]) -> str:
    """What stands before a line."""
    return ' ' if look is None or look.is_taken else '!'


def _line(look: Optional[Look], text: str) -> str:
    """A line about a pickle, which may be a mark."""
    return f'{_mark(look)}     {text if look is None else look.lines[0]}'


def _look_object(look: Look) -> Dict[str, Any]:
    """The object of a mark. What a policy says of it is there alone where it says something."""
    return {name: value for name, value in vars(look).items() if name != 'is_taken' and (value or name != 'remark')}


class Report:
    """Writes each result as it comes, and counts for the summary. `fail_on` is the severity from which on a mark is a failure."""

    def __init__(self, out: TextIO, judge: Union[Judge, Judges], as_json: bool = False, brief: bool = False, fail_on: str = FAILING[-1]) -> None:
        self.out = out
        self.judges = judges_of(judge)
        self.as_json = as_json
        self.brief = brief
        self.fail_on = fail_on
        # How many marks there are of each severity.
        self.severities: Counter[str] = Counter()
        self.counts: Counter[str] = Counter()
        self.forms: Counter[str] = Counter()
        self.imports: Counter[str] = Counter()
        self.pickles_with: Counter[str] = Counter()
        self.first_with: Dict[str, str] = {}
        self.marked: Set[str] = set()
        # The servers, and whether there was a pickle in one; and their errors. (That of one that is gone comes with each task.)
        self.servers: Dict[str, bool] = {}
        self.errors: Counter[Tuple[str, str]] = Counter()

    @property
    def status(self) -> int:
        """The status of the run, as far as it has come."""
        return status_of(self.severities, self.fail_on)

    # --- Results ---

    def add(self, result: Result, is_new: bool = True) -> List[Look]:
        """Counts a result and writes it, and answers its marks. One that an earlier run wrote is counted alone."""
        looks = self.count(result)
        if is_new:
            self.write(result, looks)
        return looks

    def count(self, result: Result) -> List[Look]:
        """Counts a result, and answers its marks, also those that a policy takes."""
        looks = self.judges.looks(result)
        self.counts['taken'] += sum(look.is_taken for look in looks)
        self._count(result, [look for look in looks if not look.is_taken])
        return looks

    def write(self, result: Result, looks: List[Look]) -> None:
        """Writes a result."""
        if self.as_json:
            self.out.write(json.dumps(self._object(result, looks)) + '\n')
        else:
            for line in self._brief_lines(result, looks) if self.brief else self._lines(result, looks):
                self.out.write(line + '\n')
        self.out.flush()

    def _count(self, result: Result, looks: List[Look]) -> None:
        counts = self.counts
        counts['files'] += result.left is None and not result.keys
        counts['keys'] += result.keys if result.error is None and result.left is None else 0
        if result.keys:
            self.servers[result.path] = self.servers.get(result.path, False) or bool(result.pickles or result.plain)
        counts['skipped'] += result.left is not None
        counts['others'] += result.others
        for form, count in result.forms:
            self.forms[form] += count
        counts['pickles'] += len(result.pickles) + result.plain
        counts['files with pickles'] += bool(result.pickles or result.plain) and not result.keys
        if result.keys and result.error is not None:
            self.errors[result.path, result.error] += 1
        if looks:
            self._count_looks(result, looks)
        for pickle in result.pickles:
            place = place_of(result.path, pickle.where)
            for found in pickle.imports:
                self.imports[found.name] += found.count
                self.pickles_with[found.name] += 1
                # The first by name: files come in any order.
                self.first_with[found.name] = min(place, self.first_with.get(found.name, place))

    def _count_looks(self, result: Result, looks: List[Look]) -> None:
        self.severities.update(look.severity for look in looks)
        self.marked.update(look.name for look in looks if look.name and look.rule not in OF_CALLS)
        rules = Counter(look.rule for look in looks)
        if self._is_repeated(result):
            del rules['cannot-be-read']
        if result.keys:
            rules['server-cannot-be-read'] = rules.pop('cannot-be-read', 0)
        for rule in ('not-looked-at', 'unusual-form'):
            self.counts[rule] += rules.pop(rule, 0) > 0
        self.counts.update(rules)

    def _is_repeated(self, result: Result) -> bool:
        """Whether a server has an error that one of its earlier results had."""
        return result.error is not None and self.errors[result.path, result.error] > 1

    def _object(self, result: Result, looks: List[Look]) -> Dict[str, object]:
        """The object of a line of JSON. With a list of allowed names each import says whether it is allowed."""
        made = to_json(result)
        judge = self.judges.of(result.path)
        if judge.allowed is not None:
            for pickle, row in zip(result.pickles, made['pickles']):
                not_allowed = judge.not_allowed(pickle)
                for each, found in zip(pickle.imports, row['imports']):
                    found['allowed'] = judge.mark_in(pickle, each) is None
                for done, found in zip(pickle.calls, row['calls']):
                    found['allowed'] = done not in not_allowed
        severities = [look.severity for look in looks if not look.is_taken]
        taken = [_look_object(look) for look in looks if look.is_taken]
        return {**made, 'looks': [_look_object(look) for look in looks if not look.is_taken], **({'taken': taken} if taken else {}),
                'severity': worst_of(severities), 'status': status_of(severities, self.fail_on)}

    def _brief_lines(self, result: Result, looks: List[Look]) -> Iterator[str]:
        for look in looks:
            if not look.is_taken and (look.rule != 'cannot-be-read' or not self._is_repeated(result)):
                yield from (f'! {place_of(result.path, look.where)}: {line}' for line in look.lines)

    def _lines(self, result: Result, looks: List[Look]) -> Iterator[str]:
        """A line for each thing that was found; `!` is before those that are marked."""
        path = place_of(result.path, ())
        notes = {(look.where, look.text): look for look in looks if look.rule in _OF_NOTES}
        if result.left is not None:
            yield f'  {path}: skipped: {result.left}'
        if result.error is not None and not self._is_repeated(result):
            yield from (f'{_mark(look)} {path}: {look.lines[0]}' for look in looks if look.rule == 'cannot-be-read')
        for pickle in result.pickles:
            yield from self._pickle_lines(result, pickle)
        yield from (f'{_mark(look)} {path}: {look.lines[0]}' for look in looks if look.rule == 'not-passed')
        for note in result.notes:
            look = notes.get((note.where, shown(note.text))) if note.is_marked else None
            yield f'{_mark(look)} {place_of(result.path, note.where)}: {shown(note.text) if look is None else look.lines[0]}'

    def _pickle_lines(self, result: Result, pickle: Pickle) -> Iterator[str]:
        """The imports of a pickle, those that are marked with their calls next to them; then all other calls."""
        yield f'  {place_of(result.path, pickle.where)}: {pickle.size} bytes'
        all_looks = list(self.judges.settled(result, self.judges.of(result.path).looks_in(pickle)))
        looks = {(look.name, look.offset): look for look in all_looks if look.name and look.rule not in OF_CALLS}
        beside = {call for look in looks.values() for call in look.calls}
        others = {look.text: look for look in all_looks if look.rule in OF_CALLS or look.rule == 'not-read'}
        for found in pickle.imports:
            look = looks.get((found.name, found.offset))
            yield from (f'{_mark(look)}     {line}' for line in ((import_text(found, None),) if look is None else look.lines))
        end = f'end: {end_text(pickle.end)}'
        for text in dict.fromkeys([*map(call_text, pickle.calls), *others]):
            if text not in beside and text != end:
                yield _line(others.get(text), text)
        yield from (f'      {shown(line)}' for line in pickle.lines)
        yield _line(others.get(end), end)

    # --- The summary ---

    def summary(self) -> List[str]:
        """The counts over all files, and the imports: those that are marked, then the rarest first."""
        counts = self.counts
        parts = [count_of(counts['files'], 'file')] if counts['files'] or not self.servers else []
        if self.servers:
            parts.append(f'{count_of(len(self.servers), "server")} with {count_of(counts["keys"], "key")}')
        parts.append(f'{count_of(counts["pickles"], "pickle")} in {counts["files with pickles"] + sum(self.servers.values())} of them')
        if counts['others']:
            forms = named_forms(self.forms.items())
            parts.append(f'{count_of(counts["others"], "file or member", "files or members")} of other forms{": " if forms else ""}{forms}')
        for key, *words in (('not-read', 'pickle not read to a STOP', 'pickles not read to a STOP'),
                            ('unusual-form', 'file in an unusual form', 'files in an unusual form'),
                            ('not-looked-at', 'file not looked at whole', 'files not looked at whole'),
                            ('cannot-be-read', 'file that cannot be read', 'files that cannot be read'),
                            ('server-cannot-be-read', 'server that cannot be read', 'servers that cannot be read'), ('skipped', 'skipped', 'skipped'),
                            ('not-allowed', 'import not allowed', 'imports not allowed'), ('denied', 'import denied', 'imports denied'),
                            ('known', 'import to look at', 'imports to look at'),
                            ('not-allowed-done', 'thing done that is not allowed', 'things done that are not allowed'),
                            ('not-passed', 'file that the gate does not let pass', 'files that the gate does not let pass'),
                            ('odd', 'thing that no library writes', 'things that no library writes'),
                            ('worked-out', 'import worked out while loading', 'imports worked out while loading'),
                            ('taken', 'mark that the policy takes', 'marks that the policy takes')):
            if counts[key]:
                parts.append(count_of(counts[key], *words))
        lines = [', '.join(parts), *self.judges.lines()]
        for name in sorted(self.imports, key=lambda name: (name not in self.marked, self.pickles_with[name], name)):
            mark = '!' if name in self.marked else ' '
            lines.append(f'{mark} {shown(name)}: {times(self.imports[name])}, in {count_of(self.pickles_with[name], "pickle")}, first in '
                         f'{self.first_with[name]}')
        return lines
