"""What is odd about a policy: what nothing uses, what has ended or is gone, and what hides another."""

from __future__ import annotations

import datetime
from collections import Counter
from dataclasses import dataclass, field
from pathlib import Path
from typing import Dict, Iterator, List, Optional, Set

from ...reaches import ASKED
from ...wording import shown
from ..allow import SETS
from ..looks import Look
from ..results import Result
from ..severity import UNREAD
from ..wording import count_of, place_of
from ..written import unused_of
from .baseline import Baseline, Key, key_of
from .index import inner_path
from .judging import PolicyJudges, is_about
from .model import Policy, PolicyException, Rule, Target

__all__ = ['Used', 'faults']

# An exception that ends within so many days is named.
_SOON = 30
# So many entries of a list are named that nothing uses.
_MOST_ENTRIES = 20


@dataclass
class _Use:
    """What an exception is used for: whether it is about a file, whether some of that was not looked at, how many marks it is about, how many of these
    it takes, and what takes the others before it."""

    is_met: bool = False
    is_unsure: bool = False
    marks: int = 0
    own: int = 0
    before: Set[str] = field(default_factory=set)


@dataclass
class _Named:
    """What the files import whose names a rule allows: whether there is such a file, and whether some of it was not looked at."""

    names: Set[str] = field(default_factory=set)
    is_met: bool = False
    is_unsure: bool = False


class Used:
    """What files, servers and URLs use of a policy."""

    def __init__(self, judges: PolicyJudges) -> None:
        self._judges = judges
        # Each path, and where it is in the folder of the policy.
        self.inner: Dict[str, Optional[str]] = {}
        # The files that are there, those of them that were not looked at whole, and the marks of all.
        self.digests: Set[str] = set()
        self.unsure: Set[str] = set()
        self.marks: Set[Key] = set()
        # What cannot be read, and why.
        self.errors: Dict[str, str] = {}
        self._uses = {each.place: _Use() for each in judges.policy.exceptions}
        self._named = {rule.place: _Named() for rule in (judges.policy.default, *judges.policy.rules)}

    def of(self, exception: PolicyException) -> _Use:
        """What an exception is used for."""
        return self._uses[exception.place]

    def unused(self, rule: Rule) -> Iterator[str]:
        """What nothing uses of the lists that a rule allows. Nothing is said where it has no file, or where one was not looked at whole."""
        named = self._named[rule.place]
        for word in rule.allow or () if named.is_met and not named.is_unsure else ():
            names = self._judges.names_of(word)
            is_used = any(names.lines_of(name) for name in named.names)
            if word in SETS:
                yield from () if is_used else (f'{word}: no file uses a name of its own',)
                continue
            found = list(unused_of(word, Path(word).read_bytes(), names, named.names))
            more = f' and {len(found) - _MOST_ENTRIES} more' if len(found) > _MOST_ENTRIES else ''
            said = f'{", ".join(map(shown, found[:_MOST_ENTRIES]))}{more}' if is_used else 'a name of it'
            if found or not is_used:
                yield f'{shown(Path(word).name)}: no file uses {said}'

    def add(self, result: Result) -> None:
        """Counts what a file uses."""
        judges = self._judges
        self.inner[result.path] = inner_path(judges.policy.root, result.path)
        self.digests.add(result.digest)
        if result.error is not None:
            self.errors[result.path] = result.error
        exceptions = judges.exceptions_of(result)
        looks = list(judges.of(result.path).looks(result))
        is_unsure = any(look.severity == UNREAD for look in looks)
        self._add_names(result, is_unsure)
        if result.digest and judges.policy.baselines:
            self.unsure.update([result.digest] if is_unsure else [])
            self.marks.update(key_of(result.digest, look) for look in looks)
        for each in exceptions:
            use = self.of(each)
            use.is_met = True
            use.is_unsure = use.is_unsure or is_unsure
        for look in looks:
            self._add(result, look, exceptions)

    def _add_names(self, result: Result, is_unsure: bool) -> None:
        """Counts the names of a file for the rule that says which are allowed there."""
        rule = self._judges.rule_of(result.path)
        named = self._named[rule.place if rule.allow is not None else self._judges.policy.default.place]
        named.is_met = True
        named.is_unsure = named.is_unsure or is_unsure
        for pickle in result.pickles:
            named.names.update(found.name for found in pickle.imports)
            named.names.update(done.what for done in pickle.calls if done.what in ASKED)

    def _add(self, result: Result, look: Look, exceptions: List[PolicyException]) -> None:
        """Counts a mark for the exceptions that are about it. A baseline takes it before them, and the first that has not ended before the others."""
        taken = 'the baseline' if self._judges.is_in_baseline(result, look) else ''
        for each in exceptions:
            if each.is_about(look):
                use = self.of(each)
                use.marks += 1
                use.own += not taken
                if taken:
                    use.before.add(taken)
                elif not each.has_ended(self._judges.today):
                    taken = each.place


def faults(policy: Policy, used: Optional[Used], today: datetime.date) -> Iterator[str]:
    """A line for each thing that is odd. Where nothing was looked at, nothing is said of what is used."""
    if used is not None:
        yield from (f'{place_of(path, ())}: cannot be read, so nothing is said of what it would use: {shown(why)}' for path, why in used.errors.items())
    yield from _of_rules(policy, used.inner if used is not None else {})
    if used is not None:
        for rule in (policy.default, *policy.rules):
            about = f' ({shown(str(rule.target))})' if rule is not policy.default else ''
            yield from (f'{rule.place}{about}: allow: {said}' for said in used.unused(rule))
    hidden: Set[str] = set()
    yield from _of_exceptions(policy, today, hidden)
    if used is not None:
        for each in policy.exceptions:
            why = _why_unused(each, used.of(each))
            if why and each.place not in hidden:
                yield f'{each.place} ({shown(each.about())}): {why}'
        yield from _of_baseline(Baseline(map(str, policy.baselines)), used)


def _of_baseline(known: Baseline, used: Used) -> Iterator[str]:
    """What is gone: files, and marks of files that are there and were looked at whole."""
    gone = set(known.digests) - used.digests
    if gone:
        yield f'baseline: {count_of(len(gone), "file")} of it {"is" if len(gone) == 1 else "are"} no longer there'
    counts = Counter(digest for digest, *_ in known.keys - used.marks if digest not in gone and digest not in used.unsure)
    for digest, count in counts.items():
        yield f'baseline: {place_of(known.digests[digest], ())}: {count_of(count, "mark")} of it {"is" if count == 1 else "are"} no longer there'


def _none_has(target: Target) -> str:
    """That nothing is there which something is about."""
    return 'no file has it' if target.paths or not target.servers else 'no server and no URL has it that you gave'


def _why_unused(each: PolicyException, use: _Use) -> str:
    """Why an exception takes no mark; '' where it takes one, or where that is not known."""
    if not use.is_met:
        return _none_has(each.target)
    if use.own or use.is_unsure:
        return ''
    if not use.marks:
        return 'nothing is marked there that it takes'
    return f'{" and ".join(sorted(use.before))} hides it, which takes all of its marks'


def _of_rules(policy: Policy, inner: Dict[str, Optional[str]]) -> Iterator[str]:
    """Rules that are about no file, and those whose files all go to later ones."""
    seen: Dict[str, str] = {}
    for rule in reversed(policy.rules):
        for said in (*rule.target.paths, *rule.target.servers):
            if said in seen:
                yield f'{rule.place} ({shown(said)}): {seen[said]} says the same later, and hides it'
            else:
                seen[said] = rule.place
    if not inner:
        return
    taken: Set[str] = set()
    for rule in reversed(policy.rules):
        found = {path for path, place in inner.items() if is_about(rule.target, path, place)}
        if not found:
            yield f'{rule.place} ({shown(str(rule.target))}): {_none_has(rule.target)}'
        elif found and found <= taken:
            yield f'{rule.place} ({shown(str(rule.target))}): later rules hide it, which are about all of its files'
        taken |= found


def _of_exceptions(policy: Policy, today: datetime.date, hidden: Set[str]) -> Iterator[str]:
    """What is odd about exceptions, whatever the files are. Those that another hides are put into `hidden`."""
    seen: Dict[object, PolicyException] = {}
    for each in policy.exceptions:
        about = shown(each.about())
        if each.has_ended(today):
            yield f'{each.place} ({about}): it ended on {each.until}, and takes nothing'
        elif each.until - today <= datetime.timedelta(days=_SOON):
            yield f'{each.place} ({about}): it ends on {each.until}. Its owner is {shown(each.owner)}'
        if not each.digest and each.names is None and not each.rules:
            yield f'{each.place} ({about}): it takes whatever is marked there, also in a new file: name a sha256, or names or rules'
        target = (each.target.paths, each.target.servers, each.digest)
        if target in seen and seen[target].names is None and not seen[target].rules and not seen[target].has_ended(today):
            hidden.add(each.place)
            yield f'{each.place} ({about}): {seen[target].place} hides it, which takes all marks of the same files'
        seen.setdefault(target, each)
