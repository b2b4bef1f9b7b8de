"""How a policy judges files.

A policy that is named may take marks: its lists allow names that are known, and its exceptions and baselines take what they say. One that was
found may come from whoever made the files. It adds marks, and takes none away: a mark that there would be without it stays.
"""

from __future__ import annotations

import datetime
import fnmatch
import os
from dataclasses import replace
from pathlib import Path
from typing import Dict, Iterator, List, Optional, Sequence, Tuple

from ...wording import shown
from ..allow import SETS
from ..judges import Given, Judges
from ..looks import Judge, Look
from ..names import Names
from ..results import Result
from ..wording import count_of
from .baseline import IN_BASELINE, Baseline
from .index import RuleIndex, inner_path
from .lists import Lists
from .model import Policy, PolicyException, Rule, Target

__all__ = ['PolicyJudges', 'is_about', 'rule_of']


# What is said of a mark that stays, and that the policy would take if it were named.
_KEPT = 'the policy would take it'
# So many bytes a baseline has that nobody named.
_MOST_FOUND = 1 << 24


def is_about(target: Target, path: str, inner: Optional[str]) -> bool:
    """Whether a target has a file. `inner` is its path from the folder of the policy, or None where it is not in that."""
    if target.servers and '://' in path and any(fnmatch.fnmatchcase(path, each) for each in target.servers):
        return True
    return bool(target.paths) and inner is not None and target.patterns.covers(inner)


def rule_of(policy: Policy, index: RuleIndex, path: str) -> Rule:
    """The last rule that is about a file, or what holds for all."""
    inner = inner_path(policy.root, path)
    if inner is None:
        return next((rule for rule in reversed(policy.rules) if is_about(rule.target, path, None)), policy.default)
    return index.rule_for(inner) or policy.default


class PolicyJudges(Judges):
    """A judge for each rule of a policy, and its exceptions."""

    def __init__(self, policy: Policy, given: Given, today: Optional[datetime.date] = None) -> None:
        self.policy = policy
        self._given = given
        self.today = today or datetime.date.today()
        super().__init__(given.judge())
        self._by_lists: Dict[Tuple[Optional[Tuple[str, ...]], Tuple[str, ...]], Judge] = {}
        self._last: Optional[Tuple[str, Judge]] = None
        self._index = RuleIndex(policy.rules)
        self._lists = Lists()
        # (a baseline that is to be written may not be there yet)
        there = [str(path) for path in policy.baselines if str(path) != given.to_write or path.exists()]
        self._own_baseline = Baseline(given.baselines if policy.is_found else [*there, *given.baselines])
        self._baseline = Baseline(there, _MOST_FOUND) if policy.is_found else self._own_baseline
        self.has_lists = self.has_lists or any(rule.allow is not None for rule in (policy.default, *policy.rules))
        # How many marks would be taken if the policy were named.
        self._kept = 0

    # --- Judges ---

    def of(self, path: str) -> Judge:
        if self._last is None or self._last[0] != path:  # (it is asked for a file several times in a row)
            self._last = path, self._by_rule(self.rule_of(path))
        return self._last[1]

    def rule_of(self, path: str) -> Rule:
        """The rule that decides about a file."""
        return rule_of(self.policy, self._index, path)

    def lists(self) -> Tuple[Names, ...]:
        lists = {names.digest: names for judge in self.all_judges() for names in judge.lists()}
        return tuple(lists.values())

    def all_judges(self) -> List[Judge]:
        """The judges of all rules."""
        return [self._judge, *map(self._by_rule, (self.policy.default, *self.policy.rules))]

    def _by_rule(self, rule: Rule) -> Judge:
        """The judge of a rule. Rules with the same lists have one."""
        allow = rule.allow if rule.allow is not None else self.policy.default.allow
        deny = tuple(dict.fromkeys((*self.policy.default.deny, *rule.deny)))
        if (allow, deny) not in self._by_lists:
            self._by_lists[allow, deny] = self._made(allow, deny)
        return self._by_lists[allow, deny]

    def _made(self, allow: Optional[Sequence[str]], deny: Sequence[str]) -> Judge:
        """A judge by some lists. The lists of a policy that is named allow together with those of the command line."""
        given, is_found = self._given, self.policy.is_found
        words = list(allow or ()) if is_found else [*(allow or ()), *given.allow]
        has_list = allow is not None or bool(words)
        if is_found and allow is None:
            words, has_list = list(given.allow), bool(given.allow)
        denied = self._lists.names([*deny, *given.deny], with_needed=False)
        with_known = given.with_known and (is_found or self.policy.with_known)
        return Judge(self._lists.names(words) if has_list else None, denied, with_known, self._judge if is_found else None)

    # --- Exceptions and baselines ---

    def names_of(self, word: str) -> Names:
        """What a set or a file has that the policy allows; of a set its own names alone, without those of the sets that it needs."""
        return self._lists.names([word], with_needed=word not in SETS)

    def is_in_baseline(self, result: Result, look: Look) -> bool:
        """Whether a baseline of the policy has a mark."""
        return self._baseline.has(result, look)

    def looks(self, result: Result) -> List[Look]:
        looks = super().looks(result)
        self._kept += sum(look.remark == _KEPT for look in looks)
        return looks

    def settled(self, result: Result, looks: Iterator[Look]) -> Iterator[Look]:
        exceptions: Optional[List[PolicyException]] = None
        for look in looks:
            if exceptions is None:
                exceptions = self.exceptions_of(result)
            yield self._settled(result, look, exceptions)

    def exceptions_of(self, result: Result) -> List[PolicyException]:
        """The exceptions that are about a file."""
        inner = inner_path(self.policy.root, result.path)
        return [each for each in self.policy.exceptions
                if (each.digest == result.digest if each.digest else is_about(each.target, result.path, inner))]

    def _settled(self, result: Result, look: Look, exceptions: List[PolicyException]) -> Look:
        found = [each for each in exceptions if each.is_about(look)]
        valid = next((each for each in found if not each.has_ended(self.today)), None)
        if self._own_baseline.has(result, look):
            return replace(look, is_taken=True, remark=IN_BASELINE)
        if valid is None and not self._baseline.has(result, look):
            return replace(look, remark=f'its exception ended on {found[0].until}') if found else look
        if self.policy.is_found:  # (whoever made the file may have made the policy)
            return replace(look, remark=_KEPT)
        if valid is None:
            return replace(look, is_taken=True, remark=IN_BASELINE)
        return replace(look, is_taken=True, remark=f'excepted until {valid.until}: {shown(valid.reason)}')

    def lines(self) -> Tuple[str, ...]:
        if self.policy.path == Path():  # (there are baselines alone)
            return ()
        path = shown(os.path.relpath(self.policy.path))
        if not self.policy.is_found:
            return (f'policy: {path}',)
        would = f', and would take {count_of(self._kept, "mark")}' if self._kept else ''
        return (f'policy: {path}, which was found: it only adds marks{would} (--policy {path} follows all of it)',)
