"""What the command line and the policy say of a run: who judges, and how each file is looked at."""

from __future__ import annotations

import os
from dataclasses import replace
from typing import TYPE_CHECKING, Dict, Iterable, List, Mapping, Optional, Tuple

from .blobs import WORDS_OF_LIMITS, Limits
from .judges import Given, Judges
from .looking import Options
from .policy.finding import find_policy
from .severity import FAILING

if TYPE_CHECKING:
    import argparse
    from .policy.model import Policy, Rule

__all__ = ['Settings', 'chosen_policy']

# What wants the digests of files.
_SEE_DIGESTS = ('json', 'report', 'baseline', 'write_baseline')


def chosen_policy(path: Optional[str], paths: Iterable[str], way_out: str = ' (--no-policy goes without it)') -> Optional[Policy]:
    """The policy that is named, or else the one that is found for some paths. Raises BadPolicy, with the way out of one that was found."""
    found = find_policy(paths) if path is None else None
    if path is None and found is None:
        return None
    from pathlib import Path
    from .policy.model import BadPolicy
    from .policy.reader import read_policy
    if path is not None:
        return read_policy(Path(path))
    try:
        return None if found is None else read_policy(Path(found), is_found=True)
    except BadPolicy as error:
        raise BadPolicy(f'{error}{way_out}') from None


class Settings:
    """The policy of a run, its judges, and the options of each file. Raises BadPolicy, NoList, and OSError where a list cannot be read."""

    def __init__(self, words: argparse.Namespace) -> None:
        self._words = words
        self.policy = None if words.no_policy else chosen_policy(words.policy, words.paths)
        given = Given(tuple(words.allow), tuple(words.deny), not words.no_known, () if words.baseline is None else (words.baseline,),
                      '' if words.write_baseline is None else os.path.abspath(words.write_baseline))
        policy = self.policy
        self.judges = Judges(given.judge()) if policy is None and not given.baselines else _judges(policy, given)
        self._named = None if policy is None or policy.is_found else policy
        self.fail_on: str = words.fail_on or self._named and self._named.fail_on or FAILING[-1]
        self._lists = self.judges.lists()
        self.options = self._options(self._named.default.limits if self._named is not None else {})

    def groups(self, paths: Iterable[str]) -> List[Tuple[Options, List[str]]]:
        """The paths by how they are looked at: a rule may have limits of its own."""
        policy = self._named
        if policy is None or not any(rule.limits for rule in policy.rules):
            return [(self.options, list(paths))]
        groups: Dict[Options, List[str]] = {}
        for path in paths:
            limits = {**policy.default.limits, **self._rule_of(path).limits}
            groups.setdefault(self._options(limits), []).append(path)
        return list(groups.items())

    def _rule_of(self, path: str) -> Rule:
        from .policy.judging import PolicyJudges
        assert isinstance(self.judges, PolicyJudges)
        return self.judges.rule_of(path)

    def about(self) -> str:
        """The policy, as a report names it."""
        if self.policy is None:
            return ''
        return f'{os.path.relpath(self.policy.path)}, which was found: it only adds marks' if self.policy.is_found else os.path.relpath(self.policy.path)

    def _options(self, limits: Mapping[str, int]) -> Options:
        """The options with the limits of a policy, which those of the command line go before."""
        words = self._words
        given = {field: getattr(words, f'max_{key}') for key, field in WORDS_OF_LIMITS.items() if getattr(words, f'max_{key}') is not None}
        chosen = {**limits, **given}
        if 'seconds' in chosen:
            from ..program import MOST_SECONDS
            chosen['seconds'] = min(chosen['seconds'], MOST_SECONDS)
        digest = any(getattr(words, name) not in (None, False) for name in _SEE_DIGESTS) or self.policy is not None and _sees_digest(self.policy)
        return Options(replace(Limits(), **chosen), words.lines, words.everywhere, words.full, digest, self._lists)


def _judges(policy: Optional[Policy], given: Given) -> Judges:
    """The judges of a policy, or of baselines alone."""
    from pathlib import Path
    from .policy.judging import PolicyJudges
    from .policy.model import Policy, Rule, Target
    return PolicyJudges(Policy(Path(), Path.cwd(), Rule('', Target())) if policy is None else policy, given)


def _sees_digest(policy: Policy) -> bool:
    from .policy.model import sees_digest
    return sees_digest(policy)
