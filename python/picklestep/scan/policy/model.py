"""What a policy says, as records."""

from __future__ import annotations

import datetime
from dataclasses import dataclass, field
from pathlib import Path
from typing import FrozenSet, Mapping, Optional, Tuple

from ...errors import PicklestepError
from ..looks import Look
from ..names import Names
from .patterns import PathPatterns

__all__ = ['BadPolicy', 'PolicyException', 'Policy', 'Rule', 'Target', 'sees_digest']


class BadPolicy(PicklestepError, ValueError):
    """A policy, or what it names, cannot be read or has no meaning. The text says where."""


@dataclass(frozen=True)
class Target:
    """Which files something is about: those that patterns cover, with addresses of servers and URLs, which patterns of the shell cover."""

    paths: Tuple[str, ...] = ()
    servers: Tuple[str, ...] = ()
    patterns: PathPatterns = field(default_factory=lambda: PathPatterns(()), compare=False, repr=False)

    def __str__(self) -> str:
        return ', '.join((*self.paths, *self.servers))


@dataclass(frozen=True)
class Rule:
    """What holds for some files. `allow` is None where the rule says nothing of it; its words are sets, and files by their whole paths."""

    place: str
    target: Target
    allow: Optional[Tuple[str, ...]] = None
    deny: Tuple[str, ...] = ()
    limits: Mapping[str, int] = field(default_factory=dict)


@dataclass(frozen=True)
class PolicyException:
    """A mark that is known and taken until a day: of what, why, and who answers for it. `names` and `rules` say which marks; without them all."""

    place: str
    reason: str
    owner: str
    until: datetime.date
    target: Target = Target()
    digest: str = ''
    names: Optional[Names] = field(default=None, compare=False, repr=False)
    said_names: Tuple[str, ...] = ()
    rules: FrozenSet[str] = frozenset()

    def is_about(self, look: Look) -> bool:
        """Whether a mark of its file is one that it takes."""
        has_name = self.names is None or bool(look.name) and self.names.note(look.name) is not None
        return has_name and (not self.rules or look.rule in self.rules)

    def has_ended(self, today: datetime.date) -> bool:
        """Whether its last day is over."""
        return self.until < today

    def about(self) -> str:
        """What it is about, for people."""
        return f'sha256 {self.digest[:16]}..' if self.digest else str(self.target)


@dataclass(frozen=True)
class Policy:
    """A whole policy. `root` is the folder that its paths begin in, and `default` has what no rule says."""

    path: Path
    root: Path
    default: Rule
    rules: Tuple[Rule, ...] = ()
    exceptions: Tuple[PolicyException, ...] = ()
    baselines: Tuple[Path, ...] = ()
    fail_on: Optional[str] = None
    with_known: bool = True
    # Whether it was found, and nobody named it: then it adds marks and takes none away.
    is_found: bool = False


def sees_digest(policy: Policy) -> bool:
    """Whether it asks for the digests of files."""
    return bool(policy.baselines) or any(each.digest for each in policy.exceptions)
