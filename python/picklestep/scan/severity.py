"""How bad it may be what is marked, in four steps, and the status of a run that follows from them. No step says that a file is safe."""

from __future__ import annotations

from typing import Collection, Dict, Iterable, NamedTuple, Optional, Tuple

from ..patterns import pattern

__all__ = ['FAILING', 'STEPS', 'UNREAD', 'Step', 'rank', 'severity_of', 'status_of', 'worst_of']


class Step(NamedTuple):
    """A step: what it means, and what other tools call it: the level of SARIF, the number that code hosts sort by, GitLab's word."""

    name: str
    means: str
    level: str
    score: str
    gitlab: str


# The steps, the worst first.
STEPS: Dict[str, Step] = {step.name: step for step in (
    Step('critical', 'Loading it may run code or commands.', 'error', '9.5', 'blocker'),
    Step('high', 'Loading it may open files or connections, or import what the pickle chooses.', 'error', '8.0', 'critical'),
    Step('medium', 'It has a name that nobody has allowed, or an unusual form.', 'warning', '5.0', 'major'),
    Step('unread', 'Something was not looked at, so anything may be in it.', 'warning', '5.0', 'major'))}
UNREAD = 'unread'
# The steps at which a run may be told to fail. What was not looked at has a status of its own.
FAILING: Tuple[str, ...] = tuple(name for name in STEPS if name != UNREAD)

# The severity of each rule, where no list says what a call of the name does.
_OF_RULES: Dict[str, str] = {
    'known': 'high', 'worked-out': 'critical', 'denied': 'high', 'not-allowed': 'medium', 'not-allowed-done': 'medium', 'not-passed': 'medium', 'odd': 'critical',
    'not-read': 'medium', 'unusual-form': 'medium', 'not-looked-at': UNREAD, 'cannot-be-read': UNREAD}
# What a call does, in the words of known.txt, that is about files, connections and imports alone. All else counts as running code.
_MILD = pattern(
    r'(?:reads|writes|opens|deletes|moves|empties|closes|copies|locks|maps|connects|fetches|sends|imports|waits|asks|takes as much memory|'
    r'makes (?:a |and changes open |and deletes )?(?:files?|folders?|links|pipes|locks|shared memory)|'
    r'changes (?:files|who|times|open files|(?:how|where) an open file))\b')
_STRONG = pattern(r'\b(?:runs?|calls?|loads?|starts?|code|attribute|item)\b')


def severity_of(rule: str, does: Optional[str] = None) -> str:
    """The severity of a mark. `does` is what a list says that a call of the name does.

    >>> severity_of('known', 'runs a shell command'), severity_of('not-allowed', 'reads files, connects'), severity_of('not-allowed')
    ('critical', 'high', 'medium')
    >>> severity_of('known', 'connects, loads pickles from there'), severity_of('not-looked-at')
    ('critical', 'unread')
    """
    if does is None:
        return _OF_RULES[rule]
    return 'high' if _MILD.match(does) and not _STRONG.search(does) else 'critical'


def rank(severity: Optional[str]) -> int:
    """The place of a severity, from the worst; of None, which stands for no mark, the last.

    >>> sorted([None, 'unread', 'critical'], key=rank)
    ['critical', 'unread', None]
    """
    return len(STEPS) if severity is None else list(STEPS).index(severity)


def worst_of(severities: Iterable[str]) -> Optional[str]:
    """The worst of some severities; None where there are none.

    >>> worst_of(['medium', 'high']), worst_of([])
    ('high', None)
    """
    return min(severities, key=rank, default=None)


def status_of(severities: Collection[str], fail_on: str = FAILING[-1]) -> int:
    """The status of a run with such marks: 1 where one is as bad as `fail_on` or worse; else 3 where something was not looked at, whatever
    `fail_on` is; else 0. A finding goes before what was not looked at: so nobody makes 3 of 1 by a broken file beside the hostile one.

    >>> status_of(['unread', 'medium']), status_of(['unread', 'medium'], 'high'), status_of(['medium'], 'high')
    (1, 3, 0)
    """
    if any(severity in FAILING and rank(severity) <= rank(fail_on) for severity in severities):
        return 1
    return 3 if UNREAD in severities else 0
