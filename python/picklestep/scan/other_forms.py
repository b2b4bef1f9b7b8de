"""What is no pickle, named by its ending."""

from __future__ import annotations

from collections import Counter
from typing import Iterable, Tuple

from ..patterns import pattern

__all__ = ['ending', 'forms_of', 'named_forms']

_ENDING = pattern(r'\.[A-Za-z0-9_+-]{1,12}$')
# So many forms of a file are kept by their names, and so many are named.
_MOST_KEPT, _MOST_NAMED = 50, 6


def ending(name: str) -> str:
    """The ending of a name, in small letters.

    >>> ending('notes/README.TXT'), ending('archive/version')
    ('.txt', 'no ending')
    """
    found = _ENDING.search(name.rpartition('/')[2][1:])
    return found[0].lower() if found else 'no ending'


def forms_of(others: int, found: 'Counter[str]') -> Tuple[Tuple[str, int], ...]:
    """How many there are of each form, the most frequent first. Those without a name are values of stores."""
    if not others:
        return ()
    kept = Counter(dict(found.most_common(_MOST_KEPT)))
    kept['other endings'] = sum(found.values()) - sum(kept.values())
    kept['values'] += max(0, others - sum(found.values()))
    return tuple((form, count) for form, count in sorted(kept.items(), key=lambda each: (-each[1], each[0])) if count)


def named_forms(forms: Iterable[Tuple[str, int]]) -> str:
    """The forms as the summary has them.

    >>> named_forms([('.txt', 10), ('.md', 2)])
    '.txt 10, .md 2'
    """
    ordered = sorted(forms, key=lambda each: (-each[1], each[0]))
    named = [f'{form} {count:,}' for form, count in ordered[:_MOST_NAMED]]
    return ', '.join(named + ['..'] * (len(ordered) > _MOST_NAMED))
