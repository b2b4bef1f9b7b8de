"""What a reader of a report may do about a mark: a text for each rule, and for names of which something is known; and the commands that show more."""

from __future__ import annotations

import shlex
from typing import Dict, List

from ..opens import split
from ..wording import shown
from .allow import sets_with
from .known import known_note
from .looks import Look
from .reading import is_worked_out
from .severity import severity_of
from .wording import place_of

__all__ = ['ADVICE', 'advice_for', 'commands_for']

# An address of more letters stands in no command.
_MOST_LETTERS = 1_000

# What to do about a mark of each rule, where no more is known of its name.
ADVICE: Dict[str, str] = {
    'known': 'Do not load the file, and do not allow the name: a pickle that may use it can do what the mark says, with any arguments. Read what is '
             'called. If you expect exactly this file, write an exception for its SHA-256 into a policy.',
    'worked-out': 'Do not load the file. No usual pickler writes this: the name of what is imported is hidden from readers.',
    'denied': 'Your own list denies this name. Do not load the file, and ask whoever wrote it.',
    'not-allowed': 'Find out which library or program has this name, and what a call of it does. If you expect it, and it runs, loads and opens nothing '
                   'that it is given, write it into a list for --allow.',
    'not-allowed-done': 'The name is allowed, and what is done with it is not. Read the line and compare it with what picklers write.',
    'not-passed': 'picklestep gate LIST FILE shows the line. A loader may find in the file what the marks of its pickles do not tell. Pack it anew, and leave '
                  'out what is no part of it.',
    'odd': 'Do not load the file. A library believes what the pickle says here, and memory may be overwritten or code may run.',
    'not-read': 'The pickle is cut off or damaged, or it is written for one loader alone. picklestep calls shows how far it is read, and what '
                'loaders may do from there.',
    'unusual-form': 'Two programs may read the file in two ways. Let a program that you trust write it anew, and look at what it wrote.',
    'not-looked-at': 'Unpack it with a tool that knows it, or raise the limit that was reached, and scan again.',
    'cannot-be-read': 'Make the file readable, or install what is missing, and scan again.',
}


def advice_for(look: Look) -> str:
    """What to do about a mark. A list that lacks a name is no reason to write it there, where it is known to be dangerous.

    >>> advice_for(Look((), 'not-allowed', 'import posix.system', 'posix.system')) == ADVICE['known']
    True
    >>> advice_for(Look((), 'not-allowed', 'import numpy.ndarray', 'numpy.ndarray'))
    'The set numpy has this name. If you expect files of this library, give --allow numpy.'
    """
    if look.rule != 'not-allowed':
        return ADVICE[look.rule]
    if is_worked_out(look.name):
        return ADVICE['worked-out']
    # (a name that is marked as worse than others goes through a module, or is none)
    if known_note(look.name) is not None or look.severity != severity_of(look.rule):
        return ADVICE['known']
    sets = sets_with(look.name)
    return f'The set {sets[0]} has this name. If you expect files of this library, give --allow {sets[0]}.' if sets else ADVICE[look.rule]


def commands_for(path: str, look: Look) -> List[str]:
    """Commands that show more about a mark; none where the path has signs that no terminal takes, or is no file.

    >>> commands_for('a b.pkl', Look((), 'known', 'import posix.system'))
    ["picklestep calls 'a b.pkl'", "picklestep view 'a b.pkl'"]
    >>> open('a.zip', 'wb').close()
    >>> commands_for('a.zip', Look(('b.pkl',), 'known', 'import posix.system'))
    ["picklestep calls 'a.zip > b.pkl'", "picklestep view 'a.zip > b.pkl'"]
    """
    if shown(path) != path or '://' in path or look.rule == 'cannot-be-read':
        return []
    name = f'./{path}' if path.startswith('-') else path
    address = place_of(name, look.where)
    if look.rule == 'not-looked-at' or look.where and (len(address) > _MOST_LETTERS or split(address) is None):
        return [f'picklestep scan --lines --full {shlex.quote(name)}']
    address = shlex.quote(address)
    return [f'picklestep calls {address}', f'picklestep view {address}']
