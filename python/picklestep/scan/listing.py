"""`picklestep gate` with sets, several lists, or lists that include others: the program reads one list, so it is given one with the lines of all."""

from __future__ import annotations

import contextlib
import os
from typing import List, Tuple

from ..errors import PicklestepError
from ..sources import Input
from .allow import read_names
from .entries import text_of

__all__ = ['with_one_list']


def with_one_list(words: List[str], held: contextlib.ExitStack) -> List[str]:
    """The words of the command, with one list that is held as long as it is wanted, which has the entries of all lists that the words name. Raises
    NoList with the file and the number of a line that has no meaning, and OSError where a list cannot be read."""
    lists, files, options = _taken_apart(words[1:])
    if not lists:
        lists, files = files[:1], files[1:]
    if not files:
        raise PicklestepError('it is: picklestep gate LIST FILE .., or: picklestep gate --list LIST .. FILE ..')
    given = held.enter_context(Input(text_of(read_names(lists).entries())))
    for file in given.files:
        os.set_inheritable(file, True)
    return [words[0], *options, '--', given.path, *files]


def _taken_apart(words: List[str]) -> Tuple[List[str], List[str], List[str]]:
    """What stands behind each `--list`, the names of files, and the options that the program has too.

    >>> _taken_apart(['--list', 'numpy', 'a.pkl', '--list=ours.txt', '--json', '--', '--list'])
    (['numpy', 'ours.txt'], ['a.pkl', '--list'], ['--json'])
    """
    lists: List[str] = []
    files: List[str] = []
    options: List[str] = []
    left = iter(words)
    for word in left:
        if word == '--':
            files.extend(left)
        elif word == '--list':
            lists.append(_value(next(left, '')))
        elif word.startswith('--list='):
            lists.append(_value(word.partition('=')[2]))
        elif word == '--json':
            options.append(word)
        elif word.startswith('-'):
            raise PicklestepError(f'gate takes no option {word}')
        else:
            files.append(word)
    return lists, files, options


def _value(word: str) -> str:
    if not word:
        raise PicklestepError('--list wants a set or a file')
    return word
