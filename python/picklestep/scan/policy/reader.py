"""Reads a policy: TOML, checked key by key, so that a word that is misspelt is an error and nothing that is left out."""

from __future__ import annotations

import datetime
import os
import re
from dataclasses import dataclass, replace
from importlib import import_module
from pathlib import Path
from typing import Any, Callable, Dict, List, Mapping, Optional, Sequence, Tuple, TypeVar

from ...wording import shown
from ..allow import SETS, lines_of
from ..blobs import WORDS_OF_LIMITS
from ..looks import RULES
from ..names import Names, NoList, nearest
from ..severity import FAILING
from .model import BadPolicy, Policy, PolicyException, Rule, Target
from .patterns import PathPatterns

__all__ = ['read_policy']

_UNITS = {'': 1, 'K': 1 << 10, 'M': 1 << 20, 'G': 1 << 30}
# How many dots a line may have: readers of TOML take time by their square.
_MOST_DOTS = 200
# How large a policy may be, how long a pattern, and in how many parts; how many policies one may include.
_MOST_BYTES, _MOST_LETTERS, _MOST_PARTS, _MOST_INCLUDED = 1 << 20, 1_000, 64, 20

_Made = TypeVar('_Made')


class _Table:
    """A table of a policy, whose keys are taken one by one. What is left at the end is an error."""

    def __init__(self, made: Any, place: str) -> None:
        if not isinstance(made, dict):
            raise BadPolicy(f'{place}: it is to be a table')
        self.place = place
        self._left: Dict[str, Any] = dict(made)
        self._known: List[str] = []

    def take(self, key: str, check: Callable[[Any, str], _Made]) -> Optional[_Made]:
        """What stands under a key, checked; None where the key is not there."""
        self._known.append(key)
        return check(self._left.pop(key), f'{self.place}{key}') if key in self._left else None

    def end(self) -> None:
        """Raises BadPolicy where a key is left that has no meaning."""
        for key in self._left:
            raise BadPolicy(f'{self.place}{shown(key)}: there is no such key{nearest(key, "key", self._known)}')


# --- Values ---

def _text(value: Any, place: str) -> str:
    if not isinstance(value, str) or not value.strip():
        raise BadPolicy(f'{place}: it is to be a text')
    return value


def _texts(value: Any, place: str) -> Tuple[str, ...]:
    if not isinstance(value, list):
        raise BadPolicy(f'{place}: it is to be a list of texts')
    return tuple(_text(each, place) for each in value)


def _truth(value: Any, place: str) -> bool:
    if not isinstance(value, bool):
        raise BadPolicy(f'{place}: it is to be true or false')
    return value


def _one_of(words: Sequence[str], kind: str) -> Callable[[Any, str], str]:
    def check(value: Any, place: str) -> str:
        if _text(value, place) not in words:
            raise BadPolicy(f'{place}: {shown(value)} is none of {", ".join(words)}{nearest(value, kind, words)}')
        return str(value)
    return check


def _number(value: Any, place: str) -> int:
    found = re.fullmatch(r'([0-9]+)([KMG]?)', value.upper()) if isinstance(value, str) else None
    number = int(found[1]) * _UNITS[found[2]] if found else value
    if not isinstance(number, int) or isinstance(number, bool) or number < 1:
        raise BadPolicy(f'{place}: it is to be a whole number above 0, which may be a text with K, M or G at its end')
    return number


def _day(value: Any, place: str) -> datetime.date:
    if type(value) is not datetime.date:
        raise BadPolicy(f'{place}: it is to be a day, as 2027-01-31 without quotes')
    return value


def _digest(value: Any, place: str) -> str:
    if not re.fullmatch('[0-9a-f]{64}', _text(value, place).lower()):
        raise BadPolicy(f'{place}: it is to be a SHA-256, which has 64 hexadecimal digits')
    return str(value).lower()


def _pattern(text: str, place: str) -> str:
    if not text.strip('/!') or len(text) > _MOST_LETTERS or text.count('/') >= _MOST_PARTS:
        raise BadPolicy(f'{place}: a pattern has up to {_MOST_LETTERS:,} letters and {_MOST_PARTS} parts, and is not empty')
    return text


def _patterns(value: Any, place: str) -> Tuple[str, ...]:
    return tuple(_pattern(each, place) for each in _texts(value, place))


def _limits(value: Any, place: str) -> Mapping[str, int]:
    table = _Table(value, f'{place}.')
    found = {field: table.take(key, _number) for key, field in WORDS_OF_LIMITS.items()}
    table.end()
    return {field: number for field, number in found.items() if number is not None}


def _tables(value: Any, place: str) -> List[_Table]:
    if not isinstance(value, list):
        raise BadPolicy(f'{place}: it is to be written as [[{place.rpartition(": ")[2]}]]')
    return [_Table(each, f'{place}[{number}].') for number, each in enumerate(value, 1)]


# --- Files ---

def _load(path: Path) -> Dict[str, Any]:
    """The table of a file. Raises BadPolicy where it is none."""
    toml = _toml()
    if not path.is_file():
        raise BadPolicy(f'{shown(str(path))}: there is no such file')
    try:
        with open(path, 'rb') as file:
            content = file.read(_MOST_BYTES + 1)
    except OSError as error:
        raise BadPolicy(f'{shown(str(path))}: {error.strerror}') from error
    if len(content) > _MOST_BYTES or any(line.count(b'.') > _MOST_DOTS for line in content.splitlines()):
        raise BadPolicy(f'{shown(str(path))}: a policy has up to {_MOST_BYTES:,} bytes, and a line of it up to {_MOST_DOTS} dots')
    try:
        made: Dict[str, Any] = toml.loads(content.decode('utf-8'))
    except ValueError as error:  # (no UTF-8, no TOML, or a number of too many digits)
        raise BadPolicy(f'{shown(str(path))}: {shown(str(error))}') from error
    except RecursionError:
        raise BadPolicy(f'{shown(str(path))}: it is too deep') from None
    return made


def _toml() -> Any:
    for name in ('tomllib', 'tomli'):
        try:
            return import_module(name)
        except ImportError:
            continue
    raise BadPolicy('a policy is read by Python 3.11 or later, or where tomli is installed: pip install tomli')


@dataclass(frozen=True)
class _Folder:
    """The folder of a policy, whose words for files begin there. Those of a policy that is found stay in it: what is wrong with a file is
    printed, with a line of it."""

    path: Path
    is_found: bool

    def path_of(self, word: str, place: str) -> Path:
        """A path that a policy names."""
        path = self.path / word
        if chr(0) in word:
            raise BadPolicy(f'{place}: {shown(word)} is no file')
        if self.is_found and Path(os.path.realpath(self.path)) not in Path(os.path.realpath(path)).parents:
            raise BadPolicy(f'{place}: {shown(word)} is not in the folder of the policy, which nobody named')
        return Path(os.path.abspath(path))

    def file(self, word: str, place: str) -> Path:
        """A file that a policy names."""
        path = self.path_of(word, place)
        if not path.is_file():
            raise BadPolicy(f'{place}: {shown(word)} is no file{nearest(word, "set", SETS)}')
        return path

    def lists(self, value: Any, place: str) -> Tuple[str, ...]:
        """Sets by their names, and files by their whole paths."""
        return tuple(word if word in SETS else str(self._list(word, place)) for word in _texts(value, place))

    def _list(self, word: str, place: str) -> Path:
        """A file of names. That of a policy that is found includes sets alone."""
        path = self.file(word, place)
        try:
            included = [line.name for _, _, line in lines_of(path.read_bytes(), word) if line is not None and line.is_include] if self.is_found else []
        except OSError as error:
            raise BadPolicy(f'{place}: {shown(word)}: {error.strerror}') from error
        except NoList as error:
            raise BadPolicy(f'{place}: {error}') from error
        for name in included:
            if name not in SETS:
                raise BadPolicy(f'{place}: {shown(word)} includes {shown(name)}: a policy that nobody named includes sets alone')
        return path


# --- Tables ---

def _rule(table: _Table, folder: _Folder) -> Rule:
    paths, servers = table.take('paths', _patterns) or (), table.take('servers', _patterns) or ()
    if not paths and not servers:
        raise BadPolicy(f'{table.place}paths: a rule says which files it is about')
    rule = Rule(table.place.rstrip('.'), Target(paths, servers, PathPatterns(paths)), table.take('allow', folder.lists),
                table.take('deny', folder.lists) or (), table.take('limits', _limits) or {})
    table.end()
    return rule


def _exception(table: _Table) -> PolicyException:
    reason, owner, until = (table.take(key, check) for key, check in (('reason', _text), ('owner', _text), ('until', _day)))
    for key, value in (('reason', reason), ('owner', owner), ('until', until)):
        if value is None:
            raise BadPolicy(f'{table.place}{key}: an exception has a reason, an owner and a last day (until)')
    digest, path, address = table.take('sha256', _digest), table.take('path', _text), table.take('address', _text)
    if sum(each is not None for each in (digest, path, address)) != 1:
        raise BadPolicy(f'{table.place}sha256: an exception has one of sha256, path and address')
    said = table.take('names', _texts) or ()
    rules = table.take('rules', lambda value, place: frozenset(_one_of(tuple(RULES), 'rule')(each, place) for each in _texts(value, place)))
    table.end()
    paths = (_pattern(path, f'{table.place}path'),) if path is not None else ()
    try:
        names = Names(said) if said else None
    except NoList as error:
        raise BadPolicy(f'{table.place}names: {error}') from error
    assert isinstance(until, datetime.date)
    return PolicyException(table.place.rstrip('.'), str(reason), str(owner), until, Target(paths, (address,) if address else (), PathPatterns(paths)),
                           digest or '', names, said, rules or frozenset())


def read_policy(path: Path, is_found: bool = False) -> Policy:
    """The policy of a file, with those that it includes. Raises BadPolicy."""
    return _read(Path(os.path.abspath(path)), is_found, (), [])


def _read(path: Path, is_found: bool, above: Tuple[Path, ...], all_read: List[Path]) -> Policy:
    """A policy. What it includes comes before what it says itself, so that its own words go before."""
    all_read.append(path)
    if path in above or len(all_read) > _MOST_INCLUDED:
        raise BadPolicy(f'{shown(str(path))}: it includes itself, or there are more than {_MOST_INCLUDED} policies')
    name = shown(os.path.relpath(path)) if _is_below(path) else shown(str(path))
    table = _Table(_load(path), f'{name}: ')
    folder = _Folder(path.parent, is_found)
    included = [_read(folder.file(word, f'{name}: include'), is_found, (*above, path), all_read) for word in table.take('include', _texts) or ()]
    own = Rule(name, Target(), table.take('allow', folder.lists), table.take('deny', folder.lists) or (), table.take('limits', _limits) or {})
    baseline, fail_on = table.take('baseline', _text), table.take('fail-on', _one_of(FAILING, 'severity'))
    known = table.take('known', _truth)
    rules = tuple(_rule(each, folder) for each in table.take('rules', _tables) or ())
    exceptions = tuple(_exception(each) for each in table.take('exceptions', _tables) or ())
    table.end()
    baselines = (folder.path_of(baseline, f'{name}: baseline'),) if baseline is not None else ()
    policy = Policy(path, path.parent, own, rules, exceptions, baselines, fail_on, known is not False, is_found)
    for each in reversed(included):
        policy = _joined(each, policy)
    return policy


def _is_below(path: Path) -> bool:
    return Path.cwd() in path.parents


def _joined(one: Policy, other: Policy) -> Policy:
    """One policy and then another, whose words go before. Names are denied that one of them denies."""
    default = Rule(other.default.place, Target(), one.default.allow if other.default.allow is None else other.default.allow,
                   one.default.deny + other.default.deny, {**one.default.limits, **other.default.limits})
    return replace(other, default=default, rules=one.rules + other.rules, exceptions=one.exceptions + other.exceptions,
                   baselines=one.baselines + other.baselines, fail_on=other.fail_on or one.fail_on, with_known=one.with_known and other.with_known)
