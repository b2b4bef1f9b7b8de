"""Lists of names: which lists there are is said by `allow`, `known` and the command; what a line says is taken apart here.

Whether a line is an entry the program says, which reads lists, proved (`entries`). It also says whether a pickle passes a list. Here a name is looked
for in a list where that is not asked: names that are known or denied, and which lines a list has already.
"""

from __future__ import annotations

import re
from functools import lru_cache
from typing import Dict, FrozenSet, Iterable, List, NamedTuple, Optional, Pattern, Sequence, Set, Tuple

from ..errors import PicklestepError
from ..patterns import pattern
from ..reaches import ASKED
from ..wording import shown
from .entries import refused_line

__all__ = ['Line', 'Names', 'NoList', 'nearest', 'read_all', 'read_comment', 'read_line', 'words_for']


class NoList(PicklestepError, ValueError):
    """What is given as a list of names is none: a line of it has no meaning, the one with this index among those that are read together."""

    def __init__(self, text: str, index: int = 0) -> None:
        super().__init__(text)
        self.index = index


class Line(NamedTuple):
    """What a line of a list says: a name or pattern, what may be done with what it imports, and a note; or which list it includes.

    The words are those behind the colon, each shape as `()`; without a colon all that say what may be done with an import. `entry` is the line as the
    program takes it, without the note, and empty where it takes none: a name that is shown in two parts.
    """

    name: str
    words: FrozenSet[str]
    note: str
    is_include: bool = False
    entry: str = ''


class Names:
    """Names and patterns, one a line, as the program reads them. In a pattern `*` stands for anything within one part of a name, and `**` for anything
    at all. Raises NoList where a line has no meaning. `is_checked` is set where it is known that each has one.

    A `*` does not go over a dot, since a pickle can reach from a module into what that has imported: `torch._utils.*` has
    `torch._utils._rebuild_tensor_v2` and not `torch._utils.sys.modules`.

    >>> names = Names(['collections.OrderedDict: call', 'torch.*Storage:  # raw numbers', 'os.path'])
    >>> [names.note(name) for name in ('collections.OrderedDict', 'torch.FloatStorage', 'torch.os.Storage')]
    ['', 'raw numbers', None]
    >>> [names.allows_done(*done) for done in (('call', 'torch.FloatStorage'), ('new', 'collections.OrderedDict'), ('call', 'os.path'))]
    [False, True, True]
    """

    def __init__(self, lines: Iterable[str], is_checked: bool = False) -> None:
        self.names: Dict[str, str] = {}
        self.patterns: List[Tuple[str, _Pattern, str]] = []
        self._found: Dict[str, Optional[str]] = {}
        # The words of the lines, by their names and patterns, and what the program gets of them; and of the lines that it always gets.
        self._words: Dict[str, List[FrozenSet[str]]] = {}
        self._entries: Dict[str, List[str]] = {}
        self._always: List[str] = []
        self._alone: Set[str] = set()
        self._digest = ''
        # The patterns by their first part, since a hostile file may have a million names; those that begin with a star are under ''.
        self._by_part: Dict[str, List[Tuple[str, _Pattern, str]]] = {}
        for line in read_all(list(lines), is_checked):
            if line is not None:
                self._add(line)

    def _add(self, line: Line) -> None:
        name = line.name
        if line.is_include:
            raise NoList(f'only a file includes a list: {shown(name)}')
        self._words.setdefault(name, []).append(line.words)
        self._alone.update([name] if _ALONE.search(line.entry) else [])
        is_pattern = '*' in name
        if line.entry:
            (self._always if is_pattern or name in ASKED else self._entries.setdefault(name, [])).append(line.entry)
        if is_pattern:
            self.patterns.append((name, _Pattern(name), line.note))
            part = name.partition('.')[0]
            self._by_part.setdefault('' if '*' in part else part, []).append(self.patterns[-1])
        else:
            self.names.setdefault(name, line.note)

    def note(self, name: str) -> Optional[str]:
        """The note of the line that has this name; None where no line has it. A whole name goes before a pattern."""
        if name not in self._found:
            if len(self._found) >= _MOST_FOUND:
                self._found.clear()
            self._found[name] = self._look_up(name)
        return self._found[name]

    def lines_of(self, name: str) -> List[str]:
        """The names and patterns that have this name."""
        return [name] * (name in self.names) + [text for text, pattern, _ in self._patterns_of(name) if pattern.has(name)]

    def allows_done(self, what: str, name: str) -> bool:
        """Whether words of lines with this name say that `what` may be done with what is imported by it, which is the first word of a line of the program;
        whatever a shape says of arguments. Who may call a class may have it made.

        >>> names = Names(['a.b: call(text)'])
        >>> [names.allows_done(what, 'a.b') for what in ('call', 'new', 'state')]
        [True, True, False]
        """
        word, said = _WORDS.get(what), self.words_of(name)
        if word is None or not said:
            return True
        fitting = _CALLS | {word} if word in ('call', 'new') else {word}
        return not all(words.isdisjoint(fitting) for words in said)

    def words_of(self, name: str) -> List[FrozenSet[str]]:
        """The words of each line that has this name."""
        return [words for line in dict.fromkeys(self.lines_of(name)) for words in self._words[line]]

    def wants_alone(self, name: str) -> bool:
        """Whether a line that has this name has a shape with `alone` in it."""
        return any(name in self._alone for name in self.lines_of(name)) if self._alone else False

    # --- For the program ---

    def entries(self) -> List[str]:
        """All lines for the program's gate."""
        return [*self._always, *(entry for entries in self._entries.values() for entry in entries)]

    def entries_for(self, names: Iterable[str]) -> List[str]:
        """Those of them that may be about some names. The others grant nothing to a pickle that imports these names alone."""
        return [*self._always, *(entry for name in names for entry in self._entries.get(name, ()))]

    @property
    def digest(self) -> str:
        """What the list is known by in results."""
        if not self._digest:
            import hashlib
            self._digest = hashlib.sha256('\n'.join(sorted(self.entries())).encode('utf-8', 'surrogatepass')).hexdigest()[:16]
        return self._digest

    # --- How a name is found ---

    def _look_up(self, name: str) -> Optional[str]:
        if name in self.names:
            return self.names[name]
        return next((note for _, pattern, note in self._patterns_of(name) if pattern.has(name)), None)

    def _patterns_of(self, name: str) -> List[Tuple[str, _Pattern, str]]:
        return [*self._by_part.get(name.partition('.')[0], ()), *self._by_part.get('', ())]


# What may be done with what is imported, by the first words of the program's lines.
_WORDS = {'call': 'call', 'new': 'new', 'inst': 'call', 'state': 'state', 'append': 'fill', 'set': 'fill', 'add': 'fill', 'fill': 'fill'}
# Those of a list, in the order in which they are written.
_OF_LISTS = ('call', 'new', 'state', 'fill')
_ALL = frozenset(_OF_LISTS)
# Words of a list that let something be called, or made.
_CALLS = frozenset(('call', 'call()'))
# A word behind a colon, and its shape.
_WORD = pattern(r'([^\s()]+)(\([^()]*\))?')
# A name that `scan` shows in two parts, since one of them is no plain word: each is in quotes, or is the number of what gives it.
_PART = r"""(?:(?:raw )?(?:'(?:[^'\\]|\\.)*'|"(?:[^"\\]|\\.)*")|\#[0-9*]+)"""
_IN_PARTS = pattern(f'{_PART} {_PART}')
_BEGINS_PART = ("'", '"', "raw '", 'raw "')
# A shape that takes no object where the pickle has made a range. (The program takes it as `held`.)
_ALONE = pattern(r'[ (|]alone[ )|]')
# Words that a message may name where one is wrong.
_KNOWN_WORDS = (*_OF_LISTS, 'then', 'made', *(f'made-{word}' for word in sorted(_OF_LISTS)), 'text', 'short', 'fraction', 'bytes', 'number', 'small',
                'bool', 'none', 'held', 'alone', 'listed', 'class', 'any')
# (a line of any length may be given as a list)
_MOST_SHOWN = 80
# Of so many names it is kept whether a list has them.
_MOST_FOUND = 100_000
_STARS = pattern(r'(\*+)')


def read_all(lines: Sequence[str], is_checked: bool = False) -> List[Optional[Line]]:
    """What lines of a list say, each None where it is empty or a comment. Raises NoList with the index of the first that has no meaning. This is the
    grammar, of which the program reads the entries but for names in two parts:

        line    = [entry | "include" LIST] ["#" note]
        entry   = (name | pattern) [":" {use | "made-" use | "made" | "call(" shape ")" | "then(" shape ")"}]
        use     = "call" | "new" | "state" | "fill"
        name    = word "." word {"." word} | part " " part | "ext" number | "persistent" | "buffer"
        part    = ["raw"] text in quotes | "#" number
        pattern = a name with stars in it, or stars alone
        shape   = [item {" " item}]
        item    = kind {"|" kind}

    >>> read_all(['# of our own', 'include numpy  # arrays'])
    [None, Line(name='numpy', words=frozenset(), note='arrays', is_include=True, entry='')]
    """
    texts = [line.strip(' \t\r') for line in lines]  # (what the program passes over, and no other blanks of Unicode)
    refused = _refused(texts) if texts and not is_checked else None
    found: List[Optional[Line]] = []
    for index, text in enumerate(texts):
        if index == refused:
            raise NoList(_why(text), index)
        found.append(_read(text, index) if text and not text.startswith('#') else None)
    return found


def _refused(texts: Sequence[str]) -> Optional[int]:
    """The first of these lines that is none, whatever is shown in two parts."""
    several = next((index for index, text in enumerate(texts) if '\n' in text), len(texts))
    refused = refused_line(['' if text.startswith(_BEGINS_PART) or _included(text) else text for text in texts[:several]])
    return refused if refused is not None or several == len(texts) else several


def read_line(line: str) -> Optional[Line]:
    """What a line of a list says; None for an empty line and a comment. Raises NoList where it has no meaning.

    >>> sorted(read_line("'os ' 'x #': call new").words), sorted(read_line('app.Job: call(text) made-state').words)
    (['call', 'new'], ['call()', 'made-state'])
    >>> read_line('import numpy')
    Traceback (most recent call last):
    picklestep.scan.names.NoList: no entry of a list: import numpy
    """
    return read_all([line])[0]


def read_comment(line: str) -> Optional[Line]:
    """What a comment would say if its `#` were taken away; None where it is none, or a text for people.

    >>> read_comment('# posix.system: call  # runs a shell command').name, read_comment('# Our own names.')
    ('posix.system', None)
    """
    text = line.strip()
    try:
        return read_line(text[1:]) if text.startswith('#') else None
    except NoList:
        return None


def _included(text: str) -> str:
    """The list that a line includes, if it includes one."""
    word, _, rest = text.partition('#')[0].strip().partition(' ')
    return rest.strip() if word == 'include' and rest.isprintable() else ''


def _read(text: str, index: int) -> Line:
    """What a line says that is none without meaning, unless a name in it is shown in two parts."""
    if text.startswith(_BEGINS_PART):
        return _read_parts(text, index)
    entry, _, note = text.partition('#')
    entry, note = entry.strip(), note.strip()
    if _included(text):
        return Line(_included(text), frozenset(), note, is_include=True)
    name, colon, tail = entry.partition(':')
    return Line(name.strip(), _words_in(tail) if colon else _ALL, note, entry=entry)


def _read_parts(text: str, index: int) -> Line:
    """The same where the name is shown in two parts. (What is in quotes may hold a `#`, also where a star stands for its end.)"""
    in_parts = _IN_PARTS.match(text)
    end = -1 if in_parts is None else text.find('#', in_parts.end())
    entry, note = (text, '') if end < 0 else (text[:end].strip(), text[end + 1:].strip())
    head, colon, tail = entry.rpartition(':')
    has_words = bool(colon) and refused_line([f'a.b:{tail}']) is None
    name = head.strip() if has_words else entry
    if not _IN_PARTS.fullmatch(name) and not (name.startswith("'") and '*' in name):
        raise NoList(_why(text), index)
    return Line(name, _words_in(tail) if has_words else _ALL, note)


@lru_cache(maxsize=1 << 10)
def _words_in(tail: str) -> FrozenSet[str]:
    return frozenset(f'{word}()' if shape else word for word, shape in _WORD.findall(tail))


def _why(text: str) -> str:
    """Why a line is none."""
    entry = text.partition('#')[0].strip() or text
    said = shown(entry[:_MOST_SHOWN])
    if entry.isidentifier():
        return f'no entry of a list, since it has no dot: {said} (the names of a set or a file: include {said})'
    wrong = next((word for word in re.findall(r'[\w-]+', entry[:1000].partition(':')[2]) if word not in _KNOWN_WORDS), '')
    return f'no entry of a list: {said}{nearest(wrong, "word", _KNOWN_WORDS)}'


def nearest(word: str, kind: str, words: Iterable[str]) -> str:
    """Words for a message: which of the words that there are is the nearest to a wrong one, if one is near.

    >>> nearest('Nump', 'set', ['numpy', 'torch']), nearest('x', 'set', ['numpy'])
    ('; the nearest set is numpy', '')
    """
    import difflib
    found = difflib.get_close_matches(word[:_MOST_SHOWN].lower(), list(words), 1)
    return f'; the nearest {kind} is {found[0]}' if found else ''


def words_for(done: Iterable[str]) -> str:
    """What stands behind a name that may have these things done to it and no others, by the first words of the program's lines.

    >>> words_for(['new', 'call', 'set']), words_for([])
    (': call fill', ':')
    """
    words = {_WORDS[what] for what in done if what in _WORDS}
    return ''.join([':', *(f' {word}' for word in _OF_LISTS if word in words and (word != 'new' or 'call' not in words))])


class _Pattern:
    """A pattern of names. (A list has hundreds, of which a file asks for a few: each is made ready when a name begins and ends as it does.)"""

    def __init__(self, text: str) -> None:
        self._pieces = _STARS.split(text)
        self._ready: Optional[Pattern[str]] = None

    def has(self, name: str) -> bool:
        """Whether it has a name."""
        if not (name.startswith(self._pieces[0]) and name.endswith(self._pieces[-1])):
            return False
        if self._ready is None:
            made = (('[^.]*' if piece == '*' else '.*') if piece.startswith('*') else re.escape(piece) for piece in self._pieces)
            self._ready = re.compile(''.join(made), re.DOTALL)
        return self._ready.fullmatch(name) is not None
