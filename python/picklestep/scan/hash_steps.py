"""How many steps it takes to hash what a pickle has, and how deep tuples are in one another: by what the program's `objects` says they hold.

A tuple hashes its items, and so does what calls made, perhaps: named tuples, and what `tuple` makes of a list. It gets the steps of its arguments, of what is
in a list, a dictionary or a set among these, and of what is put into it. What a state holds is not counted: objects are hashed by their identity mostly.
"""

from __future__ import annotations

from array import array
from collections import Counter
from typing import List, Optional, Set

from ..patterns import pattern
from .costs import MOST_OF_MADE, MOST_OF_TUPLES, MOST_STEPS

__all__ = ['HashSteps', 'is_light']

# In lines of objects: what holds others, and what calls are of imports.
_HOLDER = pattern(rb'\n#([0-9]+) (tuple|list|dict|set|frozenset|call|new|new-ex|obj|inst) ([^\n]*#[^\n]*)')
# (a regular expression takes five times as long to find numbers of objects)
_NUMBERS = bytes(code if code in b'#0123456789' else 32 for code in range(256))
_PART = pattern(rb'[^#\n]*#([0-9]+)')
_KEY = pattern(rb'[\[&]#([0-9]+)')
_IMPORT = pattern(rb'\n#([0-9]+) stack-global \(#[0-9]+ #([0-9]+)\)')
# What hashes what it is given: the end of a line that names it, or what stands before the arguments there.
_HASHER = pattern(rb"'(?:set|frozenset|dict|OrderedDict|Counter|defaultdict)'(?=\n| \()")
_CONTAINERS = (b'list', b'dict', b'set')
# A large pickle has as many steps by itself: so many for each of its objects are nothing to mark.
_STEPS_OF_EACH = 100
_MOST_COUNTED = 1 << 60


def is_light(lines: bytes) -> bool:
    """Whether all lines of objects show at once that `HashSteps` finds nothing in them. What holds others may be in one of these and in the keys: then
    there are at most as many steps as numbers for each of the numbers. Each time that it is in another one makes of that at most four times as much.

    >>> is_light(b'\\n#0 none\\n#1 tuple (#0)\\n#2 tuple (#1 #1)\\n'), is_light(b''.join(b'\\n#%d tuple (#%d #%d)' % (at + 1, at, at) for at in range(20)))
    (True, False)
    """
    found = _HOLDER.findall(lines)
    holders = {b'#' + number for number, _, _ in found}
    counts = Counter(filter(holders.__contains__, lines.translate(_NUMBERS).split()))
    again = sum([count - 2 for count in counts.values() if count > 2])  # (it stands before its own line, too)
    if lines.count(b'#')**2 << 2 * again > MOST_STEPS:
        return False
    if len(found) > MOST_OF_MADE and sum([kind != b'tuple' and kind not in _CONTAINERS for _, kind, _ in found]) > MOST_OF_MADE:
        return False
    tuples = {b'#' + number: rest for number, kind, rest in found if kind == b'tuple'}
    return len(tuples) < MOST_OF_TUPLES or sum(map(tuples.__contains__, b''.join(tuples.values()).translate(_NUMBERS).split())) < MOST_OF_TUPLES


class HashSteps:
    """The steps that it takes to hash each object, and all keys and members. What neither is a tuple nor made by a call takes one step."""

    def __init__(self) -> None:
        self.found: Optional[str] = None
        # How much calls made.
        self.made = 0
        # (by the numbers of all objects, of which there may be millions: steps, 0 for one; the steps of what containers hold; 1 + where its text goes on)
        self._steps, self._taken, self._starts = array('Q'), array('Q'), array('Q')
        self._depths = bytearray()
        self._texts = bytearray()
        self._hashers: Set[int] = set()
        # The steps of the keys and members that calls hash, and the most steps of an object.
        self._hashed, self._most = 0, 1
        # (how often containers in arguments were asked for)
        self._asked = 0

    def take(self, lines: bytes) -> None:
        """Goes over lines of objects, up to the first that is too much."""
        self._take_names(lines)
        found = _HOLDER.findall(lines)
        more = int(found[-1][0]) + 1 - len(self._depths) if found else 0
        self._depths.extend(bytes(max(0, more)))
        for each in (self._steps, self._taken, self._starts):
            each.extend([0] * more)
        for number, kind, rest in found:
            if kind == b'tuple':
                self._take_tuple(int(number), rest)
            elif kind in _CONTAINERS:
                self._keep(int(number), rest)
                continue
            elif kind == b'frozenset':
                self._keep(int(number), rest.replace(b'#', b'&#'))
            else:
                self._take_made(int(number), kind, rest)
            if self.found is not None or self.is_too_long:
                return

    def end(self) -> None:
        """Adds the steps of all keys and members."""
        total = self._hashed
        if self._most * (self._texts.count(b'[') + self._texts.count(b'&')) + total > MOST_STEPS:
            total += sum([self._of(int(match[1])) for match in _KEY.finditer(self._texts)])
        if total > self._limit(len(self._depths)):
            self.found = f'to hash all keys and members in it takes {total:,} steps: who loads it waits for that'

    @property
    def is_too_long(self) -> bool:
        """Whether calls are given the same containers so often that counting would take without end."""
        return self._asked > 1_000_000 + _STEPS_OF_EACH * len(self._depths)

    def _take_names(self, lines: bytes) -> None:
        for match in _HASHER.finditer(lines):
            self._hashers.add(int(lines[lines.rfind(b'\n#', 0, match.start()) + 2:].split(b' ', 1)[0]))
        if self._hashers and b' stack-global ' in lines:
            self._hashers.update(int(number) for number, name in _IMPORT.findall(lines) if int(name) in self._hashers)

    def _take_tuple(self, number: int, rest: bytes) -> None:
        steps, depths, starts = self._steps, self._depths, self._starts
        parts = [int(part) for part in rest[2:rest.index(b')')].split(b' #')]
        inner = [part for part in parts if steps[part]]
        count, depth = 1 + len(parts), 1
        if inner:
            count += sum([steps[part] - 1 if depths[part] or not starts[part] else steps[part] - 1 + self._content(part, number) for part in inner])
            depth += max([depths[part] for part in inner])
        self._set(number, count, 'the tuple')
        if depth > MOST_OF_TUPLES and self.found is None:
            self.found = _of_depth(number)
            return
        depths[number] = depth
        containers = [part for part in parts if starts[part] and not steps[part]]
        if containers:
            self._keep(number, b' '.join([b'#%d' % part for part in containers]))

    def _take_made(self, number: int, kind: bytes, rest: bytes) -> None:
        self.made += 1
        if kind == b'inst':
            rest = rest[rest.rfind(b"'") + 1:]
        given, _, put = rest.partition(b')') if rest.lstrip().startswith(b'(') else (b'', b'', rest)
        parts = [int(part) for part in _PART.findall(given)]
        count = 1 + sum([self._given(part, number) for part in parts])
        self._set(number, count, 'what a call made,')
        if number in self._hashers or parts and parts[0] in self._hashers:
            self._hashed += count
        if b'#' in put:
            items = [each for each in put.split(b' ') if each and not each.startswith(b'!')]
            if items:
                self._keep(number, b' '.join(items))

    def _set(self, number: int, count: int, what: str) -> None:
        if count > self._limit(number):
            self.found = f'to hash {what} #{number} in it takes more than {MOST_STEPS:,} steps: who loads it as a key, or as a member of a set, waits for that'
            return
        self._steps[number] = count
        self._most = max(self._most, count)

    def _keep(self, number: int, text: bytes) -> None:
        """Keeps the text of what is in an object, of which part may come behind it."""
        self._starts[number] = len(self._texts) + 1
        self._texts += text
        self._texts += b'\n'

    def _of(self, part: int) -> int:
        """The steps of an object as far as they are known."""
        if part >= len(self._steps) or not self._steps[part]:
            return 1
        return self._steps[part] + (0 if self._depths[part] else self._taken[part])

    def _given(self, part: int, number: int) -> int:
        """The steps of an argument, or of all in a tuple, with what is in containers among them, for the call with this number."""
        if not self._starts[part]:
            return self._of(part)
        if not self._depths[part]:
            return self._of(part) + self._content(part, number)
        return self._steps[part] + sum([self._content(each, number) for each in self._inner(part)])

    def _inner(self, part: int) -> List[int]:
        begin = self._starts[part] - 1
        return [int(each) for each in _PART.findall(self._texts, begin, self._texts.index(b'\n', begin))]

    def _content(self, holder: int, number: int) -> int:
        """The steps of what a container holds as far as it is there before the object with this number. Each is counted once, how often this is asked."""
        self._asked += 1
        at, count = self._starts[holder] - 1, self._taken[holder]
        match = _PART.match(self._texts, at)
        while match is not None and int(match[1]) < number:
            count += self._of(int(match[1]))
            at = match.end()
            match = _PART.match(self._texts, at)
        self._starts[holder], self._taken[holder] = at + 1, min(count, _MOST_COUNTED)
        return count

    @staticmethod
    def _limit(number: int) -> int:
        return max(MOST_STEPS, _STEPS_OF_EACH * number)


def _of_depth(number: int) -> str:
    return (f'the tuple #{number} in it is nested deeper than {MOST_OF_TUPLES:,}: as a key, or as a member of a set, it may end the Python '
            'that loads it')
