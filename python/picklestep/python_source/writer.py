"""Writes what happened as Python statements."""

from __future__ import annotations

from itertools import groupby, repeat
from operator import itemgetter, mod
from typing import Any, Callable, Dict, Iterable, List, Optional, Sequence, Union

from .names import is_identifier
from .nodes import Arguments, Called, Entry, Event, Filled, Formed, Insides, Needed, Node, Paired, Statement, is_dict, is_tuple
from .shapes import BRACKETS, Part, Shape

__all__ = ['COLUMNS', 'MOST_DEPTH', 'MOST_ITEMS', 'MOST_LETTERS', 'Writer']

COLUMNS = 100
MOST_DEPTH = 6  # brackets in brackets; what has more gets a name of its own (Python reads no more than 200)
MOST_ITEMS = 16
MOST_LETTERS = 64

_EMPTY = {'set': 'set()', 'frozenset': 'frozenset()'}


class Writer:
    """The statements of a source. Unless it is `full`, texts and containers are cut as in `calls`: `is_cut` says that one was."""

    def __init__(self, full: bool) -> None:
        self.lines: List[str] = []
        self.is_cut = False
        self._full = full

    def _cut(self, count: object, before: str = '') -> str:
        """What stands for so many that are not shown."""
        self.is_cut = True
        return f'{before}cut({count})'

    def write(self, events: Iterable[Event]) -> None:
        """Writes what happened, in its order."""
        for event in events:
            _WRITERS[type(event)](self, event)

    def _end(self, statement: str, offset: Optional[int], note: str = '') -> None:
        """A statement ends, with its opcode's offset where it reaches out of the pickle."""
        self.lines.append(statement if offset is None else f'{statement}  # {offset}{note}')

    # --- Objects ---

    def _place(self, node: Node) -> None:
        """A node comes to be."""
        if node.kind == 'atom':
            self._put(node, self._atom(node.text), 0)
        else:
            depth = max([inner.depth for inner in node.inner]) if node.inner else 0
            self._put(node, self._container(node.kind, node.items, not node.inner), depth + 1 if node.items else 0)

    def _formed(self, node: Formed) -> None:
        """A container of plain values comes to be."""
        if node.opened is not None:
            self._place(node)
            return
        shape = node.shape
        text = shape.form % node.values
        if len(text) - shape.closing >= COLUMNS or shape.width > MOST_ITEMS:
            text = self._laid_out(shape.part, node.values)
        self._put(node, text, shape.depth)

    def _needed(self, needed: Needed) -> None:
        shapes = [node.shape if type(node) is Formed and node.opened is None else None for node in needed.nodes]
        for shape, group in groupby(zip(shapes, needed.nodes), itemgetter(0)):
            nodes: List[Any] = [node for _, node in group]
            if shape is None or not self._formed_together(shape, nodes):
                for node in nodes:
                    _WRITERS[type(node)](self, node)

    def _formed_together(self, shape: Shape, nodes: Sequence[Formed]) -> bool:
        """Containers of one shape come to be, unless one of them is not short."""
        texts = list(map(mod, repeat(shape.form), [node.values for node in nodes]))
        depth = shape.depth
        if shape.width > MOST_ITEMS or depth > MOST_DEPTH or max(map(len, texts)) - shape.closing >= COLUMNS:
            return False
        for node, text in zip(nodes, texts):
            if node.uses > 1:
                self._put(node, text, depth)
            else:
                node.text, node.depth = text, depth
        return True

    def _laid_out(self, part: Part, values: Sequence[str]) -> str:
        """A container of plain values, which need not be short."""
        items: List[Entry] = [
            item if isinstance(item, str) else self._laid_out(item, values) if isinstance(item, Part) else values[item] for item in part.items]
        return self._container(part.kind, items, True)

    def _insides(self, insides: Insides) -> None:
        for node in insides.nodes:
            if node.opened is not None:
                for inside in node.insides:
                    self._place(inside)

    def _put(self, node: Node, text: str, depth: int) -> None:
        """A node has its source. It gets a statement where it is used more than once, or is deep."""
        if node.uses > 1 or depth > MOST_DEPTH:
            node.text, node.is_named = f'_{node.number}', True
            self.lines.append(f'{node.text} = {text}')
        else:
            node.text, node.depth = text, depth

    def _atom(self, text: str) -> str:
        """A long plain value. What is cut off is counted in letters of its source, or in those of the text or the bytes that it is."""
        if self._full or len(text) <= MOST_LETTERS + 20:
            return text
        start = text[:2].lstrip('b')[:1]
        if start not in ('"', "'") or not text.endswith(start):
            return self._cut(f'{text[:MOST_LETTERS]!r}, {len(text) - MOST_LETTERS}')
        value = _value_of(text)
        more = len(value) - MOST_LETTERS
        return self._cut(more, f'{value[:MOST_LETTERS]!r} + ') if more > 0 else text

    def _container(self, kind: str, items: Sequence[Entry], are_texts: bool) -> str:
        """The literal of a container."""
        if not items:
            return _EMPTY.get(kind) or ''.join(BRACKETS[kind])
        shown = items if self._full or len(items) <= MOST_ITEMS else items[:MOST_ITEMS * (2 if kind == 'dict' else 1)]
        texts: List[str] = shown if are_texts else [entry if type(entry) is str else entry.text for entry in shown]  # type: ignore
        if kind == 'dict':
            texts = list(map('%s: %s'.__mod__, zip(texts[::2], texts[1::2])))
        if len(shown) < len(items):  # (then they are a list of their own)
            more = len(items) - len(shown)
            texts.append(self._cut(more // 2, '**') if kind == 'dict' else self._cut(more, '*'))
        return _bracketed(*BRACKETS[kind], texts, kind == 'tuple')

    # --- What happens ---

    def _statement(self, statement: Statement) -> None:
        self._end(statement.form.format(*map(str, statement.parts)), statement.offset, statement.note)

    def _called(self, called: Called) -> None:
        function = called.form.format(str(called.function))
        arguments = _bracketed(function + '(', ')', self._arguments(called.arguments), False)
        self._end(f'_{called.number} = {arguments}', called.offset)

    def _arguments(self, arguments: Arguments) -> List[str]:
        texts = self._shown(arguments.items)
        spread, keywords = arguments.spread, arguments.keywords
        if isinstance(spread, Node) and spread.kind == 'tuple' and not spread.is_named:
            texts += self._shown(spread.items)
        elif spread is not None and spread != '()':
            texts.append(f'*{spread}' if is_tuple(spread) else f'*arguments({spread})')
        if keywords is not None:
            texts += self._keywords(keywords)
        return texts

    def _shown(self, entries: Sequence[Entry]) -> List[str]:
        """How entries appear, as many as are shown, and how many more there are."""
        shown = entries if self._full else entries[:MOST_ITEMS]
        return [str(entry) for entry in shown] + ([self._cut(len(entries) - len(shown), '*')] if len(shown) < len(entries) else [])

    def _keywords(self, keywords: Entry) -> List[str]:
        if not isinstance(keywords, Node) or not is_dict(keywords):
            return [f'**keywords({keywords})']
        if keywords.is_named:
            return [f'**{keywords}']
        names = [key[1:-1] if isinstance(key, str) and key[:1] == "'" else '' for key in keywords.items[::2]]
        if len(set(names)) == len(names) <= MOST_ITEMS and all(map(is_identifier, names)):
            return [f'{name}={str(value)}' for name, value in zip(names, keywords.items[1::2])]
        return ['**' + str(keywords)]

    def _filled(self, filled: Filled) -> None:
        texts = self._shown(filled.items)
        for text in texts if filled.is_each else [_bracketed('[', ']', texts, False)]:
            self._end(filled.form.format(filled.target, text), filled.offset)

    def _paired(self, paired: Paired) -> None:
        target = str(paired.target)
        count = len(paired.items) // 2
        shown = count if self._full else min(count, MOST_ITEMS)
        for key, value in zip(paired.items[:2 * shown:2], paired.items[1::2]):
            self._end(f'{target}[{str(key)}] = {str(value)}', paired.offset)
        if shown < count:
            self._end(f'{target}.update({self._cut(count - shown)})', paired.offset)


def _value_of(text: str) -> Union[str, bytes]:
    """A text or bytes of what `repr` wrote, however long."""
    inner = text[2 if text[0] == 'b' else 1:-1].encode('latin-1', 'backslashreplace').decode('unicode_escape')
    return inner.encode('latin-1') if text[0] == 'b' else inner


def _bracketed(start: str, end: str, texts: List[str], is_tuple: bool) -> str:
    """Texts in brackets: in one line where that is short."""
    if not texts:
        return start + end
    inner = ', '.join(texts) if 2 * len(texts) <= COLUMNS else ''  # (more of them are not short)
    if inner and len(inner) + len(start) < COLUMNS and '\n' not in inner:
        return f'{start}{inner},{end}' if is_tuple and len(texts) == 1 else start + inner + end
    return f'{start}\n    ' + ',\n    '.join(_rows(texts)) + f',\n{end}'


def _rows(texts: List[str]) -> List[str]:
    """The rows of texts that are not in one line: some in each where all are short, else one."""
    longest = max(map(len, texts))
    if longest < COLUMNS // 4:
        count = COLUMNS // (longest + 2)
        rows = list(map(', '.join, zip(*[iter(texts)] * count)))
        rows += [', '.join(texts[len(rows) * count:])] * (len(texts) % count > 0)
        if not any('\n' in row for row in rows):
            return rows
    return [text.replace('\n', '\n    ') for text in texts] if '\n' in ''.join(texts) else texts


_WRITERS: Dict[type, Callable[[Writer, Any], None]] = {
    Node: Writer._place, Formed: Writer._formed, Needed: Writer._needed, Insides: Writer._insides, Statement: Writer._statement,
    Called: Writer._called, Filled: Writer._filled, Paired: Writer._paired}
