"""How deep tuples, and what calls made, are in one another, and how many layers a network has: by what the program's `objects` says they hold."""

from __future__ import annotations

from contextlib import closing
from itertools import chain, islice
from typing import Generator, Iterable, Iterator, List, Optional, Sequence, Set

from .. import library
from ..errors import PicklestepError
from ..program import Process, time_to_wait
from .blobs import Blob, Budget, FileBlob, spooled
from .canonical.formed import content_of
from .costs import MOST_OF_MADE, Cost
from .hash_steps import HashSteps, is_light

__all__ = ['cost_in_objects', 'layers_in_objects']

# The key of the state of torch's recurrent networks that says how many layers one has, as it stands in a line of JSON.
_MOST_LAYERS = 9_999
_LAYERS = ':"num_layers"'
_NUMBERS = ('int"', 'int-line"', 'long-line"')


def cost_in_objects(blob: Blob, budget: Budget, may_be_nested: bool) -> Optional[Cost]:
    """What is to be said of such a pickle. Without `may_be_nested` calls made little in it."""
    try:
        hashes = HashSteps()
        objects = _objects(blob, budget)
        pieces = list(islice(objects, 2))
        if len(pieces) == 1 and is_light(pieces[0]):
            return None
        for lines in chain(pieces, objects):
            hashes.take(lines)
            budget.spend()
            if hashes.is_too_long:
                return Cost('how many steps it takes to hash what calls made is not known: they are given the same lists too often', is_known=False)
            if hashes.found is not None:
                return Cost(hashes.found)
        hashes.end()
        if hashes.found is not None:
            return Cost(hashes.found)
        return _cost_of_made(blob, budget) if may_be_nested and hashes.made > MOST_OF_MADE else None
    except PicklestepError:
        return Cost('how deep tuples and what calls made are in it is not known: the program has not said all of it', is_known=False)


def _cost_of_made(blob: Blob, budget: Budget) -> Optional[Cost]:
    """The same of what calls made, of which there is much."""
    from ..held import short_tails  # (few pickles have so much)
    from .made_depths import Made
    made = Made()
    with closing(_answer(['objects', '--json', '--many'], blob, budget)) as blocks:
        for tails in short_tails(blocks):
            made.take(tails)
            budget.spend()
    if made.depth(budget) <= MOST_OF_MADE:
        return None
    return Cost(f'what calls made in it is nested deeper than {MOST_OF_MADE:,}: to free or to hash it may end the Python that loads it')


def layers_in_objects(blob: Blob, budget: Budget) -> Optional[str]:
    """What is to be said of a pickle that has a network of very many layers."""
    from ..held import KEY, holders_of, short_tails  # (few pickles have such networks)
    layers: Set[int] = set()
    large: Set[int] = set()
    pairs: List[Sequence[int]] = []
    first = 0
    try:
        with closing(_answer(['objects', '--json', '--many'], blob, budget)) as blocks:
            for tails in short_tails(blocks):
                layers.update([number for number, tail in enumerate(tails, first) if _LAYERS in tail])
                large.update([number for number, tail in enumerate(tails, first) if tail.startswith(_NUMBERS) and _is_large(tail)])
                pairs.extend([put[at:at + 2] for _, _, _, signs, put in holders_of(first, tails) for at, sign in enumerate(signs) if sign == KEY[0]])
                first += len(tails)
    except PicklestepError:
        return 'how many layers a network in it has is not known'
    if any(key in layers and value in large for key, value in pairs):
        return f'a network in it has more than {_MOST_LAYERS:,} layers: who loads it waits for them'
    return None


def _is_large(tail: str) -> bool:
    """Whether the number in the second part of a line may be too many layers. (One that stands in a line of the pickle is not read.)"""
    from ..held import fields_of_tails
    fields = fields_of_tails([tail])[0]
    number = fields.get('argument', fields.get('argument_digits', ''))
    return bool(number > _MOST_LAYERS if isinstance(number, int) else fields['is'] != 'int' or not number.startswith('-'))


def _objects(blob: Blob, budget: Budget) -> Iterator[bytes]:
    """What the program says of each object, in pieces of whole lines with one before them. (As lines of JSON it takes longer than all else.)"""
    with closing(_answer(['objects', '--many'], blob, budget)) as pieces:
        yield from _whole(pieces)


def _answer(words: List[str], blob: Blob, budget: Budget) -> Generator[bytes, None, None]:
    """What the program says with these words, in pieces."""
    content = content_of(blob)
    text = None if content is None else library.answer(words, content, budget.memory())
    if text is not None:
        yield text
        return
    path = blob.path() if isinstance(blob, FileBlob) else None
    copy = spooled(blob.chunks()) if path is None else None
    try:
        process = Process([*words, path or ('' if copy is None else copy.path())], memory=budget.memory())
        process.limit_seconds(budget.seconds)
        with closing(process.blocks(time_to_wait(budget.seconds))) as pieces:
            yield from pieces
    finally:
        if copy is not None:
            copy.file.close()


def _whole(pieces: Iterable[bytes]) -> Iterator[bytes]:
    """The same lines in pieces that end with one, each behind a newline."""
    rest: List[bytes] = []
    for piece in pieces:
        lines, newline, begun = piece.rpartition(b'\n')
        if newline:
            yield b''.join([b'\n', *rest, lines, newline])
            rest = []
        rest.append(begun)
