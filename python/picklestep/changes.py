"""What changes make of an object that a pickle builds itself, as C's unpickler and Python's do it."""

from __future__ import annotations

from typing import Any, Callable, List, TypeVar, Union

from .errors import NoResult
from .listing_records import Object

__all__ = ['changed']

_Items = TypeVar('_Items', bound=Union[List[int], bytearray])


def changed(items: _Items, made: Object, value_of: Callable[[int], Any], item_of: Callable[[int], Any] = int) -> _Items:
    """What an object holds after its changes, of the items that it was made of: the numbers of objects, or with `item_of` what that makes of them.
    In a dictionary keys and values take turns. A state changes nothing: where an object has no attributes, it loads only if it is empty.

    Raises NoResult where an item is set at a place, or put into a byte array, of which it is not known which number it is.

    >>> from picklestep import Change
    >>> changed([0], Object(2, 'list', None, (0,), (Change('append', 1), Change('state', 1), Change('set', 1, 0))), {0: 1}.get)
    [0, 1]
    """
    try:
        for change in made.changes:
            if change.key is not None and made.kind == 'dict':
                items.extend((change.key, change.value))
            elif change.key is not None:
                items[value_of(change.key)] = item_of(change.value)
            elif change.how != 'state':
                items.append(item_of(change.value))
    except (TypeError, ValueError, IndexError) as error:
        raise NoResult(f'how object #{made.number} is changed is not known: {error}') from error
    return items
