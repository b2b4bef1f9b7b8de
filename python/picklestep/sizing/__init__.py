"""`picklestep size FILE`: where the bytes of a pickle go. Nothing of it is run."""

from .command import main
from .measure import size
from .records import Again, MemoSize, PathSize, Saving, Sized, Sizes

__all__ = ['Again', 'MemoSize', 'PathSize', 'Saving', 'Sized', 'Sizes', 'main', 'size']
