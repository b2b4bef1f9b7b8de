"""The one strict form that the usual writers of a container write, a module for each.

A container passes only if every byte of it is accounted for: each `verify` answers the members with their exact places, or raises
`NotCanonical` with one sentence. So a file that two readers would read differently is noted without anybody having to know the trick. The
lenient readers beside this package still look into whatever is noted.
"""

from .forms import Form, Member, NotCanonical, NotKnown

__all__ = ['Form', 'Member', 'NotCanonical', 'NotKnown']
