"""Which policy is found for a run, where none is named.

Whoever makes a folder may put a policy into it. So a policy that nobody named adds marks, and takes none away: see `judging`.
"""

from __future__ import annotations

import os
from typing import Iterable, List, Optional

from ...opens import is_at_server
from ..looking import is_url

__all__ = ['find_policy']

# The name of a policy that is found.
_NAME = 'picklestep.toml'


def find_policy(paths: Iterable[str]) -> Optional[str]:
    """The nearest policy from the folder upwards that all paths are in, or None. Servers, URLs and names on standard input are in none."""
    folders: List[str] = []
    for path in paths:
        if path != '-' and not is_at_server(path) and not is_url(path):
            whole = os.path.abspath(path)
            folders.append(whole if os.path.isdir(whole) else os.path.dirname(whole))
    try:
        folder = os.path.commonpath(folders) if folders else os.getcwd()
    except ValueError:  # (on Windows paths may be on several drives)
        return None
    while not os.path.isfile(os.path.join(folder, _NAME)):
        above = os.path.dirname(folder)
        if above == folder:
            return None
        folder = above
    return os.path.join(folder, _NAME)
