"""The functions that a source defines for what Python has no statement for: those of `picklestep.running`, as texts."""

from __future__ import annotations

import pkgutil
from typing import Dict

__all__ = ['HELPERS']

_RUNNING = 'picklestep', 'running.py'

_IMPORTS = {
    'persistent_load': '# persistent_load(identity) is to be given: it answers the object of a persistent id.\n',
    'buffers': '# buffers is to be given: an iterator over the buffers that are kept outside the pickle.\n',
    'import_module': 'from importlib import import_module\n',
    'reduce': 'from functools import reduce\n',
    # Under a name of its own: what a pickle puts in the place of `loads` is not what C calls.
    'unpickle': 'from pickle import loads as unpickle\n'}


def _functions() -> Dict[str, str]:
    """The text of each function, by its name."""
    text = (pkgutil.get_data(*_RUNNING) or b'').decode('utf-8').replace('\r\n', '\n')
    parts = text.split('\n\n\ndef ')[1:]
    return {part.partition('(')[0]: f'\ndef {part.strip()}\n\n' for part in parts}


# By what a source needs, in the order in which they are written.
HELPERS: Dict[str, str] = {**_IMPORTS, **_functions()}
