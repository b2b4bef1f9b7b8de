"""What the names of files and members say."""

from __future__ import annotations

import re

from ..patterns import pattern

__all__ = ['HEAD', 'NAMES_WITHOUT_TAR', 'is_pickle_name', 'is_storage_name']

# The first bytes of a member, which show what it is.
HEAD = 16_384

_PICKLE_NAME = pattern(r'.*\.(pkl|pickle|pck|pcl|pk|p|joblib|pt|pth|ckpt|dill)', re.IGNORECASE | re.DOTALL)
# Names of pickles that only Python's, joblib's and dill's loaders are given. (torch.load opens a tar archive.)
NAMES_WITHOUT_TAR = pattern(r'.*\.(pkl|pickle|pck|pcl|joblib|dill)', re.IGNORECASE | re.DOTALL)
_STORAGE_NAME = pattern(r'(.*/)?(data|constants)/[0-9]+', re.DOTALL)


def is_pickle_name(name: str) -> bool:
    """Whether a file of this name is taken for a pickle whatever it holds.

    >>> is_pickle_name('archive/data.pkl'), is_pickle_name('weights.bin')
    (True, False)
    """
    return _PICKLE_NAME.fullmatch(name.partition('\0')[0].strip()) is not None


def is_storage_name(name: str) -> bool:
    """Whether torch.save writes the raw numbers of a tensor under this name."""
    return _STORAGE_NAME.fullmatch(name) is not None
