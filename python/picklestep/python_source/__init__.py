"""`picklestep source FILE`: a pickle as Python source, to be read. Nothing of it is run."""

from .code import PythonSource, source
from .command import main

__all__ = ['PythonSource', 'main', 'source']
