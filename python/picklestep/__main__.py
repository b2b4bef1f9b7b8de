"""`python -m picklestep`: the entrance.

Python itself searches the current folder before this file is read: `python -P -m picklestep` (3.11) or `python -I -m picklestep` keeps it
from that. (No `from __future__` here: it would import a file of that name.)
"""

from .entrance import run

if __name__ == '__main__':
    run()
