"""A process of the pool: `python -I worker.py DESCRIPTOR PLACE..`. The places are where its parent finds modules.

They come behind the standard library, so that none of them hides a part of it.
"""

import os
import sys

if __name__ == '__main__':
    sys.path.insert(0, os.path.dirname(os.path.dirname(os.path.realpath(__file__))))
    sys.path.extend(place for place in sys.argv[2:] if place not in sys.path)
    from multiprocessing import connection
    from picklestep.pool import work
    # (Windows has pipes of its own kind)
    work(getattr(connection, 'PipeConnection', connection.Connection)(int(sys.argv[1])))
