"""Runs the trials that `./test` asks for.

    python3 -m trials --list [NAME..]
    python3 -m trials --program FILE [--built FILE] --folder FOLDER NAME..
    python3 -m trials --program FILE [--built FILE] --folder FOLDER --proofs LOG STATUS SECONDS LACKS

The folder is for files, and is empty. LOG is what `rt ci` wrote, LACKS what the installers said that failed. The groups `devices`, `memory` and `saves` load a library before the program, which
a static one does not let them: they try the one that is `--built`, with which `machines` and `library` compare others. Without it all groups try
the program.
"""

from __future__ import annotations

import argparse
import os
import signal
import sys
from pathlib import Path

from . import runner
from .room import Room

ROOT = Path(__file__).resolve().parents[2]


def main() -> int:
    parser = argparse.ArgumentParser(prog="trials", description="tries the built program from outside")
    parser.add_argument("--list", action="store_true")
    parser.add_argument("--program", type=Path, default=Path())
    parser.add_argument("--built", type=Path)
    parser.add_argument("--folder", type=Path, default=Path())
    parser.add_argument("--proofs", nargs=4, metavar=("LOG", "STATUS", "SECONDS", "LACKS"))
    parser.add_argument("names", nargs="*")
    words = parser.parse_args()
    # (Node reads these certificates at each start, which takes as long as all else of it; nothing that is tried asks a server for one)
    os.environ.pop("NODE_EXTRA_CA_CERTS", None)
    room = Room(ROOT, words.program.resolve(), (words.built or words.program).resolve(), words.folder.resolve())
    try:
        if words.list:
            # (a reader such as `head` may leave before the end)
            signal.signal(signal.SIGPIPE, signal.SIG_DFL)
            runner.list_names(room, words.names)
            return 0
        if words.proofs:
            log, status, seconds, lacks = words.proofs
            return runner.run_all(room, Path(log), int(status), int(seconds), Path(lacks))
        return runner.run_named(room, words.names)
    except runner.Unknown as unknown:
        print(f"./test: no trial and no group has the name {unknown}: ./test --list writes the names", file=sys.stderr)
        return 2


if __name__ == "__main__":
    sys.exit(main())
