"""The sample files, and what the program writes of those that several trials use."""

from __future__ import annotations

import zipfile
from pathlib import Path

from devices import BREAKPOINTS

PAIR = b"K\x01K\x02\x86q\x00."
PAIR_LISTING = """\
    0: K    BININT1    1
    2: K    BININT1    2
    4: \\x86 TUPLE2
    5: q    BINPUT     0
    7: .    STOP
highest protocol among opcodes = 2
"""
PAIR_JSON = """\
{"kind":"opcode","offset":0,"opcode":"BININT1","argument":1,"marks":0}
{"kind":"opcode","offset":2,"opcode":"BININT1","argument":2,"marks":0}
{"kind":"opcode","offset":4,"opcode":"TUPLE2","marks":0}
{"kind":"opcode","offset":5,"opcode":"BINPUT","argument":0,"marks":0}
{"kind":"opcode","offset":7,"opcode":"STOP","marks":0}
{"kind":"end","how":"stopped","kept":0,"protocol":2}
"""
PAIR_OBJECTS_JSON = ('{"kind":"object","object":0,"is":"int","argument":1}\n{"kind":"object","object":1,"is":"int","argument":2}\n'
                     '{"kind":"object","object":2,"is":"tuple","parts":[0,1]}\n{"kind":"result","object":2}\n{"kind":"end","how":"stopped"}\n')
PAIR_OBJECTS = "#0 int 1\n#1 int 2\n#2 tuple (#0 #1)\nresult #2\n"
DOUBLED = b"K\x012\x86."
TWICE_OBJECTS = "#0 int 1\n#1 tuple (#0 #0)\n#2 int 1\n#3 tuple (#2 #2)\nresult #1\nresult #3\n"
# It would call os.system('id') when it is loaded; nothing here loads it.
HOSTILE = b"cposix\nsystem\n(X\x02\x00\x00\x00idtR."
HOSTILE_CALLS = """\
    0: import 'posix' 'system' as #0
   23: call 'posix' 'system' ('id') as #3
1 imports, 1 calls
"""
# What is said of it by names.list.
NOT_ALLOWED = "23: not allowed: call 'posix' 'system' ('id') as #3\n"
# What is said by names.list of none.pickle and then of it.
SEVERAL = f"'none.pickle': passes\n'hostile.pickle': {NOT_ALLOWED}"
REACHED = "reached at 0: GLOBAL 'posix' 'system'\n"
# Of two.zip. (A header has 30 bytes, and a name here 5.)
MEMBERS = "35: 2 stored 'a.pkl'\n72: 3 stored 'b.pkl'\n"
MEMBERS_JSON = (
    '{"kind":"member","name":"a.pkl","offset":35,"size":2,"method":"stored"}\n'
    '{"kind":"member","name":"b.pkl","offset":72,"size":3,"method":"stored"}\n{"kind":"end","how":"whole"}\n'
)

# The size from which an edit is too large, and the size from which a file is not opened.
LARGE = 2**28
LARGEST = 2**30

SMALL = {
    "pair.pickle": PAIR,
    "-pair": PAIR,
    "-": PAIR,
    "another folder/a pair.pickle": PAIR,
    "unreadable.pickle": PAIR,
    "doubled.pickle": DOUBLED,
    "itself.pickle": DOUBLED,
    "kept.pickle": DOUBLED,
    "twice.pickle": DOUBLED * 2,
    "hostile.pickle": HOSTILE,
    "names.list": b"posix.system:\n",
    "dump.pickle": BREAKPOINTS[0],
    "cut_short.pickle": b"X\x05\0\0\0ab",
    "empty.pickle": b"",
    "none.pickle": b"N.",
    "popped.pickle": b"NN0.",
    "long.pickle": b"N" * 2_000_000 + b".",
}


def make_archive(path: Path, members: dict[str, bytes]) -> None:
    with zipfile.ZipFile(path, "w") as archive:
        for name, content in members.items():
            archive.writestr(name, content)


def make_holes(path: Path, size: int, before: bytes = b"", behind: bytes = b".") -> None:
    """One BINBYTES of zeros between these bytes, of this size together. Most of the file takes no room on a disk."""
    zeros = size - len(before) - len(behind) - 5
    with open(path, "wb") as file:
        file.write(before + b"B" + zeros.to_bytes(4, "little"))
        file.seek(size - len(behind))
        file.write(behind)


def make(folder: Path, start: Path) -> None:
    """Makes all sample files in a new folder, and a link to the script that starts the program."""
    (folder / "another folder").mkdir(parents=True)
    for name, content in SMALL.items():
        (folder / name).write_bytes(content)
    make_archive(folder / "two.zip", {"a.pkl": b"N.", "b.pkl": b"K\x01."})
    (folder / "unreadable.pickle").chmod(0)
    make_holes(folder / "large.pickle", LARGE)
    make_holes(folder / "larger.pickle", LARGE + 1, behind=b".N")
    # (as Python's picklers write bytes in protocol 3)
    make_holes(folder / "large_dump.pickle", LARGE, b"\x80\x03", b"q\x00.")
    make_holes(folder / "largest.pickle", LARGEST)
    with open(folder / "too_large.pickle", "wb") as file:
        file.truncate(LARGEST + 1)
    (folder / "linked").symlink_to(start)
