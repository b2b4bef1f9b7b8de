"""Whether a pickle or another file passes a list: a list, a file and the one line for both, and what is said where a file cannot be read."""

from __future__ import annotations

import functools
import gzip
import io
import json
import pickle
import struct
import tarfile
import zipfile
import zlib
from dataclasses import dataclass

import json_of_texts

from .members import CHECKSUM, METHOD, NO_END, SIZE, in_both, zipped
from .room import Room, Run, run
from .row import CLOSED, FULL, LITTLE_MEMORY, MISSING, Row, fails, trials_of
from .samples import NOT_ALLOWED, SEVERAL
from .trial import Trial

PASSES = "passes\n"
# Lists that let this dictionary pass, and lines that have the arguments of this call.
ALLOWING = (*(b"collections.OrderedDict" + uses for uses in (b": call made-fill\n", b"", b": call")), b"# a note\n\r\n\t collections.* # dictionaries\r\n", b"coll*.*Dict", b"**", b"collections.OrderedDict: call made\ncollections.*: made-fill\n")
FITTING = (b"call(text 'latin1')\n", b"call() call(short|held 'latin-1'|'latin1') made\n", b"call()\n_codecs.*: call(any text)\n", b"call()\n**: call\n", b"call() call\n")
# `OrderedDict(a=1)` in protocol 2.
ORDERED = b"\x80\x02ccollections\nOrderedDict\nq\x00)Rq\x01X\x01\x00\x00\x00aq\x02K\x01s."
# The same in protocol 4, where names are on the stack.
ORDERED_ON_STACK = b"\x80\x04\x95)\x00\x00\x00\x00\x00\x00\x00\x8c\x0bcollections\x94\x8c\x0bOrderedDict\x94\x93\x94)R\x94\x8c\x01a\x94K\x01s."
# An object that is made by `__new__` and given a state.
WITH_STATE = b"\x80\x02cm\nC\nq\x00)\x81q\x01}q\x02X\x01\x00\x00\x00aq\x03K\x01sb."
# Such an object in the midst of a pickle, which gets an attribute that an unpickler looks up, and then what makes it do so.
OBJECT = b"\x80\x02cm\nC\nq\x00)\x81q\x01"
COMMAND = b"cposix\nsystem\nq\x04"
SLOT_TWICE = OBJECT + b"N}q\x02X\x0c\x00\x00\x00__setstate__q\x03" + COMMAND + b"s\x86q\x05bX\x02\x00\x00\x00idq\x06b."
STATE_TWICE = OBJECT + b"}q\x02X\x0c\x00\x00\x00__setstate__q\x03" + COMMAND + b"sbX\x02\x00\x00\x00idq\x05b."
CLASS_TWICE = OBJECT + b"N}q\x02X\x09\x00\x00\x00__class__q\x03" + COMMAND + b"s\x86q\x05bX\x02\x00\x00\x00idq\x06b."
ITEM_BEHIND = OBJECT + b"}q\x02X\x06\x00\x00\x00appendq\x03" + COMMAND + b"sbX\x02\x00\x00\x00idq\x05a."
ITEMS_BEHIND = OBJECT + b"}q\x02X\x06\x00\x00\x00extendq\x03" + COMMAND + b"sb(X\x02\x00\x00\x00idq\x05X\x02\x00\x00\x00lsq\x06e."
NEW_BEHIND = OBJECT + b"}q\x02X\x07\x00\x00\x00__new__q\x03" + COMMAND + b"sb)\x81q\x05."
# An object with an item and a state; and three objects of one class, of which one is in the state of another.
ITEM_BEFORE = OBJECT + b"K\x01a}q\x02X\x01\x00\x00\x00aq\x03K\x01sb."
STATES = OBJECT + b"}q\x02X\x01\x00\x00\x00aq\x03h\x00)\x81q\x04}q\x05h\x03h\x00)\x81q\x06}q\x07h\x03K\x01sbsbsb."
# What `functools.partial` makes gets a state and is called, as picklers of protocol 2 do it for a class whose arguments have names.
CALLED_BEHIND = b"\x80\x02cm\nP\nq\x00)Rq\x01(K\x01K\x02K\x03tq\x02b)Rq\x03."
ANY_STATE = b"m.C: new made-call made-new made-state made-fill\nposix.system:\n"
# `bytes` in protocol 2: a call with a text and the name of an encoding.
ENCODED = pickle.dumps(b"abc", 2)
# Protocol 3: `set` of a list, and of what a call made. Protocol 2: `bytearray` of what `encode` makes.
SET, SET_OF_CALL = (b"\x80\x03cbuiltins\nset\nq\x00" + given for given in (b"]q\x01K\x01a\x85q\x02Rq\x03.", b"ccollections\nOrderedDict\nq\x01)Rq\x02\x85q\x03Rq\x04."))
ARRAY_OF_BYTES = pickle._dumps(bytearray(b"ab"), 2)  # type: ignore[attr-defined]
# In Python 2 `reduce` was in `__builtin__`.
RENAMED = b"\x80\x02c__builtin__\nreduce\nq\x00."
PERSISTENT = b"\x80\x02X\x01\x00\x00\x00aq\x00Q."
EXTENSION = b"\x80\x02\x82\x05."
BUFFER = b"\x80\x05\x97."
SYSTEM = b"cposix\nsystem\n(X\x02\x00\x00\x00idtR."
IMPORT = "2: not allowed: import 'collections' 'OrderedDict' as #0\n"
CALL = "30: not allowed: call 'collections' 'OrderedDict' () as #2\n"
FILL = "43: not allowed: set 1 in #2\n"
NEW = "10: not allowed: new 'm' 'C' () as #2\n"
ENCODE = "46: not allowed: call '_codecs' 'encode' ('abc', 'latin1') as #4\n"
STATE = "27: not allowed: state #3 to #2\n"
# Where the header of a member and its row of the directory tell these.
CHECKSUMS, SIZES = (CHECKSUM, CHECKSUM + 2), (SIZE, SIZE + 2)
# `N.` as one block of deflate that stores it: the last block, the length, its complement, the bytes.
BLOCK = b"\x01\x02\x00\xfd\xffN."
UNCLEAR = "two names for one file, or a name with an empty part, . or ..: it is not looked at\n"
TOO_LARGE = f"it unpacks to more than {1 << 30} bytes: it is not looked at\n"


def number(value: int) -> bytes:
    return struct.pack("<I", value)


def deflated(content: bytes, data: bytes) -> bytes:
    """An archive of one member, of which it is told that this content unpacks to these data."""
    made = in_both(zipped(("a.pkl", content)), METHOD, b"\x08")
    return in_both(in_both(made, SIZES, number(len(data))), CHECKSUMS, number(zlib.crc32(data)))


def tarred(*members: "tuple[str, bytes]", form: int = tarfile.PAX_FORMAT) -> bytes:
    """A tar archive. A name that ends with a slash is that of a directory."""
    out = io.BytesIO()
    with tarfile.open(fileobj=out, mode="w", format=form) as archive:
        for name, content in members:
            info = tarfile.TarInfo(name.rstrip("/"))
            info.size, info.type = len(content), tarfile.DIRTYPE if name.endswith("/") else tarfile.REGTYPE
            archive.addfile(info, io.BytesIO(content))
    return out.getvalue()


def broken(why: str) -> str:
    return f"'a.pkl': {why}\n"


def array(items: str, shape: str, width: int = 2) -> bytes:
    """The header of an `.npy` file, as numpy writes it. Its length has two bytes, and from the second version on four."""
    text = f"{{'descr': {items}, 'fortran_order': False, 'shape': {shape}, }}".encode().ljust(119 - width) + b"\n"
    return b"\x93NUMPY" + bytes((width // 2, 0)) + len(text).to_bytes(width, "little") + text


ARRAY, WIDE_ARRAY = array("'|O'", "()"), array("'|O'", "()", 4)
OTHER_SIZE = "not in form: 128: more or fewer bytes than the header of the array tells\n"
PACKED = zipped(("a.pkl", ORDERED), ("b.npy", array("'<f8'", "(80,)") + bytes(640)), method=zipfile.ZIP_DEFLATED)
TAR = tarred(("./", b""), ("./a.pkl", ORDERED), ("./b.npy", array("'<f8'", "(80,)") + bytes(640)))
MODEL = zipped(("archive/data.pkl", ORDERED), ("archive/data/0", bytes(64)), ("archive/version", b"3\n"))


@dataclass(frozen=True)
class Case:
    """A list, a pickle, and what is said of both. The status is 0 where it passes, 2 where the list is none, and else 1."""

    name: str
    listed: bytes
    pickle: bytes
    output: str

    @property
    def status(self) -> int:
        return 0 if self.output == PASSES else 2 if self.output.startswith("not a list: ") else 1

    def fault(self, room: Room) -> str:
        folder = room.folder / "gate"
        folder.mkdir(parents=True, exist_ok=True)
        (folder / "list").write_bytes(self.listed)
        (folder / "pickle").write_bytes(self.pickle)
        words = [room.program, "gate", "list", "pickle"]
        return run(words, folder).difference(self.status, self.output, "") or self.fault_of_json(run([*words, "--json"], folder))

    def fault_of_json(self, found: Run) -> str:
        fields = json.loads(found.output)
        fields.pop("reason", None)
        wanted = json_of_texts.of_gate(self.output)
        return "" if (list(fields.items()), found.status, found.errors) == (list(wanted.items()), self.status, b"") else f"with --json: {found.output!r}"


CASES = (
    Case("the same of names on the stack", b"collections.OrderedDict: call made-fill\n", ORDERED_ON_STACK, PASSES),
    *(Case(f"names and uses that {listed!r} has", listed, ORDERED, PASSES) for listed in ALLOWING),
    *(Case(f"a name that {listed!r} has not", listed, ORDERED, IMPORT) for listed in (b"", *(b"collections.%s\n" % name for name in (b"deque", b"OrderedDict.x", b"Ordered")), b"*\n")),
    Case("a pickle without an import, and an empty list", b"", b"N.", PASSES),
    *(Case(f"a call without {uses!r}", b"collections.OrderedDict:%s\n" % uses, ORDERED, CALL) for uses in (b" new state fill made-fill", b"")),
    *(Case(f"what a call made is filled, by {uses!r}", b"collections.OrderedDict: call %s\n" % uses, ORDERED, FILL) for uses in (b"made", b"fill made-call made-new made-state")),
    *(Case(f"a state by {uses!r}", b"m.C: %s made-state\n" % uses, WITH_STATE, PASSES) for uses in (b"new", b"call")),
    *(Case(f"__new__ without {uses!r}", b"m.C: %s\n" % uses, WITH_STATE, NEW) for uses in (b"state made-state", b"call(held)", b"new call(held)")),
    *(Case(f"a state without {uses!r}", b"m.C: new %s\n" % uses, WITH_STATE, STATE) for uses in (b"state made-fill", b"then(held)")),
    Case("a second state of an object with slots", ANY_STATE, SLOT_TWICE, "66: not allowed: state 'id' to #2\n"),
    Case("a second state", ANY_STATE, STATE_TWICE, "62: not allowed: state 'id' to #2\n"),
    Case("a second state of an object that changed its class", ANY_STATE, CLASS_TWICE, "63: not allowed: state 'id' to #2\n"),
    Case("an item behind a state", ANY_STATE, ITEM_BEHIND, "56: not allowed: append 1 to #2\n"),
    Case("items behind a state", ANY_STATE, ITEMS_BEHIND, "66: not allowed: append 2 to #2\n"),
    Case("a new instance of what has its state", ANY_STATE, NEW_BEHIND, "49: not allowed: new #2 () as #7\n"),
    Case("the same by a list without words", b"**", STATE_TWICE, "62: not allowed: state 'id' to #2\n"),
    Case("a state of what an instance is made of", ANY_STATE, OBJECT + b"h\x01)\x81q\x02h\x01}q\x03b.", "24: not allowed: state #5 to #2\n"),
    Case("a state of what is made of an object with a state", ANY_STATE, OBJECT + b"}q\x02bh\x01)Rq\x03}q\x04b.", "26: not allowed: state #6 to #5\n"),
    Case("OBJ of a class with a state", ANY_STATE, OBJECT + b"}q\x02b(h\x01oq\x03.", "20: not allowed: call #2 () as #4\n"),
    Case("a state with attributes by a state of its own", ANY_STATE, OBJECT + b"h\x00)\x81q\x02}q\x03bb.", "23: not allowed: state #4 to #2\n"),
    Case("a half of a state with such attributes", ANY_STATE, OBJECT + b"h\x00)\x81q\x02}q\x03bN\x86q\x04b.", "27: not allowed: state (#4, none) to #2\n"),
    Case("a half whose own state is no dictionary", ANY_STATE, OBJECT + b"h\x00)\x81q\x02K\x01K\x02K\x03\x87q\x03bN\x86q\x04b.", PASSES),
    Case("a state that a class made of such a half", ANY_STATE, OBJECT + b"h\x00h\x00)\x81q\x02}q\x03bN\x86q\x04\x81q\x05b.", "32: not allowed: state #8 to #2\n"),
    Case("a state that a class made of literals", ANY_STATE, OBJECT + b"h\x00X\x01\x00\x00\x00aq\x02K\x01\x86q\x03\x81q\x04b.", PASSES),
    Case("an item before a state", ANY_STATE, ITEM_BEFORE, PASSES),
    Case("states of three objects of one class", ANY_STATE, STATES, PASSES),
    Case("a call of what has its state", b"m.P: call made-call made-state\n", CALLED_BEHIND, PASSES),
    Case("a name of Python 3", b"functools.reduce:\n", RENAMED, PASSES),
    Case("a name of Python 2", b"__builtin__.reduce:\n", RENAMED, "2: not allowed: import 'functools' 'reduce' for '__builtin__' 'reduce' as #0\n"),
    Case("a persistent id", b"persistent\n", PERSISTENT, PASSES),
    Case("a persistent id that is not allowed", b"buffer\n**.x\n", PERSISTENT, "10: not allowed: persistent 'a' as #1\n"),
    *(Case(f"an extension by {listed!r}", listed, EXTENSION, PASSES) for listed in (b"ext 5\n", b"ext *\n")),
    Case("another extension", b"ext 6\n", EXTENSION, "2: not allowed: import ext 5 as #0\n"),
    Case("a buffer", b"buffer\n", BUFFER, PASSES),
    Case("a buffer that is not allowed", b"persistent\n", BUFFER, "2: not allowed: buffer 0 as #0\n"),
    Case("a command", b"collections.*\n", SYSTEM, "0: not allowed: import 'posix' 'system' as #0\n"),
    Case("a command that is only imported", b"posix.system:\n", SYSTEM, "23: not allowed: call 'posix' 'system' ('id') as #3\n"),
    Case("no bytes", b"**", b"", "not in form: item 0 at 0: no opcode can be read\n"),
    Case("bytes that end too early", b"**", ORDERED[:-1], "not in form: item 10 at 44: no opcode can be read\n"),
    Case("bytes behind STOP", b"**", b"N.N.", "not in form: item 2 at 2: bytes behind STOP\n"),
    Case("another form before what is not allowed", b"", b"J\x01\0\0\0" + ORDERED, "not in form: item 0 at 0: a number that has a shorter form\n"),
    Case("another form behind what is not allowed", b"", ORDERED[:-1] + b"0N.", IMPORT),
    *(Case(f"arguments by {listed!r}", b"_codecs.encode: " + listed, ENCODED, PASSES) for listed in FITTING),
    Case("an entry without shapes and without a call", b"_codecs.encode: call()\n**: state\n", ENCODED, ENCODE),
    *(Case(f"arguments that are not {shape!r}", b"_codecs.encode: call(%s)\n" % shape, ENCODED, ENCODE) for shape in (b"text 'latin-1'", b"'latin1' text", b"text text text", b"text", b"")),
    Case("a list that the pickle wrote out", b"builtins.set: call(listed)\n", SET, PASSES),
    Case("what a call made in its place", b"builtins.set: call(listed)\ncollections.OrderedDict: call\n", SET_OF_CALL, "52: not allowed: call 'builtins' 'set' (#3) as #5\n"),
    Case("bytes that a call makes", b"builtins.bytearray: call(bytes)\n_codecs.encode: call\n", ARRAY_OF_BYTES, PASSES),
    Case("an archive of a pickle, of numbers and of a text", b"collections.OrderedDict: call made-fill\n", MODEL, PASSES),
    Case("an archive without members", b"", zipped(), PASSES),
    Case("a member that is not allowed", b"", MODEL, f"'archive/data.pkl': {IMPORT}"),
    Case("the second member, whose name has a quote", b"", zipped(("a.pkl", b"N."), ("it's", ORDERED)), f"'it\\'s': {IMPORT}"),
    Case("a member that no pickler writes, in which nothing is reached", b"", zipped(("a.pkl", b"J\x01\0\0\0.")), PASSES),
    Case("a member that no pickler writes, in which something is", b"", zipped(("a.pkl", b"J\x01\0\0\0" + SYSTEM)), "'a.pkl': not in form: item 0 at 0: a number that has a shorter form\n"),
    Case("a text of which a loader imports what stands before a point", b"", zipped(("a", b"cthis.a b\nx\n")), "'a': not in form: item 0 at 0: an import whose names are not plain\n"),
    Case("a text that no loader imports from", b"", zipped(("a", b"ca b.this\nx\n")), PASSES),
    Case("a module that can be none, with a name that torch answers", b"torch.*Storage:\n", zipped(("a/data.pkl", b"c a\nFloatStorage\n0" + SYSTEM)), "'a/data.pkl': not in form: item 0 at 0: an import whose names are not plain\n"),
    Case("a member that ends too early", b"**", zipped(("a.pkl", ORDERED[:-1])), "'a.pkl': not in form: item 10 at 44: no opcode can be read\n"),
    Case("packed members", b"collections.OrderedDict: call made-fill", PACKED, PASSES),
    Case("a packed member that is not allowed", b"", PACKED, f"'a.pkl': {IMPORT}"),
    Case("a packed archive", b"**", zipped(("a.zip", zipped(("a.pkl", b"N."))), method=zipfile.ZIP_DEFLATED), "'a.zip': an archive itself: it is not looked at\n"),
    Case("a stored member with another checksum", b"", in_both(zipped(("a.pkl", b"N.")), CHECKSUMS, number(1)), broken("another checksum than is told")),
    Case("one of many bytes", b"", in_both(zipped(("a.pkl", bytes(9000))), CHECKSUMS, number(1)), broken("another checksum than is told")),
    Case("a packed member with another checksum", b"", in_both(deflated(BLOCK, b"N."), CHECKSUMS, number(1)), broken("another checksum than is told")),
    Case("a stream of one block", b"", deflated(BLOCK, b"N."), PASSES),
    Case("a stream of fewer bytes", b"", deflated(BLOCK, b"N.N"), broken("not deflated: fewer bytes than are told")),
    Case("a stream of more bytes", b"", deflated(BLOCK, b"N"), broken("not deflated: 5: more bytes than are told")),
    Case("bytes behind a stream", b"", deflated(BLOCK + b"?", b"N."), broken("not deflated: bytes behind the stream")),
    Case("a stream that is cut", b"", deflated(BLOCK[:-1], b"N."), broken("not deflated: 6: it ends too early")),
    Case("a block of no kind", b"", deflated(b"\x07", b"N."), broken("not deflated: 0: no block")),
    Case("a code of no distance", b"", deflated(b"\x03\x3e\x00", b"N.."), broken("not deflated: 1: no code")),
    Case("a copy of what is not there", b"", deflated(b"\x03\x02\x00", b"N.."), broken("not deflated: 1: a copy from before the first byte")),
    Case("a member that unpacks to too much", b"", in_both(PACKED, SIZES, number((1 << 30) + 1), 1), TOO_LARGE),
    Case("members that do so together", b"", in_both(in_both(PACKED, SIZES, number(1 << 29), 0), SIZES, number((1 << 29) + 1), 1), TOO_LARGE),
    Case("names that differ in case alone", b"", zipped(("a.pkl", b"N."), ("A.pkl", b"N.")), "two names that differ in case alone: it is not looked at\n"),
    *(Case(f"an archive of {len(given)} bytes in an archive", b"**", zipped(("a", given)), "'a': an archive itself: it is not looked at\n") for given in (zipped(("a.pkl", b"N.")), zipped(), TAR)),
    Case("arrays of numbers", b"", zipped(("a.npy", array("'<f8'", "(2,)") + bytes(16)), ("b.npy", array("'<U2'", "(1, 2)", 4) + b"c" * 16)), PASSES),
    Case("an array of fewer bytes than are told", b"", zipped(("a.npy", array("'<f8'", "(2,)") + bytes(13))), f"'a.npy': {OTHER_SIZE}"),
    Case("an array in a file", b"", array("'<M8[ns]'", "(3, 2)") + b"c" * 48, PASSES),
    Case("one of fields", b"**", array("[('a', '<f8')]", "(1,)") + bytes(8), "not in form: 20: items of an array that are no plain numbers, texts, times, bytes or objects\n"),
    Case("a file of gzip", b"collections.OrderedDict: call made-fill", gzip.compress(ORDERED), PASSES),
    Case("a packed pickle that is not allowed", b"", zlib.compress(ORDERED), f"'(zlib)': {IMPORT}"),
    Case("bytes behind a packed file", b"**", gzip.compress(b"N.") * 2, "not in form: 22: bytes behind the end of the stream\n"),
    Case("a packed file with another checksum", b"**", zlib.compress(b"N.")[:-1] + b"?", "not in form: 6: another checksum than is told\n"),
    Case("a packed file in a packed file", b"**", gzip.compress(zlib.compress(b"N.")), "'(gzip)': a container itself: it is not looked at\n"),
    *(Case(f"a tar archive, {number}", b"collections.OrderedDict: call made-fill", given, PASSES) for number, given in enumerate((TAR, gzip.compress(TAR), *(tarred(("m.pkl", ORDERED), ("n" * 120, b""), form=form) for form in (tarfile.GNU_FORMAT, tarfile.PAX_FORMAT))))),
    Case("a member of a tar archive that is not allowed", b"", TAR, f"'./a.pkl': {IMPORT}"),
    Case("one in a packed file", b"", gzip.compress(TAR), f"'(gzip)': './a.pkl': {IMPORT}"),
    Case("a tar archive with a byte behind", b"**", TAR + b"\n", "not in form: 3072: an end that is not filled with zeros as writers fill it\n"),
    *(Case(f"a tar archive with {name}", b"**", tarred(("a", b"N."), (name, b"N.")), UNCLEAR) for name in ("a", "./A", "a/../b", "/a")),
    Case("a tar archive from which a loader imports", b"**", tarred(("cos.x", b"N.\n\n")), "a loader may take the archive itself for something else: it is not looked at\n"),
    Case("a command behind a persistent id", b"persistent\n", zipped(("a.pkl", PERSISTENT[:-1] + SYSTEM)), "'a.pkl': 11: not allowed: import 'posix' 'system' as #2\n"),
    Case("a persistent id in a member", b"", zipped(("a.pkl", PERSISTENT)), "'a.pkl': 10: not allowed: persistent 'a' as #1\n"),
    *(Case(f"numbers that begin as a persistent id of {given!r}", b"", zipped(("data/0", given + SYSTEM)), PASSES) for given in (b"Q", b"Pa\xff\n")),
    Case("one that the file ends", b"", zipped(("data/0", b"Pab\xff")), "'data/0': not in form: item 0 at 0: no opcode can be read\n"),
    Case("one that is ASCII", b"persistent\n", zipped(("data/0", b"Pa\n" + SYSTEM)), "'data/0': 3: not allowed: import 'posix' 'system' as #1\n"),
    Case("an array of objects", b"", zipped(("a.npy", ARRAY + SYSTEM)), "'a.npy': behind its header: 0: not allowed: import 'posix' 'system' as #0\n"),
    Case("one of the second version", b"", zipped(("a.npy", WIDE_ARRAY + SYSTEM)), "'a.npy': behind its header: 0: not allowed: import 'posix' 'system' as #0\n"),
    Case("one that the list allows", b"collections.OrderedDict", zipped(("a.npy", ARRAY + ORDERED)), PASSES),
    Case("bytes behind an archive", b"**", zipped(("a.pkl", b"N.")) + b"\n", f"not in form: 89: {NO_END}\n"),
    Case("an archive that is a pickle with a persistent id", b"persistent\n", b"PK\x03\x04\n.", f"not in form: 0: {NO_END}\n"),
    Case("a line that is no entry, and an archive", b"a b\n", MODEL, "not a list: line 1 is no entry\n"),
    Case("a line that is no entry", b"collections.*\n\n# a note\nno name\n", ORDERED, "not a list: line 4 is no entry\n"),
    Case("a word that there is not", b"collections.OrderedDict: cal\n", ORDERED, "not a list: line 1 is no entry\n"),
    Case("two lines that are no entries, and no pickle", b"a.b\n1.b\n:\n", b"", "not a list: line 2 is no entry\n"),
)

# A file with a name of two lines comes behind the files of the row.
TWO_LINES = r'''name=$'a: passes\n\'b'; printf N. >"$name"; "$@" "$name"'''

ROWS = (
    Row("a list through a pipe", ("gate", "/dev/stdin"), output=PASSES, through='printf "a.b: call" | "$@" <(printf N.)'),
    Row("a pickle through a pipe", ("gate", "empty.pickle", "/dev/stdin"), output=PASSES, through='printf N. | "$@"'),
    Row("several files, each of which passes", ("gate", "names.list", "none.pickle", "two.zip", "none.pickle"), output="'none.pickle': passes\n'two.zip': passes\n'none.pickle': passes\n"),
    Row("several files, of which the first does not pass", ("gate", "names.list", "hostile.pickle", "none.pickle"), status=1, output=f"'hostile.pickle': {NOT_ALLOWED}'none.pickle': passes\n"),
    Row("several files, of which the last does not pass", ("gate", "names.list", "none.pickle", "hostile.pickle"), status=1, output=SEVERAL),
    Row("several files, one with a name like an option", ("gate", "names.list", "none.pickle", "--", "-none"), output="'none.pickle': passes\n'-none': passes\n", through='printf N. >./-none; "$@"'),
    Row("several files, one with a name of two lines", ("gate", "names.list", "none.pickle"), output="'none.pickle': passes\n'a: passes\\x0a\\'b': passes\n", through=TWO_LINES),
    Row("several files, and a list with a line that is no entry", ("gate", "pair.pickle", "none.pickle", "missing.pickle"), status=2, output="not a list: line 1 is no entry\n", is_bare=True),
    Row("several files, of which one is not there", ("gate", "names.list", "none.pickle", "missing.pickle", "none.pickle"), status=2, output="'none.pickle': passes\n", errors=f"picklestep: cannot read\npicklestep: cannot read missing.pickle: {MISSING}\n"),
    fails("several files, and no such list", "cannot read", "gate", "missing.list", "none.pickle", "none.pickle", unread=f"missing.list: {MISSING}"),
    fails("several files, on a full device", "cannot write", "gate", "names.list", "none.pickle", "none.pickle", through=FULL),
    fails("no such list", "cannot read", "gate", "missing.list", "pair.pickle", unread=f"missing.list: {MISSING}"),
    fails("a list, and no such pickle", "cannot read", "gate", "empty.pickle", "missing.pickle", unread=f"missing.pickle: {MISSING}"),
    fails("a list past the size limit, with little memory", "too large", "gate", "too_large.pickle", "pair.pickle", through=LITTLE_MEMORY),
    fails("a pickle past the size limit, with little memory", "too large", "gate", "empty.pickle", "too_large.pickle", through=LITTLE_MEMORY),
    fails("the line, on a full device", "cannot write", "gate", "empty.pickle", "pair.pickle", through=FULL),
    fails("the line, with closed standard output", "cannot write", "gate", "empty.pickle", "pair.pickle", through=CLOSED),
)


def trials(room: Room) -> list[Trial]:
    return [*(Trial(case.name, functools.partial(case.fault, room)) for case in CASES), *trials_of(ROWS, room)]
