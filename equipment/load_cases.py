"""Pickles to try on loaders: made by chance from a seed. What is on the stack is kept by kinds, so that most of them go far.

A share of each is spelled as no pickler spells it: numbers of GET and PUT with blanks, frames of wrong lengths, arguments that are no tuple,
lines that the end cuts. Several in a row may stand in frames that hold more than their pickle.
"""

from __future__ import annotations

import pickletools
import random
import struct
from collections.abc import Callable, Iterator, Sequence

CODES = [opcode.code.encode("latin-1") for opcode in pickletools.opcodes]
MODULES = [b"os", b"posix", b"a.b", b"commands", b"__builtin__", b"builtins", b"copy_reg", b"collections", b"caf\xc3\xa9"]
MEMBERS = [b"system", b"getoutput", b"unichr", b"eval", b"OrderedDict", b"x.y", b"_reconstructor", b"\xc3\xa9"]
ODD_TEXTS = [b"\\u006fs", b"o\\x73", b"\xff", b"\xed\xa0\x80", b"a b", b"", b"\\", b"tab\there", b"\\U0001f600"]
ODD_KEYS = [b" %d", b"%d ", b"+%d", b"%d\r", b"\t%d", b"0%d", b"%d\0", b"%d\0x", b"%d_0", b"-%d", b"%dL", b"0x%d", b""]
ODD_NUMBERS = [b"I\0x\n", b"I0x10\n", b"I1_0\n", b"L5\n", b"I 7\n", b"F1_0.5\n", b"Fnan\n", b"I01\n", b"I\n", b"Fx\n", b"S'a\n", b"S\"b\"\n", b"Sa\n"]
NO_TUPLES = [b"X\x02\0\0\0ab", b"C\x01a", b"]", b"}", b"\x8f", b"(\x91", b"N", b"K\x07", b"\x96\0\0\0\0\0\0\0\0"]
FILLS = [b"(e", b"(\x90", b"(u", b"(NNe", b"Na", b"NNs", b"(NNu", b"(NN\x90", b"(NNNu", b"\x98", b"\x98Na", b"\x98(e"]
EIGHT = b"\x02" + b"\0" * 7
PLAIN = [
    *[b"N"] * 6, b"\x88", b"\x89", b"K\x05", b"M\x07\x01", b"J\xff\xff\xff\xff", b"I7\n", b"I-12\n", b"L8L\n", b"F1.5\n", b"F-0.0\n", b"G@\x09!\xfbTD-\x18",
    b"\x8a\x01\x09", b"\x8a\0", b"\x8b\x02\0\0\0\xff\x7f", b"B\x02\0\0\0yz", b"\x8e" + EIGHT + b"yz", b"\x8d" + EIGHT + b"yz", b"T\x02\0\0\0yz",
]
MOST_BYTES = 3000


class Maker:
    """A pickle in the making: its opcodes, the kinds of the objects on the stack (`o` is one from elsewhere), and those under marks."""

    def __init__(self, chance: random.Random, odd: float) -> None:
        self.chance = chance
        self.odd = odd
        self.opcodes: list[bytes] = []
        self.top: list[str] = []
        self.under: list[list[str]] = []
        self.memo: dict[int, str] = {}

    def put(self, opcode: bytes, takes: int = 0, makes: str = "") -> None:
        """Adds opcodes that take objects and make some."""
        self.opcodes.append(opcode)
        if takes:
            del self.top[-takes:]
        self.top.extend(makes)

    def is_odd(self) -> bool:
        return self.chance.random() < self.odd

    def text_of(self, texts: Sequence[bytes]) -> bytes:
        return self.chance.choice(ODD_TEXTS if self.is_odd() else texts)

    def text(self, texts: Sequence[bytes]) -> None:
        text = self.text_of(texts)
        plain = text.replace(b"\n", b"")
        how = self.chance.randrange(6)
        if how == 0:
            self.put(b"V" + plain + b"\n", makes="s")
        elif how == 1:
            self.put(b"S'" + plain.replace(b"'", b"") + b"'\n", makes="s")
        elif how == 2:
            self.put(b"U" + bytes([len(text)]) + text, makes="s")
        elif how == 3:
            self.put(b"X" + struct.pack("<I", len(text)) + text, makes="s")
        else:
            self.put(b"\x8c" + bytes([len(text)]) + text, makes="s")

    # --- One step each ---

    def plain(self) -> None:
        if self.is_odd():
            self.put(self.chance.choice(ODD_NUMBERS), makes="p")
        else:
            self.put(self.chance.choice(PLAIN), makes="p")

    def container(self) -> None:
        opcode, kind = self.chance.choice([(b"]", "l"), (b"}", "d"), (b")", "t"), (b"\x8f", "e"), (b"C\x02ab", "b"), (b"\x96\x01" + b"\0" * 7 + b"a", "a")])
        self.put(opcode, makes=kind)

    def elsewhere(self) -> None:
        how = self.chance.randrange(12)
        if how < 5:
            self.put(b"c" + self.text_of(MODULES) + b"\n" + self.text_of(MEMBERS) + b"\n", makes="o")
        elif how < 8:
            # (of a module or a member that is no text in the pickle)
            asked = self.chance.randrange(2) if how == 7 else 2
            for which, names in enumerate((MODULES, MEMBERS)):
                if which == asked:
                    self.put(b"Ptext\n", makes="s")
                else:
                    self.text(names)
            self.put(b"\x93", 2, "o")
        elif how == 8:
            codes = [b"\x82\x01", b"\x82\x02", b"\x83\x00\x01", b"\x84\xff\xff\xff\x7f", b"\x82\x01"]
            self.put(self.chance.choice(codes if not self.is_odd() else [b"\x82\0", b"\x84\xff\xff\xff\xff"]), makes="o")
        elif how == 9:
            self.put(b"P" + self.chance.choice([b"17", b"text", b"\xff" if self.is_odd() else b"a"]) + b"\n", makes="o")
        elif how == 10:
            self.put(b"\x97", makes="o")
        elif self.top:
            self.put(b"Q", 1, "o")

    def callable(self) -> None:
        if not self.top or self.top[-1] != "o":
            self.elsewhere()

    def arguments(self) -> None:
        if self.is_odd():
            self.put(self.chance.choice(NO_TUPLES), makes="t")
        else:
            self.put(self.chance.choice([b")", b"N\x85", b"K\x01K\x02\x86", b"(NNNNt", b"X\x02\0\0\0id\x85"]), makes="t")

    def call(self) -> None:
        self.callable()
        how = self.chance.randrange(6)
        if how < 4:
            self.arguments()
            self.put(b"R" if how < 3 else b"\x81", 2, "o")
        elif how == 4:
            self.arguments()
            self.put(self.chance.choice([b"}", b"}X\x01\0\0\0kNs"] if not self.is_odd() else [b"N", b"]"]), makes="d")
            self.put(b"\x92", 3, "o")
        else:
            self.put(self.chance.choice([b"N", b"}", b"N}\x86"]), makes="d")
            self.put(b"b", 1)

    def old_call(self) -> None:
        arguments = self.chance.choice([b"", b"N", b"K\x01K\x02"])
        if self.is_odd() and self.chance.random() < 0.3:
            self.put(b"i" + self.text_of(MODULES) + b"\n" + self.text_of(MEMBERS) + b"\n")
        elif self.chance.random() < 0.5:
            self.put(b"(" + arguments + b"i" + self.text_of(MODULES) + b"\n" + self.text_of(MEMBERS) + b"\n", makes="o")
        else:
            self.put(b"(cos\nx\n" + arguments + b"o", makes="o")

    def fill(self) -> None:
        kind = self.top[-1] if self.top else ""
        fills = {"l": [b"Na", b"(NNe", b"(e"], "d": [b"NNs", b"(NNu"], "e": [b"(NN\x90"], "o": FILLS}.get(kind)
        if fills is not None:
            self.put(self.chance.choice(fills))
        elif self.is_odd() and kind:
            self.put(self.chance.choice(FILLS))

    def memoize(self) -> None:
        if not self.top:
            return
        key = self.chance.choice([0, 1, 2, 5, 255])
        how = self.chance.randrange(4)
        if how == 0:
            key = len(self.memo)
            self.put(b"\x94")
        elif how == 1:
            self.put(b"q" + bytes([key]))
        elif how == 2:
            self.put(b"r" + struct.pack("<I", key))
        else:
            self.put(b"p" + self.spelled(key) + b"\n")
        self.memo[key] = self.top[-1]

    def recall(self) -> None:
        if not self.memo:
            return
        key = self.chance.choice(sorted(self.memo))
        how = self.chance.randrange(3)
        spelled = (b"h" + bytes([key]), b"j" + struct.pack("<I", key), b"g" + self.spelled(key) + b"\n")[how]
        self.put(spelled, makes=self.memo[key])

    def spelled(self, key: int) -> bytes:
        spelling = self.chance.choice(ODD_KEYS) if self.is_odd() else b"%d"
        return spelling % key if b"%" in spelling else spelling

    def mark(self) -> None:
        self.put(b"(")
        self.under.append(self.top)
        self.top = []

    def cut(self) -> None:
        if self.under:
            self.opcodes.append(self.chance.choice([b"t", b"l", b"\x91", b"1", b"d"] if len(self.top) % 2 == 0 else [b"t", b"l", b"1"]))
            made = {b"t": "t", b"l": "l", b"\x91": "f", b"d": "d", b"1": ""}[self.opcodes[-1]]
            self.top = self.under.pop() + list(made)

    def handle(self) -> None:
        if self.top:
            self.put(*self.chance.choice([(b"2", 0, self.top[-1]), (b"0", 1, ""), (b"(0", 0, ""), (b"(N1", 0, "")]))

    def protocol(self) -> None:
        self.put(b"\x80" + bytes([self.chance.choice([2, 3, 4, 5] if not self.is_odd() else [1, 6, 200])]))

    def anything(self) -> None:
        if self.is_odd():
            self.put(self.chance.choice(CODES))

    def pickle(self, steps: int, frames: bool) -> bytes:
        """The bytes of a whole pickle."""
        if self.chance.random() < 0.5:
            self.protocol()
        for _ in range(steps):
            self.chance.choice(STEPS)(self)
        if not self.top or self.chance.random() < 0.5:
            self.put(b"clast\nact\n)R", makes="o")
        self.put(b".")
        opcodes = framed(self.chance, self.opcodes, self.odd) if frames else self.opcodes
        return b"".join(opcodes)


STEPS: list[Callable[[Maker], None]] = [
    *[Maker.plain] * 3, *[Maker.container] * 3, *[Maker.elsewhere] * 4, *[Maker.call] * 6, *[Maker.fill] * 5, *[Maker.old_call] * 2,
    *[Maker.memoize] * 3, *[Maker.recall] * 3, Maker.mark, *[Maker.cut] * 2, Maker.handle, Maker.protocol, Maker.anything,
]


def framed(chance: random.Random, opcodes: Sequence[bytes], odd: float) -> list[bytes]:
    """Opcodes with frames around some of them. A frame of a wrong length ends within an opcode, or goes on where nothing is."""
    made: list[bytes] = []
    at = 0
    while at < len(opcodes):
        count = chance.randrange(1, 9) if chance.random() < 0.7 else len(opcodes)
        body = list(opcodes[at:at + count])
        at += count
        size = sum(map(len, body))
        if chance.random() < odd:
            size = max(0, size + chance.choice([-2, -1, 1, 2, 9, 40, -size]))
            if chance.random() < 0.3:
                body = framed(chance, body, odd)
        made += [b"\x95" + struct.pack("<Q", size), *body] if chance.random() < 0.7 else body
    return made


def made(chance: random.Random) -> bytes:
    """One pickle."""
    odd = chance.choice([0, 0, 0.05, 0.15, 0.4])
    return Maker(chance, odd).pickle(chance.choice([4, 8, 16, 30]), chance.random() < 0.35)


def changed(chance: random.Random, real: Sequence[bytes]) -> bytes:
    """A real pickle with something changed: bytes, its end, opcodes of another, or its frames."""
    pickle = chance.choice(real)
    how = chance.randrange(5)
    if how == 0:
        return pickle[:chance.randrange(len(pickle) + 1)]
    if how == 1:
        at = chance.randrange(len(pickle))
        return pickle[:at] + bytes([chance.randrange(256)]) + pickle[at + 1:]
    maker = Maker(chance, 0.3)
    maker.top = ["o"]
    for _ in range(4):
        chance.choice(STEPS)(maker)
    at = chance.randrange(len(pickle) + 1)
    opcodes = [pickle[:at], *maker.opcodes, pickle[at:] if how == 2 else b"clast\nact\n)R."]
    return b"".join(framed(chance, opcodes, 0.5) if how == 4 else opcodes)


def singles(seed: int, count: int, real: Sequence[bytes]) -> Iterator[bytes]:
    """Pickles, two of three made from nothing."""
    chance = random.Random(f"one {seed}")
    short = [pickle for pickle in real if 0 < len(pickle) <= MOST_BYTES]
    for _ in range(count):
        yield made(chance) if chance.random() < 0.66 or not short else changed(chance, short)


def rows(seed: int, count: int) -> Iterator[bytes]:
    """Two or three pickles in a row; of some the frame goes on behind STOP."""
    chance = random.Random(f"several {seed}")
    for _ in range(count):
        pickles = []
        for _ in range(chance.choice([2, 2, 3])):
            pickle = made(chance)
            if chance.random() < 0.15:
                rest = chance.choice([b"", b"N.", b"\0", b"(", b"X\x10\0\0\0", b"cin\nframe\n."])
                pickle = b"\x95" + struct.pack("<Q", len(pickle) + len(rest)) + pickle + rest
            pickles.append(pickle)
        yield b"".join(pickles)


# What files show ahead at once: a member of a zip file, a buffered file, and what the unpickler in C asks for; and sizes around these.
SHOWN = [100, 400, 505, 511, 520, 4090, 8180, 8190, 8200, 20000, 66000, 131060, 131072, 140000]


def _padding(chance: random.Random) -> bytes:
    """Opcodes of many bytes that leave the stack as it is."""
    size = chance.choice(SHOWN if chance.random() < 0.5 else [200, 500, 1000, 9000]) + chance.randrange(12)
    four, eight = struct.pack("<I", size), struct.pack("<Q", size)
    return chance.choice([
        b"B" + four + bytes(size), b"X" + four + b"N" * size, b"\x8e" + eight + (b"cos\nx\n" * size)[:size], b"N0" * (size // 2) + b"N",
        b"V" + b"a" * size + b"\n", b"\x96" + eight + b"(" * size, b"T" + four + b"y" * size,
    ]) + b"0"


def wide(seed: int, count: int) -> Iterator[bytes]:
    """Pickles that are larger than what files show ahead."""
    chance = random.Random(f"wide {seed}")
    for _ in range(count):
        odd = chance.choice([0, 0, 0.05, 0.15, 0.4])
        maker = Maker(chance, odd)
        maker.pickle(chance.choice([8, 16, 30]), False)
        for _ in range(chance.choice([1, 2, 4])):
            maker.opcodes.insert(chance.randrange(len(maker.opcodes)), _padding(chance))
        yield b"".join(framed(chance, maker.opcodes, odd) if chance.random() < 0.7 else maker.opcodes)


# What stands in a frame that is crossed. The last is larger than what C asks a file for at once (and one opcode, since Python's unpickler is slow).
BODIES = [b"N0" * 5, b"N0" * 300, b"N0" * 300, b"N0" * 5000, b"B" + struct.pack("<I", 140000) + bytes(140000) + b"0"]


def _crossed(chance: random.Random) -> bytes:
    """A frame that is crossed. To go on, a loader takes the first kind as from bytes and the second as a buffer; the third is no frame."""
    how = chance.randrange(3)
    if how == 0:
        return b"\x95" + struct.pack("<Q", 3) + b"NX\x01\0\0\0a00"
    if how == 1:
        body = chance.choice(BODIES) + b"X\xff\xff\xff"
        return b"\x95" + struct.pack("<Q", len(body)) + body + b"\x01\0\0\0a0"
    return b"c" + chance.choice(MODULES) + b"\n" + chance.choice(MEMBERS) + b"\n" + chance.choice([b"0", b")R0", b"q\x00Na0"])


def _mixed(chance: random.Random) -> bytes:
    parts = []
    for _ in range(chance.choice([1, 2, 3, 4])):
        parts.append(_crossed(chance))
        if chance.random() < 0.2:
            parts.append(b"B" + struct.pack("<I", 500) + bytes(500) + b"0")
    return b"".join(parts) + b"clast\nact\n)R."


def mixed(seed: int, count: int, most: int = 1) -> Iterator[bytes]:
    """Rows of pickles, up to so many, whose frames are crossed on purpose, with acts between."""
    chance = random.Random(f"mixed {seed}")
    for _ in range(count):
        yield b"".join(_mixed(chance) for _ in range(chance.choice(range(1, most + 1))))


# What brings something from elsewhere, in all ways.
FIRST_ACTS = [
    b"cos\nsystem\n", b"(ios\nsystem\n", b"Vos\nVsystem\n\x93", b"V\\u006fs\nVsystem\n\x93", b"S'os'\nS'system'\n\x93", b"U\x02osU\x06system\x93",
    b"\x8c\x02os\x94X\x06\0\0\0system\x93", b"T\x02\0\0\0os\x8d\x06\0\0\0\0\0\0\0system\x93", b"\x82\x01", b"\x83\0\x01", b"Ptext\n", b"NQ", b"\x97",
    b"ca b\nFloatStorage\n", b"(ia,b\nLongStorage\n", b"U\x01 U\x09 \0Storage\x93",
]
QUIET: list[Callable[[Maker], None]] = [
    *[Maker.plain] * 5, *[Maker.container] * 3, *[Maker.fill] * 3, *[Maker.memoize] * 3, *[Maker.recall] * 2, Maker.mark, Maker.cut, Maker.protocol, Maker.anything,
]


def quiet(seed: int, count: int) -> Iterator[bytes]:
    """Pickles that bring nothing from elsewhere for a while, and some never, in frames of any lengths."""
    chance = random.Random(f"quiet {seed}")
    for _ in range(count):
        odd = chance.choice([0, 0.1, 0.3])
        maker = Maker(chance, odd)
        for _ in range(chance.choice([1, 3, 6, 12])):
            chance.choice(QUIET)(maker)
        for _ in range(chance.choice([0, 1, 1, 1, 2])):
            act = chance.choice(FIRST_ACTS) if chance.random() < 0.8 else b"c" + chance.choice(ODD_TEXTS) + b"\nx\n"
            maker.opcodes.insert(chance.randrange(len(maker.opcodes) + 1), act)
        if chance.random() < 0.3:
            maker.opcodes.insert(chance.randrange(len(maker.opcodes) + 1), chance.choice([b"N.", b".", b"\x95" + struct.pack("<Q", 3) + b"NX\x01\0\0\0a00"]))
        if chance.random() < 0.1:
            maker.opcodes.insert(chance.randrange(len(maker.opcodes) + 1), _padding(chance))
        yield b"".join(framed(chance, [*maker.opcodes, b"N."], chance.choice([0.2, 0.6, 0.9])) if chance.random() < 0.8 else maker.opcodes)
