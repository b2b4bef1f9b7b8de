#!/usr/bin/env python3
"""Compares what `gate` says of deflated members with zlib and zipfile.

    try_streams.py PROGRAM SEED COUNT

Each archive has one member. Its content is a stream that zlib made, by a level, a strategy and flushes of its own, or such a stream with bytes
changed, cut off or added; and its size and checksum are told, or others. It is wanted that `gate` opens it just where zlib unpacks all of the
content to bytes of that size and that checksum. The bytes are such that no loader reaches anything in them, so what opens passes. Where `gate` opens
a member, zipfile has to read it too. What is printed is how many archives there were, how many opened, and those of which another thing was said.
"""

from __future__ import annotations

import io
import subprocess
import sys
import tempfile
import zipfile
import zlib
from pathlib import Path
from random import Random
from typing import Optional

sys.path.insert(0, str(Path(__file__).resolve().parents[1] / "equipment"))

from trials.gate import deflated

STRATEGIES = (zlib.Z_DEFAULT_STRATEGY, zlib.Z_FILTERED, zlib.Z_HUFFMAN_ONLY, zlib.Z_RLE, zlib.Z_FIXED)
FLUSHES = (zlib.Z_SYNC_FLUSH, zlib.Z_FULL_FLUSH)
AT_ONCE = 200


def data(random: Random) -> bytes:
    """Bytes that begin with one that is no opcode."""
    size = random.choice((0, 1, 2, 50, 300, 3000, 40000))
    few = random.randbytes(random.choice((1, 2, 7, 256)))
    return b"\0" + bytes(random.choice(few) for _ in range(size)) if random.random() < 0.7 else b"\0" + few * (size // len(few))


def stream(random: Random, content: bytes) -> bytes:
    packer = zlib.compressobj(random.randrange(10), zlib.DEFLATED, -random.randrange(9, 16), random.randrange(1, 10), random.choice(STRATEGIES))
    made, place = b"", 0
    for _ in range(random.randrange(3)):
        end = random.randrange(place, len(content) + 1)
        made, place = made + packer.compress(content[place:end]) + packer.flush(random.choice(FLUSHES)), end
    return made + packer.compress(content[place:]) + packer.flush()


def mutated(random: Random, packed: bytes) -> bytes:
    change, at = random.randrange(4), random.randrange(len(packed))
    if change == 0:
        return packed[:at]
    if change == 1:
        return packed + random.randbytes(1 + random.randrange(4))
    return packed[:at] + bytes([packed[at] ^ (1 << random.randrange(8))]) + packed[at + 1:]


def unpacked(content: bytes) -> Optional[bytes]:
    """What zlib makes of all of the content; None where it is no stream, or more than one."""
    unpacker = zlib.decompressobj(-15)
    try:
        made = unpacker.decompress(content)
    except zlib.error:
        return None
    return made if unpacker.eof and not unpacker.unused_data else None


def told(random: Random, content: bytes, made: Optional[bytes]) -> bytes:
    """What is told of a member: what it unpacks to, or something else. A change may make bytes in which a loader reaches something: not of them."""
    if made is None or made[:1] not in (b"", b"\0") or random.random() < 0.1:
        return content
    return made[:-1] if random.random() < 0.05 else made


def case(random: Random) -> "tuple[bytes, bool]":
    content = data(random)
    packed = stream(random, content)
    if random.random() < 0.6:
        packed = mutated(random, packed)
    made = unpacked(packed)
    said = told(random, content, made)
    return deflated(packed, said), made == said


def as_zipfile_reads(archive: bytes) -> bool:
    with zipfile.ZipFile(io.BytesIO(archive)) as opened:
        try:
            opened.read("a.pkl")
        except (zipfile.BadZipFile, zlib.error, EOFError):
            return False
    return True


def main() -> int:
    program, seed, count = str(Path(sys.argv[1]).absolute()), int(sys.argv[2]), int(sys.argv[3])
    random = Random(seed)
    opened, wrong = 0, []
    with tempfile.TemporaryDirectory() as folder:
        (Path(folder) / "list").write_bytes(b"")
        for begin in range(0, count, AT_ONCE):
            cases = [case(random) for _ in range(min(AT_ONCE, count - begin))]
            names = [str(number) for number in range(len(cases))]
            for name, (archive, _) in zip(names, cases):
                (Path(folder) / name).write_bytes(archive)
            run = subprocess.run([program, "gate", "list", *names], cwd=folder, capture_output=True, text=True, check=False)
            for (archive, passes), line in zip(cases, run.stdout.splitlines(), strict=True):
                says = line.endswith(": passes")
                opened += says
                if says != passes or (says and not as_zipfile_reads(archive)):
                    wrong.append((line, archive.hex()[:400]))
    print(f"{count} archives, {opened} opened, {len(wrong)} of which another thing was said")
    for line, archive in wrong[:20]:
        print(line, archive)
    return 1 if wrong else 0


if __name__ == "__main__":
    sys.exit(main())
