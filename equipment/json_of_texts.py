"""What `--json` has to print, made of the text that the program prints without it: one object for each line of JSON.

The texts are those of docs/reference/common.md, and the kinds and fields those of docs/reference/json.md. Nothing but tests reads texts so.
"""

from __future__ import annotations

import re
from collections.abc import Iterator
from typing import Any, Dict, Union

Value = Union[int, str, bool]
Fields = Dict[str, Value]  # (the package's tests import this in older versions)
Nested = Dict[str, Any]

QUOTED = r"'(?:[^'\\]|\\.)*'"
# (the names of opcodes are in capitals; behind the argument stands what the opcode says besides)
OPCODE = re.compile(rf" *(\d+): (\S+) +([A-Z][A-Z0-9_]*)(?: +({QUOTED}(?: {QUOTED})?|-?\d+|le:[0-9a-f]*|f8:[0-9a-f]{{16}}))?(?: +\((MARK at|as) (\d+)\))?")
# (the debugger's line of an opcode: the cursor, a breakpoint, its place, its offset)
OPCODE_OF_ITEM = re.compile(rf"([> ])([* ]) *(\d+) +(\d+): ([A-Z][A-Z0-9_]*)(?: ({QUOTED}(?: {QUOTED})?|-?\d+|le:[0-9a-f]*|f8:[0-9a-f]{{16}}))?")
COLUMNS = re.compile(r" *\d+: .{4} ( *)")
LEFT = re.compile(r"left: (\d+) objects, (\d+) marks")
FAULT = re.compile(r"fault: (F\d+) (.*?)(?: 0x([0-9a-f]{2}))? at (\d+)")
REFUSED = re.compile(r"refused: (S\d+|M) (.*?)(?: (#?)(-?\d+))?")
GIVEN = rf"{QUOTED}(?: {QUOTED})?|-?\d+|le:[0-9a-f]*|f8:[0-9a-f]{{16}}"
OBJECT = re.compile(rf"#(\d+) ([a-z-]+)(?: ({GIVEN}))?(?: \(([^)]*)\))?((?: (?:[+&!]|\[#\d+\]=)#\d+)*)")
CHANGE = re.compile(r"(?:([+&!])|\[#(\d+)\]=)#(\d+)")
CHANGES = {"+": "append", "&": "add", "!": "state", "": "set"}
REFUSED_ITEM = re.compile(r"refused: item (\d+): (.*)")
KEPT = re.compile(r"kept: (\d+) bytes after STOP")
PROTOCOL = re.compile(r"highest protocol among opcodes = (\d+)")
ESCAPE = re.compile(r"\\(?:x([0-9a-f]{2})|(.))")
# From here on a number is printed as text: a reader that takes it for a double would round it.
EXACT = 2**53
NAMES = {"MARK at": "mark", "as": "memo"}
OTHER_FORM = re.compile(r"not in form: item (\d+) at (\d+): (.*)\n")
NOTHING_REACHED = re.compile(r"nothing reached: every loader ends by (\d+)(, whatever follows)?\n")
REACHED = re.compile(rf"reached at (\d+): ([A-Z][A-Z0-9_]*)(?: ({QUOTED}(?: {QUOTED})?|\d+))?\n")
# What `gate` says.
MEMBER, BEHIND = re.compile(rf"({QUOTED}): (.*\n)"), "behind its header: "
SAID = {
    how: re.compile(f"{pattern}\n")
    for how, pattern in {
        "passes": "passes",
        "not_a_list": r"not a list: line (?P<line>\d+) is no entry",
        "not_allowed": r"(?P<offset>\d+): not allowed: (?P<words>.*)",
        "other_form": r"not in form: item (?P<item>\d+) at (?P<offset>\d+): (?P<words>.*)",
        "not_in_form": r"not in form: (?P<offset>\d+): (?P<words>.*)",
        "broken": r"(?:not deflated: (?:(?P<offset>\d+): )?|(?=another checksum))(?P<words>.*)",
        "archive": "an archive itself: .*",
        "container": "a container itself: .*",
        "same_names": "two names that .*",
        "unclear_names": "two names for .*",
        "two_kinds": "a loader may take the archive itself .*",
        "too_large": "it unpacks to .*",
    }.items()
}
# What `members` and `same` say.
IN_ARCHIVE = re.compile(rf"(\d+): (\d+) (?:stored|deflated to (\d+)) ({QUOTED})")
NO_ARCHIVE = re.compile(r"not in form: (\d+): (.*)\n")
OTHER_OBJECT, OF_ONE = re.compile(r"another object #(\d+)\n"), re.compile(r"(first|second): (.*)\n")
COMPARED = {"the same objects\n": "same", "another result\n": "results", "other calls, or in another order\n": "order"}
# What opcodes reach, but for imports.
REACHES = {"EXT1": "extension", "EXT2": "extension", "EXT4": "extension", "PERSID": "persistent", "BINPERSID": "persistent", "NEXT_BUFFER": "buffer"}
# The faults of frames.
OF_FRAMES = ("F6", "F7", "F8")


def whole(text: str) -> Value:
    return text if abs(int(text)) >= EXACT else int(text)


def unquoted(text: str) -> bytes:
    return ESCAPE.sub(lambda match: chr(int(match[1], 16)) if match[1] else match[2], text[1:-1]).encode("latin-1")


def of_bytes(name: str, content: bytes) -> Fields:
    """Bytes are text where they are UTF-8, and hexadecimal under another name where they are not."""
    try:
        return {name: content.decode()}
    except UnicodeDecodeError:
        return {f"{name}_hex": content.hex()}


def of_argument(text: str) -> Fields:
    if text.startswith(("le:", "f8:")):
        return {f"argument_{text[:2]}_hex": text[3:]}
    quoted = [unquoted(found) for found in re.findall(QUOTED, text)]
    if len(quoted) == 2:
        return {**of_bytes("module", quoted[0]), **of_bytes("name", quoted[1])}
    if quoted:
        return of_bytes("argument", quoted[0])
    number = whole(text)
    return {"argument_digits" if isinstance(number, str) else "argument": number}


def of_opcode(line: str) -> Fields:
    """The object of an opcode's line."""
    found, columns = OPCODE.fullmatch(line), COLUMNS.match(line)
    if found is None or columns is None:
        raise ValueError(line)
    offset, _, name, argument, note, number = found.groups()
    marks = {"marks": len(columns[1]) // 4}
    return {"kind": "opcode", "offset": whole(offset), "opcode": name, **(of_argument(argument) if argument else {}), **marks,
            **({NAMES[note]: whole(number)} if note else {})}


def of_end(lines: list[str]) -> Fields:
    """The last object, of the lines behind those of opcodes."""
    fields: Fields = {"kind": "end"}
    kept = [found[1] for line in lines if (found := KEPT.fullmatch(line))]
    protocols = {"protocol": int(found[1]) for line in lines if (found := PROTOCOL.fullmatch(line))}
    for line in lines:
        if fault := FAULT.fullmatch(line):
            byte = {"byte": int(fault[3], 16)} if fault[3] else {}
            place = {"offset": whole(fault[4]), "of_frame": fault[1] in OF_FRAMES}
            return {**fields, "how": "fault", "code": fault[1], "words": fault[2], **byte, **place, **protocols}
        if refused := REFUSED.fullmatch(line):
            code, words, sign, number = refused.groups()
            name = "object" if sign else "memo" if code == "S3" else "number"
            return {**fields, "how": "refused", "code": code, "words": words, **({name: whole(number)} if number else {}), **protocols}
    return {**fields, "how": "stopped", "kept": whole(kept[0]) if kept else 0, **protocols}


def of_listing(text: str) -> Iterator[Fields]:
    """The objects of a listing."""
    closing = []
    for line in text.splitlines():
        left = LEFT.fullmatch(line)
        if left is not None:
            yield {"kind": "left", "objects": whole(left[1]), "marks": whole(left[2])}
        elif COLUMNS.match(line):
            yield of_opcode(line)
        else:
            closing.append(line)
    yield of_end(closing)


def of_object(line: str) -> Nested:
    """The object of an object's line."""
    found = OBJECT.fullmatch(line)
    if found is None:
        raise ValueError(line)
    number, kind, given, parts, changes = found.groups()
    fields: Nested = {"kind": "object", "object": int(number), "is": kind}
    if given is not None:
        fields.update({"number": int(given)} if kind == "buffer" else of_argument(given))
    if parts is not None:
        fields["parts"] = [int(part[1:]) for part in parts.split()]
    if changes:
        fields["changes"] = [{"kind": CHANGES[sign], **({"key": int(key)} if key else {}), "value": int(value)} for sign, key, value in CHANGE.findall(changes)]
    return fields


def of_objects(text: str) -> Iterator[Nested]:
    """The objects of a report."""
    end: Nested = {"kind": "end", "how": "stopped"}
    for line in text.splitlines():
        if line.startswith("#"):
            yield of_object(line)
        elif line.startswith("result #"):
            yield {"kind": "result", "object": int(line[len("result #"):])}
        elif refused := REFUSED_ITEM.fullmatch(line):
            end = {**of_end([f"refused: {refused[2]}"]), "item": int(refused[1])}
        else:
            end = {**of_end([line])}
    yield end


def of_reach(text: str) -> Fields:
    """The object of what is reached. Which loader reaches it no text says."""
    fields: Fields = {"kind": "end"}
    if nothing := NOTHING_REACHED.fullmatch(text):
        return {**fields, "how": "nothing", "offset": whole(nothing[1]), "whatever_follows": nothing[2] is not None}
    if reached := REACHED.fullmatch(text):
        offset, name, argument = reached.groups()
        return {**fields, "how": "reached", "offset": whole(offset), "opcode": name, **(of_argument(argument) if argument else {}),
                "reach": REACHES.get(name, "import")}
    return {**fields, "how": "too_many_ways"}


def of_gate(text: str) -> Fields:
    """The object of what the gate says, with the text in it. How a reason of form is named no text says."""
    fields: Fields = {"kind": "verdict"}
    said = text
    while match := MEMBER.fullmatch(said):
        is_packed = MEMBER.fullmatch(match[2])  # a tar archive in a packed file
        fields.update(of_bytes("archive" if is_packed else "member", unquoted(match[1])))
        said = match[2]
    if said.startswith(BEHIND):
        fields["behind_header"], said = True, said[len(BEHIND) :]
    found = next((how, match) for how, pattern in SAID.items() if (match := pattern.fullmatch(said)))
    values = {name: whole(value) if name != "words" else value for name, value in found[1].groupdict().items() if value is not None}
    return {**fields, "how": found[0], **values, "text": text[:-1]}


def of_form(text: str) -> Fields:
    """The object of the form. What its reason is named no text says."""
    other = OTHER_FORM.fullmatch(text)
    if other is None:
        return {"kind": "end", "how": "in_form"}
    return {"kind": "end", "how": "other_form", "item": whole(other[1]), "offset": whole(other[2]), "words": other[3]}


def of_member(line: str) -> Fields:
    """The object of a member's line."""
    found = IN_ARCHIVE.fullmatch(line)
    if found is None:
        raise ValueError(line)
    offset, size, packed, name = found.groups()
    method: Fields = {"method": "stored"} if packed is None else {"method": "deflated", "packed": whole(packed)}
    return {"kind": "member", **of_bytes("name", unquoted(name)), "offset": whole(offset), "size": whole(size), **method}


def of_members(text: str) -> Iterator[Fields]:
    """The objects of the members of a file."""
    other = NO_ARCHIVE.fullmatch(text)
    if other is not None:
        yield {"kind": "end", "how": "not_in_form", "offset": whole(other[1]), "words": other[2]}
    elif text.startswith("it unpacks to "):
        yield {"kind": "end", "how": "too_large"}
    else:
        yield from map(of_member, text.splitlines())
        yield {"kind": "end", "how": "whole"}


def of_same(text: str) -> Nested:
    """The object of whether two pickles make the same."""
    if text in COMPARED:
        return {"kind": "same", "how": COMPARED[text]}
    if number := OTHER_OBJECT.fullmatch(text):
        return {"kind": "same", "how": "object", "object": whole(number[1])}
    found = OF_ONE.fullmatch(text)
    if found is None:
        raise ValueError(text)
    file = "first" if found[1] == "first" else "other"
    if found[2] == "bytes follow behind the pickle":
        return {"kind": "same", "how": f"{file}_goes_on"}
    return {"kind": "same", "how": f"{file}_ends", "end": [*of_objects(f"{found[2]}\n")][-1]}
