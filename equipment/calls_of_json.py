"""The text of `calls`, made of what `calls --json` prints: a test that compares it with what the program prints without `--json` shows that the
lines of JSON lose nothing and say nothing else.

The kinds and fields are those of docs/reference/json.md, and the texts those of docs/reference/calls.md and codes.md.
"""

from __future__ import annotations

import codecs
from collections.abc import Iterable, Iterator
from typing import Any, Dict, List, Tuple

Fields = Dict[str, Any]

HEADINGS = {
    "ignored": "a loader may go on:",
    "buffered": "a loader that buffers frames may go on:",
    "held": "a loader that keeps its buffer may go on:",
}
# What stands between the words of a refusal and its object or number.
OBJECTS = ("S5", "S8", "S9", "S10", "S11")
# A line of so many bytes has no text.
LONG = 4096
LINKS = {"append": "to", "add": "to", "set": "in"}


def quoted(value: bytes) -> str:
    shown = []
    for byte in value:
        if byte in b"\\'":
            shown.append("\\" + chr(byte))
        elif 32 <= byte <= 126:
            shown.append(chr(byte))
        else:
            shown.append(f"\\x{byte:02x}")
    return "'" + "".join(shown) + "'"


def has_text(name: str, fields: Fields) -> bool:
    return any(f"{name}{ending}" in fields for ending in ("", "_hex", "_raw_hex", "_raw_unicode_escape_hex", "_string_escape_hex"))


def text(name: str, fields: Fields) -> str:
    """A text by its value in quotes, whatever its field is called; one that cannot be read by its bytes, after a word."""
    if name in fields:
        return quoted(fields[name].encode())
    if f"{name}_hex" in fields:
        return quoted(bytes.fromhex(fields[f"{name}_hex"]))
    if f"{name}_raw_hex" in fields:
        return "raw " + quoted(bytes.fromhex(fields[f"{name}_raw_hex"]))
    if f"{name}_raw_unicode_escape_hex" in fields:
        value = bytes.fromhex(fields[f"{name}_raw_unicode_escape_hex"]).decode("raw_unicode_escape")
    else:
        value = codecs.escape_decode(bytes.fromhex(fields[f"{name}_string_escape_hex"]))[0].decode("ascii")  # type: ignore[attr-defined]
    return quoted(value.encode("utf-8", "surrogatepass"))


def name_of(name: str, fields: Fields) -> str:
    return f"#{fields[f'{name}_object']}" if f"{name}_object" in fields else text(name, fields)


def pair(fields: Fields, before: str = "") -> str:
    return f"{name_of(before + 'module', fields)} {name_of(before + 'name', fields)}"


def is_pair(fields: Fields) -> bool:
    return "module_object" in fields or has_text("module", fields)


def brief(value: Fields) -> str:
    kind = value["kind"]
    more = f"+{value['more']}" if "more" in value else ""
    if kind == "int":
        number = "le:" + value["le_hex"] if "le_hex" in value else str(value.get("value", value.get("digits")))
        return f"int {number}{more}"
    if kind == "float":
        return "float f8:" + value["f8_hex"]
    if kind == "text":
        return text("value", value) + more
    if kind == "global":
        return "global " + (pair(value) if is_pair(value) else f"#{value['object']}")
    if kind == "extension":
        return f"ext {value['number']}"
    if kind == "object":
        return f"#{value['object']}"
    return kind if kind in ("none", "true", "false") else f"{kind} {text('value', value)}{more}"


def operand(name: str, fields: Fields) -> str:
    """An array is a tuple, or the arguments of a call that has no tuple; what was cut off is behind it."""
    value = fields[name]
    if not isinstance(value, list):
        return brief(value)
    parts = [brief(part) for part in value]
    more = fields.get(name + "_more")
    return "(" + ", ".join(parts if more is None else [*parts, f"+{more}"]) + ")"


def callee(fields: Fields) -> str:
    if "extension" in fields:
        return f"ext {fields['extension']}"
    return pair(fields) if is_pair(fields) else f"#{fields['callee']}"


def event(fields: Fields) -> str:
    kind, target = fields["kind"], f"#{fields['object']}"
    if kind == "state":
        return f"state {operand('state', fields)} to {target}"
    if kind in LINKS:
        return f"{kind} {fields['count']} {LINKS[kind]} {target}"
    if kind == "import" and "extension" in fields:
        said = callee(fields)
    elif kind == "import":
        said = pair(fields) + (f" for {pair(fields, 'for_')}" if "for_module_object" in fields or has_text("for_module", fields) else "")
    elif kind == "inst":
        said = pair(fields) + (f" for {pair(fields, 'for_')}" if has_text("for_module", fields) else "") + " " + operand("args", fields)
    elif kind in ("call", "new"):
        said = f"{callee(fields)} {operand('args', fields)}" + (f" {operand('keywords', fields)}" if "keywords" in fields else "")
    elif kind == "persistent":
        said = operand("id", fields) if "id" in fields else text("line", fields)
    elif kind == "buffer":
        said = str(fields["number"])
    else:
        said = f"#{fields['of']}"
    return f"{kind} {said} as {target}"


def ending(fields: Fields) -> str:
    """How reading ended, as a line without its newline; nothing is said where it stopped with the bytes."""
    how = fields["how"]
    if how == "stopped":
        return f"kept: {fields['kept']} bytes after STOP" if fields["kept"] else ""
    said = f"{fields['code']} {fields['words']}"
    if how == "refused":
        number = next((fields[name] for name in ("memo", "object", "number") if name in fields), None)
        sign = " #" if fields["code"] in OBJECTS else " "
        return f"refused: item {fields['item']}: {said}" + ("" if number is None else f"{sign}{number}")
    if how == "fault":
        return f"fault: {said}" + (f" 0x{fields['byte']:02x}" if "byte" in fields else "") + f" at {fields['offset']}"
    return f"unsure: {said} at {fields['offset']}"


def lines(objects: Iterable[Fields]) -> Iterator[str]:
    in_part = False
    for fields in objects:
        kind = fields["kind"]
        if kind == "begins":
            yield f"begins like {fields['like']}: picklestep scan looks into it"
        elif kind == "counts":
            yield f"{fields['imports']} imports, {fields['calls']} calls"
        elif kind == "ending":
            said = ending(fields)
            if in_part:
                yield "it ends: " + (said if fields["how"] != "stopped" else "STOP")
            elif said:
                yield said
        elif kind == "warning":
            yield f"warning: #{fields['object']} {fields['words']}"
        elif kind == "heading":
            in_part = True
            yield HEADINGS[fields["frames"]]
        elif kind == "unsure":
            yield f"unsure: {fields['code']} {fields['words']} at {fields['offset']}"
        elif kind == "mixes":
            yield "a loader that mixes frames may take:"
        elif kind == "taken":
            yield fields["text"]
        elif kind == "opcodes":
            yield f"{fields['count']} opcodes"
        elif kind == "too_many_ways":
            yield "too many ways to mix frames"
        elif kind == "hole":
            yield f"refused: hole {fields['offset']}:{fields['size']} ends behind the last of {fields['bytes']} bytes"
        else:
            yield f"{fields['offset']:>5}: {event(fields)}"


def of_lines(objects: List[Fields]) -> Tuple[str, int]:
    """The text and the status."""
    last = objects[-1]
    assert last["kind"] == "end" and all(fields["kind"] != "end" for fields in objects[:-1]), objects
    said = list(lines(objects[:-1]))
    # (a line that is too long, or that of a hole, has no text)
    texts = [fields["text"] for fields in objects[:-1] if fields.get("text") != "" and "text" in fields]
    assert texts == [line for line in said if len(line) < LONG and not line.startswith("refused: hole ")], (texts, said)
    return "".join(line + "\n" for line in said), last["status"]
