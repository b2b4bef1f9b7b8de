"""What `debug --json` has to print for a line of a script, made of the text that `debug` prints for it. Nothing but tests reads texts so."""

from __future__ import annotations

import re
from collections.abc import Callable, Mapping, Sequence

from json_of_texts import OPCODE_OF_ITEM, Fields, Nested, of_argument, of_end, of_object, whole

PLACED = {"at": "at", "break": "broke", "clear": "cleared", "edited": "edited", "undone": "undone", "redone": "redone"}
RAN = re.compile(r"at (\d+): (end|breakpoint|refused)(?:, (.*))?")
REFUSED = re.compile(r"refused: ([CXVM]\d*) ?(.*)")
ITEM, ENTRY = re.compile(r"item (\d+): (.*)"), re.compile(r"(\d+)=#(\d+)")
PLACE = re.compile(r"(?:edit at|no item at offset) (\d+)(?: behind the cursor)?")
INNER = re.compile(r"([EFM]\d*) (.*?)(?: 0x[0-9a-f]{2})?")
WHERE = re.compile(r"at (\d+) of (\d+), offset (\d+), buffers (\d+), result (none|#.*), end (.*)")


def groups(pattern: re.Pattern[str], text: str) -> tuple[str, ...]:
    """What the groups of a pattern match."""
    if found := pattern.fullmatch(text):
        return found.groups()
    raise ValueError(text)


def ended(text: str) -> Fields:
    """Why a document ends, as the last line of a listing says it."""
    fields = of_end([] if text == "stopped" else [f"fault: {text}"])
    fields.pop("kept", None)
    return fields


def refused(code: str, words: str, line: str) -> Nested:
    """A refusal: the code, the words, and what it is about."""
    fields: Nested = {"kind": "refused", "code": code}
    if code == "C2":
        return {**fields, "words": "at the end", "end": ended(words[len("at the end, ") :])}
    if item := ITEM.fullmatch(words):
        return {**fields, "words": "item refused", "end": {**of_end([f"refused: {item[2]}"]), "item": int(item[1])}}
    if at := PLACE.fullmatch(words):
        return {**fields, "words": "edit behind the cursor", "place": int(at[1])} if code == "C8" else {**fields, "words": "no item at this offset", "offset": whole(at[1])}
    if code in ("C9", "X8") and (inner := INNER.fullmatch(words)):
        return {**fields, "words": inner[2], "edit" if code == "C9" else "fault": inner[1]}
    return {**fields, "words": words, **({"object": whole(str(int(line.split()[1])))} if code == "V1" else {})}


def where(text: str, looks: Mapping[str, str]) -> Nested:
    """Where a session is; how much its machine holds stands in what else it shows there."""
    place, length, offset, buffers, results, end = groups(WHERE, text)
    shown = stack(looks["stack"])
    return {"kind": "where", "place": int(place), "length": int(length), "offset": int(offset), "objects": looks["objects"].count("\n"),
            "stack_size": len(shown["stack"]), "marks": len(shown["marks"]), "memo_size": len(ENTRY.findall(looks["memo"])), "buffers": int(buffers),
            "results": [int(number) for number in re.findall(r"#(\d+)", results)], "end": ended(end)}


def stack(text: str) -> Nested:
    """The objects and the marks of a stack."""
    words = text.split()[1:]
    marks = [at for at, word in enumerate(words) if not word.startswith("#")]
    return {"kind": "stack", "stack": [int(word[1:]) for word in words if word.startswith("#")],
            "marks": [{"kind": "mark", "item": int(words[at][1:]), "below": at - number} for number, at in enumerate(marks)]}


def item(line: str) -> Nested:
    """An item of a document."""
    cursor, breaks, place, offset, name, argument = groups(OPCODE_OF_ITEM, line)
    return {"kind": "opcode", "place": int(place), "offset": int(offset), "opcode": name, **(of_argument(argument) if argument else {}),
            "cursor": cursor == ">", "breakpoint": breaks == "*"}


def own(looks: Mapping[str, str]) -> Sequence[Nested]:
    """The answers to `breaks`, `items 1 3`, `items 3 1` and `objects 1 9`, which are cut out of what `items` and `objects` show."""
    items, objects = ([one(each) for each in looks[name].splitlines()] for name, one in (("items", item), ("objects", of_object)))
    return [{"kind": "breaks", "places": [each["place"] for each in items if each["breakpoint"]]}, {"kind": "items", "items": items[1:3]},
            {"kind": "items", "items": []}, {"kind": "objects", "objects": objects[1:9]}]


PUTS = ("PUT", "BINPUT", "LONG_BINPUT", "MEMOIZE")
NO_STEP: Nested = {"kind": "refused", "code": "V3", "words": "no record of the step"}


def taken_and_put(before: Sequence[str], after: Sequence[str]) -> tuple[Sequence[str], Sequence[str]]:
    """What is no longer on a stack, and what is newly on it: no opcode takes an object and puts the same one there."""
    same = next((at for at, pair in enumerate(zip(before, after)) if pair[0] != pair[1]), min(len(before), len(after)))
    return before[same:], after[same:]


def trace(before: Mapping[str, str], after: Mapping[str, str]) -> Nested:
    """The answer to `trace` after a step, by what `items`, `stack`, `memo`, `objects` and `where` show before it and after it."""
    items = [item(line) for line in before["items"].splitlines()]
    place = next(at for at, each in enumerate(items) if each["cursor"])
    over = {name: value for name, value in items[place].items() if name not in ("cursor", "breakpoint")}
    begins = place > 0 and items[place - 1]["opcode"] == "STOP"
    old, new = ({whole(key): int(value) for key, value in ENTRY.findall(looks["memo"])} for looks in (before, after))
    was, now = ([of_object(line) for line in looks["objects"].splitlines()] for looks in (before, after))
    removed, added = taken_and_put([] if begins else before["stack"].split()[1:], after["stack"].split()[1:])
    counts = [(each["object"], len(each.get("changes", ()))) for each in was]
    changes = [(number, len(now[number].get("changes", ())) - count) for number, count in counts if len(now[number].get("changes", ())) > count]
    key = len({} if begins else old) if over["opcode"] == "MEMOIZE" else over.get("argument", over.get("argument_digits"))
    entry = {"kind": "entry", "memo": key, "object": new[key], **({"before": old[key]} if key in old and not begins else {})} if over["opcode"] in PUTS else None
    return {**over, "kind": "step", **({"begins": True} if begins else {}), **({"made": len(was)} if len(now) > len(was) else {}),
            **{"pushed": int(word[1:]) for word in added if word.startswith("#")}, "took": [int(word[1:]) for word in removed if word.startswith("#")],
            **{"cut_mark": int(word[1:]) for word in removed if not word.startswith("#")}, **({"set_mark": True} if any(not word.startswith("#") for word in added) else {}),
            **{"changed": {"kind": "change", "object": number, "changes": count} for number, count in changes}, **({"memo": entry} if entry else {}),
            **{name: value for name, value in where(after["where"].partition("\n")[0], after).items() if name in ("buffers", "results")}}


def made(number: int, shown: Sequence[str], items: str) -> Nested:
    """The answer to `made N`, by what `objects` shows at each place up to the cursor, and by what `items` shows."""
    heaps = [[of_object(line) for line in text.splitlines()] for text in shown]
    if number >= len(heaps[-1]):
        return {"kind": "refused", "code": "V1", "words": "no such object", "object": number}
    offsets = [item(line)["offset"] for line in items.splitlines()]
    counts = [len(heap[number].get("changes", ())) if number < len(heap) else -1 for heap in heaps]
    maker = counts.count(-1) - 1
    got = [(place, counts[place + 1] - counts[place]) for place in range(maker + 1, len(counts) - 1)]
    return {"kind": "made", "object": number, "item": maker, "offset": offsets[maker],
            "changed": [{"kind": "changer", "item": place, "offset": offsets[place], "changes": count} for place, count in got if count > 0]}


def of_answer(line: str, text: str, looks: Mapping[str, str]) -> Nested:
    """The object of the answer to a line; `looks` has what `stack`, `memo` and `objects` show after it."""
    words: Sequence[str] = line.split() or [""]
    first = text.partition("\n")[0]
    if found := REFUSED.fullmatch(first):
        return refused(found[1], found[2], line)
    shown: Mapping[str, Callable[[], Nested]] = {
        "": lambda: {"kind": "nothing"}, "quit": lambda: {"kind": "quit"}, "where": lambda: where(first, looks), "stack": lambda: stack(first),
        "memo": lambda: {"kind": "memo", "entries": [{"kind": "entry", "memo": whole(key), "object": int(value)} for key, value in ENTRY.findall(first)]},
        "objects": lambda: {"kind": "objects", "objects": [of_object(object_) for object_ in text.splitlines()]},
        "items": lambda: {"kind": "items", "items": [item(each) for each in text.splitlines()]},
        "show": lambda: of_object(first.partition(" ")[2])}  # (what it contains has lines of its own, and is named by number)
    if words[0] in shown:
        return shown[words[0]]()
    if ran := RAN.fullmatch(first):
        place, how, more = ran.groups()
        why = ended(more) if how == "end" else of_end([f"refused: {more}"]) if how == "refused" else {"how": how}
        return {"kind": "ran", "place": int(place), **{name: value for name, value in why.items() if name not in ("kind", "kept")}}
    return {"kind": PLACED[first.split()[0]], "place": int(first.split()[1])}
