"""Lines of JSON, which Python's json and Node's JSON.parse read: they say what the text says, field by field."""

from __future__ import annotations

import functools
import itertools
import json
import re
import shutil
from collections.abc import Callable, Iterable, Iterator, Sequence
from pathlib import Path
from typing import Any

import calls_of_json
import conversations
import json_of_answers
import json_of_texts

from .room import Room, beginning, lines_of, run
from .row import CLOSED, FULL, Row, fails, trials_of
from .samples import PAIR_JSON, PAIR_OBJECTS_JSON
from .trial import Lack, Trial

WORDS: dict[str, Callable[[str], Iterator[Any]]] = {"list": json_of_texts.of_listing, "objects": json_of_texts.of_objects}
MODES: Sequence[Sequence[str]] = ((), ("--many",), ("--unframed",), ("--many", "--unframed"))
TOGETHER = 20  # pickles whose lines Node reads in one start
IN_ALL_MODES = 10  # one pickle in so many (fuzz.py looks in all modes at the lines of what it makes)
CALLS_MODES: Sequence[Sequence[str]] = ((), ("--first",), ("--memo", "kept"), ("--full",), ("--memo", "kept", "--full"))
# Reads lines of JSON, and writes each again without white space.
NODE = r"process.stdout.write(require('fs').readFileSync(0, 'utf8').split('\n').slice(0, -1).map((line) => JSON.stringify(JSON.parse(line)) + '\n').join(''))"


def of_node(room: Room, lines: bytes) -> bytes:
    """The lines as Node reads them, written again."""
    if (node := shutil.which("node")) is None:
        raise Lack("there is no node (Node 20 or later: equipment/install_servers)")
    return run([node, "-e", NODE], room.files, lines).output


def of_python(lines: bytes) -> bytes:
    """The same as Python reads them."""
    return b"".join(json.dumps(json.loads(line), ensure_ascii=False, separators=(",", ":")).encode() + b"\n" for line in lines_of(lines))


def fault_of_lines(lines: bytes, wanted: Sequence[Any]) -> str:
    """Each line is an object in ASCII, which says what the text says."""
    if not lines.isascii() or not lines.endswith(b"\n"):
        return f"no lines in ASCII, but: {beginning(lines)}"
    found = [json.loads(line) for line in lines_of(lines)]
    for number, (one, other) in enumerate(zip(found, wanted), 1):
        if list(one.items()) != list(other.items()):
            return f"line {number} is {one} and not {other}"
    return "" if len(found) == len(wanted) else f"{len(found)} lines and not {len(wanted)}"


def asked(pickles: Iterable[Path], modes: Sequence[Sequence[str]]) -> list[tuple[Path, Sequence[str]]]:
    """Each pickle in the first mode, and some in all."""
    return [(pickle, mode) for number, pickle in enumerate(pickles) for mode in modes[: 1 if number % IN_ALL_MODES else None]]


def fault_of(room: Room, pickles: Iterable[Path]) -> str:
    """Of pickles, each in its modes. Node is started once for all of them."""
    printed = b""
    for (pickle, mode), word in itertools.product(asked(pickles, MODES), WORDS):
        text, lines = (room.observe(room.program, word, *mode, *options, pickle) for options in ((), ("--json",)))
        why = lines.fault_of_status(text.status) or fault_of_lines(lines.output, list(WORDS[word](text.output.decode())))
        if why or lines.errors:
            return f"{pickle.stem}: {word} {' '.join(mode)}: {why or beginning(lines.errors)}"
        printed += lines.output
    return "" if of_node(room, printed) == of_python(printed) else "Node reads other values than Python"


def calls_as_lines(room: Room, pickle: Path, mode: Sequence[str]) -> tuple[bytes, str]:
    """The lines of `calls`, and what is wrong: they have to say its text, with its status."""
    text, lines = (run([room.program, "calls", *mode, *options, pickle], room.files) for options in ((), ("--json",)))
    if not lines.output.isascii() or not lines.output.endswith(b"\n") or lines.errors:
        return lines.output, f"{' '.join(mode)}: no lines in ASCII, but: {beginning(lines.output + lines.errors)}"
    said, status = calls_of_json.of_lines([json.loads(line) for line in lines_of(lines.output)])
    why = lines.fault_of_status(text.status) or ("" if status == text.status else f"the last line has the status {status}")
    wanted = text.output.decode()
    return lines.output, why or ("" if said == wanted else f"{' '.join(mode)}: they say {beginning(said.encode())} and not {beginning(wanted.encode())}")


def fault_of_calls(room: Room, rows: Iterable[tuple[Path, Sequence[str]]]) -> str:
    """Of pickles, each with its options. Node is started once for all of them."""
    printed = b""
    for pickle, mode in rows:
        lines, why = calls_as_lines(room, pickle, mode)
        if why:
            return f"{pickle.stem}, {pickle.read_bytes()[:100].hex()}: {why}"
        printed += lines
    return "" if of_node(room, printed) == of_python(printed) else "Node reads other values than Python"


def rows_of_calls(room: Room) -> Iterator[tuple[Path, Sequence[str]]]:
    """Each pickle of calls.txt, with the options of each of its rows; and calls whose lines are as long as those that have a text, or longer."""
    rows = (room.equipment / "calls.txt").read_text()
    for number, found in enumerate(re.finditer(r"^pickle (.*)\n((?:.+\n)*)", rows, re.MULTILINE)):
        pickle = room.files / f"row_{number}.pickle"
        pickle.write_bytes(bytes.fromhex(found[1]))
        for options in re.findall(r"^\$ calls(.*)$", found[2], re.MULTILINE):
            yield pickle, options.split()
    # (the call's line has so many bytes without its newline: the most that have a text, one more, and more than the program holds)
    for size in (calls_of_json.LONG - 1, calls_of_json.LONG, 4351, 4352):
        text = b"a" * (size - len("%5d: call 'm' 'n' ('') as #3" % size))
        pickle = room.files / f"line_{size}.pickle"
        pickle.write_bytes(b"cm\nn\n(X" + len(text).to_bytes(4, "little") + text + b"tR.")
        yield pickle, ["--full"]


def fault_of_pairs(room: Room, pickles: Sequence[Path]) -> str:
    """Of each pickle with itself, with the next one and with a beginning of it: the line of JSON says what the text says."""
    for one, next_one in zip(pickles, pickles[1:]):
        cut = room.files / f"cut_{one.stem}.pickle"
        cut.write_bytes(one.read_bytes()[:-1])
        for first, second, mode in itertools.product((one, cut), (one, next_one, cut), ((), ("--many",))):
            text, lines = (run([room.program, "same", *mode, *options, first, second], room.files) for options in ((), ("--json",)))
            why = lines.fault_of_status(text.status) or fault_of_lines(lines.output, [json_of_texts.of_same(text.output.decode())])
            if why or lines.errors:
                return f"{one.stem}: {why or beginning(lines.errors)}"
    return ""


def fault_of_forms(room: Room, page: Path) -> str:
    """Of each row of `form`: the line of JSON says what the text says, and each reason has a name of its own."""
    folder = room.folder / "forms"
    folder.mkdir(parents=True, exist_ok=True)
    file, names, said = folder / "a.pickle", {}, {}
    for block in conversations.blocks_of(page.read_text()):
        if "form" not in block.written:
            continue
        file.write_bytes(block.pickle)
        text, lines = (run([room.program, "form", *options, file], folder) for options in ((), ("--json",)))
        fields = json.loads(lines.output)
        name, words = fields.pop("reason", ""), fields.get("words", "")
        wanted = json_of_texts.of_form(text.output.decode())
        if list(fields.items()) != list(wanted.items()) or (name == "") != (words == "") or lines.fault_of_status(text.status):
            return f"{block.name}: {beginning(lines.output)}"
        if names.setdefault(words, name) != name or said.setdefault(name, words) != words:
            return f"{block.name}: '{words}' is {name}"
    return "" if len(names) > 30 else f"there are {len(names)} reasons"


# No item has this offset: the refusal of it marks where the answer to a line ends.
MARK, MARKED = "goto @18446744073709551614", "refused: V2 no item at offset 18446744073709551614\n"
LOOKS = ("stack", "memo", "objects", "items", "where")
GROUP = 1 + len(LOOKS)
AROUND = ("back", "step")  # by what is shown after each of them, it is known what the step did
OWN = ("breaks", "items 1 3", "items 3 1", "objects 1 9", "trace")  # what JSON alone answers
MADE = (0, 1, 5)  # the objects whose makers are asked for


def shown_before(room: Room, file: Path, block: conversations.Block, at: dict[str, str]) -> Sequence[str]:
    """What `objects` shows at each place up to the one where a conversation ends."""
    place = int(at["where"].split()[1])
    script = [*block.script, *AROUND, *("back", "objects") * place]
    text = run([room.program, "debug", *block.options, file], file.parent, "".join(f"{line}\n{MARK}\n" for line in script).encode())
    return [*text.output.decode().split(MARKED)[: len(script)][: -2 * place - 1 : -2], at["objects"]]


def fault_of_answers(room: Room, page: Path) -> str:
    """Of each line of each conversation: its line of JSON says what its text says, and so does what is shown after it."""
    folder = room.folder / "answers"
    folder.mkdir(parents=True, exist_ok=True)
    file, printed = folder / "a.pickle", b""
    for block in conversations.blocks_of(page.read_text()):
        if not block.script:
            continue
        file.write_bytes(block.pickle)
        ends = "quit" in block.script
        lines = [each for line in (*block.script, *(() if ends else AROUND)) for each in (line, *LOOKS)]
        text = run([room.program, "debug", *block.options, file], folder, "".join(f"{line}\n{MARK}\n" for line in lines).encode())
        own = () if ends else (*OWN, *(f"made {number}" for number in MADE))
        found = run([room.program, "debug", "--json", *block.options, file], folder, "".join(f"{line}\n" for line in (*lines, *own)).encode())
        texts = text.output.decode().split(MARKED)[: len(lines)]
        looks = [dict(zip(LOOKS, texts[at - at % GROUP + 1 :])) for at in range(len(texts))]
        wanted = [*(json_of_answers.of_answer(*each) for each in zip(lines, texts, looks)), *(json_of_answers.own(looks[-1]) if own else ())]
        wanted += ([json_of_answers.NO_STEP if texts[-GROUP].startswith("refused: ") else json_of_answers.trace(looks[-GROUP - 1], looks[-1])] if own else [])
        wanted += [json_of_answers.made(number, shown, looks[-1]["items"]) for shown in ([shown_before(room, file, block, looks[-1])] if own else []) for number in MADE]
        why = found.fault_of_status(int(any(each["kind"] == "refused" for each in wanted))) or fault_of_lines(found.output, wanted)
        if why or found.errors:
            return f"{block.name}: {why or beginning(found.errors)}"
        printed += found.output
    return "" if of_node(room, printed) == of_python(printed) else "Node reads other values than Python"


def opcode(offset: int, name: str, rest: str = "") -> str:
    return f'{{"kind":"opcode","offset":{offset},"opcode":"{name}",{rest}"marks":0}}\n'


TWICE = "".join(opcode(at, "BININT1", '"argument":1,') + opcode(at + 2, "DUP") + opcode(at + 3, "TUPLE2") + opcode(at + 4, "STOP") for at in (0, 5))
TWICE += '{"kind":"end","how":"stopped","kept":0,"protocol":2}\n'
ROWS = (
    Row("JSON of a pair", ("list", "--json", "pair.pickle"), output=PAIR_JSON),
    Row("JSON of a pair, by the option behind it", ("list", "pair.pickle", "--json"), output=PAIR_JSON),
    Row("JSON of the objects of a pair", ("objects", "--json", "pair.pickle"), output=PAIR_OBJECTS_JSON),
    Row("JSON of two pickles", ("list", "--many", "--json", "twice.pickle"), output=TWICE),
    Row("JSON of an argument that is cut", ("list", "--json", "cut_short.pickle"), status=1, output='{"kind":"end","how":"fault","code":"F3","words":"truncated","offset":0,"of_frame":false}\n'),
    fails("JSON of a file past the size limit", "too large", "list", "--json", "too_large.pickle"),
    fails("JSON, on a full device", "cannot write", "list", "--json", "pair.pickle", through=FULL),
    fails("JSON, with closed standard output", "cannot write", "list", "--json", "pair.pickle", through=CLOSED),
    Row("JSON of a pair and itself", ("same", "pair.pickle", "--json", "pair.pickle"), output='{"kind":"same","how":"same"}\n'),
    fails("JSON of what is the same, on a full device", "cannot write", "same", "--json", "pair.pickle", "pair.pickle", through=FULL),
)


def trials(room: Room) -> list[Trial]:
    pickles = sorted(room.pickles.glob("*.pickle"))
    named = {f"{part[0].stem} to {part[-1].stem}": part for part in (pickles[at : at + TOGETHER] for at in range(0, len(pickles), TOGETHER))}
    return [
        *trials_of(ROWS, room),
        Trial("JSON of conversations", functools.partial(fault_of_answers, room, room.equipment / "conversations.txt")),
        Trial("JSON of forms", functools.partial(fault_of_forms, room, room.equipment / "conversations.txt")),
        *(Trial(f"JSON of {name}", functools.partial(fault_of, room, part)) for name, part in named.items()),
        *(Trial(f"JSON of pairs of {name}", functools.partial(fault_of_pairs, room, part)) for name, part in named.items()),
        *(Trial(f"JSON of the calls of {name}", functools.partial(fault_of_calls, room, asked(part, CALLS_MODES))) for name, part in named.items()),
        Trial("JSON of the rows of calls.txt", lambda: fault_of_calls(room, rows_of_calls(room))),
    ]
